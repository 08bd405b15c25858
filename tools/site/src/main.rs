//! Plans and answers for people: `site ROOT WORD ARGUMENTS`, where ROOT is the checkout whose
//! target/bin has the proved programs. Every verdict, state and refusal is theirs; this program
//! only translates.

mod ask;
mod call;
mod channel;
mod costs;
mod deaf;
mod digits;
mod document;
mod draw;
mod frames;
mod groups;
mod heard;
mod kinds;
mod later;
mod margins;
mod mend;
mod misheard;
mod notice;
mod numbers;
mod places;
mod reason;
mod search;
mod sentence;
mod shapes;
mod sheet;
mod shown;
mod silence;
mod tags;
mod text;
mod trace;
mod words;

use ask::Programs;
use call::Call;
use heard::Heard;
use std::ffi::OsString;
use std::io::{self, Write};
use std::process::ExitCode;

/// Why there is no answer.
pub enum Trouble {
    /// A refusal, told in words.
    Refused(String),
    /// A wrong call; or a program could not be asked, or said what nobody understands.
    Broken(String),
}

impl Trouble {
    pub fn status(&self) -> u8 {
        match self {
            Trouble::Refused(_) => 1,
            Trouble::Broken(_) => 2,
        }
    }

    pub fn words(&self) -> &str {
        match self {
            Trouble::Refused(why) | Trouble::Broken(why) => why,
        }
    }
}

/// What goes to standard output, and the exit status.
pub struct Told {
    pub text: String,
    pub status: u8,
}

fn main() -> ExitCode {
    let arguments = std::env::args_os().skip(1).map(OsString::into_string);
    let arguments: Vec<String> = match arguments.collect() {
        Ok(arguments) => arguments,
        Err(other) => return told(&format!("{other:?} is not UTF-8, as names must be"), 2),
    };
    let [root, word, rest @ ..] = arguments.as_slice() else {
        return told("usage: site ROOT WORD ARGUMENTS", 2);
    };
    let programs = Programs::new(root);
    let answer = match word.as_str() {
        "heard" => Heard::read(rest).and_then(|heard| heard.answer(&programs)),
        _ => Call::read(word, rest).and_then(|call| call.answer(&programs)),
    };
    match answer {
        Ok(Told { text, status }) => match print(&text) {
            Ok(()) => ExitCode::from(status),
            Err(error) => told(&format!("the answer could not be written: {error}"), 2),
        },
        Err(trouble) => told(trouble.words(), trouble.status()),
    }
}

fn print(text: &str) -> io::Result<()> {
    let mut out = io::stdout().lock();
    out.write_all(text.as_bytes())?;
    out.flush()
}

/// One line on standard error; where that fails too, the status is all that is left.
pub fn tell(words: &str) {
    drop(writeln!(io::stderr(), "hulmayek: {words}"));
}

fn told(why: &str, status: u8) -> ExitCode {
    tell(why);
    ExitCode::from(status)
}
