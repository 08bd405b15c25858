//! What the office heard by phone: how many terminals there are, and a sentence. The proved `heard`
//! turns them back into the sets.

use crate::ask::Programs;
use crate::call::{plainly, without_options};
use crate::document::bytes_of;
use crate::frames::{Answer, Refusal};
use crate::reason::LONGEST_FILE;
use crate::{misheard, Told, Trouble};

/// What `heard` wants, in an example.
const EXAMPLE: &str = r#"heard 7 "If 1 and 3 stay silent, 5 and 6 never get the notice.""#;

pub struct Heard {
    /// In digits, as it was given.
    terminals: String,
    sentence: Vec<u8>,
}

impl Heard {
    /// The sentence is one word of the call, or else the standard input. A line end after it may be
    /// there or not.
    pub fn read(rest: &[String]) -> Result<Heard, Trouble> {
        let (_, words) = without_options("heard", rest)?;
        let Some((terminals, said)) = words.split_first() else {
            let why = format!(
                "'heard' wants how many terminals there are and the sentence, as in: {EXAMPLE}"
            );
            return Err(Trouble::Broken(why));
        };
        if terminals.is_empty() || !terminals.bytes().all(|byte| byte.is_ascii_digit()) {
            let why = format!("'{terminals}' is no number of terminals, as in: {EXAMPLE}");
            return Err(Trouble::Broken(why));
        }
        let mut sentence = match said {
            [] => bytes_of("-")?,
            [one] if one == "-" => bytes_of("-")?,
            [one] => one.clone().into_bytes(),
            many => {
                let count = many.len();
                let why = format!("'heard' takes one sentence, in quotes, and {count} words were given, as in: {EXAMPLE}");
                return Err(Trouble::Broken(why));
            }
        };
        if sentence.last() == Some(&b'\n') {
            sentence.pop();
        }
        Ok(Heard {
            terminals: terminals.clone(),
            sentence,
        })
    }

    /// The program's line as it stands.
    pub fn answer(&self, programs: &Programs) -> Result<Told, Trouble> {
        let number = self.terminals.as_bytes();
        let input = [number, &self.sentence, b""].join(&b'\n');
        match programs.ask("heard", &input)? {
            (printed, Answer::Verdict(_)) => Ok(plainly(printed)),
            (_, Answer::Refused(refusal)) => Err(Trouble::Refused(self.refused(&refusal))),
            _ => Err(Trouble::Broken("'heard' gave no sets".into())),
        }
    }

    fn refused(&self, refusal: &Refusal) -> String {
        let terminals = &self.terminals;
        let why = match refusal.cause {
            4 if misheard::starts_with_zero(terminals) => {
                format!("terminals {terminals}: {}", misheard::NO_ZERO)
            }
            4 => format!("terminals {terminals}: 2 to 20 terminals are allowed"),
            1 => format!(
                "the sentence: it is too long, {LONGEST_FILE} bytes are allowed with the number"
            ),
            _ => {
                let sentence = String::from_utf8_lossy(&self.sentence);
                format!("the sentence: {}", misheard::why(&sentence, terminals))
            }
        };
        format!("refused, {why} (cause {})", refusal.cause)
    }
}
