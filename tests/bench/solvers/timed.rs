//! A process that is given a text and answers with one, and how long it took.

use crate::plan::Witness;
use std::io::{Read, Write};
use std::process::{Command, Stdio};
use std::sync::mpsc::channel;
use std::thread;
use std::time::{Duration, Instant};

/// A solver that takes longer is stopped, and its time is this.
pub const LIMIT: Duration = Duration::from_secs(60);

pub struct Answered {
    pub time: Duration,
    /// Nothing where there was no answer in time.
    pub witness: Option<Witness>,
}

pub fn installed(name: &str) -> bool {
    let started = Command::new(name)
        .arg("--version")
        .stdin(Stdio::null())
        .stdout(Stdio::null())
        .stderr(Stdio::null())
        .status();
    started.is_ok()
}

/// One call of a program, from its start to its end.
pub fn ask(
    program: &str,
    words: &[&str],
    input: &[u8],
    read: impl Fn(&str) -> Option<Witness>,
) -> Answered {
    let (time, output) = run(program, words, input, LIMIT);
    let witness = output.and_then(|text| read(&text));
    Answered { time, witness }
}

/// What a program prints on a text, and the time; nothing where it is stopped.
pub fn run(
    program: &str,
    words: &[&str],
    input: &[u8],
    limit: Duration,
) -> (Duration, Option<String>) {
    let begin = Instant::now();
    let mut child = Command::new(program)
        .args(words)
        .stdin(Stdio::piped())
        .stdout(Stdio::piped())
        .stderr(Stdio::null())
        .spawn()
        .expect("the program starts");
    let mut stdin = child.stdin.take().expect("piped");
    let mut stdout = child.stdout.take().expect("piped");
    let input = input.to_vec();
    thread::spawn(move || drop(stdin.write_all(&input)));
    let (sender, receiver) = channel();
    thread::spawn(move || {
        let mut text = String::new();
        let _ = stdout.read_to_string(&mut text);
        let _ = sender.send(text);
    });
    let text = receiver.recv_timeout(limit).ok();
    if text.is_none() {
        let _ = child.kill();
    }
    let _ = child.wait();
    (begin.elapsed(), text)
}
