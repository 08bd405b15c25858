//! Files as words: each word is a line.

#![allow(dead_code)]

pub mod bytes;
pub mod calls;
pub mod refusals;

use second::groups::Bound;
use second::notice::{notice, Notice, OLD_EDITION};
use second::plan::Set;
use second::step::{Place, State};

pub fn set(members: &[u32]) -> Set {
    members.iter().copied().collect()
}

/// Terminal 3 of 5 with f = 1; it hears 0, the source, and 1, 2 and 4.
pub fn place() -> Place {
    Place {
        n: 5,
        source: 0,
        bound: Bound::f(1),
        number: 3,
        heard: set(&[0, 1, 2, 4]),
    }
}

pub const WAITS: State = State::Waiting;

/// A layout in the edition that old runs count as.
pub const fn first(layout: u16) -> Notice {
    notice(OLD_EDITION, layout)
}

/// The same of a list, in which 0 stays silence.
pub fn firsts(layouts: &[u16]) -> Vec<u32> {
    let number = |&layout: &u16| match layout {
        0 => 0,
        _ => first(layout).number(),
    };
    layouts.iter().map(number).collect()
}

pub fn file(words: &str) -> Vec<u8> {
    words
        .split_whitespace()
        .flat_map(|word| format!("{word}\n").into_bytes())
        .collect()
}

pub fn verdict(words: &str) -> String {
    verdict_bytes(&file(words))
}

pub fn quote(words: &str) -> String {
    quote_bytes(&file(words))
}

pub fn margins(words: &str) -> String {
    margins_bytes(&file(words))
}

pub fn greatest(words: &str) -> String {
    greatest_bytes(&file(words))
}

pub fn sentence(words: &str) -> String {
    sentence_bytes(&file(words))
}

pub fn run(words: &str) -> String {
    run_bytes(&file(words))
}

pub fn archive(words: &str) -> String {
    archive_bytes(&file(words))
}

pub fn archive_bytes(text: &[u8]) -> String {
    String::from_utf8_lossy(&second::archive_text(text)).into_owned()
}

pub fn quote_bytes(text: &[u8]) -> String {
    String::from_utf8_lossy(&second::quote_text(text)).into_owned()
}

pub fn margins_bytes(text: &[u8]) -> String {
    String::from_utf8_lossy(&second::margins_text(text)).into_owned()
}

pub fn greatest_bytes(text: &[u8]) -> String {
    String::from_utf8_lossy(&second::greatest_text(text)).into_owned()
}

pub fn sentence_bytes(text: &[u8]) -> String {
    String::from_utf8_lossy(&second::sentence_text(text)).into_owned()
}

pub fn heard_bytes(text: &[u8]) -> String {
    String::from_utf8_lossy(&second::heard_text(text)).into_owned()
}

pub fn verdict_bytes(text: &[u8]) -> String {
    String::from_utf8_lossy(&second::verdict_text(text)).into_owned()
}

pub fn run_bytes(text: &[u8]) -> String {
    String::from_utf8_lossy(&second::run_text(text)).into_owned()
}

/// The line of a refusal.
pub fn refused(number: u8, line: u16) -> String {
    format!("ff{number:02x}{line:04x}\n")
}
