//! Recorded calls of one kind, those of files read back, what is to be among them, and the planted faults
//! that they show.

use super::bytes::Bytes;
use second::faults::{Fault, Found, Sound};
use second::record::{self, Call};
use std::borrow::Borrow;
use std::collections::{BTreeMap, BTreeSet};
use std::fmt::Debug;
use std::sync::OnceLock;

/// The recorded calls of this kind.
pub fn calls_of(kind: u8) -> Vec<Call> {
    let calls = all_calls().iter().filter(|call| call.kind == kind);
    calls.cloned().collect()
}

/// All recorded calls, made once for the tests of a file.
fn all_calls() -> &'static [Call] {
    static ALL: OnceLock<Vec<Call>> = OnceLock::new();
    ALL.get_or_init(|| record::calls(record::SEED))
}

/// Number, length and list: the text in front and marks after it, or marks alone. How many lent lists have as many places as the
/// text, and how many one less, of answers and of refusals.
pub fn read_back(kind: u8, text_of: fn(&[u8]) -> String) -> ([u32; 2], [u32; 2]) {
    let (mut fits, mut short) = ([0; 2], [0; 2]);
    for call in calls_of(kind) {
        let text = text_of(&call.body).into_bytes();
        let refusal = text.starts_with(b"ff");
        let number = match refusal {
            true => u8::from_str_radix(std::str::from_utf8(&text[2..4]).expect("digits"), 16),
            false => Ok(12 * u8::from(call.lent < text.len())),
        };
        let room = call.lent >= text.len();
        let written = if room { text.len() } else { 0 };
        let mut line = Bytes(&call.line);
        assert_eq!(line.byte(), number.expect("a number"));
        assert_eq!(usize::from(line.pair()), written);
        assert_eq!(line.0.len(), call.lent);
        assert!(line.0.starts_with(&text[..written]));
        assert!(line.0[written..].iter().all(|&byte| byte == 0x5a));
        fits[usize::from(refusal)] += u32::from(call.lent == text.len());
        short[usize::from(refusal)] += u32::from(call.lent + 1 == text.len());
    }
    (fits, short)
}

// ---- what is to be among them

/// How many have each mark.
pub fn tally<Mark: Ord>(marks: impl Iterator<Item = BTreeSet<Mark>>) -> BTreeMap<Mark, u32> {
    let mut tally = BTreeMap::new();
    for mark in marks.flatten() {
        *tally.entry(mark).or_insert(0) += 1;
    }
    tally
}

/// As many as are needed of each.
pub fn check<Mark>(what: &str, seen: &BTreeMap<Mark, u32>, needed: &[(&str, u32)])
where
    Mark: Ord + Borrow<str> + Debug,
{
    for (name, least) in needed {
        let count = seen.get(*name).copied().unwrap_or(0);
        assert!(count >= *least, "{what}, {name}: {count} of {seen:?}");
    }
}

/// Every number of terminals that a byte may name, up to 22, in a file and in a record; these are their kinds.
pub fn check_sizes(file: u8, record: u8) {
    let calls = all_calls();
    for n in (0..=22).chain([255]) {
        let head = format!("01{n:02x}");
        let files = calls
            .iter()
            .filter(|call| call.kind == file && call.body.starts_with(head.as_bytes()));
        let records = calls
            .iter()
            .filter(|call| call.kind == record && call.body[0] == n);
        assert!(files.count() >= 4 && records.count() >= 4, "{n}");
    }
}

/// The numbers that calls of this kind are answered with.
pub fn numbers(kind: u8) -> BTreeSet<u8> {
    let calls = calls_of(kind);
    calls.iter().map(|call| call.line[0]).collect()
}

// ---- planted faults

/// The faults planted in an answer to files and to records, and whether each shows in files, and in records.
pub struct Faults<'a> {
    pub planted: &'a [(Fault, &'static str)],
    pub shown_in: fn(Fault) -> (bool, bool),
}

impl Faults<'_> {
    /// Recorded calls of the file's kind and of the record's, of those that are soon answered.
    pub fn check_recorded<Answer: PartialEq>(
        &self,
        (file, record): (u8, u8),
        is_soon_answered: fn(&Call) -> bool,
        answer: fn(&Call, Fault) -> Answer,
    ) {
        let answered = |kind: u8| -> Vec<(Call, Answer)> {
            let calls = calls_of(kind).into_iter().filter(is_soon_answered);
            let sound = calls.map(|call| {
                let sound = answer(&call, Fault::None);
                (call, sound)
            });
            sound.collect()
        };
        let (files, records) = (answered(file), answered(record));
        for &(fault, name) in self.planted {
            let shown = |calls: &[(Call, Answer)]| {
                let mut calls = calls.iter();
                calls.any(|(call, sound)| answer(call, fault) != *sound)
            };
            let found = (shown(&files), shown(&records));
            assert_eq!(found, (self.shown_in)(fault), "{name}");
        }
    }

    /// The same of fresh cases; nothing but files and records of this answer is touched.
    pub fn check_fresh(&self, counts: fn(&Found) -> (u64, u64)) {
        let sound = Sound::new(2, 1600);
        for &(fault, name) in self.planted {
            let found = sound.found(fault);
            let (files, records) = counts(&found);
            let shown = (files > 0, records > 0);
            assert_eq!(shown, (self.shown_in)(fault), "{name}: {found:?}");
            assert_eq!(found.all(), files + records, "{name}");
        }
    }
}
