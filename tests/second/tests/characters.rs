//! Every byte in the place of a digit, beside the table of characters (ISO 646).

mod common;

use common::{
    archive_bytes, greatest_bytes, heard_bytes, margins_bytes, quote_bytes, refused, run_bytes,
    verdict_bytes,
};
use second::characters::{byte_in, file, heard_file, listed_file, small_plan_file, Place, FILES};
use second::generate::Kind;
use second::record;
use std::collections::BTreeSet;

/// The sixteen digits: a character's number in the table, and its value.
const SIXTEEN: [(u8, u32); 16] = [
    (48, 0),
    (49, 1),
    (50, 2),
    (51, 3),
    (52, 4),
    (53, 5),
    (54, 6),
    (55, 7),
    (56, 8),
    (57, 9),
    (97, 10),
    (98, 11),
    (99, 12),
    (100, 13),
    (101, 14),
    (102, 15),
];

/// Each file with its byte, where the byte stands, and its value if it is a digit.
fn places() -> impl Iterator<Item = (u64, u8, Place, Option<u32>)> {
    (0..FILES).map(|index| {
        let (byte, place) = byte_in(index);
        let known = SIXTEEN.iter().find(|(character, _)| *character == byte);
        (index, byte, place, known.map(|(_, value)| *value))
    })
}

/// No value is told: the line is foreign, or of a wrong length. A line end cuts it off after a
/// whole number of bytes, but for the low place.
fn untold(byte: u8, place: Place, digit: bool, line: u16) -> String {
    let cut = byte == 10 && place != Place::Low;
    refused(if digit || cut { 2 } else { 1 }, line)
}

#[test]
fn in_a_layout() {
    for (index, byte, place, value) in places() {
        let told = |layout: u32| format!("82000100{layout:04x}\n82010101{layout:04x}\n");
        let expected = match (place, value) {
            (Place::High, Some(value)) => told(4096 * value + 7),
            (Place::Low, Some(value)) => told(256 * value + 7),
            _ => untold(byte, place, value.is_some(), 4),
        };
        let printed = run_bytes(&file(Kind::Run, index));
        assert_eq!(printed, expected, "byte {byte}, {place:?}");
    }
}

/// What is printed of a plan of so many terminals, in which the source is heard by whoever the byte
/// tells, and by nobody else.
fn by_link(terminals: u32, byte: u8, place: Place, value: Option<u32>) -> String {
    let told = |end: u32| match end {
        0 => refused(5, 2),
        end if end >= terminals => refused(5, 2),
        end => {
            let reached = 1 + 2u32.pow(end);
            let cut_off = 2u32.pow(terminals) - 1 - reached;
            format!("8101000000{reached:06x}{cut_off:06x}\n")
        }
    };
    match (place, value) {
        (Place::High, Some(value)) => told(16 * value + 1),
        (Place::Low, Some(value)) => told(value),
        _ => untold(byte, place, value.is_some(), 2),
    }
}

#[test]
fn in_a_link() {
    for (index, byte, place, value) in places() {
        let expected = by_link(20, byte, place, value);
        let text = file(Kind::Verdict, index);
        assert_eq!(verdict_bytes(&text), expected, "byte {byte}, {place:?}");
        assert_eq!(archive_bytes(&text), expected, "byte {byte}, {place:?}");
        assert_eq!(quote_bytes(&text), refused(14, 1), "byte {byte}, {place:?}");
    }
}

#[test]
fn in_a_quoted_link() {
    for (index, byte, place, value) in places() {
        let expected = by_link(12, byte, place, value);
        let text = small_plan_file(index);
        assert_eq!(quote_bytes(&text), expected, "byte {byte}, {place:?}");
    }
}

/// The margins of the same: of the ring's terminals, f = 1, each but the direct one hears one other,
/// which may be bad.
#[test]
fn in_a_link_of_margins() {
    for (index, byte, place, value) in places() {
        let expected = match by_link(12, byte, place, value) {
            refusal if refusal.starts_with("ff") => refusal,
            _ => {
                let direct = match place {
                    Place::High => 1,
                    _ => value.expect("a digit"),
                };
                let line = |number: u32| match number == direct {
                    true => format!("{number} direct\n"),
                    false => format!("{number} -2\n"),
                };
                let lines: String = (1..12).map(line).collect();
                format!("{lines}1 10 0 0\n")
            }
        };
        let text = small_plan_file(index);
        assert_eq!(margins_bytes(&text), expected, "byte {byte}, {place:?}");
    }
}

/// Where the greatest f is asked: the link from the source comes again so many lines later.
#[test]
fn in_a_link_that_comes_again() {
    for (index, byte, place, value) in places() {
        let told = |end: u32| match end {
            1..=19 => refused(6, end as u16 + 2),
            _ => refused(5, 2),
        };
        let expected = match (place, value) {
            (Place::High, Some(value)) => told(16 * value + 1),
            (Place::Low, Some(value)) => told(value),
            _ => untold(byte, place, value.is_some(), 2),
        };
        let text = listed_file(index);
        assert_eq!(greatest_bytes(&text), expected, "byte {byte}, {place:?}");
    }
}

/// Where a sentence was heard: the tens of n, which is 12 then; who is silent beside 0, of 8 terminals; and
/// nothing after the full stop.
#[test]
fn in_what_was_heard() {
    for (index, byte, place, value) in places() {
        let expected = match (place, value) {
            (Place::High, Some(1)) => "81010000010007fc000802\n".into(),
            (Place::High, _) => refused(4, 1),
            (Place::Low, Some(silent @ 1..=6)) => {
                let bit = 2u32.pow(silent);
                format!("8101{:06x}{:06x}000080\n", 1 + bit, 126 - bit)
            }
            _ => refused(2, 2),
        };
        let printed = heard_bytes(&heard_file(index));
        assert_eq!(printed, expected, "byte {byte}, {place:?}");
    }
}

/// Every one of these files is among the recorded calls, with room for its answer.
#[test]
fn recorded() {
    let calls = record::calls(record::SEED);
    let recorded: BTreeSet<(u8, &[u8])> = calls
        .iter()
        .filter(|call| call.line[0] != 12)
        .map(|call| (call.kind, &call.body[..]))
        .collect();
    for (kind, letter) in [(Kind::Verdict, b'v'), (Kind::Run, b'r')] {
        for index in 0..FILES {
            let body = file(kind, index);
            assert!(recorded.contains(&(letter, &body[..])), "file {index}");
        }
    }
}
