//! Every byte in the place of a digit: the same files over and over, with another byte in one place.

use crate::draft::{head_line, join, link_line};
use crate::generate::Kind;
use crate::plan::{Plan, MOST_TERMINALS};
use crate::quote::MOST_QUOTED;

/// Where the byte stands.
#[derive(Clone, Copy, Debug, PartialEq, Eq)]
pub enum Place {
    /// As the high digit of a byte.
    High,
    /// As the low one.
    Low,
    /// On a line that is longer than any frame, past the length of the longest.
    Past,
}

const PLACES: [Place; 3] = [Place::High, Place::Low, Place::Past];

/// Each of the 256 bytes in each place.
pub const FILES: u64 = 256 * PLACES.len() as u64;

/// The byte of file `index`, and where it stands.
pub fn byte_in(index: u64) -> (u8, Place) {
    ((index % 256) as u8, PLACES[(index / 256) as usize])
}

/// What a digit says shows in the answer: in a run it is one of the layout, in a plan one of a
/// link's end; past the longest frame it only tells a wrong length from a foreign character.
pub fn file(kind: Kind, index: u64) -> Vec<u8> {
    match kind {
        Kind::Verdict => plan_file(MOST_TERMINALS, index),
        Kind::Run => run_file(index),
    }
}

/// The same for the quoting page, and for the margins, which look at every set.
pub fn small_plan_file(index: u64) -> Vec<u8> {
    plan_file(MOST_QUOTED, index)
}

/// The same where the greatest f is asked, which one link from the source may not change: all hear the
/// source, and the link that the byte tells is given again, which shows its end by the line of cause 6.
pub fn listed_file(index: u64) -> Vec<u8> {
    let (byte, place) = byte_in(index);
    let (before, after) = around(place);
    let all: Vec<Vec<u8>> = (1..MOST_TERMINALS).map(|to| link_line(0, to)).collect();
    let head = join(&[head_line(&Plan::new(MOST_TERMINALS, 0, 1))]);
    let rest = if byte.is_ascii_hexdigit() {
        join(&all)
    } else {
        Vec::new()
    };
    [&head, &b"02"[..], before, &[byte], after, &rest].concat()
}

/// The same where a sentence was heard: as a digit of n, as one of its numbers, and after its full stop.
pub fn heard_file(index: u64) -> Vec<u8> {
    let (byte, place) = byte_in(index);
    let (before, after): (&[u8], &[u8]) = match place {
        Place::High => (
            b"",
            b"2\nIf 0 stays silent, 1 and 11 never get the notice.\n",
        ),
        Place::Low => (b"8\nIf 0 and ", b" stay silent, 7 never gets the notice.\n"),
        Place::Past => (b"8\nEven if all work, 7 never gets the notice.", b"\n"),
    };
    [before, &[byte], after].concat()
}

/// Past the longest frame.
const PAST: (&[u8], &[u8]) = (b"00070100000000", b"0\n");

fn run_file(index: u64) -> Vec<u8> {
    let (byte, place) = byte_in(index);
    let (before, after): (&[u8], &[u8]) = match place {
        Place::High => (b"", b"00701\n"),
        Place::Low => (b"0", b"0701\n"),
        Place::Past => PAST,
    };
    let start = b"01020000\n020001\n03000000\n04";
    [start, before, &[byte], after].concat()
}

/// What stands around the byte in a link from the source.
fn around(place: Place) -> (&'static [u8], &'static [u8]) {
    match place {
        Place::High => (b"00", b"1\n"),
        Place::Low => (b"000", b"\n"),
        Place::Past => PAST,
    }
}

fn plan_file(terminals: u32, index: u64) -> Vec<u8> {
    let (byte, place) = byte_in(index);
    let (before, after) = around(place);
    let head = join(&[head_line(&Plan::new(terminals, 0, 1))]);
    let rest = if byte.is_ascii_hexdigit() {
        others_hear(terminals)
    } else {
        Vec::new()
    };
    [&head, &b"02"[..], before, &[byte], after, &rest].concat()
}

/// Each terminal but the source hears one other, which is not enough: so nobody is deaf and only
/// whoever hears the source too gets the notice. It is given where the byte may be read.
fn others_hear(terminals: u32) -> Vec<u8> {
    let others = terminals - 1;
    let links: Vec<Vec<u8>> = (1..terminals)
        .map(|hearer| link_line(hearer % others + 1, hearer))
        .collect();
    join(&links)
}
