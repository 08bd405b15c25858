//! Sentences as they are heard on the phone, right and damaged in every way, and the files that have them.

use crate::damage::change_byte;
use crate::faults::Fault;
use crate::heard::read_sentence;
use crate::plan::Cause;
use crate::reader::LONGEST_FILE;
use crate::rng::Rng;
use crate::sentence::{joined, words, Sets};
use crate::sentence_files::{every, longest, some_fail, WRONG_N};

/// A call of the reader.
#[derive(Clone, Debug)]
pub struct HeardCase {
    pub n: u32,
    pub text: Vec<u8>,
}

pub fn hearing_answer(case: &HeardCase, fault: Fault) -> Result<Sets, (Cause, Sets)> {
    read_sentence(case.n, &case.text, fault)
}

fn spoken(sets: &Sets) -> Vec<u8> {
    words(sets, Fault::None).into_bytes()
}

/// The words of every way to part up to four terminals, of a fail or not.
pub fn every_sentence(index: u64) -> HeardCase {
    let (n, sets) = every(index);
    let text = spoken(&sets);
    HeardCase { n, text }
}

// ---- by hand

/// Sentences beside which the damage is easily seen, and their n.
const WHOLE: [(u32, &str); 3] = [
    (7, "If 1 and 3 stay silent, 5 and 6 never get the notice."),
    (3, "Even if all work, 2 never gets the notice."),
    (12, "If 0 stays silent, 1, 9 and 11 never get the notice."),
];

/// Of n 7, what to put in the place of what in the first sentence.
const REPLACED: [(&str, &str); 81] = [
    ("If", "if"),
    ("If", "IF"),
    ("If", "When"),
    ("If", "Of"),
    ("If ", ""),
    ("If ", "If  "),
    ("If ", " If "),
    ("If ", "\nIf "),
    ("If ", "If\t"),
    ("If 1 and 3 stay", "If stay"),
    ("If 1 and 3 stay", "If  stay"),
    ("If 1 and 3 stay", "If all stay"),
    ("If 1 and 3 stay silent, ", ""),
    ("If 1 and 3 stay silent", "Even if all work"),
    ("If 1 and 3 stay silent", "even if all work"),
    ("If 1 and 3 stay silent", "Even if all works"),
    ("If 1 and 3 stay silent", "Even if all walk"),
    ("If 1 and 3 stay silent,", "Even if all work"),
    ("1 and 3", "1 and"),
    ("1 and 3", "and 3"),
    ("1 and 3", "1, 3"),
    ("1 and 3", "1,3"),
    ("1 and 3", "1, and 3"),
    ("1 and 3", "1 And 3"),
    ("1 and 3", "1 & 3"),
    ("1 and 3", "1 3"),
    ("1 and 3", "1  and 3"),
    ("1 and 3", "1 and  3"),
    ("1 and 3", "3 and 1"),
    ("1 and 3", "1 and 1"),
    ("1 and 3", "3 and 3"),
    ("1 and 3", "01 and 3"),
    ("1 and 3", "1 and 03"),
    ("1 and 3", "1 and +3"),
    ("1 and 3", "1 and -3"),
    ("1 and 3", "1 and three"),
    ("1 and 3", "1 and 7"),
    ("1 and 3", "1 and 259"),
    ("1 and 3", "1 and 4294967299"),
    ("1 and 3", "1 and 18446744073709551619"),
    ("1 and 3", "1 and 5"),
    ("1 and 3", "0, 1 and 3"),
    ("1 and 3", "1, 0 and 3"),
    ("1 and 3", "0, 3 and 1"),
    ("1 and 3", "0 and 1 and 3"),
    ("1 and 3", "0, 1, 3"),
    ("1 and 3", "0,1 and 3"),
    ("1 and 3", "0, 1, and 3"),
    ("1 and 3", "0,  1 and 3"),
    ("1 and 3", "0, 1, 2 and 3"),
    ("1 and 3", "0, 1, 2, 3 and 4"),
    ("1 and 3 stay", "3 stay"),
    ("1 and 3 stay", "3 stays"),
    ("stay", "stays"),
    ("stay", "Stay"),
    ("silent, ", "silent "),
    ("silent, ", "silent,"),
    ("silent, ", "quiet, "),
    ("silent, ", "asleep, "),
    ("silent, ", "silent; "),
    ("5 and 6", ""),
    ("5 and 6 never", "never"),
    ("5 and 6", "6 and 5"),
    ("5 and 6", "5 and 7"),
    ("5 and 6", "5 and 19"),
    ("5 and 6", "5 and 20"),
    ("5 and 6", "5 and 31"),
    ("5 and 6", "5 and 32"),
    ("5 and 6", "3 and 5"),
    ("5 and 6 never get", "5 never get"),
    ("5 and 6 never get", "5 never gets"),
    ("never get", "never gets"),
    ("never get", "get"),
    ("the notice.", "the notice"),
    ("the notice.", "the notice.."),
    ("the notice.", "the notice!"),
    ("the notice.", "the notice. "),
    ("the notice.", "the notice.\n"),
    ("the notice.", "the notice.\r"),
    ("the notice.", "the notice.\0"),
    ("the notice.", "the Notice."),
];

/// Other texts, and their n.
const OTHERS: [(u32, &str); 14] = [
    (7, ""),
    (7, "."),
    (7, "If "),
    (7, "Even if all work, "),
    (7, "pass"),
    (7, "IF 1 AND 3 STAY SILENT, 5 AND 6 NEVER GET THE NOTICE."),
    (7, "\u{feff}Even if all work, 2 never gets the notice."),
    (
        7,
        "Even if all work, 2 never gets the notice.Even if all work, 2 never gets the notice.",
    ),
    (2, "If 0 stays silent, 1 never gets the notice."),
    (3, "If 0 stays silent, 1 and 2 never get the notice."),
    (4, "Even if all work, 0, 1, 2 and 3 never get the notice."),
    (2, "Even if all work, 0 never gets the notice."),
    (
        20,
        "If 2, 10 and 19 stay silent, 3 and 11 never get the notice.",
    ),
    (
        20,
        "If 10, 19 and 2 stay silent, 11 and 3 never get the notice.",
    ),
];

/// The first sentence under every n that a byte may name, up to 22.
const OTHER_N: u64 = 23;

pub const BY_HAND: u64 = REPLACED.len() as u64 + OTHERS.len() as u64 + OTHER_N;

pub fn by_hand(index: u64) -> HeardCase {
    let (n, whole) = WHOLE[0];
    let mut index = index as usize;
    if let Some((what, by)) = REPLACED.get(index) {
        let text = whole.replacen(what, by, 1).into_bytes();
        return HeardCase { n, text };
    }
    index -= REPLACED.len();
    if let Some(&(n, text)) = OTHERS.get(index) {
        let text = text.into();
        return HeardCase { n, text };
    }
    let n = (index - OTHERS.len()) as u32;
    let text = whole.into();
    HeardCase { n, text }
}

// ---- byte by byte

/// What is done at one place of a sentence.
#[derive(Clone, Copy)]
enum Spoil {
    Cut,
    Change,
    Leave,
    Double,
}

/// Which sentences are spoilt in which way.
const SPOILS: [(usize, Spoil); 7] = [
    (0, Spoil::Cut),
    (1, Spoil::Cut),
    (0, Spoil::Change),
    (1, Spoil::Change),
    (2, Spoil::Change),
    (0, Spoil::Leave),
    (2, Spoil::Double),
];

/// Every place of these.
fn places() -> impl Iterator<Item = (usize, Spoil, usize)> {
    let all = SPOILS.into_iter();
    all.flat_map(|(which, spoil)| (0..WHOLE[which].1.len()).map(move |at| (which, spoil, at)))
}

/// How many there are.
pub const SPOILT: u64 = {
    let (mut all, mut at) = (0, 0);
    while at < SPOILS.len() {
        all += WHOLE[SPOILS[at].0].1.len() as u64;
        at += 1;
    }
    all
};

/// One byte changed, left out or doubled, or all from there on cut off, at every place in turn.
pub fn spoilt(index: u64) -> HeardCase {
    let (which, spoil, at) = places().nth(index as usize).expect("a place");
    let (n, whole) = WHOLE[which];
    let mut text = whole.as_bytes().to_vec();
    match spoil {
        Spoil::Cut => text.truncate(at),
        Spoil::Change => text[at] = changed(text[at], at),
        Spoil::Leave => drop(text.remove(at)),
        Spoil::Double => text.insert(at, text[at]),
    }
    HeardCase { n, text }
}

/// By turns of place: the other letter case, another half of the table, the next byte, a blank, zero.
fn changed(byte: u8, place: usize) -> u8 {
    match place % 5 {
        0 => byte ^ 0x20,
        1 => byte ^ 0x80,
        2 => byte + 1,
        3 if byte != b' ' => b' ',
        3 => 9,
        _ => 0,
    }
}

// ---- seeded

/// Right sentences by turns of every n, under their n or another, damaged ones, and a wrong n.
pub fn hearing_case(seed: u64, index: u64) -> HeardCase {
    let rng = &mut Rng::for_case(seed, 22, index);
    let turn = index / 6;
    let n = 2 + (turn % 19) as u32;
    let sets = match index % 12 {
        11 => longest(),
        _ => some_fail(rng, n),
    };
    let mut text = spoken(&sets);
    let n = match index % 6 {
        0 | 1 => n,
        2 => rng.pick(&[n.max(3) - 1, n + 1, 20, 20]),
        3 => {
            text = misnamed(rng, n, &sets);
            n
        }
        4 => {
            change_byte(rng, &mut text);
            n
        }
        _ if turn % 2 == 1 => 20,
        _ => {
            if rng.chance(30) {
                text.pop();
            }
            WRONG_N[(turn / 2 % WRONG_N.len() as u64) as usize]
        }
    };
    HeardCase { n, text }
}

/// The words of sets with something wrong in a list of numbers.
fn misnamed(rng: &mut Rng, n: u32, sets: &Sets) -> Vec<u8> {
    let names = |of: usize| sets[of].iter().map(u32::to_string).collect::<Vec<String>>();
    let mut lists = [names(0), names(2)];
    let reached = names(1);
    let which = if lists[0].is_empty() { 1 } else { rng.below(2) };
    let other = lists[1 - which].first().cloned();
    let list = &mut lists[which];
    let at = rng.below(list.len());
    match rng.below(8) {
        0 => list.reverse(),
        1 => list.insert(at, list[at].clone()),
        2 => list[at].insert(0, rng.pick(&['0', '+', ' ', '-'])),
        3 => list.push(rng.pick(&[n, n + 1, 19, 20, 31, 32]).to_string()),
        4 => list.extend(other),
        5 => list.extend(reached),
        6 => list.rotate_left(1),
        _ => {
            list[at] =
                (list[at].parse::<u64>().expect("a number") + rng.pick(&[256, 1 << 32])).to_string()
        }
    }
    said(&lists).into_bytes()
}

/// The sentence with these numbers, whatever they are.
fn said([silent, waiting]: &[Vec<String>; 2]) -> String {
    let listed = |names: &[String]| joined(names, ", ", " and ");
    let first = match silent.len() {
        0 => "Even if all work, ".to_string(),
        1 => format!("If {} stays silent, ", listed(silent)),
        _ => format!("If {} stay silent, ", listed(silent)),
    };
    let verb = if waiting.len() == 1 { "gets" } else { "get" };
    format!("{first}{} never {verb} the notice.", listed(waiting))
}

// ---- files

/// A file with n and a sentence.
fn file_of(case: &HeardCase) -> Vec<u8> {
    [case.n.to_string().as_bytes(), b"\n", &case.text, b"\n"].concat()
}

/// First lines that are no number of terminals, or one written otherwise; the sentence is right for 7.
const FIRST_LINES: [&[u8]; 40] = [
    b"",
    b"0",
    b"1",
    b"21",
    b"22",
    b"07",
    b"007",
    b"+7",
    b"-7",
    b" 7",
    b"7 ",
    b"7\r",
    b"7\t",
    b"7.",
    b"7,",
    b"7 7",
    b"7 terminals",
    b"seven",
    b"n",
    b"a",
    b"f",
    b"14h",
    b"0x7",
    b"7e0",
    b"7.0",
    b"\0",
    b"7\0",
    b"\xff",
    b"\xb7",
    b"\xd9\xa7",
    b"70",
    b"77",
    b"200",
    b"255",
    b"258",
    b"263",
    b"4294967303",
    b"18446744073709551623",
    b"If 1 stays silent, 5 never gets the notice.",
    b"01070001",
];

/// What may stand after the first line instead of the sentence and one line end.
const AFTER: [&[u8]; 14] = [
    b"",
    b"\n",
    b"\n\n",
    b"Even if all work, 2 never gets the notice.",
    b"Even if all work, 2 never gets the notice.\n\n",
    b"Even if all work, 2 never gets the notice.\r\n",
    b"Even if all work, 2 never gets the notice. \n",
    b"Even if all work, 2 never gets the notice.\nEven if all work, 2 never gets the notice.\n",
    b"Even if all work, 2 never gets the notice.\nx",
    b"\nEven if all work, 2 never gets the notice.\n",
    b"Even if all work,\n2 never gets the notice.\n",
    b"Even if all work, 2 never gets the notice\n",
    b"Even if all work, 2 never gets the notice\xae\n",
    b"Even if all work, 2 never gets the notice.\n",
];

/// Files without a line end.
const ONE_LINE: [&[u8]; 8] = [
    b"7",
    b"12",
    b"21",
    b"x",
    b"7 Even if all work, 2 never gets the notice.",
    b"7\rEven if all work, 2 never gets the notice.\r",
    b"Even if all work, 2 never gets the notice.",
    b"7\0",
];

/// Each n from 0 to 22, with a sentence that is right from 4 on.
const NUMBERED: u64 = 23;

pub const LISTED: u64 = (FIRST_LINES.len() + 2 * AFTER.len() + ONE_LINE.len()) as u64 + NUMBERED;

/// Each wrong first line, each wrong end under a right n and under a wrong one, each file of one line, and
/// every n.
pub fn listed_file(index: u64) -> Vec<u8> {
    let (_, whole) = WHOLE[0];
    let mut index = index as usize;
    if let Some(first) = FIRST_LINES.get(index) {
        return [first, &b"\n"[..], whole.as_bytes(), b"\n"].concat();
    }
    index -= FIRST_LINES.len();
    if let Some(rest) = AFTER.get(index / 2) {
        return [[&b"7\n"[..], b"1\n"][index % 2], rest].concat();
    }
    index -= 2 * AFTER.len();
    if let Some(line) = ONE_LINE.get(index) {
        return line.to_vec();
    }
    let n = (index - ONE_LINE.len()) as u32;
    let text = b"If 0 stays silent, 1 and 3 never get the notice.".to_vec();
    file_of(&HeardCase { n, text })
}

/// Each text that is damaged by hand.
pub fn by_hand_file(index: u64) -> Vec<u8> {
    file_of(&by_hand(index))
}

/// No byte, as many as a file may have, and one more under a wrong n.
pub const SIZED: u64 = 3;

pub fn sized_file(index: u64) -> Vec<u8> {
    let (first, size): (&[u8], usize) = [
        (&b""[..], 0),
        (b"7", LONGEST_FILE),
        (b"1", LONGEST_FILE + 1),
    ][index as usize];
    let file = [first, b"\nEven if all work, 2 never gets the notice.\n"].concat();
    let rest = b"2\n".iter().cycle();
    file.iter().chain(rest).copied().take(size).collect()
}

/// Sorts of files; they take turns by index.
const SORTS: u64 = 8;

pub fn heard_case(seed: u64, index: u64) -> Vec<u8> {
    let rng = &mut Rng::for_case(seed, 23, index);
    let turn = index / SORTS;
    let any = rng.below(1 << 30) as u64;
    let right = HeardCase {
        n: 2 + (turn % 19) as u32,
        text: spoken(&some_fail(rng, 2 + (turn % 19) as u32)),
    };
    match index % SORTS {
        0 if turn % 100 == 99 => sized_file(any % SIZED),
        0 | 1 => file_of(&right),
        2 => file_of(&hearing_case(seed, any)),
        3 => by_hand_file(any % BY_HAND),
        4 => listed_file(any % LISTED),
        5 => {
            let first = rng.pick(&FIRST_LINES);
            [first, b"\n", &right.text[..], b"\n"].concat()
        }
        6 => {
            let mut text = file_of(&right);
            change_byte(rng, &mut text);
            text
        }
        _ => {
            let mut text = file_of(&right);
            match rng.below(4) {
                0 => text.truncate(rng.below(text.len())),
                1 => drop(text.pop()),
                2 => text.extend(rng.pick(&[&b"\n"[..], b"\r\n", b" ", b"7\n", b"\0"])),
                _ => text.insert(rng.below(text.len()), rng.pick(b" \n\r\t0.")),
            }
            text
        }
    }
}
