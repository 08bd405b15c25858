//! Files about one radio for all: what each way of a wrong line gets.

use second::faults::Fault;
use second::generate::{case, shared_case, Kind};
use second::reader::read_run;
use second::rng::Rng;
use second::shared_files::{any_order, shared_file, WAYS};
use std::collections::{BTreeMap, BTreeSet};

/// Every wrong line gets the number that it is made for; those of the whole plan come with line 0.
#[test]
fn every_way_gets_its_number() {
    let different: BTreeSet<String> = WAYS.iter().map(|way| format!("{way:?}")).collect();
    assert_eq!(different.len(), WAYS.len());
    for (way, number) in WAYS {
        for turn in 0..60 {
            let mut rng = Rng::for_case(3, turn, way as u64);
            let text = shared_file(&mut rng, way);
            let told = read_run(&text, Fault::None);
            let got = told.as_ref().map_or_else(|no| no.cause.number(), |_| 0);
            let shown = String::from_utf8_lossy(&text);
            assert_eq!(got, number, "{way:?}: {shown}");
            let ends = ["EndAfterDefault", "EndAfterBadSet"].contains(&&*format!("{way:?}"));
            if let Err(refusal) = told {
                let whole = ends || number == 15 || number == 17;
                assert_eq!(refusal.line == 0, whole, "{way:?}: {shown}");
            }
        }
    }
}

// ---- what the text says of kinds, lengths and order, from the lines before alone

/// The bytes of a line, if it has some and all are digits.
fn frame(line: &str) -> Option<Vec<u8>> {
    let right = line.chars().all(|c| "0123456789abcdef".contains(c));
    let pairs = (0..line.len() / 2).map(|at| u8::from_str_radix(&line[2 * at..2 * at + 2], 16));
    (right && !line.is_empty() && line.len().is_multiple_of(2)).then(|| pairs.flatten().collect())
}

/// What stands before a line: frames that were all accepted.
struct Before<'a>(&'a [Vec<u8>]);

impl Before<'_> {
    fn has(&self, kind: u8) -> bool {
        self.0.iter().any(|frame| frame[0] == kind)
    }

    /// Whether there is a head, and beside it only these.
    fn only(&self, kinds: &[u8]) -> bool {
        let mut frames = self.0.iter();
        self.has(1) && frames.all(|frame| frame[0] == 1 || kinds.contains(&frame[0]))
    }

    fn groups_listed(&self) -> bool {
        self.0.first().is_some_and(|head| head[3] == 255)
    }

    /// The start's bytes, 0 where there is none.
    fn start(&self) -> usize {
        let start = self.0.iter().find(|frame| frame[0] == 4);
        start.map_or(0, |start| start.len())
    }

    fn length_right(&self, frame: &[u8]) -> bool {
        let (shared, start) = (self.has(9), self.start());
        let lengths: &[usize] = match (frame[0], start) {
            (1 | 3 | 7, _) => &[4],
            (2 | 9, _) => &[3],
            (4, _) if shared => &[3, 4],
            (4, 0) => &[3, 4, 5, 6],
            (4, 3 | 4) => &[3, 4],
            (4, _) => &[5, 6],
            (5, _) if shared => &[5],
            (5, 0) => &[5, 6, 8],
            (5, 3 | 4) => &[6],
            (5, _) => &[8],
            (8, 3 | 4) => &[],
            (8, _) if shared => &[],
            (8, _) => &[6],
            _ => &[],
        };
        lengths.contains(&frame.len())
    }

    fn in_order(&self, kind: u8) -> bool {
        match kind {
            1 => self.0.is_empty(),
            2 => self.only(&[2]),
            7 => self.groups_listed() && self.only(&[2, 7]),
            9 => self.only(&[2, 7]),
            3 => self.only(&[2, 7, 9]),
            4 => self.has(3) && !self.has(4),
            8 => self.has(4) && !self.has(5),
            5 => self.has(4),
            _ => false,
        }
    }

    fn someone_is_deaf(&self) -> bool {
        let (n, source) = (self.0[0][1], self.0[0][2]);
        let mut others = (0..n).filter(|&one| one != source);
        let hears = |one: u8| self.0.iter().any(|frame| frame[0] == 2 && frame[2] == one);
        others.any(|one| !hears(one))
    }

    /// Causes 17 and 15 where the links end, if this is the place.
    fn plan_ends(&self, kind: Option<u8>) -> Option<u8> {
        let listed = self.groups_listed();
        let goes_on = kind == Some(2) || (kind == Some(7) && listed);
        let open = self.only(if listed { &[2, 7] } else { &[2] });
        if goes_on || !open {
            return None;
        }
        match listed && !self.has(7) {
            true => Some(17),
            false => self.someone_is_deaf().then_some(15),
        }
    }
}

/// The first of these causes, its line, and the line at which it is found: 1, 2, 3, and 17 and 15 of
/// the whole plan. Whatever the lines hold is taken to be right.
fn by_the_text(text: &str) -> Option<(u8, u16, u16)> {
    let mut frames: Vec<Vec<u8>> = Vec::new();
    for (at, line) in (1..).zip(text.split_inclusive('\n')) {
        let right = line.strip_suffix('\n').and_then(frame);
        let before = Before(&frames);
        let Some(frame) = right else {
            return Some((1, at, at));
        };
        if !before.length_right(&frame) {
            return Some((2, at, at));
        }
        if let Some(cause) = before.plan_ends(Some(frame[0])) {
            return Some((cause, 0, at));
        }
        if !before.in_order(frame[0]) {
            return Some((3, at, at));
        }
        frames.push(frame);
    }
    let before = Before(&frames);
    let end = frames.len() as u16 + 1;
    match before.plan_ends(None) {
        Some(cause) => Some((cause, 0, end)),
        None => (!before.has(4)).then_some((3, 0, end)),
    }
}

/// A file is refused for one of these causes as the text says, or for another on an earlier line or on
/// the line itself after them.
fn as_the_text_says(text: &[u8]) -> &'static str {
    let Ok(shown) = std::str::from_utf8(text) else {
        return "no text";
    };
    if text.is_empty() || text.len() > 24_576 {
        return "no size";
    }
    let told = read_run(text, Fault::None).map_err(|no| (no.cause.number(), no.line));
    let says = by_the_text(shown);
    match (told, says) {
        (Ok(_), None) => "accepted",
        (Err((cause, line)), Some((number, of, _))) if (cause, line) == (number, of) => "the same",
        (Err((cause, line)), says) => {
            let kind = shown
                .lines()
                .nth(line as usize - 1)
                .map_or("", |line| &line[..2]);
            let of_content = ![1, 2, 3, 15].contains(&cause) || (cause == 3 && kind == "08");
            let earlier = says.is_none_or(|(_, _, found)| line < found);
            assert!(
                of_content && earlier,
                "{cause} at {line}, {says:?}: {shown}"
            );
            "content"
        }
        (Ok(_), Some(says)) => panic!("accepted, {says:?}: {shown}"),
    }
}

#[test]
fn kinds_lengths_and_order_as_the_text_says() {
    let mut seen: BTreeMap<&'static str, u32> = BTreeMap::new();
    let mut rng = Rng::new(5);
    for index in 0..6000 {
        let others = [
            any_order(&mut rng),
            shared_case(Kind::Run, 7, index),
            case(Kind::Run, 7, index),
        ];
        for text in others {
            *seen.entry(as_the_text_says(&text)).or_insert(0) += 1;
        }
    }
    for name in ["accepted", "the same", "content"] {
        assert!(seen[name] > 1500, "{seen:?}");
    }
}
