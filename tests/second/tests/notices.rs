//! Newer notices, sentence by sentence: what a terminal notes and takes over several editions, and what
//! the source's board takes.

mod common;

use common::bytes::Bytes;
use common::{place, set, WAITS};
use second::faults::Fault;
use second::notice::{notice, Notice};
use second::plan::Cause;
use second::record;
use second::run::issue;
use second::step::{step, Place, Record, Row, State};
use second::steps::{step_case, StepCase};
use std::collections::{BTreeMap, BTreeSet};

/// A terminal's number, the edition that it said last, and the layouts in it.
type Noted = (u32, u16, &'static [u16]);

/// So many rounds played, in this state, with these rows.
fn record(round: u32, state: State, rows: &[Noted]) -> Record {
    let mut record = Record::waiting();
    record.round = round;
    record.state = state;
    for &(terminal, edition, layouts) in rows {
        *record.row_mut(terminal) = Row::of(edition, layouts);
    }
    record
}

/// A step of `place` in which these say something.
fn stepped(place: &Place, record: Record, words: &[(u32, Notice)]) -> Record {
    let mut said = vec![0; 5];
    for (speaker, word) in words {
        said[*speaker as usize] = word.number();
    }
    step(place, record, &said, Fault::None).expect("a right call")
}

// ---- what is noted

#[test]
fn a_note_is_the_highest_edition_so_far() {
    let one = |row: Row, edition: u16, layout: u16| {
        let mut before = record(9, WAITS, &[]);
        *before.row_mut(1) = row;
        let after = stepped(&place(), before, &[(1, notice(edition, layout))]);
        after.row(1).clone()
    };
    let row = Row::of(300, &[9, 8]);
    // The same edition: one more layout, or one that is known.
    assert_eq!(one(row.clone(), 300, 7), Row::of(300, &[9, 8, 7]));
    assert_eq!(one(row.clone(), 300, 9), row);
    // A lower one is not looked at, by its number and not by its low byte.
    for lower in [1, 44, 255, 299] {
        assert_eq!(one(row.clone(), lower, 7), row);
    }
    // A higher one wipes.
    for higher in [301, 512, 65_535] {
        assert_eq!(one(row.clone(), higher, 9), Row::of(higher, &[9]));
    }
    // A zero in either half is silence, whatever the other half is.
    for silence in [(0, 0), (0, 7), (300, 0), (301, 0), (65_535, 0)] {
        assert_eq!(one(row.clone(), silence.0, silence.1), row);
    }
    // A note without layouts has its edition all the same.
    let empty = Row::of(300, &[]);
    assert_eq!(one(empty.clone(), 299, 7), empty);
    assert_eq!(one(empty, 300, 7), Row::of(300, &[7]));
    // One of edition 0 counts for nothing, and any word wipes it.
    assert_eq!(one(Row::of(0, &[5, 6, 7]), 1, 9), Row::of(1, &[9]));
}

#[test]
fn places_after_the_count() {
    let mut noisy = Row::of(2, &[9]);
    noisy.put(1, 8);
    noisy.put(39, 5);
    let mut before = record(9, WAITS, &[]);
    *before.row_mut(1) = noisy.clone();
    let said = |edition: u16| {
        let after = stepped(&place(), before.clone(), &[(1, notice(edition, 7))]);
        after.row(1).clone()
    };
    // They stay, are written over, or become 0 where the row is wiped.
    assert_eq!(said(1), noisy);
    noisy.add(7);
    assert_eq!(said(2), noisy);
    assert_eq!(said(3), Row::of(3, &[7]));
    assert_eq!(said(3).used(), 1);
}

#[test]
fn a_full_row_is_wiped_in_round_40() {
    let layouts: Vec<u16> = (100..139).collect();
    let mut before = record(39, WAITS, &[]);
    *before.row_mut(1) = Row::of(2, &layouts);
    let after = stepped(&place(), before.clone(), &[(1, notice(3, 5))]);
    assert_eq!(after.row(1), &Row::of(3, &[5]));
    let after = stepped(&place(), before, &[(1, notice(2, 5))]);
    assert_eq!((after.row(1).count, after.row(1).at(39)), (40, 5));
}

/// Taken terminals note, and so does the source.
#[test]
fn all_terminals_note() {
    let taken = State::Taken(1, notice(2, 7));
    for number in [0, 3] {
        let place = Place {
            number,
            heard: set(&[1, 2]),
            ..place()
        };
        let before = record(4, taken, &[(1, 2, &[7]), (2, 3, &[5])]);
        let after = stepped(&place, before, &[(1, notice(2, 9)), (2, notice(4, 6))]);
        let rows: [Noted; 2] = [(1, 2, &[7, 9]), (2, 4, &[6])];
        assert_eq!(after, record(5, taken, &rows));
    }
}

#[test]
fn the_source_never_takes_by_its_step() {
    let source = Place {
        number: 0,
        heard: set(&[1, 2, 4]),
        ..place()
    };
    let held = State::Taken(0, notice(1, 7));
    let words = [(1, notice(5, 9)), (2, notice(5, 9)), (4, notice(5, 9))];
    assert_eq!(stepped(&source, record(4, held, &[]), &words).state, held);
    let waiting = step(&source, Record::waiting(), &[0; 5], Fault::None);
    assert_eq!(waiting.err().map(|no| no.0), Some(Cause::Record));
}

// ---- what is taken

const fn takes(edition: u16, layout: u16) -> State {
    State::Taken(6, notice(edition, layout))
}

const HELD: State = State::Taken(3, notice(4, 7));

/// What terminal 3 does after five rounds with such a state, such rows and such words.
type Example = (
    &'static str,
    State,
    &'static [Noted],
    &'static [(u32, Notice)],
    State,
);

const EXAMPLES: [Example; 20] = [
    (
        "the highest that qualifies",
        WAITS,
        &[(0, 2, &[7]), (1, 3, &[8]), (2, 3, &[8])],
        &[],
        takes(3, 8),
    ),
    (
        "a higher one that does not qualify",
        WAITS,
        &[(0, 2, &[7]), (1, 3, &[8]), (2, 3, &[9])],
        &[],
        takes(2, 7),
    ),
    (
        "the source's word in the higher edition",
        WAITS,
        &[(0, 4, &[7]), (1, 3, &[8]), (2, 3, &[8])],
        &[],
        takes(4, 7),
    ),
    (
        "the source's word before the votes of its edition",
        WAITS,
        &[(0, 3, &[9]), (1, 3, &[8]), (2, 3, &[8])],
        &[],
        takes(3, 9),
    ),
    (
        "the source's first word in the new edition",
        WAITS,
        &[(0, 2, &[5, 6])],
        &[(0, notice(3, 9))],
        takes(3, 9),
    ),
    (
        "the source's first word, not the next",
        WAITS,
        &[(0, 3, &[5])],
        &[(0, notice(3, 9))],
        takes(3, 5),
    ),
    (
        "layouts in two editions do not add up",
        WAITS,
        &[(1, 3, &[8]), (2, 4, &[8])],
        &[],
        WAITS,
    ),
    (
        "the smallest layout of the edition",
        WAITS,
        &[(1, 3, &[9, 5]), (2, 3, &[5, 9]), (4, 2, &[1])],
        &[],
        takes(3, 5),
    ),
    (
        "a higher edition takes a vote away",
        WAITS,
        &[(1, 3, &[8])],
        &[(2, notice(3, 8)), (1, notice(9, 1))],
        WAITS,
    ),
    (
        "edition 0 counts for nothing",
        WAITS,
        &[(0, 0, &[7]), (1, 0, &[8]), (2, 0, &[8])],
        &[],
        WAITS,
    ),
    (
        "a word with edition 0",
        WAITS,
        &[],
        &[(0, notice(0, 7)), (1, notice(0, 8)), (2, notice(0, 8))],
        WAITS,
    ),
    (
        "a word with layout 0",
        WAITS,
        &[(0, 2, &[7])],
        &[(0, notice(3, 0))],
        takes(2, 7),
    ),
    (
        "a taken one takes a higher edition",
        HELD,
        &[],
        &[(1, notice(5, 9)), (2, notice(5, 9))],
        takes(5, 9),
    ),
    (
        "a taken one takes the source's later notice",
        HELD,
        &[(0, 4, &[7])],
        &[(0, notice(6, 1))],
        takes(6, 1),
    ),
    (
        "not the edition that it holds",
        HELD,
        &[(0, 4, &[5]), (1, 4, &[8]), (2, 4, &[8])],
        &[],
        HELD,
    ),
    (
        "not a lower one",
        HELD,
        &[(0, 3, &[5]), (1, 2, &[8]), (2, 2, &[8])],
        &[],
        HELD,
    ),
    (
        "above what is held by the high byte",
        State::Taken(3, notice(255, 7)),
        &[(1, 256, &[8])],
        &[(2, notice(256, 8))],
        takes(256, 8),
    ),
    (
        "below what is held by the high byte",
        State::Taken(3, notice(256, 7)),
        &[(1, 255, &[8])],
        &[(2, notice(255, 8))],
        State::Taken(3, notice(256, 7)),
    ),
    (
        "the highest edition there is",
        HELD,
        &[(1, 65_535, &[65_535])],
        &[(2, notice(65_535, 65_535))],
        takes(65_535, 65_535),
    ),
    (
        "nothing above the highest",
        State::Taken(3, notice(65_535, 7)),
        &[(0, 65_535, &[8])],
        &[],
        State::Taken(3, notice(65_535, 7)),
    ),
];

#[test]
fn examples() {
    for (name, state, rows, words, expected) in EXAMPLES {
        let after = stepped(&place(), record(5, state, rows), words);
        assert_eq!((after.round, after.state), (6, expected), "{name}");
    }
}

// ---- refusals of the step

fn refused(record: Record) -> Option<u8> {
    let before = record.clone();
    match step(&place(), record, &[0; 5], Fault::None) {
        Ok(_) => None,
        Err((cause, after)) => {
            assert_eq!(after, before);
            Some(cause.number())
        }
    }
}

#[test]
fn taken_without_edition_or_layout() {
    for (edition, layout) in [(0, 0), (0, 7), (4, 0), (65_535, 0), (0, 65_535)] {
        let state = State::Taken(1, notice(edition, layout));
        assert_eq!(refused(record(3, state, &[])), Some(13));
    }
    assert_eq!(refused(record(3, State::Taken(3, notice(1, 1)), &[])), None);
    assert_eq!(
        refused(record(3, State::Taken(4, notice(1, 1)), &[])),
        Some(13)
    );
}

/// The count is looked at whatever the edition is, and only that of the edition counts.
#[test]
fn counts_of_any_edition() {
    for state in [WAITS, State::Taken(0, notice(7, 7))] {
        for edition in [0, 1, 7, 8, 65_535] {
            let full = Row::of(edition, &[5, 6, 7]);
            let mut before = record(3, state, &[]);
            *before.row_mut(1) = full.clone();
            before.row_mut(1).put(20, 9);
            assert_eq!(refused(before.clone()), None);
            before.round = 2;
            assert_eq!(refused(before.clone()), Some(13));
            // Of one that is not heard nothing is looked at.
            *before.row_mut(1) = Row::default();
            *before.row_mut(3) = full;
            assert_eq!(refused(before), None);
        }
    }
}

// ---- a later notice for the source's board

fn issued(record: &Record, edition: u16, layout: u16) -> Result<Record, u8> {
    issue(record.clone(), notice(edition, layout), Fault::None).map_err(|(cause, after)| {
        assert_eq!(after, *record);
        cause.number()
    })
}

#[test]
fn later_notices_are_taken_by_the_source() {
    let rows: [Noted; 2] = [(1, 3, &[5, 6]), (19, 0, &[9])];
    for round in [0, 1, 7, 39, 40] {
        let mut before = record(round, State::Taken(0, notice(4, 7)), &rows);
        before.row_mut(2).count = 255;
        for (edition, layout) in [(5, 7), (5, 1), (256, 9), (65_535, 65_535)] {
            let mut after = before.clone();
            after.state = State::Taken(round, notice(edition, layout));
            assert_eq!(issued(&before, edition, layout), Ok(after));
        }
        // Not above the edition that is held; 9 before 16.
        for edition in [0, 1, 3, 4] {
            assert_eq!(issued(&before, edition, 8), Err(16));
            assert_eq!(issued(&before, edition, 0), Err(9));
        }
        assert_eq!(issued(&before, 5, 0), Err(9));
    }
}

#[test]
fn records_that_take_no_later_notice() {
    let held = notice(4, 7);
    let wrong = [
        record(3, WAITS, &[]),
        record(41, State::Taken(0, held), &[]),
        record(255, State::Taken(0, held), &[]),
        record(3, State::Taken(4, held), &[]),
        record(3, State::Taken(0, notice(0, 7)), &[]),
        record(3, State::Taken(0, notice(4, 0)), &[]),
        record(3, State::Taken(0, notice(0, 0)), &[]),
    ];
    for before in wrong {
        assert_eq!(issued(&before, 5, 8), Err(13));
        // 9 and 16 come first. A waiting record holds edition 0.
        assert_eq!(issued(&before, 0, 0), Err(9));
        assert_eq!(issued(&before, 0, 8), Err(16));
        let lower = if before.state.edition() == 0 { 13 } else { 16 };
        assert_eq!(issued(&before, 1, 8), Err(lower));
    }
    let late = record(3, State::Taken(3, held), &[]);
    assert!(issued(&late, 5, 8).is_ok());
}

// ---- what the cases and the recorded calls are about

/// What an accepted step shows about editions.
fn marks(case: &StepCase, after: &Record) -> Vec<&'static str> {
    let (place, before) = (&case.place, &case.record);
    let held = before.state.edition();
    let source = place.number == place.source;
    let mut marks = Vec::new();
    for &j in &place.heard {
        let (row, word) = (before.row(j), Notice::of(case.said[j as usize]));
        let higher = word.edition > row.edition && !word.is_silence();
        let said = [
            ("a row is wiped", higher && row.count > 0 && row.edition > 0),
            (
                "a row with noise is wiped",
                higher && row.used() > row.count,
            ),
            ("a full row is wiped", higher && row.count == 39),
            ("a row of edition 0", row.edition == 0 && row.count > 0),
            (
                "a lower word",
                word.edition < row.edition && !word.is_silence(),
            ),
            (
                "a lower word, nothing noted",
                word.edition < row.edition && !word.is_silence() && row.count == 0,
            ),
            (
                "layout 0 alone",
                word.edition > row.edition && word.layout == 0,
            ),
            ("edition 0 alone", word.edition == 0 && word.layout > 0),
            ("the source notes", source && after.row(j) != row),
            (
                "a taken one notes",
                held > 0 && !source && after.row(j) != row,
            ),
        ];
        marks.extend(said.iter().filter(|mark| mark.1).map(|mark| mark.0));
    }
    let took = before.state != after.state;
    let editions: BTreeSet<u16> = place.heard.iter().map(|&j| after.row(j).edition).collect();
    let highest = editions.last().copied().unwrap_or(0);
    let took_lower = took && after.state.edition() < highest;
    let of_state = [
        ("a taken one takes again", took && held > 0),
        ("a waiting one takes", took && held == 0),
        ("not the highest that was said", took_lower),
        (
            "taken, and words of its edition only",
            !took && held > 0 && held == highest && !source,
        ),
    ];
    marks.extend(of_state.iter().filter(|mark| mark.1).map(|mark| mark.0));
    marks
}

const NEEDED: [&str; 14] = [
    "a row is wiped",
    "a row with noise is wiped",
    "a full row is wiped",
    "a row of edition 0",
    "a lower word",
    "a lower word, nothing noted",
    "layout 0 alone",
    "edition 0 alone",
    "the source notes",
    "a taken one notes",
    "a taken one takes again",
    "a waiting one takes",
    "not the highest that was said",
    "taken, and words of its edition only",
];

/// The recorded steps are the first of these.
#[test]
fn needed_steps_are_there() {
    let mut seen: BTreeMap<&str, u32> = BTreeMap::new();
    for case in (0..1500).map(|index| step_case(record::SEED, index)) {
        if let Ok(after) = step(&case.place, case.record.clone(), &case.said, Fault::None) {
            let marks: BTreeSet<&str> = marks(&case, &after).into_iter().collect();
            marks.into_iter().for_each(|mark| {
                *seen.entry(mark).or_insert(0) += 1;
            });
        }
    }
    for name in NEEDED {
        let count = seen.get(name).copied().unwrap_or(0);
        assert!(count >= 8, "{name}: {count}");
    }
}

#[test]
fn recorded_issues_are_read_back() {
    let calls = record::calls(record::SEED);
    let mut numbers: BTreeMap<u8, u32> = BTreeMap::new();
    for call in calls.iter().filter(|call| call.kind == b'i') {
        let (mut body, mut line) = (Bytes(&call.body), Bytes(&call.line));
        let (before, later) = (body.record(), Notice::of(body.quad()));
        let (number, after) = (line.byte(), line.record());
        assert!(body.0.is_empty() && line.0.is_empty());
        let answer = issue(before, later, Fault::None);
        let expected = match answer {
            Ok(after) => (0, after),
            Err((cause, after)) => (cause.number(), after),
        };
        assert_eq!((number, after), expected);
        *numbers.entry(number).or_insert(0) += 1;
    }
    let enough = |number: &u8| numbers.get(number).is_some_and(|&count| count > 30);
    assert!([0, 9, 13, 16].iter().all(enough), "{numbers:?}");
}
