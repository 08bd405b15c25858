//! The step in one edition, sentence by sentence, and its refusals.

mod common;

use common::{first, firsts, place, set, WAITS};
use second::faults::Fault;
use second::groups::Bound;
use second::step::{step, Place, Record, Row, State};

/// So many rounds played, waiting, with these rows.
fn record(round: u32, rows: &[(u32, &[u16])]) -> Record {
    let mut record = Record::waiting();
    record.round = round;
    for &(terminal, values) in rows {
        *record.row_mut(terminal) = Row::of(1, values);
    }
    record
}

/// A row with such a count and such places.
fn row(count: u32, places: &[(u32, u16)]) -> Row {
    let mut row = Row::of(1, &[]);
    row.count = count;
    places.iter().for_each(|&(at, value)| row.put(at, value));
    row
}

fn stepped(place: &Place, record: Record, said: &[u16]) -> Record {
    step(place, record, &firsts(said), Fault::None).expect("a right call")
}

/// The terminal of `place` after rounds in which the others said these words.
fn played(place: &Place, rounds: &[[u16; 5]]) -> Record {
    let words = rounds.iter();
    words.fold(Record::waiting(), |record, said| {
        stepped(place, record, said)
    })
}

// ---- what is noted

#[test]
fn values_are_noted_in_the_order_of_saying() {
    let after = played(
        &place(),
        &[[0, 9, 0, 0, 0], [0, 5, 8, 0, 0], [0, 7, 0, 0, 0]],
    );
    assert_eq!(after, record(3, &[(1, &[9, 5, 7]), (2, &[8])]));
}

#[test]
fn equal_words_change_nothing() {
    let after = played(
        &place(),
        &[[0, 9, 0, 0, 0], [0, 5, 0, 0, 0], [0, 9, 0, 0, 0]],
    );
    assert_eq!(after, record(3, &[(1, &[9, 5])]));
    let silent = played(&place(), &[[0, 9, 0, 0, 0], [0; 5], [0; 5]]);
    assert_eq!(silent, record(3, &[(1, &[9])]));
}

#[test]
fn places_after_the_count_are_not_looked_at() {
    let mut before = record(4, &[]);
    *before.row_mut(1) = row(1, &[(0, 8), (1, 9), (2, 9), (39, 9)]);
    // What stands there has no vote.
    let after = stepped(&place(), before.clone(), &[0, 0, 9, 0, 0]);
    assert_eq!((after.state, after.row(1)), (WAITS, before.row(1)));
    // It is not known either: it is noted, in the place that is next, and no other place changes.
    let after = stepped(&place(), before.clone(), &[0, 9, 0, 0, 0]);
    let noted = row(2, &[(0, 8), (1, 9), (2, 9), (39, 9)]);
    assert_eq!((after.state, after.row(1)), (WAITS, &noted));
    let after = stepped(&place(), before, &[0, 5, 0, 0, 0]);
    let noted = row(2, &[(0, 8), (1, 5), (2, 9), (39, 9)]);
    assert_eq!((after.state, after.row(1)), (WAITS, &noted));
}

#[test]
fn the_last_place_is_written_in_round_40() {
    let values: Vec<u16> = (100..139).collect();
    let before = record(39, &[(1, &values), (2, &values)]);
    let deaf = Place {
        heard: set(&[1]),
        ..place()
    };
    let after = stepped(&deaf, before.clone(), &[0, 139, 139, 0, 0]);
    assert_eq!((after.round, after.state), (40, WAITS));
    assert_eq!(after.row(1), &Row::of(1, &(100..140).collect::<Vec<u16>>()));
    assert_eq!(after.row(2), before.row(2));
    // The last of a full row is known as well as the first.
    for word in [100, 138] {
        let after = stepped(&deaf, before.clone(), &[0, word, 0, 0, 0]);
        assert_eq!(after.notes, before.notes);
    }
}

#[test]
fn unheard_words_and_rows_are_left_alone() {
    let deaf = Place {
        heard: set(&[1, 4]),
        ..place()
    };
    let mut before = record(2, &[(0, &[7]), (2, &[9])]);
    *before.row_mut(3) = row(41, &[(0, 9), (39, 5)]);
    *before.row_mut(19) = row(255, &[(3, 9)]);
    let after = stepped(&deaf, before.clone(), &[5, 9, 5, 9, 0]);
    *before.row_mut(1) = Row::of(1, &[9]);
    before.round = 3;
    assert_eq!(after, before);
}

#[test]
fn a_taken_terminal_notes_and_takes_nothing_in_its_edition() {
    let mut before = record(2, &[(1, &[9, 0]), (2, &[9])]);
    *before.row_mut(4) = row(0, &[(0, 6), (1, 6)]);
    before.state = State::Taken(0, first(8));
    let after = stepped(&place(), before.clone(), &[7, 5, 9, 5, 5]);
    before.round = 3;
    *before.row_mut(0) = Row::of(1, &[7]);
    before.row_mut(1).add(5);
    *before.row_mut(4) = row(1, &[(0, 5), (1, 6)]);
    assert_eq!(after, before);
    // A source that took later than round 0 is accepted as well.
    let source = Place {
        number: 0,
        heard: set(&[1]),
        ..place()
    };
    let mut late = record(4, &[]);
    late.state = State::Taken(3, first(9));
    let after = stepped(&source, late, &[7; 5]);
    assert_eq!(after.state, State::Taken(3, first(9)));
}

// ---- what is taken

/// What terminal 3 does with rows after five rounds and words of the sixth.
type Example = (
    &'static str,
    &'static [(u32, &'static [u16])],
    [u16; 5],
    State,
);

const fn takes(value: u16) -> State {
    State::Taken(6, first(value))
}

const EXAMPLES: [Example; 19] = [
    ("the source's word", &[], [7, 5, 5, 0, 5], takes(7)),
    (
        "the source's first word, not a later one",
        &[(0, &[7])],
        [5, 5, 5, 0, 5],
        takes(7),
    ),
    (
        "the source's first value, not its last",
        &[(0, &[7, 5])],
        [5, 0, 0, 0, 0],
        takes(7),
    ),
    (
        "the source has 0 in its first place",
        &[(0, &[0, 7])],
        [0; 5],
        WAITS,
    ),
    (
        "the source speaks after a 0",
        &[(0, &[0])],
        [7, 0, 0, 0, 0],
        WAITS,
    ),
    (
        "the source's later places are votes",
        &[(0, &[0, 7])],
        [0, 7, 0, 0, 0],
        takes(7),
    ),
    (
        "the source's word after a 0 is a vote",
        &[(0, &[0]), (4, &[7])],
        [7, 0, 0, 0, 0],
        takes(7),
    ),
    ("f neighbours", &[(1, &[9])], [0; 5], WAITS),
    (
        "f+1 neighbours in rows",
        &[(1, &[9]), (2, &[9])],
        [0; 5],
        takes(9),
    ),
    (
        "f+1 neighbours, one by its word",
        &[(1, &[9])],
        [0, 0, 0, 0, 9],
        takes(9),
    ),
    (
        "f+1 neighbours by their words",
        &[],
        [0, 0, 9, 0, 9],
        takes(9),
    ),
    (
        "a second value counts",
        &[(1, &[9])],
        [0, 8, 8, 0, 0],
        takes(8),
    ),
    (
        "a first value counts on",
        &[(1, &[9, 8])],
        [0, 0, 9, 0, 0],
        takes(9),
    ),
    (
        "the smallest of several",
        &[(1, &[9, 300]), (2, &[300, 9, 256])],
        [0, 256, 0, 0, 9],
        takes(9),
    ),
    (
        "the smallest by its high byte",
        &[(1, &[300, 511]), (2, &[511, 300])],
        [0; 5],
        takes(300),
    ),
    (
        "a value twice in a row",
        &[(1, &[9, 9])],
        [0, 9, 0, 0, 0],
        WAITS,
    ),
    (
        "0 twice among the rows",
        &[(1, &[0]), (2, &[0, 0])],
        [0; 5],
        WAITS,
    ),
    (
        "different values",
        &[(1, &[9]), (2, &[8]), (4, &[5])],
        [0, 7, 0, 0, 0],
        WAITS,
    ),
    ("its own word", &[(3, &[9])], [0, 9, 0, 9, 0], WAITS),
];

#[test]
fn examples() {
    for (name, rows, said, state) in EXAMPLES {
        let after = stepped(&place(), record(5, rows), &said);
        assert_eq!((after.round, after.state), (6, state), "{name}");
    }
}

/// The same rows and words, but the source is not heard: nothing of it counts.
#[test]
fn examples_without_the_source() {
    let deaf = Place {
        heard: set(&[1, 2, 4]),
        ..place()
    };
    for (name, rows, said, state) in EXAMPLES {
        let from_source = rows.iter().any(|row| row.0 == 0) || said[0] != 0;
        let after = stepped(&deaf, record(5, rows), &said);
        let fits = match name {
            "the source's word" | "the source's first word, not a later one" => takes(5),
            _ if from_source => WAITS,
            _ => state,
        };
        assert_eq!(after.state, fits, "{name}");
    }
}

#[test]
fn the_source_has_said_nothing_where_its_count_is_0() {
    let mut before = record(5, &[(1, &[7])]);
    *before.row_mut(0) = row(0, &[(0, 7)]);
    assert_eq!(stepped(&place(), before, &[0; 5]).state, WAITS);
}

#[test]
fn words_of_several_rounds() {
    let taken = |rounds: &[[u16; 5]]| played(&place(), rounds).state;
    // Words of one neighbour count once, however often it says them.
    assert_eq!(taken(&[[0, 9, 0, 0, 0]; 5]), WAITS);
    // A spoiled first word, then the good one.
    assert_eq!(
        taken(&[[0, 9, 0, 0, 0], [0, 7, 7, 0, 0]]),
        State::Taken(2, first(7))
    );
    // The good word first, then another.
    assert_eq!(
        taken(&[[0, 7, 0, 0, 0], [0, 9, 0, 0, 0], [0, 0, 7, 0, 0]]),
        State::Taken(3, first(7))
    );
    // Two that agree one round apart.
    let apart = [[0, 9, 0, 0, 0], [0, 8, 9, 0, 0]];
    assert_eq!(taken(&apart), State::Taken(2, first(9)));
    let bound_two = Place {
        bound: Bound::f(2),
        ..place()
    };
    assert_eq!(played(&bound_two, &apart).state, WAITS);
}

// ---- refusals

fn refused(place: &Place, record: Record, length: usize) -> u8 {
    let before = record.clone();
    let (cause, after) =
        step(place, record, &vec![65_543; length], Fault::None).expect_err("wrong");
    assert_eq!(after, before);
    cause.number()
}

#[test]
fn wrong_places() {
    for head in [(1, 0, 0), (21, 0, 1), (5, 5, 1), (5, 0, 5)] {
        let (n, source, f) = head;
        let wrong = Place {
            n,
            source,
            bound: Bound::f(f),
            ..place()
        };
        assert_eq!(refused(&wrong, Record::waiting(), 5), 4);
    }
    for member in [3, 5, 31] {
        let mut wrong = place();
        wrong.heard.insert(member);
        assert_eq!(refused(&wrong, Record::waiting(), 5), 5);
    }
    for length in [0, 4, 6] {
        assert_eq!(refused(&place(), Record::waiting(), length), 12);
    }
}

#[test]
fn wrong_records() {
    let with = |round, state| Record {
        round,
        state,
        ..Record::waiting()
    };
    let wrong = [
        with(40, WAITS),
        with(255, State::Taken(1, first(7))),
        with(2, State::Taken(3, first(7))),
        with(2, State::Taken(1, first(0))),
    ];
    for record in wrong {
        assert_eq!(refused(&place(), record, 5), 13);
    }
    // Its own number at or above n; the source waiting.
    for number in [5, 31, 0] {
        let wrong = Place {
            number,
            heard: set(&[1]),
            ..place()
        };
        assert_eq!(refused(&wrong, Record::waiting(), 5), 13);
    }
    assert!(step(&place(), with(39, WAITS), &[0; 5], Fault::None).is_ok());
}

/// As many values as rounds are accepted, one more is not, of a waiting record and of a taken one.
#[test]
fn more_values_than_rounds() {
    for round in [0, 1, 2, 38, 39] {
        for state in [WAITS, State::Taken(0, first(8))] {
            for neighbour in [0, 1, 4] {
                let mut before = record(round, &[]);
                before.state = state;
                before.row_mut(neighbour).count = round;
                assert!(step(&place(), before.clone(), &firsts(&[7; 5]), Fault::None).is_ok());
                for count in [round + 1, 40, 41, 255] {
                    before.row_mut(neighbour).count = count;
                    assert_eq!(refused(&place(), before.clone(), 5), 13);
                }
            }
        }
    }
}

#[test]
fn more_values_than_rounds_of_one_not_heard() {
    for other in [2, 3, 5, 19] {
        let mut deaf = place();
        deaf.heard.remove(&other);
        let mut before = record(0, &[]);
        *before.row_mut(other) = row(255, &[(0, 9), (39, 9)]);
        let after = stepped(&deaf, before.clone(), &[0; 5]);
        assert_eq!(after.notes, before.notes);
    }
}

#[test]
fn refusals_in_order() {
    let late = record(40, &[]);
    let full = record(1, &[(2, &[8, 9])]);
    for before in [late, full] {
        let mut wrong = place();
        assert_eq!(refused(&wrong, before.clone(), 4), 13);
        wrong.heard.insert(3);
        assert_eq!(refused(&wrong, before.clone(), 4), 5);
        wrong.bound = Bound::f(5);
        assert_eq!(refused(&wrong, before, 4), 4);
    }
}
