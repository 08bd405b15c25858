//! Library calls: the run, the witness check, the writer, and their refusals.

mod common;

use common::{first, firsts, set};
use second::drawings::DRAWINGS;
use second::faults::Fault;
use second::grouping::group_up;
use second::groups::Bound;
use second::notice::Notice;
use second::output::plan_text;
use second::plan::{number_of, set_of, write_plan, Cause, Plan, Set};
use second::reader::read_archive;
use second::run::{run, Order};
use second::step::{Record, Row, State};
use second::verdict::{verdict, witness_check};
use std::collections::BTreeSet;

/// Site E, bad set {1}.
struct Given {
    plan: Plan,
    bad: Set,
    start: Notice,
    rounds: u32,
    later: Vec<u32>,
    words: usize,
    records: usize,
}

fn given() -> Given {
    let plan = DRAWINGS[4].plan();
    Given {
        plan,
        bad: set(&[1]),
        start: first(7),
        rounds: 2,
        later: vec![0; 2],
        words: 32,
        records: 4,
    }
}

fn run_answer(given: &Given) -> Result<(), u8> {
    let words = firsts(&vec![9; given.words]);
    let held = Record {
        round: 77,
        state: State::Taken(5, first(5)),
        ..Record::waiting()
    };
    let mut records = vec![held.clone(); given.records];
    let order = Order {
        plan: &given.plan,
        bad: &given.bad,
        start: given.start,
        rounds: given.rounds,
        later: &given.later,
        words: &words,
    };
    let answer = run(&order, &mut records, Fault::None).map_err(Cause::number);
    if answer.is_err() {
        assert!(records.iter().all(|record| *record == held));
    }
    answer
}

#[test]
fn run_refusals() {
    let wrong = |change: fn(&mut Given)| {
        let mut given = given();
        change(&mut given);
        run_answer(&given)
    };
    assert_eq!(wrong(|_| {}), Ok(()));
    assert_eq!(wrong(|given| given.plan.bound = Bound::f(4)), Err(4));
    assert_eq!(wrong(|given| given.plan.n = 21), Err(4));
    assert_eq!(wrong(|given| given.plan.links.extend([(1, 4)])), Err(5));
    assert_eq!(wrong(|given| given.plan.links.extend([(4, 1)])), Err(5));
    assert_eq!(wrong(|given| given.plan.links.extend([(2, 2)])), Err(5));
    assert_eq!(wrong(|given| given.bad = set(&[0])), Err(7));
    assert_eq!(wrong(|given| given.bad = set(&[4])), Err(7));
    assert_eq!(wrong(|given| given.bad = set(&[31])), Err(7));
    assert_eq!(wrong(|given| given.bad = set(&[1, 2])), Err(8));
    assert_eq!(wrong(|given| given.start = first(0)), Err(9));
    assert_eq!(wrong(|given| given.rounds = 41), Err(9));
    for length in [0, 31, 33] {
        assert_eq!(
            run_answer(&Given {
                words: length,
                ..given()
            }),
            Err(12)
        );
    }
    for length in [0, 3, 5] {
        assert_eq!(
            run_answer(&Given {
                records: length,
                ..given()
            }),
            Err(12)
        );
    }
}

#[test]
fn run_refusals_in_order() {
    let mut wrong = Given {
        words: 1,
        start: first(0),
        bad: set(&[1, 2]),
        ..given()
    };
    assert_eq!(run_answer(&wrong), Err(8));
    wrong.bad.insert(0);
    assert_eq!(run_answer(&wrong), Err(7));
    wrong.plan.links.insert((3, 3));
    assert_eq!(run_answer(&wrong), Err(5));
    wrong.plan.bound = Bound::f(9);
    assert_eq!(run_answer(&wrong), Err(4));
    wrong = Given {
        words: 1,
        start: first(0),
        ..given()
    };
    assert_eq!(run_answer(&wrong), Err(9));
}

/// Plays a site whose bad set is {1} over records that hold something else; the words are given
/// as (round, hearer, word), said by 1.
fn played(plan: &Plan, rounds: u32, said: &[(u32, u32, u16)]) -> Vec<Record> {
    let n = plan.n;
    let mut words = vec![0; (rounds * n * n) as usize];
    for &(round, hearer, word) in said {
        words[(((round - 1) * n + 1) * n + hearer) as usize] = first(word).number();
    }
    for sender in (0..n).filter(|&sender| sender != 1) {
        words[(sender * n + n - 1) as usize] = first(1).number(); // from a good sender: not looked at
    }
    let mut held = Record::source(first(3));
    held.round = 9;
    held.notes = vec![Row::of(1, &[1, 2, 3]); 20];
    let mut records = vec![held; n as usize];
    let order = Order {
        plan,
        bad: &set(&[1]),
        start: first(7),
        rounds,
        later: &vec![0; rounds as usize],
        words: &words,
    };
    assert_eq!(run(&order, &mut records, Fault::None), Ok(()));
    records
}

/// A record after so many rounds, with these rows.
fn left(round: u32, state: State, rows: &[(u32, &[u16])]) -> Record {
    let mut record = Record::waiting();
    record.round = round;
    record.state = state;
    for &(terminal, values) in rows {
        *record.row_mut(terminal) = Row::of(1, values);
    }
    record
}

#[test]
fn run_leaves_records() {
    let said = [(1, 3, 9), (2, 3, 9), (3, 3, 8), (3, 0, 9), (1, 2, 9)];
    let records = played(&DRAWINGS[4].plan(), 3, &said);
    assert_eq!(records[0], left(3, State::Taken(0, first(7)), &[]));
    assert_eq!(records[1], Record::waiting());
    assert_eq!(records[2], left(3, State::Taken(1, first(7)), &[(0, &[7])]));
    let rows: [(u32, &[u16]); 2] = [(1, &[9, 8]), (2, &[7])];
    assert_eq!(records[3], left(3, State::Waiting, &rows));
}

/// The value that made it up is noted, and what is said after the take is noted too.
#[test]
fn run_takes_what_is_said_second() {
    let said = [(1, 3, 9), (3, 3, 7), (4, 3, 5)];
    let records = played(&DRAWINGS[4].plan(), 4, &said);
    let rows: [(u32, &[u16]); 2] = [(1, &[9, 7, 5]), (2, &[7])];
    assert_eq!(records[3], left(4, State::Taken(3, first(7)), &rows));
}

/// A liar with another value in each of 40 rounds fills its row, and no step is refused.
#[test]
fn run_fills_a_row() {
    let values: Vec<u16> = (100..140).collect();
    let said: Vec<(u32, u32, u16)> = (1..)
        .zip(&values)
        .map(|(r, &value)| (r, 3, value))
        .collect();
    let records = played(&DRAWINGS[4].plan(), 40, &said);
    let rows: [(u32, &[u16]); 2] = [(1, &values), (2, &[7])];
    assert_eq!(records[3], left(40, State::Waiting, &rows));
    assert_eq!(
        (records[3].row(1).count, records[3].row(1).at(39)),
        (40, 139)
    );
}

#[test]
fn witness_checks() {
    let plan = DRAWINGS[4].plan();
    let yes = |bad: &[u32], reached: &[u32], left: &[u32]| {
        witness_check(&plan, &set(bad), &set(reached), &set(left), Fault::None)
            .expect("a right plan")
    };
    assert!(yes(&[1], &[0, 2], &[3]));
    assert!(yes(&[2], &[0, 1], &[3]));
    assert!(!yes(&[1], &[0], &[3])); // no partition
    assert!(!yes(&[1], &[0, 1, 2], &[3]));
    assert!(!yes(&[1], &[2], &[0, 3])); // the source is not in L
    assert!(!yes(&[1], &[0, 2, 3], &[])); // nobody is left
    assert!(!yes(&[1, 2], &[0], &[3])); // no bad set
    assert!(!yes(&[1], &[0], &[2, 3])); // 2 hears the source
    assert!(!yes(&[], &[0, 1, 2], &[3])); // 3 hears two of L
    assert!(!yes(&[1, 4], &[0, 2], &[3])); // numbers at or above n
    assert!(!yes(&[1], &[0, 2, 31], &[3]));
    let mut wrong = plan.clone();
    wrong.links.insert((0, 4));
    assert_eq!(
        witness_check(&wrong, &set(&[]), &set(&[]), &set(&[]), Fault::None),
        Err(Cause::LinkEnd)
    );
    wrong.n = 1;
    assert_eq!(
        witness_check(&wrong, &set(&[]), &set(&[]), &set(&[]), Fault::None),
        Err(Cause::Head)
    );
    assert_eq!(verdict(&wrong, Fault::None), Err(Cause::Head));
}

#[test]
fn writer() {
    let plan = DRAWINGS[4].plan();
    let text = b"01040001\n020001\n020002\n020103\n020203\n";
    let mut list = [b'x'; 40];
    assert_eq!(write_plan(&plan, &mut list, Fault::None), Ok(37));
    assert_eq!((&list[..37], &list[37..]), (&text[..], &b"xxx"[..]));
    let mut short = [b'x'; 36];
    assert_eq!(
        write_plan(&plan, &mut short, Fault::None),
        Err(Cause::Length)
    );
    assert_eq!(short, [b'x'; 36]);
    let mut wrong = plan.clone();
    wrong.links.insert((5, 6));
    assert_eq!(
        write_plan(&wrong, &mut short, Fault::None),
        Err(Cause::LinkEnd)
    );
    wrong.source = 4;
    assert_eq!(
        write_plan(&wrong, &mut short, Fault::None),
        Err(Cause::Head)
    );
    assert_eq!(short, [b'x'; 36]);
}

#[test]
fn written_plans_are_read_back() {
    let mut rng = second::rng::Rng::new(11);
    for n in 2..=20 {
        for density in [0, 30, 100, 0, 30, 100] {
            let mut plan = second::plans::random_plan(&mut rng, n, Some(density));
            if rng.chance(50) {
                group_up(&mut rng, &mut plan);
            }
            let filed =
                read_archive(&plan_text(&plan, Fault::None), Fault::None).expect("a right plan");
            assert_eq!(filed.plan, plan);
        }
    }
}

#[test]
fn sets_as_numbers() {
    for number in [0, 1, 2, 5, 0x80_000, 0xff_ffff] {
        assert_eq!(number_of(&set_of(number)), number);
    }
    assert_eq!(number_of(&set(&[1, 3])), 10);
}

/// The witness against a search that looks at every set and keeps the best.
#[test]
fn witness_is_the_least() {
    let mut rng = second::rng::Rng::new(5);
    let mut with_groups = BTreeSet::new();
    for turn in 0..240 {
        let mut plan = second::plans::weak_plan(&mut rng, 2 + turn % 6);
        if turn % 4 > 0 {
            group_up(&mut rng, &mut plan);
        }
        let answer = verdict(&plan, Fault::None).expect("a right plan");
        let mut best: Option<(usize, u32)> = None;
        for number in 0..2u32.pow(2 * plan.n) {
            let (bad, reached) = (set_of(number >> plan.n), set_of(number % (1 << plan.n)));
            let left: Set = (0..plan.n)
                .filter(|v| !bad.contains(v) && !reached.contains(v))
                .collect();
            if witness_check(&plan, &bad, &reached, &left, Fault::None) == Ok(true) {
                let key = (bad.len(), number_of(&bad));
                best = Some(best.map_or(key, |other| other.min(key)));
            }
        }
        let own = answer
            .fails
            .then(|| (answer.bad.len(), number_of(&answer.bad)));
        assert_eq!(own, best, "{plan:?}");
        if plan.bound.has_groups() {
            with_groups.insert(own.map(|(members, _)| members));
        }
    }
    let sizes = [None, Some(0), Some(1), Some(2)];
    assert!(sizes.iter().all(|size| with_groups.contains(size)));
}
