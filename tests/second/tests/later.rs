//! Runs in which the office changes its mind, the causes about it, and the recorded ones.

mod common;

use common::bytes::Bytes;
use common::{first, set};
use second::drawings::DRAWINGS;
use second::faults::Fault;
use second::notice::{notice, Notice};
use second::plan::{Cause, Plan, Set};
use second::record;
use second::run::{run, Order};
use second::step::{Record, State};
use second::verdict::verdict;

const WAITS: State = State::Waiting;

/// Drawing C (0>1 1>2) with nobody bad; what each terminal holds after so many rounds.
fn states(rounds: u32, later: &[(u32, Notice)]) -> Vec<State> {
    let plan = DRAWINGS[2].plan();
    let mut list = vec![0; rounds as usize];
    for (round, issued) in later {
        list[*round as usize - 1] = issued.number();
    }
    let order = Order {
        plan: &plan,
        bad: &Set::new(),
        start: notice(3, 7),
        rounds,
        later: &list,
        words: &vec![0; (rounds * 9) as usize],
    };
    let mut records = vec![Record::waiting(); 3];
    run(&order, &mut records, Fault::None).expect("a right call");
    records.into_iter().map(|record| record.state).collect()
}

#[test]
fn later_notices_follow_round_by_round() {
    let taken =
        |round: u32, edition: u16, layout: u16| State::Taken(round, notice(edition, layout));
    let start = |round: u32| taken(round, 3, 7);
    let later = [(1, notice(4, 8)), (3, notice(9, 7))];
    assert_eq!(states(0, &[]), [start(0), WAITS, WAITS]);
    assert_eq!(states(1, &later[..1]), [taken(1, 4, 8), start(1), WAITS]);
    // Each is passed on once, also by one that takes round after round.
    assert_eq!(
        states(2, &later[..1]),
        [taken(1, 4, 8), taken(2, 4, 8), start(2)]
    );
    assert_eq!(
        states(3, &later),
        [taken(3, 9, 7), taken(2, 4, 8), taken(3, 4, 8)]
    );
    assert_eq!(
        states(5, &later),
        [taken(3, 9, 7), taken(4, 9, 7), taken(5, 9, 7)]
    );
    // In the last round it shows in the source's record only.
    assert_eq!(
        states(3, &[(3, notice(4, 8))]),
        [taken(3, 4, 8), start(1), start(2)]
    );
    // A zero half issues nothing, and is not compared.
    let silent = [(1, notice(9, 0)), (2, notice(0, 9)), (3, notice(4, 8))];
    assert_eq!(states(3, &silent), states(3, &silent[2..]));
}

/// The example of an overtaken notice: the plan passes, 2 is silent, and 5 never hears two that say
/// the same.
#[test]
fn an_overtaken_notice_may_never_finish() {
    let mut plan = Plan::new(6, 0, 1);
    plan.links = second::generate::OVERTAKEN.into_iter().collect();
    assert!(!verdict(&plan, Fault::None).expect("a right plan").fails);
    let played = |rounds: u32, often: u32| {
        let issued = |round: u32| notice(1 + round as u16, 7 + round as u16).number();
        let later: Vec<u32> = (1..=rounds)
            .map(|round| issued(round) * u32::from(round <= often))
            .collect();
        let order = Order {
            plan: &plan,
            bad: &set(&[2]),
            start: first(7),
            rounds,
            later: &later,
            words: &vec![0; (rounds * 36) as usize],
        };
        let mut records = vec![Record::waiting(); 6];
        run(&order, &mut records, Fault::None).expect("a right call");
        records
    };
    let five = |rounds: u32, often: u32| played(rounds, often)[5].state;
    assert_eq!(five(5, 3), WAITS);
    assert_eq!(five(4, 0), State::Taken(3, notice(1, 7)));
    // Undisturbed for n-1 rounds, the last is held by everybody.
    assert_eq!(five(8, 3), State::Taken(6, notice(4, 10)));
    for (number, record) in played(8, 3).iter().enumerate() {
        let holds = matches!(record.state, State::Taken(_, held) if held == notice(4, 10));
        assert_eq!(holds, number != 2);
    }
}

/// Causes of the run about its start and its later notices; the rounds are two and the list of words
/// has so many.
fn cause(start: Notice, rounds: u32, later: &[Notice], words: usize) -> Option<u8> {
    let plan = DRAWINGS[4].plan();
    let later: Vec<u32> = later.iter().map(|issued| issued.number()).collect();
    let order = Order {
        plan: &plan,
        bad: &set(&[1]),
        start,
        rounds,
        later: &later,
        words: &vec![0; words],
    };
    let held = Record::source(notice(1, 3));
    let mut records = vec![held.clone(); 4];
    let answer = run(&order, &mut records, Fault::None);
    assert_eq!(
        answer.is_err(),
        records.iter().all(|record| *record == held)
    );
    answer.err().map(Cause::number)
}

#[test]
fn refusals_of_the_run() {
    let start = notice(3, 7);
    let none = notice(0, 0);
    let wrong = |later: &[Notice]| cause(start, 2, later, 32);
    assert_eq!(wrong(&[none, none]), None);
    assert_eq!(wrong(&[notice(4, 1), notice(5, 1)]), None);
    assert_eq!(wrong(&[notice(1, 0), notice(0, 5)]), None);
    // Not above the start, or the last; silence between is not compared.
    for edition in [1, 2, 3] {
        assert_eq!(wrong(&[none, notice(edition, 1)]), Some(16));
        assert_eq!(wrong(&[notice(edition, 1), notice(9, 1)]), Some(16));
    }
    assert_eq!(wrong(&[notice(5, 1), notice(5, 2)]), Some(16));
    assert_eq!(wrong(&[notice(5, 1), notice(4, 1)]), Some(16));
    assert_eq!(wrong(&[notice(9, 0), notice(4, 1)]), None);
    // A list of the wrong length, every entry of which is looked at all the same.
    for length in [0, 1, 3, 40, 64] {
        assert_eq!(wrong(&vec![none; length]), Some(12));
    }
    assert_eq!(wrong(&[notice(3, 1)]), Some(16));
    assert_eq!(wrong(&[none, none, notice(3, 1)]), Some(16));
    assert_eq!(wrong(&[none, none, notice(4, 1)]), Some(12));
    // 9, then 16, then 12.
    let falls = [notice(2, 1), none, none];
    assert_eq!(cause(notice(3, 0), 2, &falls, 1), Some(9));
    assert_eq!(cause(notice(0, 0), 2, &falls, 1), Some(9));
    assert_eq!(cause(notice(0, 7), 41, &falls, 1), Some(9));
    assert_eq!(cause(notice(0, 7), 2, &[none, none], 32), Some(16));
    assert_eq!(cause(notice(0, 7), 2, &[], 1), Some(16));
    assert_eq!(cause(start, 2, &falls, 1), Some(16));
    assert_eq!(cause(start, 2, &[none, none], 31), Some(12));
}

// ---- recorded runs

/// Runs by value: their heads, later notices and words, read back and played again.
#[test]
fn recorded_runs_are_read_back() {
    let calls = record::calls(record::SEED);
    let (mut with_later, mut again, mut both) = (0, 0, 0);
    for call in calls.iter().filter(|call| call.kind == b'n') {
        let (mut body, mut line) = (Bytes(&call.body), Bytes(&call.line));
        let plan = body.plan();
        let bad = second::plan::set_of(body.quad());
        let (start, rounds) = (Notice::of(body.quad()), u32::from(body.byte()));
        let later = body.later();
        let words: Vec<u32> = (0..call.lent).map(|_| body.quad()).collect();
        assert!(body.0.is_empty() && later.len() <= 64 && words.len() <= 12_000);
        let order = Order {
            plan: &plan,
            bad: &bad,
            start,
            rounds,
            later: &later,
            words: &words,
        };
        let mut records = vec![Record::waiting(); plan.n as usize];
        let answer = run(&order, &mut records, Fault::None);
        let number = answer.map_or_else(Cause::number, |()| 0);
        assert_eq!(line.byte(), number);
        let issues = later.iter().any(|&entry| !Notice::of(entry).is_silence());
        with_later += u32::from(number == 0 && issues);
        let wrong = words.len() as u32 != rounds * plan.n * plan.n || later.len() as u32 != rounds;
        both += u32::from(number == 16 && wrong);
        let taken = records
            .iter()
            .filter(|record| record.state.edition() > start.edition);
        again += u32::from(taken.count() > 1);
    }
    let counts = [with_later, again, both];
    assert!(counts.iter().all(|&count| count > 10), "{counts:?}");
}
