//! The bytes of recorded calls, read back, and what the calls of the step are about.

mod common;

use common::bytes::Bytes;
use second::faults::Fault;
use second::groups::{Bound, Sort};
use second::notice::Notice;
use second::output::run_text;
use second::plan::{set_of, Cause, Set};
use second::record::{self, Call, LONGEST_BODY, LONGEST_LINE};
use second::shared::{shared_fault_cause, shared_run};
use second::shared_calls::{shared_site_case, shared_step_case, SharedSite, SharedStep};
use second::step::{shared_step, step, Place, Record, Row, State};
use second::steps::{step_case, StepCase};
use std::collections::{BTreeMap, BTreeSet};

fn step_of(call: &Call) -> StepCase {
    let mut body = Bytes(&call.body);
    let [n, source] = [(); 2].map(|()| u32::from(body.byte()));
    let bound = body.bound();
    let number = u32::from(body.byte());
    let heard = body.quad();
    let record = body.record();
    let said: Vec<u32> = (0..call.lent).map(|_| body.quad()).collect();
    assert!(body.0.is_empty());
    StepCase {
        place: Place {
            n,
            source,
            bound,
            number,
            heard: set_of(heard),
        },
        record,
        said,
    }
}

/// The number and the record that a step answers.
fn answer(case: &StepCase) -> (u8, Record) {
    match step(&case.place, case.record.clone(), &case.said, Fault::None) {
        Ok(after) => (0, after),
        Err((cause, after)) => (cause.number(), after),
    }
}

fn calls_of(kind: u8) -> Vec<Call> {
    let calls = record::calls(record::SEED).into_iter();
    calls.filter(|call| call.kind == kind).collect()
}

#[test]
fn steps_are_read_back() {
    let calls = calls_of(b's');
    assert!(calls.len() > 1000);
    for call in &calls {
        let mut line = Bytes(&call.line);
        assert_eq!((line.byte(), line.record()), answer(&step_of(call)));
        assert!(line.0.is_empty());
    }
}

/// Each terminal's record after a run, and five of them where five are lent.
#[test]
fn runs_are_read_back() {
    let mut fullest = 0;
    for call in calls_of(b'n') {
        let mut line = Bytes(&call.line);
        line.byte();
        for _ in 0..call.body[0].min(20) {
            let record = line.record();
            let count = |row: &Row| row.count;
            fullest = fullest.max(record.notes.iter().map(count).max().expect("20 rows"));
            assert!(record.notes.iter().all(|row| row.count == row.used()));
        }
        assert!(line.0.is_empty());
    }
    assert_eq!(fullest, 40);
    for call in calls_of(b'l') {
        let (mut body, mut line) = (Bytes(&call.body), Bytes(&call.line));
        body.plan();
        body.skip(4 + 4 + 1);
        body.later();
        let before: Vec<Record> = (0..5).map(|_| body.record()).collect();
        assert_eq!(body.0.len(), 4 * call.lent);
        let refused = line.byte() > 0;
        let after: Vec<Record> = (0..5).map(|_| line.record()).collect();
        assert!(line.0.is_empty());
        assert_eq!(before == after, refused);
    }
}

#[test]
fn nothing_is_longer_than_replay_reads_and_prints() {
    let calls = record::calls(record::SEED);
    let body = calls.iter().map(|call| call.body.len()).max();
    let line = calls.iter().map(|call| 2 * call.line.len()).max();
    assert!(body.expect("a call") <= LONGEST_BODY && line.expect("a call") <= LONGEST_LINE);
    let input: usize = calls.iter().map(|call| 5 + call.body.len()).sum();
    let output: usize = calls.iter().map(|call| 2 * call.line.len() + 1).sum();
    assert!(input < 3_600_000 && output < 3_600_000, "{input}, {output}");
}

// ---- wrong groups in a record

/// The one way in which a record's groups are wrong; nothing where they are right, or in two ways.
fn wrong_groups(n: u32, source: u32, bound: &Bound) -> Option<&'static str> {
    let count = if bound.has_groups() { bound.number } else { 0 };
    let members: Set = bound.listed().into_iter().flatten().collect();
    let outside: Vec<u32> = members.iter().copied().filter(|&one| one >= n).collect();
    let ways = named(&[
        ("17: no group", bound.has_groups() && count == 0),
        ("17: above 16", count > 16),
        (
            "17: past the count",
            bound.has_groups() && count > 0 && bound.used() > count,
        ),
        ("17: beside f", !bound.has_groups() && bound.used() > 0),
        ("17: the source", members.contains(&source) && source < n),
        ("17: n", outside.contains(&n)),
        ("17: above n", !outside.is_empty() && !outside.contains(&n)),
    ]);
    match ways[..] {
        [one] => Some(one),
        _ => None,
    }
}

// ---- what the steps are about

/// The edition that decides: the one that is taken, or else the highest that a neighbour has.
fn deciding(place: &Place, after: &Record) -> u16 {
    let said = place.heard.iter().map(|&j| after.row(j).edition).max();
    match after.state {
        State::Taken(_, held) => held.edition,
        State::Waiting => said.unwrap_or(0),
    }
}

/// The heard neighbours that have each layout of this edition in the record.
fn votes(place: &Place, record: &Record, edition: u16) -> BTreeMap<u16, Set> {
    let mut votes: BTreeMap<u16, Set> = BTreeMap::new();
    let of_edition = |neighbour: &&u32| record.row(**neighbour).edition == edition;
    for &neighbour in place.heard.iter().filter(of_edition) {
        for value in record.row(neighbour).noted() {
            votes.entry(value).or_default().insert(neighbour);
        }
    }
    votes
}

/// What the votes of a step with f show, where no direct word hides them.
fn marks_of_number(f: u32, votes: &BTreeMap<u16, Set>) -> Vec<&'static str> {
    let having = |wanted: u32| votes.values().filter(move |who| who.len() as u32 == wanted);
    let enough = votes.values().filter(|who| who.len() as u32 > f).count();
    named(&[
        ("several values have enough", enough > 1),
        (
            "f+1 have a value",
            enough == 1 && having(f + 1).count() == 1,
        ),
        (
            "f have a value",
            enough == 0 && f > 0 && having(f).count() > 0,
        ),
    ])
}

/// The same of a step with groups.
fn marks_of_groups(place: &Place, votes: &BTreeMap<u16, Set>) -> Vec<&'static str> {
    let groups = place.bound.listed();
    let fits = |who: &Set| groups.iter().any(|group| who.is_subset(group));
    let all: Set = groups.iter().flatten().copied().collect();
    let most = groups.iter().map(|group| group.len()).max().expect("one");
    let least = groups.iter().map(|group| group.len()).min().expect("one");
    let (not, enough): (Vec<&Set>, Vec<&Set>) = votes.values().partition(|who| fits(who));
    let some = |sets: &[&Set], holds: &dyn Fn(&Set) -> bool| sets.iter().any(|who| holds(who));
    named(&[
        ("groups: two values have enough", enough.len() > 1),
        (
            "groups: the smallest value has not enough, another has",
            !enough.is_empty() && votes.values().next().is_some_and(fits),
        ),
        (
            "groups: several fit in one",
            enough.is_empty() && some(&not, &|who| who.len() > 1),
        ),
        (
            "groups: in one, and more than another has",
            enough.is_empty() && some(&not, &|who| who.len() > least),
        ),
        (
            "groups: a whole one",
            enough.is_empty() && some(&not, &|who| who.len() > 1 && groups.contains(who)),
        ),
        (
            "groups: in no single one, but in all together",
            enough.len() == 1 && some(&enough, &|who| who.is_subset(&all)),
        ),
        (
            "groups: enough, and no more than one has",
            enough.len() == 1 && some(&enough, &|who| who.len() <= most),
        ),
        (
            "groups: one that is in none",
            enough.len() == 1 && some(&enough, &|who| who.len() == 1),
        ),
        (
            "groups: the source among the voters",
            some(&enough[..enough.len().min(1)], &|who| {
                who.contains(&place.source)
            }),
        ),
        (
            "groups: fit in the last only",
            enough.is_empty()
                && some(&not, &|who| {
                    let holding = groups.iter().filter(|group| who.is_subset(group));
                    holding.count() == 1 && who.is_subset(&groups[groups.len() - 1])
                })
                && groups.len() > 1,
        ),
        (
            "groups: an empty one alone",
            all.is_empty() && !votes.is_empty(),
        ),
    ])
}

/// The names of what holds.
fn named(marks: &[(&'static str, bool)]) -> Vec<&'static str> {
    let holding = marks.iter().filter(|mark| mark.1);
    holding.map(|mark| mark.0).collect()
}

/// What an accepted step on a waiting record shows.
fn marks_of_waiting(case: &StepCase, after: &Record) -> Vec<&'static str> {
    let (place, before) = (&case.place, &case.record);
    let source = before.row(place.source);
    let heard_source = place.heard.contains(&place.source);
    let edition = deciding(place, after);
    let first = after.row(place.source);
    let direct = heard_source && first.edition == edition && first.count > 0 && first.at(0) > 0;
    let lone = |held: Notice| {
        let only = |j: &u32| *after.row(*j) == Row::of(held.edition, &[held.layout]);
        place.heard.iter().any(only)
    };
    let no_lone_voter = matches!(after.state, State::Taken(_, held) if !direct && !lone(held));
    let written = |j: &u32| before.row(*j).count == 39 && after.row(*j).count == 40;
    let known = |j: &u32| {
        let (row, word) = (before.row(*j), Notice::of(case.said[*j as usize]));
        row.edition == word.edition && row.noted().contains(&word.layout)
    };
    let mut marks = named(&[
        ("direct", direct),
        ("no voter has said only this", no_lone_voter),
        (
            "0 in the source's first place",
            heard_source && source.count > 0 && source.at(0) == 0,
        ),
        (
            "noise in the source's first place",
            heard_source && source.count == 0 && source.at(0) > 0,
        ),
        ("the last place is written", place.heard.iter().any(written)),
        ("an equal word", place.heard.iter().any(known)),
    ]);
    if !direct {
        let votes = votes(place, after, edition);
        marks.extend(match place.bound.sort {
            Sort::Number => marks_of_number(place.bound.number, &votes),
            Sort::Groups => marks_of_groups(place, &votes),
        });
    }
    marks
}

/// What the rows of an accepted step are.
fn marks_of_rows(case: &StepCase) -> Vec<&'static str> {
    let round = case.record.round;
    let mut marks = Vec::new();
    for (terminal, row) in (0..).zip(&case.record.notes) {
        let values = row.noted();
        let different: BTreeSet<u16> = values.iter().copied().collect();
        let noise = row.used() > row.count;
        if !case.place.heard.contains(&terminal) {
            marks.extend(noise.then_some("noise, not heard"));
            marks.extend((row.count > round).then_some("too many, not heard"));
            marks.extend((row.count > 40).then_some("above 40, not heard"));
            continue;
        }
        marks.extend(noise.then_some("noise"));
        let (repeated, zero) = (
            different.len() < values.len(),
            values.len() < row.count as usize,
        );
        marks.extend(repeated.then_some("repeated"));
        marks.extend((repeated && round == 39).then_some("repeated at 39"));
        marks.extend(zero.then_some("zero"));
        marks.extend((zero && round == 1).then_some("zero at 1"));
        marks.extend((zero && round == 39).then_some("zero at 39"));
        if row.count == round {
            marks.extend((round == 1).then_some("full at 1"));
            marks.extend((round == 39).then_some("full at 39"));
            marks.extend((2..39).contains(&round).then_some("full"));
        }
    }
    marks
}

/// What is refused because a neighbour has too many values, or would be but for another cause.
fn marks_of_refused(case: &StepCase, number: u8) -> Vec<&'static str> {
    let (place, record) = (&case.place, &case.record);
    let mut heard = place.heard.iter().filter(|&&j| j < 20);
    if !heard.any(|&j| record.row(j).count > record.round) {
        return Vec::new();
    }
    let (right, taken) = match record.state {
        State::Waiting => (place.number != place.source, false),
        State::Taken(at, held) => (at <= record.round && !held.is_silence(), true),
    };
    let alone = right && record.round < 40 && place.number < place.n;
    let mark = match number {
        4 => "too many, beside 4",
        5 => "too many, beside 5",
        13 if alone && case.said.len() != place.n as usize => "too many, beside 12",
        13 if alone && taken => "too many, taken",
        13 if alone && record.round == 0 => "too many at 0",
        13 if alone && record.round == 1 => "too many at 1",
        13 if alone && record.round == 39 => "too many at 39",
        13 if alone => "too many",
        _ => return Vec::new(),
    };
    vec![mark]
}

/// Which way the groups are wrong, and what else is.
fn marks_of_wrong_groups(case: &StepCase, number: u8) -> Vec<&'static str> {
    let place = &case.place;
    let Some(way) = wrong_groups(place.n, place.source, &place.bound) else {
        return Vec::new();
    };
    let wrong_record = || {
        let mut right = case.clone();
        right.place.bound = Bound::f(0);
        answer(&right).0
    };
    let beside = match number {
        4 => "17, beside 4",
        5 => "17, beside 5",
        17 if wrong_record() == 13 => "17, beside 13",
        17 if wrong_record() == 12 => "17, beside 12",
        _ => return vec![way],
    };
    vec![beside]
}

fn marks(case: &StepCase) -> Vec<&'static str> {
    let (number, after) = answer(case);
    if number > 0 {
        let many = marks_of_refused(case, number);
        return [many, marks_of_wrong_groups(case, number)].concat();
    }
    let mut marks = marks_of_rows(case);
    if case.record.state == State::Waiting {
        marks.extend(marks_of_waiting(case, &after));
    } else if (0..)
        .zip(&case.said)
        .any(|(j, &word)| word > 0 && case.place.heard.contains(&j))
    {
        marks.push("words to a taken one");
    }
    marks
}

const NEEDED: [&str; 53] = [
    "17: no group",
    "17: above 16",
    "17: past the count",
    "17: beside f",
    "17: the source",
    "17: n",
    "17: above n",
    "17, beside 4",
    "17, beside 5",
    "17, beside 13",
    "17, beside 12",
    "groups: two values have enough",
    "groups: the smallest value has not enough, another has",
    "groups: several fit in one",
    "groups: in one, and more than another has",
    "groups: a whole one",
    "groups: in no single one, but in all together",
    "groups: enough, and no more than one has",
    "groups: one that is in none",
    "groups: the source among the voters",
    "groups: fit in the last only",
    "groups: an empty one alone",
    "direct",
    "several values have enough",
    "no voter has said only this",
    "f+1 have a value",
    "f have a value",
    "0 in the source's first place",
    "noise in the source's first place",
    "the last place is written",
    "an equal word",
    "words to a taken one",
    "noise",
    "noise, not heard",
    "repeated",
    "repeated at 39",
    "zero",
    "zero at 1",
    "zero at 39",
    "full",
    "full at 1",
    "full at 39",
    "too many",
    "too many at 0",
    "too many at 1",
    "too many at 39",
    "too many, taken",
    "too many, not heard",
    "above 40, not heard",
    "too many, beside 4",
    "too many, beside 5",
    "too many, beside 12",
    "round 0",
];

fn tally(cases: impl Iterator<Item = StepCase>) -> BTreeMap<&'static str, u32> {
    let mut seen = BTreeMap::new();
    for case in cases {
        let mut marks: BTreeSet<&str> = marks(&case).into_iter().collect();
        if case.record.round == 0 && answer(&case).0 == 0 {
            marks.insert("round 0");
        }
        for mark in marks {
            *seen.entry(mark).or_insert(0) += 1;
        }
    }
    seen
}

/// Among fresh steps and among recorded ones.
#[test]
fn needed_steps_are_there() {
    let fresh = tally((0..2000).map(|index| step_case(1, index)));
    let recorded = tally(calls_of(b's').iter().map(step_of));
    for name in NEEDED {
        for seen in [&fresh, &recorded] {
            let count = seen.get(name).copied().unwrap_or(0);
            assert!(count >= 4, "{name}: {count}");
        }
    }
}

// ---- one radio for all

/// The calls in the mode: what a step is given.
fn shared_step_of(call: &Call) -> SharedStep {
    let mut body = Bytes(&call.body);
    let [n, source] = [(); 2].map(|()| u32::from(body.byte()));
    let bound = body.bound();
    let number = u32::from(body.byte());
    let heard = set_of(body.quad());
    let record = body.record();
    let default = body.pair();
    let said: Vec<u16> = (0..call.lent).map(|_| body.pair()).collect();
    assert!(body.0.is_empty() && said.len() <= 64);
    let place = Place {
        n,
        source,
        bound,
        number,
        heard,
    };
    SharedStep {
        place,
        record,
        default,
        said,
    }
}

fn shared_answer(case: &SharedStep) -> (u8, Record) {
    let record = case.record.clone();
    match shared_step(&case.place, record, case.default, &case.said, Fault::None) {
        Ok(after) => (0, after),
        Err((cause, after)) => (cause.number(), after),
    }
}

#[test]
fn shared_steps_are_read_back() {
    let calls = calls_of(b'S');
    assert!(calls.len() > 450, "{}", calls.len());
    for call in &calls {
        let mut line = Bytes(&call.line);
        let answer = shared_answer(&shared_step_of(call));
        assert_eq!((line.byte(), line.record()), answer);
        assert!(line.0.is_empty());
    }
}

/// What an accepted step of the mode is about.
fn marks_of_shared(case: &SharedStep, after: &Record) -> Vec<&'static str> {
    let (place, before) = (&case.place, &case.record);
    let word = case.said[place.source as usize];
    let hears = place.heard.contains(&place.source);
    let waits = before.state == State::Waiting;
    let first = before.round == 0 && waits && hears;
    let numbers: Vec<u32> = case
        .said
        .iter()
        .map(|&layout| u32::from(layout) + 65_536 * u32::from(layout > 0))
        .collect();
    let old = step(place, before.clone(), &numbers, Fault::None).expect("accepted");
    let others = votes(place, after, 1);
    let agree = others.iter().any(|(&layout, who)| {
        let enough = match place.bound.sort {
            Sort::Number => who.len() as u32 > place.bound.number,
            Sort::Groups => !place.bound.listed().iter().any(|g| who.is_subset(g)),
        };
        enough && layout != word && layout != case.default
    });
    let row = before.row(place.source);
    let later = before.round > 0 && waits && hears;
    named(&[
        ("the word", first && word > 0),
        ("the default", first && word == 0),
        ("the word, others agree", first && word > 0 && agree),
        ("the default, others agree", first && word == 0 && agree),
        ("the word, hidden", first && word > 0 && row.edition > 1),
        ("the default, noise", first && word == 0 && row.at(0) > 0),
        (
            "not heard, said",
            before.round == 0 && waits && !hears && word > 0 && after.state == State::Waiting,
        ),
        (
            "not heard, votes",
            before.round == 0 && waits && !hears && after.state != State::Waiting,
        ),
        ("the source", place.number == place.source),
        (
            "taken in round 0",
            before.round == 0 && !waits && hears && place.number != place.source,
        ),
        (
            "later, nothing",
            later && after.row(place.source).count == 0 && after.state == State::Waiting,
        ),
        (
            "later, direct",
            later && row.count > 0 && row.at(0) > 0 && row.at(0) != word && word > 0,
        ),
        ("later, takes", later && after.state != State::Waiting),
        ("otherwise than the old step", *after != old),
        ("as the old step", *after == old),
        ("with groups", first && place.bound.has_groups()),
    ])
}

/// A refused one: with a default and without, and what it would get for the other reasons.
fn marks_of_shared_refused(case: &SharedStep, number: u8) -> Vec<&'static str> {
    let with_default = SharedStep {
        default: 1,
        ..case.clone()
    };
    let short = case.said.len() != case.place.n as usize;
    let other = shared_answer(&with_default).0;
    let mark = match (number, case.default, other) {
        (9, 0, 0) => "9",
        (9, 0, 13) if short => "9, beside 13 and 12",
        (9, 0, 13) => "9, beside 13",
        (9, 0, 12) => "9, beside 12",
        (4, 0, _) => "4, beside 9",
        (5, 0, _) => "5, beside 9",
        (17, 0, _) => "17, beside 9",
        (13, _, _) if short => "13, beside 12",
        (13, _, _) => "13",
        (12, _, _) => "12",
        _ => return Vec::new(),
    };
    vec![mark]
}

const NEEDED_SHARED: [&str; 26] = [
    "the word",
    "the default",
    "the word, others agree",
    "the default, others agree",
    "the word, hidden",
    "the default, noise",
    "not heard, said",
    "not heard, votes",
    "the source",
    "taken in round 0",
    "later, nothing",
    "later, direct",
    "later, takes",
    "otherwise than the old step",
    "as the old step",
    "with groups",
    "9",
    "9, beside 13",
    "9, beside 12",
    "9, beside 13 and 12",
    "4, beside 9",
    "5, beside 9",
    "17, beside 9",
    "13, beside 12",
    "13",
    "12",
];

fn shared_tally(cases: impl Iterator<Item = SharedStep>) -> BTreeMap<&'static str, u32> {
    let mut seen = BTreeMap::new();
    for case in cases {
        let (number, after) = shared_answer(&case);
        let marks = match number {
            0 => marks_of_shared(&case, &after),
            _ => marks_of_shared_refused(&case, number),
        };
        for mark in marks {
            *seen.entry(mark).or_insert(0) += 1;
        }
    }
    seen
}

/// Among fresh steps and among recorded ones.
#[test]
fn needed_shared_steps_are_there() {
    let fresh = shared_tally((0..1000).map(|index| shared_step_case(1, index)));
    let recorded = shared_tally(calls_of(b'S').iter().map(shared_step_of));
    for name in NEEDED_SHARED {
        for seen in [&fresh, &recorded] {
            let count = seen.get(name).copied().unwrap_or(0);
            assert!(count >= 3, "{name}: {count} of {seen:?}");
        }
    }
}

/// What a run of the mode is given, and the five records where five are lent.
fn shared_site_of(call: &Call) -> (SharedSite, Vec<Record>) {
    let mut body = Bytes(&call.body);
    let plan = body.plan();
    let bad = set_of(body.quad());
    let (value, default, rounds) = (body.pair(), body.pair(), u32::from(body.byte()));
    let lent = if call.kind == b'L' { 5 } else { 0 };
    let before = (0..lent).map(|_| body.record()).collect();
    let words = (0..call.lent).map(|_| body.pair()).collect();
    assert!(body.0.is_empty());
    let site = SharedSite {
        plan,
        bad,
        value,
        default,
        rounds,
        words,
    };
    (site, before)
}

#[test]
fn shared_runs_are_read_back() {
    let calls = calls_of(b'N');
    assert!(calls.len() > 230, "{}", calls.len());
    let mut fullest = 0;
    for call in &calls {
        let mut line = Bytes(&call.line);
        let (answer, records) = shared_site_of(call).0.played(Fault::None);
        assert_eq!(line.byte(), answer.map_or_else(Cause::number, |()| 0));
        for record in records.iter().take(20) {
            fullest = fullest.max(
                record
                    .notes
                    .iter()
                    .map(|row| row.count)
                    .max()
                    .expect("rows"),
            );
            assert_eq!(line.record(), *record);
        }
        assert!(line.0.is_empty());
    }
    assert_eq!(fullest, 40);
    let calls = calls_of(b'L');
    assert!(calls.len() > 90, "{}", calls.len());
    for call in &calls {
        let mut line = Bytes(&call.line);
        let (site, before) = shared_site_of(call);
        let mut after = before.clone();
        let answer = shared_run(&site.order(), &mut after, Fault::None);
        assert_eq!(answer.is_err(), after == before);
        assert_eq!(line.byte(), answer.map_or_else(Cause::number, |()| 0));
        assert!(after.iter().all(|record| line.record() == *record));
        assert!(line.0.is_empty());
    }
}

/// What a run of the mode is about.
fn marks_of_channel(site: &SharedSite) -> Vec<&'static str> {
    let (plan, n) = (&site.plan, site.plan.n);
    let number = site
        .played(Fault::None)
        .0
        .map_or_else(Cause::number, |()| 0);
    let source_bad = site.bad.contains(&plan.source);
    if number > 0 {
        let many = site.words.len() as u32 == site.rounds * n * n;
        return named(&[
            (
                "a bad source, value 0",
                number == 9 && source_bad && site.value == 0,
            ),
            ("default 0", number == 9 && site.default == 0),
            ("words by hearer", number == 12 && many && n > 1),
            ("over the bound, with the source", number == 8 && source_bad),
            ("over the bound, without it", number == 8 && !source_bad),
            ("too large, beside the source", number == 7 && source_bad),
        ]);
    }
    let said = |round: u32, from: u32| match round <= site.rounds {
        true => site.words[((round - 1) * n + from) as usize],
        false => 0,
    };
    let spoken: Vec<u16> = (1..=site.rounds).map(|r| said(r, plan.source)).collect();
    let different: BTreeSet<u16> = spoken.iter().copied().filter(|&word| word > 0).collect();
    let near = site
        .bad
        .iter()
        .any(|&one| plan.links.contains(&(plan.source, one)));
    let good_entry = (0..n)
        .filter(|one| !site.bad.contains(one))
        .any(|one| (1..=site.rounds).any(|round| said(round, one) > 0));
    let first = spoken.first().copied().unwrap_or(0);
    named(&[
        ("a good source", !source_bad),
        (
            "a bad source is silent",
            source_bad && site.rounds > 1 && different.is_empty(),
        ),
        ("a bad source speaks", source_bad && first > 0),
        (
            "a bad source speaks late",
            source_bad && first == 0 && !different.is_empty(),
        ),
        (
            "a bad source says several",
            source_bad && first > 0 && different.len() > 1,
        ),
        ("a bad source and a bad hearer of it", source_bad && near),
        (
            "a bad source and groups",
            source_bad && plan.bound.has_groups(),
        ),
        ("entries of good ones", good_entry),
        ("no round", site.rounds == 0),
        (
            "the source hears",
            source_bad && !plan.heard_by(plan.source).is_empty(),
        ),
        ("nobody is good", site.bad.len() as u32 == n),
    ])
}

const NEEDED_CHANNELS: [&str; 16] = [
    "a bad source, value 0",
    "default 0",
    "words by hearer",
    "over the bound, with the source",
    "over the bound, without it",
    "too large, beside the source",
    "a good source",
    "a bad source is silent",
    "a bad source speaks",
    "a bad source speaks late",
    "a bad source says several",
    "a bad source and a bad hearer of it",
    "a bad source and groups",
    "entries of good ones",
    "no round",
    "the source hears",
];

#[test]
fn needed_shared_runs_are_there() {
    let tally = |sites: Vec<SharedSite>| -> BTreeMap<&'static str, u32> {
        let mut seen = BTreeMap::new();
        for mark in sites.iter().flat_map(marks_of_channel) {
            *seen.entry(mark).or_insert(0) += 1;
        }
        seen
    };
    let fresh = tally((0..600).map(|index| shared_site_case(1, index)).collect());
    let of_kind = |kind: u8| {
        let calls = calls_of(kind);
        let sites = calls.iter().map(|call| shared_site_of(call).0);
        tally(sites.collect())
    };
    for (seen, least) in [(fresh, 3), (of_kind(b'N'), 2)] {
        for name in NEEDED_CHANNELS {
            let count = seen.get(name).copied().unwrap_or(0);
            assert!(count >= least, "{name}: {count} of {seen:?}");
        }
    }
    let lent = of_kind(b'L');
    for name in [
        "a bad source speaks",
        "a bad source is silent",
        "a good source",
    ] {
        assert!(
            lent.get(name).copied().unwrap_or(0) >= 3,
            "{name} of {lent:?}"
        );
    }
}

/// The check of a bad set: what the source changes, and what it does not.
#[test]
fn needed_shared_sets_are_there() {
    let calls = calls_of(b'C');
    assert!(calls.len() >= 140, "{}", calls.len());
    let mut seen: BTreeMap<&'static str, u32> = BTreeMap::new();
    for call in &calls {
        let mut body = Bytes(&call.body);
        let plan = body.plan();
        let bad = set_of(body.quad());
        assert!(body.0.is_empty() && call.line.len() == 1);
        let number = call.line[0];
        let answer = shared_fault_cause(&plan, &bad, Fault::None);
        assert_eq!(number, answer.map_or_else(Cause::number, |()| 0));
        let source = bad.contains(&plan.source);
        let mut unheard = plan.clone();
        unheard.links.retain(|link| link.1 != plan.source);
        let at_source = || shared_fault_cause(&unheard, &bad, Fault::None).is_ok();
        let counted = || shared_fault_cause(&plan, &bad, Fault::SourceCountedAsBad).is_err();
        let marks = named(&[
            (
                "accepted with the source",
                number == 0 && source && bad.len() > 1,
            ),
            (
                "accepted without it",
                number == 0 && !source && !bad.is_empty(),
            ),
            (
                "just within the bound beside the source",
                number == 0 && source && counted(),
            ),
            (
                "over it at a bad source alone",
                number == 8 && source && at_source(),
            ),
            (
                "over it at a good source alone",
                number == 8 && !source && at_source(),
            ),
            ("outside, beside the source", number == 7 && source),
            (
                "groups and the source",
                number == 0 && source && plan.bound.has_groups(),
            ),
            (
                "no group, with the source",
                number == 8 && source && plan.bound.has_groups(),
            ),
        ]);
        marks
            .into_iter()
            .for_each(|mark| *seen.entry(mark).or_insert(0) += 1);
    }
    assert_eq!(seen.len(), 8, "{seen:?}");
    assert!(seen.values().all(|&count| count >= 2), "{seen:?}");
}

/// Files of the mode among the recorded texts and reads: accepted ones, and every way of a wrong line.
#[test]
fn recorded_files_of_the_mode() {
    let has_default = |text: &[u8]| {
        let mut lines = text.split(|&byte| byte == 10);
        lines.any(|line| line.starts_with(b"09") && line.len() == 6)
    };
    for (kind, skipped, accepted) in [(b'r', 0, 120), (b'f', 1, 30)] {
        let calls = calls_of(kind).into_iter();
        let of_mode: Vec<Call> = calls
            .filter(|call| has_default(&call.body[skipped..]))
            .collect();
        let right = of_mode.iter().filter(|call| call.line[0] == 0).count();
        assert!(right > accepted, "{right}");
        let numbers: BTreeSet<u8> = of_mode.iter().map(|call| call.line[0]).collect();
        for number in [0, 2, 3, 7, 8, 9, 10, 11, 15, 17] {
            assert!(numbers.contains(&number), "{number} of {numbers:?}");
        }
        let texts: BTreeSet<&[u8]> = of_mode.iter().map(|call| &call.body[skipped..]).collect();
        let faults = second::planted_shared::PLANTED
            .iter()
            .map(|planted| planted.0);
        let shown = faults.filter(|&fault| {
            let mut texts = texts.iter();
            texts.any(|text| run_text(text, fault) != run_text(text, Fault::None))
        });
        assert!(shown.count() > 45, "few of the planted faults show");
    }
}
