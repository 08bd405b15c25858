//! Seeded calls of the step, the run and the check of a bad set where one radio is for all, right or
//! wrong.

use crate::channel::{some_channel, Channel};
use crate::faults::Fault;
use crate::groups::Bound;
use crate::notice::{notice, Notice};
use crate::plan::{Cause, Plan, Set};
use crate::plans::{deafen, hear_at_source};
use crate::records::{break_bound, break_plan, some_plan, some_set};
use crate::rng::Rng;
use crate::shared::{shared_run, SharedOrder};
use crate::shared_files::{over_at_source, proposed_set};
use crate::step::{Place, Record, Row, State};
use crate::steps::{step_case, StepCase};
use std::ops::RangeInclusive;

// ---- the step

/// One call of the step in this mode.
#[derive(Clone, Debug)]
pub struct SharedStep {
    pub place: Place,
    pub record: Record,
    pub default: u16,
    pub said: Vec<u16>,
}

/// The calls of the other step with layouts for words; half of them in the round that takes what the
/// source says.
pub fn shared_step_case(seed: u64, index: u64) -> SharedStep {
    let mut rng = Rng::for_case(seed, 8, index);
    let mut case = step_case(seed, 3_000_000 + index);
    if rng.chance(75) {
        lower_editions(&mut case);
    }
    let turn = rng.below(100);
    let first = turn < 50;
    match turn {
        0..=49 => to_the_start(&mut rng, &mut case),
        50..=69 => to_a_later_round(&mut rng, &mut case),
        _ => {}
    }
    let layout = |&number: &u32| Notice::of(number).layout;
    let mut call = SharedStep {
        said: case.said.iter().map(layout).collect(),
        place: case.place,
        record: case.record,
        default: rng.pick(&[1, 7, 255, 256, 4660, 65_535]),
    };
    if first {
        source_says(&mut rng, &mut call);
    }
    if rng.chance(12) {
        call.default = 0;
    }
    if rng.chance(10) {
        break_beside_default(&mut rng, &mut call);
    }
    call
}

/// All editions become 1, as they are in a run of this mode.
fn lower_editions(case: &mut StepCase) {
    for row in &mut case.record.notes {
        row.edition = row.edition.min(1);
    }
    if let State::Taken(round, held) = case.record.state {
        let held = notice(held.edition.min(1), held.layout);
        case.record.state = State::Taken(round, held);
    }
}

/// Round 0: mostly waiting, mostly hearing the source, and nothing noted of anybody that is heard,
/// whatever stands in the places.
fn to_the_start(rng: &mut Rng, case: &mut StepCase) {
    let place = &mut case.place;
    case.record.round = 0;
    for &neighbour in place.heard.iter().filter(|&&neighbour| neighbour < 20) {
        let row = &mut case.record.notes[neighbour as usize];
        row.count = match rng.chance(2) {
            true => 1,
            false => 0,
        };
    }
    if place.number == place.source {
        return;
    }
    case.record.state = match rng.chance(85) {
        true => State::Waiting,
        false => State::Taken(0, notice(1, 8)),
    };
    if rng.chance(70) && place.source < place.n {
        place.heard.insert(place.source);
        *case.record.row_mut(place.source) = empty_row(rng);
    }
}

/// Waiting after some rounds, and hearing the source, which has said something else before or nothing
/// yet: the first rounds of a terminal that was handed in late.
fn to_a_later_round(rng: &mut Rng, case: &mut StepCase) {
    let place = &mut case.place;
    if place.number == place.source || place.source >= place.n {
        return;
    }
    let round = rng.pick(&[1, 1, 2, 39]);
    case.record.round = round;
    case.record.state = State::Waiting;
    for &neighbour in place.heard.iter().filter(|&&neighbour| neighbour < 20) {
        let row = &mut case.record.notes[neighbour as usize];
        row.count = row.count.min(round);
    }
    place.heard.insert(place.source);
    *case.record.row_mut(place.source) = match rng.below(3) {
        0 => Row::of(1, &[rng.pick(&[3, 8])]),
        _ => empty_row(rng),
    };
    let word = rng.pick(&[0, 0, 9]);
    if let Some(said) = case.said.get_mut(place.source as usize) {
        *said = notice(1, word).number();
    }
    if rng.chance(60) {
        // Nobody else says anything, so that many wait on.
        case.said
            .iter_mut()
            .for_each(|said| *said *= u32::from(rng.chance(15)));
    }
}

/// Nothing noted; seldom an edition that hides this round's word, or something in the first place.
fn empty_row(rng: &mut Rng) -> Row {
    let mut row = Row::of(rng.pick(&[0, 0, 0, 1, 2, 65_535]), &[]);
    if rng.chance(15) {
        row.put(0, 5);
    }
    row
}

/// The source says something or nothing; often enough others agree on something else, smaller or
/// greater.
fn source_says(rng: &mut Rng, call: &mut SharedStep) {
    let word = rng.pick(&[0, 0, 0, 7, 9, 300]);
    if let Some(said) = call.said.get_mut(call.place.source as usize) {
        *said = word;
    }
    let source = call.place.source as usize;
    if !call.place.heard.contains(&call.place.source) && rng.chance(40) {
        // Only the source speaks, to one that does not hear it.
        call.said.fill(0);
        call.said
            .get_mut(source)
            .into_iter()
            .for_each(|said| *said = 7);
    } else if rng.chance(40) {
        let others = rng.pick(&[1, 5, 65_534]);
        for (sender, said) in call.said.iter_mut().enumerate() {
            if sender != source && rng.chance(80) {
                *said = others;
            }
        }
    }
}

/// No default, beside each of the other causes; or a wrong record beside a wrong list.
fn break_beside_default(rng: &mut Rng, call: &mut SharedStep) {
    let way = rng.below(8);
    if way < 6 {
        call.default = 0;
    }
    let place = &mut call.place;
    match way {
        0 => place.n = rng.pick(&[0, 1, 21]),
        1 => drop(place.heard.insert(place.number)),
        2 => break_bound(rng, &mut place.bound, place.n, place.source),
        3 => call.record.round = 40,
        4 => call.said.push(7),
        _ => {
            call.record.round = 40;
            call.said.push(7);
        }
    }
}

// ---- the run

/// What a run of this mode is given, with its list.
#[derive(Clone, Debug)]
pub struct SharedSite {
    pub plan: Plan,
    pub bad: Set,
    pub value: u16,
    pub default: u16,
    pub rounds: u32,
    pub words: Vec<u16>,
}

impl SharedSite {
    pub fn of(channel: &Channel) -> SharedSite {
        let (n, rounds) = (channel.plan.n, channel.played());
        let mut words = vec![0; (rounds * n) as usize];
        for (&(round, from), &layout) in &channel.words {
            words[((round - 1) * n + from) as usize] = layout;
        }
        SharedSite {
            plan: channel.plan.clone(),
            bad: channel.bad.clone(),
            value: channel.value,
            default: channel.default,
            rounds,
            words,
        }
    }

    pub fn order(&self) -> SharedOrder<'_> {
        SharedOrder {
            plan: &self.plan,
            bad: &self.bad,
            value: self.value,
            default: self.default,
            rounds: self.rounds,
            words: &self.words,
        }
    }

    /// The records that the run leaves in a list of just so many.
    pub fn played(&self, fault: Fault) -> (Result<(), Cause>, Vec<Record>) {
        let mut records = vec![Record::waiting(); self.plan.n as usize];
        let answer = shared_run(&self.order(), &mut records, fault);
        (answer, records)
    }
}

pub fn shared_site_case(seed: u64, index: u64) -> SharedSite {
    noisy_channel(&mut Rng::for_case(seed, 9, index), 2..=7)
}

/// A run with noise where no word is looked at; one in ten has deaf terminals, which a plan record may
/// have, and one in three is then broken.
pub fn noisy_channel(rng: &mut Rng, sizes: RangeInclusive<u32>) -> SharedSite {
    let n = rng.between(*sizes.start(), *sizes.end());
    let mut of = SharedSite::of(&some_channel(rng, n));
    if rng.chance(10) {
        deafen(rng, &mut of.plan);
    }
    add_noise(rng, &mut of);
    if rng.chance(35) {
        break_channel(rng, &mut of);
        if rng.chance(35) {
            break_channel(rng, &mut of);
        }
    }
    of
}

/// Entries of good senders say what is true, or something else.
fn add_noise(rng: &mut Rng, of: &mut SharedSite) {
    let n = of.plan.n as usize;
    let share = rng.pick(&[0, 30, 100]);
    for (place, word) in of.words.iter_mut().enumerate() {
        let good = !of.bad.contains(&((place % n) as u32));
        if good && rng.chance(share) {
            *word = rng.pick(&[of.value, of.default, 3, 65_535]);
        }
    }
}

fn break_channel(rng: &mut Rng, of: &mut SharedSite) {
    let length = of.words.len();
    match rng.below(13) {
        0 | 1 => break_plan(rng, &mut of.plan),
        2 => drop(of.bad.insert(rng.between(of.plan.n.min(31), 31))),
        3 | 4 => {
            of.bad = some_set(rng, of.plan.n);
            if !of.plan.bound.has_groups() {
                of.plan.bound = Bound::f(0);
            }
        }
        5 if of.plan.check(Fault::None).is_ok() => of.bad = proposed_set(rng, &of.plan),
        6 => of.value = 0,
        7 => {
            of.value = 0;
            of.bad = Set::from([of.plan.source.min(31)]);
        }
        8 => of.default = 0,
        9 => of.rounds = rng.pick(&[41, 255]),
        10 => of.words.resize(length * of.plan.n as usize, 1),
        _ => {
            let wanted = rng.pick(&[0, length.saturating_sub(1), length + 1]);
            of.words.resize(wanted, 1);
        }
    }
}

// ---- the check of a bad set

/// A plan record, right or wrong, and a set that is proposed.
pub fn shared_set_case(seed: u64, index: u64) -> (Plan, Set) {
    let mut rng = Rng::for_case(seed, 10, index);
    if index % 8 == 7 {
        return over_at_source(&mut rng);
    }
    let mut plan = some_plan(&mut rng, if index.is_multiple_of(8) { 20 } else { 8 });
    if rng.chance(40) && plan.n >= 2 && plan.source < plan.n.min(20) {
        hear_at_source(&mut rng, &mut plan);
    }
    let right = plan.check(Fault::None).is_ok();
    let bad = match right && rng.chance(60) {
        true => proposed_set(&mut rng, &plan),
        false => some_set(&mut rng, plan.n),
    };
    (plan, bad)
}
