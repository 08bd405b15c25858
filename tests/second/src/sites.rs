//! Seeded calls of the run, right or wrong: the run of a file, with noise where nothing is looked at.

use crate::faults::Fault;
use crate::generate::{case, Kind, SORTS, VALID_SORTS};
use crate::groups::Bound;
use crate::notice::{notice, Notice};
use crate::plan::{Cause, Plan, Set};
use crate::plans::deafen;
use crate::reader::{read_run, RunFile};
use crate::records::{break_plan, some_set};
use crate::rng::Rng;
use crate::run::{later_of, run, words_of, Order};
use crate::step::Record;
use std::ops::RangeInclusive;

/// What a run is given, with its lists.
#[derive(Clone, Debug)]
pub struct Site {
    pub plan: Plan,
    pub bad: Set,
    pub start: Notice,
    pub rounds: u32,
    pub later: Vec<u32>,
    pub words: Vec<u32>,
}

/// The most later notices that a recorded call has.
pub const MOST_LATER: usize = 64;

impl Site {
    pub fn of(file: RunFile) -> Site {
        Site {
            later: later_of(&file),
            words: words_of(&file),
            plan: file.plan,
            bad: file.bad,
            start: file.start,
            rounds: file.rounds,
        }
    }

    pub fn order(&self) -> Order<'_> {
        Order {
            plan: &self.plan,
            bad: &self.bad,
            start: self.start,
            rounds: self.rounds,
            later: &self.later,
            words: &self.words,
        }
    }

    /// The records that the run leaves in a list of just so many.
    pub fn played(&self, fault: Fault) -> (Result<(), Cause>, Vec<Record>) {
        let mut records = vec![Record::waiting(); self.plan.n as usize];
        let answer = run(&self.order(), &mut records, fault);
        (answer, records)
    }
}

pub fn site_case(seed: u64, index: u64) -> Site {
    noisy_site(&mut Rng::for_case(seed, 6, index), seed, 2..=6)
}

/// The run of a file, with noise where no word is looked at and where nothing is issued; one in ten
/// has deaf terminals, which a plan record may have, and one in three is then broken.
pub fn noisy_site(rng: &mut Rng, seed: u64, sizes: RangeInclusive<u32>) -> Site {
    let file = loop {
        let turn = 10_000 + rng.below(1 << 30) as u64;
        let index = turn * SORTS + rng.below(VALID_SORTS as usize) as u64;
        match read_run(&case(Kind::Run, seed, index), Fault::None) {
            Ok(file) if sizes.contains(&file.plan.n) => break file,
            _ => continue,
        }
    };
    let mut of = Site::of(file);
    if rng.chance(10) {
        deafen(rng, &mut of.plan);
    }
    add_noise(rng, &mut of);
    if rng.chance(40) {
        break_site(rng, &mut of);
        if rng.chance(25) {
            break_site(rng, &mut of);
        }
    }
    of
}

/// A run that is right but for its lists: of the wrong length, or with an edition that is not above the
/// last, or both.
pub fn wrong_lists(rng: &mut Rng, seed: u64) -> Site {
    loop {
        let mut of = noisy_site(rng, seed, 2..=5);
        if of.played(Fault::None).0.is_err() {
            continue;
        }
        match rng.below(4) {
            0 => not_above(rng, &mut of),
            1 => {
                not_above(rng, &mut of);
                break_later_length(rng, &mut of);
            }
            _ => break_later_length(rng, &mut of),
        }
        return of;
    }
}

fn add_noise(rng: &mut Rng, of: &mut Site) {
    let n = of.plan.n as usize;
    let start = of.start;
    for (place, word) in of.words.iter_mut().enumerate() {
        let link = ((place / n % n) as u32, (place % n) as u32);
        let looked_at = of.bad.contains(&link.0) && of.plan.links.contains(&link);
        if !looked_at && rng.chance(30) {
            let high = notice(65_535, 1);
            *word = rng.pick(&[start, notice(start.edition, 3), high]).number();
        }
    }
    let share = rng.pick(&[0, 0, 20, 60]);
    for entry in of.later.iter_mut().filter(|entry| **entry == 0) {
        if rng.chance(share) {
            *entry = half_zero(rng).number();
        }
    }
}

/// Silence that is not 0.
fn half_zero(rng: &mut Rng) -> Notice {
    rng.pick(&[notice(0, 7), notice(1, 0), notice(9, 0), notice(65_535, 0)])
}

fn break_site(rng: &mut Rng, of: &mut Site) {
    let length = of.words.len();
    match rng.below(14) {
        0 => break_plan(rng, &mut of.plan),
        1 => drop(of.bad.insert(of.plan.source)),
        2 => drop(of.bad.insert(rng.between(of.plan.n.min(31), 31))),
        3 => {
            of.bad = some_set(rng, of.plan.n);
            of.bad.remove(&of.plan.source);
            if !of.plan.bound.has_groups() {
                of.plan.bound = Bound::f(0);
            }
        }
        4 => of.start.layout = 0,
        5 => of.start = notice(0, rng.pick(&[0, 7, 7])),
        6 => of.rounds = rng.pick(&[41, 255]),
        7 => {
            let short = length.saturating_sub(1);
            of.words.resize(rng.pick(&[0, short, length + 1]), 65_537);
        }
        8 | 9 => break_later_length(rng, of),
        _ => not_above(rng, of),
    }
}

/// A list of later notices that is too short or too long; what is too much is silent, rises, or does
/// not.
fn break_later_length(rng: &mut Rng, of: &mut Site) {
    let length = of.later.len();
    let longer = rng.pick(&[length + 1, length + 3, MOST_LATER]);
    let mut more = [0, half_zero(rng).number(), 0, 0];
    let last = of.later.iter().copied().map(Notice::of);
    let last = last.filter(|entry| !entry.is_silence()).max();
    let edition = last.unwrap_or(of.start).edition;
    more[2] = notice(edition.saturating_add(1), 7).number();
    more[3] = notice(edition, 7).number();
    let filling = rng.pick(&more);
    let wanted = rng.pick(&[0, length.saturating_sub(1), longer, longer]);
    of.later.resize(wanted.min(length + 1), filling);
    of.later.resize(wanted, 0);
}

/// An edition that is issued twice, or a lower one after a higher; at times beside wrong lengths.
fn not_above(rng: &mut Rng, of: &mut Site) {
    if of.later.is_empty() {
        of.later.push(notice(of.start.edition, 8).number());
        return;
    }
    let at = rng.below(of.later.len());
    let mut before = of.later[..at].iter().copied().map(Notice::of);
    let before = before.rfind(|entry| !entry.is_silence());
    let last = before.unwrap_or(of.start);
    let edition = rng.pick(&[last.edition, last.edition, last.edition.max(2) - 1, 1]);
    of.later[at] = notice(edition, 8).number();
    if rng.chance(40) {
        of.words.push(0);
    }
}
