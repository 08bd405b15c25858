//! What the office says in a run, and what liars make of it.

use crate::notice::{notice, Form, Notice, OLD_EDITION};
use crate::plan::Set;
use crate::rng::Rng;
use std::collections::{BTreeMap, BTreeSet};

/// The start, and the later notices by round.
#[derive(Clone, Debug)]
pub struct Office {
    pub form: Form,
    pub start: Notice,
    pub later: BTreeMap<u32, Notice>,
}

/// How the liars talk.
#[derive(Clone, Copy, Debug, PartialEq, Eq)]
pub enum Manner {
    Silent,
    /// Other words to each neighbour in every round.
    Wild,
    /// The same word to one neighbour, round after round.
    Steady,
    /// A lie at first, later the truth.
    Turncoat,
    /// The truth at first, later a lie.
    Faithless,
    /// All the same lies, but each liar one round after the one before it.
    Staggered,
    /// A lie that is new in each round, all in one edition; the truth in the last.
    Flood,
    /// High editions early, low ones and the truth late.
    Forward,
    /// The truth early, high editions late.
    Backward,
    /// The truth, in this round alone.
    Once(u32),
}

const EDITIONS: [u16; 9] = [1, 1, 1, 2, 7, 255, 256, 65_000, 65_535];
const LAYOUTS: [u16; 6] = [1, 7, 255, 256, 4660, 65_535];

/// Of a hundred run files so many have editions, and of these so many a later notice.
const NEW: u32 = 50;
const MINDS_CHANGE: u32 = 65;

impl Office {
    /// An office that says one layout, in the old frames.
    pub fn old(layout: u16) -> Office {
        Office {
            form: Form::Old,
            start: notice(OLD_EDITION, layout),
            later: BTreeMap::new(),
        }
    }

    /// An office that starts with this notice, in the new frames.
    pub fn new(start: Notice) -> Office {
        Office {
            form: Form::New,
            start,
            later: BTreeMap::new(),
        }
    }

    /// The round of the last notice, and the notice; round 0 is the start's.
    pub fn last(&self) -> (u32, Notice) {
        let last = self.later.last_key_value();
        last.map_or((0, self.start), |(&round, &later)| (round, later))
    }

    /// What was issued last before this round.
    pub fn truth(&self, round: u32) -> Notice {
        let before = self.later.range(..round).next_back();
        before.map_or(self.start, |(_, &later)| later)
    }

    /// All that is issued, early or late.
    fn issued(&self) -> Vec<Notice> {
        let later = self.later.values();
        [self.start].into_iter().chain(later.copied()).collect()
    }
}

/// An office in either form, for so many rounds.
pub fn some_office(rng: &mut Rng, rounds: u32) -> Office {
    let layout = rng.pick(&LAYOUTS);
    if !rng.chance(NEW) {
        return Office::old(layout);
    }
    let mut office = Office::new(notice(rng.pick(&EDITIONS), layout));
    if rounds > 0 && rng.chance(MINDS_CHANGE) {
        change_mind(rng, &mut office, rounds.min(41));
    }
    office
}

/// Later notices in round 1, the last and between; or one round after the other, so that one
/// overtakes the other.
fn change_mind(rng: &mut Rng, office: &mut Office, last: u32) {
    let (one, other) = (rng.between(1, last), rng.between(1, last));
    let when: BTreeSet<u32> = match rng.below(8) {
        0 => BTreeSet::from([1]),
        1 => BTreeSet::from([last]),
        2 => BTreeSet::from([one]),
        3 => BTreeSet::from([1, last]),
        4 => BTreeSet::from([one, other]),
        5 => (1..=one.min(6)).collect(),
        6 => (1..=last).filter(|_| rng.chance(40)).collect(),
        _ => BTreeSet::from([1, one, last]),
    };
    for round in when {
        let before = office.last().1;
        let more = rng.pick(&[1, 1, 1, 2, 255, 300]);
        let Some(edition) = before.edition.checked_add(more) else {
            break;
        };
        let layout = match rng.below(3) {
            0 => before.layout,
            _ => rng.pick(&LAYOUTS),
        };
        office.later.insert(round, notice(edition, layout));
    }
}

/// One link of a liar in one round.
pub struct Saying<'a> {
    pub bad: &'a Set,
    pub rounds: u32,
    /// The last round of what a liar says at first.
    pub turn: u32,
    pub round: u32,
    pub from: u32,
    pub to: u32,
}

/// What a liar says there; nothing is silence.
pub fn said(rng: &mut Rng, office: &Office, manner: Manner, at: &Saying) -> Option<Notice> {
    let truth = office.truth(at.round);
    let late = at.round > at.turn;
    let lie = lies(truth)[0];
    match manner {
        Manner::Silent => None,
        Manner::Turncoat if late => Some(truth),
        Manner::Faithless if !late => Some(truth),
        Manner::Turncoat | Manner::Faithless => Some(lie),
        Manner::Staggered => staggered(at, truth),
        Manner::Flood if at.round < at.rounds => {
            let layout = 10_000 + 100 * at.from as u16 + at.round as u16;
            Some(notice(office.start.edition, layout))
        }
        Manner::Flood | Manner::Once(_) => Some(truth),
        Manner::Steady => Some(lies(office.start)[at.to as usize % 2]),
        Manner::Forward if late => Some(rng.pick(&[truth, truth, lower(office, lie)])),
        Manner::Backward if !late => Some(truth),
        Manner::Forward | Manner::Backward => Some(higher(office, lie)),
        Manner::Wild if rng.chance(30) => Some(truth),
        Manner::Wild => Some(wild(rng, office, truth)),
    }
}

/// A lie in the edition that is true, or another edition.
fn wild(rng: &mut Rng, office: &Office, truth: Notice) -> Notice {
    let lie = rng.pick(&lies(truth));
    let other = rng.pick(&[lie, truth]);
    let issued = rng.pick(&office.issued());
    match rng.below(9) {
        0 | 8 => issued,
        1 => rng.pick(&lies(issued)),
        2 => higher(office, other),
        3 => lower(office, other),
        _ => lie,
    }
}

/// The same layout in an edition that the office never issues, above its last.
fn higher(office: &Office, said: Notice) -> Notice {
    match office.form {
        Form::Old => said,
        Form::New => notice(office.last().1.edition.saturating_add(3), said.layout),
    }
}

/// The same layout in a lower edition, if there is one.
fn lower(office: &Office, said: Notice) -> Notice {
    match office.form {
        Form::Old => said,
        Form::New => notice((said.edition - 1).max(1), said.layout),
    }
}

/// Few layouts in one edition, so that liars agree by chance; one on each side of the true one,
/// where there is one.
pub fn lies(truth: Notice) -> [Notice; 3] {
    let layout = truth.layout;
    let below = if layout > 1 { layout - 1 } else { 3 };
    let above = layout.checked_add(1).unwrap_or(8);
    [below, above, 9].map(|lie| notice(truth.edition, lie))
}

/// The lies one after the other; the second liar begins in round 2, the third in round 3.
fn staggered(at: &Saying, truth: Notice) -> Option<Notice> {
    let before = at.bad.iter().filter(|&&member| member < at.from).count();
    let turn = (at.round as usize).checked_sub(before + 1)?;
    Some(lies(truth)[turn % 3])
}
