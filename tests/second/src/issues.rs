//! Seeded calls with which the source's board takes a later notice, right or wrong.

use crate::notice::{notice, Notice};
use crate::rng::Rng;
use crate::step::{Record, State};
use crate::steps::step_case;

/// A record and the notice that is issued to it.
#[derive(Clone, Debug)]
pub struct IssueCase {
    pub record: Record,
    pub later: Notice,
}

/// The records are those of steps, which hold all sorts of notes.
pub fn issue_case(seed: u64, index: u64) -> IssueCase {
    let mut rng = Rng::for_case(seed, 5, index);
    let mut record = step_case(seed, 1_000_000 + index).record;
    let round = record.round;
    record.round = rng.pick(&[round, round, round, 0, 39, 40, 40, 41, 255]);
    let edition = rng.pick(&[1, 2, 255, 256, 300, 65_534, 65_535]);
    let held = notice(edition, rng.pick(&[1, 7, 65_535]));
    let at = rng.between(0, record.round);
    record.state = State::Taken(rng.pick(&[0, at, at, record.round]), held);
    if rng.chance(35) {
        break_record(&mut rng, &mut record);
    }
    let later = some_later(&mut rng, edition);
    IssueCase { record, later }
}

/// Mostly a higher edition; else the same, a lower one, or a zero in either half.
fn some_later(rng: &mut Rng, held: u16) -> Notice {
    let layout = rng.pick(&[1, 7, 8, 65_535]);
    let above = held.saturating_add(rng.pick(&[1, 1, 2, 255]));
    match rng.below(12) {
        0 => notice(0, layout),
        1 => notice(above, 0),
        2 => notice(0, 0),
        3 => notice(held, layout),
        4 => notice(held - 1, layout),
        5 => notice(rng.pick(&[1, held]), 0),
        _ => notice(above, layout),
    }
}

/// Waiting, taken later than its round, or taken with a zero half.
fn break_record(rng: &mut Rng, record: &mut Record) {
    let later = (record.round + 1).min(255);
    let State::Taken(at, held) = record.state else {
        return;
    };
    record.state = match rng.below(5) {
        0 => State::Waiting,
        1 => State::Taken(rng.pick(&[later, 255]), held),
        2 => State::Taken(at, notice(0, held.layout)),
        3 => State::Taken(at, notice(held.edition, 0)),
        _ => State::Taken(at, notice(0, 0)),
    };
}
