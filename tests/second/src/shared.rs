//! One radio for all, and a source that is not trusted: who may be bad, and the run.
//!
//! A word of a bad terminal reaches all its hearers alike. What is said are layouts; they count as
//! edition 1, and no other is issued.

use crate::faults::Fault;
use crate::notice::{notice, OLD_EDITION};
use crate::plan::{bound_holds, Cause, Plan, Set};
use crate::reader::RunFile;
use crate::run::last_round;
use crate::step::{shared_step, Place, Record, State};
use std::collections::BTreeMap;

/// What a run is given in this mode, beside the lent list of records.
#[derive(Clone, Copy)]
pub struct SharedOrder<'a> {
    pub plan: &'a Plan,
    pub bad: &'a Set,
    /// Unused where the source is bad.
    pub value: u16,
    pub default: u16,
    pub rounds: u32,
    /// The liars' words: by round, then sender.
    pub words: &'a [u16],
}

// ---- who may be bad

/// Why a plan or a proposed bad set is refused in this mode: 4, 5, 17, 7 or 8.
pub fn shared_fault_cause(plan: &Plan, bad: &Set, fault: Fault) -> Result<(), Cause> {
    plan.check(fault)?;
    set_cause(plan, bad, fault)
}

/// Causes 7 and 8 in a checked plan. The source may be bad; without it, the set must be a bad set as
/// elsewhere, and then the bound holds at the source too.
pub fn set_cause(plan: &Plan, bad: &Set, fault: Fault) -> Result<(), Cause> {
    let barred = bad.contains(&plan.source) && fault == Fault::SourceStillBarred;
    let outside = bad.iter().any(|&member| match fault {
        Fault::OutsideAbove19Accepted => member >= plan.n && member < 20,
        _ => member >= plan.n,
    });
    if outside || barred {
        return Err(Cause::BadSetMember);
    }
    if !others_bounded(plan, bad, fault) {
        return Err(Cause::BadSetBound);
    }
    Ok(())
}

fn others_bounded(plan: &Plan, bad: &Set, fault: Fault) -> bool {
    let mut others: Set = bad.iter().copied().filter(|&one| one < plan.n).collect();
    let source_bad = others.remove(&plan.source);
    let mut heard_by_others = plan.clone();
    heard_by_others.links.retain(|link| link.1 != plan.source);
    match fault {
        Fault::SourceCountedAsBad => bound_holds(plan, bad, fault),
        Fault::BadSourceUnbounded if source_bad => bound_holds(&heard_by_others, &others, fault),
        Fault::SourceUnboundedInMode => bound_holds(&heard_by_others, &others, fault),
        Fault::BoundNotAskedInMode => true,
        Fault::BoundNotAskedOfBadSource if source_bad => true,
        _ => bound_holds(plan, &others, fault),
    }
}

// ---- the run

type Players = BTreeMap<u32, (Place, Record)>;

/// Plays all rounds and leaves each terminal's record in the lent list.
pub fn shared_run(order: &SharedOrder, records: &mut [Record], fault: Fault) -> Result<(), Cause> {
    check(order, records.len(), fault)?;
    let mut players = start(order, fault);
    for round in 1..=order.rounds {
        play(order, &mut players, round, fault)?;
    }
    for (number, record) in (0..).zip(records.iter_mut()) {
        let played = players.remove(&number);
        *record = played.map_or_else(Record::waiting, |(_, record)| record);
    }
    if fault == Fault::BadSourceRecordTaken && order.bad.contains(&order.plan.source) {
        let start = notice(OLD_EDITION, order.value);
        records[order.plan.source as usize] = Record::source(start);
    }
    Ok(())
}

/// Causes 4, 5, 17, 7, 8, 9 and 12, in this order.
fn check(order: &SharedOrder, records: usize, fault: Fault) -> Result<(), Cause> {
    let plan = order.plan;
    let source_bad = order.bad.contains(&plan.source);
    let unused = source_bad && fault == Fault::BadSourceValueNotAsked;
    let no_default = order.default == 0 && fault != Fault::RunDefaultZeroAccepted;
    let no_value = order.value == 0 && !unused;
    let start = no_value || no_default || order.rounds > last_round(fault);
    let stride = match fault {
        Fault::SharedWordsByHearer => plan.n * plan.n,
        _ => plan.n,
    };
    let words = u64::from(order.rounds) * u64::from(stride);
    let wrong_words = match fault {
        Fault::LongerWordsAccepted => (order.words.len() as u64) < words,
        _ => order.words.len() as u64 != words,
    };
    if start && fault == Fault::StartBeforeSet {
        plan.check(fault)?;
        return Err(Cause::Start);
    }
    shared_fault_cause(plan, order.bad, fault)?;
    let wrong_length = wrong_words || records != plan.n as usize;
    if wrong_length && fault == Fault::LengthBeforeStart {
        return Err(Cause::Length);
    }
    if start {
        return Err(Cause::Start);
    }
    if wrong_length {
        return Err(Cause::Length);
    }
    Ok(())
}

/// The good terminals with their start records.
fn start(order: &SharedOrder, fault: Fault) -> Players {
    let plan = order.plan;
    let trusted = |number: u32| number == plan.source && fault == Fault::BadSourceTrusted;
    let plays = |number: &u32| !order.bad.contains(number) || trusted(*number);
    let place = |number: u32| Place {
        n: plan.n,
        source: plan.source,
        bound: plan.bound.clone(),
        number,
        heard: plan.heard_by(number),
    };
    let record = |number: u32| match number == plan.source {
        true => Record::source(notice(OLD_EDITION, order.value)),
        false => Record::waiting(),
    };
    let good = (0..plan.n).filter(plays);
    good.map(|number| (number, (place(number), record(number))))
        .collect()
}

/// One round: what everybody says is fixed before the first step.
fn play(order: &SharedOrder, players: &mut Players, round: u32, fault: Fault) -> Result<(), Cause> {
    let senders = 0..order.plan.n;
    let said: Vec<u16> = senders
        .map(|sender| says(order, players, round, sender, fault))
        .collect();
    for (place, record) in players.values_mut() {
        let heard = heard_of(place, &said, fault);
        let before = std::mem::replace(record, Record::waiting());
        match shared_step(place, before, order.default, &heard, fault) {
            Ok(after) => *record = after,
            Err((cause, _)) => return Err(cause),
        }
    }
    Ok(())
}

/// What one terminal says to all its hearers.
fn says(order: &SharedOrder, players: &Players, round: u32, sender: u32, fault: Fault) -> u16 {
    let word = word(order, round, sender, fault);
    let Some((_, record)) = players.get(&sender) else {
        let silenced = sender == order.plan.source && fault == Fault::BadSourceUnheard;
        return if silenced { 0 } else { word };
    };
    match record.state {
        State::Taken(taken, held) if taken + 1 == round => match fault {
            Fault::GoodEntriesFirst if word > 0 => word,
            _ => held.layout,
        },
        _ if fault == Fault::GoodEntriesLookedAt => word,
        _ => 0,
    }
}

fn word(order: &SharedOrder, round: u32, sender: u32, fault: Fault) -> u16 {
    let n = order.plan.n;
    let place = match fault {
        Fault::SharedWordsBySender => sender * order.rounds + round - 1,
        Fault::SharedWordsOfRoundBefore if round > 1 => (round - 2) * n + sender,
        _ => (round - 1) * n + sender,
    };
    order.words.get(place as usize).copied().unwrap_or(0)
}

/// The entries of those that are heard; the others are silent.
fn heard_of(place: &Place, said: &[u16], fault: Fault) -> Vec<u16> {
    let entry = |(sender, &layout): (u32, &u16)| match place.heard.contains(&sender) {
        true => layout,
        false if fault == Fault::SourceWordToAll && sender == place.source => layout,
        false => 0,
    };
    (0..).zip(said).map(entry).collect()
}

// ---- run files

/// The words of a run file as the list that a run of this mode is lent.
pub fn shared_words_of(file: &RunFile) -> Vec<u16> {
    let n = file.plan.n;
    let mut words = vec![0; (file.rounds * n) as usize];
    for (&(round, from), &layout) in &file.shared_words {
        let place = ((round - 1) * n + from) as usize;
        if let Some(word) = words.get_mut(place) {
            *word = layout;
        }
    }
    words
}

/// Plays a run file with this default: the words become a list, the records are made here.
pub fn run_shared_file(file: &RunFile, default: u16, fault: Fault) -> Result<Vec<Record>, Cause> {
    let mut records = vec![Record::waiting(); file.plan.n as usize];
    let order = SharedOrder {
        plan: &file.plan,
        bad: &file.bad,
        value: file.start.layout,
        default,
        rounds: file.rounds,
        words: &shared_words_of(file),
    };
    shared_run(&order, &mut records, fault)?;
    Ok(records)
}
