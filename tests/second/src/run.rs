//! The run of a site against scripted liars.

use crate::faults::Fault;
use crate::notice::{notice, Notice, OLD_EDITION};
use crate::plan::{Cause, Plan, Set};
use crate::reader::RunFile;
use crate::shared::{run_shared_file, shared_words_of};
use crate::step::{step, Place, Record, State};
use crate::verdict::fault_cause;
use std::collections::BTreeMap;

/// The last round that run and step play.
pub fn last_round(fault: Fault) -> u32 {
    if fault == Fault::Round41Accepted {
        41
    } else {
        40
    }
}

/// What a run is given, beside the lent list of records. In the lists a notice is one number.
pub struct Order<'a> {
    pub plan: &'a Plan,
    pub bad: &'a Set,
    pub start: Notice,
    pub rounds: u32,
    /// What the office issues in each round, from round 1.
    pub later: &'a [u32],
    /// The liars' words: by round, then sender, then hearer.
    pub words: &'a [u32],
}

/// A good terminal and its record while the run is played.
struct Player {
    place: Place,
    record: Record,
    /// What it said last. Looked at under two faults alone.
    before: Option<Saying>,
}

/// A notice that was passed on, and in which round.
#[derive(Clone, Copy)]
struct Saying {
    round: u32,
    said: u32,
    again: bool,
}

type Players = BTreeMap<u32, Player>;

/// Plays all rounds and leaves each terminal's record in the lent list.
pub fn run(order: &Order, records: &mut [Record], fault: Fault) -> Result<(), Cause> {
    check(order, records.len(), fault)?;
    let mut players = start(order);
    for round in 1..=order.rounds {
        let issued = issued_in(order, round);
        match fault {
            Fault::SameRoundPassedOn => play_at_once(order, &mut players, round, fault)?,
            Fault::LaterBeforeSteps => {
                write_later(order, &mut players, round - 1, issued);
                play(order, &mut players, round, fault)?;
            }
            _ => play(order, &mut players, round, fault)?,
        }
        let lost = match fault {
            Fault::LaterBeforeSteps => true,
            Fault::LaterInLastRoundLost => round == order.rounds,
            _ => false,
        };
        let taken = round - u32::from(fault == Fault::LaterTakenBefore);
        if !lost {
            write_later(order, &mut players, taken, issued);
        }
    }
    for (number, record) in (0..).zip(records.iter_mut()) {
        let played = players.remove(&number);
        *record = played.map_or_else(Record::waiting, |player| player.record);
    }
    Ok(())
}

/// Causes 4, 5, 17, 7, 8, 9, 16 and 12, in this order.
fn check(order: &Order, records: usize, fault: Fault) -> Result<(), Cause> {
    let plan = order.plan;
    fault_cause(plan, order.bad, fault)?;
    let long = order.rounds > last_round(fault);
    let start = order.start.layout == 0 || long;
    let words = u64::from(order.rounds) * u64::from(plan.n * plan.n);
    let later = order.later.len() as u64 != u64::from(order.rounds);
    let length = order.words.len() as u64 != words
        || records != plan.n as usize
        || (later && fault != Fault::LaterLengthNotChecked);
    let edition = !editions_rise(order, fault);
    let mut found = [
        (start, Cause::Start),
        (edition, Cause::Edition),
        (length, Cause::Length),
    ];
    match fault {
        Fault::EditionBeforeLayout => found.swap(0, 1),
        Fault::EditionAfterLength => found.swap(1, 2),
        _ => {}
    }
    let first = found.iter().find(|(applies, _)| *applies);
    first.map_or(Ok(()), |(_, cause)| Err(*cause))
}

/// Whether each notice that the office issues has a higher edition than the one before it.
fn editions_rise(order: &Order, fault: Fault) -> bool {
    let looked_at = match fault {
        Fault::LaterPastRoundsNotLookedAt => order.rounds as usize,
        _ => order.later.len(),
    };
    let mut last = order.start.edition;
    let mut rise = last > 0 || fault == Fault::EditionZeroStartAccepted;
    for &number in order.later.iter().take(looked_at) {
        let entry = Notice::of(number);
        let silence = match fault {
            Fault::EditionZeroEntryRefused => entry.layout == 0,
            Fault::LayoutZeroEntryCounts => entry.edition == 0,
            _ => entry.is_silence(),
        };
        if !silence {
            rise = rise && rises(last, entry.edition, fault);
            if fault != Fault::LaterBesideStartOnly {
                last = entry.edition;
            }
        }
    }
    rise
}

/// Whether an edition is above the last one, which is what 16 asks for.
pub fn rises(last: u16, edition: u16, fault: Fault) -> bool {
    match fault {
        Fault::EqualEditionIssued => edition >= last,
        Fault::AnyEditionIssued => edition > 0,
        Fault::IssuedByLowByte => edition % 256 > last % 256,
        _ => edition > last,
    }
}

fn start(order: &Order) -> Players {
    let plan = order.plan;
    let good = (0..plan.n).filter(|number| !order.bad.contains(number));
    good.map(|number| {
        let heard = plan.heard_by(number);
        let place = Place {
            n: plan.n,
            source: plan.source,
            bound: plan.bound.clone(),
            number,
            heard,
        };
        let source = number == plan.source;
        let record = if source {
            Record::source(order.start)
        } else {
            Record::waiting()
        };
        let player = Player {
            place,
            record,
            before: None,
        };
        (number, player)
    })
    .collect()
}

/// What the office issues in this round, if anything.
fn issued_in(order: &Order, round: u32) -> Option<Notice> {
    let entry = order.later.get(round as usize - 1);
    let entry = entry.map(|&number| Notice::of(number));
    entry.filter(|entry| !entry.is_silence())
}

/// The source has taken a later notice: the one write beside the steps.
fn write_later(order: &Order, players: &mut Players, round: u32, issued: Option<Notice>) {
    if let (Some(player), Some(later)) = (players.get_mut(&order.plan.source), issued) {
        player.record.state = State::Taken(round, later);
    }
}

/// One round: all that is said is fixed before the first step.
fn play(order: &Order, players: &mut Players, round: u32, fault: Fault) -> Result<(), Cause> {
    let said: BTreeMap<u32, Vec<u32>> = players
        .keys()
        .map(|&hearer| (hearer, said_to(order, players, round, hearer, fault)))
        .collect();
    for (hearer, player) in players.iter_mut() {
        remember(player, round, fault);
        step_player(player, &said[hearer], fault)?;
    }
    Ok(())
}

/// The planted fault: what is said is looked up after earlier terminals have stepped, and
/// whoever took in this round is heard in it.
fn play_at_once(
    order: &Order,
    players: &mut Players,
    round: u32,
    fault: Fault,
) -> Result<(), Cause> {
    for hearer in players.keys().copied().collect::<Vec<u32>>() {
        let mut said = said_to(order, players, round, hearer, fault);
        let fresh = said_to(order, players, round + 1, hearer, fault);
        for &neighbour in players[&hearer].place.heard.difference(order.bad) {
            let place = neighbour as usize;
            if said[place] == 0 {
                said[place] = fresh[place];
            }
        }
        if let Some(player) = players.get_mut(&hearer) {
            step_player(player, &said, fault)?;
        }
    }
    Ok(())
}

fn step_player(player: &mut Player, said: &[u32], fault: Fault) -> Result<(), Cause> {
    let before = std::mem::replace(&mut player.record, Record::waiting());
    let (record, answer) = match step(&player.place, before, said, fault) {
        Ok(record) => (record, Ok(())),
        Err((cause, record)) => (record, Err(cause)),
    };
    player.record = record;
    answer
}

/// What `hearer` is told in a round, entry j by terminal j.
fn said_to(order: &Order, players: &Players, round: u32, hearer: u32, fault: Fault) -> Vec<u32> {
    let mut said = vec![0; order.plan.n as usize];
    for &sender in &players[&hearer].place.heard {
        said[sender as usize] = match players.get(&sender) {
            Some(player) => fresh_notice(player, round, fault),
            None => word(order, round, sender, hearer),
        };
    }
    said
}

/// A good terminal says each notice in the round after it took it, and never again.
fn fresh_notice(player: &Player, round: u32, fault: Fault) -> u32 {
    match (player.before, player.record.state) {
        (Some(_), _) if fault == Fault::FirstNoticePassedOnOnly => 0,
        (Some(last), _) if fault == Fault::PassedOnTwice && repeats(last, round) => last.said,
        (_, State::Taken(taken, held)) if taken + 1 == round => held.number(),
        _ => 0,
    }
}

/// Whether this is said a second time, in the place of whatever was taken since.
fn repeats(last: Saying, round: u32) -> bool {
    last.round + 1 == round && !last.again
}

fn remember(player: &mut Player, round: u32, fault: Fault) {
    let said = fresh_notice(player, round, fault);
    let again = player.before.is_some_and(|last| repeats(last, round));
    if said > 0 {
        player.before = Some(Saying { round, said, again });
    }
}

fn word(order: &Order, round: u32, sender: u32, hearer: u32) -> u32 {
    let n = order.plan.n;
    let place = ((round - 1) * n + sender) * n + hearer;
    order.words.get(place as usize).copied().unwrap_or(0)
}

/// The words of a run file as the list that a run is lent. Where one radio is for all there is one of
/// each sender a round, in edition 1.
pub fn words_of(file: &RunFile) -> Vec<u32> {
    if file.default.is_some() {
        let number = |layout: u16| notice(OLD_EDITION, layout).number();
        let words = shared_words_of(file).into_iter();
        return words
            .map(|layout| number(layout) * u32::from(layout > 0))
            .collect();
    }
    let n = file.plan.n;
    let mut words = vec![0; (file.rounds * n * n) as usize];
    for (&(round, from, to), said) in &file.words {
        words[(((round - 1) * n + from) * n + to) as usize] = said.number();
    }
    words
}

/// What the office issues in each round of a run file.
pub fn later_of(file: &RunFile) -> Vec<u32> {
    let rounds = 1..=file.rounds;
    let issued = rounds.map(|round| file.later.get(&round).copied().unwrap_or_default());
    issued.map(Notice::number).collect()
}

/// Plays a run file: the words become a list, the records are made here.
pub fn run_file(file: &RunFile, fault: Fault) -> Result<Vec<Record>, Cause> {
    if let Some(default) = file.default {
        return run_shared_file(file, default, fault);
    }
    let mut records = vec![Record::waiting(); file.plan.n as usize];
    let order = Order {
        plan: &file.plan,
        bad: &file.bad,
        start: file.start,
        rounds: file.rounds,
        later: &later_of(file),
        words: &words_of(file),
    };
    run(&order, &mut records, fault)?;
    Ok(records)
}

/// The source's board takes a later notice. A refused record comes back as it went in; what it has
/// noted is not looked at.
pub fn issue(record: Record, later: Notice, fault: Fault) -> Result<Record, (Cause, Record)> {
    if let Err(cause) = check_issue(&record, later, fault) {
        return Err((cause, record));
    }
    let taken = match record.state {
        State::Taken(before, _) if fault == Fault::IssueKeepsRound => before,
        _ => record.round,
    };
    let mut after = record;
    after.state = State::Taken(taken, later);
    match fault {
        Fault::IssueClearsNotes => after.notes = Record::waiting().notes,
        Fault::IssueRaisesRound => after.round += 1,
        _ => {}
    }
    Ok(after)
}

/// Causes 9, 16 and 13, in this order. In round 40 itself the office may still issue one.
fn check_issue(record: &Record, later: Notice, fault: Fault) -> Result<(), Cause> {
    let held = record.state.edition();
    let last = match fault {
        Fault::Issue40Refused => 39,
        Fault::Issue41Accepted => 41,
        _ => 40,
    };
    let wrong_record = match record.state {
        State::Waiting => fault != Fault::IssueToWaiting,
        State::Taken(round, _) if round > record.round => fault != Fault::IssueTakenLaterAccepted,
        State::Taken(_, held) => match fault {
            Fault::IssueToEditionZero => held.layout == 0,
            Fault::IssueToLayoutZero => held.edition == 0,
            _ => held.is_silence(),
        },
    };
    let many = record.notes.iter().any(|row| row.count > record.round);
    let notes = many && fault == Fault::IssueLooksAtNotes;
    let no_edition = later.edition == 0 && fault == Fault::IssueEditionZero;
    let mut found = [
        (later.layout == 0, Cause::Start),
        (
            !rises(held, later.edition, fault) && !no_edition,
            Cause::Edition,
        ),
        (wrong_record || record.round > last || notes, Cause::Record),
    ];
    match fault {
        Fault::EditionBeforeLayout => found.swap(0, 1),
        Fault::IssueRecordFirst => found.swap(1, 2),
        Fault::IssueRecordBeforeLayout => found.rotate_right(1),
        _ => {}
    }
    let first = found.iter().find(|(applies, _)| *applies);
    first.map_or(Ok(()), |(_, cause)| Err(*cause))
}
