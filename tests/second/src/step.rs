//! One terminal's round.

use crate::faults::Fault;
use crate::groups::{Bound, Rule};
use crate::notice::{notice, Notice, OLD_EDITION};
use crate::plan::{head_in_range, Cause, Set};
use crate::run::last_round;
use std::collections::{BTreeMap, BTreeSet};

/// Rows of a record, one for each terminal that a site can have.
pub const ROWS: u32 = 20;
/// Places of a row.
pub const PLACES: u32 = 40;

#[derive(Clone, Copy, Debug, PartialEq, Eq)]
pub enum State {
    Waiting,
    /// The round of taking and the notice.
    Taken(u32, Notice),
}

impl State {
    /// The edition that is held, 0 while waiting.
    pub fn edition(self) -> u16 {
        match self {
            State::Waiting => 0,
            State::Taken(_, held) => held.edition,
        }
    }
}

/// What a record holds of one terminal. It can hold nonsense: any edition, any count, any layouts.
#[derive(Clone, Debug, Default, PartialEq, Eq)]
pub struct Row {
    /// The highest edition that was said.
    pub edition: u16,
    /// How many layouts are noted, all in this edition.
    pub count: u32,
    /// What stands in the places, from 0; a place that holds 0 has no entry.
    places: BTreeMap<u32, u16>,
}

impl Row {
    /// The row that has noted these in one edition.
    pub fn of(edition: u16, layouts: &[u16]) -> Row {
        let mut row = Row {
            edition,
            ..Row::default()
        };
        layouts.iter().for_each(|&layout| row.add(layout));
        row
    }

    pub fn at(&self, place: u32) -> u16 {
        self.places.get(&place).copied().unwrap_or(0)
    }

    pub fn put(&mut self, place: u32, layout: u16) {
        if layout == 0 {
            self.places.remove(&place);
        } else {
            self.places.insert(place, layout);
        }
    }

    /// Notes one more.
    pub fn add(&mut self, layout: u16) {
        self.put(self.count, layout);
        self.count += 1;
    }

    /// The noted layouts as they stand, without zeros. Later places are not looked at.
    pub fn noted(&self) -> Vec<u16> {
        self.places
            .range(..self.count)
            .map(|entry| *entry.1)
            .collect()
    }

    /// Whatever stands in any place, without zeros.
    pub fn held(&self) -> Vec<u16> {
        self.places.values().copied().collect()
    }

    /// The place after the last one that holds something.
    pub fn used(&self) -> u32 {
        self.places.keys().next_back().map_or(0, |last| last + 1)
    }
}

/// Who has each layout of one edition.
type Votes = BTreeMap<u16, Vec<u32>>;

/// What a terminal keeps from round to round.
#[derive(Clone, Debug, PartialEq, Eq)]
pub struct Record {
    pub round: u32,
    pub state: State,
    /// A row for each of the 20 terminals.
    pub notes: Vec<Row>,
    /// Votes beside those of the rows. Stays empty, save under the fault that counts words.
    pub tally: BTreeMap<Notice, Vec<u32>>,
}

impl Record {
    pub fn waiting() -> Record {
        Record {
            round: 0,
            state: State::Waiting,
            notes: vec![Row::default(); ROWS as usize],
            tally: BTreeMap::new(),
        }
    }

    pub fn source(start: Notice) -> Record {
        Record {
            state: State::Taken(0, start),
            ..Record::waiting()
        }
    }

    pub fn row(&self, terminal: u32) -> &Row {
        &self.notes[terminal as usize]
    }

    pub fn row_mut(&mut self, terminal: u32) -> &mut Row {
        &mut self.notes[terminal as usize]
    }
}

/// Where a terminal stands in the site.
#[derive(Clone, Debug, PartialEq, Eq)]
pub struct Place {
    pub n: u32,
    pub source: u32,
    pub bound: Bound,
    pub number: u32,
    pub heard: Set,
}

/// One round of one terminal. A refused record comes back as it went in.
pub fn step(
    place: &Place,
    record: Record,
    said: &[u32],
    fault: Fault,
) -> Result<Record, (Cause, Record)> {
    if let Err(cause) = check(place, &record, said.len(), None, fault) {
        return Err((cause, record));
    }
    let mut after = record;
    after.round += 1;
    hear(place, &mut after, said, fault);
    decide(place, &mut after, fault);
    Ok(after)
}

/// One round of one terminal where one radio is for all and the source is not trusted. What is said
/// are layouts.
pub fn shared_step(
    place: &Place,
    record: Record,
    default: u16,
    said: &[u16],
    fault: Fault,
) -> Result<Record, (Cause, Record)> {
    if let Err(cause) = check(place, &record, said.len(), Some(default), fault) {
        return Err((cause, record));
    }
    let first = is_first(place, &record, fault);
    let words: Vec<u32> = said
        .iter()
        .map(|&layout| first_edition(layout, fault))
        .collect();
    let word = said[place.source as usize];
    let mut after = record;
    after.round += 1;
    if !first || fault != Fault::FirstRoundNotNoted {
        hear(place, &mut after, &words, fault);
    }
    match first.then(|| carried(place, &after, default, word, fault)) {
        Some(Some(layout)) => {
            let round = after.round - u32::from(fault == Fault::CarriedInRoundZero);
            let held = Notice::of(first_edition(layout, fault));
            after.state = State::Taken(round, held);
            if layout != word && fault == Fault::DefaultNoted {
                note_word(after.row_mut(place.source), held, fault);
            }
        }
        Some(None) => {}
        None => decide_later(place, &mut after, default, word, fault),
    }
    Ok(after)
}

/// Whether this is round 1 of a waiting terminal that hears the source.
fn is_first(place: &Place, record: &Record, fault: Fault) -> bool {
    let round = record.round == 0
        || fault == Fault::SourceWordInAnyRound
        || (fault == Fault::DefaultInSecondRound && record.round == 1);
    let waits = record.state == State::Waiting || fault == Fault::TakenTakesCarried;
    let hears = place.heard.contains(&place.source) || fault == Fault::CarriedToAll;
    round && waits && hears && place.number != place.source
}

/// What a terminal that hears the source takes in round 1: the source's word, or the default.
fn carried(place: &Place, after: &Record, default: u16, word: u16, fault: Fault) -> Option<u16> {
    let voted = voted_in(place, after, OLD_EDITION, fault);
    let noted = after.row(place.source).noted();
    match fault {
        Fault::DefaultWhereSourceSpoke => Some(default),
        Fault::DefaultNeverTaken => (word > 0).then_some(word),
        Fault::VotesBeforeDefault if word == 0 => Some(voted.unwrap_or(default)),
        Fault::VotesBeforeSourceWord => voted.or(Some(if word > 0 { word } else { default })),
        Fault::SmallerOfDefault if word > 0 => Some(word.min(default)),
        Fault::NotedWordOfSource => Some(noted.first().copied().unwrap_or(default)),
        _ if word > 0 => Some(word),
        _ => Some(default),
    }
}

/// Every other record goes by the old rules.
fn decide_later(place: &Place, after: &mut Record, default: u16, word: u16, fault: Fault) {
    let waits = after.state == State::Waiting && place.number != place.source;
    let hears = place.heard.contains(&place.source);
    let late = match fault {
        Fault::DefaultToAll => waits && after.round == 1,
        Fault::DefaultInLaterRound => waits && hears && after.row(place.source).count == 0,
        _ => false,
    };
    let barred = match fault {
        Fault::LaterNeverTaken => waits && after.round > 1 && hears,
        Fault::UnheardNeverTake => waits && after.round == 1 && !hears,
        _ => false,
    };
    if fault == Fault::SourceWordToAll && waits && after.round == 1 && word > 0 {
        after.state = State::Taken(after.round, notice(OLD_EDITION, word));
    } else if !barred {
        decide(place, after, fault);
    }
    if late && after.state == State::Waiting {
        after.state = State::Taken(after.round, notice(OLD_EDITION, default));
    }
}

/// A layout counts as edition 1; 0 is silence.
fn first_edition(layout: u16, fault: Fault) -> u32 {
    let edition = match fault {
        Fault::SharedCountsAsTwo => 2,
        _ => OLD_EDITION,
    };
    match layout {
        0 => 0,
        _ => notice(edition, layout).number(),
    }
}

/// Notes what was said in this round.
fn hear(place: &Place, after: &mut Record, said: &[u32], fault: Fault) {
    let deaf = match fault {
        Fault::TakenNotesNothing => after.state != State::Waiting,
        Fault::SourceNotesNothing => place.number == place.source,
        _ => false,
    };
    if !deaf {
        note(place, after, said, fault);
    }
}

/// Takes by what was noted. What the source holds is the office's to say.
fn decide(place: &Place, after: &mut Record, fault: Fault) {
    if place.number != place.source || fault == Fault::SourceTakes {
        take(place, after, fault);
    }
}

/// Causes 4, 5, 17, 9 of the default where there is one, 13 and 12, in this order.
fn check(
    place: &Place,
    record: &Record,
    said: usize,
    default: Option<u16>,
    fault: Fault,
) -> Result<(), Cause> {
    let no_default = match default {
        Some(0) if fault != Fault::StepDefaultZeroAccepted => Err(Cause::Start),
        _ => Ok(()),
    };
    if fault == Fault::DefaultBeforeHead {
        no_default?;
    }
    let too_many = too_many_values(place, record, fault);
    if too_many && fault == Fault::CountsFirst {
        return Err(Cause::Record);
    }
    if !head_in_range(place.n, place.source, &place.bound) {
        return Err(Cause::Head);
    }
    let groups = place.bound.check(place.n, place.source, fault);
    if fault == Fault::GroupsBeforeLinkEnds {
        groups?;
    }
    let wrong_end = |&other: &u32| other >= place.n || other == place.number;
    if place.heard.iter().any(wrong_end) {
        return Err(Cause::LinkEnd);
    }
    if fault == Fault::DefaultBeforeGroups {
        no_default?;
    }
    if fault != Fault::GroupsAfterRecord {
        groups?;
    }
    if fault != Fault::DefaultAfterRecord && fault != Fault::DefaultAfterLength {
        no_default?;
    }
    let odd_state = match record.state {
        State::Waiting => place.number == place.source,
        State::Taken(round, held) => round > record.round || no_notice(held, fault),
    };
    if record.round >= last_round(fault) || place.number >= place.n || odd_state {
        return Err(Cause::Record);
    }
    let wrong_length = said != place.n as usize;
    if too_many && !(wrong_length && fault == Fault::LengthBeforeCounts) {
        return Err(Cause::Record);
    }
    groups?;
    if fault != Fault::DefaultAfterLength {
        no_default?;
    }
    if wrong_length {
        return Err(Cause::Length);
    }
    no_default
}

/// Whether nobody can have taken this.
fn no_notice(held: Notice, fault: Fault) -> bool {
    match fault {
        Fault::EditionZeroTakenAccepted => held.layout == 0,
        Fault::LayoutZeroTakenAccepted => held.edition == 0,
        _ => held.is_silence(),
    }
}

/// Whether a heard neighbour has more layouts than rounds were played, whatever its edition.
fn too_many_values(place: &Place, record: &Record, fault: Fault) -> bool {
    let taken = record.state != State::Waiting;
    let allowed = match fault {
        Fault::CountNotChecked => return false,
        Fault::CountOfTakenNotChecked if taken => return false,
        Fault::CountCheckedByPlaces => PLACES,
        _ => record.round,
    };
    let looked_at = |terminal: u32, row: &Row| match fault {
        Fault::CountOfUnheardChecked => true,
        Fault::CountOfEditionZeroNotChecked if row.edition == 0 => false,
        Fault::CountBelowHeldNotChecked if row.edition < record.state.edition() => false,
        _ => place.heard.contains(&terminal),
    };
    (0..).zip(&record.notes).any(|(terminal, row)| {
        let refused = match fault {
            Fault::CountAtRoundRefused => row.count >= allowed,
            Fault::CountOverAllEditions => row.count.max(row.held().len() as u32) > allowed,
            _ => row.count > allowed,
        };
        refused && looked_at(terminal, row)
    })
}

// ---- what is noted

/// Every heard neighbour's word, if it is a new one of this neighbour.
fn note(place: &Place, record: &mut Record, said: &[u32], fault: Fault) {
    for (neighbour, &number) in (0..).zip(said) {
        let word = Notice::of(number);
        let heard = place.heard.contains(&neighbour) || fault == Fault::UnheardNoted;
        if !heard || says_nothing(word, fault) {
            continue;
        }
        let row = record.row(neighbour);
        let known = row.edition == word.edition && row.noted().contains(&word.layout);
        if known && fault == Fault::WordsCounted {
            record.tally.entry(word).or_default().push(neighbour);
        }
        note_word(record.row_mut(neighbour), word, fault);
    }
}

fn says_nothing(word: Notice, fault: Fault) -> bool {
    match fault {
        Fault::LayoutZeroHeard => word.edition == 0,
        Fault::EditionZeroHeard => word.layout == 0,
        _ => word.is_silence(),
    }
}

/// A higher edition than the neighbour's wipes what it said before; a lower one is not looked at.
fn note_word(row: &mut Row, word: Notice, fault: Fault) {
    let empty = row.count == 0 && fault == Fault::EmptyNoteForgotten;
    let noted = if empty { 0 } else { row.edition };
    let (edition, noted) = match fault {
        Fault::EditionLowByteCompared => (word.edition % 256, noted % 256),
        Fault::LowerEditionNoted if noted > 0 => (noted, noted),
        Fault::HigherEditionNoted if noted > 0 => (word.edition.min(noted), noted),
        Fault::FirstEditionKept if noted > 0 && word.edition > noted => return,
        _ => (word.edition, noted),
    };
    if edition > noted || (edition < noted && fault == Fault::LowerEditionWipes) {
        wipe(row, word, fault);
    } else if edition == noted {
        note_layout(row, word.layout, fault);
    }
}

/// The row has this word alone.
fn wipe(row: &mut Row, word: Notice, fault: Fault) {
    let before = std::mem::replace(row, Row::of(word.edition, &[word.layout]));
    match fault {
        Fault::LaterPlacesStayOnWipe => {
            *row = Row {
                places: before.places,
                ..row.clone()
            };
            row.put(0, word.layout);
        }
        Fault::CountNotResetOnWipe => {
            *row = Row::of(word.edition, &vec![0; before.count as usize]);
            row.add(word.layout);
        }
        Fault::LayoutsKeptOnWipe => {
            *row = before;
            row.edition = word.edition;
            row.add(word.layout);
        }
        _ => {}
    }
}

/// One more layout in the neighbour's edition, if it is a new one.
fn note_layout(row: &mut Row, layout: u16, fault: Fault) {
    let known = match fault {
        Fault::StalePlacesKnown => row.held().contains(&layout),
        Fault::RepeatedNoted => false,
        Fault::FirstWordOnly => row.count > 0,
        _ => row.noted().contains(&layout),
    };
    match fault {
        Fault::LastWordKept => *row = Row::of(row.edition, &[layout]),
        Fault::GreaterLayoutWipes if row.noted().iter().all(|&noted| noted < layout) => {
            *row = Row::of(row.edition, &[layout]);
        }
        _ if known => {}
        _ => row.add(layout),
    }
    if fault == Fault::StalePlacesCleared {
        drop(row.places.split_off(&row.count));
    }
}

// ---- what is taken

/// Takes a notice, if there is one to take, in this round.
fn take(place: &Place, record: &mut Record, fault: Fault) {
    let Some(taken) = choose(place, record, fault) else {
        return;
    };
    let round = match record.state {
        State::Taken(..) if fault == Fault::TakenNeverTakesAgain => return,
        State::Taken(first, _) if fault == Fault::FirstRoundKept => first,
        _ => record.round,
    };
    record.state = State::Taken(round, taken);
}

/// The highest edition above the one that is held in which something qualifies.
fn choose(place: &Place, record: &Record, fault: Fault) -> Option<Notice> {
    let held = record.state.edition();
    let above = |edition: u16| match fault {
        Fault::EqualEditionTakenAgain => edition >= held && edition > 0,
        Fault::EditionZeroQualifies => edition > held || record.state == State::Waiting,
        Fault::AnyEditionTaken => edition > 0 && edition != held,
        _ => edition > held,
    };
    let said: BTreeSet<u16> = (0..)
        .zip(&record.notes)
        .filter(|(neighbour, _)| place.heard.contains(neighbour))
        .map(|(_, row)| row.edition)
        .filter(|&edition| above(edition))
        .collect();
    let qualify = |edition: u16| {
        let layout = choose_in(place, record, edition, fault)?;
        Some(notice(edition, layout))
    };
    let direct = record.row(place.source).edition;
    let direct_first = fault == Fault::SourceBeforeHigherEditions
        && said.contains(&direct)
        && direct_in(place, record, direct, fault).is_some();
    let mut found = said.iter().filter_map(|&edition| qualify(edition));
    match fault {
        _ if direct_first => qualify(direct),
        Fault::LowestEditionTaken => found.next(),
        Fault::HighestEditionOnly => said.last().and_then(|&edition| qualify(edition)),
        _ => found.next_back(),
    }
}

/// The layout to take in one edition, if there is one: the source's first, else the smallest with
/// enough votes.
fn choose_in(place: &Place, record: &Record, edition: u16, fault: Fault) -> Option<u16> {
    let direct = direct_in(place, record, edition, fault);
    match fault {
        Fault::VotesBeforeSource => voted_in(place, record, edition, fault).or(direct),
        _ => direct.or_else(|| voted_in(place, record, edition, fault)),
    }
}

fn direct_in(place: &Place, record: &Record, edition: u16, fault: Fault) -> Option<u16> {
    let row = record.row(place.source);
    let other = row.edition != edition && fault != Fault::SourceEditionNotAsked;
    if !place.heard.contains(&place.source) || other {
        return None;
    }
    let layout = match fault {
        Fault::LastWordOfSource => row.count.checked_sub(1).map(|last| row.at(last)),
        Fault::ZeroSkippedAtSource => row.noted().first().copied(),
        Fault::SourceCountNotAsked => Some(row.at(0)),
        _ => (row.count >= 1).then(|| row.at(0)),
    };
    layout.filter(|&layout| layout != 0)
}

fn voted_in(place: &Place, record: &Record, edition: u16, fault: Fault) -> Option<u16> {
    let rule = match fault {
        Fault::VotesWithoutOne => Rule::of(&place.bound, fault).without_one(),
        _ => Rule::of(&place.bound, fault),
    };
    let votes = votes_in(place, record, edition, fault);
    let mut enough = votes
        .iter()
        .filter(|(_, voters)| rule.enough(voters, fault))
        .map(|(&layout, _)| layout);
    if fault == Fault::LargestValue {
        enough.next_back()
    } else {
        enough.next()
    }
}

/// The heard neighbours that have each layout of this edition.
fn votes_in(place: &Place, record: &Record, edition: u16, fault: Fault) -> Votes {
    let mut votes = Votes::new();
    for (said, voters) in &record.tally {
        if said.edition == edition {
            votes.insert(said.layout, voters.clone());
        }
    }
    for (neighbour, row) in (0..).zip(&record.notes) {
        let heard = place.heard.contains(&neighbour) || fault == Fault::UnheardCounted;
        let barred = fault == Fault::SourceRowNotCounted && neighbour == place.source;
        let this_edition = match fault {
            Fault::VotesOverEditions => row.edition > 0,
            Fault::VotesOfHigherEditions => row.edition >= edition,
            _ => row.edition == edition,
        };
        if heard && !barred && this_edition {
            for layout in said_layouts(row, fault) {
                votes.entry(layout).or_default().push(neighbour);
            }
        }
    }
    votes
}

/// What one neighbour counts for: every different layout once.
fn said_layouts(row: &Row, fault: Fault) -> Vec<u16> {
    let layouts = match fault {
        Fault::StalePlacesCounted => row.held(),
        Fault::FirstValueCounted => row.noted().into_iter().take(1).collect(),
        Fault::PlacesCounted => return row.noted(),
        _ => row.noted(),
    };
    let different: BTreeSet<u16> = layouts.into_iter().collect();
    different.into_iter().collect()
}
