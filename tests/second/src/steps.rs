//! Seeded calls of the step, right or wrong. They reach what no run shows: several layouts and
//! editions with enough votes, rows that no run leaves, wrong arguments.

use crate::grouping::GROUPED;
use crate::groups::{Bound, Sort, MOST_GROUPS};
use crate::notice::{notice, Notice};
use crate::plan::Set;
use crate::records::break_bound;
use crate::rng::Rng;
use crate::step::{Place, Record, Row, State, PLACES, ROWS};

/// One call of the step.
#[derive(Clone, Debug)]
pub struct StepCase {
    pub place: Place,
    pub record: Record,
    pub said: Vec<u32>,
}

/// Values that many rows have, so that neighbours agree by chance.
const FAMILIAR: [u16; 3] = [5, 7, 9];
/// Long rows are filled up with values from here on.
const FILLING: u16 = 1_000;
/// A value that no row has.
const NEW: u16 = 4_660;
/// Values to be voted on. Which of two is the smaller shows in the high byte or in the low one.
const BALLOT: [u16; 6] = [1, 2, 255, 256, 300, 65_535];

/// Editions of one case: a low one, one that most have, and a high one. By their low bytes alone they
/// come in another order in some.
type Editions = [u16; 3];

const EDITIONS: [Editions; 5] = [
    [1, 2, 3],
    [1, 2, 3],
    [255, 256, 257],
    [2, 258, 513],
    [65_533, 65_534, 65_535],
];

pub fn step_case(seed: u64, index: u64) -> StepCase {
    let mut rng = Rng::for_case(seed, 3, index);
    let editions = rng.pick(&EDITIONS);
    let place = some_place(&mut rng);
    let mut record = Record::waiting();
    let any = rng.between(0, 39);
    record.round = rng.pick(&[0, 1, 1, 2, 3, 39, 39, any, any]);
    if place.number == place.source || rng.chance(30) {
        let held = notice(held_edition(&mut rng, editions), 7);
        record.state = State::Taken(rng.between(0, record.round), held);
    }
    let said = (0..place.n).map(|_| some_word(&mut rng, editions).number());
    let mut case = StepCase {
        place,
        record,
        said: said.collect(),
    };
    fill_rows(&mut rng, &mut case, editions);
    if rng.chance(55) {
        put_to_the_vote(&mut rng, &mut case, editions);
    }
    if rng.chance(35) {
        break_step(&mut rng, &mut case, editions);
    }
    if case.place.bound.has_groups() && rng.chance(12) {
        wrong_groups(&mut rng, &mut case.place);
    }
    case
}

/// The one that most neighbours have is above it, equal, or below.
fn held_edition(rng: &mut Rng, [low, main, high]: Editions) -> u16 {
    rng.pick(&[low, low, low - 1, main, main, high]).max(1)
}

fn some_edition(rng: &mut Rng, [low, main, high]: Editions) -> u16 {
    rng.pick(&[low, main, main, main, main, main, high, high])
}

fn some_place(rng: &mut Rng) -> Place {
    let n = rng.between(2, 20);
    let f = if rng.chance(80) {
        rng.between(0, (n - 1).min(2))
    } else {
        rng.between(0, n - 1)
    };
    let (source, number) = (rng.between(0, n - 1), rng.between(0, n - 1));
    let share = rng.pick(&[20, 50, 90]);
    let heard: Set = (0..n)
        .filter(|&j| j != number && rng.chance(share))
        .collect();
    let bound = if rng.chance(GROUPED) {
        some_groups(rng, n, source, &heard)
    } else {
        Bound::f(f)
    };
    Place {
        n,
        source,
        bound,
        number,
        heard,
    }
}

/// Groups of those that are heard, mostly, and of others.
fn some_groups(rng: &mut Rng, n: u32, source: u32, heard: &Set) -> Bound {
    if rng.chance(5) {
        return Bound::groups(&[Set::new()]);
    }
    let count = rng.pick(&[1, 2, 2, 3, 3, 4, 6, MOST_GROUPS]);
    let mut groups: Vec<Set> = Vec::new();
    for _ in 0..count {
        let mut members: Vec<u32> = (0..n).filter(|&member| member != source).collect();
        rng.shuffle(&mut members);
        members.sort_by_key(|member| !heard.contains(member) && rng.chance(85));
        let any = rng.below(members.len() + 1);
        let size = rng.pick(&[0, 1, 1, 2, 2, 3, 4, any]);
        groups.push(members.into_iter().take(size).collect());
    }
    if rng.chance(20) {
        // Nested in another.
        let part = groups[0].iter().copied().filter(|_| rng.chance(60));
        let part: Set = part.collect();
        let last = groups.len() - 1;
        groups[last] = part;
    }
    Bound::groups(&groups)
}

/// Silence, a word, or seldom a zero in one half alone.
fn some_word(rng: &mut Rng, editions: Editions) -> Notice {
    let filling = FILLING + rng.below(PLACES as usize) as u16;
    let layout = rng.pick(&[0, 0, 0, 5, 7, 9, filling, NEW]);
    let edition = some_edition(rng, editions);
    match layout {
        0 if rng.chance(85) => notice(0, 0),
        0 => notice(edition, 0),
        _ if rng.chance(6) => notice(0, layout),
        _ => notice(edition, layout),
    }
}

// ---- rows

fn fill_rows(rng: &mut Rng, case: &mut StepCase, editions: Editions) {
    let round = case.record.round;
    // Full rows are long after many rounds: many of them stand in few cases only.
    let full = match round {
        0..=3 => 30,
        39 => rng.pick(&[5, 5, 5, 5, 20, 20, 100]),
        _ if rng.chance(4) => 100,
        _ => 4,
    };
    let share = rng.pick(&[30, 50, 80]);
    for terminal in 0..ROWS {
        let heard = case.place.heard.contains(&terminal);
        if rng.chance(if heard { share } else { 35 }) {
            let mut row = some_row(rng, round, full, editions);
            if !heard && rng.chance(40) {
                row.count = over_full(rng, round);
            }
            *case.record.row_mut(terminal) = row;
        }
    }
}

/// A row that is accepted after so many rounds; so many in a hundred are full. Seldom its edition
/// is 0.
fn some_row(rng: &mut Rng, round: u32, full: u32, editions: Editions) -> Row {
    let count = if rng.chance(full) {
        round
    } else {
        rng.between(0, round.min(3))
    };
    let edition = match rng.chance(8) {
        true => 0,
        false => some_edition(rng, editions),
    };
    let layouts: Vec<u16> = match rng.below(4) {
        0 => (0..count).map(|_| rng.pick(&FAMILIAR)).collect(),
        1 => (0..count).map(|_| rng.pick(&[0, 0, 5, 7, 9])).collect(),
        _ => different(rng, count),
    };
    let mut row = Row::of(edition, &layouts);
    if rng.chance(25) {
        leave_noise(rng, &mut row);
    }
    row
}

/// So many different values, the familiar ones anywhere among them.
fn different(rng: &mut Rng, count: u32) -> Vec<u16> {
    let mut familiar = FAMILIAR;
    rng.shuffle(&mut familiar);
    let mut values: Vec<u16> = familiar
        .into_iter()
        .chain(FILLING..)
        .take(count as usize)
        .collect();
    rng.shuffle(&mut values);
    values
}

/// Something in places at or after the count.
fn leave_noise(rng: &mut Rng, row: &mut Row) {
    for place in [row.count, row.count + 1, PLACES - 1] {
        if (row.count..PLACES).contains(&place) && rng.chance(60) {
            let filling = FILLING + rng.below(PLACES as usize) as u16;
            row.put(place, rng.pick(&[5, 7, 9, filling]));
        }
    }
}

/// More values than so many rounds allow.
fn over_full(rng: &mut Rng, round: u32) -> u32 {
    let next = (round + 1).min(255);
    let any = rng.between(41, 255);
    rng.pick(&[next, next, 40, 41, any, 255])
}

// ---- votes

/// Lets heard neighbours that are just enough, or just not, have a layout that the others lack, in
/// their rows or by what they say; mostly for two layouts, in one edition or in two, and without a
/// direct word.
fn put_to_the_vote(rng: &mut Rng, case: &mut StepCase, editions: Editions) {
    if rng.chance(60) {
        for neighbour in case.place.heard.clone() {
            case.said[neighbour as usize] = 0;
            *case.record.row_mut(neighbour) = Row::default();
        }
    }
    hush_source(rng, case, editions);
    let [low, main, high] = editions;
    let mut layouts = BALLOT;
    rng.shuffle(&mut layouts);
    let mut voters: Vec<u32> = case.place.heard.iter().copied().collect();
    rng.shuffle(&mut voters);
    for &layout in layouts.iter().take(rng.pick(&[1, 2, 2, 3])) {
        voters.retain(|&voter| voter != case.place.source || zero_first(case, voter));
        if rng.chance(50) {
            // The source, which no group has, before others.
            voters.sort_by_key(|&voter| voter != case.place.source);
        }
        let said = notice(rng.pick(&[main, main, main, high, high, low, 0]), layout);
        let those = edge_of(rng, &case.place.bound, voters.clone());
        for &voter in &those {
            vote(rng, case, voter, said);
        }
        if rng.chance(60) {
            // Others vote on the next one, so that what was voted stays.
            voters.retain(|voter| !those.contains(voter));
        } else {
            rng.shuffle(&mut voters);
        }
    }
}

/// So many of these that they are about enough: f or f+1; or those of one group, alone or with one
/// other, or of two groups, or a few.
fn edge_of(rng: &mut Rng, bound: &Bound, voters: Vec<u32>) -> Vec<u32> {
    if bound.sort == Sort::Number {
        let enough = bound.number as usize + rng.below(2);
        return voters.into_iter().take(enough).collect();
    }
    let groups = bound.listed();
    let (one, other) = (rng.below(groups.len()), rng.below(groups.len()));
    let (mut inside, outside): (Vec<u32>, Vec<u32>) =
        voters.iter().partition(|voter| groups[one].contains(voter));
    match rng.below(7) {
        0 => inside,
        1 | 2 => {
            inside.extend(outside.first());
            inside
        }
        3 | 4 => {
            let others = outside.iter().filter(|voter| groups[other].contains(voter));
            inside.extend(others);
            inside
        }
        5 => voters
            .into_iter()
            .take(rng.between(1, 2) as usize)
            .collect(),
        _ => {
            inside.truncate(1);
            inside.extend(outside.first());
            inside
        }
    }
}

/// Whether the row has 0 for its first value, so that the source's own is no direct word.
fn zero_first(case: &StepCase, terminal: u32) -> bool {
    let row = case.record.row(terminal);
    row.count > 0 && row.at(0) == 0
}

/// The voter has the layout in its row, once or twice, says it now, or both. A row of another edition
/// is begun anew, or is left to be wiped by the word.
fn vote(rng: &mut Rng, case: &mut StepCase, voter: u32, said: Notice) {
    let round = case.record.round;
    let no_direct_word = zero_first(case, voter);
    let row = case.record.row_mut(voter);
    if no_direct_word {
        // The zero stays before what is voted on.
        row.edition = said.edition;
    } else if row.edition != said.edition && (row.edition > said.edition || rng.chance(50)) {
        *row = Row::of(said.edition, &[]);
    }
    let wanted = rng.pick(&[0, 1, 1, 2]);
    let times = wanted.min(round.saturating_sub(row.count));
    let times = times * u32::from(row.edition == said.edition);
    (0..times).for_each(|_| row.add(said.layout));
    if times == 0 || rng.chance(20) {
        case.said[voter as usize] = said.number();
    }
}

/// The source is not heard, has said nothing, has 0 in its first place or in its edition; seldom none
/// of these.
fn hush_source(rng: &mut Rng, case: &mut StepCase, editions: Editions) {
    let source = case.place.source;
    let round = case.record.round;
    let edition = some_edition(rng, editions);
    match rng.below(7) {
        0 => {}
        1 => drop(case.place.heard.remove(&source)),
        4 if round > 0 => {
            // In edition 0, which counts for nothing.
            case.said[source as usize] = 0;
            *case.record.row_mut(source) = Row::of(0, &[rng.pick(&BALLOT)]);
        }
        2 | 3 => {
            let layouts = [0, rng.pick(&BALLOT), rng.pick(&FAMILIAR)];
            let count = rng.between(0, round.min(3)) as usize;
            *case.record.row_mut(source) = Row::of(edition, &layouts[..count]);
            if count == 0 {
                case.said[source as usize] = 0;
            }
        }
        _ => {
            case.said[source as usize] = 0;
            let mut row = Row::of(edition, &[]);
            leave_noise(rng, &mut row);
            *case.record.row_mut(source) = row;
        }
    }
}

// ---- wrong arguments

/// One or two wrong arguments, often more values of a heard neighbour than rounds.
fn break_step(rng: &mut Rng, case: &mut StepCase, [low, main, _]: Editions) {
    let n = case.place.n;
    let round = case.record.round;
    let word = notice(main, 7).number();
    for _ in 0..rng.between(1, 2) {
        match rng.below(24) {
            0 => case.place.n = rng.pick(&[0, 1, 21]),
            1 => case.place.source = rng.pick(&[n, 255]),
            2 if case.place.bound.sort == Sort::Number => {
                case.place.bound.number = rng.pick(&[n, n + 1]);
            }
            2 | 15..=17 => wrong_groups(rng, &mut case.place),
            3 | 18 | 19 => drop(
                case.place
                    .heard
                    .insert(rng.pick(&[n, 31, case.place.number])),
            ),
            4 => case.place.number = rng.pick(&[n, 31]),
            5 => case.record.round = rng.pick(&[40, 41, 255]),
            6 => case.record.state = State::Taken((round + 1).min(255), notice(low, 7)),
            7 | 20 => {
                let none = [notice(0, 0), notice(main, 0), notice(0, 7), notice(0, 7)];
                case.record.state = State::Taken(0, rng.pick(&none));
            }
            8 => case.record.state = State::Waiting,
            9 | 10 => case
                .said
                .resize(rng.pick(&[0, n as usize - 1, n as usize + 1]), word),
            _ => overfill(rng, case),
        }
    }
}

fn wrong_groups(rng: &mut Rng, place: &mut Place) {
    break_bound(rng, &mut place.bound, place.n, place.source);
}

fn overfill(rng: &mut Rng, case: &mut StepCase) {
    let heard = case.place.heard.iter().copied();
    let rows: Vec<u32> = heard.filter(|&neighbour| neighbour < ROWS).collect();
    if !rows.is_empty() {
        let count = over_full(rng, case.record.round);
        case.record.row_mut(rng.pick(&rows)).count = count;
    }
}
