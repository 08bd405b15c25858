//! Plan files that fail in many ways, and calls of the composer: right sets, and wrong ones of every sort.

use crate::draft::{join, plan_draft};
use crate::faults::Fault;
use crate::generate::{fresh_case, Kind};
use crate::grouping::maybe_grouped;
use crate::groups::Bound;
use crate::margin_files::{
    is_sized, later_cause, later_line, right, sized_case, unheard, wrong_groups,
};
use crate::plan::{Cause, Plan, Set};
use crate::plans::{any_plan, mend, source_first};
use crate::record::{room_for, MARK};
use crate::rng::Rng;
use crate::sentence::{compose, words, Sets};

// ---- plan files

/// Sorts of files; they take turns by index.
const SORTS: u64 = 6;

/// Files as the verdict gets them, and more that fail.
pub fn sentence_case(seed: u64, index: u64) -> Vec<u8> {
    let rng = &mut Rng::for_case(seed, 19, index);
    let turn = index / SORTS;
    let lines = match index % SORTS {
        0 if is_sized(turn) => return sized_case(rng, small_plan),
        0 | 1 => return fresh_case(Kind::Verdict, seed, rng.below(1 << 30) as u64),
        2 | 3 => {
            // One in four may be large.
            let any = rng.between(3, 20);
            let any = rng.pick(&[any, 20]);
            let n = if turn % 4 == 3 { any } else { 3 + any % 7 };
            plan_draft(told_plan(rng, n)).lines
        }
        4 => {
            // With f, since the order of the lines is left to chance and groups have a place.
            let mut plan = small_plan(rng);
            plan.bound = Bound::f(plan.bound.number % plan.n);
            right(rng, plan)
        }
        _ => match turn % 4 {
            0 => wrong_groups(rng, turn / 4),
            1 => unheard(rng),
            2 => later_cause(rng, turn / 4),
            _ => later_line(rng),
        },
    };
    join(&lines)
}

fn small_plan(rng: &mut Rng) -> Plan {
    let n = rng.between(2, 8);
    let mut plan = any_plan(rng, n);
    mend(rng, &mut plan);
    maybe_grouped(rng, &mut plan);
    plan
}

/// A plan of three terminals or more that fails with any number of silent ones, up to half of those that
/// are neither the source nor waiting. Whoever waits hears the silent ones and as many others or more,
/// and each of the two fits in a group; or, where nobody needs to be silent, one terminal alone.
pub fn told_plan(rng: &mut Rng, n: u32) -> Plan {
    let mut plan = Plan::new(n, rng.between(0, n - 1), 1);
    let mut near = source_first(rng, &plan).split_off(1);
    let silent = rng.between(0, (n - 2) / 2);
    let named = rng.between(2 * silent, n - 2).max(1);
    let waiting = near.split_off(named as usize);
    plan.links = near.iter().map(|&hearer| (plan.source, hearer)).collect();
    if silent == 0 {
        plan.links
            .extend(waiting.iter().map(|&hearer| (near[0], hearer)));
        return plan;
    }
    for &hearer in &waiting {
        plan.links
            .extend(near.iter().map(|&sender| (sender, hearer)));
    }
    let (bad, others) = near.split_at(silent as usize);
    let group = |members: &[u32]| members.iter().copied().collect::<Set>();
    plan.bound = Bound::groups(&[group(bad), group(others)]);
    plan
}

// ---- sets

/// A call of the composer, and how long the list is that it lends.
#[derive(Clone, Debug)]
pub struct ComposeCase {
    pub n: u32,
    pub sets: Sets,
    pub room: usize,
}

/// The longest list that is lent.
const MOST_ROOM: usize = 400;

/// The number, the length and the list after the call.
pub type ComposeAnswer = (Result<usize, (Cause, usize)>, Vec<u8>);

pub fn compose_answer(case: &ComposeCase, fault: Fault) -> ComposeAnswer {
    let mut list = vec![MARK; case.room];
    let answer = compose(case.n, &case.sets, &mut list, fault);
    (answer, list)
}

/// Where each of n terminals is: the digits of this number to the base 3.
fn parted(n: u32, number: u32) -> Sets {
    let part = |which: u32| {
        let digit = move |one: &u32| number / 3u32.pow(*one) % 3 == which;
        (0..n).filter(digit).collect()
    };
    [part(0), part(1), part(2)]
}

/// How many ways there are to part two, three and four terminals among the sets.
pub const EVERY: u64 = 9 + 27 + 81;

/// Each of these ways, also with L or R empty.
pub fn every(index: u64) -> (u32, Sets) {
    match index as u32 {
        number @ 0..9 => (2, parted(2, number)),
        number @ 9..36 => (3, parted(3, number - 9)),
        number => (4, parted(4, number - 36)),
    }
}

/// The sets of a fail of n terminals.
pub fn some_fail(rng: &mut Rng, n: u32) -> Sets {
    let silent = rng.pick(&[0, 10, 30, 60, 90]);
    let waiting = rng.pick(&[5, 30, 50, 95]);
    loop {
        let mut sets: Sets = Default::default();
        for terminal in 0..n {
            let which = match (rng.chance(silent), rng.chance(waiting)) {
                (true, _) => 0,
                (_, true) => 2,
                _ => 1,
            };
            sets[which].insert(terminal);
        }
        // Where L or R is empty, somebody of the largest set is moved there.
        for which in [1, 2] {
            if sets[which].is_empty() {
                let largest = (0..3).max_by_key(|&of| sets[of].len()).expect("three");
                let some: Vec<u32> = sets[largest].iter().copied().collect();
                let moved = rng.pick(&some);
                sets[largest].remove(&moved);
                sets[which].insert(moved);
            }
        }
        if !sets[1].is_empty() && !sets[2].is_empty() {
            return sets;
        }
    }
}

/// The sets of the longest sentence there is.
pub fn longest() -> Sets {
    [(0..9).collect(), Set::from([9]), (10..20).collect()]
}

/// Ways in which sets are wrong.
pub const WAYS: u64 = 23;

/// Makes the sets of a fail wrong.
pub fn spoil(rng: &mut Rng, n: u32, sets: &mut Sets, way: u64) {
    let largest = (0..3).max_by_key(|&of| sets[of].len()).expect("three");
    let any = *sets[largest].first().expect("a member");
    let at = |first: u64| (way - first) as usize;
    match way {
        // A terminal in two sets; in three, which leaves an odd number of them.
        0..3 => {
            let other = (at(0) + 1) % 3;
            let both = sets[at(0)].first().or(sets[other].first());
            let both = *both.expect("L or R, which are not empty");
            sets[at(0)].insert(both);
            sets[other].insert(both);
        }
        3 => sets.iter_mut().for_each(|set| set.extend([any])),
        // Somebody in no set.
        4..7 => drop(sets[at(4)].pop_first()),
        7 => sets[largest].retain(|&one| one != any),
        // A bit at n or above.
        8..11 => sets[at(8)].extend([n]),
        11..14 => sets[at(11)].extend([rng.between(20, 31)]),
        14..17 => sets[at(14)].extend([rng.between(n, 31)]),
        _ => spoil_all(rng, sets, way - 17),
    }
}

/// The ways that are about the sets together.
fn spoil_all(rng: &mut Rng, sets: &mut Sets, way: u64) {
    match way {
        // L or R empty, or all three.
        0 | 1 => {
            let which = 1 + way as usize;
            let moved = std::mem::take(&mut sets[which]);
            sets[rng.pick(&[0, 3 - which])].extend(moved);
        }
        2 => *sets = Default::default(),
        // As many members as terminals, but one twice and another missing.
        3 => {
            let twice = sets[1].first().copied();
            sets[2].pop_first();
            sets[2].extend(twice);
        }
        // The same sum: two more of the one below in the place of one.
        4 => {
            sets.iter_mut().for_each(|set| set.retain(|&one| one != 1));
            sets.iter_mut().for_each(|set| set.extend([0]));
        }
        // n terminals from 1 on.
        _ => {
            let moved = |set: &Set| set.iter().map(|one| one + 1).collect();
            *sets = sets.each_ref().map(moved);
        }
    }
}

/// Numbers of terminals with each wrong way.
const SPOILT_SIZES: [u32; 7] = [2, 3, 5, 9, 12, 19, 20];
pub const WRONG_SETS: u64 = WAYS * SPOILT_SIZES.len() as u64;

/// Each wrong way beside several numbers of terminals; the list is by turns long enough, or not.
pub fn wrong_sets(index: u64) -> ComposeCase {
    let rng = &mut Rng::for_case(0, 20, index);
    let n = SPOILT_SIZES[(index / WAYS) as usize];
    let mut sets = some_fail(rng, n);
    spoil(rng, n, &mut sets, index % WAYS);
    let room = if index % 4 == 3 { 17 } else { 130 };
    ComposeCase { n, sets, room }
}

/// Numbers of terminals that are refused.
pub const WRONG_N: [u32; 6] = [0, 1, 21, 22, 31, 255];

/// Right sets by turns of every n, wrong ones, and a wrong n.
pub fn compose_case(seed: u64, index: u64) -> ComposeCase {
    let rng = &mut Rng::for_case(seed, 21, index);
    let turn = index / 6;
    let n = 2 + (turn % 19) as u32;
    let (n, sets) = match index % 6 {
        0..=2 => (n, some_fail(rng, n)),
        3 => {
            let mut sets = some_fail(rng, n);
            spoil(rng, n, &mut sets, turn % WAYS);
            (n, sets)
        }
        4 => wrong_count(rng, turn),
        _ if turn.is_multiple_of(2) => (20, longest()),
        _ => {
            let n = rng.pick(&[n.max(3) - 1, n + 1]);
            (n, some_fail(rng, 2 + (turn % 19) as u32))
        }
    };
    let room = room_for(rng, words(&sets, Fault::None).len(), MOST_ROOM);
    ComposeCase { n, sets, room }
}

/// A wrong n, with sets that part so many terminals as far as they can, or with wrong ones.
fn wrong_count(rng: &mut Rng, turn: u64) -> (u32, Sets) {
    let n = WRONG_N[(turn % WRONG_N.len() as u64) as usize];
    let mut sets = some_fail(rng, n.clamp(2, 32));
    match rng.below(4) {
        0 => spoil(rng, n.clamp(2, 31), &mut sets, turn % WAYS),
        1 => sets.iter_mut().for_each(|set| set.retain(|&one| one < n)),
        _ => {}
    }
    (n, sets)
}
