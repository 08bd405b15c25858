//! Seeded plan records, right or wrong, and sets for them. They reach what no file shows: links that
//! a file cannot have, groups past the count, groups beside f, and several causes at once.

use crate::faults::Fault;
use crate::grouping::{group_up, GROUPED};
use crate::groups::{Bound, Sort, MOST_GROUPS};
use crate::plan::{write_plan, Cause, Plan, Set};
use crate::plans::any_plan;
use crate::rng::Rng;
use crate::verdict::{fault_cause, verdict, witness_check, Verdict};

/// A plan record and three sets for its checks.
#[derive(Clone, Debug)]
pub struct RecordCase {
    pub plan: Plan,
    /// Proposed as a bad set.
    pub bad: Set,
    /// Proposed as F, L and R.
    pub sets: [Set; 3],
}

/// What the calls on a plan record answer: the verdict, why a bad set is refused, whether the three
/// sets are a witness, and the plan's text.
#[derive(Clone, Debug, PartialEq, Eq)]
pub struct RecordAnswer {
    pub verdict: Result<Verdict, Cause>,
    pub bad: Result<(), Cause>,
    pub witness: Result<bool, Cause>,
    pub written: Result<Vec<u8>, Cause>,
}

/// Room for any plan's text.
const ROOM: usize = 3_000;

pub fn record_case(seed: u64, index: u64) -> RecordCase {
    let mut rng = Rng::for_case(seed, 4, index);
    let plan = some_plan(&mut rng, 7);
    let bad = some_bad_set(&mut rng, &plan);
    let sets = some_sets(&mut rng, &plan);
    RecordCase { plan, bad, sets }
}

pub fn record_answer(case: &RecordCase, fault: Fault) -> RecordAnswer {
    let [bad, reached, left] = &case.sets;
    let mut list = vec![0; ROOM];
    let written = write_plan(&case.plan, &mut list, fault);
    RecordAnswer {
        verdict: verdict(&case.plan, fault),
        bad: fault_cause(&case.plan, &case.bad, fault),
        witness: witness_check(&case.plan, bad, reached, left, fault),
        written: written.map(|length| list[..length].to_vec()),
    }
}

/// A plan of at most so many terminals, a third of them with groups; one in four has something wrong
/// in it, or two things, and then mostly has groups.
pub fn some_plan(rng: &mut Rng, most: u32) -> Plan {
    let n = rng.between(2, most);
    let mut plan = any_plan(rng, n);
    let broken = rng.chance(25);
    if rng.chance(if broken { 60 } else { GROUPED }) {
        group_up(rng, &mut plan);
    }
    if broken {
        break_plan(rng, &mut plan);
        if rng.chance(35) {
            break_plan(rng, &mut plan);
        }
    }
    plan
}

/// A number out of range, a link that the site lacks, or wrong groups.
pub fn break_plan(rng: &mut Rng, plan: &mut Plan) {
    let n = plan.n;
    let inside = n.clamp(1, 20);
    let outside = rng.between(n.min(31), 31);
    match rng.below(12) {
        0 => plan.n = rng.pick(&[0, 1, 21, 255]),
        1 => plan.source = rng.pick(&[n, 255]),
        2 => break_number(rng, &mut plan.bound, n),
        3 => drop(plan.links.insert((outside, rng.between(0, inside - 1)))),
        4 if n < 20 => drop(plan.links.insert((0, rng.between(n, 19)))),
        4 | 5 => {
            let both = rng.between(0, inside - 1);
            plan.links.insert((both, both));
        }
        _ => break_bound(rng, &mut plan.bound, n, plan.source),
    }
}

/// An f out of range, or a count of groups with as many groups as there were.
fn break_number(rng: &mut Rng, bound: &mut Bound, n: u32) {
    bound.number = match bound.sort {
        Sort::Number => rng.pick(&[n.min(255), 255]),
        Sort::Groups => rng.pick(&[0, 17, 255]),
    };
}

/// Wrong in its groups: something beside f; or one of the ways in which groups are wrong.
pub fn break_bound(rng: &mut Rng, bound: &mut Bound, n: u32, source: u32) {
    if bound.sort == Sort::Number {
        let place = rng.between(0, MOST_GROUPS - 1);
        let place = rng.pick(&[0, 0, MOST_GROUPS - 1, place]);
        bound.put(place, Set::from([rng.between(0, n.clamp(1, 20) - 1)]));
    } else {
        let way = rng.below(WAYS);
        break_groups(rng, bound, n, source, way);
    }
}

/// How many ways there are of breaking groups.
pub const WAYS: usize = 7;

/// No group, a count of 0 beside some, a count above 16, one past the count, and members: the source,
/// n, and a number above it.
pub fn break_groups(rng: &mut Rng, bound: &mut Bound, n: u32, source: u32, way: usize) {
    let last = MOST_GROUPS - 1;
    let count = bound.number.min(MOST_GROUPS);
    let inside = rng.between(0, count.max(1) - 1);
    let mut group = bound.at(inside);
    match way {
        0 => *bound = Bound::groups(&[]),
        1 => bound.number = 0,
        2 => bound.number = rng.pick(&[17, 17, 255]),
        3 if count <= last => {
            let past = rng.between(count, last);
            let member = rng.between(0, n.clamp(1, 20) - 1);
            bound.put(rng.pick(&[count, last, past]), Set::from([member]));
        }
        4 => {
            group.insert(source.min(31));
            bound.put(inside, group);
        }
        5 => {
            group.insert(n.min(31));
            bound.put(inside, group);
        }
        _ => {
            group.insert(rng.between((n + 1).min(31), 31));
            bound.put(inside, group);
        }
    }
}

/// Any terminals of the site; seldom one that the site lacks.
pub fn some_set(rng: &mut Rng, n: u32) -> Set {
    let share = rng.pick(&[5, 20, 50, 90]);
    let mut set: Set = (0..n.min(32)).filter(|_| rng.chance(share)).collect();
    if rng.chance(8) {
        set.insert(rng.between(n.min(31), 31));
    }
    set
}

/// Any terminals; where there are groups also a group, a part of one, two together, or one and
/// another terminal.
pub fn some_bad_set(rng: &mut Rng, plan: &Plan) -> Set {
    let groups = plan.bound.listed();
    let mut bad = if groups.is_empty() || rng.chance(30) {
        some_set(rng, plan.n)
    } else {
        let (one, other) = (rng.below(groups.len()), rng.below(groups.len()));
        let mut bad = groups[one].clone();
        match rng.below(4) {
            0 => bad.retain(|_| rng.chance(60)),
            1 => bad.extend(&groups[other]),
            2 => drop(bad.insert(rng.between(0, plan.n.clamp(1, 32) - 1))),
            _ => {}
        }
        bad
    };
    if rng.chance(70) {
        bad.remove(&plan.source);
    }
    if rng.chance(4) {
        bad.insert(rng.between(plan.n.min(31), 31));
    }
    bad
}

/// The verdict's own sets where the plan fails, any partition where it does not; half of them then
/// changed.
pub fn some_sets(rng: &mut Rng, plan: &Plan) -> [Set; 3] {
    let mut sets = [Set::new(), Set::new(), Set::new()];
    match verdict(plan, Fault::None) {
        Ok(found) if found.fails => sets = [found.bad, found.reached, found.left],
        _ => {
            for terminal in 0..plan.n.min(20) {
                sets[rng.below(3)].insert(terminal);
            }
        }
    }
    if rng.chance(50) {
        spoil_sets(rng, plan, &mut sets);
    }
    sets
}

/// One terminal put in, taken out or moved, or one that the site lacks.
fn spoil_sets(rng: &mut Rng, plan: &Plan, sets: &mut [Set; 3]) {
    let terminal = rng.between(0, plan.n.clamp(1, 20) - 1);
    let (one, other) = (rng.below(3), rng.below(3));
    match rng.below(4) {
        0 => drop(sets[one].insert(terminal)),
        1 => drop(sets[one].remove(&terminal)),
        2 => {
            sets.iter_mut().for_each(|set| {
                set.remove(&terminal);
            });
            sets[other].insert(terminal);
        }
        _ => drop(sets[one].insert(rng.between(plan.n.min(31), 31))),
    }
}
