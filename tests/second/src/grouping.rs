//! Seeded groups for plans: apart, overlapping, nested, empty, of one, of all but the source, near
//! the border between passing and failing, and as many as there may be.

use crate::groups::{Bound, MOST_GROUPS};
use crate::plan::{number_of, Plan, Set};
use crate::plans::{passes, source_first};
use crate::rng::Rng;
use crate::verdict::fails_with;

/// Of a hundred plans so many list groups.
pub const GROUPED: u32 = 34;

/// Searches through the parts of larger groups take long, on plans that nobody's fault defeats.
const LARGE_SITE: u32 = 12;
const LARGE_GROUPS: [usize; 4] = [8, 8, 10, 13];

/// Groups instead of f, in one plan of three.
pub fn maybe_grouped(rng: &mut Rng, plan: &mut Plan) {
    if rng.chance(GROUPED) {
        group_up(rng, plan);
    }
}

/// Groups instead of f such that nobody is to spare, for liars that matter.
pub fn group_thinly(rng: &mut Rng, plan: &mut Plan) {
    let groups = match rng.below(3) {
        0 => boards(rng, plan, 1),
        _ => almost_heard(rng, plan),
    };
    list_groups(rng, plan, groups);
}

/// Boards of at most three terminals instead of f: there are few parts of them.
pub fn board_up(rng: &mut Rng, plan: &mut Plan) {
    let groups = boards(rng, plan, 3);
    list_groups(rng, plan, groups);
}

/// Groups of any sort instead of f.
pub fn group_up(rng: &mut Rng, plan: &mut Plan) {
    let mut groups = match rng.below(22) {
        0 | 1 => boards(rng, plan, 3),
        2..=4 => boards(rng, plan, 1),
        5 | 6 => any_groups(rng, plan, 6),
        7 => nested(rng, plan),
        8 => vec![Set::new()],
        9 => vec![all_but_source(plan)],
        10 => any_groups(rng, plan, 1),
        11 => any_groups(rng, plan, MOST_GROUPS),
        12 | 13 => spaced(rng, plan),
        14 | 15 => almost_heard(rng, plan),
        16 | 17 => halves(rng, plan),
        _ => at_the_border(rng, plan),
    };
    if rng.chance(40) {
        add_others(rng, &mut groups);
    }
    list_groups(rng, plan, groups);
}

/// Puts them into the plan, in any order, and no more than it may have.
fn list_groups(rng: &mut Rng, plan: &mut Plan, mut groups: Vec<Set>) {
    rng.shuffle(&mut groups);
    groups.truncate(MOST_GROUPS as usize);
    plan.bound = Bound::groups(&groups);
    if plan.n > LARGE_SITE && !fails_soon(plan) {
        let most = rng.pick(&LARGE_GROUPS);
        let cut = |group: &Set| group.iter().copied().take(most).collect();
        plan.bound = Bound::groups(&groups.iter().map(cut).collect::<Vec<Set>>());
    }
}

/// Whether nobody or one terminal is enough to keep someone waiting.
pub fn fails_soon(plan: &Plan) -> bool {
    let singles = (0..plan.n).map(|terminal| Set::from([terminal]));
    let mut few = singles.chain([Set::new()]);
    few.any(|bad| fails_with(plan, &bad))
}

fn all_but_source(plan: &Plan) -> Set {
    (0..plan.n)
        .filter(|&terminal| terminal != plan.source)
        .collect()
}

/// Any members, at least one, mostly few.
fn any_group(rng: &mut Rng, plan: &Plan) -> Set {
    let others = source_first(rng, plan).split_off(1);
    let any = 1 + rng.below(others.len());
    let size = rng.pick(&[1, 2, 2, 3, 3, 4, any]);
    others.into_iter().take(size).collect()
}

fn any_groups(rng: &mut Rng, plan: &Plan, most: u32) -> Vec<Set> {
    let count = match most {
        MOST_GROUPS => MOST_GROUPS,
        _ => rng.between(1, most),
    };
    (0..count).map(|_| any_group(rng, plan)).collect()
}

/// Every terminal on one board, of so many terminals at most.
fn boards(rng: &mut Rng, plan: &Plan, most: u32) -> Vec<Set> {
    let mut others = source_first(rng, plan).split_off(1);
    let mut groups = Vec::new();
    while !others.is_empty() {
        let size = rng.between(1, most) as usize;
        let rest = others.split_off(size.min(others.len()));
        groups.push(others.into_iter().collect());
        others = rest;
    }
    groups
}

/// Each group has all members of the one before it, and more.
fn nested(rng: &mut Rng, plan: &Plan) -> Vec<Set> {
    let others = source_first(rng, plan).split_off(1);
    let mut group = Set::new();
    let mut groups = Vec::new();
    for member in others.into_iter().take(rng.pick(&[2, 3, 5])) {
        group.insert(member);
        groups.push(group.clone());
    }
    groups
}

/// No two groups have all that someone hears, so whoever is bad, the rest is enough: it passes if
/// the plan passed with f.
fn spaced(rng: &mut Rng, plan: &Plan) -> Vec<Set> {
    let count = rng.between(1, 6) as usize;
    let mut groups = vec![Set::new(); count];
    let hearers: Vec<Set> = (0..plan.n)
        .filter(|&hearer| hearer != plan.source)
        .map(|hearer| plan.heard_by(hearer))
        .filter(|heard| !heard.contains(&plan.source))
        .collect();
    for _ in 0..rng.between(2, 16) {
        let (at, member) = (rng.below(count), source_first(rng, plan)[1]);
        let mut larger = groups[at].clone();
        larger.insert(member);
        let covered = |heard: &Set, other: &Set| {
            let mut heard = heard.iter();
            heard.all(|one| larger.contains(one) || other.contains(one))
        };
        let safe = hearers
            .iter()
            .all(|heard| !groups.iter().any(|other| covered(heard, other)));
        if safe {
            groups[at] = larger;
        }
    }
    groups
}

/// What some terminals hear that don't hear the source, all but one of it: with that one it is just
/// enough. Mostly for each one of what they hear, so that nobody is to spare.
fn almost_heard(rng: &mut Rng, plan: &Plan) -> Vec<Set> {
    let each = rng.chance(75);
    let mut groups = Vec::new();
    for hearer in source_first(rng, plan).into_iter().skip(1) {
        let heard = plan.heard_by(hearer);
        if heard.contains(&plan.source) || heard.is_empty() {
            continue;
        }
        let mut spared: Vec<u32> = heard.iter().copied().collect();
        rng.shuffle(&mut spared);
        for one in spared.iter().take(if each { spared.len() } else { 1 }) {
            groups.push(heard.iter().copied().filter(|other| other != one).collect());
        }
    }
    if groups.is_empty() {
        return boards(rng, plan, 2);
    }
    groups.sort_by_key(number_of);
    groups.dedup();
    groups
}

/// What one terminal hears, in two groups: where all of one fail, the rest fits in the other.
fn halves(rng: &mut Rng, plan: &Plan) -> Vec<Set> {
    let hearers = source_first(rng, plan).into_iter().skip(1);
    let heard = hearers.map(|hearer| plan.heard_by(hearer));
    let indirect = heard.filter(|heard| !heard.contains(&plan.source));
    let most = indirect.max_by_key(Set::len).unwrap_or_default();
    let mut members: Vec<u32> = most.into_iter().collect();
    rng.shuffle(&mut members);
    let rest = members.split_off(members.len() / 2);
    [members, rest]
        .into_iter()
        .map(|half| half.into_iter().collect())
        .collect()
}

/// Groups that grow as long as the plan passes, and sometimes once more.
fn at_the_border(rng: &mut Rng, plan: &Plan) -> Vec<Set> {
    let count = rng.between(1, 4) as usize;
    let mut groups = vec![Set::new(); count];
    if plan.n > 8 {
        return spaced(rng, plan);
    }
    for _ in 0..rng.between(2, 12) {
        let mut larger = groups.clone();
        larger[rng.below(count)].insert(source_first(rng, plan)[1]);
        let grown = Plan {
            bound: Bound::groups(&larger),
            ..plan.clone()
        };
        if passes(&grown) {
            groups = larger;
        } else if rng.chance(30) {
            return larger;
        }
    }
    groups
}

/// An empty group, one given twice, a part of one, two together; or sixteen in all.
fn add_others(rng: &mut Rng, groups: &mut Vec<Set>) {
    let count = rng.pick(&[1, 1, 2, MOST_GROUPS as usize]);
    for _ in 0..count {
        let (one, other) = (rng.below(groups.len()), rng.below(groups.len()));
        let part = groups[one].iter().copied().filter(|_| rng.chance(60));
        let part: Set = part.collect();
        let more = match rng.below(8) {
            0..=2 => groups[one].clone(),
            3 | 4 => Set::new(),
            5 if count < 3 => groups[one].union(&groups[other]).copied().collect(),
            _ => part,
        };
        groups.push(more);
    }
}
