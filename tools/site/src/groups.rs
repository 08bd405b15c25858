//! Who may be bad together. A plan has a bound, or it lists groups, as of boards that share a
//! supply: then the bad ones are any part of one group, and neighbours are believed where they
//! fit together in none. Groups are named by letters, in the order of the plan.

use crate::document::Extras;
use crate::frames::Plan;
use crate::reason::{because, plainly, with_and, Reason};

/// In the head's place for the bound: the plan lists groups.
pub const LISTED: u8 = 0xff;
pub const MOST_GROUPS: usize = 16;

/// Its members, ascending; it may have none.
pub type Group = Vec<u8>;

#[derive(Clone)]
pub enum Limit {
    /// A good terminal hears at most so many bad ones.
    Bound(u8),
    Groups(Vec<Group>),
}

impl Limit {
    pub fn of_head(byte: u8) -> Limit {
        match byte {
            LISTED => Limit::Groups(Vec::new()),
            bound => Limit::Bound(bound),
        }
    }

    pub fn in_head(&self) -> u8 {
        match self {
            Limit::Bound(bound) => *bound,
            Limit::Groups(_) => LISTED,
        }
    }

    /// None where there is a bound.
    pub fn groups(&self) -> &[Group] {
        match self {
            Limit::Bound(_) => &[],
            Limit::Groups(groups) => groups,
        }
    }

    /// Where there is a bound, there is no place for a group.
    pub fn add_group(&mut self, group: Group) {
        if let Limit::Groups(groups) = self {
            groups.push(group);
        }
    }
}

/// "A" is the first.
pub fn letter(place: usize) -> char {
    char::from(b"ABCDEFGHIJKLMNOP"[place % MOST_GROUPS])
}

fn named(place: usize, group: &Group) -> String {
    format!("{} ({})", letter(place), Extras::default().listed(group))
}

fn fits(terminals: &[u8], group: &Group) -> bool {
    terminals.iter().all(|one| group.contains(one))
}

/// The first group that has them all.
fn holding(groups: &[Group], terminals: &[u8]) -> Option<usize> {
    groups.iter().position(|group| fits(terminals, group))
}

/// "in group A (1, 2)", and of several that they all are.
fn all_in(groups: &[Group], terminals: &[u8]) -> Option<String> {
    let place = holding(groups, terminals)?;
    let all = match terminals.len() {
        0 | 1 => "",
        2 => "both ",
        _ => "all ",
    };
    Some(format!("{all}in group {}", named(place, &groups[place])))
}

/// Why these may be bad, of a bad set that `run` has accepted.
pub fn may_be_bad(groups: &[Group], bad: &[u8]) -> String {
    let they = if bad.len() == 1 { "it is" } else { "they are" };
    match all_in(groups, bad) {
        Some(where_they_are) => format!("{they} {where_they_are}"),
        None => format!("{they} part of a group"),
    }
}

/// What one that is cut off has and lacks, after those of L that it hears.
pub fn short_of(groups: &[Group], reached: &[u8]) -> String {
    let needs = "and needs some who together fit in no group";
    match all_in(groups, reached) {
        Some(where_they_are) if !reached.is_empty() => format!(", {where_they_are}, {needs}"),
        _ => format!(" {needs}"),
    }
}

/// Under a verdict that fails: which group the bad ones are of.
pub fn bad_part(groups: &[Group], bad: &[u8]) -> Option<String> {
    let place = holding(groups, bad)?;
    let all = if bad.len() == groups[place].len() {
        "all"
    } else {
        "part"
    };
    let group = named(place, &groups[place]);
    Some(format!(
        "the bad ones are {all} of group {group}; a bad set is any part of one group"
    ))
}

/// Under a verdict that passes: what it rests on.
pub fn relied_on(plan: &Plan, extras: &Extras) -> Vec<String> {
    let groups = plan.limit.groups();
    if groups.is_empty() {
        return Vec::new();
    }
    let listed: Vec<String> = groups
        .iter()
        .enumerate()
        .map(|(at, one)| named(at, one))
        .collect();
    let mut lines = vec![format!(
        "a bad set is any part of one group: {}",
        listed.join(", ")
    )];
    let in_none = |one: &u8| *one != plan.source && holding(groups, &[*one]).is_none();
    let never: Vec<u8> = (0..plan.terminals).filter(in_none).collect();
    if !never.is_empty() {
        lines.push(format!(
            "in no group, so taken to be good: {}",
            extras.listed(&never)
        ));
    }
    lines
}

/// Why a group is refused that follows those of the plan.
pub fn refused(plan: &Plan, group: &Group) -> Option<Reason> {
    if plan.limit.groups().len() == MOST_GROUPS {
        return plainly(format!("a seventeenth group: {MOST_GROUPS} are the most"));
    }
    let source = plan.source;
    if group.contains(&source) {
        return plainly(format!(
            "{source} is the source, which is good: no group has it"
        ));
    }
    let above = group.iter().find(|one| **one >= plan.terminals)?;
    let last = plan.terminals.saturating_sub(1);
    because(
        format!("terminal {above}"),
        format!("the terminals are 0 to {last}"),
    )
}

pub fn none_listed() -> Option<Reason> {
    plainly("the head has ff for f, so the plan lists its groups, lines 07, and there is none")
}

/// Why a bad set is refused of which every group lacks somebody.
pub fn part_of_none(bad: &[u8]) -> Option<Reason> {
    let all = match bad.len() {
        1 => "",
        2 => "both ",
        _ => "all of ",
    };
    plainly(format!("no group has {all}{}", with_and(bad)))
}
