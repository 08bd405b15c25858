//! What bounds the bad: a number f, or named groups of which one fails together.

use crate::faults::Fault;
use crate::plan::{Cause, Set};
use std::collections::BTreeMap;

/// Places for groups, and so the most groups that a plan has.
pub const MOST_GROUPS: u32 = 16;

#[derive(Clone, Copy, Debug, PartialEq, Eq)]
pub enum Sort {
    Number,
    Groups,
}

/// As a plan record holds it, and as a step is told it. It can hold nonsense: the calls check it
/// before they use it.
#[derive(Clone, Debug, PartialEq, Eq)]
pub struct Bound {
    pub sort: Sort,
    /// f, or how many groups there are.
    pub number: u32,
    /// What stands in the sixteen places, from 0; a place without members has no entry.
    places: BTreeMap<u32, Set>,
}

impl Bound {
    pub fn f(number: u32) -> Bound {
        Bound {
            sort: Sort::Number,
            number,
            places: BTreeMap::new(),
        }
    }

    pub fn groups(groups: &[Set]) -> Bound {
        let mut bound = Bound {
            sort: Sort::Groups,
            ..Bound::f(0)
        };
        groups.iter().for_each(|group| bound.add(group.clone()));
        bound
    }

    /// One more group.
    pub fn add(&mut self, group: Set) {
        self.put(self.number, group);
        self.number += 1;
    }

    pub fn at(&self, place: u32) -> Set {
        self.places.get(&place).cloned().unwrap_or_default()
    }

    pub fn put(&mut self, place: u32, group: Set) {
        if group.is_empty() {
            self.places.remove(&place);
        } else {
            self.places.insert(place, group);
        }
    }

    /// The place after the last one that has members.
    pub fn used(&self) -> u32 {
        self.places.keys().next_back().map_or(0, |last| last + 1)
    }

    pub fn has_groups(&self) -> bool {
        self.sort == Sort::Groups
    }

    /// The groups, in their order; none where a number is the bound.
    pub fn listed(&self) -> Vec<Set> {
        let count = if self.has_groups() { self.number } else { 0 };
        (0..count).map(|place| self.at(place)).collect()
    }

    /// Whether f is in range (cause 4). Groups have no f.
    pub fn number_in_range(&self, n: u32) -> bool {
        self.has_groups() || self.number < n
    }

    /// Cause 17 of a record: no group or too many, something in a place that holds none, or a wrong
    /// group. All sixteen places hold none where a number is the bound.
    pub fn check(&self, n: u32, source: u32, fault: Fault) -> Result<(), Cause> {
        let count = match self.sort {
            Sort::Number => 0,
            Sort::Groups => self.number,
        };
        let wrong_count = match fault {
            Fault::NoGroupInRecord => count > MOST_GROUPS,
            Fault::CountAbove16InRecord => count == 0,
            _ => count == 0 || count > MOST_GROUPS,
        };
        let past = match (self.sort, fault) {
            (Sort::Number, Fault::GroupsBesideNumber) => false,
            (Sort::Groups, Fault::PastCountAccepted | Fault::PastCountUsed) => false,
            _ => self.used() > count,
        };
        let listed = self.listed();
        let mut wrong_groups = listed
            .iter()
            .filter(|group| !group_allowed(n, source, group, fault));
        if past || (self.has_groups() && (wrong_count || wrong_groups.next().is_some())) {
            return Err(Cause::Group);
        }
        Ok(())
    }
}

/// A group lacks the source and stays inside the site.
pub fn group_allowed(n: u32, source: u32, group: &Set, fault: Fault) -> bool {
    group.iter().all(|&member| match fault {
        Fault::SourceInGroupAccepted => member < n,
        Fault::GroupMemberNAccepted => member <= n && member != source,
        Fault::GroupMembersAbove19Accepted => (member < n || member > 19) && member != source,
        _ => member < n && member != source,
    })
}

/// What a checked bound means.
#[derive(Clone, Debug, PartialEq, Eq)]
pub enum Rule {
    /// So many terminals that someone hears may be bad.
    AtMost(u32),
    /// All bad terminals are members of one of these.
    WithinOne(Vec<Set>),
}

impl Rule {
    pub fn of(bound: &Bound, fault: Fault) -> Rule {
        if !bound.has_groups() {
            return Rule::AtMost(bound.number);
        }
        let mut groups = bound.listed();
        match fault {
            Fault::CountTakenForF => return Rule::AtMost(bound.number),
            Fault::NoMembersTakenForF if bound.used() == 0 => return Rule::AtMost(0),
            Fault::LastGroupForgotten => drop(groups.pop()),
            Fault::FirstGroupOnly => groups.truncate(1),
            Fault::PastCountUsed => {
                groups.extend((bound.number..bound.used()).map(|p| bound.at(p)))
            }
            Fault::UnionOfGroups => groups = vec![groups.into_iter().flatten().collect()],
            _ => {}
        }
        Rule::WithinOne(groups)
    }

    /// The rule with f instead of f+1, for two planted faults.
    pub fn without_one(self) -> Rule {
        match self {
            Rule::AtMost(f) => Rule::AtMost(f.saturating_sub(1)),
            groups => groups,
        }
    }

    /// Whether these neighbours of one terminal, all different, cannot all be bad.
    pub fn enough(&self, those: &[u32], fault: Fault) -> bool {
        match self {
            Rule::AtMost(f) => those.len() > *f as usize,
            Rule::WithinOne(groups) => {
                let inside = |group: &Set| those.iter().all(|one| group.contains(one));
                let fit = match fault {
                    Fault::MembersCounted => groups.iter().any(|group| those.len() <= group.len()),
                    Fault::FitInAllGroups => groups.iter().all(inside),
                    _ => groups.iter().any(inside),
                };
                !those.is_empty() && !fit
            }
        }
    }
}

/// Whether all bad terminals are members of one group.
pub fn part_of_one(groups: &[Set], bad: &Set, fault: Fault) -> bool {
    match fault {
        Fault::BadSetInUnion => bad.iter().all(|one| groups.iter().any(|g| g.contains(one))),
        Fault::BadSetInAllGroups => groups.iter().all(|group| bad.is_subset(group)),
        Fault::BadSetBySize => groups.iter().any(|group| bad.len() <= group.len()),
        Fault::WholeGroupsOnly => bad.is_empty() || groups.contains(bad),
        _ => groups.iter().any(|group| bad.is_subset(group)),
    }
}
