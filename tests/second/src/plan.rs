//! The site plan, its sets of terminals, and the numbers of the refusals.

use crate::faults::Fault;
use crate::groups::{part_of_one, Bound, Rule};
use crate::output;
use std::collections::BTreeSet;

/// A set of terminals, by number.
pub type Set = BTreeSet<u32>;

pub const FEWEST_TERMINALS: u32 = 2;
pub const MOST_TERMINALS: u32 = 20;

/// Why a file or a call is refused. The order is the one in which they are looked for on a line and
/// in a call, but for 13, which is looked for before 12. 15 has a place of its own in a file and is
/// never ranked, and so has 17 where it says that there is no group.
#[derive(Clone, Copy, Debug, PartialEq, Eq, PartialOrd, Ord)]
pub enum Cause {
    Text,
    Kind,
    Order,
    Head,
    TooMany,
    LinkEnd,
    LinkTwice,
    Group,
    BadSetMember,
    BadSetBound,
    Start,
    Edition,
    Word,
    WordTwice,
    Length,
    Record,
    Deaf,
}

impl Cause {
    pub fn number(self) -> u8 {
        match self {
            Cause::Text => 1,
            Cause::Kind => 2,
            Cause::Order => 3,
            Cause::Head => 4,
            Cause::LinkEnd => 5,
            Cause::LinkTwice => 6,
            Cause::BadSetMember => 7,
            Cause::BadSetBound => 8,
            Cause::Start => 9,
            Cause::Word => 10,
            Cause::WordTwice => 11,
            Cause::Length => 12,
            Cause::Record => 13,
            Cause::TooMany => 14,
            Cause::Deaf => 15,
            Cause::Edition => 16,
            Cause::Group => 17,
        }
    }
}

/// A plan record. It can hold nonsense: the calls check it before they use it.
#[derive(Clone, Debug, PartialEq, Eq)]
pub struct Plan {
    pub n: u32,
    pub source: u32,
    pub bound: Bound,
    /// Links as (sender, hearer); this order is also the order of writing.
    pub links: BTreeSet<(u32, u32)>,
}

impl Plan {
    /// A plan with the bound f, and without links.
    pub fn new(n: u32, source: u32, f: u32) -> Plan {
        Plan::with(n, source, Bound::f(f))
    }

    /// A plan with any bound, and without links.
    pub fn with(n: u32, source: u32, bound: Bound) -> Plan {
        Plan {
            n,
            source,
            bound,
            links: BTreeSet::new(),
        }
    }

    /// Causes 4, 5 and 17, in this order.
    pub fn check(&self, fault: Fault) -> Result<(), Cause> {
        self.check_links(fault)?;
        self.check_groups(fault)
    }

    pub fn check_head(&self) -> Result<(), Cause> {
        if head_in_range(self.n, self.source, &self.bound) {
            Ok(())
        } else {
            Err(Cause::Head)
        }
    }

    pub fn check_links(&self, fault: Fault) -> Result<(), Cause> {
        self.check_head()?;
        if fault == Fault::GroupsBeforeLinkEnds {
            self.check_groups(fault)?;
        }
        let mut links = self.links.iter();
        if links.any(|&(from, to)| !link_in_range(self.n, from, to)) {
            return Err(Cause::LinkEnd);
        }
        Ok(())
    }

    pub fn check_groups(&self, fault: Fault) -> Result<(), Cause> {
        self.bound.check(self.n, self.source, fault)
    }

    /// The terminals that `hearer` hears.
    pub fn heard_by(&self, hearer: u32) -> Set {
        self.links
            .iter()
            .filter(|link| link.1 == hearer)
            .map(|link| link.0)
            .collect()
    }

    /// Whether links lead from the source to everyone.
    pub fn all_reached(&self) -> bool {
        let mut reached = Set::from([self.source]);
        let mut work = vec![self.source];
        while let Some(sender) = work.pop() {
            let hearers = self.links.iter().filter(|link| link.0 == sender);
            work.extend(hearers.map(|link| link.1).filter(|&to| reached.insert(to)));
        }
        reached.len() == self.n as usize
    }

    /// The terminals that hear nobody. The source needs to hear nobody, so it is never one.
    pub fn deaf(&self, fault: Fault) -> Set {
        let asked = |terminal: &u32| *terminal != self.source || fault == Fault::SourceDeaf;
        let all: Vec<u32> = (0..self.n).filter(asked).collect();
        let hears_none_but = |those: &Set| -> Set {
            let cut_off = all.iter().copied();
            cut_off
                .filter(|&terminal| self.heard_by(terminal).is_subset(those))
                .collect()
        };
        let deaf = hears_none_but(&Set::new());
        if fault == Fault::DeafByDeaf {
            return hears_none_but(&deaf);
        }
        deaf
    }
}

pub fn head_in_range(n: u32, source: u32, bound: &Bound) -> bool {
    let right_n = (FEWEST_TERMINALS..=MOST_TERMINALS).contains(&n);
    right_n && source < n && bound.number_in_range(n)
}

pub fn link_in_range(n: u32, from: u32, to: u32) -> bool {
    from < n && to < n && from != to
}

/// The links of a checked plan as lists, for the searches that walk them often.
pub struct Neighbours {
    pub hearers_of: Vec<Vec<u32>>,
    pub heard_by: Vec<Vec<u32>>,
}

impl Neighbours {
    pub fn of(plan: &Plan) -> Neighbours {
        let none = vec![Vec::new(); plan.n as usize];
        let mut lists = Neighbours {
            hearers_of: none.clone(),
            heard_by: none,
        };
        for &(from, to) in &plan.links {
            lists.hearers_of[from as usize].push(to);
            lists.heard_by[to as usize].push(from);
        }
        lists
    }
}

/// The first half of a bad set: it lacks the source and stays inside the site (cause 7).
pub fn members_allowed(plan: &Plan, bad: &Set, fault: Fault) -> bool {
    let source_allowed = fault == Fault::SourceInBadSetAccepted;
    bad.iter()
        .all(|&member| member < plan.n && (source_allowed || member != plan.source))
}

/// The second half (cause 8): every terminal outside, the source too, hears at most f of it; or it
/// is part of a group.
pub fn bound_holds(plan: &Plan, bad: &Set, fault: Fault) -> bool {
    let rule = Rule::of(&plan.bound, fault);
    rule_holds(&rule, plan, &Neighbours::of(plan), bad, fault)
}

/// The same, of a plan whose rule and lists are at hand.
pub fn rule_holds(rule: &Rule, plan: &Plan, lists: &Neighbours, bad: &Set, fault: Fault) -> bool {
    match rule {
        Rule::AtMost(f) => few_heard(plan, lists, bad, *f, fault),
        Rule::WithinOne(groups) => part_of_one(groups, bad, fault),
    }
}

fn few_heard(plan: &Plan, lists: &Neighbours, bad: &Set, f: u32, fault: Fault) -> bool {
    if fault == Fault::BadSetBoundedInAll {
        return bad.len() <= f as usize;
    }
    let mut heard = vec![0; plan.n as usize];
    for &member in bad {
        for &hearer in &lists.hearers_of[member as usize] {
            heard[hearer as usize] += 1;
        }
    }
    (0..plan.n).all(|terminal| {
        let excused = fault == Fault::SourceUnbounded && terminal == plan.source;
        excused || heard[terminal as usize] <= f || bad.contains(&terminal)
    })
}

/// The number whose binary places are the members; members are below 32.
pub fn number_of(set: &Set) -> u32 {
    set.iter().map(|&member| 2u32.pow(member)).sum()
}

/// The set that a number stands for.
pub fn set_of(number: u32) -> Set {
    let mut rest = number;
    let mut set = Set::new();
    for member in 0..32 {
        if rest % 2 == 1 {
            set.insert(member);
        }
        rest /= 2;
    }
    set
}

/// Writes the plan into a lent list and returns the text's length.
pub fn write_plan(plan: &Plan, list: &mut [u8], fault: Fault) -> Result<usize, Cause> {
    plan.check(fault)?;
    let text = output::plan_text(plan, fault);
    if list.len() < text.len() {
        return Err(Cause::Length);
    }
    list[..text.len()].copy_from_slice(&text);
    Ok(text.len())
}
