//! The verdict on a plan, its witness, and the check of a witness.

use crate::faults::Fault;
use crate::groups::{part_of_one, Rule};
use crate::plan::{bound_holds, members_allowed, rule_holds, set_of, Cause, Neighbours, Plan, Set};
use crate::quote;

/// The answer on a plan: F, L and R of the witness, or three empty sets where it passes.
#[derive(Clone, Debug, Default, PartialEq, Eq)]
pub struct Verdict {
    pub fails: bool,
    pub bad: Set,
    pub reached: Set,
    pub left: Set,
}

pub fn verdict(plan: &Plan, fault: Fault) -> Result<Verdict, Cause> {
    if fault == Fault::QuoteLimitInVerdict {
        quote::check(plan, fault)?;
    }
    plan.check(fault)?;
    let search = Search::of(plan, fault);
    let found = match fault {
        Fault::WitnessByNumber => {
            (0..2u32.pow(plan.n)).find_map(|number| search.witness_with(&set_of(number)))
        }
        Fault::WitnessOfFirstGroup if plan.bound.has_groups() => {
            let groups = plan.bound.listed();
            groups.iter().find_map(|group| search.least(group))
        }
        _ => search.least(&(0..plan.n).collect()),
    };
    Ok(found.unwrap_or_default())
}

/// Whether F is a bad set of the plan.
pub fn is_bad_set(plan: &Plan, bad: &Set, fault: Fault) -> Result<bool, Cause> {
    plan.check(fault)?;
    let inside = members_allowed(plan, bad, fault);
    Ok(inside && bound_holds(plan, bad, fault))
}

/// Whether this is a bad set of a checked plan and leaves someone waiting.
pub fn fails_with(plan: &Plan, bad: &Set) -> bool {
    Search::of(plan, Fault::None).witness_with(bad).is_some()
}

/// Why a plan or a proposed bad set is refused: 4, 5, 17, 7 or 8.
pub fn fault_cause(plan: &Plan, bad: &Set, fault: Fault) -> Result<(), Cause> {
    plan.check_links(fault)?;
    if fault != Fault::GroupsAfterBadSet {
        plan.check_groups(fault)?;
    }
    if !members_allowed(plan, bad, fault) {
        return Err(Cause::BadSetMember);
    }
    plan.check_groups(fault)?;
    if !bound_holds(plan, bad, fault) {
        return Err(Cause::BadSetBound);
    }
    Ok(())
}

struct Search<'a> {
    plan: &'a Plan,
    lists: Neighbours,
    /// Which sets are bad.
    rule: Rule,
    /// Who joins L.
    joining: Rule,
    fault: Fault,
}

impl Search<'_> {
    fn of(plan: &Plan, fault: Fault) -> Search<'_> {
        let rule = Rule::of(&plan.bound, fault);
        let joining = match fault {
            Fault::ClosureWithoutOne => rule.clone().without_one(),
            _ => rule.clone(),
        };
        Search {
            plan,
            lists: Neighbours::of(plan),
            rule,
            joining,
            fault,
        }
    }

    /// The witness with fewest members of these, then the smallest number.
    fn least(&self, of: &Set) -> Option<Verdict> {
        (0..self.plan.n).find_map(|size| self.of_size(size, self.plan.n, of, &Set::new()))
    }

    /// The first witness with `size` further members, all below `limit`.
    ///
    /// The greatest member decides first which of two sets is the smaller number, so going
    /// through it upwards lists the sets of one size as ascending numbers.
    fn of_size(&self, size: u32, limit: u32, of: &Set, chosen: &Set) -> Option<Verdict> {
        if size == 0 {
            return self.witness_with(chosen);
        }
        (size - 1..limit)
            .filter(|top| *top != self.plan.source && of.contains(top))
            .find_map(|top| {
                let mut longer = chosen.clone();
                longer.insert(top);
                if self.outside_groups(&longer) {
                    return None;
                }
                self.of_size(size - 1, top, of, &longer)
            })
    }

    /// What is part of no group is part of no larger bad set either.
    fn outside_groups(&self, chosen: &Set) -> bool {
        let fault = match self.fault {
            Fault::WholeGroupsOnly => Fault::None,
            fault => fault,
        };
        match &self.rule {
            Rule::AtMost(_) => false,
            Rule::WithinOne(groups) => !part_of_one(groups, chosen, fault),
        }
    }

    fn witness_with(&self, bad: &Set) -> Option<Verdict> {
        let holds = rule_holds(&self.rule, self.plan, &self.lists, bad, self.fault);
        if bad.contains(&self.plan.source) || !holds {
            return None;
        }
        let reached = self.closure(bad);
        if reached.len() + bad.len() == self.plan.n as usize {
            return None;
        }
        let outside = |terminal: &u32| !bad.contains(terminal) && !reached.contains(terminal);
        let left = (0..self.plan.n).filter(outside).collect();
        Some(Verdict {
            fails: true,
            bad: bad.clone(),
            reached,
            left,
        })
    }

    /// L by a work list: each terminal that joins tells its hearers once.
    fn closure(&self, bad: &Set) -> Set {
        let plan = self.plan;
        let mut told_by: Vec<Vec<u32>> = vec![Vec::new(); plan.n as usize];
        let mut reached = Set::from([plan.source]);
        let mut work = vec![plan.source];
        while let Some(teller) = work.pop() {
            for &hearer in &self.lists.hearers_of[teller as usize] {
                let told_by = &mut told_by[hearer as usize];
                told_by.push(teller);
                let joins = teller == plan.source || self.joining.enough(told_by, self.fault);
                if joins && !bad.contains(&hearer) && reached.insert(hearer) {
                    work.push(hearer);
                }
            }
        }
        reached
    }
}

/// Whether F, L and R show that the plan fails, whoever proposed them.
pub fn witness_check(
    plan: &Plan,
    bad: &Set,
    reached: &Set,
    left: &Set,
    fault: Fault,
) -> Result<bool, Cause> {
    plan.check(fault)?;
    let sets = [bad, reached, left];
    if sets
        .iter()
        .any(|set| set.iter().any(|&member| member >= plan.n))
    {
        return Ok(false);
    }
    let partition =
        (0..plan.n).all(|terminal| sets.iter().filter(|set| set.contains(&terminal)).count() == 1);
    let rule = Rule::of(&plan.bound, fault);
    let told = |terminal: &u32| {
        plan.heard_by(*terminal)
            .intersection(reached)
            .copied()
            .collect()
    };
    let kept_waiting = left.iter().all(|terminal| {
        let told: Vec<u32> = told(terminal);
        !told.contains(&plan.source) && !rule.enough(&told, fault)
    });
    let all_told: Set = left.iter().flat_map(told).collect();
    let pooled: Vec<u32> = all_told.into_iter().collect();
    let kept_together = fault != Fault::LeftCountedTogether || !rule.enough(&pooled, fault);
    Ok(partition
        && reached.contains(&plan.source)
        && !left.is_empty()
        && is_bad_set(plan, bad, fault)?
        && kept_waiting
        && kept_together)
}
