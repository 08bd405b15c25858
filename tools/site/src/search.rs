//! The fewest links that turn a failing plan into one that passes. Every plan that is tried is
//! asked of the proved `archive`: it may still have a terminal that hears nobody.
//!
//! Whatever set of new links mends a plan must touch the verdict's F, L, R on it: a link from F
//! to a good terminal (or F stays a bad set) or from L to R (or R stays cut off). So the next link
//! is looked for among these alone, and no mend is missed. Where the plan lists groups, no link
//! makes F less of a bad set, and those from L to R are left.

use crate::ask::Programs;
use crate::frames::{Plan, Verdict};
use crate::groups::Limit;
use crate::Trouble;
use std::collections::BTreeSet;
use std::io::{self, IsTerminal, Write};

pub type Link = (u8, u8);

/// Calls of the verdict for one search, if no other number is asked for.
pub const LIMIT: usize = 4000;
/// How wide its bar of progress is.
const BAR: usize = 30;

pub struct Search<'a> {
    programs: &'a Programs,
    plan: &'a Plan,
    /// The links that may be added.
    pool: BTreeSet<Link>,
    pub calls: usize,
    pub limit: usize,
}

/// A plan that still fails: the links added so far, and the verdict on it.
struct Failing {
    added: BTreeSet<Link>,
    verdict: Verdict,
}

pub struct Mends {
    /// Sets of as many links, each enough; empty where the limit came first.
    pub sets: Vec<Vec<Link>>,
    /// No set of so many links or fewer is enough.
    pub none_of: usize,
    /// All sets of that size were looked at.
    pub complete: bool,
}

impl<'a> Search<'a> {
    pub fn new(programs: &'a Programs, plan: &'a Plan, pool: BTreeSet<Link>) -> Search<'a> {
        Search {
            programs,
            plan,
            pool,
            calls: 0,
            limit: LIMIT,
        }
    }

    pub fn ask(&mut self, added: &BTreeSet<Link>) -> Result<Verdict, Trouble> {
        self.calls += 1;
        show_progress(self.calls, self.limit);
        let mut plan = self.plan.clone();
        plan.links.extend(added);
        self.programs.verdict(&plan.to_frames())
    }

    /// Set by set, smaller ones first.
    pub fn fewest(&mut self) -> Result<Mends, Trouble> {
        let added = BTreeSet::new();
        let verdict = self.ask(&added)?;
        let mut level = vec![Failing { added, verdict }];
        let mut mends = Mends {
            sets: Vec::new(),
            none_of: 0,
            complete: true,
        };
        while mends.sets.is_empty() && mends.complete && !level.is_empty() {
            level = self.next_level(&level, &mut mends)?;
            if mends.sets.is_empty() && mends.complete {
                mends.none_of += 1;
            }
        }
        Ok(mends)
    }

    fn next_level(
        &mut self,
        level: &[Failing],
        mends: &mut Mends,
    ) -> Result<Vec<Failing>, Trouble> {
        let mut seen = BTreeSet::new();
        let mut next = Vec::new();
        for failing in level {
            for link in self.touching(&failing.verdict) {
                let mut added = failing.added.clone();
                if !added.insert(link) || !seen.insert(added.clone()) {
                    continue;
                }
                if self.calls >= self.limit {
                    mends.complete = false;
                    return Ok(next);
                }
                let verdict = self.ask(&added)?;
                if verdict.fails {
                    next.push(Failing { added, verdict });
                } else {
                    mends.sets.push(added.into_iter().collect());
                }
            }
        }
        Ok(next)
    }

    /// Links of the pool that a mend must have one of; those that bring the notice first.
    fn touching(&self, verdict: &Verdict) -> Vec<Link> {
        let brings =
            |(from, to): &&Link| verdict.reached.contains(from) && verdict.cut_off.contains(to);
        let counts_links = matches!(self.plan.limit, Limit::Bound(_));
        let rules_out = |(from, to): &&Link| {
            counts_links && verdict.bad.contains(from) && !verdict.bad.contains(to)
        };
        let first = self.pool.iter().filter(brings);
        first
            .chain(self.pool.iter().filter(rules_out))
            .copied()
            .collect()
    }

    /// Some links of the pool that are enough, none of which can be left out; none where all of
    /// the pool is not enough. More links never turn a pass into a fail.
    pub fn enough(&mut self) -> Result<Option<Vec<Link>>, Trouble> {
        let mut kept = self.pool.clone();
        if self.ask(&kept)?.fails {
            return Ok(None);
        }
        // Links of the source are left out last: they are worth the most.
        let mut order: Vec<Link> = kept.iter().copied().collect();
        order.sort_by_key(|(from, _)| *from == self.plan.source);
        for link in order {
            kept.remove(&link);
            if self.ask(&kept)?.fails {
                kept.insert(link);
            }
        }
        Ok(Some(kept.into_iter().collect()))
    }
}

/// A bar on a terminal, every so many calls.
pub fn show_progress(calls: usize, limit: usize) {
    if !calls.is_multiple_of(20) || !io::stderr().is_terminal() {
        return;
    }
    let done = (calls * BAR / limit.max(1)).min(BAR);
    let (full, rest) = ("#".repeat(done), ".".repeat(BAR - done));
    eprint!("\r[{full}{rest}] {calls} calls of at most {limit}");
    drop(io::stderr().flush());
}

/// A line of progress must not stay beside the answer.
pub fn clear_progress() {
    if io::stderr().is_terminal() {
        eprint!("\r{:70}\r", "");
    }
}
