//! The margins for the fitter: how close each terminal is to trouble.
//!
//! Every set of terminals is looked at, as a number whose bit i stands for terminal i.

use crate::faults::Fault;
use crate::plan::{link_in_range, number_of, Cause, Plan};
use crate::quote;
use crate::reader::{read_plan, Refusal};
use crate::verdict::verdict;

/// What is said of a terminal.
#[derive(Clone, Copy, Debug, PartialEq, Eq)]
pub enum Standing {
    Source,
    /// It hears the source.
    Direct,
    /// How many it hears that have ended in L, less f+1, at the least.
    Margin(i32),
}

/// What is said of each terminal, from 0. Causes 4 and 5, in this order.
pub fn margins(plan: &Plan, fault: Fault) -> Result<Vec<Standing>, Cause> {
    check(plan, fault)?;
    let search = Search::of(plan, fault);
    let least = search.least();
    let all = (0..plan.n).zip(&least);
    Ok(all
        .map(|(terminal, &heard)| search.standing(terminal, heard))
        .collect())
}

/// Causes 4 and 5 of a plan record. Groups have no f that anything could be less than, so they get 4.
fn check(plan: &Plan, fault: Fault) -> Result<(), Cause> {
    let beside = !plan.bound.has_groups() && plan.bound.used() > 0;
    let refused = match fault {
        Fault::MarginGroupsAccepted => beside,
        Fault::MarginBesideFAccepted => plan.bound.has_groups(),
        _ => plan.bound.has_groups() || beside,
    };
    let cause = match fault {
        Fault::MarginGroupsAs17 if !beside => Cause::Group,
        Fault::MarginBesideFAs17 if beside => Cause::Group,
        _ => Cause::Head,
    };
    let mut links = plan.links.iter();
    if fault == Fault::MarginLinksFirst && links.any(|l| !link_in_range(plan.n, l.0, l.1)) {
        return Err(Cause::LinkEnd);
    }
    if fault == Fault::MarginGroupsAfterLinks {
        plan.check_links(fault)?;
    }
    if refused {
        return Err(cause);
    }
    if fault == Fault::QuoteLimitInMargins {
        quote::check(plan, fault)?;
    }
    plan.check_links(fault)?;
    match fault {
        Fault::MarginDeafRecordRefused if !plan.deaf(fault).is_empty() => Err(Cause::Deaf),
        _ => Ok(()),
    }
}

fn bit(terminal: u32) -> u32 {
    1 << terminal
}

fn has(set: u32, terminal: u32) -> bool {
    set & bit(terminal) != 0
}

struct Search {
    n: u32,
    source: u32,
    f: u32,
    /// The set that each terminal hears, and the set that hears it.
    heard: Vec<u32>,
    hearers: Vec<u32>,
    /// F of the verdict, for one planted fault.
    verdict_bad: u32,
    fault: Fault,
}

impl Search {
    fn of(plan: &Plan, fault: Fault) -> Search {
        let none = vec![0; plan.n as usize];
        let (mut heard, mut hearers) = (none.clone(), none);
        for &(from, to) in &plan.links {
            heard[to as usize] |= bit(from);
            hearers[from as usize] |= bit(to);
        }
        let verdict_bad = match fault {
            Fault::MarginOfVerdictSet => {
                verdict(plan, Fault::None).map_or(0, |answer| number_of(&answer.bad))
            }
            _ => 0,
        };
        Search {
            n: plan.n,
            source: plan.source,
            f: plan.bound.number,
            heard,
            hearers,
            verdict_bad,
            fault,
        }
    }

    fn heard(&self, terminal: u32) -> u32 {
        self.heard[terminal as usize]
    }

    /// How many members of L each terminal hears, at the least over the bad sets that leave it good.
    fn least(&self) -> Vec<u32> {
        let mut least: Vec<Option<u32>> = vec![None; self.n as usize];
        for bad in (0..bit(self.n)).filter(|&set| self.is_bad_set(set)) {
            let reached = self.reached(bad);
            let asked =
                |terminal: &u32| !has(bad, *terminal) || self.fault == Fault::MarginWhereItIsBad;
            for terminal in (0..self.n).filter(asked) {
                let count = self.count(terminal, bad, reached);
                let place = &mut least[terminal as usize];
                *place = Some(match (*place, self.fault) {
                    (None, _) => count,
                    (Some(other), Fault::MarginGreatest) => count.max(other),
                    (Some(other), _) => count.min(other),
                });
            }
        }
        // The empty set is bad and leaves everyone good.
        least.into_iter().map(Option::unwrap_or_default).collect()
    }

    /// It lacks the source, and every terminal outside, the source too, hears at most f of it.
    fn is_bad_set(&self, set: u32) -> bool {
        if has(set, self.source) {
            return false;
        }
        let few = |terminal: u32| (self.heard(terminal) & set).count_ones() <= self.f;
        let mut all = 0..self.n;
        match self.fault {
            Fault::MarginOverAllSets => true,
            Fault::MarginWithNobodyBad => set == 0,
            Fault::MarginOfVerdictSet => set == 0 || set == self.verdict_bad,
            Fault::MarginOfFewBad => set.count_ones() <= self.f,
            Fault::MarginOfOneBad => set.count_ones() <= 1 && all.all(|t| has(set, t) || few(t)),
            Fault::MarginSourceUnbounded => all.all(|t| has(set, t) || t == self.source || few(t)),
            Fault::MarginBadOnesBounded => all.all(few),
            _ => all.all(|terminal| has(set, terminal) || few(terminal)),
        }
    }

    /// L grows from the source alone until nobody joins.
    fn reached(&self, bad: u32) -> u32 {
        let mut reached = bit(self.source);
        loop {
            let joining = |terminal: &u32| !has(bad, *terminal) && self.joins(*terminal, reached);
            let joined = (0..self.n).filter(joining).map(bit);
            let larger = joined.fold(reached, |set, one| set | one);
            if larger == reached || self.fault == Fault::MarginAfterOneTurn {
                return larger;
            }
            reached = larger;
        }
    }

    /// Whether someone who isn't bad hears the source or at least f+1 members of this L.
    fn joins(&self, terminal: u32, reached: u32) -> bool {
        let told = (self.heard(terminal) & reached).count_ones();
        let direct = has(self.heard(terminal), self.source);
        match self.fault {
            Fault::MarginSourceCountsOne => told > self.f,
            Fault::MarginJoinsWithF => direct || told >= self.f.max(1),
            Fault::MarginJoinsWithOne => direct || told > 0,
            _ => direct || told > self.f,
        }
    }

    /// How many members of L the terminal hears.
    fn count(&self, terminal: u32, bad: u32, reached: u32) -> u32 {
        let heard = match self.fault {
            Fault::MarginOfHearers => self.hearers[terminal as usize],
            _ => self.heard(terminal),
        };
        let counted = match self.fault {
            Fault::MarginCountsBadOnes => reached | bad,
            Fault::MarginCountsAllGood => !bad,
            _ => reached,
        };
        (heard & counted).count_ones()
    }

    fn standing(&self, terminal: u32, heard: u32) -> Standing {
        if terminal == self.source {
            return Standing::Source;
        }
        let margin = match self.fault {
            Fault::MarginLessF => heard as i32 - self.f as i32,
            _ => heard as i32 - (self.f as i32 + 1),
        };
        let direct = match self.fault {
            Fault::DirectByMargin => false,
            Fault::DirectWhereShort => has(self.heard(terminal), self.source) && margin < 0,
            Fault::DirectBackwards => has(self.heard(self.source), terminal),
            _ => has(self.heard(terminal), self.source),
        };
        match self.fault {
            _ if direct => Standing::Direct,
            Fault::MarginCutAtZero => Standing::Margin(margin.max(0)),
            _ => Standing::Margin(margin),
        }
    }
}

// ---- planted faults

/// The line begins as a head that has ff for f.
fn begins_as_groups(line: &[u8]) -> bool {
    line.starts_with(b"01") && line.get(6..8) == Some(b"ff")
}

/// Whether a refusal is about a line that begins as a head with ff for f.
pub fn about_groups_head(text: &[u8], refusal: Refusal) -> bool {
    let mut lines = text.split(|&byte| byte == 10);
    let before = usize::from(refusal.line).checked_sub(1);
    let line = before.and_then(|before| lines.nth(before));
    line.is_some_and(begins_as_groups)
}

/// What is said instead of a refusal that is about a head with ff for f.
pub fn retold(text: &[u8], refusal: Refusal, fault: Fault) -> Refusal {
    if !about_groups_head(text, refusal) {
        return refusal;
    }
    let with = |cause: Cause| Refusal { cause, ..refusal };
    match (fault, refusal.cause) {
        (Fault::MarginHeadAs17, Cause::Head) => with(Cause::Group),
        (Fault::MarginHeadWithoutLine, Cause::Head) => Refusal { line: 0, ..refusal },
        (Fault::MarginHeadBeforeText, Cause::Text) => with(Cause::Head),
        (Fault::MarginHeadBeforeKind, Cause::Kind) => with(Cause::Head),
        (Fault::MarginHeadBeforeOrder, Cause::Order) => with(Cause::Head),
        (Fault::MarginHeadAfterAll, Cause::Head) => {
            read_plan(text, Fault::None).err().unwrap_or(refusal)
        }
        _ => refusal,
    }
}
