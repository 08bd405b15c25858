//! How much one link can cost: the greatest f for which a drawing passes, from the links alone.
//!
//! Every set of terminals is looked at beside every f, as a number whose bit i stands for terminal i.
//! That what passes for some f passes for every smaller one is not made use of.

use crate::faults::Fault;
use crate::margins::about_groups_head;
use crate::plan::{link_in_range, Cause, Plan, FEWEST_TERMINALS, MOST_TERMINALS};
use crate::quote::MOST_QUOTED;
use crate::reader::{read_archive, Refusal};

/// The greatest f, or nothing where the drawing fails for 0. What bounds the bad in the plan is not
/// looked at. Causes 4 and 5, in this order.
pub fn greatest(plan: &Plan, fault: Fault) -> Result<Option<u32>, Cause> {
    check(plan, fault)?;
    let search = Search::of(plan, fault);
    let found = match fault {
        Fault::GreatestByFewestHeard => search.by_fewest_heard(),
        Fault::GreatestByOrder => (0..plan.n).filter(|&f| search.has_order(f)).max(),
        _ => search.greatest(),
    };
    Ok(match fault {
        Fault::GreatestZeroAsNone => found.filter(|&f| f > 0),
        Fault::GreatestNoneAsZero => Some(found.unwrap_or(0)),
        Fault::GreatestFullAsNone => found.filter(|&f| f + 1 < plan.n),
        _ => found,
    })
}

/// What is answered of a file, whose head has an f that is not used.
pub fn greatest_of_file(plan: &Plan, fault: Fault) -> Result<Option<u32>, Cause> {
    let found = greatest(plan, fault)?;
    let named = plan.bound.number;
    Ok(match fault {
        Fault::GreatestUpToHead => found.map(|f| f.min(named)),
        Fault::GreatestOfHead => found.filter(|&f| f >= named).map(|_| named),
        Fault::GreatestAboveHead => found.filter(|&f| f >= named),
        _ => found,
    })
}

/// The number in decimal, or a word.
pub fn greatest_line(found: Option<u32>, fault: Fault) -> Vec<u8> {
    let word = match (found, fault) {
        (None, Fault::GreatestNoneAsMinusOne) => "-1".to_string(),
        (None, Fault::GreatestNoneCapital) => "None".to_string(),
        (None, Fault::GreatestNoneQuoted) => "\"none\"".to_string(),
        (None, Fault::GreatestNoneEmpty) => String::new(),
        (None, _) => "none".to_string(),
        (Some(f), Fault::GreatestTwoDigits) => format!("{f:02}"),
        (Some(f), Fault::GreatestInHex) => format!("{f:x}"),
        (Some(f), Fault::GreatestAsByte) => format!("{f:02x}"),
        (Some(f), Fault::GreatestLastDigit) => format!("{}", f % 10),
        (Some(f), Fault::GreatestPlusSign) => format!("{f:+}"),
        (Some(f), _) => format!("{f}"),
    };
    let end = match fault {
        Fault::GreatestUnended => "",
        Fault::GreatestEndedTwice => "\n\n",
        Fault::GreatestWindowsEnd => "\r\n",
        _ => "\n",
    };
    format!("{word}{end}").into_bytes()
}

// ---- what is refused

/// Whether n and source are in range (cause 4).
fn head_allowed(n: u32, source: u32, fault: Fault) -> bool {
    let fewest = match fault {
        Fault::GreatestOfOne => 1,
        _ => FEWEST_TERMINALS,
    };
    let most = match fault {
        Fault::GreatestOf21 => 21,
        Fault::GreatestOf19 => 19,
        _ => MOST_TERMINALS,
    };
    let source_allowed = match fault {
        Fault::GreatestSourceNotChecked => true,
        Fault::GreatestSourceNAllowed => source <= n,
        _ => source < n,
    };
    (fewest..=most).contains(&n) && source_allowed
}

/// The same of a file's head, whose f is in range too.
pub fn file_head_allowed(n: u32, source: u32, f: Option<u32>, fault: Fault) -> bool {
    let number_allowed = f.is_none_or(|f| match fault {
        Fault::GreatestFNotChecked => true,
        Fault::GreatestFOfNAllowed => f <= n,
        Fault::GreatestLastFRefused => f + 1 < n,
        _ => f < n,
    });
    head_allowed(n, source, fault) && number_allowed
}

/// Whether a link may stand in a record (cause 5).
fn link_allowed(plan: &Plan, (from, to): (u32, u32), fault: Fault) -> bool {
    let n = plan.n;
    link_in_range(n, from, to)
        || match fault {
            Fault::GreatestRowAboveAllowed => to >= n,
            Fault::GreatestOwnBitAllowed => from == to,
            Fault::GreatestBitAboveAllowed => from >= n && to < n,
            Fault::GreatestBitNAllowed => from == n,
            Fault::GreatestBitAbove19Allowed => from > 19,
            Fault::GreatestSourceRowNotChecked => to == plan.source,
            _ => false,
        }
}

fn check(plan: &Plan, fault: Fault) -> Result<(), Cause> {
    let mut links = plan.links.iter();
    let wrong_link = links.any(|&link| !link_allowed(plan, link, fault));
    if wrong_link && fault == Fault::GreatestLinksFirst {
        return Err(Cause::LinkEnd);
    }
    if !head_allowed(plan.n, plan.source, fault) {
        return Err(Cause::Head);
    }
    if fault == Fault::QuoteLimitInGreatest && plan.n > MOST_QUOTED {
        return Err(Cause::TooMany);
    }
    if wrong_link {
        return Err(Cause::LinkEnd);
    }
    match fault {
        Fault::GreatestDeafRecordRefused if !plan.deaf(fault).is_empty() => Err(Cause::Deaf),
        _ => Ok(()),
    }
}

// ---- the search

/// Nothing where a planted fault lets a number through that has no place.
fn bit(terminal: u32) -> u32 {
    1u32.checked_shl(terminal).unwrap_or(0)
}

fn has(set: u32, terminal: u32) -> bool {
    set & bit(terminal) != 0
}

struct Search {
    n: u32,
    source: u32,
    /// Everybody.
    all: u32,
    /// The set that each terminal hears.
    heard: Vec<u32>,
    /// Those that hear the source.
    direct: u32,
    fault: Fault,
}

impl Search {
    fn of(plan: &Plan, fault: Fault) -> Search {
        let source = match fault {
            Fault::GreatestSourceZero => 0,
            _ => plan.source,
        };
        let mut heard = vec![0; plan.n as usize];
        let links = plan.links.iter();
        for &(from, to) in links.filter(|link| link_in_range(plan.n, link.0, link.1)) {
            match fault {
                Fault::GreatestOfHearers => heard[from as usize] |= bit(to),
                _ => heard[to as usize] |= bit(from),
            }
        }
        let hears_source = |&terminal: &u32| has(heard[terminal as usize], source);
        let direct = (0..plan.n)
            .filter(hears_source)
            .fold(0, |set, t| set | bit(t));
        Search {
            n: plan.n,
            source,
            all: bit(plan.n) - 1,
            heard,
            direct,
            fault,
        }
    }

    fn heard(&self, terminal: u32) -> u32 {
        self.heard[terminal as usize]
    }

    fn greatest(&self) -> Option<u32> {
        let passing = self.passing();
        let all = 0..passing.len() as u32;
        let mut passed = all.clone().filter(|&f| passing[f as usize]);
        match self.fault {
            Fault::GreatestLeast => passed.min(),
            Fault::GreatestCounted => Some(passed.count() as u32),
            Fault::GreatestFirstFail => all.clone().find(|&f| !passing[f as usize]),
            Fault::GreatestOneLess => passed.max().and_then(|f| f.checked_sub(1)),
            Fault::GreatestStopsAtOne => passed.find(|&f| f > 0).or(passing[0].then_some(0)),
            _ => passed.max(),
        }
    }

    /// For each f from 0, whether the drawing passes.
    fn passing(&self) -> Vec<bool> {
        let count = match self.fault {
            Fault::GreatestOfN => self.n + 1,
            Fault::GreatestBelowLast => self.n - 1,
            Fault::GreatestOfOneDigit => self.n.min(10),
            _ => self.n,
        };
        let mut passing = vec![true; count as usize];
        // Where nobody is left whatever f is, the set need not be looked at.
        let asked = |set: &u32| self.lacks_source(*set) && self.start(*set) | set != self.all;
        for bad in (0..=self.all).filter(asked) {
            for f in self.least_bound(bad)..count {
                let passes = &mut passing[f as usize];
                *passes = *passes && !self.keeps_waiting(bad, f);
            }
            if !passing.contains(&true) {
                break;
            }
        }
        passing
    }

    fn lacks_source(&self, set: u32) -> bool {
        !has(set, self.source) || self.fault == Fault::GreatestSourceBad
    }

    /// The least f for which the set is bad: as many of it as anyone outside hears, the source too.
    fn least_bound(&self, set: u32) -> u32 {
        let outside = |terminal: &u32| match self.fault {
            Fault::GreatestSourceUnbounded => *terminal != self.source && !has(set, *terminal),
            Fault::GreatestBadOnesBounded => true,
            _ => !has(set, *terminal),
        };
        let counts = (0..self.n).filter(outside);
        let most = counts.map(|terminal| (self.heard(terminal) & set).count_ones());
        let members = set.count_ones();
        match self.fault {
            Fault::GreatestOverAllSets => 0,
            Fault::GreatestBoundedInAll => members,
            Fault::GreatestWithNobodyBad if members > 0 => self.n,
            Fault::GreatestOfOneBad if members > 1 => self.n,
            _ => most.max().unwrap_or(0),
        }
    }

    /// Whether someone is left outside F and L.
    fn keeps_waiting(&self, bad: u32, f: u32) -> bool {
        let left = self.all & !bad & !self.reached(bad, f);
        match self.fault {
            Fault::GreatestDeafLeftOut => (0..self.n).any(|t| has(left, t) && self.heard(t) > 0),
            Fault::GreatestTwoLeft => left.count_ones() > 1,
            _ => left > 0,
        }
    }

    /// The source, and whoever hears it, who joins L whatever f is.
    fn start(&self, bad: u32) -> u32 {
        match self.fault {
            Fault::GreatestSourceCountsOne => bit(self.source),
            // A bad source says nothing to anyone.
            Fault::GreatestSourceBad if has(bad, self.source) => 0,
            _ => bit(self.source) | (self.direct & !bad),
        }
    }

    /// L grows from there until nobody joins.
    fn reached(&self, bad: u32, f: u32) -> u32 {
        let enough = match self.fault {
            Fault::GreatestJoinsWithF => f.max(1),
            Fault::GreatestJoinsWithMore => f + 2,
            Fault::GreatestJoinsWithOne => 1,
            _ => f + 1,
        };
        let mut reached = self.start(bad);
        loop {
            let waiting = self.all & !bad & !reached;
            let told = |t: &u32| (self.heard(*t) & reached).count_ones() >= enough;
            let joining = (0..self.n).filter(|&t| has(waiting, t)).filter(told);
            let larger = joining.fold(reached, |set, terminal| set | bit(terminal));
            if larger == reached || self.fault == Fault::GreatestAfterOneTurn {
                return larger;
            }
            reached = larger;
        }
    }

    // ---- planted faults

    /// Half of what the one hears that hears fewest, as if it alone decided.
    fn by_fewest_heard(&self) -> Option<u32> {
        let others = (0..self.n).filter(|&t| t != self.source && !has(self.direct, t));
        let fewest = others.map(|t| self.heard(t).count_ones()).min();
        match fewest {
            None => Some(self.n - 1),
            Some(fewest) => fewest.checked_sub(1).map(|spare| spare / 2),
        }
    }

    /// Whether each terminal in some order hears the source, or 2f+1 before it.
    fn has_order(&self, f: u32) -> bool {
        let mut ordered = bit(self.source) | self.direct;
        loop {
            let fits = |t: &u32| (self.heard(*t) & ordered).count_ones() > 2 * f;
            let larger = (0..self.n)
                .filter(fits)
                .fold(ordered, |set, t| set | bit(t));
            if larger == ordered {
                return ordered == self.all;
            }
            ordered = larger;
        }
    }
}

/// What is said instead of a refusal that is about a head with ff for f.
pub fn retold(text: &[u8], refusal: Refusal, fault: Fault) -> Refusal {
    if !about_groups_head(text, refusal) {
        return refusal;
    }
    let with = |cause: Cause| Refusal { cause, ..refusal };
    match (fault, refusal.cause) {
        (Fault::GreatestHeadAs17, Cause::Head) => with(Cause::Group),
        (Fault::GreatestHeadWithoutLine, Cause::Head) => Refusal { line: 0, ..refusal },
        (Fault::GreatestHeadBeforeText, Cause::Text) => with(Cause::Head),
        (Fault::GreatestHeadBeforeKind, Cause::Kind) => with(Cause::Head),
        (Fault::GreatestHeadBeforeOrder, Cause::Order) => with(Cause::Head),
        (Fault::GreatestHeadAfterAll, Cause::Head) => {
            read_archive(text, Fault::None).err().unwrap_or(refusal)
        }
        _ => refusal,
    }
}
