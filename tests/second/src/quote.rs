//! The quoting page: the same verdict, on fewer terminals.

use crate::faults::Fault;
use crate::plan::{Cause, Plan, MOST_TERMINALS};
use crate::reader::Refusal;
use crate::verdict::{verdict, Verdict};

/// The most terminals that the quoting page may send.
pub const MOST_QUOTED: u32 = 12;

/// The verdict for the quoting page. Causes 4, 14, 5 and 17, in this order.
pub fn quote(plan: &Plan, fault: Fault) -> Result<Verdict, Cause> {
    check(plan, fault)?;
    let answer = verdict(plan, fault)?;
    Ok(match fault {
        Fault::QuoteAlwaysPasses => Verdict::default(),
        Fault::QuoteWithoutSets => Verdict {
            fails: answer.fails,
            ..Verdict::default()
        },
        _ => answer,
    })
}

/// Causes 4 and 14 of a plan record.
pub fn check(plan: &Plan, fault: Fault) -> Result<(), Cause> {
    let before = match fault {
        Fault::QuoteAfterLinks => plan.check_links(fault),
        Fault::QuoteAfterAll => plan.check(fault),
        _ => plan.check_head(),
    };
    let many = too_many(plan.n, plan.bound.has_groups(), fault);
    match before {
        Err(cause) if !many || !hides(cause, plan.n, fault) => Err(cause),
        _ if many => Err(Cause::TooMany),
        _ => Ok(()),
    }
}

/// Whether a plan with groups, or with f, has more terminals than may be quoted.
pub fn too_many(n: u32, groups: bool, fault: Fault) -> bool {
    match fault {
        Fault::QuoteOf11 => n > 11,
        Fault::QuoteOf13 => n > 13,
        Fault::QuoteOf20 => n > MOST_TERMINALS,
        Fault::QuoteRefuses13Only => n == 13,
        Fault::QuoteRefuses20Only => n == MOST_TERMINALS,
        Fault::GroupsQuotedUnbounded if groups => false,
        _ => n > MOST_QUOTED,
    }
}

// ---- planted faults

/// Whether cause 14 hides this one, which comes before it.
fn hides(cause: Cause, n: u32, fault: Fault) -> bool {
    match fault {
        Fault::QuoteBeforeText => cause == Cause::Text,
        Fault::QuoteBeforeKind => cause == Cause::Kind,
        Fault::QuoteBeforeOrder => cause == Cause::Order,
        Fault::QuoteBeforeHead => cause == Cause::Head,
        Fault::QuoteBeforeSource => cause == Cause::Head && n <= MOST_TERMINALS,
        Fault::QuoteAbove20 => cause == Cause::Head && n > MOST_TERMINALS,
        _ => false,
    }
}

/// The same of a file's line that begins as a head.
pub fn hides_on_line(cause: Cause, line: &[u8], fault: Fault) -> bool {
    let n = terminals(line);
    n.is_some_and(|n| too_many(n, false, fault) && hides(cause, n, fault))
}

/// The number of terminals in the head with which these digits begin.
fn terminals(digits: &[u8]) -> Option<u32> {
    let number = digits.strip_prefix(b"01")?.get(..2)?;
    u32::from_str_radix(std::str::from_utf8(number).ok()?, 16).ok()
}

/// Whether cause 14 is looked for after causes that it comes before.
pub fn is_late(fault: Fault) -> bool {
    matches!(fault, Fault::QuoteAfterLinks | Fault::QuoteAfterAll)
}

/// What is then answered of a file: other causes of any line come first, all or those up to 6.
pub fn told_late(text: &[u8], read: Result<Plan, Refusal>, fault: Fault) -> Result<Plan, Refusal> {
    let first = match &read {
        Ok(_) => false,
        Err(refusal) => fault == Fault::QuoteAfterAll || refusal.cause <= Cause::LinkTwice,
    };
    let many = terminals(text).is_some_and(|n| too_many(n, false, fault));
    if is_late(fault) && many && !first {
        let cause = Cause::TooMany;
        return Err(Refusal { cause, line: 1 });
    }
    read
}
