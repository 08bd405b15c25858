//! Recorded calls of the quoting page.

use crate::draft::{join, plan_draft};
use crate::faults::Fault;
use crate::plan::{Cause, Plan};
use crate::quotes::{chain, judged, quote_case, quote_record};
use crate::reader::LONGEST_FILE;
use crate::record::{plan_bytes, quad, roomed_call, whole_call, Call, QUOTE};
use crate::verdict::Verdict;

// ---- files

pub(crate) fn quote_call(seed: u64, index: u64) -> Call {
    roomed_call(QUOTE, quote_case(seed, index), seed, index)
}

/// Every number of terminals, with room for the whole answer.
pub(crate) fn chain_call(_: u64, index: u64) -> Call {
    whole_call(QUOTE, join(&plan_draft(chain(index)).lines))
}

/// No byte, as many as a file may have, and one more, under a head of 13 terminals.
pub(crate) fn sized_call(_: u64, index: u64) -> Call {
    let size = [0, LONGEST_FILE, LONGEST_FILE + 1][index as usize];
    let file = b"010d0000\n".iter().chain(b"020001\n".iter().cycle());
    whole_call(QUOTE, file.copied().take(size).collect())
}

// ---- plan records

pub(crate) fn judged_call(seed: u64, index: u64) -> Call {
    judge(&quote_record(seed, index))
}

/// Every number of terminals.
pub(crate) fn judged_chain_call(_: u64, index: u64) -> Call {
    judge(&chain(index))
}

/// A plan record, judged by the verdict and by the quoting page.
fn judge(plan: &Plan) -> Call {
    let answers = judged(plan, Fault::None);
    Call {
        kind: b'j',
        lent: 0,
        body: plan_bytes(plan),
        line: answers.into_iter().flat_map(answered).collect(),
    }
}

/// The number, whether the plan fails, and the three sets.
fn answered(answer: Result<Verdict, Cause>) -> Vec<u8> {
    let number = answer.as_ref().map_or_else(|&cause| cause.number(), |_| 0);
    let Verdict {
        fails,
        bad,
        reached,
        left,
    } = answer.unwrap_or_default();
    let sets = [bad, reached, left];
    let sets = sets.iter().flat_map(quad);
    [number, u8::from(fails)].into_iter().chain(sets).collect()
}
