//! Recorded calls of the greatest f.

use crate::draft::{join, plan_draft};
use crate::faults::Fault;
use crate::greatest::greatest;
use crate::greatest_files::{greatest_case, greatest_record, headed, shaped, thin};
use crate::plan::Plan;
use crate::reader::LONGEST_FILE;
use crate::record::{roomed_call, row_bytes, whole_call, Call, GREATEST};

// ---- files

pub(crate) fn greatest_call(seed: u64, index: u64) -> Call {
    roomed_call(GREATEST, greatest_case(seed, index), seed, index)
}

/// Every number of terminals, with room for the whole answer.
pub(crate) fn shaped_greatest_call(_: u64, index: u64) -> Call {
    whole_call(GREATEST, join(&plan_draft(shaped(index)).lines))
}

/// Every f in the head, and ff.
pub(crate) fn headed_call(seed: u64, index: u64) -> Call {
    roomed_call(GREATEST, headed(index), seed, 1000 + index)
}

/// No byte, and more than a file may have.
pub(crate) fn sized_greatest_call(_: u64, index: u64) -> Call {
    let size = [0, LONGEST_FILE + 1][index as usize];
    let file = b"01030001\n".iter().chain(b"020001\n".iter().cycle());
    whole_call(GREATEST, file.copied().take(size).collect())
}

// ---- records

pub(crate) fn bounded_call(seed: u64, index: u64) -> Call {
    bound(&greatest_record(seed, index))
}

/// Every number of terminals.
pub(crate) fn bounded_shape_call(_: u64, index: u64) -> Call {
    bound(&shaped(index))
}

/// Every f that there can be, and one link less.
pub(crate) fn thin_call(_: u64, index: u64) -> Call {
    bound(&thin(index))
}

/// n, source and the rows. The number, and where it is 0 whether there is an f, and it.
fn bound(plan: &Plan) -> Call {
    let line = match greatest(plan, Fault::None) {
        Ok(None) => vec![0, 0, 0],
        Ok(Some(f)) => vec![0, 1, f as u8],
        Err(cause) => vec![cause.number()],
    };
    Call {
        kind: b'G',
        lent: 0,
        body: [&[plan.n as u8, plan.source as u8], &row_bytes(plan)[..]].concat(),
        line,
    }
}
