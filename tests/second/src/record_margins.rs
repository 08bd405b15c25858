//! Recorded calls of the margins.

use crate::draft::{join, plan_draft};
use crate::faults::Fault;
use crate::margin_files::{margin_case, margin_record, shaped};
use crate::margins::{margins, Standing};
use crate::plan::Plan;
use crate::reader::LONGEST_FILE;
use crate::record::{plan_bytes, roomed_call, whole_call, Call, MARGINS};

// ---- files

pub(crate) fn margins_call(seed: u64, index: u64) -> Call {
    roomed_call(MARGINS, margin_case(seed, index), seed, index)
}

/// Every number of terminals, with room for the whole answer.
pub(crate) fn shaped_call(_: u64, index: u64) -> Call {
    whole_call(MARGINS, join(&plan_draft(shaped(index)).lines))
}

/// No byte, as many as a file may have, and one more, under a head with ff and under one with f.
pub(crate) fn sized_margins_call(_: u64, index: u64) -> Call {
    let head: &[u8] = [&b"010300ff\n"[..], b"01030001\n"][(index % 2) as usize];
    let size = [0, LONGEST_FILE, LONGEST_FILE + 1][(index / 2) as usize];
    let file = head.iter().chain(b"020001\n".iter().cycle());
    whole_call(MARGINS, file.copied().take(size).collect())
}

// ---- plan records

pub(crate) fn fitted_call(seed: u64, index: u64) -> Call {
    fit(&margin_record(seed, index))
}

/// Every number of terminals.
pub(crate) fn fitted_shape_call(_: u64, index: u64) -> Call {
    fit(&shaped(index))
}

/// The number, and where it is 0 what is said of each terminal.
fn fit(plan: &Plan) -> Call {
    let line = match margins(plan, Fault::None) {
        Ok(standings) => {
            let all = standings.into_iter().flat_map(standing_bytes);
            [0].into_iter().chain(all).collect()
        }
        Err(cause) => vec![cause.number()],
    };
    Call {
        kind: b'M',
        lent: 0,
        body: plan_bytes(plan),
        line,
    }
}

fn standing_bytes(standing: Standing) -> Vec<u8> {
    let (which, margin) = match standing {
        Standing::Source => (0, 0),
        Standing::Direct => (1, 0),
        Standing::Margin(margin) => (2, margin),
    };
    [which].into_iter().chain(margin.to_be_bytes()).collect()
}
