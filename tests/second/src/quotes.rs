//! Seeded files and plan records for the quoting page: about as many terminals as it may send, right
//! ones, and ones with other causes on the head's line or after it.

use crate::damage::{plant, sized, FOREIGN};
use crate::draft::{head_line, join, plan_draft};
use crate::faults::Fault;
use crate::generate::{case, Kind};
use crate::grouping::{board_up, fails_soon, maybe_grouped};
use crate::groups::Bound;
use crate::output::{digits, quote_text};
use crate::plan::{Cause, Plan, Set};
use crate::plans::{any_plan, cut_off, deafen, mend};
use crate::quote::quote;
use crate::reader::{read_archive, read_plan, Filed, Refusal};
use crate::records::break_plan;
use crate::rng::Rng;
use crate::verdict::{verdict, Verdict};

type Lines = Vec<Vec<u8>>;

/// The most terminals that may be quoted and those next to them, the most of a plan, and few.
const SIZES: [u32; 12] = [2, 4, 6, 8, 11, 12, 12, 12, 13, 13, 14, 20];
/// The edge alone.
const EDGE: [u32; 4] = [11, 12, 12, 13];
/// Mostly more than may be quoted.
const LARGE: [u32; 5] = [12, 13, 13, 14, 20];
/// Those that a head may name in the place of the right ones.
const NAMED: [u32; 10] = [1, 2, 11, 12, 12, 13, 13, 20, 21, 255];

/// Up to so many terminals a search through all bad sets is short; up to so many it ends.
const SHORT_SEARCH: u32 = 9;
const LONG_SEARCH: u32 = 13;

/// A right plan. Of the larger ones some have two terminals that hear each other alone, and of the
/// largest ones the verdict is soon given.
fn quoted_plan(rng: &mut Rng, sizes: &[u32]) -> Plan {
    let n = rng.pick(sizes);
    let mut plan = any_plan(rng, n);
    mend(rng, &mut plan);
    maybe_grouped(rng, &mut plan);
    if n > SHORT_SEARCH && rng.chance(40) {
        cut_off(rng, &mut plan);
    }
    if n > LONG_SEARCH && !fails_soon(&plan) {
        board_up(rng, &mut plan);
    }
    plan
}

/// Whether someone is never reached, whoever is bad and whatever bounds them, or the site is small.
pub fn is_short_search(plan: &Plan) -> bool {
    plan.n <= SHORT_SEARCH || !plan.all_reached()
}

/// How many chains there are.
pub const CHAINS: u64 = 2 * 24;

/// Each terminal hears the one before it: 0 to 22 of them, or 255 as far as a plan has rows, by turns
/// with f = 1 and with a group of one.
pub fn chain(index: u64) -> Plan {
    let n = match (index / 2) as u32 {
        23 => 255,
        n => n,
    };
    let bound = match index % 2 {
        0 => Bound::f(1),
        _ => Bound::groups(&[Set::from([1])]),
    };
    let mut plan = Plan::with(n, 0, bound);
    plan.links = (1..n.min(20)).map(|to| (to - 1, to)).collect();
    plan
}

// ---- files

/// Sorts of files; they take turns by index.
const SORTS: u64 = 9;

/// An empty file, one that is too long or one next to these comes every so many turns.
const SIZED_EVERY: u64 = 50;

/// The causes of a file's line that are planted after the head, in turn.
const LATER_CAUSES: [u32; 9] = [5, 17, 6, 1, 5, 17, 6, 2, 3];

pub fn quote_case(seed: u64, index: u64) -> Vec<u8> {
    let rng = &mut Rng::for_case(seed, 13, index);
    let turn = index / SORTS;
    let lines = match index % SORTS {
        0 if turn % SIZED_EVERY == SIZED_EVERY - 1 => {
            let draft = plan_draft(quoted_plan(rng, &SIZES));
            return sized(rng, Kind::Verdict, &draft);
        }
        0 => return verdict_case(rng, seed),
        1 => right(rng, &SIZES),
        2 => return other_head(rng, seed),
        3 => {
            let plan = quoted_plan(rng, &LARGE);
            let lines = plan_draft(plan.clone()).lines;
            wrong_head(rng, plan, lines)
        }
        4 => unheard(rng),
        5 => second_head(rng),
        6 => later_cause(rng, turn, &SIZES).1,
        7 => right(rng, &EDGE),
        _ => {
            let (plan, lines) = later_cause(rng, turn + 4, &LARGE);
            match rng.chance(30) {
                true => wrong_head(rng, plan, lines),
                false => lines,
            }
        }
    };
    join(&lines)
}

/// A file for the verdict, right or damaged.
fn verdict_case(rng: &mut Rng, seed: u64) -> Vec<u8> {
    case(Kind::Verdict, seed, rng.below(1 << 30) as u64)
}

/// The same, whose head names another number of terminals.
fn other_head(rng: &mut Rng, seed: u64) -> Vec<u8> {
    let mut text = verdict_case(rng, seed);
    if text.starts_with(b"01") && text.len() > 4 {
        text[2..4].copy_from_slice(&digits(&[rng.pick(&NAMED) as u8]));
    }
    text
}

/// A right file, its links in any order.
fn right(rng: &mut Rng, sizes: &[u32]) -> Lines {
    let plan = quoted_plan(rng, sizes);
    let links = plan.links.len();
    let mut lines = plan_draft(plan).lines;
    rng.shuffle(&mut lines[1..=links]);
    lines
}

/// One of the causes that mostly stand after the head, and the plan beside it.
fn later_cause(rng: &mut Rng, turn: u64, sizes: &[u32]) -> (Plan, Lines) {
    let cause = LATER_CAUSES[(turn % LATER_CAUSES.len() as u64) as usize];
    let mut plan = quoted_plan(rng, sizes);
    if cause == 17 {
        board_up(rng, &mut plan);
    }
    let draft = plan_draft(plan);
    let mut lines = draft.lines.clone();
    plant(rng, Kind::Verdict, &draft, &mut lines, cause);
    (draft.plan, lines)
}

/// One of the causes 1 to 4 on the first line, whatever number of terminals the head names.
pub(crate) fn wrong_head(rng: &mut Rng, mut plan: Plan, mut lines: Lines) -> Lines {
    let way = rng.below(9);
    match way {
        0 => plan.source = rng.pick(&[plan.n, 255]),
        1 | 2 => plan.bound = Bound::f(rng.pick(&[plan.n, 254])),
        3 => plan.n = rng.pick(&[1, 21, 22, 255]),
        _ => {}
    }
    let mut head = head_line(&plan);
    match way {
        4 => head.push(b'0'),
        5 => head[7] = rng.pick(&FOREIGN),
        6 => head.extend(b"00"),
        7 => head.truncate(6),
        _ => {}
    }
    lines.splice(..lines.len().min(1), [head]);
    if way == 8 {
        lines.insert(0, rng.pick(&[&b"020001"[..], b"07000002"]).to_vec());
    }
    lines
}

/// Deaf terminals, no group where groups are promised, or both; then the end or some other line.
fn unheard(rng: &mut Rng) -> Lines {
    let mut plan = quoted_plan(rng, &SIZES);
    let deaf = rng.chance(60);
    if deaf {
        deafen(rng, &mut plan);
    }
    if !deaf || rng.chance(30) {
        plan.bound = Bound::groups(&[]);
    }
    let mut lines = plan_draft(plan).lines;
    let after: [&[&[u8]]; 6] = [
        &[],
        &[],
        &[b"010d0000"],
        &[b"020000"],
        &[b"03000002"],
        &[b"0g"],
    ];
    lines.extend(rng.pick(&after).iter().map(|line| line.to_vec()));
    lines
}

/// A second head, which names any number of terminals, before the first or somewhere after it.
fn second_head(rng: &mut Rng) -> Lines {
    let mut plan = quoted_plan(rng, &SIZES);
    let mut lines = plan_draft(plan.clone()).lines;
    plan.n = rng.pick(&NAMED);
    let end = lines.len();
    let at = rng.pick(&[0, 1, 2, end, end]);
    lines.insert(at.min(end), head_line(&plan));
    lines
}

/// What the quoting page prints of a file, and what the readers of the verdict and of the archive
/// answer.
pub type QuoteAnswer = (Vec<u8>, Result<Plan, Refusal>, Result<Filed, Refusal>);

pub fn quote_answers(text: &[u8], fault: Fault) -> QuoteAnswer {
    (
        quote_text(text, fault),
        read_plan(text, fault),
        read_archive(text, fault),
    )
}

// ---- plan records

/// A plan record, right, deaf, or with one thing wrong in it, or several.
pub fn quote_record(seed: u64, index: u64) -> Plan {
    let rng = &mut Rng::for_case(seed, 14, index);
    let sizes: &[u32] = if index % 3 == 2 { &EDGE } else { &SIZES };
    let mut plan = quoted_plan(rng, sizes);
    if rng.chance(15) {
        deafen(rng, &mut plan);
    }
    if rng.chance(45) {
        break_plan(rng, &mut plan);
        if rng.chance(40) {
            break_plan(rng, &mut plan);
        }
    }
    if rng.chance(12) {
        // A terminal that hears itself.
        let both = rng.between(0, 19);
        plan.links.insert((both, both));
    }
    plan
}

/// The verdict, and the same for the quoting page.
pub type Judged = [Result<Verdict, Cause>; 2];

pub fn judged(plan: &Plan, fault: Fault) -> Judged {
    [verdict(plan, fault), quote(plan, fault)]
}
