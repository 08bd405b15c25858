//! Seeded files and plan records for the margins: plans below, at and above zero, right ones, and ones
//! with groups or other causes.

use crate::damage::{plant, sized};
use crate::draft::{group_line, head_line, join, plan_draft};
use crate::drawings::DRAWINGS;
use crate::faults::Fault;
use crate::generate::{case, Kind};
use crate::grouping::{board_up, group_up};
use crate::groups::Bound;
use crate::margins::Standing;
use crate::output::margins_text;
use crate::plan::{Cause, Plan};
use crate::plans::{
    any_plan, border_plan, deafen, hear_at_source, joined_plan, mend, source_first,
};
use crate::quotes::wrong_head;
use crate::reader::{read_margins, read_plan, Refusal};
use crate::records::break_plan;
use crate::rng::Rng;

type Lines = Vec<Vec<u8>>;

/// Up to 12 terminals all sets are soon looked at.
const SIZES: [u32; 16] = [2, 3, 3, 4, 4, 5, 5, 6, 6, 7, 7, 8, 9, 10, 11, 12];
pub(crate) const MOST_OF_SIZES: u32 = 12;
/// Of more terminals there are a few, in turn.
const LARGE: [u32; 8] = [20, 13, 20, 16, 18, 20, 14, 19];
const LARGE_EVERY: u64 = 150;

// ---- plans

/// A few terminals hear the source and the others hear most of each other, so that some have more
/// than they need.
fn rich_plan(rng: &mut Rng, n: u32) -> Plan {
    let f = rng.pick(&[0, 0, 1, 1, 2]).min(n - 1);
    let mut plan = Plan::new(n, rng.between(0, n - 1), f);
    let order = source_first(rng, &plan);
    let near = rng.between(f + 1, 2 * f + 2).min(n - 1) as usize;
    let share = rng.pick(&[50, 75, 90, 100]);
    crowd(rng, &mut plan, &order, near, share);
    plan
}

/// All but the source, which is first in the order, hear this share of each other; so many hear it.
pub(crate) fn crowd(rng: &mut Rng, plan: &mut Plan, order: &[u32], near: usize, share: u32) {
    for &hearer in &order[1..] {
        let others = order[1..].iter().filter(|&&other| other != hearer);
        let heard: Vec<u32> = others.copied().filter(|_| rng.chance(share)).collect();
        let links = heard.iter().map(|&sender| (sender, hearer));
        plan.links.extend(links);
    }
    let direct = order[1..=near].iter();
    let source = plan.source;
    plan.links.extend(direct.map(|&hearer| (source, hearer)));
}

/// About half hear the source; each of the others hears some of these, and some that hear them.
fn mixed_plan(rng: &mut Rng, n: u32) -> Plan {
    let f = rng.pick(&[0, 1, 1, 1, 2]).min(n - 1);
    let mut plan = Plan::new(n, rng.between(0, n - 1), f);
    let order = source_first(rng, &plan);
    let near = n.div_ceil(2) as usize;
    for (place, &hearer) in order.iter().enumerate().skip(1) {
        if place <= near {
            plan.links.insert((plan.source, hearer));
            continue;
        }
        let mut earlier = order[1..place].to_vec();
        rng.shuffle(&mut earlier);
        let count = 1 + rng.below(earlier.len());
        let heard = earlier.iter().take(count);
        plan.links.extend(heard.map(|&sender| (sender, hearer)));
    }
    plan
}

/// One of the drawings E to I, under other numbers; the bad sets that matter in H have more than f
/// members, and the source's own bound matters in I.
pub(crate) fn drawn_plan(rng: &mut Rng) -> Plan {
    let drawing = DRAWINGS[rng.pick(&[4, 5, 6, 7, 7, 7, 8, 8])].plan();
    let mut names: Vec<u32> = (0..drawing.n).collect();
    rng.shuffle(&mut names);
    let name = |terminal: u32| names[terminal as usize];
    let links = drawing.links.iter();
    let links = links.map(|&(from, to)| (name(from), name(to))).collect();
    let source = name(drawing.source);
    let mut plan = Plan {
        source,
        links,
        ..drawing
    };
    if rng.chance(50) {
        watch(&mut plan);
    }
    plan
}

/// A right plan with f: of so many terminals, or as many as the drawings in it have.
fn fitted_plan(rng: &mut Rng, n: u32) -> Plan {
    let mut plan = match rng.below(12) {
        0 | 1 => any_plan(rng, n),
        2..=4 => rich_plan(rng, n),
        5..=7 => mixed_plan(rng, n),
        _ if n > MOST_OF_SIZES => rich_plan(rng, n),
        8 if n <= 7 => border_plan(rng, n),
        8 | 9 => joined_plan(rng),
        _ => drawn_plan(rng),
    };
    if rng.chance(20) {
        hear_at_source(rng, &mut plan);
    }
    if rng.chance(15) && plan.n < MOST_OF_SIZES {
        watch(&mut plan);
    }
    mend(rng, &mut plan);
    plan
}

/// One more terminal, that hears all others but the source and is heard by none. Where it is good it
/// bounds the bad sets by f members in all; where it is bad it doesn't.
fn watch(plan: &mut Plan) {
    let others = (0..plan.n).filter(|&other| other != plan.source);
    let watcher = plan.n;
    plan.links.extend(others.map(|other| (other, watcher)));
    plan.n += 1;
}

fn some_plan(rng: &mut Rng) -> Plan {
    let n = rng.pick(&SIZES);
    fitted_plan(rng, n)
}

/// One with groups, as the verdict takes it.
pub(crate) fn grouped_plan(rng: &mut Rng) -> Plan {
    let mut plan = some_plan(rng);
    match rng.chance(50) {
        true => board_up(rng, &mut plan),
        false => group_up(rng, &mut plan),
    }
    plan
}

/// How many plans there are of each number of terminals, and in all.
const SHAPES: u64 = 5;
pub const SHAPED: u64 = 24 * SHAPES;

/// Of each number of terminals: a chain with f = 1, in which all but the first are below zero; one with
/// f = 0, in which they are at zero; all hear each other and one the source, which is above zero; all
/// hear the source; and a chain with the greatest f.
pub fn shaped(index: u64) -> Plan {
    let n = match (index / SHAPES) as u32 {
        23 => 255,
        n => n,
    };
    // A record has rows for 20.
    let rows = n.min(20);
    let shape = index % SHAPES;
    let f = match shape {
        0 => 1,
        4 => n.saturating_sub(1),
        _ => 0,
    };
    let mut plan = Plan::new(n, 0, f);
    plan.links = match shape {
        2 => {
            let pairs = (1..rows).flat_map(|from| (1..rows).map(move |to| (from, to)));
            let heard = pairs.filter(|(from, to)| from != to);
            heard.chain((n > 1).then_some((0, 1))).collect()
        }
        3 => (1..rows).map(|to| (0, to)).collect(),
        _ => (1..rows).map(|to| (to - 1, to)).collect(),
    };
    plan
}

// ---- files

/// Sorts of files; they take turns by index.
const SORTS: u64 = 10;

/// An empty file, one that is too long or one next to these comes every so many turns.
const SIZED_EVERY: u64 = 40;

pub(crate) fn is_sized(turn: u64) -> bool {
    turn % SIZED_EVERY == SIZED_EVERY - 1
}

pub(crate) fn sized_case(rng: &mut Rng, some: fn(&mut Rng) -> Plan) -> Vec<u8> {
    let draft = plan_draft(some(rng));
    sized(rng, Kind::Verdict, &draft)
}

/// A right file of the next of these numbers of terminals.
pub(crate) fn large_case(
    rng: &mut Rng,
    sizes: &[u32],
    turn: u64,
    plan_of: fn(&mut Rng, u32) -> Plan,
) -> Vec<u8> {
    let n = sizes[(turn % sizes.len() as u64) as usize];
    join(&plan_draft(plan_of(rng, n)).lines)
}

/// The causes of a file's line that are planted after the head, in turn.
const LATER_CAUSES: [u32; 7] = [5, 6, 1, 5, 6, 2, 3];

pub fn margin_case(seed: u64, index: u64) -> Vec<u8> {
    let rng = &mut Rng::for_case(seed, 15, index);
    let turn = index / SORTS;
    if index % LARGE_EVERY == LARGE_EVERY - 1 {
        return large_case(rng, &LARGE, index / LARGE_EVERY, fitted_plan);
    }
    let lines = match index % SORTS {
        0 if is_sized(turn) => return sized_case(rng, some_plan),
        0 => return small_case(rng, seed, read_margins),
        2 => plan_draft(grouped_plan(rng)).lines,
        3 => wrong_groups(rng, turn),
        4 => unheard(rng),
        5 => later_cause(rng, turn),
        6 => later_line(rng),
        _ => {
            let plan = some_plan(rng);
            right(rng, plan)
        }
    };
    join(&lines)
}

/// A reader of plan files.
pub(crate) type Read = fn(&[u8], Fault) -> Result<Plan, Refusal>;

/// A file for the verdict, right or damaged, of which a search through all sets is short.
pub(crate) fn small_case(rng: &mut Rng, seed: u64, read: Read) -> Vec<u8> {
    loop {
        let text = case(Kind::Verdict, seed, rng.below(1 << 30) as u64);
        if read(&text, Fault::None).map_or(true, |plan| plan.n <= MOST_OF_SIZES) {
            return text;
        }
    }
}

/// A right file, its links in any order.
pub(crate) fn right(rng: &mut Rng, plan: Plan) -> Lines {
    let mut lines = plan_draft(plan).lines;
    rng.shuffle(&mut lines[1..]);
    lines
}

/// ff for f, and something wrong on the head's line or after it.
pub(crate) fn wrong_groups(rng: &mut Rng, turn: u64) -> Lines {
    let mut plan = grouped_plan(rng);
    match turn % 4 {
        0 | 1 => {
            let lines = plan_draft(plan.clone()).lines;
            wrong_head(rng, plan, lines)
        }
        2 => {
            let none = rng.chance(50);
            if none {
                plan.bound = Bound::groups(&[]);
            }
            if !none || rng.chance(30) {
                deafen(rng, &mut plan);
            }
            plan_draft(plan).lines
        }
        _ => {
            let draft = plan_draft(plan);
            let mut lines = draft.lines.clone();
            let cause = rng.pick(&[1, 2, 3, 5, 6, 17]);
            plant(rng, Kind::Verdict, &draft, &mut lines, cause);
            lines
        }
    }
}

/// Lines that are no link: heads with f and with ff, a group, and some of causes 1 and 2.
const NO_LINKS: [&[u8]; 10] = [
    b"01030001",
    b"010300ff",
    b"010300ff",
    b"01ffffff",
    b"07000002",
    b"07000001",
    b"010300ff00",
    b"010300ff0",
    b"03000002",
    b"0g",
];

/// Deaf terminals, then the end or a line that is no link.
pub(crate) fn unheard(rng: &mut Rng) -> Lines {
    let mut plan = some_plan(rng);
    deafen(rng, &mut plan);
    let mut lines = plan_draft(plan).lines;
    if rng.chance(60) {
        lines.push(rng.pick(&NO_LINKS).to_vec());
    }
    lines
}

/// One of the causes that mostly stand after the head, or a wrong head.
pub(crate) fn later_cause(rng: &mut Rng, turn: u64) -> Lines {
    let draft = plan_draft(some_plan(rng));
    let mut lines = draft.lines.clone();
    if turn % 4 == 3 {
        return wrong_head(rng, draft.plan, lines);
    }
    let cause = LATER_CAUSES[(turn % LATER_CAUSES.len() as u64) as usize];
    plant(rng, Kind::Verdict, &draft, &mut lines, cause);
    lines
}

/// A line that is no link after the links of a right plan, or before the head; more may follow.
pub(crate) fn later_line(rng: &mut Rng) -> Lines {
    let plan = some_plan(rng);
    let mut lines = plan_draft(plan.clone()).lines;
    let line = match rng.below(3) {
        0 => rng.pick(&NO_LINKS).to_vec(),
        1 => group_line(rng.between(0, 7)),
        _ => head_line(&Plan {
            bound: Bound::groups(&[]),
            ..plan
        }),
    };
    let end = lines.len();
    let at = rng.pick(&[end, end, end, 0]);
    lines.insert(at, line);
    lines
}

/// What is printed of a file, and what the readers for the fitter and of the verdict answer.
pub type MarginAnswer = (Vec<u8>, Result<Plan, Refusal>, Result<Plan, Refusal>);

pub fn margin_answers(text: &[u8], fault: Fault) -> MarginAnswer {
    (
        margins_text(text, fault),
        read_margins(text, fault),
        read_plan(text, fault),
    )
}

// ---- plan records

/// A plan record, right, deaf, with groups, or with one thing wrong in it, or several.
pub fn margin_record(seed: u64, index: u64) -> Plan {
    let rng = &mut Rng::for_case(seed, 16, index);
    let mut plan = match index % 60 {
        59 => fitted_plan(rng, 20),
        _ if rng.chance(15) => grouped_plan(rng),
        _ => some_plan(rng),
    };
    if rng.chance(20) {
        deafen(rng, &mut plan);
    }
    if rng.chance(35) {
        break_plan(rng, &mut plan);
        if rng.chance(50) {
            break_plan(rng, &mut plan);
        }
    }
    plan
}

/// What the margins say of a plan record.
pub type Fitted = Result<Vec<Standing>, Cause>;
