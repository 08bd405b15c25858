//! Seeded files and drawings for the greatest f: from none to n-1, right ones, deaf ones, ones with
//! groups, and ones with other causes.

use crate::draft::{head_line, join, plan_draft};
use crate::faults::Fault;
use crate::groups::Bound;
use crate::margin_files::{
    crowd, drawn_plan, grouped_plan, is_sized, large_case, later_cause, later_line, right,
    sized_case, small_case, unheard, wrong_groups, MOST_OF_SIZES,
};
use crate::output::greatest_text;
use crate::plan::{Cause, Plan};
use crate::plans::{
    any_plan, cut_off, deafen, hear_at_source, joined_plan, random_plan, source_first,
};
use crate::reader::{read_greatest, Refusal};
use crate::rng::Rng;

type Lines = Vec<Vec<u8>>;

/// Of few terminals all sets are soon looked at, beside every f.
const SIZES: [u32; 14] = [2, 3, 4, 4, 5, 5, 6, 6, 7, 7, 8, 8, 9, 10];
/// Of more terminals there are some, in turn.
const LARGE: [u32; 12] = [20, 13, 17, 20, 16, 11, 20, 19, 14, 18, 15, 12];
const LARGE_EVERY: u64 = 50;

// ---- drawings

/// The first ones hear the source, and each of the others so many before it that f may be bad, or one
/// more or fewer.
fn layered_drawing(rng: &mut Rng, n: u32) -> Plan {
    let mut plan = Plan::new(n, rng.between(0, n - 1), 0);
    let order = source_first(rng, &plan);
    let f = rng.between(0, n.saturating_sub(3) / 2);
    let near = (2 * f + 1 + rng.between(0, 1)) as usize;
    for (place, &hearer) in order.iter().enumerate().skip(1) {
        if place <= near {
            plan.links.insert((plan.source, hearer));
            continue;
        }
        let mut earlier = order[1..place].to_vec();
        rng.shuffle(&mut earlier);
        let heard = (2 * f + rng.pick(&[0, 1, 1, 1, 2])) as usize;
        let heard = earlier.iter().take(heard.max(1));
        plan.links.extend(heard.map(|&sender| (sender, hearer)));
    }
    plan
}

/// All hear each other but for the source, which some hear, or all.
fn crowded_drawing(rng: &mut Rng, n: u32) -> Plan {
    let mut plan = Plan::new(n, rng.between(0, n - 1), 0);
    let order = source_first(rng, &plan);
    let near = rng.between(1, n - 1) as usize;
    let share = rng.pick(&[80, 95, 100]);
    crowd(rng, &mut plan, &order, near, share);
    plan
}

/// All hear the source, or all but one that hears some of the others.
fn starred_drawing(rng: &mut Rng, n: u32) -> Plan {
    let mut plan = Plan::new(n, rng.between(0, n - 1), 0);
    let order = source_first(rng, &plan);
    let source = plan.source;
    let direct = order[1..].iter();
    plan.links.extend(direct.map(|&hearer| (source, hearer)));
    if rng.chance(70) {
        plan.links.remove(&(source, order[1]));
        let heard = rng.between(0, n - 2) as usize;
        let heard = order[2..].iter().take(heard);
        plan.links.extend(heard.map(|&sender| (sender, order[1])));
    }
    plan
}

/// A drawing of so many terminals, or as many as the drawings in it have, with any f in its head.
fn drawing_of(rng: &mut Rng, n: u32) -> Plan {
    let mut plan = match rng.below(12) {
        0..=3 => layered_drawing(rng, n),
        4 | 5 => crowded_drawing(rng, n),
        6 => starred_drawing(rng, n),
        7 => any_plan(rng, n),
        8 => random_plan(rng, n, Some(85)),
        _ if n > MOST_OF_SIZES => layered_drawing(rng, n),
        9 => joined_plan(rng),
        _ => drawn_plan(rng),
    };
    if rng.chance(25) {
        hear_at_source(rng, &mut plan);
    }
    if rng.chance(30) {
        lose_link(rng, &mut plan);
    }
    if plan.n > 2 && rng.chance(6) {
        cut_off(rng, &mut plan);
    }
    plan.bound = Bound::f(rng.between(0, plan.n - 1));
    plan
}

fn lose_link(rng: &mut Rng, plan: &mut Plan) {
    let place = rng.below(plan.links.len().max(1));
    if let Some(&link) = plan.links.iter().nth(place) {
        plan.links.remove(&link);
    }
}

fn some_drawing(rng: &mut Rng) -> Plan {
    let n = rng.pick(&SIZES);
    drawing_of(rng, n)
}

// ---- drawings without chance

/// 2f+1 hear the source, and each of the others hears these alone, so that nobody is to spare.
pub fn thin_drawing(n: u32, f: u32) -> Plan {
    let near = 2 * f + 1;
    let mut plan = Plan::new(n, 0, 0);
    plan.links = (1..=near).map(|hearer| (0, hearer)).collect();
    let far = (near + 1..n.min(20)).flat_map(|to| (1..=near).map(move |from| (from, to)));
    plan.links.extend(far);
    plan
}

/// The last terminal first, so that the source is not 0.
fn turned(plan: Plan) -> Plan {
    let last = plan.n - 1;
    Plan {
        source: last - plan.source,
        links: plan
            .links
            .iter()
            .map(|l| (last - l.0, last - l.1))
            .collect(),
        ..plan
    }
}

/// How many drawings there are of each number of terminals, and in all.
const SHAPES: u64 = 5;
pub const SHAPED: u64 = 24 * SHAPES;

/// Of each number of terminals: all hear the source; all but one, which is deaf; as many as may be bad
/// where one or two do not hear the source; the same without one link; and a chain. Every other number
/// of them has the source last.
pub fn shaped(index: u64) -> Plan {
    let n = match (index / SHAPES) as u32 {
        23 => 255,
        n => n,
    };
    // A record has rows for 20.
    let rows = n.min(20);
    let shape = index % SHAPES;
    let mut plan = thin_drawing(n, rows.saturating_sub(3) / 2);
    match shape {
        0 | 1 => plan.links = (1..rows).map(|to| (0, to)).collect(),
        4 => plan.links = (1..rows).map(|to| (to - 1, to)).collect(),
        _ => {}
    }
    plan.links.retain(|link| link.1 < rows);
    if shape == 1 || shape == 3 {
        plan.links.pop_last();
    }
    match (2..=20).contains(&n) && n % 2 == 1 {
        true => turned(plan),
        false => plan,
    }
}

/// Each f that a drawing can have in which not all hear the source, for each number of terminals.
pub fn every_f() -> Vec<(u32, u32)> {
    let all = (3..=20).flat_map(|n| (0..=(n - 3) / 2).map(move |f| (n, f)));
    all.collect()
}

/// By turns nobody to spare, and one link short of that.
pub const THIN: u64 = 2 * 90;

pub fn thin(index: u64) -> Plan {
    let (n, f) = every_f()[(index / 2) as usize];
    let mut plan = thin_drawing(n, f);
    if index % 2 == 1 {
        plan.links.remove(&(1, n - 1));
    }
    match n % 3 {
        0 => turned(plan),
        _ => plan,
    }
}

/// Under these heads and lines there are groups, or ff for f, or what hides it; and heads out of place.
const OF_GROUPS: [&str; 20] = [
    "010300ff",
    "010300ff 020001 020002",
    "010300ff 020001 020002 07000002",
    "010300ff 020001 020002 07000001",
    "010300ff 020001 07000002 020002",
    "010300ff 020303",
    "010300ff 020001 020001 07000002",
    "010300ff 020001 0g",
    "010300ff0",
    "010300ff00",
    "010315ff 020001",
    "01ffffff 07000002",
    "020001 010300ff",
    "07000002 010300ff",
    "01030001 020001 010300ff",
    "01030001 020001 020002 07000002",
    "01030001 020001 07000001",
    "01030001 020001 020002 07000002 020001",
    "020001 01030001",
    "01030001 020001 01030001",
];

/// The heads of twenty terminals and of five: every f, the next ones that are refused, and ff.
const HEADS_OF_20: u64 = 20 + 3;
const HEADS_OF_5: u64 = 5 + 3;
pub const HEADED: u64 = HEADS_OF_20 + HEADS_OF_5 + OF_GROUPS.len() as u64;

/// Every f in the head of two drawings, of 19 and of 1, and files about ff.
pub fn headed(index: u64) -> Vec<u8> {
    let with_f = |mut plan: Plan, place: u64| {
        let number = match place.checked_sub(u64::from(plan.n)) {
            None => place as u32,
            Some(past) => [plan.n, 254, 255][past as usize],
        };
        plan.bound = Bound::f(number);
        join(&plan_draft(plan).lines)
    };
    let Some(past) = index.checked_sub(HEADS_OF_20) else {
        let mut star = Plan::new(20, 0, 0);
        star.links = (1..20).map(|to| (0, to)).collect();
        return with_f(star, index);
    };
    match past.checked_sub(HEADS_OF_5) {
        None => with_f(thin_drawing(5, 1), past),
        Some(place) => {
            let words = OF_GROUPS[place as usize].split(' ');
            join(&words.map(|word| word.into()).collect::<Lines>())
        }
    }
}

// ---- files

/// Sorts of files; they take turns by index.
const SORTS: u64 = 10;

pub fn greatest_case(seed: u64, index: u64) -> Vec<u8> {
    let rng = &mut Rng::for_case(seed, 17, index);
    let turn = index / SORTS;
    if index % LARGE_EVERY == LARGE_EVERY - 1 {
        return large_case(rng, &LARGE, index / LARGE_EVERY, drawing_of);
    }
    let lines = match index % SORTS {
        0 if is_sized(turn) => return sized_case(rng, some_drawing),
        0 => return small_case(rng, seed, read_greatest),
        1 => plan_draft(grouped_plan(rng)).lines,
        2 => wrong_groups(rng, turn),
        3 => unheard(rng),
        4 => later_cause(rng, turn),
        5 => later_line(rng),
        6 => other_f(rng),
        7 => deaf(rng),
        _ => {
            let plan = some_drawing(rng);
            right(rng, plan)
        }
    };
    join(&lines)
}

/// The least or the greatest f in the head, or one that is refused.
fn other_f(rng: &mut Rng) -> Lines {
    let mut plan = some_drawing(rng);
    let any = rng.between(plan.n, 254);
    plan.bound = Bound::f(rng.pick(&[0, 0, 1, plan.n - 1, plan.n - 1, plan.n, any]));
    let mut lines = plan_draft(plan.clone()).lines;
    lines[0] = head_line(&plan);
    lines
}

fn deaf(rng: &mut Rng) -> Lines {
    let mut plan = some_drawing(rng);
    deafen(rng, &mut plan);
    plan_draft(plan).lines
}

/// What is printed of a file, and what the reader answers.
pub type GreatestAnswer = (Vec<u8>, Result<Plan, Refusal>);

pub fn greatest_answers(text: &[u8], fault: Fault) -> GreatestAnswer {
    (greatest_text(text, fault), read_greatest(text, fault))
}

// ---- records

/// A drawing, right, deaf, or with one thing wrong in it, or two.
pub fn greatest_record(seed: u64, index: u64) -> Plan {
    let rng = &mut Rng::for_case(seed, 18, index);
    let mut plan = match index % 30 {
        29 => drawing_of(rng, LARGE[(index / 30 % LARGE.len() as u64) as usize]),
        _ => some_drawing(rng),
    };
    if rng.chance(10) {
        deafen(rng, &mut plan);
    }
    if index % 3 == 2 {
        break_drawing(rng, &mut plan);
        if rng.chance(30) {
            break_drawing(rng, &mut plan);
        }
    }
    plan.bound = Bound::f(0);
    plan
}

/// A number out of range, or a bit that no row may have.
fn break_drawing(rng: &mut Rng, plan: &mut Plan) {
    let n = plan.n;
    let inside = n.clamp(1, 20);
    let any = rng.between(0, inside - 1);
    let row = rng.pick(&[any, any, plan.source.min(inside - 1)]);
    let above = rng.between(n.min(31), 31);
    match rng.below(8) {
        0 => plan.n = rng.pick(&[0, 1, 21, 255]),
        1 => plan.source = rng.pick(&[n, n + 1, 31, 32, 255]).min(255),
        2 | 3 => drop(plan.links.insert((rng.pick(&[n.min(31), 20, above]), row))),
        4 | 5 if n < 20 => {
            let past = rng.between(n, 19);
            let hearer = rng.pick(&[n, past, 19]);
            plan.links.insert((rng.pick(&[any, hearer]), hearer));
        }
        _ => drop(plan.links.insert((row, row))),
    }
}

/// What is answered of a drawing.
pub type Bounded = Result<Option<u32>, Cause>;
