//! The seeded cases: valid files of many sorts, and damaged ones.

use crate::channel::some_channel;
use crate::damage::{
    causes, change_byte, change_lines, change_text, noise, plant, sized, spoil_line,
};
use crate::draft::{bad_draft, join, plan_draft, run_draft, Draft};
use crate::drawings::DRAWINGS;
use crate::faults::Fault;
use crate::forms::{mixed, WAYS};
use crate::grouping::{group_thinly, group_up, maybe_grouped, GROUPED};
use crate::groups::Bound;
use crate::notice::notice;
use crate::office::{Manner, Office};
use crate::place::{placed, THERE};
use crate::plan::{Plan, Set};
use crate::plans::{
    any_plan, border_plan, deaf_plan, deafen, deep_plan, hear_at_source, joined_plan, mend,
    random_plan, strong_plan, thin_plan, weak_plan,
};
use crate::rng::Rng;
use crate::shared_files::{any_order, plan_with_default, shared_file, WAYS as SHARED_WAYS};
use std::fs;
use std::io;
use std::path::Path;

/// The links of a plan that passes, and in which a notice may be overtaken.
pub const OVERTAKEN: [(u32, u32); 9] = [
    (0, 1),
    (0, 2),
    (0, 3),
    (1, 4),
    (2, 4),
    (3, 4),
    (1, 5),
    (2, 5),
    (4, 5),
];

#[derive(Clone, Copy, Debug, PartialEq, Eq)]
pub enum Kind {
    Verdict,
    Run,
}

impl Kind {
    pub fn name(self) -> &'static str {
        match self {
            Kind::Verdict => "verdict",
            Kind::Run => "run",
        }
    }
}

/// Sorts of cases; they take turns by index. The first ones are of valid files.
pub const SORTS: u64 = 21;
pub const VALID_SORTS: u64 = 8;

/// Of a hundred valid files so many have a deaf terminal, and of those that get damaged.
const DEAF: u32 = 10;
const DEAF_AND_DAMAGED: u32 = 20;

/// The bytes of one input file.
pub fn case(kind: Kind, seed: u64, index: u64) -> Vec<u8> {
    let mut rng = Rng::for_case(seed, kind as u64 + 1, index);
    let turn = index / SORTS;
    if index % SORTS >= VALID_SORTS {
        return damaged(&mut rng, kind, index % SORTS, turn);
    }
    let draft = match kind {
        Kind::Verdict => plan_case(&mut rng, index % SORTS, turn),
        Kind::Run => run_case(&mut rng, index % SORTS, turn),
    };
    join(&draft.lines)
}

pub fn write_cases(kind: Kind, seed: u64, count: u64, folder: &Path) -> io::Result<()> {
    fs::create_dir_all(folder)?;
    for index in 0..count {
        let name = format!("{}-{}-{:06}.txt", kind.name(), seed, index);
        fs::write(folder.join(name), fresh_case(kind, seed, index))?;
    }
    Ok(())
}

/// Of files that are made anew one in so many is about one radio for all.
const SHARED_EVERY: u64 = 5;

/// All cases, those about one radio for all among the others.
pub fn fresh_case(kind: Kind, seed: u64, index: u64) -> Vec<u8> {
    let turn = index / SHARED_EVERY;
    match index % SHARED_EVERY {
        4 => shared_case(kind, seed, turn),
        _ => case(kind, seed, index - turn),
    }
}

/// Sorts of cases about one radio for all: first two of valid runs, then one of damaged ones, and two
/// of those with one wrong line.
pub const SHARED_SORTS: u64 = 5;

pub fn shared_case(kind: Kind, seed: u64, index: u64) -> Vec<u8> {
    let rng = &mut Rng::for_case(seed, kind as u64 + 11, index);
    let (sort, turn) = (index % SHARED_SORTS, index / SHARED_SORTS);
    // Whoever reads plans alone lacks the default.
    if kind == Kind::Verdict {
        return match sort {
            0 => plan_with_default(rng),
            _ => join(&plan_case(rng, sort, turn).lines),
        };
    }
    let (way, _) = SHARED_WAYS[((2 * turn + sort % 2) % SHARED_WAYS.len() as u64) as usize];
    match sort {
        0 => some_channel(rng, terminals(turn, 2, 20)).text(),
        1 => shuffled_channel(rng),
        2 if turn.is_multiple_of(2) => any_order(rng),
        2 => {
            let n = rng.between(2, 7);
            let lines = some_channel(rng, n).lines();
            damage_any(rng, lines)
        }
        _ => shared_file(rng, way),
    }
}

/// A small one, with its links and its words in any order.
fn shuffled_channel(rng: &mut Rng) -> Vec<u8> {
    let n = rng.between(2, 7);
    let channel = some_channel(rng, n);
    let mut lines = channel.lines();
    let links = channel.plan.links.len();
    let words = lines.len() - channel.words.len();
    rng.shuffle(&mut lines[1..=links]);
    rng.shuffle(&mut lines[words..]);
    join(&lines)
}

/// A byte, a line, the line ends or a field of a line.
fn damage_any(rng: &mut Rng, mut lines: Vec<Vec<u8>>) -> Vec<u8> {
    match rng.below(4) {
        0 => {
            let mut text = join(&lines);
            change_byte(rng, &mut text);
            return text;
        }
        1 => change_lines(rng, &mut lines),
        2 => return change_text(rng, &lines),
        _ => {
            let at = rng.below(lines.len());
            spoil_line(rng, &mut lines, at);
        }
    }
    join(&lines)
}

/// A number of terminals that goes through `low` to `high` as the turns go on.
fn terminals(turn: u64, low: u32, high: u32) -> u32 {
    low + (turn % u64::from(high - low + 1)) as u32
}

fn plan_case(rng: &mut Rng, sort: u64, turn: u64) -> Draft {
    let plan = if rng.chance(DEAF) {
        let mut plan = deaf_plan(rng, terminals(turn, 2, 20));
        maybe_grouped(rng, &mut plan);
        plan
    } else {
        hearing_plan(rng, sort, turn)
    };
    let links = plan.links.len();
    let mut draft = plan_draft(plan);
    if sort == 7 || rng.chance(30) {
        rng.shuffle(&mut draft.lines[1..=links]);
    }
    draft
}

/// A plan without deaf terminals, or a drawing as it is.
fn hearing_plan(rng: &mut Rng, sort: u64, turn: u64) -> Plan {
    if sort == 4 && turn.is_multiple_of(2) {
        return drawing(turn / 2);
    }
    if sort == 6 && rng.chance(GROUPED) {
        return large_groups(rng, turn);
    }
    let mut plan = match sort {
        0 => random_plan(rng, terminals(turn, 2, 8), None),
        1 => random_plan(rng, terminals(turn, 2, 14), None),
        2 => strong_plan(rng, terminals(turn, 2, 11)),
        3 => border_plan(rng, terminals(turn, 2, 8)),
        4 => joined_plan(rng),
        5 if turn.is_multiple_of(3) => joined_plan(rng),
        5 => weak_plan(rng, terminals(turn, 2, 14)),
        6 => large_plan(rng, turn),
        _ => deep_plan(rng, terminals(turn, 2, 11)),
    };
    mend(rng, &mut plan);
    if sort != 6 {
        maybe_grouped(rng, &mut plan);
    }
    plan
}

/// More than 14 terminals and groups, of which the parts are looked through soon: any links.
fn large_groups(rng: &mut Rng, turn: u64) -> Plan {
    let mut plan = any_plan(rng, terminals(turn, 15, 20));
    mend(rng, &mut plan);
    group_up(rng, &mut plan);
    plan
}

/// More than 14 terminals: mostly few links, so that a small witness ends the search early.
fn large_plan(rng: &mut Rng, turn: u64) -> Plan {
    let n = terminals(turn, 15, 20);
    match turn % 16 {
        7 => random_plan(rng, n, None),
        15 => strong_plan(rng, n),
        _ => {
            let density = rng.between(0, 15);
            random_plan(rng, n, Some(density))
        }
    }
}

fn drawing(turn: u64) -> Plan {
    DRAWINGS[(turn % DRAWINGS.len() as u64) as usize].plan()
}

fn run_case(rng: &mut Rng, sort: u64, turn: u64) -> Draft {
    let n = terminals(turn, 2, 20);
    // Both forms of start: with its rounds, and without.
    let rounds = rng.chance(65).then(|| rng.between(0, 12));
    if rng.chance(DEAF) {
        return named_run(rng, deaf_plan, n, rounds, Manner::Wild);
    }
    match sort {
        0 => named_run(rng, strong_plan, n, rounds, Manner::Wild),
        1 => {
            let mut plan = random_plan(rng, n, None);
            mend(rng, &mut plan);
            maybe_grouped(rng, &mut plan);
            run_draft(rng, plan, rounds, Manner::Wild)
        }
        2 => named_run(rng, weak_plan, n, rounds, Manner::Wild),
        3 => named_run(rng, weak_plan, n, rounds, Manner::Steady),
        4 => drawn_run(rng, turn, rounds),
        5 if turn.is_multiple_of(2) => edge_run(rng, n),
        5 => {
            let rounds = rng.pick(&[None, Some(0), Some(1), Some(39), Some(40), Some(41)]);
            let manner = rng.pick(&[Manner::Wild, Manner::Flood]);
            named_run(rng, deep_plan, n, rounds, manner)
        }
        6 => turning_run(rng, n, rounds),
        _ => shuffled_run(rng, n, rounds),
    }
}

/// A drawing, several of them joined, or notices that overtake each other.
fn drawn_run(rng: &mut Rng, turn: u64, rounds: Option<u32>) -> Draft {
    let manner = rng.pick(&[
        Manner::Silent,
        Manner::Wild,
        Manner::Turncoat,
        Manner::Staggered,
        Manner::Backward,
    ]);
    let plan = match turn % 4 {
        0 | 2 => drawing(turn / 2),
        1 => {
            let mut plan = joined_plan(rng);
            maybe_grouped(rng, &mut plan);
            plan
        }
        _ => return overtaken_run(rng, manner),
    };
    run_draft(rng, plan, rounds, manner)
}

fn named_run(
    rng: &mut Rng,
    make: fn(&mut Rng, u32) -> Plan,
    n: u32,
    rounds: Option<u32>,
    manner: Manner,
) -> Draft {
    let mut plan = make(rng, n);
    if rng.chance(20) {
        hear_at_source(rng, &mut plan);
    }
    if !plan.bound.has_groups() {
        maybe_grouped(rng, &mut plan);
    }
    run_draft(rng, plan, rounds, manner)
}

/// A plan with groups in which nobody is to spare.
fn thin_groups(rng: &mut Rng, n: u32) -> Plan {
    let mut plan = thin_plan(rng, n);
    group_thinly(rng, &mut plan);
    plan
}

/// Liars that say one value early and another later. Where nobody is to spare, whoever hears them
/// waits for the true one.
pub fn turning_run(rng: &mut Rng, n: u32, rounds: Option<u32>) -> Draft {
    let make = rng.pick(&[
        weak_plan as fn(&mut Rng, u32) -> Plan,
        thin_plan,
        thin_plan,
        thin_groups,
    ]);
    let manner = rng.pick(&[
        Manner::Turncoat,
        Manner::Faithless,
        Manner::Faithless,
        Manner::Staggered,
        Manner::Flood,
        Manner::Forward,
        Manner::Backward,
    ]);
    named_run(rng, make, n, rounds, manner)
}

/// Terminals 4 and 5 of this site need two that say one notice. A notice that is overtaken round
/// after round reaches them by one neighbour only while another already says the next.
pub fn overtaken_run(rng: &mut Rng, manner: Manner) -> Draft {
    let mut plan = Plan::new(6, 0, 1);
    plan.links = OVERTAKEN.into_iter().collect();
    let mut office = Office::new(notice(rng.pick(&[1, 9]), 7));
    let often = rng.pick(&[2, 3, 3, 3, 4]);
    for round in 1..=often {
        let edition = office.last().1.edition + 1;
        office
            .later
            .insert(round, notice(edition, rng.pick(&[7, 8])));
    }
    let bad = Set::from([rng.pick(&[2, 2, 1, 3])]);
    let rounds = rng.pick(&[None, Some(5), Some(5), Some(9)]);
    bad_draft(rng, plan, bad, rounds, manner, office)
}

/// A start in either form, and the liars' words in round n-1, n or 40 alone. They are the truth, so
/// whoever waited for them takes then, and what is passed on in a round more shows.
pub fn edge_run(rng: &mut Rng, n: u32) -> Draft {
    let rounds = rng.pick(&[None, None, Some(n - 1), Some(n), Some(40)]);
    let once = Manner::Once(rng.pick(&[n - 1, n - 1, n, 40]));
    // Not every plan has liars that are heard, and two terminals seldom do.
    let mut tries = (0..20).map(|_| {
        let make = rng.pick(&[
            thin_plan as fn(&mut Rng, u32) -> Plan,
            thin_plan,
            thin_groups,
            weak_plan,
            deep_plan,
        ]);
        named_run(rng, make, n, rounds, once)
    });
    match tries.find(some_word) {
        Some(draft) => draft,
        None => named_run(rng, strong_plan, n, rounds, once),
    }
}

fn some_word(draft: &Draft) -> bool {
    draft.lines.iter().any(|line| line.starts_with(b"05"))
}

/// Links and words each in random order; later notices have theirs.
fn shuffled_run(rng: &mut Rng, n: u32, rounds: Option<u32>) -> Draft {
    let mut draft = named_run(rng, deep_plan, n, rounds, Manner::Wild);
    let links = draft.plan.links.len();
    let groups = draft.plan.bound.listed().len();
    let notices = draft.office.later.len();
    rng.shuffle(&mut draft.lines[1..=links]);
    rng.shuffle(&mut draft.lines[links + groups + notices + 3..]);
    draft
}

/// A small valid file to be damaged, with groups or not.
fn base(rng: &mut Rng, kind: Kind, groups: bool) -> Draft {
    let n = rng.between(2, 9);
    let make = rng.pick(&[
        strong_plan as fn(&mut Rng, u32) -> Plan,
        weak_plan,
        deep_plan,
    ]);
    let mut plan = make(rng, n);
    if rng.chance(40) {
        hear_at_source(rng, &mut plan);
    }
    if rng.chance(DEAF_AND_DAMAGED) {
        deafen(rng, &mut plan);
    }
    let most = plan.bound.number.max(rng.between(0, 1));
    if kind == Kind::Run {
        plan.bound = Bound::f(most);
    }
    if groups {
        group_up(rng, &mut plan);
    }
    if kind == Kind::Verdict {
        return plan_draft(plan);
    }
    let rounds = rng.pick(&[None, Some(0), Some(1), Some(2), Some(3), Some(40)]);
    run_draft(rng, plan, rounds, Manner::Wild)
}

/// Whether a file for this cause lists groups. Some causes are about groups.
fn groups_for(rng: &mut Rng, cause: u32) -> bool {
    rng.chance(match cause {
        17 => 90,
        8 => 60,
        3 => 50,
        _ => GROUPED,
    })
}

/// All that can stand where a plan ends, of a deaf one and of another, with groups and not; and where
/// groups are promised and none is there.
fn placed_case(rng: &mut Rng, kind: Kind, sort: u64, turn: u64) -> Vec<u8> {
    let there = THERE[(turn % THERE.len() as u64) as usize];
    let deaf = sort == 16 || (sort == 18 && rng.chance(50));
    let listing = there.listing(rng, sort == 18);
    placed(rng, kind, there, deaf, listing)
}

fn damaged(rng: &mut Rng, kind: Kind, sort: u64, turn: u64) -> Vec<u8> {
    if sort >= 19 && kind == Kind::Run {
        // Each way of mixing the forms, and of a wrong later notice.
        let (way, _) = WAYS[((2 * turn + sort - 19) % WAYS.len() as u64) as usize];
        return mixed(rng, way);
    }
    if (16..19).contains(&sort) {
        return placed_case(rng, kind, sort, turn);
    }
    let causes = causes(kind);
    let cause = causes[(turn % causes.len() as u64) as usize];
    let planted = (11..=13).contains(&sort);
    let groups = groups_for(rng, if planted { cause } else { 0 });
    let draft = base(rng, kind, groups);
    let mut lines = draft.lines.clone();
    match sort {
        8 => {
            let mut text = join(&lines);
            change_byte(rng, &mut text);
            return text;
        }
        9 => change_lines(rng, &mut lines),
        10 => return change_text(rng, &lines),
        11 => drop(plant(rng, kind, &draft, &mut lines, cause)),
        12 => {
            let at = plant(rng, kind, &draft, &mut lines, cause);
            spoil_line(rng, &mut lines, at);
        }
        13 => {
            plant(rng, kind, &draft, &mut lines, cause);
            let other = rng.pick(causes);
            plant(rng, kind, &draft, &mut lines, other);
        }
        14 if turn.is_multiple_of(2) => return sized(rng, kind, &draft),
        15 if turn.is_multiple_of(2) => return noise(rng),
        _ => return late_cause(rng, kind, draft, causes),
    }
    join(&lines)
}

/// The later causes are hidden by any other one, so they come alone more often, and in a file in
/// which somebody lies if one is soon found.
fn late_cause(rng: &mut Rng, kind: Kind, draft: Draft, causes: &[u32]) -> Vec<u8> {
    let late = rng.pick(&causes[causes.len() - 7..]);
    let groups = groups_for(rng, late);
    let mut tries = (0..8).map(|_| base(rng, kind, groups));
    let lying = |draft: &Draft| some_word(draft) && draft.plan.deaf(Fault::None).is_empty();
    let draft = tries.find(lying).unwrap_or(draft);
    let mut lines = draft.lines.clone();
    plant(rng, kind, &draft, &mut lines, late);
    join(&lines)
}
