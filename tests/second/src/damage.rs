//! Damage to valid files: single bytes, lines, sizes, and each cause of refusal by design.

use crate::draft::{
    bad_set_line, group_line, head_line, join, link_line, long_run, notice_line, start_in,
    start_line, word_in, word_line, Draft,
};
use crate::faults::Fault;
use crate::generate::Kind;
use crate::groups::{Bound, MOST_GROUPS};
use crate::notice::{notice, Form, Notice};
use crate::output::{digits, GROUPS_LISTED};
use crate::plan::{bound_holds, number_of, Plan, Set};
use crate::plans::source_first;
use crate::reader::LONGEST_FILE;
use crate::rng::Rng;

type Lines = Vec<Vec<u8>>;

pub const FOREIGN: [u8; 16] = *b"gGABCDEFzZ /:@`\r";

/// Places of the lines of one kind.
fn places(lines: &Lines, kind: u8) -> Vec<usize> {
    let start = digits(&[kind]);
    (0..lines.len())
        .filter(|&at| lines[at].starts_with(&start))
        .collect()
}

fn place_of(lines: &Lines, kind: u8) -> Option<usize> {
    places(lines, kind).first().copied()
}

/// One byte of the file becomes another one.
pub fn change_byte(rng: &mut Rng, text: &mut [u8]) {
    if text.is_empty() {
        return;
    }
    let at = rng.below(text.len());
    text[at] = match rng.below(4) {
        0 => rng.byte(),
        1 => 10,
        2 => rng.pick(&FOREIGN),
        _ => rng.pick(b"0123456789abcdef"),
    };
}

/// Lines swapped, doubled, lost, moved, cut off or put in.
pub fn change_lines(rng: &mut Rng, lines: &mut Lines) {
    let (one, other) = (rng.below(lines.len()), rng.below(lines.len()));
    match rng.below(6) {
        0 => lines.swap(one, other),
        1 => lines.insert(other, lines[one].clone()),
        2 => drop(lines.remove(one)),
        3 => {
            let line = lines.remove(one);
            lines.insert(rng.below(lines.len() + 1), line);
        }
        4 => lines.truncate(one.max(1)),
        _ => lines.insert(one, Vec::new()),
    }
}

/// Line ends, capitals and cuts.
pub fn change_text(rng: &mut Rng, lines: &Lines) -> Vec<u8> {
    let mut text = join(lines);
    match rng.below(10) {
        0 => text.truncate(rng.below(text.len() + 1)),
        1 => text.truncate(text.len() - 1),
        2 => text.push(10),
        3 => text.insert(0, 10),
        4 => {
            text = lines
                .iter()
                .flat_map(|line| [line, &b"\r\n"[..]].concat())
                .collect()
        }
        5 => {
            text = text
                .iter()
                .map(|&byte| if byte == 10 { 13 } else { byte })
                .collect()
        }
        6 => text.make_ascii_uppercase(),
        7 => text.insert(rng.below(text.len()), 13),
        8 => drop(text.remove(rng.below(text.len()))),
        _ => text.insert(rng.below(text.len() + 1), rng.byte()),
    }
    text
}

/// Files of the sizes at which the whole-file causes begin, and next to them.
pub fn sized(rng: &mut Rng, kind: Kind, draft: &Draft) -> Vec<u8> {
    let size = match rng.below(8) {
        0 => return Vec::new(),
        1 => return vec![rng.pick(b"\n0f g\r")],
        2 => LONGEST_FILE - 1,
        3..=5 => LONGEST_FILE,
        6 => LONGEST_FILE + 1,
        _ => LONGEST_FILE + 1 + rng.below(3000),
    };
    let filling: Vec<u8> = match rng.below(5) {
        0 => b"\n".to_vec(),
        1 => b"0".to_vec(),
        2 => join(&draft.lines),
        3 => (0..64).map(|_| rng.byte()).collect(),
        _ if kind == Kind::Run => return long_run(rng, size),
        _ => b"020001\n".to_vec(),
    };
    let valid = join(&draft.lines);
    valid
        .into_iter()
        .chain(filling.into_iter().cycle())
        .take(size)
        .collect()
}

/// Noise: any bytes, digits and line ends, or frames of random numbers.
pub fn noise(rng: &mut Rng) -> Vec<u8> {
    let length = rng.pick(&[1, 2, 7, 30, 200, 1000]);
    match rng.below(3) {
        0 => (0..length).map(|_| rng.byte()).collect(),
        1 => (0..length)
            .map(|_| rng.pick(b"0000111122345689abcdef\n\n\n"))
            .collect(),
        _ => {
            let bound = rng.pick(&[1, 1, GROUPS_LISTED]);
            let mut lines = vec![digits(&[1, rng.between(2, 6) as u8, 0, bound])];
            for _ in 0..rng.below(12) {
                let (kind, length) = rng.pick(&[
                    (1, 4),
                    (2, 3),
                    (3, 4),
                    (4, 4),
                    (4, 6),
                    (5, 6),
                    (5, 8),
                    (7, 4),
                    (7, 4),
                    (8, 6),
                ]);
                let mut frame = vec![kind];
                frame.extend((1..length).map(|_| rng.pick(&[0, 0, 1, 2, 3, 4, 41])));
                lines.push(digits(&frame));
            }
            join(&lines)
        }
    }
}

/// The causes that a file can have on a line, in the order in which they are looked for there.
pub fn causes(kind: Kind) -> &'static [u32] {
    match kind {
        Kind::Verdict => &[1, 2, 3, 4, 5, 6, 17],
        Kind::Run => &[1, 2, 3, 4, 5, 6, 17, 7, 8, 9, 16, 10, 11],
    }
}

/// Plants one cause of refusal and returns the place of the line that carries it.
pub fn plant(rng: &mut Rng, kind: Kind, draft: &Draft, lines: &mut Lines, cause: u32) -> usize {
    match cause {
        1 => plant_text(rng, lines),
        2 => plant_kind(rng, kind, lines),
        3 => plant_order(rng, kind, lines),
        4 => plant_head(rng, draft, lines),
        5 => plant_link_end(rng, draft, lines),
        6 => plant_link_twice(rng, lines),
        7 => plant_bad_member(rng, draft, lines),
        8 => plant_bad_bound(rng, draft, lines),
        9 => plant_start(rng, draft, lines),
        16 => plant_edition(rng, draft, lines),
        10 => plant_word(rng, draft, lines),
        17 => plant_group(rng, draft, lines),
        _ => plant_word_twice(rng, draft, lines),
    }
}

fn plant_text(rng: &mut Rng, lines: &mut Lines) -> usize {
    let at = rng.below(lines.len());
    let line = &mut lines[at];
    let place = rng.below(line.len().max(1)).min(line.len());
    match rng.below(5) {
        0 => line.clear(),
        1 => line.push(rng.pick(b"0f")),
        2 => drop(line.pop()),
        3 => line.insert(place, rng.pick(&FOREIGN)),
        _ => {
            line.truncate(place);
            line.push(rng.pick(&[0, 9, 32, 65, 127, 128, 255]));
        }
    }
    at
}

fn plant_kind(rng: &mut Rng, kind: Kind, lines: &mut Lines) -> usize {
    let at = rng.below(lines.len());
    let line = &mut lines[at];
    match rng.below(4) {
        0 => line.extend(digits(&[rng.pick(&[0, 1, 255])])),
        1 if line.len() > 2 => line.truncate(line.len() - 2),
        2 if kind == Kind::Verdict => {
            let lacking = [
                start_line(7, Some(3)),
                bad_set_line(2),
                word_line(1, 1, 0, 9),
                notice_line(1, notice(2, 9)),
                start_in(Form::New, notice(1, 7), None),
            ];
            *line = lacking[rng.below(5)].clone();
        }
        2 if rng.chance(50) => line.truncate(2),
        2 => *line = digits(&[7, 0, 0, 1, 0, 0][..rng.pick(&[1, 2, 3, 5, 6])]),
        _ => {
            let unknown = digits(&[rng.pick(&[0, 6, 8, 9, 16, 17, 32, 128, 129, 130, 255])]);
            line.splice(0..line.len().min(2), unknown);
        }
    }
    at
}

fn plant_order(rng: &mut Rng, kind: Kind, lines: &mut Lines) -> usize {
    let head = lines[0].clone();
    let kinds: &[u8] = match kind {
        Kind::Verdict => &[2, 7],
        Kind::Run => &[2, 3, 4, 5, 7, 8],
    };
    match rng.below(10) {
        0 => drop(lines.remove(0)),
        1 => {
            let at = 1 + rng.below(lines.len());
            let repeated = if rng.chance(50) {
                head
            } else {
                digits(&[1, 0, 0, 0])
            };
            lines.insert(at, repeated);
            return at;
        }
        2 => lines.insert(0, rng.pick(&[&b"020001"[..], b"07000002"]).to_vec()),
        6 | 8 => {
            // A group beside f, or after the bad set.
            let after = place_of(lines, 3).map_or(1, |at| at + 1);
            let any = 1 + rng.below(lines.len());
            let at = rng.pick(&[after, after, any]);
            lines.insert(at, group_line(rng.pick(&[0, 0, 2, 4])));
            return at;
        }
        7 | 9 => {
            // A link after a group, where there are groups.
            let at = places(lines, 7).last().map_or(lines.len(), |at| at + 1);
            lines.insert(at, link_line(rng.pick(&[0, 1]), rng.pick(&[0, 1, 2])));
            return at;
        }
        choice => {
            // A line of some kind is lost, or stands at some other place.
            let found = places(lines, rng.pick(kinds));
            if let Some(&from) = found.get(rng.below(found.len().max(1))) {
                let line = if choice == 3 {
                    lines[from].clone()
                } else {
                    lines.remove(from)
                };
                let to = rng.below(lines.len() + 1);
                if choice < 5 {
                    lines.insert(to, line);
                }
                return to.min(lines.len().saturating_sub(1));
            }
        }
    }
    if lines.is_empty() {
        lines.push(link_line(0, 1));
    }
    0
}

fn plant_head(rng: &mut Rng, draft: &Draft, lines: &mut Lines) -> usize {
    let mut plan = draft.plan.clone();
    let n = plan.n;
    for _ in 0..rng.between(1, 2) {
        match rng.below(3) {
            0 => plan.n = rng.pick(&[0, 1, 21, 22, 255]),
            1 => plan.source = rng.pick(&[n, n + 1, 20, 255]),
            _ => plan.bound = Bound::f(rng.pick(&[n, n + 1, 20, 254])),
        }
    }
    lines[0] = head_line(&plan);
    0
}

/// A place among the links, between the head and the first group or the bad set.
fn link_place(rng: &mut Rng, lines: &Lines) -> usize {
    let next = place_of(lines, 7).or(place_of(lines, 3));
    let end = next.unwrap_or(lines.len()).max(1);
    (1 + rng.below(end)).min(lines.len())
}

fn plant_link_end(rng: &mut Rng, draft: &Draft, lines: &mut Lines) -> usize {
    let n = draft.plan.n;
    let inside = rng.between(0, n - 1);
    let outside = rng.pick(&[n, n + 1, 20, 32, 255]).max(n);
    let line = match rng.below(4) {
        0 => link_line(outside, inside),
        1 => link_line(inside, outside),
        2 => link_line(outside, outside),
        _ => link_line(inside, inside),
    };
    let at = link_place(rng, lines);
    lines.insert(at, line);
    at
}

fn plant_link_twice(rng: &mut Rng, lines: &mut Lines) -> usize {
    let links = places(lines, 2);
    let line = if links.is_empty() {
        link_line(0, 1)
    } else {
        lines[rng.pick(&links)].clone()
    };
    if links.is_empty() {
        lines.insert(1.min(lines.len()), line.clone());
    }
    let at = link_place(rng, lines);
    lines.insert(at, line);
    at
}

/// A group that names the source or a number that the site lacks, one too many, or no group at all.
fn plant_group(rng: &mut Rng, draft: &Draft, lines: &mut Lines) -> usize {
    let plan = &draft.plan;
    let groups = places(lines, 7);
    let Some(&first) = groups.first() else {
        // A plan with f gets a head that promises groups.
        let groups = Plan {
            bound: Bound::groups(&[]),
            ..plan.clone()
        };
        lines[0] = head_line(&groups);
        return 0;
    };
    match rng.below(8) {
        0 => {
            lines.retain(|line| !line.starts_with(b"07"));
            first.min(lines.len().saturating_sub(1))
        }
        1 | 2 => {
            let at = groups[groups.len() - 1] + 1;
            let more = (MOST_GROUPS as usize + 1).saturating_sub(groups.len());
            for _ in 0..more {
                lines.insert(at, lines[rng.pick(&groups)].clone());
            }
            at + more - 1
        }
        choice => {
            let mut group = plan.bound.at(rng.below(groups.len()) as u32);
            group.insert(match choice {
                3 | 4 => plan.source,
                5 => plan.n,
                6 => rng.between(20, 23),
                _ => rng.between(plan.n, 19.max(plan.n)),
            });
            let at = rng.pick(&groups);
            lines[at] = group_line(number_of(&group));
            at
        }
    }
}

fn plant_bad_member(rng: &mut Rng, draft: &Draft, lines: &mut Lines) -> usize {
    let plan = &draft.plan;
    let mut bad = draft.bad.clone();
    let outside = rng.between(plan.n, 23);
    bad.insert(if rng.chance(40) {
        plan.source
    } else {
        rng.pick(&[plan.n, outside, 20, 23])
    });
    replace(lines, 3, bad_set_line(number_of(&bad)))
}

fn plant_bad_bound(rng: &mut Rng, draft: &Draft, lines: &mut Lines) -> usize {
    let plan = &draft.plan;
    let mut bad = if plan.bound.has_groups() {
        in_no_group(rng, plan)
    } else {
        heard_too_much(rng, plan)
    };
    if rng.chance(10) {
        bad.insert(plan.source);
    }
    replace(lines, 3, bad_set_line(number_of(&bad)))
}

/// Part of no group: mostly as few members as that takes, often all of groups that overlap; else
/// more than any group has.
fn in_no_group(rng: &mut Rng, plan: &Plan) -> Set {
    let members = plan.bound.listed().into_iter().flatten();
    let named: Set = members.collect();
    let mut order = source_first(rng, plan).split_off(1);
    if rng.chance(70) {
        // Members of groups come first.
        order.sort_by_key(|terminal| !named.contains(terminal));
    }
    let mut bad = Set::new();
    for terminal in order {
        bad.insert(terminal);
        if !bound_holds(plan, &bad, Fault::None) && rng.chance(80) {
            break;
        }
    }
    let least = bad.clone();
    for terminal in least {
        let mut fewer = bad.clone();
        fewer.remove(&terminal);
        if rng.chance(60) && !bound_holds(plan, &fewer, Fault::None) {
            bad = fewer;
        }
    }
    bad
}

/// More than f of them are heard by someone.
fn heard_too_much(rng: &mut Rng, plan: &Plan) -> Set {
    let f = plan.bound.number as usize;
    let mut hearers: Vec<u32> = (0..plan.n).collect();
    rng.shuffle(&mut hearers);
    if rng.chance(40) {
        // The bound at the source is the one that is easily forgotten.
        hearers.insert(0, plan.source);
    }
    let mut bad: Set = (0..plan.n)
        .filter(|&terminal| terminal != plan.source)
        .collect();
    for hearer in hearers {
        let mut heard: Vec<u32> = plan.heard_by(hearer).into_iter().collect();
        heard.retain(|&sender| sender != plan.source);
        rng.shuffle(&mut heard);
        if heard.len() > f {
            bad = heard.into_iter().take(f + 1).collect();
            break;
        }
    }
    bad
}

/// Puts a line in the place of the first one of its kind.
fn replace(lines: &mut Lines, kind: u8, line: Vec<u8>) -> usize {
    let at = place_of(lines, kind).unwrap_or(lines.len() - 1);
    lines[at] = line;
    at
}

fn plant_start(rng: &mut Rng, draft: &Draft, lines: &mut Lines) -> usize {
    let form = draft.office.form;
    let edition = rng.pick(&[1, 1, 0]);
    let (layout, rounds) = match rng.below(5) {
        0 => (0, None),
        1 => (0, Some(rng.between(0, 40))),
        2 => (7, Some(41)),
        3 => (0, Some(41)),
        _ => (7, Some(rng.pick(&[42, 64, 128, 255]))),
    };
    let after = place_of(lines, 4).map_or(lines.len(), |at| at + 1);
    if form == Form::New && rng.chance(30) {
        // A later notice without a layout.
        let round = rng.between(1, draft.rounds.max(1));
        lines.insert(
            after,
            notice_line(round, notice(rng.pick(&[0, 9, 65_535]), 0)),
        );
        return after;
    }
    replace(lines, 4, start_in(form, notice(edition, layout), rounds))
}

/// A start with edition 0, or a later notice that is not above the last.
fn plant_edition(rng: &mut Rng, draft: &Draft, lines: &mut Lines) -> usize {
    let office = &draft.office;
    let (round, last) = office.last();
    if office.form == Form::Old || round >= draft.rounds || rng.chance(30) {
        let rounds = rng.chance(50).then_some(draft.rounds);
        return replace(lines, 4, start_in(Form::New, notice(0, 7), rounds));
    }
    let after = places(lines, 8).last().copied();
    let at = after
        .or(place_of(lines, 4))
        .map_or(lines.len(), |at| at + 1);
    let edition = match rng.below(4) {
        0 => 0,
        1 => last.edition,
        2 => office.start.edition,
        _ => last.edition - 1,
    };
    lines.insert(at, notice_line(round + 1, notice(edition, 9)));
    at
}

fn plant_word(rng: &mut Rng, draft: &Draft, lines: &mut Lines) -> usize {
    let plan = &draft.plan;
    let links: Vec<(u32, u32)> = plan.links.iter().copied().collect();
    let lying: Vec<(u32, u32)> = links
        .iter()
        .copied()
        .filter(|link| draft.bad.contains(&link.0))
        .collect();
    let pool = if lying.is_empty() {
        vec![(0, 1)]
    } else {
        lying
    };
    let (from, to) = rng.pick(&pool);
    let round = rng.between(1, draft.rounds.max(1));
    let anyone = rng.between(0, plan.n - 1);
    let at = match rng.below(9) {
        0 => (0, from, to),
        1 => (draft.rounds + 1, from, to),
        2 => (255, from, to),
        3 | 4 => {
            let line = word_in(draft.office.form, (round, from, to), no_word(rng));
            return insert_word(rng, lines, line);
        }
        5 => (round, from, rng.pick(&[plan.n, 20, 255])),
        6 => (round, rng.pick(&[plan.n, from, 255]), from),
        7 => (round, anyone, to),
        _ => (round, plan.source, to),
    };
    let line = word_in(draft.office.form, at, notice(1, 9));
    insert_word(rng, lines, line)
}

/// A zero in either half, or in both; an old word shows the layout alone.
fn no_word(rng: &mut Rng) -> Notice {
    rng.pick(&[notice(1, 0), notice(0, 9), notice(0, 0)])
}

fn insert_word(rng: &mut Rng, lines: &mut Lines, line: Vec<u8>) -> usize {
    let before = places(lines, 8).last().copied().or(place_of(lines, 4));
    let first = before.map_or(lines.len(), |at| at + 1);
    let at = first + rng.below(lines.len() - first + 1);
    lines.insert(at, line);
    at
}

fn plant_word_twice(rng: &mut Rng, draft: &Draft, lines: &mut Lines) -> usize {
    let words = places(lines, 5);
    if words.is_empty() {
        return plant_word(rng, draft, lines);
    }
    let mut line = lines[rng.pick(&words)].clone();
    let value = line.len().saturating_sub(4);
    match rng.below(4) {
        0 => drop(line.splice(value.., *b"0000")),
        1 => drop(line.splice(value.., *b"abcd")),
        _ => {}
    }
    insert_word(rng, lines, line)
}

/// A second fault on a line that may have one already.
pub fn spoil_line(rng: &mut Rng, lines: &mut Lines, at: usize) {
    let Some(line) = lines.get_mut(at) else {
        return;
    };
    let extreme = digits(&[rng.pick(&[0, 1, 2, 19, 20, 21, 40, 41, 127, 128, 255])]);
    let field = rng.below((line.len() / 2).max(1)) * 2;
    match rng.below(6) {
        0 => line.push(b'0'),
        1 => line.extend(extreme),
        2 => line.insert(field.min(line.len()), rng.pick(&FOREIGN)),
        3 => {
            let line = lines.remove(at);
            lines.insert(rng.below(lines.len() + 1), line);
        }
        _ => drop(line.splice(field.min(line.len())..(field + 2).min(line.len()), extreme)),
    }
}
