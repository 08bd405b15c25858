//! Valid files as lists of lines, ready to be joined or damaged.

use crate::groups::{Bound, MOST_GROUPS};
use crate::notice::{notice, Form, Notice};
use crate::office::{said, some_office, Manner, Office, Saying};
use crate::output::{digits, head_frame};
use crate::plan::{number_of, Plan, Set};
use crate::plans::random_bad_set;
use crate::reader::LONGEST_FILE;
use crate::rng::Rng;

/// Lines without their ends, and what they say.
#[derive(Clone, Debug)]
pub struct Draft {
    pub plan: Plan,
    pub bad: Set,
    pub office: Office,
    pub rounds: u32,
    pub lines: Vec<Vec<u8>>,
}

pub fn join(lines: &[Vec<u8>]) -> Vec<u8> {
    lines
        .iter()
        .flat_map(|line| line.iter().copied().chain([10]))
        .collect()
}

pub fn head_line(plan: &Plan) -> Vec<u8> {
    digits(&head_frame(plan))
}

pub fn link_line(from: u32, to: u32) -> Vec<u8> {
    digits(&[2, from as u8, to as u8])
}

pub fn bad_set_line(number: u32) -> Vec<u8> {
    let [_, high, middle, low] = number.to_be_bytes();
    digits(&[3, high, middle, low])
}

pub fn group_line(number: u32) -> Vec<u8> {
    let [_, high, middle, low] = number.to_be_bytes();
    digits(&[7, high, middle, low])
}

/// A start in the old form.
pub fn start_line(layout: u16, rounds: Option<u32>) -> Vec<u8> {
    start_in(Form::Old, notice(1, layout), rounds)
}

pub fn start_in(form: Form, start: Notice, rounds: Option<u32>) -> Vec<u8> {
    let mut frame = vec![4];
    frame.extend(notice_bytes(form, start));
    frame.extend(rounds.map(|rounds| rounds as u8));
    digits(&frame)
}

/// A later notice.
pub fn notice_line(round: u32, later: Notice) -> Vec<u8> {
    let frame = [&[8, round as u8], &later.frame_bytes()[..]].concat();
    digits(&frame)
}

/// A word in the old form.
pub fn word_line(round: u32, from: u32, to: u32, layout: u16) -> Vec<u8> {
    word_in(Form::Old, (round, from, to), notice(1, layout))
}

pub fn word_in(form: Form, at: (u32, u32, u32), said: Notice) -> Vec<u8> {
    let mut frame = vec![5, at.0 as u8, at.1 as u8, at.2 as u8];
    frame.extend(notice_bytes(form, said));
    digits(&frame)
}

/// The default layout of a site with one radio for all.
pub fn default_line(layout: u16) -> Vec<u8> {
    let [high, low] = layout.to_be_bytes();
    digits(&[9, high, low])
}

/// A word that names no hearer.
pub fn shared_word_line(round: u32, from: u32, layout: u16) -> Vec<u8> {
    let [high, low] = layout.to_be_bytes();
    digits(&[5, round as u8, from as u8, high, low])
}

/// Edition and layout, or the layout alone.
fn notice_bytes(form: Form, said: Notice) -> Vec<u8> {
    match form {
        Form::Old => said.layout.to_be_bytes().to_vec(),
        Form::New => said.frame_bytes().to_vec(),
    }
}

pub fn plan_draft(plan: Plan) -> Draft {
    let mut lines = vec![head_line(&plan)];
    lines.extend(plan.links.iter().map(|&(from, to)| link_line(from, to)));
    let groups = plan.bound.listed();
    lines.extend(groups.iter().map(|group| group_line(number_of(group))));
    Draft {
        plan,
        bad: Set::new(),
        office: Office::old(7),
        rounds: 0,
        lines,
    }
}

/// A run of the plan with a random bad set, an office in either form and random words.
pub fn run_draft(rng: &mut Rng, plan: Plan, rounds: Option<u32>, manner: Manner) -> Draft {
    let office = some_office(rng, rounds.unwrap_or(plan.n - 1));
    office_draft(rng, plan, rounds, manner, office)
}

/// The same with this office.
pub fn office_draft(
    rng: &mut Rng,
    plan: Plan,
    rounds: Option<u32>,
    manner: Manner,
    office: Office,
) -> Draft {
    let share = rng.pick(&[15, 40, 70, 100]);
    let bad = random_bad_set(rng, &plan, share);
    bad_draft(rng, plan, bad, rounds, manner, office)
}

/// The same with this bad set too.
pub fn bad_draft(
    rng: &mut Rng,
    plan: Plan,
    bad: Set,
    rounds: Option<u32>,
    manner: Manner,
    office: Office,
) -> Draft {
    let mut draft = plan_draft(plan);
    draft.bad = bad;
    draft.rounds = rounds.unwrap_or(draft.plan.n - 1);
    draft.lines.push(bad_set_line(number_of(&draft.bad)));
    draft
        .lines
        .push(start_in(office.form, office.start, rounds));
    let later = office.later.iter();
    let later = later.map(|(&round, &later)| notice_line(round, later));
    draft.lines.extend(later);
    draft.office = office;
    let words = words(rng, &draft, manner);
    draft.lines.extend(words);
    draft
}

/// Lines of words, as many as the longest file has room for.
fn words(rng: &mut Rng, draft: &Draft, manner: Manner) -> Vec<Vec<u8>> {
    let share = match manner {
        Manner::Staggered | Manner::Flood => 100,
        _ => rng.pick(&[20, 60, 100]),
    };
    let turn = rng.between(1, 4);
    let rounds = match manner {
        Manner::Once(round) => round..=round,
        _ => 1..=draft.rounds.min(41),
    };
    let links = draft.plan.links.iter().copied();
    let lying: Vec<(u32, u32)> = links.filter(|link| draft.bad.contains(&link.0)).collect();
    let mut lines = Vec::new();
    let all = rounds.flat_map(|round| lying.iter().map(move |&link| (round, link)));
    for (round, (from, to)) in all {
        let at = Saying {
            bad: &draft.bad,
            rounds: draft.rounds,
            turn,
            round,
            from,
            to,
        };
        let word = said(rng, &draft.office, manner, &at).filter(|_| rng.chance(share));
        lines.extend(word.map(|word| word_in(draft.office.form, (round, from, to), word)));
    }
    let line = word_length(draft.office.form);
    let room = LONGEST_FILE.saturating_sub(join(&draft.lines).len()) / line;
    lines.truncate(room);
    lines
}

/// The bytes of a word's line, with its end.
fn word_length(form: Form) -> usize {
    match form {
        Form::Old => 13,
        Form::New => 17,
    }
}

/// A run file of exactly `size` bytes (about 24,576) in which every line is accepted.
pub fn long_run(rng: &mut Rng, size: usize) -> Vec<u8> {
    let mut plan = Plan::new(20, 0, 19);
    let bad: Set = (10..20).collect();
    let groups = rng.pick(&[0, 0, MOST_GROUPS]);
    if groups > 0 {
        plan.bound = Bound::groups(&vec![bad.clone(); groups as usize]);
    }
    let mut office = rng.pick(&[Office::old as fn(u16) -> Office, |layout| {
        Office::new(notice(1, layout))
    }])(7);
    if office.form == Form::New {
        let count = rng.pick(&[0, 1, 40]);
        office.later = (1..=count).map(|r| (r, notice(r as u16 + 1, 7))).collect();
    }
    let mut pairs: Vec<(u32, u32)> = (0..400).map(|place| (place / 20, place % 20)).collect();
    pairs.retain(|(from, to)| from != to);
    rng.shuffle(&mut pairs);
    // Head, bad set and start take 27 or 31 bytes, a link 7, a group 9 and a later notice 13.
    let word = word_length(office.form);
    let others = 27 + 4 * usize::from(office.form == Form::New) + 13 * office.later.len();
    let room = |links: &usize| size - others - 7 * links - 9 * groups as usize;
    let links = (300..380)
        .find(|links| room(links) % word == 0)
        .unwrap_or(300);
    plan.links = pairs[..links].iter().copied().collect();
    let mut places: Vec<(u32, u32, u32)> = (1..=40)
        .flat_map(|round| plan.links.iter().map(move |&(from, to)| (round, from, to)))
        .filter(|(_, from, _)| bad.contains(from))
        .collect();
    rng.shuffle(&mut places);
    let form = office.form;
    let mut lines = bad_draft(rng, plan, bad, Some(40), Manner::Silent, office).lines;
    for &at in places.iter().take(room(&links) / word) {
        let said = notice(1, rng.pick(&[7, 8, 9]));
        lines.push(word_in(form, at, said));
    }
    join(&lines)
}
