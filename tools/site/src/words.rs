//! Answers in words for a person.

use crate::ask::Programs;
use crate::document::{Document, Extras};
use crate::frames::{self, Plan, Refusal, Run, State, Verdict, DEAF, EDITION, GROUPS, TOO_MANY};
use crate::groups::{self, Limit};
use crate::notice::Later;
use crate::{channel, Trouble};

/// The lines under a verdict's frame. How fast a notice is when nobody lies is asked of `run`.
pub fn of_verdict(
    document: &Document,
    verdict: &Verdict,
    programs: &Programs,
) -> Result<Vec<String>, Trouble> {
    let plan = document.plan();
    if verdict.fails {
        return Ok(failed(&plan, &document.extras, verdict));
    }
    let run = Run::plain(plan.terminals - 1);
    let states = programs.states(&(plan.to_frames() + &run.to_frames()))?;
    let mut lines = vec![
        format!(
            "pass: whatever a bad set says, every good terminal has the source's layout after {} (n-1)",
            rounds(plan.terminals - 1)
        ),
        format!(
            "if nobody is bad, the last one has it after {}",
            rounds(last_take(&states))
        ),
    ];
    lines.extend(groups::relied_on(&plan, &document.extras));
    Ok(lines)
}

pub fn rounds(count: u8) -> String {
    match count {
        1 => "1 round".to_string(),
        more => format!("{more} rounds"),
    }
}

/// The round in which the last of them took.
pub fn last_take(states: &[(u8, State)]) -> u8 {
    let round = |(_, state): &(u8, State)| match state {
        State::Taken { round, .. } => *round,
        _ => 0,
    };
    states.iter().map(round).max().unwrap_or(0)
}

fn failed(plan: &Plan, extras: &Extras, verdict: &Verdict) -> Vec<String> {
    let why = if verdict.bad.is_empty() {
        "fail: even with no bad terminal, the cut-off ones wait for ever"
    } else {
        "fail: if the bad ones only stay silent, the cut-off ones wait for ever"
    };
    let mut lines = vec![
        why.to_string(),
        format!("bad (F): {}", extras.listed(&verdict.bad)),
        format!("reached (L): {}", extras.listed(&verdict.reached)),
        format!("cut off (R): {}", extras.listed(&verdict.cut_off)),
    ];
    for &terminal in &verdict.cut_off {
        lines.push(short_of(plan, extras, verdict, terminal));
    }
    if !verdict.bad.is_empty() {
        lines.extend(why_bad(plan, &verdict.bad));
    }
    lines
}

/// Why the least witness is a bad set at all.
fn why_bad(plan: &Plan, bad: &[u8]) -> Option<String> {
    match &plan.limit {
        Limit::Bound(bound) => Some(format!(
            "the bound, {bound}, counts the bad ones that one good terminal hears, not those of the site ({})",
            bad.len()
        )),
        Limit::Groups(groups) => groups::bad_part(groups, bad),
    }
}

/// Which reached neighbours a cut-off terminal hears, and what it would need.
fn short_of(plan: &Plan, extras: &Extras, verdict: &Verdict, terminal: u8) -> String {
    let heard = plan.heard_by(terminal);
    let called = extras.called(terminal);
    if heard.is_empty() {
        let needs = needs_reached(&plan.limit);
        return format!("terminal {called} hears nobody and needs {needs}, or the source");
    }
    let reached: Vec<u8> = heard
        .into_iter()
        .filter(|one| verdict.reached.contains(one))
        .collect();
    let whom = match reached.len() {
        0 => "no reached terminal".to_string(),
        1 => format!("1 reached terminal ({})", reached[0]),
        more => format!("{more} reached terminals ({})", plain(&reached)),
    };
    let short = match &plan.limit {
        Limit::Bound(bound) => format!(" and needs {}", bound + 1),
        Limit::Groups(groups) => groups::short_of(groups, &reached),
    };
    format!("terminal {called} hears {whom}{short}, or the source")
}

fn needs_reached(limit: &Limit) -> String {
    match limit {
        Limit::Bound(0) => "1 reached terminal".into(),
        Limit::Bound(bound) => format!("{} reached terminals", bound + 1),
        Limit::Groups(_) => "reached terminals who together fit in no group".into(),
    }
}

fn plain(terminals: &[u8]) -> String {
    Extras::default().listed(terminals)
}

/// The lines under a run's frames.
pub fn of_states(document: &Document, states: &[(u8, State)]) -> Vec<String> {
    let run = run_of(document);
    let played = match run.given {
        true => format!("{} played, as given", rounds(run.rounds)),
        false => format!("{} played: n-1, since none are given", rounds(run.rounds)),
    };
    let plan = document.plan();
    let source = plan.source;
    let line = |(number, state): &(u8, State)| {
        let called = document.extras.called(*number);
        let source = if *number == source {
            ", the source"
        } else {
            ""
        };
        match state {
            State::Waiting => format!("terminal {called}{source}: waiting"),
            State::Bad => format!("terminal {called}{source}: bad"),
            State::Taken { round, notice } => {
                format!("terminal {called}{source}: took layout {notice} in round {round}")
            }
        }
    };
    [played]
        .into_iter()
        .chain(last_notice(&plan, &run))
        .chain(channel::told(document, &run, states))
        .chain(states.iter().map(line))
        .collect()
}

/// Of a run with editions: how long the source's last notice has had, and what it may need.
fn last_notice(plan: &Plan, run: &Run) -> Option<String> {
    let Later { round, notice } = run.last_issued();
    notice.edition?;
    Some(format!(
        "the source's last notice is layout {notice}, of round {round}: {} played after it, and a plan that passes needs at most {} (n-1)",
        rounds(run.rounds - round),
        plan.terminals - 1
    ))
}

/// A line of the file as it stands there, the start of it where it is long.
pub fn line_of(file: &[u8], line: usize) -> String {
    let line = file.split(|&byte| byte == b'\n').nth(line - 1);
    match line.unwrap_or_default() {
        long if long.len() > 40 => format!("{}...", long[..40].escape_ascii()),
        line => line.escape_ascii().to_string(),
    }
}

/// The specification's table of causes, and the requests' after it, where they speak of files.
/// Three rows name a whole-file part, line 0, and the words follow the line.
pub fn cause(refusal: &Refusal) -> &'static str {
    match (refusal.cause, refusal.line) {
        (1, 0) => "file empty or too long",
        (1, _) => "foreign character, empty line, odd digits, no line end",
        (2, _) => "unknown kind, one this program lacks, wrong length, or not of the start's form or the channel's",
        (3, 0) => "03 or 04 missing at the end",
        (3, _) => "frame out of order; 01, 03, 04 or 09 repeated; rounds of 08 that do not rise",
        (4, _) => "n, source or f out of range",
        (5, _) => "link end at or above n, or to itself",
        (6, _) => "link given twice",
        (7, _) => "bad set names the source, where no channel is shared, or a number at or above n",
        (8, _) => "a good terminal hears more than f of it, or it is part of no group",
        (9, _) => "value, layout or default 0, or rounds above 40",
        (10, _) => {
            "word with round 0 or past the last, no such link, good sender, value or edition 0"
        }
        (11, _) => "second word on one link, or on a shared channel of one sender, in one round",
        (TOO_MANY, _) => "n above 12, at the quoting desk",
        (DEAF, _) => "a terminal other than the source hears nobody",
        (EDITION, _) => "edition 0, or not above the source's last",
        (GROUPS, 0) => "no group, where the head has ff for f",
        (GROUPS, _) => "more than 16 groups, or one naming the source or a number at or above n",
        _ => "a cause that files do not have",
    }
}

/// One line for each, ended.
pub fn ended(lines: &[String]) -> String {
    lines.iter().map(|line| format!("{line}\n")).collect()
}

/// The run of a document that the program has accepted.
pub fn run_of(document: &Document) -> Run {
    frames::run(document.frames())
}
