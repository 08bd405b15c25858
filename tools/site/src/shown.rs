//! The text form of a plan whose links are in order, with its names and places and a run under it.

use crate::document::Extras;
use crate::frames::{Plan, Run, Word};
use crate::groups::{Group, Limit};
use crate::notice::Later;
use std::collections::BTreeSet;

pub fn plan(plan: &Plan, extras: &Extras) -> String {
    let mut text = String::new();
    if let Some(site) = &extras.site {
        text += &format!("site \"{site}\"\n");
    }
    text += &format!("terminals {}\nsource {}\n", plan.terminals, plan.source);
    text += &match &plan.limit {
        Limit::Bound(bound) => format!("bound {bound}\n"),
        Limit::Groups(groups) => groups.iter().map(group).collect(),
    };
    text += &links(&plan.links);
    for (terminal, name) in &extras.names {
        text += &format!("name {terminal} \"{name}\"\n");
    }
    for (terminal, (across, down)) in &extras.places {
        text += &format!("at {terminal} {across} {down}\n");
    }
    text
}

pub fn group(group: &Group) -> String {
    format!("group{}\n", spaced_or_none(group))
}

/// For each terminal whom it hears and is heard by, once for a pair, and then who only hears it.
pub fn links(links: &[(u8, u8)]) -> String {
    let all: BTreeSet<(u8, u8)> = links.iter().copied().collect();
    let mut text = String::new();
    for sender in 0..=u8::MAX {
        let of = |both: bool| -> Vec<u8> {
            let own = all.iter().filter(|(from, _)| *from == sender);
            own.map(|(_, to)| *to)
                .filter(|to| all.contains(&(*to, sender)) == both)
                .filter(|to| !both || *to > sender)
                .collect()
        };
        text += &line(sender, '-', &of(true));
        text += &line(sender, '>', &of(false));
    }
    text
}

fn line(sender: u8, sign: char, hearers: &[u8]) -> String {
    if hearers.is_empty() {
        return String::new();
    }
    format!("{sender} {sign}{}\n", spaced(hearers))
}

/// Each number after a blank.
fn spaced(numbers: &[u8]) -> String {
    numbers.iter().map(|number| format!(" {number}")).collect()
}

fn spaced_or_none(set: &[u8]) -> String {
    if set.is_empty() {
        return " none".into();
    }
    spaced(set)
}

pub fn run(run: &Run) -> String {
    let bad = spaced_or_none(&run.bad);
    let channel = run.default.map(channel).unwrap_or_default();
    let mut text = format!("{channel}bad{bad}\nvalue {}\n", run.start);
    if run.given {
        text += &format!("rounds {}\n", run.rounds);
    }
    for Later { round, notice } in &run.later {
        text += &format!("round {round}: source issues {notice}\n");
    }
    let alike = |one: &Word, next: &Word| {
        (one.round, one.from, one.notice) == (next.round, next.from, next.notice)
    };
    for words in run.words.chunk_by(alike) {
        let Word {
            round,
            from,
            notice,
            ..
        } = words[0];
        let hearers: Vec<u8> = words.iter().filter_map(|word| word.to).collect();
        let to = match hearers.is_empty() {
            true => String::new(),
            false => format!(" to{}", spaced(&hearers)),
        };
        text += &format!("round {round}: {from} says {notice}{to}\n");
    }
    text
}

fn channel(default: u16) -> String {
    format!("shared channel, default {default}\n")
}
