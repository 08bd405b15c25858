//! Who took what in which round: the proved `run` is asked for 0, 1, 2, .. rounds of the same run.

use crate::ask::Programs;
use crate::channel;
use crate::document::Document;
use crate::frames::{Run, State};
use crate::notice::Notice;
use crate::words;
use crate::Trouble;
use std::collections::BTreeMap;

/// The states after each round, from round 0.
type Course = Vec<Vec<(u8, State)>>;

pub fn trace(document: &Document, csv: bool, programs: &Programs) -> Result<String, Trouble> {
    if !document.is_run() {
        let why = "a plan without a run: 'trace' wants 'value' (and 'bad', 'rounds', 'round') under the plan";
        return Err(Trouble::Refused(why.into()));
    }
    programs.accepted(document)?;
    let run = words::run_of(document);
    let course = course(document, &run, programs)?;
    Ok(if csv {
        table(&run, &course)
    } else {
        story(document, &run, &course)
    })
}

fn course(document: &Document, run: &Run, programs: &Programs) -> Result<Course, Trouble> {
    let plan = document.plan().to_frames();
    let after = |rounds: u8| {
        let so_far = Run {
            rounds,
            ..run.clone()
        };
        programs.states(&(plan.clone() + &so_far.to_frames()))
    };
    (0..=run.rounds).map(after).collect()
}

/// Editions come last, so that the other columns stand where they stand without them.
fn table(run: &Run, course: &Course) -> String {
    let (column, none) = match run.start.edition {
        Some(_) => (",edition", ","),
        None => ("", ""),
    };
    let mut text = format!("round,terminal,state,taken_in,value{column}\n");
    for (round, states) in course.iter().enumerate() {
        for (terminal, state) in states {
            text += &match state {
                State::Waiting => format!("{round},{terminal},waiting,,{none}\n"),
                State::Bad => format!("{round},{terminal},bad,,{none}\n"),
                State::Taken { round: at, notice } => {
                    let edition = notice.edition.map(|edition| format!(",{edition}"));
                    let edition = edition.unwrap_or_default();
                    let layout = notice.layout;
                    format!("{round},{terminal},taken,{at},{layout}{edition}\n")
                }
            };
        }
    }
    text
}

fn story(document: &Document, run: &Run, course: &Course) -> String {
    let mut text = String::new();
    for (round, states) in course.iter().enumerate() {
        let mut events: Vec<String> = channel::silence(document, run, round).into_iter().collect();
        events.extend(lies(document, run, round));
        match round.checked_sub(1) {
            None => {
                events.extend(channel::at_the_start(document, run));
                events.extend(has(document, states));
            }
            Some(last) => {
                let changes = changes(states, &course[last]);
                events.extend(takes(document, &changes));
                events.extend(issues(document, &changes));
            }
        }
        text += &format!("round {round}: {}\n", events.join("; "));
    }
    text + &summary(document, run, &course[course.len() - 1])
}

/// What the bad ones say, words alike together; on a shared channel without their hearers.
fn lies(document: &Document, run: &Run, round: usize) -> Vec<String> {
    let mut said: BTreeMap<(u8, Notice), Vec<u8>> = BTreeMap::new();
    for word in &run.words {
        if usize::from(word.round) == round {
            let hearers = said.entry((word.from, word.notice)).or_default();
            hearers.extend(word.to);
        }
    }
    let (extras, source) = (&document.extras, document.plan().source);
    said.into_iter()
        .map(|((from, notice), hearers)| {
            let called = extras.called(from);
            let is = if from == source { ", the source," } else { "" };
            let to = match run.default {
                Some(_) => String::new(),
                None => format!(" to {}", extras.listed(&hearers)),
            };
            format!("bad {called}{is} says {notice}{to}")
        })
        .collect()
}

/// Who has a notice at the start: the source.
fn has(document: &Document, states: &[(u8, State)]) -> Vec<String> {
    let called = |terminal: u8| document.extras.called(terminal);
    let has = |(terminal, state): &(u8, State)| match state {
        State::Taken { notice, .. } => {
            Some(format!("{}, the source, has {notice}", called(*terminal)))
        }
        _ => None,
    };
    states.iter().filter_map(has).collect()
}

/// Who has a notice now and had none, or another, before.
fn changes(states: &[(u8, State)], before: &[(u8, State)]) -> Vec<(u8, Notice)> {
    let both = states.iter().zip(before);
    both.filter_map(|((terminal, now), (_, before))| match now {
        State::Taken { notice, .. } if now != before => Some((*terminal, *notice)),
        _ => None,
    })
    .collect()
}

fn takes(document: &Document, changes: &[(u8, Notice)]) -> Vec<String> {
    let source = document.plan().source;
    let others = changes.iter().filter(|(terminal, _)| *terminal != source);
    let takes: Vec<String> = others
        .map(|(terminal, notice)| {
            let called = document.extras.called(*terminal);
            format!("{called} takes {notice}")
        })
        .collect();
    match takes.is_empty() {
        true => vec!["nobody takes".into()],
        false => takes,
    }
}

/// The source takes by itself, once the others have taken in this round.
fn issues(document: &Document, changes: &[(u8, Notice)]) -> Option<String> {
    let source = document.plan().source;
    let (_, notice) = changes.iter().find(|(terminal, _)| *terminal == source)?;
    let called = document.extras.called(source);
    Some(format!("{called}, the source, issues {notice}"))
}

/// Who has what in the end.
fn summary(document: &Document, run: &Run, states: &[(u8, State)]) -> String {
    let of = |wanted: &dyn Fn(&State) -> bool| -> Vec<u8> {
        let those = states.iter().filter(|(_, state)| wanted(state));
        those.map(|(terminal, _)| *terminal).collect()
    };
    let taken = of(&|state| matches!(state, State::Taken { .. }));
    let waiting = of(&|state| matches!(state, State::Waiting));
    let good = taken.len() + waiting.len();
    let have = match run.start.edition {
        Some(_) => with_editions(document, run, states, good),
        None => without_editions(run.carried(document.plan().source), states, &taken, good),
    };
    format!(
        "after {}: {have}; waiting: {}; bad: {}\n",
        words::rounds(run.rounds),
        document.extras.listed(&waiting),
        document.extras.listed(&run.bad)
    )
}

/// What is carried is all that a good one may have; a bad source has none itself.
fn without_editions(carried: Notice, states: &[(u8, State)], taken: &[u8], good: usize) -> String {
    let other = states
        .iter()
        .any(|(_, state)| matches!(state, State::Taken { notice, .. } if *notice != carried));
    let layout = match (other, taken) {
        (true, _) => "a layout, NOT ALL THE SAME".into(),
        (false, []) => return format!("0 of {good} good terminals have a layout"),
        (false, _) => format!("layout {carried}"),
    };
    format!(
        "{} of {good} good terminals have {layout}, the last since round {}",
        taken.len(),
        words::last_take(states)
    )
}

/// Those with the source's last notice, and then those with others, the newest first.
fn with_editions(document: &Document, run: &Run, states: &[(u8, State)], good: usize) -> String {
    let last = run.last_issued().notice;
    let mut held: BTreeMap<Notice, Vec<(u8, State)>> = BTreeMap::new();
    for &(terminal, state) in states {
        if let State::Taken { notice, .. } = state {
            held.entry(notice).or_default().push((terminal, state));
        }
    }
    let newest = held.remove(&last).unwrap_or_default();
    let mut text = format!(
        "{} of {good} good terminals have the source's last notice, {last}, the last of them since round {}",
        newest.len(),
        words::last_take(&newest)
    );
    for (notice, those) in held.iter().rev() {
        let terminals: Vec<u8> = those.iter().map(|(terminal, _)| *terminal).collect();
        let listed = document.extras.listed(&terminals);
        text += &format!("; still with {notice}: {listed}");
    }
    text
}
