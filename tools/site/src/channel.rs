//! One radio channel that all share, kind 09 with its default layout: a word reaches all who hear
//! its sender alike, and the source may be bad. In round 1 whoever hears the source takes its word, or
//! the default layout if it says none.

use crate::document::Document;
use crate::frames::{Run, State};
use crate::groups::Limit;
use crate::notice::Notice;
use crate::reason::{plainly, Reason, Scene};
use crate::words;
use std::collections::BTreeSet;

/// Out of order by its place.
pub fn misplaced(scene: &Scene) -> Option<Reason> {
    if scene.run.default.is_some() {
        return plainly("a second shared channel: 09 stands once");
    }
    plainly("a shared channel, 09, stands just before the bad set, 03")
}

/// What a bad set is held to that has the source.
pub fn others_must(limit: &Limit) -> &'static str {
    match limit {
        Limit::Bound(_) => "without the source the bad set must keep the bound, at the source too",
        Limit::Groups(_) => "without the source the bad set must be part of one group",
    }
}

/// Under a run's frames: the channel, the source, and whether the good ones agree.
pub fn told(document: &Document, run: &Run, states: &[(u8, State)]) -> Vec<String> {
    let Some(default) = run.default else {
        return Vec::new();
    };
    let source = document.plan().source;
    vec![
        format!("one radio channel is shared by all, so a word reaches all who hear its sender; the default layout is {default}"),
        said(run, source, default),
        agreement(document, states),
    ]
}

fn said(run: &Run, source: u8, default: u16) -> String {
    if !run.bad.contains(&source) {
        return format!("the source is good: its layout is {}", run.start);
    }
    match (run.first_word_of(source), run.rounds) {
        (_, 0) => "the source is bad, and no round was played".into(),
        (Some(word), _) => {
            format!("the source is bad: it said {word} in round 1, and the good ones that hear it took that")
        }
        (None, _) => format!(
            "the source is bad: it said nothing in round 1, and the good ones that hear it took the default, {default}"
        ),
    }
}

/// As the states are, and not as they must be.
fn agreement(document: &Document, states: &[(u8, State)]) -> String {
    let taken = |(_, state): &(u8, State)| match state {
        State::Taken { notice, .. } => Some(*notice),
        _ => None,
    };
    let held: Vec<Notice> = states.iter().filter_map(taken).collect();
    let waiting: Vec<u8> = states
        .iter()
        .filter(|(_, state)| *state == State::Waiting)
        .map(|(terminal, _)| *terminal)
        .collect();
    let good = held.len() + waiting.len();
    let layouts: BTreeSet<Notice> = held.iter().copied().collect();
    let have = match layouts.iter().collect::<Vec<_>>()[..] {
        [] if good == 0 => return "no terminal is good".into(),
        [] => "no good terminal has a layout".into(),
        [one] => format!(
            "the good terminals agree: {} of {good} have layout {one}",
            held.len()
        ),
        _ => "the good terminals DO NOT AGREE".into(),
    };
    match waiting.is_empty() {
        true => have,
        false => format!("{have}; waiting: {}", document.extras.listed(&waiting)),
    }
}

/// In a trace, what the source is at the start.
pub fn at_the_start(document: &Document, run: &Run) -> Vec<String> {
    let Some(default) = run.default else {
        return Vec::new();
    };
    let source = document.plan().source;
    let mut told = vec![format!("one shared channel, default {default}")];
    if run.bad.contains(&source) {
        let called = document.extras.called(source);
        told.push(format!("{called}, the source, is bad"));
    }
    told
}

/// In a trace, a source that says nothing when its word is waited for.
pub fn silence(document: &Document, run: &Run, round: usize) -> Option<String> {
    let (default, source) = (run.default?, document.plan().source);
    let silent = run.bad.contains(&source) && run.first_word_of(source).is_none();
    (silent && round == 1).then(|| {
        let called = document.extras.called(source);
        format!("bad {called}, the source, says nothing: the default is {default}")
    })
}

/// Under the heading of a picture, where the source is bad.
pub fn bad_source(run: &Run, source: u8) -> Option<String> {
    if !run.bad.contains(&source) {
        return None;
    }
    let said = match (run.first_word_of(source), run.rounds) {
        (_, 0) => String::new(),
        (Some(word), _) => format!(" and said {word} in round 1"),
        (None, _) => " and said nothing in round 1".into(),
    };
    let after = words::rounds(run.rounds);
    Some(format!("After {after}; the source is bad{said}."))
}
