//! A plan with its verdict, or a run, as an SVG picture.

use crate::ask::Programs;
use crate::channel;
use crate::costs::Costs;
use crate::document::{Document, Extras};
use crate::frames::{Plan, State, Verdict};
use crate::margins::Margins;
use crate::mend::first_way;
use crate::notice::Notice;
use crate::search::Link;
use crate::shapes::Role;
use crate::sheet::{Sheet, Told};
use crate::words;
use crate::Trouble;
use std::collections::BTreeMap;

pub fn draw(document: &Document, mended: bool, programs: &Programs) -> Result<String, Trouble> {
    if document.is_run() && !mended {
        let plan = programs.accepted(document)?;
        let frames = String::from_utf8_lossy(document.frames());
        let told = of_run(document, &programs.states(&frames)?);
        return Ok(Sheet::new(&plan, document, told, Vec::new()).picture());
    }
    let plan = programs.accepted_plan(document)?;
    let verdict = programs.verdict(&plan.to_frames())?;
    let new = if mended {
        first_way(&plan, programs)?
    } else {
        Vec::new()
    };
    let told = Told {
        margins: programs.margins(&plan)?.unwrap_or_default(),
        costs: Costs::of_plan(&plan, programs)?,
        ..of_verdict(document, &plan, &verdict, &new)
    };
    Ok(Sheet::new(&plan, document, told, new).picture())
}

fn of_verdict(document: &Document, plan: &Plan, verdict: &Verdict, new: &[Link]) -> Told {
    let role = |terminal: u8| match terminal {
        one if verdict.bad.contains(&one) => Role::Bad,
        one if verdict.reached.contains(&one) => Role::Reached,
        one if verdict.cut_off.contains(&one) => Role::CutOff,
        _ => Role::Plain,
    };
    let says = match verdict.fails {
        true => "This plan fails",
        false => "This plan passes",
    };
    let why = match (verdict.fails, verdict.bad.is_empty()) {
        (false, _) => "No bad set keeps a good terminal waiting.",
        (true, true) => "Even with no bad terminal, the cut-off ones wait for ever.",
        (true, false) => "If the bad ones only stay silent, the cut-off ones wait for ever.",
    };
    let then = match new {
        [] => "",
        _ => " With the dashed links it passes.",
    };
    Told {
        good: !verdict.fails,
        says: says.into(),
        why: format!("{why}{then}"),
        roles: (0..plan.terminals).map(role).collect(),
        legend: legend_of(&document.extras, verdict),
        beside: BTreeMap::new(),
        default: None,
        margins: Margins::default(),
        costs: None,
    }
}

fn legend_of(extras: &Extras, verdict: &Verdict) -> Vec<(Role, String)> {
    if !verdict.fails {
        let good = "a terminal: the notice reaches it if it is good";
        return vec![(Role::Plain, good.into())];
    }
    let row =
        |role: Role, name: &str, set: &[u8]| (role, format!("{name}: {}", extras.listed(set)));
    vec![
        row(Role::Bad, "F, bad", &verdict.bad),
        row(Role::Reached, "L, reached", &verdict.reached),
        row(Role::CutOff, "R, cut off", &verdict.cut_off),
    ]
}

/// Who has the source's last notice after the last round, and since when; and who has an older one.
/// Of a bad source it is what it said in round 1, or the default.
fn of_run(document: &Document, states: &[(u8, State)]) -> Told {
    let run = words::run_of(document);
    let source = document.plan().source;
    let (last, carried) = (run.last_issued(), run.carried(source));
    let role = |state: &State| role_of(*state, carried);
    let of = |wanted: Role| -> Vec<u8> {
        let those = states.iter().filter(|(_, state)| role(state) == wanted);
        those.map(|(terminal, _)| *terminal).collect()
    };
    let row = |role: Role, name: String| {
        let words = format!("{name}: {}", document.extras.listed(&of(role)));
        (role, words)
    };
    let (taken, older, waiting) = (of(Role::Reached), of(Role::Plain), of(Role::CutOff));
    let good = taken.len() + older.len() + waiting.len();
    let (took, is) = match last.notice.edition {
        Some(_) => (
            "have the last notice",
            format!("last notice is layout {carried}, of round {}", last.round),
        ),
        None => ("took a layout", format!("layout is {carried}")),
    };
    let after = words::rounds(run.rounds);
    let good_source = || format!("The source's {is}, after {after}.");
    let mut legend = vec![
        row(Role::Bad, "bad".into()),
        row(
            Role::Reached,
            format!("took layout {carried}, beside it when"),
        ),
        row(Role::CutOff, "waiting".into()),
    ];
    if !older.is_empty() {
        legend.insert(
            2,
            row(Role::Plain, "took an older notice, beside it which".into()),
        );
    }
    Told {
        good: taken.len() == good,
        says: format!("A run: {} of {good} good terminals {took}", taken.len()),
        why: channel::bad_source(&run, source).unwrap_or_else(good_source),
        roles: states.iter().map(|(_, state)| role(state)).collect(),
        legend,
        beside: states.iter().filter_map(since(carried)).collect(),
        default: run.default,
        margins: Margins::default(),
        costs: None,
    }
}

/// When a terminal took, and what, where it is not the source's last notice.
fn since(last: Notice) -> impl Fn(&(u8, State)) -> Option<(u8, String)> {
    move |(terminal, state)| match state {
        State::Taken { round, notice } if *notice == last => {
            Some((*terminal, format!("round {round}")))
        }
        State::Taken { round, notice } => Some((*terminal, format!("{notice} in round {round}"))),
        _ => None,
    }
}

fn role_of(state: State, last: Notice) -> Role {
    match state {
        State::Waiting => Role::CutOff,
        State::Taken { notice, .. } if notice == last => Role::Reached,
        State::Taken { .. } => Role::Plain,
        State::Bad => Role::Bad,
    }
}
