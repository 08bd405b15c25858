//! "What if these die": may they be bad together, and whom does their silence cut off? Asked of
//! the proved `run`, with that bad set, no words, and more rounds than any notice needs. Where the
//! plan has a deaf terminal, `run` is asked of one that has none (deaf.rs).

use crate::ask::Programs;
use crate::deaf::Hearing;
use crate::document::Document;
use crate::frames::{Answer, Plan, Refusal, Run, State, MOST_ROUNDS};
use crate::groups::{self, Limit};
use crate::reason::{self, with_and};
use crate::{words, Told, Trouble};
use std::collections::BTreeSet;

const NOT_ALLOWED: u8 = 1;
const CUTS_OFF: u8 = 3;

pub fn with_bad(
    document: &Document,
    terminals: &[String],
    programs: &Programs,
) -> Result<Told, Trouble> {
    let bad = numbers(terminals)?;
    let plan = programs.accepted_plan(document)?;
    let hearing = Hearing::of(&plan, &bad);
    let run = Run {
        bad: bad.clone(),
        ..Run::plain(MOST_ROUNDS)
    };
    let run = run.to_frames();
    let who = with_and(&bad);
    let asked = hearing.plan.to_frames() + &run;
    match programs.ask("run", asked.as_bytes())?.1 {
        Answer::Terminals(states) => {
            let may = format!("{who} may be bad: {}\n", why_allowed(&plan.limit, &bad));
            Ok(silent(document, may, &hearing.states(states)))
        }
        Answer::Refused(refusal) => Ok(not_allowed(&plan, &run, &who, refusal.cause)),
        _ => Err(Trouble::Broken("'run' gave no states".into())),
    }
}

fn why_allowed(limit: &Limit, bad: &[u8]) -> String {
    match limit {
        Limit::Bound(bound) => {
            format!("no good terminal hears more than {bound} of the bad ones")
        }
        Limit::Groups(groups) => groups::may_be_bad(groups, bad),
    }
}

/// Why is found on the user's own plan, where the bad set is the line after it.
fn not_allowed(plan: &Plan, run: &str, who: &str, cause: u8) -> Told {
    let plan = plan.to_frames();
    let line = plan.lines().count() + 1;
    let file = plan + run;
    let refusal = Refusal { cause, line };
    let why = reason::find(file.as_bytes(), "run", &refusal, &|line| line);
    let why = why.map_or_else(|| words::cause(&refusal).to_string(), |why| why.whole());
    Told {
        text: format!("no: {who} may not be bad: {why} (cause {cause})\n"),
        status: NOT_ALLOWED,
    }
}

/// Ascending, each once. A bad set has 24 bits; which of them are terminals is the program's to say.
fn numbers(terminals: &[String]) -> Result<Vec<u8>, Trouble> {
    let mut numbers = BTreeSet::new();
    for word in terminals {
        match word.parse::<u8>() {
            Ok(number) if number < 24 => numbers.insert(number),
            _ => {
                let why = format!("'{word}' is no terminal: they are 0 to 19 at most");
                return Err(Trouble::Broken(why));
            }
        };
    }
    Ok(numbers.into_iter().collect())
}

fn silent(document: &Document, may: String, states: &[(u8, State)]) -> Told {
    let waiting: Vec<u8> = states
        .iter()
        .filter(|(_, state)| *state == State::Waiting)
        .map(|(terminal, _)| *terminal)
        .collect();
    let (then, status) = if waiting.is_empty() {
        let last = words::rounds(words::last_take(states));
        (
            format!("if they stay silent, all others have the notice after {last}\n"),
            0,
        )
    } else {
        let listed = document.extras.listed(&waiting);
        (
            format!("if they stay silent, these wait for ever: {listed}\n"),
            CUTS_OFF,
        )
    };
    Told {
        text: may + &then,
        status,
    }
}
