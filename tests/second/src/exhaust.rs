//! The whole space of sites with three terminals: every plan with f, with one group or with two
//! different ones, every bad set and script of two or three rounds. The liars say other values in
//! other rounds as they like. Where f is the bound, the same with a later notice in round 1, of which
//! the liars may know before.

use crate::faults::Fault;
use crate::groups::Bound;
use crate::notice::{notice, Notice};
use crate::plan::{number_of, Plan, Set};
use crate::run::{run, Order};
use crate::step::{Record, State};
use crate::verdict::{is_bad_set, verdict, witness_check, Verdict};

pub(crate) const TERMINALS: u32 = 3;
pub(crate) const ROUNDS: u32 = TERMINALS - 1;
const SILENT_ROUNDS: u32 = 10;
const START: Notice = notice(1, 7);
/// A smaller layout than the true one: where both had enough votes it would be taken.
const LIE: Notice = notice(1, 3);
const GREATER_LIE: Notice = notice(1, 9);
/// The later notice, a lie in its edition, and one in an edition that is never issued.
const LATER: Notice = notice(2, 5);
const LATER_LIE: Notice = notice(2, 3);
const HIGHEST_LIE: Notice = notice(3, 5);

/// What the office says, and the words of the liars, silence first.
struct Script {
    later: Option<Notice>,
    words: [u32; 4],
}

const ONE_NOTICE: Script = Script {
    later: None,
    words: [0, START.number(), LIE.number(), GREATER_LIE.number()],
};
const TWO_NOTICES: Script = Script {
    later: Some(LATER),
    words: [0, LATER.number(), LATER_LIE.number(), HIGHEST_LIE.number()],
};

#[derive(Clone, Copy, Debug, Default, PartialEq, Eq)]
pub struct Totals {
    pub plans: u64,
    pub failing: u64,
    pub bad_sets: u64,
    pub runs: u64,
}

/// Plays the whole space; a violation is told with the plan it was found on.
pub fn exhaust(fault: Fault) -> Result<Totals, String> {
    every_plan(check_plan, fault)
}

/// What is checked of one plan.
type Check = fn(&Plan, &mut Totals, Fault) -> Result<(), String>;

/// The check on every plan of three terminals.
pub(crate) fn every_plan(check: Check, fault: Fault) -> Result<Totals, String> {
    let mut totals = Totals::default();
    for bound in all_bounds() {
        for links in subsets(&all_links()) {
            let mut plan = Plan::with(TERMINALS, 0, bound.clone());
            plan.links = links.into_iter().collect();
            check(&plan, &mut totals, fault).map_err(|what| format!("{what}: {plan:?}"))?;
        }
    }
    Ok(totals)
}

/// Every f, every group, and every two different groups in either order.
fn all_bounds() -> Vec<Bound> {
    let groups: Vec<Set> = subsets(&[1, 2])
        .into_iter()
        .map(|members| members.into_iter().collect())
        .collect();
    let mut bounds: Vec<Bound> = (0..TERMINALS).map(Bound::f).collect();
    for one in &groups {
        bounds.push(Bound::groups(std::slice::from_ref(one)));
        let others = groups.iter().filter(|other| *other != one);
        bounds.extend(others.map(|other| Bound::groups(&[one.clone(), other.clone()])));
    }
    bounds
}

fn all_links() -> Vec<(u32, u32)> {
    let pairs = (0..TERMINALS).flat_map(|from| (0..TERMINALS).map(move |to| (from, to)));
    pairs.filter(|(from, to)| from != to).collect()
}

pub(crate) fn subsets<T: Copy>(list: &[T]) -> Vec<Vec<T>> {
    let Some((first, rest)) = list.split_first() else {
        return vec![Vec::new()];
    };
    let without = subsets(rest);
    let with = without
        .iter()
        .map(|subset| [&[*first], &subset[..]].concat());
    with.chain(without.iter().cloned()).collect()
}

fn check_plan(plan: &Plan, totals: &mut Totals, fault: Fault) -> Result<(), String> {
    totals.plans += 1;
    let answer = verdict(plan, fault).map_err(|cause| format!("verdict refused {cause:?}"))?;
    // A round more shows what liars can do who change their words, which is one with groups or f.
    let lengths: &[u32] = match plan.bound.has_groups() {
        false => &[ROUNDS, ROUNDS + 1],
        true => &[ROUNDS],
    };
    let mut someone_waits = vec![false; lengths.len()];
    let mut someone_lacks_later = false;
    let mut least: Option<(usize, u32)> = None;
    for bad in subsets(&[1, 2]) {
        let bad: Set = bad.into_iter().collect();
        if is_bad_set(plan, &bad, fault) != Ok(true) {
            continue;
        }
        totals.bad_sets += 1;
        for (waits, rounds) in someone_waits.iter_mut().zip(lengths) {
            *waits |= play_scripts(plan, &bad, *rounds, &ONE_NOTICE, totals, fault)?;
        }
        if !plan.bound.has_groups() {
            // A round more, since the last notice is issued in round 1.
            let late = play_scripts(plan, &bad, ROUNDS + 1, &TWO_NOTICES, totals, fault)?;
            someone_lacks_later |= late;
        }
        if !silent_waiting(plan, &bad, ROUNDS, &ONE_NOTICE, totals, fault)?.is_empty() {
            let key = (bad.len(), number_of(&bad));
            least = Some(least.map_or(key, |other| other.min(key)));
        }
    }
    if someone_waits.iter().any(|&waits| waits != answer.fails) {
        return Err("the verdict differs from what the runs show".to_string());
    }
    if someone_lacks_later && !answer.fails {
        return Err("the later notice does not get round in a passed plan".to_string());
    }
    if answer.fails {
        totals.failing += 1;
        check_witness(plan, &answer, least, totals, fault)?;
    }
    Ok(())
}

/// The witness is the least bad set whose silence keeps someone waiting, and its R are
/// those who wait, however long the run.
fn check_witness(
    plan: &Plan,
    answer: &Verdict,
    least: Option<(usize, u32)>,
    totals: &mut Totals,
    fault: Fault,
) -> Result<(), String> {
    let Verdict {
        bad, reached, left, ..
    } = answer;
    if witness_check(plan, bad, reached, left, fault) != Ok(true) {
        return Err("the witness doesn't pass its check".to_string());
    }
    if least != Some((answer.bad.len(), number_of(&answer.bad))) {
        return Err("the witness isn't the least one".to_string());
    }
    for rounds in 0..=SILENT_ROUNDS {
        let waiting = silent_waiting(plan, &answer.bad, rounds, &ONE_NOTICE, totals, fault)?;
        let later = silent_waiting(plan, &answer.bad, rounds, &TWO_NOTICES, totals, fault)?;
        let at_least = waiting.is_superset(&answer.left) && later.is_superset(&answer.left);
        let right = at_least && (rounds < ROUNDS || waiting == answer.left);
        if !right {
            return Err(format!(
                "{rounds} silent rounds leave {waiting:?} waiting, not R"
            ));
        }
    }
    Ok(())
}

/// Every script on the links from bad senders to good hearers; true if some leaves a good
/// terminal without the last notice.
fn play_scripts(
    plan: &Plan,
    bad: &Set,
    rounds: u32,
    script: &Script,
    totals: &mut Totals,
    fault: Fault,
) -> Result<bool, String> {
    let places: Vec<usize> = (0..rounds)
        .flat_map(|round| plan.links.iter().map(move |&(from, to)| (round, from, to)))
        .filter(|(_, from, to)| bad.contains(from) && !bad.contains(to))
        .map(|(round, from, to)| ((round * TERMINALS + from) * TERMINALS + to) as usize)
        .collect();
    let mut words = vec![0; (rounds * TERMINALS * TERMINALS) as usize];
    let last = script.later.unwrap_or(START);
    let mut someone_lacks = false;
    loop {
        totals.runs += 1;
        for (terminal, state) in good_states(plan, bad, &words, rounds, script, fault)? {
            if !was_issued(terminal == plan.source, state, script) {
                return Err(format!("{terminal} is {state:?}, bad set {bad:?}"));
            }
            someone_lacks |= !matches!(state, State::Taken(_, held) if held == last);
        }
        if !next_script(&mut words, &places, script) {
            return Ok(someone_lacks);
        }
    }
}

/// Whether the office had issued by then what is held: the source has it at once, the others in a
/// later round.
fn was_issued(source: bool, state: State, script: &Script) -> bool {
    let early = u32::from(!source);
    match state {
        State::Waiting => !source,
        State::Taken(round, START) => round >= early,
        State::Taken(round, held) => script.later == Some(held) && round > early,
    }
}

/// Counts the words on. False after the last script.
fn next_script(words: &mut [u32], places: &[usize], script: &Script) -> bool {
    for &place in places {
        let known = script.words.iter().position(|&word| word == words[place]);
        let next = (known.unwrap_or(0) + 1) % script.words.len();
        words[place] = script.words[next];
        if words[place] != 0 {
            return true;
        }
    }
    false
}

fn good_states(
    plan: &Plan,
    bad: &Set,
    words: &[u32],
    rounds: u32,
    script: &Script,
    fault: Fault,
) -> Result<Vec<(u32, State)>, String> {
    let records = play(plan, bad, words, rounds, script, fault)?;
    let good = (0..TERMINALS).filter(|terminal| !bad.contains(terminal));
    Ok(good
        .map(|terminal| (terminal, records[terminal as usize].state))
        .collect())
}

fn play(
    plan: &Plan,
    bad: &Set,
    words: &[u32],
    rounds: u32,
    script: &Script,
    fault: Fault,
) -> Result<Vec<Record>, String> {
    let mut records = vec![Record::waiting(); TERMINALS as usize];
    let mut later = vec![0; rounds as usize];
    if let (Some(first), Some(notice)) = (later.first_mut(), script.later) {
        *first = notice.number();
    }
    let order = Order {
        plan,
        bad,
        start: START,
        rounds,
        later: &later,
        words,
    };
    run(&order, &mut records, fault).map_err(|cause| format!("run refused {cause:?}"))?;
    Ok(records)
}

/// The good terminals that wait after a run in which all liars are silent.
fn silent_waiting(
    plan: &Plan,
    bad: &Set,
    rounds: u32,
    script: &Script,
    totals: &mut Totals,
    fault: Fault,
) -> Result<Set, String> {
    totals.runs += 1;
    let silence = vec![0; (rounds * TERMINALS * TERMINALS) as usize];
    let records = play(plan, bad, &silence, rounds, script, fault)?;
    let waits = |terminal: &u32| {
        !bad.contains(terminal) && records[*terminal as usize].state == State::Waiting
    };
    Ok((0..TERMINALS).filter(waits).collect())
}
