//! The whole space of sites with three terminals and one radio for all: every plan, every bad set, with
//! the source or without it, and every script of two rounds over silence, a smaller and a greater lie.

use crate::exhaust::{every_plan, subsets, Totals, ROUNDS, TERMINALS};
use crate::faults::Fault;
use crate::notice::{notice, OLD_EDITION};
use crate::plan::{Plan, Set};
use crate::shared::{shared_fault_cause, shared_run, SharedOrder};
use crate::step::{Record, State};
use crate::verdict::verdict;

const VALUE: u16 = 7;
const DEFAULT: u16 = 5;
const WORDS: [u16; 3] = [0, 3, 9];

/// Plays the whole space; a violation is told with the plan it was found on.
pub fn exhaust_shared(fault: Fault) -> Result<Totals, String> {
    every_plan(check_plan, fault)
}

/// Someone can be kept waiting exactly if the plan fails, and nobody is ever told two things.
fn check_plan(plan: &Plan, totals: &mut Totals, fault: Fault) -> Result<(), String> {
    totals.plans += 1;
    let fails = verdict(plan, fault).map_err(|cause| format!("verdict refused {cause:?}"))?;
    totals.failing += u64::from(fails.fails);
    let mut someone_waits = false;
    for bad in subsets(&[0, 1, 2]) {
        let bad: Set = bad.into_iter().collect();
        if shared_fault_cause(plan, &bad, fault).is_err() {
            continue;
        }
        totals.bad_sets += 1;
        let mut words = vec![0; (ROUNDS * TERMINALS) as usize];
        loop {
            totals.runs += 1;
            someone_waits |= waits(plan, &bad, &words, fault)?;
            if !next_script(&mut words, &bad) {
                break;
            }
        }
    }
    match someone_waits == fails.fails {
        true => Ok(()),
        false => Err("the verdict differs from what the runs show".to_string()),
    }
}

/// Whether a good terminal waits after the run; an error where one holds what was not carried.
fn waits(plan: &Plan, bad: &Set, words: &[u16], fault: Fault) -> Result<bool, String> {
    let order = SharedOrder {
        plan,
        bad,
        value: VALUE,
        default: DEFAULT,
        rounds: ROUNDS,
        words,
    };
    let mut records = vec![Record::waiting(); TERMINALS as usize];
    shared_run(&order, &mut records, fault).map_err(|cause| format!("run refused {cause:?}"))?;
    let carried = match (bad.contains(&plan.source), words[plan.source as usize]) {
        (false, _) => VALUE,
        (true, 0) => DEFAULT,
        (true, word) => word,
    };
    let mut waits = false;
    for (terminal, record) in (0..).zip(&records) {
        match record.state {
            _ if bad.contains(&terminal) => {}
            State::Waiting => waits = true,
            State::Taken(_, held) if held == notice(OLD_EDITION, carried) => {}
            State::Taken(_, held) => {
                return Err(format!(
                    "{terminal} holds {held:?}, bad {bad:?}, said {words:?}"
                ));
            }
        }
    }
    Ok(waits)
}

/// Counts the words of the bad ones on. False after the last script.
fn next_script(words: &mut [u16], bad: &Set) -> bool {
    for (place, word) in words.iter_mut().enumerate() {
        if !bad.contains(&(place as u32 % TERMINALS)) {
            continue;
        }
        let known = WORDS.iter().position(|said| said == word).unwrap_or(0);
        *word = WORDS[(known + 1) % WORDS.len()];
        if *word != 0 {
            return true;
        }
    }
    false
}
