//! `verdict` beside the solvers that a user would pick instead: whole processes, the exact least
//! witness, the same plans, one run. `solvers VERDICT PLAN..` prints a row for each plan: the least
//! time of several calls, and how many times longer the fastest solver takes. A solver that is not
//! on the machine is left out, and said so.

mod asp;
mod plan;
mod sat;
mod smt;
mod timed;

use plan::Plan;
use std::time::Duration;
use timed::{ask, installed, Answered, LIMIT};

/// A solver: its name, and how it is asked for the least witness.
type Solver = (&'static str, fn(&Plan) -> Answered);

const SOLVERS: [Solver; 3] = [
    ("clingo", asp::least_witness),
    ("z3", smt::least_witness),
    ("cadical", sat::least_witness),
];

/// The least of so many calls counts, for the proved program and for a solver.
const CALLS: usize = 40;
const SOLVER_CALLS: usize = 9;

/// What the proved program is to reach on every plan, and in the geometric mean.
const EACH: f64 = 2.5;
const MEAN: f64 = 8.0;

fn main() {
    let words: Vec<String> = std::env::args().skip(1).collect();
    let Some((verdict, plans)) = words.split_first() else {
        eprintln!("usage: solvers VERDICT PLAN..");
        std::process::exit(2);
    };
    let solvers: Vec<Solver> = SOLVERS
        .into_iter()
        .filter(|(name, _)| found(name))
        .collect();
    if solvers.is_empty() {
        println!("solvers: none is on this machine");
        return;
    }
    print!("{:<5} {:>10}", "plan", "verdict");
    solvers.iter().for_each(|(name, _)| print!(" {name:>10}"));
    println!(" {:>7}", "ratio");
    let ratios: Vec<f64> = plans
        .iter()
        .map(|file| row(verdict, file, &solvers))
        .collect();
    let least = ratios.iter().copied().fold(f64::INFINITY, f64::min);
    let mean = (ratios.iter().map(|ratio| ratio.ln()).sum::<f64>() / ratios.len() as f64).exp();
    let met = |right: bool| if right { "met" } else { "NOT met" };
    println!(
        "least ratio {least:.1} (goal {EACH}: {})",
        met(least >= EACH)
    );
    println!(
        "geometric mean {mean:.1} (goal {MEAN}: {})",
        met(mean >= MEAN)
    );
}

fn found(name: &str) -> bool {
    let there = installed(name);
    if !there {
        println!("solvers: {name} is not on this machine");
    }
    there
}

/// The row of a plan; a witness that differs is said and ends the comparison.
fn row(verdict: &str, file: &str, solvers: &[Solver]) -> f64 {
    let text = std::fs::read(file).expect("a plan file");
    let plan = Plan::read(&text);
    let proved = best(CALLS, || {
        ask(verdict, &[], &text, |line| Some(plan::witness_of(line)))
    });
    let name = file
        .rsplit('/')
        .next()
        .unwrap_or(file)
        .trim_end_matches(".hex");
    print!("{name:<5} {}", shown(proved.time));
    let mut fastest = f64::INFINITY;
    for (solver, least_witness) in solvers {
        let answer = best(SOLVER_CALLS, || least_witness(&plan));
        print!(" {}", shown(answer.time));
        assert!(
            answer.witness.is_some() || answer.time >= LIMIT,
            "{solver} gives no answer on {file}"
        );
        if let Some(witness) = answer.witness {
            assert_eq!(
                Some(witness),
                proved.witness,
                "{solver} and verdict differ on {file}"
            );
            fastest = fastest.min(answer.time.as_secs_f64());
        }
    }
    let ratio = fastest / proved.time.as_secs_f64();
    println!(" {ratio:>7.1}");
    ratio
}

fn shown(time: Duration) -> String {
    format!("{:>7.1} ms", time.as_secs_f64() * 1000.0)
}

/// The quickest of some calls; one that has no answer in time is not tried again.
fn best(calls: usize, call: impl Fn() -> Answered) -> Answered {
    let mut best = call();
    for _ in 1..calls {
        if best.witness.is_none() {
            break;
        }
        let next = call();
        if next.time < best.time {
            best = next;
        }
    }
    best
}
