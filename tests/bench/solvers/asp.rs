//! clingo: a partition into F, L and R that the witness check accepts, the fewest in F first, then
//! the least as a number.

use crate::plan::{Plan, Witness};
use crate::timed::{ask, Answered};
use std::fmt::Write;

const RULES: &str = "
1 { f(X); l(X); r(X) } 1 :- X = 0..n-1.
:- not l(source).
:- not r(X) : X = 0..n-1.
:- X = 0..n-1, not f(X), #count { A : link(A, X), f(A) } > bound.
:- r(X), link(source, X).
:- r(X), #count { A : link(A, X), l(A) } > bound.
#minimize { 1@2, X : f(X) }.
#minimize { W@1, X : f(X), weight(X, W) }.
#show f/1.
";

pub fn least_witness(plan: &Plan) -> Answered {
    let mut program = format!(
        "#const n = {}. #const source = {}. #const bound = {}.{RULES}",
        plan.n, plan.source, plan.bound
    );
    for (to, heard) in plan.heard.iter().enumerate() {
        let _ = write!(program, "weight({to}, {}). ", 1u32 << to);
        for from in heard {
            let _ = write!(program, "link({from}, {to}). ");
        }
    }
    ask(
        "clingo",
        &["--quiet=1,2,2", "-"],
        program.as_bytes(),
        witness,
    )
}

/// The line after the last 'Answer', or that there is none.
fn witness(text: &str) -> Option<Witness> {
    if text.contains("UNSATISFIABLE") {
        return Some(None);
    }
    let mut lines = text.lines().skip_while(|line| !line.starts_with("Answer"));
    let atoms = lines.nth(1)?;
    let members = atoms.split_whitespace().filter_map(|atom| {
        let number = atom.strip_prefix("f(")?.strip_suffix(')')?;
        number.parse::<u32>().ok()
    });
    text.contains("OPTIMUM FOUND")
        .then(|| Some(members.map(|member| 1 << member).sum()))
}
