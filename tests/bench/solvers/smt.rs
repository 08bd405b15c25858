//! z3: the same partition, the least by members and then as a number.

use crate::plan::{Plan, Witness};
use crate::timed::{ask, Answered};
use std::fmt::Write;

pub fn least_witness(plan: &Plan) -> Answered {
    ask("z3", &["-in"], encoded(plan).as_bytes(), witness)
}

fn encoded(plan: &Plan) -> String {
    let mut text = String::new();
    for b in 0..plan.n {
        for set in ["f", "l", "r"] {
            let _ = writeln!(text, "(declare-const {set}{b} Bool)");
        }
    }
    for b in 0..plan.n {
        let _ = writeln!(text, "(assert ((_ at-most 1) f{b} l{b} r{b}))");
        let _ = writeln!(text, "(assert (or f{b} l{b} r{b}))");
        if plan.hears_source(b) {
            let _ = writeln!(text, "(assert (not r{b}))");
        }
        for (excused, set) in [(format!("f{b}"), "f"), (format!("(not r{b})"), "l")] {
            let heard = named(set, &plan.heard[b]);
            if plan.heard[b].len() > plan.bound {
                let bound = plan.bound;
                let _ = writeln!(
                    text,
                    "(assert (or {excused} ((_ at-most {bound}) {heard})))"
                );
            }
        }
    }
    let all: Vec<usize> = (0..plan.n).collect();
    let _ = writeln!(text, "(assert l{})", plan.source);
    let _ = writeln!(text, "(assert (or {}))", named("r", &all));
    // One aim for both: no sum of the set's numbers outweighs a member.
    let weighed = all
        .iter()
        .map(|&b| format!("(ite f{b} {} 0)", (1 << 20) + (1 << b)));
    let sum = weighed.collect::<Vec<String>>().join(" ");
    let _ = writeln!(text, "(minimize (+ {sum}))");
    let _ = writeln!(text, "(check-sat)\n(get-value ({}))", named("f", &all));
    text
}

fn named(set: &str, members: &[usize]) -> String {
    let names = members.iter().map(|member| format!("{set}{member}"));
    names.collect::<Vec<String>>().join(" ")
}

fn witness(text: &str) -> Option<Witness> {
    if text.starts_with("unsat") {
        return Some(None);
    }
    if !text.starts_with("sat") {
        return None;
    }
    let is_member = |b: &u32| text.contains(&format!("(f{b} true)"));
    Some(Some((0..20).filter(is_member).map(|b| 1 << b).sum()))
}
