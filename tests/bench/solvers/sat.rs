//! cadical: the same partition in clauses, with counters for "at most". It is called again for fewer
//! members, and then for each member from the highest on whether it can be spared. Its time is that of
//! all calls, without the work between them.

use crate::plan::Plan;
use crate::timed::{run, Answered, LIMIT};
use std::fmt::Write;
use std::time::Duration;

type Literal = i32;

struct Clauses {
    last: Literal,
    list: Vec<Vec<Literal>>,
}

/// The literals of a terminal's three sets.
fn in_f(b: usize) -> Literal {
    3 * b as Literal + 1
}
fn in_l(b: usize) -> Literal {
    3 * b as Literal + 2
}
fn in_r(b: usize) -> Literal {
    3 * b as Literal + 3
}

impl Clauses {
    fn of(plan: &Plan) -> Clauses {
        let mut clauses = Clauses {
            last: in_r(plan.n - 1),
            list: vec![vec![in_l(plan.source)]],
        };
        clauses.list.push((0..plan.n).map(in_r).collect());
        for b in 0..plan.n {
            let (f, l, r) = (in_f(b), in_l(b), in_r(b));
            clauses
                .list
                .extend([vec![f, l, r], vec![-f, -l], vec![-f, -r], vec![-l, -r]]);
            if plan.hears_source(b) {
                clauses.list.push(vec![-r]);
            }
            let heard = |set: fn(usize) -> Literal| plan.heard[b].iter().map(|&a| set(a)).collect();
            let (bad, reached): (Vec<Literal>, Vec<Literal>) = (heard(in_f), heard(in_l));
            clauses.at_most(plan.bound, &bad, Some(f));
            clauses.at_most(plan.bound, &reached, Some(-r));
        }
        clauses
    }

    fn fresh(&mut self) -> Literal {
        self.last += 1;
        self.last
    }

    /// At most so many of the literals, unless `excused` holds: counters[j] is that more than j of
    /// those so far are true.
    fn at_most(&mut self, bound: usize, literals: &[Literal], excused: Option<Literal>) {
        let mut counters: Vec<Literal> = Vec::new();
        for &literal in literals {
            let next: Vec<Literal> = (0..=bound).map(|_| self.fresh()).collect();
            self.list.push(vec![-literal, next[0]]);
            for (j, &counter) in counters.iter().enumerate() {
                self.list.push(vec![-counter, next[j]]);
                if j < bound {
                    self.list.push(vec![-literal, -counter, next[j + 1]]);
                }
            }
            counters = next;
        }
        if let Some(&over) = counters.last() {
            self.list.push(excused.into_iter().chain([-over]).collect());
        }
    }

    fn text(&self) -> String {
        let mut text = format!("p cnf {} {}\n", self.last, self.list.len());
        for clause in &self.list {
            clause.iter().for_each(|literal| {
                let _ = write!(text, "{literal} ");
            });
            text.push_str("0\n");
        }
        text
    }
}

/// The calls so far; no answer once their time is over.
struct Calls {
    time: Duration,
}

impl Calls {
    /// The members of F in a model, or that there is none; nothing where time is over.
    fn model(&mut self, clauses: &Clauses, n: usize) -> Option<Option<Vec<usize>>> {
        let left = LIMIT.saturating_sub(self.time);
        let (time, text) = run("cadical", &["-q"], clauses.text().as_bytes(), left);
        self.time += time;
        let text = text?;
        if text.contains("s UNSATISFIABLE") {
            return Some(None);
        }
        let values = text.lines().filter_map(|line| line.strip_prefix("v "));
        let true_ones: Vec<Literal> = values
            .flat_map(|line| line.split_whitespace().filter_map(|word| word.parse().ok()))
            .collect();
        let members = (0..n).filter(|&b| true_ones.contains(&in_f(b)));
        Some(Some(members.collect()))
    }
}

pub fn least_witness(plan: &Plan) -> Answered {
    let mut calls = Calls {
        time: Duration::ZERO,
    };
    let witness = search(plan, &mut calls);
    Answered {
        time: calls.time,
        witness: witness.map(|set| set.map(|members| members.iter().map(|&b| 1 << b).sum())),
    }
}

fn search(plan: &Plan, calls: &mut Calls) -> Option<Option<Vec<usize>>> {
    let n = plan.n;
    let members: Vec<Literal> = (0..n).map(in_f).collect();
    let with_size = |size: usize| {
        let mut clauses = Clauses::of(plan);
        clauses.at_most(size, &members, None);
        clauses
    };
    let Some(mut best) = calls.model(&Clauses::of(plan), n)? else {
        return Some(None);
    };
    while !best.is_empty() {
        match calls.model(&with_size(best.len() - 1), n)? {
            Some(smaller) => best = smaller,
            None => break,
        }
    }
    let mut clauses = with_size(best.len());
    for b in (0..n).rev() {
        if best.contains(&b) {
            clauses.list.push(vec![-in_f(b)]);
            match calls.model(&clauses, n)? {
                Some(spared) => best = spared,
                None => *clauses.list.last_mut()? = vec![in_f(b)],
            }
        } else {
            clauses.list.push(vec![-in_f(b)]);
        }
    }
    Some(Some(best))
}
