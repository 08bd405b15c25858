// Plans that are bad for the search: hill climbing from given plans, a bounded number of steps each. A step
// changes a few links, or the bound or a group, and stays where the search then has no less work.
// Nobody is deaf in what is found, so that the programs judge it. tests/bench/run counts the instructions of
// what is found, of plans of twelve terminals (plans/bench/quote) by `quote`; plans/bench/margins has the worst for
// `margins`, M with 20 terminals and N with twelve.
//   rustc -O --edition 2021 --cfg hunt -o target/bench/hunt tests/bench/hunt.rs
//   target/bench/hunt SEED STEPS FOLDER PLAN..     the worst three go to FOLDER as 1.hex, 2.hex, 3.hex
//   target/bench/hunt margins SEED STEPS FOLDER PLAN..     the same for the search of `margins`; plans with a bound f
#[cfg(not(hunt))]
compile_error!("hunt.rs needs --cfg hunt");
#[allow(dead_code)]
mod margins;

use margins::baseline::{over, read, search, Plan, OVERS, WORK};
use margins::fewest;
use std::fs;
use std::path::Path;
use std::sync::atomic::Ordering::Relaxed;

struct Rng(u64);

impl Rng {
    // splitmix64
    fn below(&mut self, limit: usize) -> usize {
        self.0 = self.0.wrapping_add(0x9e37_79b9_7f4a_7c15);
        let mut mixed = self.0;
        mixed = (mixed ^ (mixed >> 30)).wrapping_mul(0xbf58_476d_1ce4_e5b9);
        mixed = (mixed ^ (mixed >> 27)).wrapping_mul(0x94d0_49bb_1331_11eb);
        ((mixed ^ (mixed >> 31)) % limit as u64) as usize
    }
}

// The search's work.
fn of_verdict(p: &Plan) -> u64 {
    WORK.store(0, Relaxed);
    search(p, over(&p.rows, 0, 1 << p.source));
    WORK.load(Relaxed)
}

// The same for margins. What a part takes beside its calls of `over` is about what four of them take.
fn of_margins(p: &Plan) -> u64 {
    WORK.store(0, Relaxed);
    OVERS.store(0, Relaxed);
    fewest(p, over(&p.rows, 0, 1 << p.source));
    OVERS.load(Relaxed) + 4 * WORK.load(Relaxed)
}

fn some_deaf(p: &Plan) -> bool {
    (0..p.n).any(|b| b != p.source && p.rows[b] == 0)
}

// One terminal other than the source goes into a group or out of it; it may be a new group, of it alone.
fn regrouped(rng: &mut Rng, p: &Plan) -> Plan {
    let mut next = *p;
    let (group, member) = (rng.below(16.min(p.listed + 1)), rng.below(p.n));
    if member != p.source {
        next.groups[group] ^= 1 << member;
        next.listed = p.listed.max(group + 1);
    }
    next
}

// One to four links turned round, or seldom the bound moved by one, or often a group changed.
fn changed(rng: &mut Rng, p: &Plan) -> Plan {
    let mut next = *p;
    if p.f == 255 && rng.below(2) == 0 {
        return regrouped(rng, p);
    }
    if p.f != 255 && rng.below(12) == 0 {
        let f = if rng.below(2) == 0 {
            p.f + 1
        } else {
            p.f.saturating_sub(1)
        };
        next.f = f.min(p.n - 1);
        return next;
    }
    for _ in 0..=rng.below(4) {
        let (to, from) = (rng.below(p.n), rng.below(p.n));
        if to != from {
            next.rows[to] ^= 1 << from;
        }
    }
    next
}

fn climbed(rng: &mut Rng, cost: fn(&Plan) -> u64, start: Plan, steps: usize) -> (u64, Plan) {
    let mut best = (cost(&start), start);
    for _ in 0..steps {
        let next = changed(rng, &best.1);
        let work = cost(&next);
        if work >= best.0 && !some_deaf(&next) {
            best = (work, next);
        }
    }
    best
}

fn frames(p: &Plan) -> String {
    let mut text = format!("01{:02x}{:02x}{:02x}\n", p.n, p.source, p.f);
    for from in 0..p.n {
        for to in (0..p.n).filter(|&to| (p.rows[to] >> from) & 1 == 1) {
            text += &format!("02{from:02x}{to:02x}\n");
        }
    }
    for group in &p.groups[..p.listed] {
        text += &format!("07{group:06x}\n");
    }
    text
}

fn main() {
    let words: Vec<String> = std::env::args().skip(1).collect();
    let (cost, words): (fn(&Plan) -> u64, _) = match words.as_slice() {
        [first, rest @ ..] if first == "margins" => (of_margins, rest),
        all => (of_verdict, all),
    };
    let [seed, steps, folder, plans @ ..] = words else {
        eprintln!("usage: hunt [margins] SEED STEPS FOLDER PLAN..");
        std::process::exit(2);
    };
    let mut rng = Rng(seed.parse().expect("a seed"));
    let steps = steps.parse().expect("a number of steps");
    let mut found: Vec<(u64, Plan)> = plans
        .iter()
        .map(|file| read(&fs::read(file).expect("a plan")))
        .map(|plan| climbed(&mut rng, cost, plan, steps))
        .collect();
    found.sort_by_key(|(work, _)| std::cmp::Reverse(*work));
    for (number, (work, plan)) in (1..=3).zip(&found) {
        println!("{number}: {work}");
        let file = Path::new(folder).join(format!("{number}.hex"));
        fs::write(file, frames(plan)).expect("a folder");
    }
}
