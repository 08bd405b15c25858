// The search of crates/partition/src/groups.rt in plain Rust, and the turn of search.rt by groups: the same functions,
// the same tests in the same order.
use super::{defeats, highest, key, left_out, narrowed, reach, Plan, WORK};
use std::sync::atomic::Ordering::Relaxed;

fn enough(groups: &[u32; 16], who: u32) -> bool {
    let mut found = false;
    for group in groups {
        found |= who & !group == 0;
    }
    !found
}

pub fn sweep(p: &Plan, l: u32, wall: u32) -> u32 {
    let mut r = l;
    let mut rest = left_out(p.n, wall, l);
    while rest != 0 {
        let b = highest(rest);
        if enough(&p.groups, p.rows[b] & r) {
            r |= 1 << b;
        }
        rest &= !(1 << b);
    }
    r
}

fn reaches(p: &Plan, hearers: u32, all: u32, b: usize) -> bool {
    WORK.fetch_add(1, Relaxed);
    reach(p, hearers, all & !(1 << b)) >> b & 1 == 1
}

fn still_hopeful(p: &Plan, hearers: u32, all: u32, hopeful: u32) -> u32 {
    let mut rest = hopeful;
    while rest != 0 {
        let b = highest(rest);
        if !reaches(p, hearers, all, b) {
            return rest;
        }
        rest &= !(1 << b);
    }
    0
}

fn decisive(p: &Plan, hearers: u32, inn: u32, free: u32, b: usize) -> u32 {
    let mut bad = inn;
    for c in 0..p.n {
        if free >> c & 1 == 1 && reaches(p, hearers, bad | 1 << c, b) {
            bad |= 1 << c;
        }
    }
    free & !bad
}

fn wanted_now(p: &Plan, hearers: u32, inn: u32, free: u32, wanted: u32, b: usize) -> u32 {
    if wanted & free != 0 {
        return wanted & free;
    }
    decisive(p, hearers, inn, free, b)
}

fn part_of_earlier(groups: &[u32; 16], i: usize, s: u32) -> bool {
    groups[..i].iter().any(|group| s & !group == 0)
}

#[allow(clippy::too_many_arguments)]
fn split(
    p: &Plan,
    hearers: u32,
    i: usize,
    inn: u32,
    out: u32,
    hopeful: u32,
    wanted: u32,
    best: u32,
) -> u32 {
    if best <= key(inn) + (1 << 20) {
        return best;
    }
    let free = left_out(p.n, inn, out);
    if free == 0 || part_of_earlier(&p.groups, i, inn | free) {
        return best;
    }
    let left = still_hopeful(p, hearers, inn | free, hopeful);
    if left == 0 {
        return best;
    }
    let now = wanted_now(p, hearers, inn, free, wanted, highest(left));
    let c = highest(narrowed(free, now));
    let first = split(p, hearers, i, inn, out | 1 << c, left, now, best);
    inside(p, hearers, i, inn | 1 << c, out, left, first)
}

fn inside(
    p: &Plan,
    hearers: u32,
    i: usize,
    inn: u32,
    out: u32,
    hopeful: u32,
    best: u32,
) -> u32 {
    let own = key(inn);
    if best <= own {
        return best;
    }
    if defeats(p, hearers, inn) {
        return own;
    }
    split(p, hearers, i, inn, out, hopeful, 0, best)
}

fn of_all(p: &Plan, hearers: u32, best: u32) -> u32 {
    let mut least = best;
    for i in 0..16 {
        let out = left_out(p.n, p.groups[i], 0);
        least = inside(p, hearers, i, 0, out, left_out(p.n, hearers, 0), least);
    }
    least
}

pub fn least(p: &Plan, hearers: u32) -> u32 {
    let small = of_all(p, hearers, 3 << 20);
    if small < 3 << 20 {
        return small;
    }
    of_all(p, hearers, 21 << 20)
}
