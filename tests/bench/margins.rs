// The search of crates/partition/src/margin.rt in plain Rust: the same functions, the same tests in the same order. It
// reads an accepted plan file with a bound f on standard input and prints what `margins` prints. A program of its own,
// beside baseline.rs, so that what the two share is compiled for each as if it were alone.
#[allow(dead_code)]
#[path = "baseline.rs"]
pub mod baseline;

use baseline::{
    heard, highest, left_out, narrowed, over, reach, read, settled, spread, widest, Plan, WORK,
};
use std::fmt::Write as _;
use std::io::{Read, Write};
use std::sync::atomic::Ordering::Relaxed;

fn lesser(row: u32, sought: bool, l: u32, before: u32) -> u32 {
    let now = (row & l).count_ones();
    if sought && now < before {
        return now;
    }
    before
}

fn lower(rows: &[u32; 20], sought: u32, l: u32, counts: &mut [u32; 20]) {
    for b in 0..20 {
        counts[b] = lesser(rows[b], sought >> b & 1 == 1, l, counts[b]);
    }
}

fn surely(row: u32, f: u32, out: u32, sure: u32) -> u32 {
    let all = (row & sure).count_ones();
    let good = (row & sure & out).count_ones();
    if f < all && good < all - f {
        return all - f;
    }
    good
}

fn hopeful(rows: &[u32; 20], f: u32, out: u32, sure: u32, counts: &[u32; 20]) -> u32 {
    let mut some = 0;
    for b in 0..20 {
        some |= ((surely(rows[b], f, out, sure) < counts[b]) as u32) << b;
    }
    some
}

fn barred(p: &Plan, inn: u32, out: u32) -> u32 {
    if p.f == 0 {
        return out;
    }
    let full = out & over(&p.rows, p.f as u32 - 1, inn);
    out | (heard(&p.rows, full) & left_out(p.n, inn, out))
}

fn rows_of(rows: &[u32; 20], s: u32) -> [u32; 20] {
    let mut some = [0; 20];
    for b in 0..20 {
        if s >> b & 1 == 1 {
            some[b] = rows[b];
        }
    }
    some
}

fn chosen(rows: &[u32; 20], rest: u32, sure: u32, sought: u32, free: u32) -> usize {
    let near = narrowed(free, heard(rows, rest) & sure);
    let nearest = narrowed(near, heard(rows, 1 << highest(sought)));
    highest(widest(&rows_of(rows, rest | sought), nearest))
}

fn split(
    p: &Plan,
    hearers: u32,
    inn: u32,
    out: u32,
    known: u32,
    sought: u32,
    counts: &mut [u32; 20],
) {
    WORK.fetch_add(1, Relaxed);
    let shut = barred(p, inn, out);
    let sure = settled(p, shut, known);
    let left = sought & hopeful(&p.rows, p.f as u32, shut, sure, counts);
    let free = left_out(p.n, inn, shut);
    if left == 0 || free == 0 {
        return;
    }
    let b = chosen(&p.rows, left_out(p.n, inn, sure), sure, left, free);
    inside(p, hearers, inn | 1 << b, shut, sure, left, counts);
    split(p, hearers, inn, shut | 1 << b, sure, left, counts)
}

fn inside(
    p: &Plan,
    hearers: u32,
    inn: u32,
    out: u32,
    known: u32,
    sought: u32,
    counts: &mut [u32; 20],
) {
    let all = spread(p, inn, 0);
    if all & out != 0 {
        return;
    }
    let good = sought & !all;
    let l = reach(p, hearers, all);
    lower(&p.rows, good, l, counts);
    split(p, hearers, all, out, known | all, good, counts)
}

pub fn fewest(p: &Plan, hearers: u32) -> [u32; 20] {
    let source = 1 << p.source;
    let sought = left_out(p.n, source, hearers);
    let mut counts = [20; 20];
    inside(p, hearers, 0, source, source | hearers, sought, &mut counts);
    counts
}

fn main() {
    let mut text = Vec::new();
    std::io::stdin()
        .read_to_end(&mut text)
        .expect("standard input");
    let p = read(&text);
    let hearers = over(&p.rows, 0, 1 << p.source);
    let counts = fewest(&p, hearers);
    let mut lines = String::new();
    // How many hear the source, and how many margins are below, at and above zero.
    let mut totals = [0; 4];
    for b in (0..p.n).filter(|&b| b != p.source) {
        if hearers >> b & 1 == 1 {
            totals[0] += 1;
            writeln!(lines, "{b} direct").expect("a string");
        } else {
            let margin = counts[b] as i32 - (p.f as i32 + 1);
            totals[(2 + margin.signum()) as usize] += 1;
            writeln!(lines, "{b} {margin}").expect("a string");
        }
    }
    let [direct, below, at, above] = totals;
    writeln!(lines, "{direct} {below} {at} {above}").expect("a string");
    std::io::stdout()
        .write_all(lines.as_bytes())
        .expect("standard output");
}
