// The search of crates/partition/src (search.rt, bound.rt, branch.rt) in plain Rust: the same
// functions, the same tests in the same order. tests/bench/run compiles it by `rustc -O` and
// compares instruction counts. It reads an accepted plan file on standard input and refuses nothing.
// groups.rs has the search for groups, margins.rs that for margins, a program of its own; hunt.rs looks for plans
// that are bad for one of them.
mod groups;

use std::io::{Read, Write};
use std::sync::atomic::{AtomicU64, Ordering::Relaxed};

// How many parts were split, and for groups how many closures were asked for: the search's work, for hunt.rs.
pub static WORK: AtomicU64 = AtomicU64::new(0);
// How often `over` was called; counted by hunt.rs alone (--cfg hunt), not to slow what run counts.
pub static OVERS: AtomicU64 = AtomicU64::new(0);

#[derive(Clone, Copy)]
pub struct Plan {
    pub n: usize,
    pub source: usize,
    pub f: usize,
    pub listed: usize,
    pub groups: [u32; 16],
    pub rows: [u32; 20],
}

// The best set so far: members above 20 for none.
#[derive(Clone, Copy)]
pub struct Best {
    pub members: usize,
    pub set: u32,
}

pub fn over(rows: &[u32; 20], f: u32, a: u32) -> u32 {
    #[cfg(hunt)]
    OVERS.fetch_add(1, Relaxed);
    let mut found = 0;
    for b in 0..20 {
        found |= ((f < (rows[b] & a).count_ones()) as u32) << b;
    }
    found
}

fn turn(p: &Plan, l: u32, wall: u32) -> u32 {
    if p.f == 255 {
        return groups::sweep(p, l, wall);
    }
    l | (over(&p.rows, p.f as u32, l) & !wall)
}

pub fn spread(p: &Plan, s: u32, wall: u32) -> u32 {
    let mut l = s;
    loop {
        let next = turn(p, l, wall);
        if next == l {
            return l;
        }
        l = next;
    }
}

pub fn reach(p: &Plan, hearers: u32, faulty: u32) -> u32 {
    spread(p, 1 << p.source | (hearers & !faulty), faulty)
}

pub fn left_out(n: usize, faulty: u32, l: u32) -> u32 {
    ((1u32 << n) - 1) & !(faulty | l)
}

pub fn settled(p: &Plan, out: u32, known: u32) -> u32 {
    let f = p.f as u32;
    let mut s = known;
    loop {
        let next = s | over(&p.rows, f, s & out) | over(&p.rows, 2 * f, s);
        if next == s {
            return s;
        }
        s = next;
    }
}

pub fn heard(rows: &[u32; 20], s: u32) -> u32 {
    let mut found = 0;
    for b in 0..20 {
        if (s >> b) & 1 == 1 {
            found |= rows[b];
        }
    }
    found
}

fn key(s: u32) -> u32 {
    (s.count_ones() << 20) + s
}

fn defeats(p: &Plan, hearers: u32, s: u32) -> bool {
    let l = reach(p, hearers, s);
    left_out(p.n, s, l) != 0
}

pub fn highest(s: u32) -> usize {
    31 - s.leading_zeros() as usize
}

pub fn narrowed(s: u32, of: u32) -> u32 {
    if of & s != 0 {
        return of & s;
    }
    s
}

pub fn widest(rows: &[u32; 20], s: u32) -> u32 {
    let (mut ones, mut twos, mut fours, mut eights, mut sixteens) = (0, 0, 0, 0, 0);
    for &one in rows {
        let two = ones & one;
        let four = twos & two;
        let eight = fours & four;
        sixteens |= eights & eight;
        eights ^= eight;
        fours ^= four;
        twos ^= two;
        ones ^= one;
    }
    let many = narrowed(narrowed(s, sixteens), eights);
    narrowed(narrowed(narrowed(many, fours), twos), ones)
}

fn chosen(rows: &[u32; 20], heard: u32, free: u32) -> usize {
    highest(widest(rows, narrowed(free, heard)))
}

fn hopeless(p: &Plan, inn: u32, known: u32, rest: u32, best: u32) -> bool {
    let more = (inn < best & 0xfffff) as u32;
    let need = p.f as u32 + (best >> 20) + more;
    let own = inn.count_ones();
    if need <= own {
        return true;
    }
    rest & !over(&p.rows, need - own - 1, known & !inn) == 0
}

fn split(p: &Plan, hearers: u32, inn: u32, out: u32, known: u32, best: u32) -> u32 {
    WORK.fetch_add(1, Relaxed);
    let sure = settled(p, out, known);
    let rest = left_out(p.n, inn, sure);
    if hopeless(p, inn, sure, rest, best) {
        return best;
    }
    let free = left_out(p.n, inn, out);
    if free == 0 {
        return best;
    }
    let b = chosen(&p.rows, heard(&p.rows, rest) & sure, free);
    let first = split(p, hearers, inn, out | 1 << b, sure, best);
    inside(p, hearers, inn | 1 << b, out, sure, first)
}

fn inside(p: &Plan, hearers: u32, inn: u32, out: u32, known: u32, best: u32) -> u32 {
    let all = spread(p, inn, 0);
    if all & out != 0 {
        return best;
    }
    let own = key(all);
    if best <= own {
        return best;
    }
    if defeats(p, hearers, all) {
        return own;
    }
    split(p, hearers, all, out, known | all, best)
}

pub fn search(p: &Plan, hearers: u32) -> Best {
    let source = 1 << p.source;
    let best = if p.f == 255 {
        groups::least(p, hearers)
    } else {
        inside(p, hearers, 0, source, source | hearers, 21 << 20)
    };
    Best {
        members: (best >> 20) as usize,
        set: best & 0xfffff,
    }
}

fn digit(b: u8) -> u8 {
    if b <= b'9' {
        b.wrapping_sub(b'0')
    } else {
        b.wrapping_sub(b'a' - 10)
    }
}

// One pass: the bytes of the line so far, applied at its end.
pub fn read(text: &[u8]) -> Plan {
    let mut p = Plan {
        n: 0,
        source: 0,
        f: 0,
        listed: 0,
        groups: [0; 16],
        rows: [0; 20],
    };
    let mut line = [0u8; 4];
    let mut digits = 0;
    for &b in text {
        if b != b'\n' {
            let byte = &mut line[digits / 2 % 4];
            *byte = *byte << 4 | digit(b);
            digits += 1;
            continue;
        }
        let [kind, x, y, z] = line;
        if kind == 1 {
            (p.n, p.source, p.f) = (x as usize, y as usize, z as usize);
        } else if kind == 7 {
            p.groups[p.listed] = u32::from_be_bytes([0, x, y, z]);
            p.listed += 1;
        } else {
            p.rows[y as usize] |= 1 << x;
        }
        digits = 0;
    }
    p
}

fn main() {
    let mut text = Vec::new();
    std::io::stdin()
        .read_to_end(&mut text)
        .expect("standard input");
    let p = read(&text);
    let hearers = over(&p.rows, 0, 1 << p.source);
    let best = search(&p, hearers);
    let mut line = format!("8100{:018x}\n", 0);
    if best.members <= 20 {
        let l = reach(&p, hearers, best.set);
        let r = left_out(p.n, best.set, l);
        line = format!("8101{:06x}{:06x}{:06x}\n", best.set, l, r);
    }
    std::io::stdout()
        .write_all(line.as_bytes())
        .expect("standard output");
}
