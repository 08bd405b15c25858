//! Recorded calls of a site with one radio for all, and the steps that a board of such a site is
//! asked for.

use crate::channel::{flooded_channel, some_channel};
use crate::faults::Fault;
use crate::groups::Bound;
use crate::lent::{shared_read_case, ReadCase, LATER_PLACES, WORD_PLACES};
use crate::plan::{set_of, Plan};
use crate::record::{
    answered_record, board_head, board_line, board_record, head_bytes, noise, number, pair,
    plan_bytes, quad, read_of, record_bytes, rng_for, whole_call, write_lines, Call, LENT_RECORDS,
    RUN,
};
use crate::shared::{shared_fault_cause, shared_run};
use crate::shared_calls::{
    noisy_channel, shared_set_case, shared_step_case, SharedSite, SharedStep,
};
use crate::shared_files::{shared_file, WAYS};
use crate::step::{shared_step, Record};
use std::io;
use std::path::Path;

/// Layouts, two bytes each.
fn layout_bytes(list: &[u16]) -> Vec<u8> {
    list.iter().flat_map(|&layout| pair(layout)).collect()
}

// ---- the step

pub(crate) fn shared_step_call(seed: u64, index: u64) -> Call {
    let SharedStep {
        place,
        record,
        default,
        said,
    } = shared_step_case(seed, index);
    let mut body = head_bytes(place.n, place.source, &place.bound);
    body.push(place.number as u8);
    body.extend(quad(&place.heard));
    body.extend(record_bytes(&record));
    body.extend(pair(default));
    body.extend(layout_bytes(&said));
    let answer = shared_step(&place, record, default, &said, Fault::None);
    Call {
        kind: b'S',
        lent: said.len(),
        body,
        line: answered_record(answer),
    }
}

/// Board calls as lines of digits, and the lines that answer them: as those of the other step, but
/// with the default in two bytes before what was said, and that in layouts.
pub fn write_shared_boards(seed: u64, count: u64, calls: &Path, lines: &Path) -> io::Result<()> {
    let all = (0..count).map(|index| shared_board(seed, index));
    write_lines(all, calls, lines)
}

fn shared_board(seed: u64, index: u64) -> (Vec<u8>, Vec<u8>) {
    let mut rng = rng_for(seed, b'B', index);
    let SharedStep {
        mut place,
        record,
        default,
        said,
    } = shared_step_case(seed, index);
    let (bytes, record) = board_record(&mut rng, record);
    let mut call = board_head(&mut place, &bytes);
    call.extend(pair(default));
    call.extend(layout_bytes(&said));
    let answer = shared_step(&place, record, default, &said, Fault::None);
    (call, board_line(answer, &bytes))
}

// ---- the run

/// All but the words of a run's call.
fn site_head(of: &SharedSite) -> Vec<u8> {
    let mut bytes = plan_bytes(&of.plan);
    bytes.extend(quad(&of.bad));
    bytes.extend(pair(of.value));
    bytes.extend(pair(of.default));
    bytes.push(of.rounds as u8);
    bytes
}

fn site(of: SharedSite) -> Call {
    let (answer, records) = of.played(Fault::None);
    let mut line = vec![number(answer)];
    line.extend(records.iter().take(20).flat_map(record_bytes));
    Call {
        kind: b'N',
        lent: of.words.len(),
        body: [site_head(&of), layout_bytes(&of.words)].concat(),
        line,
    }
}

pub(crate) fn shared_site_call(seed: u64, index: u64) -> Call {
    site(noisy_channel(&mut rng_for(seed, b'N', index), 2..=7))
}

/// A sample of the whole space of sites with three terminals: any links, f or a group, bad set with
/// the source or without it, and script over silence, the default, the value and a lie, for two rounds.
pub(crate) fn small_shared_call(seed: u64, index: u64) -> Call {
    let mut rng = rng_for(seed, b'X', index);
    let mut plan = Plan::new(3, rng.between(0, 2), rng.between(0, 2));
    for (from, to) in [(0, 1), (0, 2), (1, 0), (1, 2), (2, 0), (2, 1)] {
        if rng.chance(60) {
            plan.links.insert((from, to));
        }
    }
    if rng.chance(30) {
        let mut group = set_of(rng.between(0, 7));
        group.remove(&plan.source);
        plan.bound = Bound::groups(&[group]);
    }
    let mut bad = set_of(rng.pick(&[0, 1, 2, 3, 4, 5, 6]));
    if rng.chance(50) {
        bad.insert(plan.source);
    }
    site(SharedSite {
        plan,
        bad,
        value: 7,
        default: 5,
        rounds: 2,
        words: (0..6).map(|_| rng.pick(&[0, 5, 7, 3])).collect(),
    })
}

/// A new lie in each of 39 or 40 rounds.
pub(crate) fn flooded_call(seed: u64, index: u64) -> Call {
    let mut rng = rng_for(seed, b'O', index);
    let rounds = 39 + (index % 2) as u32;
    site(SharedSite::of(&flooded_channel(&mut rng, rounds)))
}

/// Five places that hold noise, lent to the run of four to six terminals.
pub(crate) fn shared_lent_call(seed: u64, index: u64) -> Call {
    let mut rng = rng_for(seed, b'L', index);
    let sizes = if rng.chance(60) { 5..=5 } else { 4..=6 };
    let of = noisy_channel(&mut rng, sizes);
    let mut records: Vec<Record> = (0..LENT_RECORDS).map(|_| noise(&mut rng)).collect();
    let before: Vec<u8> = records.iter().flat_map(record_bytes).collect();
    let mut line = vec![number(shared_run(&of.order(), &mut records, Fault::None))];
    line.extend(records.iter().flat_map(record_bytes));
    Call {
        kind: b'L',
        lent: of.words.len(),
        body: [site_head(&of), before, layout_bytes(&of.words)].concat(),
        line,
    }
}

// ---- the check of a bad set

pub(crate) fn shared_set_call(seed: u64, index: u64) -> Call {
    let (plan, bad) = shared_set_case(seed, index);
    Call {
        kind: b'C',
        lent: 0,
        body: [&plan_bytes(&plan)[..], &quad(&bad)].concat(),
        line: vec![number(shared_fault_cause(&plan, &bad, Fault::None))],
    }
}

// ---- files

/// A run of a small site, with room for the whole answer.
pub(crate) fn channel_call(seed: u64, index: u64) -> Call {
    let mut rng = rng_for(seed, b'R', index);
    let n = rng.between(2, 8);
    whole_call(RUN, some_channel(&mut rng, n).text())
}

/// Each way of a wrong line, in turn.
fn wrong_file(seed: u64, letter: u8, index: u64) -> Vec<u8> {
    let (way, _) = WAYS[(index % WAYS.len() as u64) as usize];
    shared_file(&mut rng_for(seed, letter, index), way)
}

pub(crate) fn shared_file_call(seed: u64, index: u64) -> Call {
    whole_call(RUN, wrong_file(seed, b'W', index))
}

/// The reader on files of any sort, with lists of the right length or not.
pub(crate) fn channel_read_call(seed: u64, index: u64) -> Call {
    read_of(shared_read_case(seed, index))
}

pub(crate) fn shared_file_read_call(seed: u64, index: u64) -> Call {
    read_of(ReadCase {
        text: wrong_file(seed, b'V', index),
        words: WORD_PLACES,
        later: LATER_PLACES,
    })
}
