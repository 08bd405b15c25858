//! The programs against this implementation, byte for byte.

use crate::characters;
use crate::faults::Fault;
use crate::generate::{fresh_case, Kind};
use crate::greatest_files::greatest_case;
use crate::heard_files::heard_case;
use crate::margin_files::margin_case;
use crate::output::{
    archive_text, greatest_text, heard_text, margins_text, quote_text, rewritten_text, run_text,
    sentence_text, verdict_text,
};
use crate::quotes::quote_case;
use crate::sentence_files::sentence_case;
use std::fs;
use std::io::{Read, Write};
use std::process::{Child, Command, Stdio};
use std::sync::mpsc::channel;
use std::thread;
use std::time::{Duration, Instant};

pub const TIME_LIMIT: Duration = Duration::from_secs(60);

/// After so many differing cases the rest would say nothing new.
const ENOUGH_MISMATCHES: u64 = 10;

/// More than any right answer; a program that never stops printing is cut off here.
const LONGEST_OUTPUT: u64 = 1 << 20;

/// What a program did with one case.
#[derive(Clone, Debug, PartialEq, Eq)]
pub enum Answer {
    Output(Vec<u8>),
    Crash(String),
    TimeOut,
}

/// Runs a program with the case on its standard input.
pub fn ask(program: &str, input: &[u8], limit: Duration) -> Answer {
    let end = Instant::now() + limit;
    let started = Command::new(program)
        .stdin(Stdio::piped())
        .stdout(Stdio::piped())
        .stderr(Stdio::null())
        .spawn();
    let mut child = match started {
        Ok(child) => child,
        Err(error) => return Answer::Crash(format!("not started: {error}")),
    };
    feed(&mut child, input.to_vec());
    let (sender, receiver) = channel();
    if let Some(output) = child.stdout.take() {
        thread::spawn(move || {
            let mut bytes = Vec::new();
            let read = output.take(LONGEST_OUTPUT).read_to_end(&mut bytes);
            let _ = sender.send(read.map(|_| bytes));
        });
    }
    let output = match receiver.recv_timeout(limit) {
        Ok(Ok(output)) => output,
        Ok(Err(error)) => return stop(child, Answer::Crash(format!("output unread: {error}"))),
        Err(_) => return stop(child, Answer::TimeOut),
    };
    finish(child, output, end)
}

/// Input goes in beside the reading of the output, so that neither waits for the other. A
/// program may stop reading early; its output alone decides.
fn feed(child: &mut Child, input: Vec<u8>) {
    if let Some(mut stdin) = child.stdin.take() {
        thread::spawn(move || {
            let _ = stdin.write_all(&input);
        });
    }
}

fn stop(mut child: Child, answer: Answer) -> Answer {
    let _ = child.kill();
    let _ = child.wait();
    answer
}

/// Waits for the end. The specification gives no exit status, so small ones are let pass;
/// a signal, or a status that stands for a panic or a signal, is a crash.
fn finish(mut child: Child, output: Vec<u8>, end: Instant) -> Answer {
    loop {
        match child.try_wait() {
            Ok(Some(status)) => {
                return match status.code() {
                    Some(code) if code < 101 => Answer::Output(output),
                    _ => Answer::Crash(status.to_string()),
                }
            }
            Ok(None) if Instant::now() < end => thread::sleep(Duration::from_micros(200)),
            _ => return stop(child, Answer::TimeOut),
        }
    }
}

/// A program under test: its own name, the cases it gets, and what it has to print.
struct Tested<'a> {
    name: &'static str,
    program: &'a str,
    files: &'a Files,
    text: fn(&[u8], Fault) -> Vec<u8>,
}

/// The files of a program: those of a seed, and those with every byte in the place of a digit.
struct Files {
    seeded: fn(u64, u64) -> Vec<u8>,
    characters: fn(u64) -> Vec<u8>,
}

const PLANS: Files = Files {
    seeded: |seed, index| fresh_case(Kind::Verdict, seed, index),
    characters: |index| characters::file(Kind::Verdict, index),
};
const RUNS: Files = Files {
    seeded: |seed, index| fresh_case(Kind::Run, seed, index),
    characters: |index| characters::file(Kind::Run, index),
};
const QUOTES: Files = Files {
    seeded: quote_case,
    characters: characters::small_plan_file,
};
const MARGINS: Files = Files {
    seeded: margin_case,
    characters: characters::small_plan_file,
};
const DRAWINGS: Files = Files {
    seeded: greatest_case,
    characters: characters::listed_file,
};
const FAILS: Files = Files {
    seeded: sentence_case,
    characters: |index| characters::file(Kind::Verdict, index),
};
const PHONED: Files = Files {
    seeded: heard_case,
    characters: characters::heard_file,
};

/// How many programs are compared.
pub const PROGRAMS: usize = 9;

/// The programs, in this order: verdict, run, rewrite, archive, quote, margins, greatest, sentence, heard.
fn tested<'a>(programs: &[&'a str; PROGRAMS]) -> [Tested<'a>; PROGRAMS] {
    let [verdict, run, rewrite, archive, quote, margins, greatest, sentence, heard] = *programs;
    let of = |name, program, files, text| Tested {
        name,
        program,
        files,
        text,
    };
    [
        of("verdict", verdict, &PLANS, verdict_text),
        of("run", run, &RUNS, run_text),
        of("rewrite", rewrite, &PLANS, rewritten_text),
        of("archive", archive, &PLANS, archive_text),
        of("quote", quote, &QUOTES, quote_text),
        of("margins", margins, &MARGINS, margins_text),
        of("greatest", greatest, &DRAWINGS, greatest_text),
        of("sentence", sentence, &FAILS, sentence_text),
        of("heard", heard, &PHONED, heard_text),
    ]
}

/// Compares the programs, each beside the others; prints one line in all, and true if nothing
/// differed.
pub fn compare(programs: &[&str; PROGRAMS], seed: u64, count: u64) -> bool {
    let tested = tested(programs);
    let counts: Vec<(u64, u64)> = thread::scope(|scope| {
        let started = tested
            .iter()
            .map(|tested| scope.spawn(move || compare_one(tested, seed, count)));
        let started: Vec<_> = started.collect();
        let ended = started.into_iter().map(|one| one.join());
        ended.map(|one| one.expect("no panic")).collect()
    });
    let cases: u64 = counts.iter().map(|(cases, _)| cases).sum();
    let mismatches: u64 = counts.iter().map(|(_, mismatches)| mismatches).sum();
    println!("{cases} cases, {mismatches} mismatches (seed {seed})");
    mismatches == 0
}

/// How many cases one program got, and how many differed. The seeded ones come first, then every
/// byte in the place of a digit.
fn compare_one(tested: &Tested, seed: u64, count: u64) -> (u64, u64) {
    let (mut cases, mut mismatches) = (0, 0);
    for index in 0..count + characters::FILES {
        cases += 1;
        let input = if index < count {
            (tested.files.seeded)(seed, index)
        } else {
            (tested.files.characters)(index - count)
        };
        if let Some(reason) = difference(tested, &input) {
            report(tested.name, seed, index, &input, &reason);
            mismatches += 1;
        }
        if mismatches == ENOUGH_MISMATCHES {
            break;
        }
    }
    (cases, mismatches)
}

fn difference(tested: &Tested, input: &[u8]) -> Option<String> {
    let own = (tested.text)(input, Fault::None);
    match ask(tested.program, input, TIME_LIMIT) {
        Answer::Output(output) if output == own => None,
        Answer::Output(output) => Some(format!(
            "printed {:?} instead of {:?}",
            String::from_utf8_lossy(&output),
            String::from_utf8_lossy(&own)
        )),
        Answer::Crash(reason) => Some(format!("crash: {reason}")),
        Answer::TimeOut => Some("time-out".to_string()),
    }
}

fn report(program: &str, seed: u64, index: u64, input: &[u8], reason: &str) {
    let name = format!("mismatch-{program}-{seed}-{index}.txt");
    eprintln!("{name}: {reason}");
    if let Err(error) = fs::write(&name, input) {
        eprintln!("{name} not written: {error}");
    }
}
