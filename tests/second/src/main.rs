//! The command `second`.

use second::faults::Fault;
use second::generate::Kind;
use second::reader::LONGEST_FILE;
use second::{compare, exhaust, exhaust_shared, faults, generate, kept, record, record_shared};
use std::io::{self, Read, Write};
use std::path::Path;
use std::process::ExitCode;

const USAGE: &str = "usage:
  second verdict < FILE
  second quote < FILE
  second margins < FILE
  second greatest < FILE
  second sentence < FILE
  second heard < FILE
  second run < FILE
  second archive < FILE
  second generate verdict|run SEED COUNT DIR
  second compare PROGRAM_VERDICT PROGRAM_RUN PROGRAM_REWRITE PROGRAM_ARCHIVE PROGRAM_QUOTE PROGRAM_MARGINS PROGRAM_GREATEST PROGRAM_SENTENCE PROGRAM_HEARD SEED COUNT
  second faults [SEED COUNT]
  second exhaust
  second record CALLS LINES
  second boards SEED COUNT CALLS LINES
  second issues SEED COUNT CALLS LINES
  second shared SEED COUNT CALLS LINES
  second keep PROGRAM_VERDICT PROGRAM_RUN FILE
  second kept PROGRAM_VERDICT PROGRAM_RUN FILE";

fn main() -> ExitCode {
    let words: Vec<String> = std::env::args().skip(1).collect();
    let words: Vec<&str> = words.iter().map(String::as_str).collect();
    match dispatch(&words) {
        Some(true) => ExitCode::SUCCESS,
        Some(false) => ExitCode::from(1),
        None => {
            eprintln!("{USAGE}");
            ExitCode::from(2)
        }
    }
}

/// Whether the command did well; nothing where it isn't one.
fn dispatch(words: &[&str]) -> Option<bool> {
    match words {
        ["verdict"] => Some(filter(second::verdict_text)),
        ["quote"] => Some(filter(second::quote_text)),
        ["margins"] => Some(filter(second::margins_text)),
        ["greatest"] => Some(filter(second::greatest_text)),
        ["sentence"] => Some(filter(second::sentence_text)),
        ["heard"] => Some(filter(second::heard_text)),
        ["run"] => Some(filter(second::run_text)),
        ["archive"] => Some(filter(second::archive_text)),
        ["generate", kind, seed, count, folder] => {
            let kind = match *kind {
                "verdict" => Kind::Verdict,
                "run" => Kind::Run,
                _ => return None,
            };
            let (seed, count) = (number(seed)?, number(count)?);
            Some(told(generate::write_cases(
                kind,
                seed,
                count,
                Path::new(folder),
            )))
        }
        ["compare", programs @ .., seed, count] => {
            let programs: &[&str; compare::PROGRAMS] = programs.try_into().ok()?;
            Some(compare::compare(programs, number(seed)?, number(count)?))
        }
        ["faults"] => Some(faults::faults(1, 2400)),
        ["faults", seed, count] => Some(faults::faults(number(seed)?, number(count)?)),
        ["exhaust"] => Some(exhaust_all()),
        ["boards", seed, count, calls, lines] => Some(told(record::write_boards(
            number(seed)?,
            number(count)?,
            Path::new(calls),
            Path::new(lines),
        ))),
        ["issues", seed, count, calls, lines] => Some(told(record::write_issues(
            number(seed)?,
            number(count)?,
            Path::new(calls),
            Path::new(lines),
        ))),
        ["shared", seed, count, calls, lines] => Some(told(record_shared::write_shared_boards(
            number(seed)?,
            number(count)?,
            Path::new(calls),
            Path::new(lines),
        ))),
        ["keep", verdict, run, file] => Some(told(kept::keep(&[verdict, run], Path::new(file)))),
        ["kept", verdict, run, file] => {
            let same = kept::compare(&[verdict, run], Path::new(file));
            Some(same.as_ref().is_ok_and(|&same| same) && told(same.map(drop)))
        }
        ["record", calls, lines] => Some(told(record::write(Path::new(calls), Path::new(lines)))),
        _ => None,
    }
}

fn number(word: &str) -> Option<u64> {
    word.parse().ok()
}

fn told(result: io::Result<()>) -> bool {
    if let Err(error) = &result {
        eprintln!("{error}");
    }
    result.is_ok()
}

/// Standard input to standard output. One byte over the longest file settles that it is too
/// long, so no more is read.
fn filter(text: fn(&[u8]) -> Vec<u8>) -> bool {
    let mut input = Vec::new();
    let read = io::stdin()
        .take(LONGEST_FILE as u64 + 1)
        .read_to_end(&mut input);
    told(read.and_then(|_| io::stdout().write_all(&text(&input))))
}

fn exhaust_all() -> bool {
    let each = exhausted("", exhaust::exhaust(Fault::None));
    let shared = exhaust_shared::exhaust_shared(Fault::None);
    exhausted("one radio for all: ", shared) && each
}

fn exhausted(what: &str, found: Result<exhaust::Totals, String>) -> bool {
    match found {
        Ok(totals) => {
            println!(
                "{what}{} plans ({} failing), {} bad sets, {} runs, no violation",
                totals.plans, totals.failing, totals.bad_sets, totals.runs
            );
            true
        }
        Err(violation) => {
            println!("{what}violation: {violation}");
            false
        }
    }
}
