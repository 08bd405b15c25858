//! Files in the old frames with what the programs printed before editions came: they print it still.
//!
//! Each case is a line with the program, the bytes of its input and those of its output, then the
//! input, then the output.

use crate::compare::{ask, Answer, TIME_LIMIT};
use crate::generate::{case, Kind};
use std::collections::BTreeSet;
use std::fs;
use std::io;
use std::path::Path;

/// One file, and what the program printed.
pub struct Kept {
    pub kind: Kind,
    pub input: Vec<u8>,
    pub output: Vec<u8>,
}

const SEED: u64 = 21;

/// A sort of kept files: whose they are, the shortest, the longest, whether they are refused, and how
/// many.
type Wanted = (Kind, usize, usize, bool, usize);

/// Most are small; a few have the longest file's length, or about it.
const WANTED: [Wanted; 8] = [
    (Kind::Run, 0, 240, false, 2_100),
    (Kind::Run, 0, 240, true, 2_170),
    (Kind::Run, 241, 1_200, false, 150),
    (Kind::Run, 241, 1_200, true, 70),
    (Kind::Run, 24_000, 26_000, false, 5),
    (Kind::Run, 24_000, 26_000, true, 5),
    (Kind::Verdict, 0, 300, false, 250),
    (Kind::Verdict, 0, 300, true, 250),
];

/// Whether no line is one that a later request gave a meaning. Editions did so with kind 08 and with
/// longer starts and words, one radio for all with kind 09 and with shorter words.
pub fn is_old(text: &[u8]) -> bool {
    let mut lines = text.split(|&byte| byte == 10);
    lines.all(|line| match line.get(..2) {
        Some(b"08") => false,
        Some(b"04") => ![10, 12].contains(&line.len()),
        Some(b"05") => ![10, 16].contains(&line.len()),
        Some(b"09") => line.len() != 6,
        _ => true,
    })
}

/// Asks the programs from before, and keeps what they print.
pub fn keep(programs: &[&str; 2], path: &Path) -> io::Result<()> {
    let mut known = BTreeSet::new();
    let mut text = Vec::new();
    for wanted in &WANTED {
        for kept in of_sort(programs, wanted, &mut known)? {
            let (input, output) = (kept.input.len(), kept.output.len());
            text.extend(format!("{} {input} {output}\n", kept.kind.name()).into_bytes());
            text.extend(kept.input);
            text.extend(kept.output);
        }
    }
    fs::write(path, text)
}

/// As many files of one sort as are wanted, none of them twice.
fn of_sort(
    programs: &[&str; 2],
    &(kind, shortest, longest, refused, count): &Wanted,
    known: &mut BTreeSet<Vec<u8>>,
) -> io::Result<Vec<Kept>> {
    let mut all = Vec::new();
    let mut index = 0;
    while all.len() < count {
        let input = case(kind, SEED, index);
        index += 1;
        let fits = (shortest..=longest).contains(&input.len()) && is_old(&input);
        if !fits || known.contains(&input) {
            continue;
        }
        let output = printed(program(programs, kind), &input)?;
        if output.starts_with(b"ff") == refused {
            known.insert(input.clone());
            all.push(Kept {
                kind,
                input,
                output,
            });
        }
    }
    Ok(all)
}

fn program<'a>(programs: &[&'a str; 2], kind: Kind) -> &'a str {
    match kind {
        Kind::Verdict => programs[0],
        Kind::Run => programs[1],
    }
}

fn printed(program: &str, input: &[u8]) -> io::Result<Vec<u8>> {
    match ask(program, input, TIME_LIMIT) {
        Answer::Output(output) => Ok(output),
        Answer::Crash(reason) => Err(io::Error::other(reason)),
        Answer::TimeOut => Err(io::Error::other("time-out")),
    }
}

/// All kept files that are in the old frames still; an error where the text is not as it is written
/// here.
pub fn read(path: &Path) -> io::Result<Vec<Kept>> {
    let text = fs::read(path)?;
    let mut rest = &text[..];
    let mut all = Vec::new();
    while !rest.is_empty() {
        let kept = next_of(&mut rest);
        all.push(kept.ok_or_else(|| io::Error::other("no kept file"))?);
    }
    all.retain(|kept| is_old(&kept.input));
    Ok(all)
}

fn next_of(rest: &mut &[u8]) -> Option<Kept> {
    let end = rest.iter().position(|&byte| byte == 10)?;
    let head = std::str::from_utf8(&rest[..end]).ok()?;
    let mut words = head.split(' ');
    let kind = match words.next()? {
        "verdict" => Kind::Verdict,
        "run" => Kind::Run,
        _ => return None,
    };
    let (input, output): (usize, usize) =
        (words.next()?.parse().ok()?, words.next()?.parse().ok()?);
    let body = rest.get(end + 1..)?;
    let kept = Kept {
        kind,
        input: body.get(..input)?.to_vec(),
        output: body.get(input..input + output)?.to_vec(),
    };
    *rest = &body[input + output..];
    Some(kept)
}

/// Asks today's programs; prints one line in all, and true if they print what was kept.
pub fn compare(programs: &[&str; 2], path: &Path) -> io::Result<bool> {
    let all = read(path)?;
    let mut differing = 0;
    for (place, kept) in (1..).zip(&all) {
        let output = printed(program(programs, kept.kind), &kept.input);
        if output.as_ref().ok() != Some(&kept.output) {
            let output = output.map(|output| String::from_utf8_lossy(&output).into_owned());
            eprintln!("{} {place}: {output:?}", kept.kind.name());
            differing += 1;
        }
    }
    println!("{} kept files in old frames, {differing} differ", all.len());
    Ok(differing == 0 && !all.is_empty())
}
