//! What the programs `sentence` and `heard` print.

use crate::faults::Fault;
use crate::heard::read_sentence;
use crate::output::{line, verdict_line};
use crate::plan::{number_of, Cause, Plan};
use crate::reader::{read_archive, read_margins, read_plan, read_quote, Refusal, LONGEST_FILE};
use crate::sentence::{in_range, sentence};
use crate::verdict::{verdict, Verdict};

fn refused(cause: Cause, line: u16) -> Refusal {
    Refusal { cause, line }
}

// ---- sentence

/// The sentence of a new plan's fail, or why the file is refused. The faults of reader and verdict are
/// looked for in the verdict's own files.
pub fn sentence_answer(text: &[u8], fault: Fault) -> Result<Vec<u8>, Refusal> {
    let plan = read_judged(text, fault).map_err(|refusal| match fault {
        Fault::SentenceRefusedWithoutLine => Refusal { line: 0, ..refusal },
        _ => refusal,
    })?;
    let whole = |cause: Cause| refused(cause, 0);
    let answer = verdict(&plan, Fault::None).map_err(whole)?;
    if !answer.fails {
        return Ok(pass_line(&answer, fault));
    }
    let before = match fault {
        Fault::SentenceAfterVerdict => verdict_line(&answer, Fault::None),
        _ => Vec::new(),
    };
    let sets = [answer.bad, answer.reached, answer.left];
    let words = sentence(plan.n, &sets, fault).map_err(whole)?;
    let end = match fault {
        Fault::SentenceUnended => "",
        Fault::SentenceEndedTwice => "\n\n",
        Fault::SentenceWindowsEnd => "\r\n",
        _ => "\n",
    };
    Ok([&before, words.as_bytes(), end.as_bytes()].concat())
}

/// Opened as the verdict opens it.
fn read_judged(text: &[u8], fault: Fault) -> Result<Plan, Refusal> {
    match fault {
        Fault::SentenceOfArchive => read_archive(text, Fault::None).map(|filed| filed.plan),
        Fault::SentenceOfQuotes => read_quote(text, Fault::None),
        Fault::SentenceWithoutGroups => read_margins(text, Fault::None),
        _ => read_plan(text, Fault::None),
    }
}

fn pass_line(answer: &Verdict, fault: Fault) -> Vec<u8> {
    match fault {
        Fault::PassCapital => b"Pass\n".to_vec(),
        Fault::PassUnended => b"pass".to_vec(),
        Fault::PassStopped => b"pass.\n".to_vec(),
        Fault::PassEmpty => b"\n".to_vec(),
        Fault::PassNotPrinted => Vec::new(),
        Fault::PassAsVerdict => verdict_line(answer, Fault::None),
        _ => b"pass\n".to_vec(),
    }
}

// ---- heard

/// The verdict's line of a sentence that was heard, or why the file is refused: n on its first line, the
/// sentence on its second, and no more.
pub fn heard_answer(text: &[u8], fault: Fault) -> Result<Vec<u8>, Refusal> {
    let size = check_size(text, fault);
    if fault != Fault::HeardSizeLast {
        size?;
    }
    let (first, rest) = match text.iter().position(|&byte| byte == 10) {
        Some(end) => (&text[..end], Some(&text[end + 1..])),
        None => (text, None),
    };
    let n = terminals(first, fault).filter(|_| rest.is_some());
    let Some(n) = n else {
        return Err(wrong_first(text, rest, fault));
    };
    size?;
    let said = rest.and_then(|rest| second_line(rest, fault));
    let sets = match said {
        Some(said) => read_sentence(n, said, fault).map_err(|(cause, _)| cause),
        None => Err(Cause::Kind),
    };
    match sets {
        Ok([bad, reached, left]) => {
            let fails = true;
            let found = Verdict {
                fails,
                bad,
                reached,
                left,
            };
            Ok(fail_line(found, fault))
        }
        Err(cause) => Err(wrong_second(cause, said.is_none(), fault)),
    }
}

/// Cause 1 of the whole file.
fn check_size(text: &[u8], fault: Fault) -> Result<(), Refusal> {
    let most = match fault {
        Fault::HeardShorterFiles => LONGEST_FILE - 1,
        Fault::HeardLongerFiles => LONGEST_FILE + 1,
        _ => LONGEST_FILE,
    };
    let empty = text.is_empty() && fault != Fault::HeardEmptyAs4;
    match empty || text.len() > most {
        true if fault == Fault::HeardSizeWithLine => Err(refused(Cause::Text, 1)),
        true => Err(refused(Cause::Text, 0)),
        false => Ok(()),
    }
}

/// n in decimal, from 2 to 20, without leading zeros.
fn terminals(first: &[u8], fault: Fault) -> Option<u32> {
    let word = std::str::from_utf8(first).ok()?;
    let word = match fault {
        Fault::HeardNTrimmed => word.trim_matches(' '),
        Fault::HeardNWindowsEnd => word.strip_suffix('\r').unwrap_or(word),
        Fault::HeardNByFirstWord => word.split(' ').next()?,
        _ => word,
    };
    let n = match fault {
        Fault::HeardNInHex => u32::from_str_radix(word, 16).ok()?,
        _ => word.parse::<u32>().ok()?,
    };
    let n = match fault {
        Fault::HeardNAsByte => n % 256,
        _ => n,
    };
    let as_written = match fault {
        Fault::HeardNLeadingZeros => !word.starts_with('+'),
        Fault::HeardNPlusSign => word.strip_prefix('+').unwrap_or(word) == n.to_string(),
        Fault::HeardNTwoDigits => word.len() == 2,
        Fault::HeardNInHex => word == format!("{n:x}"),
        Fault::HeardNAsByte => !word.starts_with('0'),
        _ => word == n.to_string(),
    };
    let counted = match fault {
        Fault::HeardN21 => n == 21 || in_range(n),
        Fault::HeardN1 => n == 1 || in_range(n),
        Fault::HeardNNotChecked => n < 256,
        _ => in_range(n),
    };
    (as_written && counted).then_some(n)
}

/// The sentence without its line end, after which there is nothing.
fn second_line(rest: &[u8], fault: Fault) -> Option<&[u8]> {
    let ended = rest.strip_suffix(b"\n");
    let line = rest.split(|&byte| byte == 10).next();
    match fault {
        Fault::HeardUnended => ended.or(Some(rest)),
        Fault::HeardThirdLine if rest.contains(&10) => line,
        Fault::HeardEmptyThirdLine => rest.strip_suffix(b"\n\n").or(ended),
        Fault::HeardWindowsEnd => rest.strip_suffix(b"\r\n").or(ended),
        _ => ended,
    }
}

/// Cause 4 with line 1, whatever the first line is, and whether or not it has an end.
fn wrong_first(text: &[u8], rest: Option<&[u8]>, fault: Fault) -> Refusal {
    let line_only = rest.is_none();
    match fault {
        Fault::HeardNWithoutLine => refused(Cause::Head, 0),
        Fault::HeardNOnLine2 => refused(Cause::Head, 2),
        Fault::HeardNForeignAs1 if !text[0].is_ascii_digit() => refused(Cause::Text, 1),
        Fault::HeardNoLineEndAs1 if line_only => refused(Cause::Text, 1),
        Fault::HeardNoLineEndAs2 if line_only => refused(Cause::Kind, 2),
        Fault::HeardTextBeforeN if !rest.is_some_and(|rest| rest.ends_with(b".\n")) => {
            refused(Cause::Kind, 2)
        }
        _ => refused(Cause::Head, 1),
    }
}

/// Cause 2 with line 2.
fn wrong_second(cause: Cause, unended: bool, fault: Fault) -> Refusal {
    match fault {
        Fault::HeardUnendedAs1 if unended => refused(Cause::Text, 2),
        Fault::HeardTextWithoutLine => refused(cause, 0),
        Fault::HeardTextOnLine1 => refused(cause, 1),
        _ => refused(cause, 2),
    }
}

fn fail_line(found: Verdict, fault: Fault) -> Vec<u8> {
    let mut told = verdict_line(&found, Fault::None);
    match fault {
        Fault::HeardLineUnended => drop(told.pop()),
        Fault::HeardLineCapital => told.make_ascii_uppercase(),
        Fault::HeardAsPass => told[3] = b'0',
        Fault::HeardSetsInFour => {
            let sets = [found.bad, found.reached, found.left];
            let bytes = sets.iter().flat_map(|set| number_of(set).to_be_bytes());
            told = line(&[0x81, 1].into_iter().chain(bytes).collect::<Vec<u8>>());
        }
        Fault::HeardReachedUntold => told[10..16].fill(b'0'),
        _ => {}
    }
    told
}
