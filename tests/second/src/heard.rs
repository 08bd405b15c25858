//! The fail in sentences, read back: what was heard on the phone becomes the three sets again.

use crate::faults::Fault;
use crate::plan::{Cause, Set, MOST_TERMINALS};
use crate::sentence::{in_range, Sets};

/// The sets that a sentence names, L being the rest. Causes 4 and 2, in this order, and the sets beside
/// them, which are empty.
pub fn read_sentence(n: u32, text: &[u8], fault: Fault) -> Result<Sets, (Cause, Sets)> {
    let counted = match fault {
        Fault::HeardOfOne => n == 1 || in_range(n),
        Fault::HeardOf19 => n < MOST_TERMINALS && in_range(n),
        Fault::HeardOf21 => n == 21 || in_range(n),
        Fault::HeardOfAnyN => n < 32,
        _ => in_range(n),
    };
    let named = named(&eased(text, fault), fault);
    let sets = named.as_ref().and_then(|named| sets_of(n, named, fault));
    match sets {
        Some(sets) if counted => Ok(told(n, sets, fault)),
        None if counted || fault == Fault::HeardTextBeforeN => {
            let cause = match fault {
                Fault::HeardTextAs1 => Cause::Text,
                Fault::HeardNumberAs5 if named.is_some() => Cause::LinkEnd,
                _ => Cause::Kind,
            };
            Err((cause, beside(named, fault)))
        }
        _ => Err((Cause::Head, beside(named, fault))),
    }
}

/// The numbers of the silent ones and of those that wait, as they stand in the text.
type Named = [Vec<u32>; 2];

// ---- from text to numbers

fn named(text: &[u8], fault: Fault) -> Option<Named> {
    let text = std::str::from_utf8(text).ok()?;
    let (silent, rest) = match after_even(text, fault) {
        Some(rest) => (Vec::new(), rest),
        None => silent_part(text, fault)?,
    };
    Some([silent, waiting_part(rest, fault)?])
}

/// What follows where nobody is silent.
fn after_even(text: &str, fault: Fault) -> Option<&str> {
    let phrase = "Even if all work, ";
    match fault {
        Fault::HeardEvenRefused => None,
        Fault::HeardFirstByteNotCompared => text.get(1..)?.strip_prefix(&phrase[1..]),
        Fault::HeardEmptyIf => text
            .strip_prefix("If stay silent, ")
            .or_else(|| text.strip_prefix(phrase)),
        Fault::HeardEvenNotCompared if text.starts_with('E') => text.get(phrase.len()..),
        _ => text.strip_prefix(phrase),
    }
}

fn silent_part(text: &str, fault: Fault) -> Option<(Vec<u32>, &str)> {
    let text = match fault {
        Fault::HeardFirstByteNotCompared => text.get(1..)?.strip_prefix("f ")?,
        Fault::HeardIfNotCompared => text.get(3..)?,
        _ => text.strip_prefix("If ")?,
    };
    let (words, rest) = match fault {
        Fault::HeardSilentNotCompared => {
            let at = text.find(" stay")? + 5;
            let at = at + usize::from(text.get(at..)?.starts_with('s'));
            (text.get(..at)?, text.get(at + " silent, ".len()..)?)
        }
        _ => text.split_once(" silent, ")?,
    };
    let (list, verb) = words.rsplit_once(' ')?;
    let silent = numbers(list, fault)?;
    let one = silent.len() == 1;
    let right = match (verb, fault) {
        ("stay", Fault::HeardStayOfOne) | ("stays", Fault::HeardStaysOfSeveral) => true,
        ("stay", Fault::HeardOneAlwaysStay) => true,
        ("stays", Fault::HeardOneAlwaysStay) => false,
        ("stay", _) => !one,
        ("stays", _) => one,
        _ => false,
    };
    right.then_some((silent, rest))
}

fn waiting_part(text: &str, fault: Fault) -> Option<Vec<u32>> {
    let (list, words) = text.split_once(" never ")?;
    let (verb, end) = words.split_once(' ')?;
    let ends = match fault {
        Fault::HeardEndNotCompared => true,
        Fault::HeardStopNotCompared => end.len() == 11 && end.starts_with("the notice"),
        Fault::HeardBeginOfEnd => end.starts_with("the notice."),
        _ => end == "the notice.",
    };
    let waiting = numbers(list, fault)?;
    let one = waiting.len() == 1;
    let right = match (verb, fault) {
        ("get", Fault::HeardGetOfOne) | ("gets", Fault::HeardGetsOfSeveral) => true,
        ("get", _) => !one,
        ("gets", _) => one,
        _ => false,
    };
    (ends && right).then_some(waiting)
}

/// At least one number, a comma between and "and" before the last.
fn numbers(list: &str, fault: Fault) -> Option<Vec<u32>> {
    let list = match fault {
        Fault::HeardCommaBeforeAnd => list.replace(", and ", " and "),
        Fault::HeardNoBlankAfterComma => list.replace(", ", ",").replace(',', ", "),
        Fault::HeardAndThroughout if list.contains(" and ") => {
            let listed = list.replace(" and ", ", ");
            let (front, last) = listed.rsplit_once(", ")?;
            format!("{front} and {last}")
        }
        Fault::HeardCommaForAnd if !list.contains(" and ") => match list.rsplit_once(", ") {
            Some((front, last)) => format!("{front} and {last}"),
            None => list.to_string(),
        },
        _ => list.to_string(),
    };
    let words: Vec<&str> = match list.split_once(" and ") {
        Some((front, last)) => front.split(", ").chain([last]).collect(),
        None => vec![&list],
    };
    let numbers: Option<Vec<u32>> = words.iter().map(|word| number(word, fault)).collect();
    numbers.filter(|numbers| is_ordered(numbers, fault))
}

/// Each is greater than the one before.
fn is_ordered(numbers: &[u32], fault: Fault) -> bool {
    let mut pairs = numbers.windows(2).map(|pair| (pair[0], pair[1]));
    match fault {
        Fault::HeardUnordered => pairs.all(|(one, next)| one != next),
        Fault::HeardTwice => pairs.all(|(one, next)| one <= next),
        Fault::HeardDescending => pairs.all(|(one, next)| one > next),
        Fault::HeardLastUnordered => {
            let last = numbers.len().saturating_sub(2);
            pairs.take(last).all(|(one, next)| one < next)
        }
        _ => pairs.all(|(one, next)| one < next),
    }
}

/// A number as it is written, without leading zeros.
fn number(word: &str, fault: Fault) -> Option<u32> {
    let value: u64 = word.parse().ok()?;
    let digits = word.strip_prefix('+').unwrap_or(word);
    let as_written = match fault {
        Fault::HeardLeadingZeros => digits == word,
        Fault::HeardPlusSign => value.to_string() == digits,
        Fault::HeardOneDigit => value.to_string() == word && word.len() == 1,
        _ => value.to_string() == word,
    };
    let value = match fault {
        Fault::HeardNumberAsByte => value % 256,
        Fault::HeardNumberAsWord => value % (1 << 32),
        Fault::HeardFromOne => value.checked_sub(1)?,
        _ => value,
    };
    as_written.then_some(u32::try_from(value).ok()?)
}

// ---- from numbers to sets

/// F and R of different terminals below n, and L, the rest, in which is somebody.
fn sets_of(n: u32, [silent, waiting]: &Named, fault: Fault) -> Option<Sets> {
    let silent: Set = silent.iter().copied().collect();
    let waiting: Set = waiting.iter().copied().collect();
    let most = match fault {
        Fault::HeardTerminalN => n + 1,
        Fault::HeardTerminalsTo19 => n.max(MOST_TERMINALS),
        Fault::HeardTerminalsAbove => 32,
        _ => n,
    };
    let within = silent.iter().chain(&waiting).all(|&one| one < most);
    let apart = silent.is_disjoint(&waiting) || fault == Fault::HeardInBoth;
    let rest = |one: &u32| !silent.contains(one) && !waiting.contains(one);
    let reached: Set = (0..n).filter(rest).collect();
    let someone = match fault {
        Fault::HeardReachedEmpty => true,
        Fault::HeardZeroIsSource => reached.contains(&0),
        Fault::HeardTwoReached => reached.len() > 1,
        _ => !reached.is_empty(),
    };
    (within && apart && someone).then_some([silent, reached, waiting])
}

// ---- planted faults

/// The text as it is compared: every byte as it is, but for planted faults.
fn eased(text: &[u8], fault: Fault) -> Vec<u8> {
    let without = |end: &[u8]| text.strip_suffix(end).unwrap_or(text).to_vec();
    let changed = |byte_of: fn(u8) -> u8| text.iter().map(|&byte| byte_of(byte)).collect();
    match fault {
        Fault::HeardDoubledBlank => {
            let mut eased = text.to_vec();
            eased.dedup_by(|next, one| (*next, *one) == (b' ', b' '));
            eased
        }
        Fault::HeardTrimmed => text.trim_ascii().to_vec(),
        Fault::HeardBlankBefore => text.trim_ascii_start().to_vec(),
        Fault::HeardLineEnd => without(b"\n"),
        Fault::HeardCarriageReturn => without(b"\r"),
        Fault::HeardStoppedTwice if text.ends_with(b"..") => without(b"."),
        Fault::HeardUnstopped if !text.ends_with(b".") => [text, b"."].concat(),
        Fault::HeardAnyCase => any_case(text),
        Fault::HeardSmallFirst => capital_first(text),
        Fault::HeardTabAsBlank => changed(|byte| if byte == 9 { b' ' } else { byte }),
        Fault::HeardHighBitIgnored => changed(|byte| byte % 128),
        Fault::HeardToFirstZero => text.split(|&byte| byte == 0).next().unwrap_or(text).into(),
        _ => text.to_vec(),
    }
}

fn any_case(text: &[u8]) -> Vec<u8> {
    capital_first(&text.to_ascii_lowercase())
}

fn capital_first(text: &[u8]) -> Vec<u8> {
    let mut text = text.to_vec();
    if let Some(first) = text.first_mut() {
        first.make_ascii_uppercase();
    }
    text
}

/// What is returned of a right sentence.
fn told(n: u32, [silent, reached, waiting]: Sets, fault: Fault) -> Sets {
    match fault {
        Fault::HeardSetsExchanged => [waiting, reached, silent],
        Fault::HeardReachedAndWaiting => [silent, waiting, reached],
        Fault::HeardReachedNotTold => [silent, Set::new(), waiting],
        Fault::HeardReachedAll => [silent, (0..n).collect(), waiting],
        Fault::HeardReachedNotSilent => {
            let rest = (0..n).filter(|one| !silent.contains(one)).collect();
            [silent, rest, waiting]
        }
        Fault::HeardReachedTo19 => {
            let all = 0..MOST_TERMINALS;
            let rest = |one: &u32| !silent.contains(one) && !waiting.contains(one);
            let rest = all.filter(rest).collect();
            [silent, rest, waiting]
        }
        _ => [silent, reached, waiting],
    }
}

/// What stands beside a refusal: nothing.
fn beside(named: Option<Named>, fault: Fault) -> Sets {
    match (fault, named) {
        (Fault::HeardSetsBesideRefusal, Some([silent, waiting])) => {
            let below = |list: Vec<u32>| list.into_iter().filter(|&one| one < 32).collect();
            [below(silent), Set::new(), below(waiting)]
        }
        _ => [(); 3].map(|()| Set::new()),
    }
}
