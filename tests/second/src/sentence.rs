//! The fail in sentences, as fitters read it by phone: composed from the three sets.

use crate::faults::Fault;
use crate::plan::{number_of, Cause, Set, FEWEST_TERMINALS, MOST_TERMINALS};

/// F, L and R: the silent ones, those that are reached, and those that wait.
pub type Sets = [Set; 3];

/// Composes the sentence into a lent list and returns its length. Causes 4, 2 and 12, in this order, and
/// the length beside them, which is 0.
pub fn compose(
    n: u32,
    sets: &Sets,
    list: &mut [u8],
    fault: Fault,
) -> Result<usize, (Cause, usize)> {
    let text = words(sets, fault).into_bytes();
    let short = match fault {
        Fault::SentenceExactRefused => list.len() <= text.len(),
        _ => list.len() < text.len(),
    };
    let cause = match (check(n, sets, fault), fault) {
        (Err(Cause::Kind), Fault::SentenceLengthBeforeSets) if short => Some(Cause::Length),
        (Err(Cause::Head), Fault::SentenceLengthBeforeN) if short => Some(Cause::Length),
        (Ok(()), _) if short => Some(Cause::Length),
        (checked, _) => checked.err(),
    };
    match cause {
        None => Ok(put(&text, list, fault)),
        Some(cause) => Err((cause, leave(cause, &text, list, fault))),
    }
}

/// The sentence of these sets, or why there is none.
pub fn sentence(n: u32, sets: &Sets, fault: Fault) -> Result<String, Cause> {
    check(n, sets, fault)?;
    Ok(words(sets, fault))
}

// ---- what is refused

/// Whether a plan may have so many terminals.
pub fn in_range(n: u32) -> bool {
    (FEWEST_TERMINALS..=MOST_TERMINALS).contains(&n)
}

/// Causes 4 and 2, in this order.
fn check(n: u32, sets: &Sets, fault: Fault) -> Result<(), Cause> {
    let counted = match fault {
        Fault::SentenceOfOne => n == 1 || in_range(n),
        Fault::SentenceOf19 => n < MOST_TERMINALS && in_range(n),
        Fault::SentenceOf21 => n == 21 || in_range(n),
        Fault::SentenceOfAnyN => true,
        _ => in_range(n),
    };
    let wrong = match fault {
        Fault::SentenceWrongSetsAs5 => Cause::LinkEnd,
        Fault::SentenceWrongSetsAs7 => Cause::BadSetMember,
        _ => Cause::Kind,
    };
    match (counted, is_fail(n, sets, fault)) {
        (_, false) if counted || fault == Fault::SentenceSetsBeforeN => Err(wrong),
        (false, _) => Err(Cause::Head),
        _ => Ok(()),
    }
}

/// Whether these can be the sets of a fail, whoever is the source.
fn is_fail(n: u32, sets: &Sets, fault: Fault) -> bool {
    let [silent, reached, waiting] = sets;
    let someone_reached = !reached.is_empty() || fault == Fault::SentenceReachedEmptyAccepted;
    let someone_waits = !waiting.is_empty() || fault == Fault::SentenceWaitingEmptyAccepted;
    let others = match fault {
        Fault::SentenceEmptySilentRefused => !silent.is_empty(),
        Fault::SentenceZeroIsSource => reached.contains(&0),
        _ => true,
    };
    someone_reached && someone_waits && others && is_partition(n, sets, fault)
}

/// Every terminal is in one of the sets, and nobody else is: all members in a row are 0 to n-1.
fn is_partition(n: u32, sets: &Sets, fault: Fault) -> bool {
    let sets = looked_at(n, sets, fault);
    let mut members: Vec<u32> = sets.iter().flatten().copied().collect();
    members.sort_unstable();
    let rises = members.windows(2).all(|pair| pair[0] < pair[1]);
    let within = members.last().is_none_or(|&last| last < n);
    let numbers = sets.each_ref().map(|set| u64::from(number_of(set)));
    let whole = 2u64.pow(n.min(63)) - 1;
    match fault {
        Fault::SentenceReachedNotCompared | Fault::SentenceMissingAccepted => rises && within,
        Fault::SentenceOverlapAccepted => {
            members.dedup();
            members.into_iter().eq(0..n)
        }
        Fault::SentenceSetsCounted => members.len() == n as usize,
        Fault::SentenceSetsSummed => numbers.iter().sum::<u64>() == whole,
        Fault::SentenceSetsXored => numbers.iter().fold(0, |all, set| all ^ set) == whole,
        Fault::SentenceMemberNAccepted if members.last() == Some(&n) => {
            members.into_iter().eq(0..=n)
        }
        _ => members.into_iter().eq(0..n),
    }
}

/// The sets as they are looked at: all of them, but for planted faults.
fn looked_at(n: u32, sets: &Sets, fault: Fault) -> Sets {
    let mut seen = sets.clone();
    let [silent, reached, waiting] = &mut seen;
    match fault {
        Fault::SentenceReachedNotCompared => reached.clear(),
        Fault::SentenceSilentAndReached => reached.retain(|one| !silent.contains(one)),
        Fault::SentenceSilentAndWaiting => waiting.retain(|one| !silent.contains(one)),
        Fault::SentenceReachedAndWaiting => waiting.retain(|one| !reached.contains(one)),
        Fault::SentenceAboveInSilent => silent.retain(|&one| one < n),
        Fault::SentenceAboveInReached => reached.retain(|&one| one < n),
        Fault::SentenceAboveInWaiting => waiting.retain(|&one| one < n),
        Fault::SentenceAbove19Accepted => {
            let below = |set: &mut Set| set.retain(|&one| one < MOST_TERMINALS);
            seen.iter_mut().for_each(below);
        }
        _ => {}
    }
    seen
}

// ---- the words

/// The words of any three sets, of a fail or not.
pub(crate) fn words(sets: &Sets, fault: Fault) -> String {
    let [silent, reached, waiting] = sets;
    let (silent, waiting) = match fault {
        Fault::SentenceSetsExchanged => (waiting, silent),
        Fault::SentenceReachedNamed => (silent, reached),
        Fault::SentenceReachedSilent => (reached, waiting),
        _ => (silent, waiting),
    };
    let (one_silent, one_waits) = match fault {
        Fault::SentenceVerbsExchanged => (waiting.len() == 1, silent.len() == 1),
        Fault::SentenceVerbsByLast => (silent.last() == Some(&1), waiting.last() == Some(&1)),
        _ => (silent.len() == 1, waiting.len() == 1),
    };
    let first = silent_part(silent, one_silent, fault);
    let verb = match (one_waits, fault) {
        (true, Fault::SentenceGetOfOne) => "get",
        (false, Fault::SentenceGetsOfSeveral) => "gets",
        (true, _) => "gets",
        (false, _) => "get",
    };
    let end = match fault {
        Fault::SentenceUnstopped => "",
        Fault::SentenceStoppedTwice => "..",
        Fault::SentenceEndedInText => ".\n",
        _ => ".",
    };
    let notice = match fault {
        Fault::SentenceNoticeCapital => "Notice",
        _ => "notice",
    };
    format!(
        "{first}{} never {verb} the {notice}{end}",
        listed(waiting, fault)
    )
}

/// The part about the silent ones, with the blank after it.
fn silent_part(silent: &Set, one: bool, fault: Fault) -> String {
    let verb = match (one, fault) {
        (true, Fault::SentenceStayOfOne) => "stay",
        (false, Fault::SentenceStaysOfSeveral) => "stays",
        (true, _) => "stays",
        (false, _) => "stay",
    };
    let numbers = listed(silent, fault);
    match fault {
        Fault::SentenceEmptyAsIf => format!("If {numbers} {verb} silent, "),
        Fault::SentenceEmptyAsNobody if silent.is_empty() => "If nobody stays silent, ".into(),
        Fault::SentenceEmptySmall if silent.is_empty() => "even if all work, ".into(),
        Fault::SentenceEmptyNoComma if silent.is_empty() => "Even if all work ".into(),
        _ if silent.is_empty() => "Even if all work, ".into(),
        Fault::SentenceSmallIf => format!("if {numbers} {verb} silent, "),
        Fault::SentenceNoComma => format!("If {numbers} {verb} silent "),
        _ => format!("If {numbers} {verb} silent, "),
    }
}

/// Numbers ascending, a comma between and "and" before the last.
fn listed(set: &Set, fault: Fault) -> String {
    let mut names: Vec<String> = set.iter().map(|&one| name(one, fault)).collect();
    match fault {
        Fault::SentenceDescending => names.reverse(),
        Fault::SentenceInTextOrder => names.sort(),
        Fault::SentenceLastForgotten => drop(names.pop()),
        _ => {}
    }
    let (comma, last_comma) = match fault {
        Fault::SentenceCommaBeforeAnd if names.len() > 2 => (", ", ", and "),
        Fault::SentenceCommaBeforeEveryAnd => (", ", ", and "),
        Fault::SentenceCommaForAnd => (", ", ", "),
        Fault::SentenceAndThroughout => (" and ", " and "),
        Fault::SentenceNoBlankAfterComma => (",", " and "),
        _ => (", ", " and "),
    };
    joined(&names, comma, last_comma)
}

/// One before the last stands between the last two, the other between those before.
pub(crate) fn joined(names: &[String], comma: &str, last_comma: &str) -> String {
    match names.split_last() {
        Some((last, [])) => last.clone(),
        Some((last, front)) => format!("{}{last_comma}{last}", front.join(comma)),
        None => String::new(),
    }
}

fn name(terminal: u32, fault: Fault) -> String {
    match fault {
        Fault::SentenceFromOne => format!("{}", terminal + 1),
        Fault::SentenceTwoDigits => format!("{terminal:02}"),
        Fault::SentenceInHex => format!("{terminal:x}"),
        Fault::SentenceLastDigit => format!("{}", terminal % 10),
        _ => format!("{terminal}"),
    }
}

// ---- the lent list

/// The text in front; the bytes after it stay. Returns the text's length.
fn put(text: &[u8], list: &mut [u8], fault: Fault) -> usize {
    let (front, after) = list.split_at_mut(text.len());
    front.copy_from_slice(text);
    match fault {
        Fault::SentenceRestCleared => after.fill(0),
        Fault::SentenceRestBlank => after.fill(b' '),
        Fault::SentenceEndedInList if !after.is_empty() => after[0] = 10,
        _ => {}
    }
    match fault {
        Fault::SentenceLengthOfList => list.len(),
        Fault::SentenceLengthOneMore => text.len() + 1,
        Fault::SentenceLengthWithoutStop => text.len() - 1,
        _ => text.len(),
    }
}

/// Nothing is changed where the call is refused, and the length is 0.
fn leave(cause: Cause, text: &[u8], list: &mut [u8], fault: Fault) -> usize {
    let short = cause == Cause::Length;
    match fault {
        Fault::SentenceCutOff if short => list.copy_from_slice(&text[..list.len()]),
        Fault::SentenceWrongSetsWritten if cause == Cause::Kind => {
            let front = list.iter_mut().zip(text);
            front.for_each(|(place, &byte)| *place = byte);
        }
        Fault::SentenceRefusedListCleared => list.fill(0),
        Fault::SentenceLengthBesideRefusal if short => return text.len(),
        _ => {}
    }
    0
}
