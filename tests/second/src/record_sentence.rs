//! Recorded calls of the fail in sentences: composed, and read back.

use crate::faults::Fault;
use crate::heard_files::{
    by_hand, by_hand_file, every_sentence, heard_case, hearing_answer, hearing_case, listed_file,
    sized_file, spoilt, HeardCase,
};
use crate::plan::Cause;
use crate::reader::LONGEST_FILE;
use crate::record::{quad, roomed_call, whole_call, written, Call, HEARD, SENTENCE};
use crate::sentence::words;
use crate::sentence_files::{
    compose_answer, compose_case, every, sentence_case, wrong_sets, ComposeCase,
};

// ---- files

pub(crate) fn sentence_call(seed: u64, index: u64) -> Call {
    roomed_call(SENTENCE, sentence_case(seed, index), seed, index)
}

/// No byte, and more than a file may have.
pub(crate) fn sized_sentence_call(_: u64, index: u64) -> Call {
    let size = [0, LONGEST_FILE + 1][index as usize];
    let file = b"01030001\n".iter().chain(b"020001\n".iter().cycle());
    whole_call(SENTENCE, file.copied().take(size).collect())
}

pub(crate) fn heard_call(seed: u64, index: u64) -> Call {
    roomed_call(HEARD, heard_case(seed, index), seed, index)
}

/// First lines and ends of every sort, with room for the whole answer.
pub(crate) fn listed_heard_call(_: u64, index: u64) -> Call {
    whole_call(HEARD, listed_file(index))
}

pub(crate) fn by_hand_call(_: u64, index: u64) -> Call {
    whole_call(HEARD, by_hand_file(index))
}

pub(crate) fn sized_heard_call(_: u64, index: u64) -> Call {
    whole_call(HEARD, sized_file(index))
}

// ---- the composer

pub(crate) fn composed_call(seed: u64, index: u64) -> Call {
    composed(&compose_case(seed, index))
}

/// Every way to part up to four terminals, with just as much room as the words need.
pub(crate) fn composed_every_call(_: u64, index: u64) -> Call {
    let (n, sets) = every(index);
    let room = words(&sets, Fault::None).len();
    composed(&ComposeCase { n, sets, room })
}

pub(crate) fn wrong_sets_call(_: u64, index: u64) -> Call {
    composed(&wrong_sets(index))
}

/// n and the sets. The number, the text's length, and the whole list.
fn composed(case: &ComposeCase) -> Call {
    let (answer, list) = compose_answer(case, Fault::None);
    let (number, length) = match answer {
        Ok(length) => (0, length),
        Err((cause, length)) => (cause.number(), length),
    };
    let sets = case.sets.iter().flat_map(quad);
    Call {
        kind: b'E',
        lent: case.room,
        body: [case.n as u8].into_iter().chain(sets).collect(),
        line: written(number, length, &list),
    }
}

// ---- the reader

pub(crate) fn hearing_call(seed: u64, index: u64) -> Call {
    hearing(&hearing_case(seed, index))
}

pub(crate) fn hearing_every_call(_: u64, index: u64) -> Call {
    hearing(&every_sentence(index))
}

pub(crate) fn hearing_by_hand_call(_: u64, index: u64) -> Call {
    hearing(&by_hand(index))
}

pub(crate) fn spoilt_call(_: u64, index: u64) -> Call {
    hearing(&spoilt(index))
}

/// n and the text. The number, and the three sets.
fn hearing(case: &HeardCase) -> Call {
    let answer = hearing_answer(case, Fault::None);
    let number = answer
        .as_ref()
        .map_or_else(|(cause, _)| Cause::number(*cause), |_| 0);
    let sets = answer.unwrap_or_else(|(_, sets)| sets);
    let sets = sets.iter().flat_map(quad);
    Call {
        kind: b'H',
        lent: 0,
        body: [&[case.n as u8], &case.text[..]].concat(),
        line: [number].into_iter().chain(sets).collect(),
    }
}
