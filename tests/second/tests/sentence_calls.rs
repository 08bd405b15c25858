//! The fail in sentences among the recorded calls, and which of them show a planted fault.

mod common;

use common::bytes::Bytes;
use common::calls::{calls_of, check, numbers, read_back, tally, Faults};
use common::{heard_bytes, sentence_bytes, verdict_bytes};
use second::faults::Fault;
use second::heard_files::{hearing_answer, HeardCase};
use second::output::{heard_text, sentence_text};
use second::plan::{number_of, set_of, Cause};
use second::record::Call;
use second::sentence::{sentence, Sets};
use second::sentence_files::{compose_answer, ComposeAnswer, ComposeCase};
use second::{planted_heard, planted_sentence};
use std::collections::BTreeSet;

// ---- files

/// With room and without, of answers and of refusals.
#[test]
fn files_are_read_back() {
    for (kind, text_of) in [
        (b'e', sentence_bytes as fn(&[u8]) -> String),
        (b'h', heard_bytes),
    ] {
        let (fits, short) = read_back(kind, text_of);
        assert!(fits.iter().all(|&count| count > 25), "{fits:?}");
        assert!(short.iter().all(|&count| count > 5), "{short:?}");
        assert!(calls_of(kind).iter().all(|call| call.lent <= 400));
    }
}

/// How many a list of a sentence names.
fn named(list: &str) -> &'static str {
    match list
        .split([',', ' '])
        .filter(|word| word.parse::<u32>().is_ok())
        .count()
    {
        0 => "nobody",
        1 => "one",
        2 => "two",
        _ => "more",
    }
}

/// What a printed sentence says, or a refusal.
fn marks_of_plan(text: &[u8]) -> BTreeSet<String> {
    let said = sentence_bytes(text);
    if said.starts_with("ff") {
        assert_eq!(said, verdict_bytes(text));
        return BTreeSet::from([format!("refused {}", &said[2..4])]);
    }
    let Some((first, rest)) = said.split_once(", ").filter(|_| said != "pass\n") else {
        return BTreeSet::from([said]);
    };
    // The silent part may have commas of its own.
    let (first, rest) = said.split_once(" silent, ").unwrap_or((first, rest));
    BTreeSet::from([
        format!("{} silent", named(first)),
        format!("{} waiting", named(rest)),
        format!("n {}", &String::from_utf8_lossy(&text[2..4])),
    ])
}

const NEEDED_PLANS: [(&str, u32); 17] = [
    ("pass\n", 20),
    ("nobody silent", 15),
    ("one silent", 10),
    ("two silent", 10),
    ("more silent", 5),
    ("one waiting", 15),
    ("two waiting", 10),
    ("more waiting", 15),
    ("n 03", 5),
    ("n 14", 1),
    ("refused 01", 5),
    ("refused 02", 3),
    ("refused 03", 5),
    ("refused 04", 3),
    ("refused 06", 2),
    ("refused 0f", 5),
    ("refused 11", 3),
];

#[test]
fn needed_plans_are_there() {
    let calls = calls_of(b'e');
    assert!((235..=242).contains(&calls.len()), "{}", calls.len());
    let recorded = tally(calls.iter().map(|call| marks_of_plan(&call.body)));
    check("recorded", &recorded, &NEEDED_PLANS);
}

/// The number and the line of a refusal, beside what the file looks like.
fn marks_of_heard(text: &[u8]) -> BTreeSet<String> {
    let printed = heard_bytes(text);
    let lines = text.iter().filter(|&&byte| byte == 10).count();
    BTreeSet::from([match &printed[..4] {
        "8101" => "fail".into(),
        "ff01" if text.is_empty() => "empty".into(),
        "ff01" => "too long".into(),
        "ff04" if lines == 0 => "4 without a line end".into(),
        "ff04" => "4".into(),
        _ if lines > 2 => "2 with more lines".into(),
        _ if lines == 1 => "2 without an end".into(),
        _ => "2".into(),
    }])
}

const NEEDED_HEARD: [(&str, u32); 8] = [
    ("fail", 80),
    ("empty", 1),
    ("too long", 1),
    ("4", 70),
    ("4 without a line end", 8),
    ("2", 50),
    ("2 with more lines", 10),
    ("2 without an end", 5),
];

#[test]
fn needed_files_are_there() {
    let calls = calls_of(b'h');
    assert!((435..=440).contains(&calls.len()), "{}", calls.len());
    let recorded = tally(calls.iter().map(|call| marks_of_heard(&call.body)));
    check("recorded", &recorded, &NEEDED_HEARD);
    for n in 2..=20 {
        let first = format!("{n}\n").into_bytes();
        let mut files = calls.iter().filter(|call| call.body.starts_with(&first));
        assert!(files.any(|call| call.line[0] == 0), "{n}");
    }
}

// ---- calls

/// What a call of the composer says.
fn composed_of(call: &Call) -> ComposeCase {
    let mut body = Bytes(&call.body);
    let n = u32::from(body.byte());
    let sets = [(); 3].map(|()| set_of(body.quad()));
    assert!(body.0.is_empty() && call.lent <= 400);
    let room = call.lent;
    ComposeCase { n, sets, room }
}

/// What a call of the reader says.
fn heard_of(call: &Call) -> HeardCase {
    let mut body = Bytes(&call.body);
    let n = u32::from(body.byte());
    let text = body.0.to_vec();
    assert_eq!(call.lent, 0);
    HeardCase { n, text }
}

/// The text in front and marks after it, or marks alone.
#[test]
fn composed_calls_are_read_back() {
    let mut rooms = [0; 4];
    for call in calls_of(b'E') {
        let case = composed_of(&call);
        let expected = sentence(case.n, &case.sets, Fault::None).map_err(Cause::number);
        let room = |text: &String| case.room as i64 - text.len() as i64;
        let short = expected.as_ref().is_ok_and(|text| room(text) < 0);
        let mut line = Bytes(&call.line);
        let number = line.byte();
        let written = usize::from(line.pair());
        assert_eq!(line.0.len(), case.room);
        assert!(line.0[written..].iter().all(|&byte| byte == 0x5a));
        match &expected {
            Ok(_) if short => assert_eq!((number, written), (12, 0)),
            Ok(text) => {
                assert_eq!((number, written), (0, text.len()));
                assert_eq!(&line.0[..written], text.as_bytes());
            }
            Err(cause) => assert_eq!((number, written), (*cause, 0)),
        }
        if let Ok(text) = &expected {
            rooms[(room(text).clamp(-2, 1) + 2) as usize] += 1;
        }
    }
    assert!(rooms.iter().all(|&count| count > 15), "{rooms:?}");
}

#[test]
fn heard_calls_are_read_back() {
    for call in calls_of(b'H') {
        let answer = hearing_answer(&heard_of(&call), Fault::None);
        let mut line = Bytes(&call.line);
        let number = line.byte();
        let sets: Sets = [(); 3].map(|()| set_of(line.quad()));
        assert!(line.0.is_empty());
        match answer {
            Ok(found) => assert_eq!((number, sets), (0, found)),
            Err((cause, _)) => {
                assert_eq!(number, cause.number());
                assert_eq!(sets.each_ref().map(number_of), [0; 3]);
            }
        }
    }
}

/// Every fail of up to four terminals, every n, and every wrong n.
#[test]
fn needed_calls_are_there() {
    let (composed, heard) = (calls_of(b'E'), calls_of(b'H'));
    assert_eq!((composed.len(), heard.len()), (494, 822));
    let count = |calls: &[Call], n: u8, number: u8| {
        let found = calls
            .iter()
            .filter(|call| call.body[0] == n && call.line[0] == number);
        let bodies: BTreeSet<&[u8]> = found.map(|call| &call.body[..]).collect();
        bodies.len()
    };
    for (n, fails) in [(2, 2), (3, 12), (4, 50)] {
        assert!(
            count(&composed, n, 0) >= fails && count(&heard, n, 0) >= fails,
            "{n}"
        );
    }
    for n in 2..=20 {
        assert!(
            count(&composed, n, 0) >= 2 && count(&composed, n, 2) >= 1,
            "{n}"
        );
        assert!(count(&heard, n, 0) >= 2 && count(&heard, n, 2) >= 1, "{n}");
    }
    for n in [0, 1, 21, 22, 31, 255] {
        assert!(
            count(&composed, n, 4) >= 2 && count(&heard, n, 4) >= 3,
            "{n}"
        );
    }
}

/// These causes are answered and no others.
#[test]
fn causes_that_are_answered() {
    assert_eq!(
        numbers(b'e'),
        BTreeSet::from([0, 1, 2, 3, 4, 5, 6, 12, 15, 17])
    );
    assert_eq!(numbers(b'h'), BTreeSet::from([0, 1, 2, 4, 12]));
    assert_eq!(numbers(b'E'), BTreeSet::from([0, 2, 4, 12]));
    assert_eq!(numbers(b'H'), BTreeSet::from([0, 2, 4]));
}

// ---- planted faults

/// What is printed of a file, or answered to a call.
#[derive(PartialEq, Eq)]
enum Answer {
    File(Vec<u8>),
    Composed(ComposeAnswer),
    Heard(Result<Sets, (Cause, Sets)>),
}

fn answer(call: &Call, fault: Fault) -> Answer {
    match call.kind {
        b'e' => Answer::File(sentence_text(&call.body, fault)),
        b'h' => Answer::File(heard_text(&call.body, fault)),
        b'E' => Answer::Composed(compose_answer(&composed_of(call), fault)),
        _ => Answer::Heard(hearing_answer(&heard_of(call), fault)),
    }
}

/// The composer's faults that show in files alone, about what is read and printed, and those of calls
/// alone, about sets that no verdict gives and lists; the others show in both.
const COMPOSED_IN_FILES: [Fault; 14] = [
    Fault::SentenceAfterVerdict,
    Fault::SentenceUnended,
    Fault::SentenceEndedTwice,
    Fault::SentenceWindowsEnd,
    Fault::SentenceRefusedWithoutLine,
    Fault::SentenceOfArchive,
    Fault::SentenceOfQuotes,
    Fault::SentenceWithoutGroups,
    Fault::PassCapital,
    Fault::PassUnended,
    Fault::PassStopped,
    Fault::PassEmpty,
    Fault::PassNotPrinted,
    Fault::PassAsVerdict,
];
const COMPOSED_IN_CALLS: [Fault; 35] = [
    Fault::SentenceOfOne,
    Fault::SentenceOf21,
    Fault::SentenceOfAnyN,
    Fault::SentenceSetsBeforeN,
    Fault::SentenceLengthBeforeSets,
    Fault::SentenceLengthBeforeN,
    Fault::SentenceWrongSetsAs5,
    Fault::SentenceWrongSetsAs7,
    Fault::SentenceReachedEmptyAccepted,
    Fault::SentenceWaitingEmptyAccepted,
    Fault::SentenceReachedNotCompared,
    Fault::SentenceMissingAccepted,
    Fault::SentenceOverlapAccepted,
    Fault::SentenceSilentAndReached,
    Fault::SentenceSilentAndWaiting,
    Fault::SentenceReachedAndWaiting,
    Fault::SentenceSetsCounted,
    Fault::SentenceSetsSummed,
    Fault::SentenceSetsXored,
    Fault::SentenceMemberNAccepted,
    Fault::SentenceAboveInSilent,
    Fault::SentenceAboveInReached,
    Fault::SentenceAboveInWaiting,
    Fault::SentenceAbove19Accepted,
    Fault::SentenceExactRefused,
    Fault::SentenceCutOff,
    Fault::SentenceWrongSetsWritten,
    Fault::SentenceRefusedListCleared,
    Fault::SentenceLengthBesideRefusal,
    Fault::SentenceRestCleared,
    Fault::SentenceRestBlank,
    Fault::SentenceEndedInList,
    Fault::SentenceLengthOfList,
    Fault::SentenceLengthOneMore,
    Fault::SentenceLengthWithoutStop,
];

/// The same of the reader: what is around the sentence in a file, and an n that no file gets past.
const HEARD_IN_FILES: [Fault; 33] = [
    Fault::HeardSizeLast,
    Fault::HeardSizeWithLine,
    Fault::HeardShorterFiles,
    Fault::HeardLongerFiles,
    Fault::HeardEmptyAs4,
    Fault::HeardNTrimmed,
    Fault::HeardNWindowsEnd,
    Fault::HeardNByFirstWord,
    Fault::HeardNInHex,
    Fault::HeardNAsByte,
    Fault::HeardNLeadingZeros,
    Fault::HeardNPlusSign,
    Fault::HeardNTwoDigits,
    Fault::HeardN21,
    Fault::HeardN1,
    Fault::HeardNNotChecked,
    Fault::HeardUnended,
    Fault::HeardThirdLine,
    Fault::HeardEmptyThirdLine,
    Fault::HeardWindowsEnd,
    Fault::HeardNWithoutLine,
    Fault::HeardNOnLine2,
    Fault::HeardNForeignAs1,
    Fault::HeardNoLineEndAs1,
    Fault::HeardNoLineEndAs2,
    Fault::HeardUnendedAs1,
    Fault::HeardTextWithoutLine,
    Fault::HeardTextOnLine1,
    Fault::HeardLineUnended,
    Fault::HeardLineCapital,
    Fault::HeardAsPass,
    Fault::HeardSetsInFour,
    Fault::HeardReachedUntold,
];
const HEARD_IN_CALLS: [Fault; 4] = [
    Fault::HeardOfOne,
    Fault::HeardOf21,
    Fault::HeardOfAnyN,
    Fault::HeardSetsBesideRefusal,
];

const COMPOSED: Faults = Faults {
    planted: &planted_sentence::PLANTED,
    shown_in: |fault| {
        let (files, calls) = (&COMPOSED_IN_FILES, &COMPOSED_IN_CALLS);
        (!calls.contains(&fault), !files.contains(&fault))
    },
};
const HEARD: Faults = Faults {
    planted: &planted_heard::PLANTED,
    shown_in: |fault| {
        let (files, calls) = (&HEARD_IN_FILES, &HEARD_IN_CALLS);
        (!calls.contains(&fault), !files.contains(&fault))
    },
};

/// Whoever answers the recorded calls rightly has none of these faults.
#[test]
fn recorded_calls_show_the_planted_faults() {
    COMPOSED.check_recorded((b'e', b'E'), |_| true, answer);
    HEARD.check_recorded((b'h', b'H'), |_| true, answer);
}

/// The same of fresh cases; nothing else is touched by these faults.
#[test]
fn planted_faults_show_where_they_should() {
    COMPOSED.check_fresh(|found| (found.sentences, found.sentence_calls));
    HEARD.check_fresh(|found| (found.heard, found.heard_calls));
}
