//! The greatest f among the recorded calls, and which of them show a planted fault.

mod common;

use common::bytes::Bytes;
use common::calls::{calls_of, check, check_sizes, numbers, read_back, tally, Faults};
use common::greatest_bytes;
use second::faults::Fault;
use second::greatest::greatest;
use second::greatest_files::{every_f, greatest_case, Bounded, THIN};
use second::groups::Bound;
use second::output::greatest_text;
use second::plan::{set_of, Plan};
use second::plans::passes;
use second::planted_greatest::PLANTED;
use second::reader::{read_archive, read_greatest};
use second::record::Call;
use std::collections::BTreeSet;

// ---- files

/// With room and without, of answers and of refusals.
#[test]
fn files_are_read_back() {
    let (fits, short) = read_back(b'g', greatest_bytes);
    assert!(fits.iter().all(|&count| count > 50), "{fits:?}");
    assert!(short.iter().all(|&count| count > 5), "{short:?}");
}

/// What the archive says of a file that is refused for its head with ff.
fn beside_groups(text: &[u8]) -> String {
    match read_archive(text, Fault::None) {
        Ok(filed) if filed.deaf.is_empty() => "groups, right for the archive".into(),
        Ok(_) => "groups and a deaf one, right for the archive".into(),
        Err(refusal) => format!("groups beside {}", refusal.cause.number()),
    }
}

/// The line begins as a head with ff for f.
fn begins_as_groups(line: &[u8]) -> bool {
    line.starts_with(b"01") && line.get(6..8) == Some(b"ff")
}

/// The mark of a refused file.
fn mark_of_refusal(text: &[u8], number: u16, line: u16) -> String {
    let lines: Vec<&[u8]> = text.split(|&byte| byte == 10).collect();
    let at = usize::from(line).checked_sub(1).map(|at| lines[at]);
    let groups = at.is_some_and(begins_as_groups);
    match (number, line) {
        (1, 0) if text.is_empty() => "empty".into(),
        (1, 0) => "too long".into(),
        (4, 1) if groups => beside_groups(text),
        (3, _) if at.is_some_and(|line| line.starts_with(b"07")) => "3 at a group".into(),
        (3, 1) if lines.iter().any(|line| begins_as_groups(line)) => "3 before ff".into(),
        _ if groups => format!("{number} on the line of ff"),
        _ => format!("refused {number}"),
    }
}

/// What is printed, beside what the head says.
fn mark_of_answer(plan: &Plan, answer: &str) -> BTreeSet<String> {
    let mut marks = BTreeSet::from([answer.trim_end().to_string()]);
    let deaf = !plan.deaf(Fault::None).is_empty();
    marks.extend(deaf.then_some("deaf".into()));
    let waits = !deaf && answer == "none\n";
    marks.extend(waits.then_some("none, and nobody deaf".into()));
    marks.extend((plan.n == 20).then_some("twenty".into()));
    if let Ok(found) = answer.trim_end().parse::<u32>() {
        let head = plan.bound.number;
        let beside = match found.cmp(&head) {
            std::cmp::Ordering::Less => "below the head's",
            std::cmp::Ordering::Equal => "as the head's",
            std::cmp::Ordering::Greater => "above the head's",
        };
        marks.insert(beside.into());
        marks.extend((found + 1 == plan.n).then_some("n-1".into()));
    }
    marks
}

fn marks_of_file(text: &[u8]) -> BTreeSet<String> {
    let answer = greatest_bytes(text);
    if let Ok(plan) = read_greatest(text, Fault::None) {
        return mark_of_answer(&plan, &answer);
    }
    let digits = |at: std::ops::Range<usize>| u16::from_str_radix(&answer[at], 16);
    let number = digits(2..4).expect("a number");
    let line = digits(4..8).expect("a line");
    BTreeSet::from([mark_of_refusal(text, number, line)])
}

/// What there is to be among files, and how many of each.
const NEEDED: [(&str, u32); 32] = [
    ("none", 30),
    ("deaf", 20),
    ("none, and nobody deaf", 2),
    ("0", 20),
    ("1", 10),
    ("2", 5),
    ("3", 3),
    ("4", 3),
    ("5", 3),
    ("6", 2),
    ("n-1", 20),
    ("below the head's", 20),
    ("as the head's", 5),
    ("above the head's", 15),
    ("twenty", 2),
    ("1 on the line of ff", 1),
    ("2 on the line of ff", 1),
    ("3 on the line of ff", 1),
    ("3 before ff", 1),
    ("3 at a group", 5),
    ("groups, right for the archive", 10),
    ("groups and a deaf one, right for the archive", 1),
    ("groups beside 3", 1),
    ("groups beside 4", 1),
    ("groups beside 5", 1),
    ("groups beside 17", 3),
    ("refused 1", 3),
    ("refused 2", 2),
    ("refused 3", 2),
    ("refused 4", 10),
    ("refused 5", 2),
    ("refused 6", 2),
];

/// What the recorded ones have beside these.
const NEEDED_IN_RECORDED: [(&str, u32); 13] = [
    ("7", 2),
    ("8", 2),
    ("9", 1),
    ("10", 1),
    ("11", 1),
    ("12", 1),
    ("13", 1),
    ("15", 1),
    ("16", 1),
    ("18", 1),
    ("19", 20),
    ("empty", 1),
    ("too long", 1),
];

/// Among fresh files and among recorded ones.
#[test]
fn needed_files_are_there() {
    let calls = calls_of(b'g');
    assert!((330..=360).contains(&calls.len()), "{}", calls.len());
    let recorded = tally(calls.iter().map(|call| marks_of_file(&call.body)));
    check("recorded", &recorded, &NEEDED);
    check("recorded", &recorded, &NEEDED_IN_RECORDED);
    let fresh = tally((0..1200).map(|index| marks_of_file(&greatest_case(1, index))));
    check("fresh", &fresh, &NEEDED);
}

// ---- records

/// What a call says: the drawing, and what is answered.
fn record_of(call: &Call) -> (Plan, Result<Option<u32>, u8>) {
    let mut body = Bytes(&call.body);
    let [n, source] = [(); 2].map(|()| u32::from(body.byte()));
    let mut plan = Plan::new(n, source, 0);
    for hearer in 0..20 {
        let heard = set_of(body.quad());
        let links = heard.iter().map(|&sender| (sender, hearer));
        plan.links.extend(links);
    }
    assert!(body.0.is_empty() && call.lent == 0);
    let answer = match call.line[..] {
        [0, 0, 0] => Ok(None),
        [0, 1, f] => Ok(Some(u32::from(f))),
        [number] => Err(number),
        _ => panic!("{:?}", call.line),
    };
    (plan, answer)
}

#[test]
fn records_are_read_back() {
    for call in calls_of(b'G') {
        let (plan, answer) = record_of(&call);
        let expected = greatest(&plan, Fault::None).map_err(|cause| cause.number());
        assert_eq!(answer, expected, "{plan:?}");
    }
}

/// The verdict passes for the recorded f and fails for the next one, which has no need of a search
/// through all sets if it fails soon.
#[test]
fn records_beside_the_verdict() {
    let with = |plan: &Plan, f: u32| {
        passes(&Plan {
            bound: Bound::f(f),
            ..plan.clone()
        })
    };
    for call in calls_of(b'G') {
        let (plan, answer) = record_of(&call);
        let Ok(found) = answer else {
            continue;
        };
        if plan.n > 9 {
            continue;
        }
        let next = found.map_or(0, |f| f + 1);
        assert!(found.is_none_or(|f| with(&plan, f)), "{plan:?}");
        assert!(next == plan.n || !with(&plan, next), "{plan:?}");
    }
}

fn marks_of_record(call: &Call) -> BTreeSet<String> {
    let (plan, answer) = record_of(call);
    let mut wrong = plan.links.iter();
    let wrong = wrong.any(|&(from, to)| from == to || from >= plan.n || to >= plan.n);
    let mut marks = BTreeSet::from([match answer {
        Ok(None) => "none".to_string(),
        Ok(Some(f)) => format!("{f}"),
        Err(4) if wrong => "4 beside 5".into(),
        Err(number) => format!("refused {number}"),
    }]);
    let right = answer.is_ok();
    let source = plan.source > 0;
    marks.extend((right && source).then_some("another source".into()));
    marks.extend((right && plan.n == 20).then_some("twenty".into()));
    marks.extend((answer == Ok(Some(plan.n.max(1) - 1))).then_some("n-1".into()));
    marks
}

const NEEDED_RECORDS: [(&str, u32); 18] = [
    ("none", 40),
    ("0", 60),
    ("1", 40),
    ("2", 30),
    ("3", 20),
    ("4", 15),
    ("5", 12),
    ("6", 10),
    ("7", 7),
    ("8", 4),
    ("9", 1),
    ("19", 1),
    ("n-1", 25),
    ("another source", 80),
    ("twenty", 20),
    ("refused 4", 20),
    ("4 beside 5", 3),
    ("refused 5", 25),
];

#[test]
fn needed_records_are_there() {
    let calls = calls_of(b'G');
    assert!((440..=460).contains(&calls.len()), "{}", calls.len());
    let recorded = tally(calls.iter().map(marks_of_record));
    check("recorded", &recorded, &NEEDED_RECORDS);
    assert_eq!(2 * every_f().len() as u64, THIN);
}

/// Every number of terminals that a byte may name, up to 22, in a file and in a record.
#[test]
fn every_size_is_recorded() {
    check_sizes(b'g', b'G');
}

/// These causes are answered and no others; 14, 15 and 17 least of all.
#[test]
fn causes_that_are_answered() {
    assert_eq!(numbers(b'g'), BTreeSet::from([0, 1, 2, 3, 4, 5, 6, 12]));
    assert_eq!(numbers(b'G'), BTreeSet::from([0, 4, 5]));
}

// ---- planted faults

/// What is printed of a file, or answered of a record.
#[derive(PartialEq, Eq)]
enum Answer {
    File(Vec<u8>),
    Record(Bounded),
}

fn answer(call: &Call, fault: Fault) -> Answer {
    match call.kind {
        b'g' => Answer::File(greatest_text(&call.body, fault)),
        _ => Answer::Record(greatest(&record_of(call).0, fault)),
    }
}

/// A look at every set of more than a few takes long, but where all hear the source.
fn is_soon_answered(call: &Call) -> bool {
    let plan = match call.kind {
        b'g' => read_greatest(&call.body, Fault::None).ok(),
        _ => Some(record_of(call).0),
    };
    let star = |plan: &Plan| plan.links.iter().all(|link| link.0 == plan.source);
    plan.is_none_or(|plan| plan.n <= 11 || plan.n > 20 || (plan.n != 19 && star(&plan)))
}

/// The faults that show in files alone, about what is read and printed, and those of records alone;
/// the others show in both.
const IN_FILES: [Fault; 27] = [
    Fault::GreatestUpToHead,
    Fault::GreatestOfHead,
    Fault::GreatestAboveHead,
    Fault::GreatestNoneAsMinusOne,
    Fault::GreatestNoneCapital,
    Fault::GreatestNoneQuoted,
    Fault::GreatestNoneEmpty,
    Fault::GreatestTwoDigits,
    Fault::GreatestInHex,
    Fault::GreatestAsByte,
    Fault::GreatestLastDigit,
    Fault::GreatestPlusSign,
    Fault::GreatestUnended,
    Fault::GreatestEndedTwice,
    Fault::GreatestWindowsEnd,
    Fault::GreatestFNotChecked,
    Fault::GreatestFOfNAllowed,
    Fault::GreatestLastFRefused,
    Fault::GreatestHeadAs17,
    Fault::GreatestHeadWithoutLine,
    Fault::GreatestHeadBeforeText,
    Fault::GreatestHeadBeforeKind,
    Fault::GreatestHeadBeforeOrder,
    Fault::GreatestHeadAfterAll,
    Fault::GroupUnknownToGreatest,
    Fault::GreatestGroupsAccepted,
    Fault::GreatestDeafRefused,
];
const IN_RECORDS: [Fault; 7] = [
    Fault::GreatestRowAboveAllowed,
    Fault::GreatestOwnBitAllowed,
    Fault::GreatestBitAboveAllowed,
    Fault::GreatestBitNAllowed,
    Fault::GreatestBitAbove19Allowed,
    Fault::GreatestSourceRowNotChecked,
    Fault::GreatestLinksFirst,
];

/// Whether a fault shows in files, and whether in records.
fn shown_in(fault: Fault) -> (bool, bool) {
    (!IN_RECORDS.contains(&fault), !IN_FILES.contains(&fault))
}

const FAULTS: Faults = Faults {
    planted: &PLANTED,
    shown_in,
};

/// Whoever answers the recorded calls rightly has none of these faults.
#[test]
fn recorded_calls_show_the_planted_faults() {
    FAULTS.check_recorded((b'g', b'G'), is_soon_answered, answer);
}

/// The same of fresh cases; nothing else is touched by these faults.
#[test]
fn planted_faults_show_where_they_should() {
    FAULTS.check_fresh(|found| (found.greatest, found.greatest_records));
}
