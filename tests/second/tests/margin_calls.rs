//! The margins among the recorded calls, and which of them show a planted fault.

mod common;

use common::bytes::Bytes;
use common::calls::{calls_of, check, check_sizes, numbers, read_back, tally, Faults};
use common::margins_bytes;
use second::faults::Fault;
use second::margin_files::{margin_case, Fitted};
use second::margins::{margins, Standing};
use second::output::margins_text;
use second::plan::Plan;
use second::planted_margins::PLANTED;
use second::reader::{read_margins, read_plan};
use second::record::Call;
use std::collections::BTreeSet;

// ---- files

/// With room and without, of answers and of refusals.
#[test]
fn margins_are_read_back() {
    let (fits, short) = read_back(b'm', margins_bytes);
    assert!(fits.iter().all(|&count| count > 50), "{fits:?}");
    assert!(short.iter().all(|&count| count > 5), "{short:?}");
}

/// What a printed number is about: its sign and how many digits it has.
fn size_of(margin: i32) -> &'static str {
    match margin {
        ..=-10 => "below zero, two digits",
        -9..=-1 => "below zero",
        0 => "at zero",
        1..=9 => "above zero",
        10.. => "above zero, two digits",
    }
}

/// The marks of printed margins.
fn marks_of_answer(answer: &str) -> BTreeSet<&'static str> {
    let mut lines: Vec<&str> = answer.lines().collect();
    let counts: Vec<u32> = lines
        .pop()
        .expect("counts")
        .split(' ')
        .map(|count| count.parse().expect("a count"))
        .collect();
    let words = lines.iter().map(|line| line.split(' ').nth(1));
    let words: Vec<&str> = words.map(|word| word.expect("a word")).collect();
    let margin = |word: &&str| word.parse().map_or("direct", size_of);
    let mut marks: BTreeSet<&str> = words.iter().map(margin).collect();
    let names = [
        "ten direct",
        "ten below zero",
        "ten at zero",
        "ten above zero",
    ];
    let ten = names
        .into_iter()
        .zip(&counts)
        .filter(|(_, &count)| count > 9);
    marks.extend(ten.map(|(name, _)| name));
    assert_eq!(counts.iter().sum::<u32>() as usize, words.len());
    marks.extend((counts[1..].iter().all(|&count| count > 0)).then_some("all three"));
    marks.extend((counts[1] == 0).then_some("pass"));
    marks.extend((counts[1] > 0).then_some("fail"));
    marks.extend((words.len() == 19).then_some("twenty"));
    marks
}

/// The line begins as a head with ff for f.
fn begins_as_groups(line: &[u8]) -> bool {
    line.starts_with(b"01") && line.get(6..8) == Some(b"ff")
}

/// What the verdict's reader says of a file that is refused for its head with ff.
fn beside_groups(text: &[u8]) -> &'static str {
    match read_plan(text, Fault::None).map_err(|no| no.cause.number()) {
        Ok(_) => "groups, right for the verdict",
        Err(1) => "groups beside 1",
        Err(2) => "groups beside 2",
        Err(3) => "groups beside 3",
        Err(4) => "groups beside 4",
        Err(5) => "groups beside 5",
        Err(6) => "groups beside 6",
        Err(15) => "groups beside 15",
        Err(17) => "groups beside 17",
        Err(other) => panic!("{other}"),
    }
}

/// The mark of a refused file.
fn mark_of_refusal(text: &[u8], number: u8, line: u16) -> &'static str {
    let lines: Vec<&[u8]> = text.split(|&byte| byte == 10).collect();
    let at = usize::from(line).checked_sub(1).map(|at| lines[at]);
    let groups = at.is_some_and(begins_as_groups);
    let group = at.is_some_and(|line| line.starts_with(b"07"));
    match (number, line) {
        (1, 0) if text.is_empty() => "empty",
        (1, 0) => "too long",
        (1, _) if groups => "1 on the line of ff",
        (2, _) if groups => "2 on the line of ff",
        (3, 1) if lines.iter().any(|line| begins_as_groups(line)) => "3 before ff",
        (3, _) if groups => "3 at a second head with ff",
        (3, _) if group => "3 at a group",
        (4, 1) if groups => beside_groups(text),
        (15, 0) if lines[1..].iter().any(|line| begins_as_groups(line)) => "15 before ff",
        (15, 0) if lines.iter().any(|line| line.starts_with(b"07")) => "15 beside a group",
        (1, _) => "1",
        (2, _) => "2",
        (3, _) => "3",
        (4, 1) => "4",
        (5, _) => "5",
        (6, _) => "6",
        (15, 0) => "15",
        other => panic!("{other:?}"),
    }
}

fn marks_of_file(text: &[u8]) -> BTreeSet<&'static str> {
    let answer = margins_bytes(text);
    if !answer.starts_with("ff") {
        return marks_of_answer(&answer);
    }
    let digits = |at: std::ops::Range<usize>| u16::from_str_radix(&answer[at], 16);
    let number = digits(2..4).expect("a number") as u8;
    let line = digits(4..8).expect("a line");
    BTreeSet::from([mark_of_refusal(text, number, line)])
}

/// What there is to be among files, and how many of each.
const NEEDED: [(&str, u32); 28] = [
    ("direct", 60),
    ("below zero", 40),
    ("at zero", 20),
    ("above zero", 20),
    ("all three", 3),
    ("pass", 30),
    ("fail", 40),
    ("twenty", 2),
    ("empty", 0),
    ("too long", 0),
    ("1 on the line of ff", 1),
    ("2 on the line of ff", 1),
    ("3 before ff", 1),
    ("3 at a second head with ff", 3),
    ("3 at a group", 3),
    ("15 before ff", 2),
    ("15 beside a group", 1),
    ("groups, right for the verdict", 15),
    ("groups beside 4", 3),
    ("groups beside 5", 1),
    ("groups beside 15", 2),
    ("groups beside 17", 3),
    ("1", 3),
    ("2", 3),
    ("4", 3),
    ("5", 3),
    ("6", 3),
    ("15", 5),
];

/// What the recorded ones have beside these.
const NEEDED_IN_RECORDED: [(&str, u32); 8] = [
    ("below zero, two digits", 10),
    ("above zero, two digits", 8),
    ("ten direct", 5),
    ("ten below zero", 5),
    ("ten at zero", 5),
    ("ten above zero", 5),
    ("empty", 2),
    ("too long", 2),
];

/// Among fresh files and among recorded ones.
#[test]
fn needed_files_are_there() {
    let calls = calls_of(b'm');
    assert!((330..=360).contains(&calls.len()), "{}", calls.len());
    let recorded = tally(calls.iter().map(|call| marks_of_file(&call.body)));
    check("recorded", &recorded, &NEEDED);
    check("recorded", &recorded, &NEEDED_IN_RECORDED);
    let fresh = tally((0..1200).map(|index| marks_of_file(&margin_case(1, index))));
    check("fresh", &fresh, &NEEDED);
}

// ---- records

/// What a call says: the plan, the number, and what is said of each terminal.
fn record_of(call: &Call) -> (Plan, u8, Vec<Standing>) {
    let mut body = Bytes(&call.body);
    let plan = body.plan();
    assert!(body.0.is_empty() && call.lent == 0);
    let mut line = Bytes(&call.line);
    let number = line.byte();
    let mut standings = Vec::new();
    while !line.0.is_empty() {
        let (which, margin) = (line.byte(), line.quad() as i32);
        assert!(which == 2 || margin == 0);
        let all = [Standing::Source, Standing::Direct, Standing::Margin(margin)];
        standings.push(all[usize::from(which)]);
    }
    (plan, number, standings)
}

#[test]
fn records_are_read_back() {
    for call in calls_of(b'M') {
        let (plan, number, standings) = record_of(&call);
        match margins(&plan, Fault::None) {
            Ok(expected) => assert_eq!((number, standings), (0, expected), "{plan:?}"),
            Err(cause) => assert_eq!((number, standings), (cause.number(), vec![]), "{plan:?}"),
        }
    }
}

fn mark_of_refused(plan: &Plan, number: u8) -> &'static str {
    let wrong_link = |&(from, to): &(u32, u32)| from == to || from >= plan.n || to >= plan.n;
    let beside = plan.links.iter().any(wrong_link);
    let groups = plan.bound.has_groups();
    let right_head = plan.check_head().is_ok();
    match number {
        5 => "5",
        _ if right_head && groups && beside => "groups beside 5",
        _ if right_head && groups && plan.check(Fault::None).is_err() => "wrong groups",
        _ if right_head && groups => "groups",
        _ if right_head && beside => "a group beside f, and 5",
        _ if right_head => "a group beside f",
        _ if beside => "4 beside 5",
        _ => "4",
    }
}

fn marks_of_record(call: &Call) -> BTreeSet<&'static str> {
    let (plan, number, standings) = record_of(call);
    if number > 0 {
        return BTreeSet::from([mark_of_refused(&plan, number)]);
    }
    let margin = |standing: &Standing| match standing {
        Standing::Source => "source",
        Standing::Direct => "direct",
        Standing::Margin(margin) => size_of(*margin),
    };
    let mut marks: BTreeSet<&str> = standings.iter().map(margin).collect();
    let deaf = !plan.deaf(Fault::None).is_empty();
    marks.extend(deaf.then_some("deaf"));
    marks.extend((plan.n == 20).then_some("twenty"));
    marks
}

const NEEDED_RECORDS: [(&str, u32); 17] = [
    ("source", 150),
    ("direct", 120),
    ("below zero", 60),
    ("below zero, two digits", 10),
    ("at zero", 40),
    ("above zero", 35),
    ("above zero, two digits", 8),
    ("deaf", 10),
    ("twenty", 7),
    ("5", 5),
    ("groups", 10),
    ("groups beside 5", 3),
    ("wrong groups", 3),
    ("a group beside f", 5),
    ("a group beside f, and 5", 1),
    ("4 beside 5", 3),
    ("4", 10),
];

#[test]
fn needed_records_are_there() {
    let calls = calls_of(b'M');
    assert!((300..=330).contains(&calls.len()), "{}", calls.len());
    let recorded = tally(calls.iter().map(marks_of_record));
    check("recorded", &recorded, &NEEDED_RECORDS);
}

/// Every number of terminals that a byte may name, up to 22, in a file and in a record.
#[test]
fn every_size_is_recorded() {
    check_sizes(b'm', b'M');
}

/// The margins answer these causes and no others, 14 and 17 least of all.
#[test]
fn causes_that_are_answered() {
    assert_eq!(numbers(b'm'), BTreeSet::from([0, 1, 2, 3, 4, 5, 6, 12, 15]));
    assert_eq!(numbers(b'M'), BTreeSet::from([0, 4, 5]));
}

// ---- planted faults

/// What is printed of a file, or answered of a record.
#[derive(PartialEq, Eq)]
enum Answer {
    File(Vec<u8>),
    Record(Fitted),
}

fn answer(call: &Call, fault: Fault) -> Answer {
    match call.kind {
        b'm' => Answer::File(margins_text(&call.body, fault)),
        _ => Answer::Record(margins(&record_of(call).0, fault)),
    }
}

/// Numbers of two digits begin at 13 terminals at the latest; a look at every set of more takes long.
fn is_soon_answered(call: &Call) -> bool {
    let terminals = match call.kind {
        b'm' => read_margins(&call.body, Fault::None).map_or(0, |plan| plan.n),
        _ => u32::from(call.body[0]),
    };
    terminals <= 13
}

/// The faults that show in files and in records, and those of records alone; the others are about what
/// is read and printed.
const IN_BOTH: [Fault; 23] = [
    Fault::MarginLessF,
    Fault::MarginOverAllSets,
    Fault::MarginWhereItIsBad,
    Fault::MarginWithNobodyBad,
    Fault::MarginOfVerdictSet,
    Fault::MarginOfFewBad,
    Fault::MarginOfOneBad,
    Fault::MarginSourceUnbounded,
    Fault::MarginBadOnesBounded,
    Fault::MarginGreatest,
    Fault::MarginAfterOneTurn,
    Fault::MarginSourceCountsOne,
    Fault::MarginJoinsWithF,
    Fault::MarginJoinsWithOne,
    Fault::MarginOfHearers,
    Fault::MarginCountsBadOnes,
    Fault::MarginCountsAllGood,
    Fault::MarginCutAtZero,
    Fault::DirectByMargin,
    Fault::DirectWhereShort,
    Fault::DirectBackwards,
    Fault::MarginGroupsAccepted,
    Fault::QuoteLimitInMargins,
];
const IN_RECORDS: [Fault; 6] = [
    Fault::MarginLinksFirst,
    Fault::MarginGroupsAfterLinks,
    Fault::MarginGroupsAs17,
    Fault::MarginBesideFAs17,
    Fault::MarginBesideFAccepted,
    Fault::MarginDeafRecordRefused,
];

/// Whether a fault shows in files, and whether in records.
fn shown_in(fault: Fault) -> (bool, bool) {
    let records = IN_RECORDS.contains(&fault);
    (!records, records || IN_BOTH.contains(&fault))
}

const FAULTS: Faults = Faults {
    planted: &PLANTED,
    shown_in,
};

/// Whoever answers the recorded calls rightly has none of these faults.
#[test]
fn recorded_calls_show_the_planted_faults() {
    FAULTS.check_recorded((b'm', b'M'), is_soon_answered, answer);
}

/// The same of fresh cases; nothing else is touched by these faults.
#[test]
fn planted_faults_show_where_they_should() {
    FAULTS.check_fresh(|found| (found.margins, found.margin_records));
}
