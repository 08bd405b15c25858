//! The quoting page on generated files and records, and which of them are among the recorded calls.

mod common;

use common::bytes::Bytes;
use common::calls::{calls_of, read_back};
use common::{quote_bytes, refused, verdict_bytes};
use second::faults::{Fault, Sound};
use second::generate::{case, Kind};
use second::output::quote_text;
use second::plan::{number_of, Cause, Plan};
use second::planted_quote::PLANTED;
use second::quote::quote;
use second::quotes::{judged, quote_case, quote_record};
use second::reader::{read_archive, read_plan, read_run};
use second::record::{self, Call};
use second::verdict::{verdict, Verdict};
use std::collections::BTreeMap;

// ---- where the quoting page and the verdict differ

/// The first line's bytes, where it has the form of a head.
fn head_of(text: &[u8]) -> Option<[u32; 3]> {
    let end = text.iter().position(|&byte| byte == 10)?;
    let digits = std::str::from_utf8(&text[..end]).ok()?;
    let right = digits.chars().all(|c| "0123456789abcdef".contains(c));
    if !right || digits.len() != 8 || !digits.starts_with("01") {
        return None;
    }
    let byte = |at: usize| u32::from_str_radix(&digits[at..at + 2], 16).expect("digits");
    Some([byte(2), byte(4), byte(6)])
}

/// Whether such a head is in range.
fn in_range([n, source, bound]: [u32; 3]) -> bool {
    (2..=20).contains(&n) && source < n && (bound < n || bound == 255)
}

/// More than 12 terminals in a head that is accepted.
fn too_many(text: &[u8]) -> bool {
    let sized = (1..=24_576).contains(&text.len());
    sized && head_of(text).is_some_and(|head| in_range(head) && head[0] > 12)
}

/// Files for the verdict and for the quoting page: 14 on line 1 exactly where the head is accepted and
/// has more than 12, and else what the verdict prints. The verdict's reader never gives 14.
#[test]
fn files_differ_above_twelve_only() {
    let mut counts: BTreeMap<&str, u32> = BTreeMap::new();
    for index in 0..2400 {
        let text = match index % 3 {
            0 => case(Kind::Verdict, 5, index / 3),
            _ => quote_case(5, index - index / 3),
        };
        let quoted = quote_bytes(&text);
        let name = if too_many(&text) {
            assert_eq!(quoted, refused(14, 1));
            let read = read_plan(&text, Fault::None);
            assert!(read.is_ok() || read.is_err_and(|no| no.cause != Cause::TooMany));
            "too many"
        } else {
            assert_eq!(quoted, verdict_bytes(&text));
            ["refused", "answered"][usize::from(quoted.starts_with("81"))]
        };
        *counts.entry(name).or_insert(0) += 1;
    }
    for name in ["too many", "refused", "answered"] {
        assert!(counts[name] > 400, "{counts:?}");
    }
}

/// A record whose head is in range and has more than 12 terminals.
fn record_too_many(plan: &Plan) -> bool {
    let bound = match plan.bound.has_groups() {
        true => 255,
        false => plan.bound.number.min(254),
    };
    in_range([plan.n, plan.source, bound]) && plan.n > 12
}

#[test]
fn records_differ_above_twelve_only() {
    let (mut many, mut others) = (0, 0);
    for index in 0..1200 {
        let plan = quote_record(5, index);
        let quoted = quote(&plan, Fault::None);
        if record_too_many(&plan) {
            assert_eq!(quoted, Err(Cause::TooMany), "{plan:?}");
            many += 1;
        } else {
            let judged = verdict(&plan, Fault::None);
            assert_eq!(quoted, judged, "{plan:?}");
            assert_ne!(judged, Err(Cause::TooMany), "{plan:?}");
            others += 1;
        }
    }
    assert!(many > 250 && others > 500, "{many}, {others}");
}

// ---- recorded files

/// With room and without, of answers and of refusals.
#[test]
fn quotes_are_read_back() {
    let (fits, short) = read_back(b'q', quote_bytes);
    assert!(fits.iter().all(|&count| count > 30), "{fits:?}");
    assert!(short.iter().all(|&count| count > 5), "{short:?}");
}

/// What is found in a file of more than 12 if nobody refuses it for that.
fn beside_14(text: &[u8]) -> &'static str {
    match read_plan(text, Fault::None).map_err(|no| (no.cause.number(), no.line)) {
        Ok(_) => "14",
        Err((1, _)) => "14 beside 1",
        Err((2, _)) => "14 beside 2",
        Err((3, _)) => "14 beside 3",
        Err((5, _)) => "14 beside 5",
        Err((6, _)) => "14 beside 6",
        Err((15, 0)) => "14 beside 15",
        Err((17, 0)) => "14 beside 17 of no group",
        Err((17, _)) => "14 beside 17 of a group",
        Err(other) => panic!("{other:?} after the head"),
    }
}

/// The line begins as a head of more than 12.
fn begins_large(line: &[u8]) -> bool {
    let n = line.strip_prefix(b"01").and_then(|rest| rest.get(..2));
    let n = n.and_then(|digits| std::str::from_utf8(digits).ok());
    n.is_some_and(|digits| u32::from_str_radix(digits, 16).is_ok_and(|n| n > 12))
}

/// The marks of a file that gets this number with this line.
fn marks_of_file(text: &[u8], number: u8, line: u16) -> Vec<&'static str> {
    let lines: Vec<&[u8]> = text.split(|&byte| byte == 10).collect();
    let head = head_of(text);
    let n = head.map_or(0, |head| head[0]);
    let large = begins_large(lines[0]);
    let mark = match (number, line) {
        (14, 1) => beside_14(text),
        (1, 0) if text.is_empty() => "empty",
        (1, 0) => "too long",
        (1, 1) if large => "1 on the line of a large head",
        (2, 1) if large => "2 on the line of a large head",
        (3, at) if begins_large(lines[usize::from(at) - 1]) => "3 at a second, large head",
        (3, 1) if lines.iter().any(|line| begins_large(line)) => "3 before a large head",
        (4, 1) if n > 20 => "4 above 20",
        (4, 1) if n > 12 => "4 beside 14",
        (5, _) => "5",
        (6, _) => "6",
        (15, 0) => "15",
        (17, 0) => "17 of no group",
        (17, _) => "17 of a group",
        _ => return Vec::new(),
    };
    let groups = number == 14 && head.is_some_and(|head| head[2] == 255);
    let others = [
        (groups, "14 with groups"),
        (number == 14 && n == 13, "14 for 13"),
        (number == 14 && n == 20, "14 for 20"),
        (n == 12, "refused, 12"),
        (text.len() == 24_576, "as long as may be"),
    ];
    let others = others.iter().filter(|other| other.0).map(|other| other.1);
    [mark].into_iter().chain(others).collect()
}

/// The marks of a file that is answered.
fn marks_of_answer(text: &[u8], answer: &str) -> Vec<&'static str> {
    let [n, _, bound] = head_of(text).expect("a head");
    let fails = answer.starts_with("8101");
    let mark = match (n, fails, bound == 255) {
        (12, false, false) => "12 pass",
        (12, true, false) => "12 fail",
        (12, false, true) => "12 pass, groups",
        (12, true, true) => "12 fail, groups",
        (_, false, _) => "fewer pass",
        (_, true, _) => "fewer fail",
    };
    let liar = fails && !answer.starts_with("8101000000");
    let liar = liar.then_some("fail with a liar");
    [mark].into_iter().chain(liar).collect()
}

fn marks_of_quote(text: &[u8]) -> Vec<&'static str> {
    let answer = quote_bytes(text);
    if !answer.starts_with("ff") {
        return marks_of_answer(text, &answer);
    }
    let digits = |at: std::ops::Range<usize>| u16::from_str_radix(&answer[at], 16);
    let number = digits(2..4).expect("a number") as u8;
    marks_of_file(text, number, digits(4..8).expect("a line"))
}

/// What there is to be among files, and how many of each.
const NEEDED: [(&str, u32); 33] = [
    ("14", 20),
    ("14 beside 1", 2),
    ("14 beside 2", 2),
    ("14 beside 3", 2),
    ("14 beside 5", 4),
    ("14 beside 6", 3),
    ("14 beside 15", 8),
    ("14 beside 17 of no group", 3),
    ("14 beside 17 of a group", 2),
    ("14 with groups", 10),
    ("14 for 13", 20),
    ("14 for 20", 10),
    ("1 on the line of a large head", 3),
    ("2 on the line of a large head", 3),
    ("3 at a second, large head", 3),
    ("3 before a large head", 2),
    ("4 above 20", 10),
    ("4 beside 14", 4),
    ("5", 4),
    ("6", 4),
    ("15", 8),
    ("17 of no group", 3),
    ("17 of a group", 2),
    ("12 pass", 3),
    ("12 fail", 8),
    ("12 pass, groups", 2),
    ("12 fail, groups", 3),
    ("fewer pass", 10),
    ("fewer fail", 10),
    ("fail with a liar", 3),
    ("refused, 12", 10),
    ("empty", 1),
    ("too long", 1),
];

fn tally<'a>(marks: impl Iterator<Item = Vec<&'a str>>) -> BTreeMap<&'a str, u32> {
    let mut tally = BTreeMap::new();
    for mark in marks.flatten() {
        *tally.entry(mark).or_insert(0) += 1;
    }
    tally
}

fn check(what: &str, seen: &BTreeMap<&str, u32>, needed: &[(&str, u32)]) {
    for (name, least) in needed {
        let count = seen.get(name).copied().unwrap_or(0);
        assert!(count >= *least, "{what}, {name}: {count} of {seen:?}");
    }
}

/// Among fresh files and among recorded ones.
#[test]
fn needed_files_are_there() {
    let calls = calls_of(b'q');
    assert!((340..=370).contains(&calls.len()), "{}", calls.len());
    let recorded = tally(calls.iter().map(|call| marks_of_quote(&call.body)));
    check("recorded", &recorded, &NEEDED);
    check("recorded", &recorded, &[("as long as may be", 1)]);
    let fresh = tally((0..1800).map(|index| marks_of_quote(&quote_case(1, index))));
    check("fresh", &fresh, &NEEDED);
}

/// Only the quoting page answers 14, in files and in records.
#[test]
fn nobody_else_answers_14() {
    for call in record::calls(record::SEED) {
        let number = match call.kind {
            b'q' => continue,
            b'j' => record_of(&call).1[0].0,
            _ => call.line[0],
        };
        assert_ne!(number, 14, "kind {}", char::from(call.kind));
    }
}

// ---- recorded records

/// What a call says: the plan, and number, fail and sets of the verdict and of the quoting page.
fn record_of(call: &Call) -> (Plan, [(u8, u8, [u32; 3]); 2]) {
    let mut body = Bytes(&call.body);
    let plan = body.plan();
    assert!(body.0.is_empty() && call.lent == 0 && call.line.len() == 28);
    let mut line = Bytes(&call.line);
    let answers = [(); 2].map(|()| {
        let (number, fails) = (line.byte(), line.byte());
        (number, fails, [(); 3].map(|()| line.quad()))
    });
    (plan, answers)
}

#[test]
fn records_are_read_back() {
    for call in calls_of(b'j') {
        let (plan, [judged, quoted]) = record_of(&call);
        let expected = match verdict(&plan, Fault::None) {
            Ok(Verdict {
                fails,
                bad,
                reached,
                left,
            }) => (
                0,
                u8::from(fails),
                [bad, reached, left].map(|set| number_of(&set)),
            ),
            Err(cause) => (cause.number(), 0, [0; 3]),
        };
        assert_eq!(judged, expected, "{plan:?}");
        let expected = match record_too_many(&plan) {
            true => (14, 0, [0; 3]),
            false => judged,
        };
        assert_eq!(quoted, expected, "{plan:?}");
    }
}

fn marks_of_record(plan: &Plan, judged: (u8, u8), quoted: u8) -> Vec<&'static str> {
    let many = plan.n > 12;
    let mark = match (judged, quoted) {
        ((0, 0), 14) => "14 beside a pass",
        ((0, _), 14) => "14 beside a fail",
        ((5, _), 14) => "14 beside 5",
        ((17, _), 14) => "14 beside 17",
        ((4, _), 4) if plan.n > 20 => "4 above 20",
        ((4, _), 4) if many => "4 beside 14",
        ((4, _), 4) => "4",
        ((5, _), 5) => "5",
        ((17, _), 17) => "17",
        ((0, 0), 0) if plan.n == 12 => "12 pass",
        ((0, _), 0) if plan.n == 12 => "12 fail",
        ((0, 0), 0) => "fewer pass",
        ((0, _), 0) => "fewer fail",
        other => panic!("{other:?}: {plan:?}"),
    };
    let others = [
        (quoted == 14 && plan.bound.has_groups(), "14 with groups"),
        (quoted == 14 && plan.n == 13, "14 for 13"),
        (quoted == 14 && plan.n == 20, "14 for 20"),
        (judged == (0, 0) && plan.n == 13, "13 pass"),
        (judged == (0, 1) && plan.n == 13, "13 fail"),
    ];
    let others = others.iter().filter(|other| other.0).map(|other| other.1);
    [mark].into_iter().chain(others).collect()
}

const NEEDED_RECORDS: [(&str, u32); 18] = [
    ("14 beside a pass", 5),
    ("14 beside a fail", 30),
    ("14 beside 5", 8),
    ("14 beside 17", 8),
    ("14 with groups", 20),
    ("14 for 13", 20),
    ("14 for 20", 10),
    ("13 pass", 3),
    ("13 fail", 8),
    ("4 above 20", 5),
    ("4 beside 14", 4),
    ("4", 10),
    ("5", 10),
    ("17", 10),
    ("12 pass", 8),
    ("12 fail", 15),
    ("fewer pass", 10),
    ("fewer fail", 10),
];

#[test]
fn needed_records_are_there() {
    let calls = calls_of(b'j');
    assert!((290..=320).contains(&calls.len()), "{}", calls.len());
    let recorded = tally(calls.iter().map(|call| {
        let (plan, [judged, quoted]) = record_of(call);
        marks_of_record(&plan, (judged.0, judged.1), quoted.0)
    }));
    check("recorded", &recorded, &NEEDED_RECORDS);
}

/// Every number of terminals that a byte may name, up to 22, in a file and in a record.
#[test]
fn every_size_is_recorded() {
    let calls = record::calls(record::SEED);
    for n in (0..=22).chain([255]) {
        let named = |call: &&Call| match call.kind {
            b'q' => head_of(&call.body).is_some_and(|head| head[0] == n),
            b'j' => u32::from(call.body[0]) == n,
            _ => false,
        };
        let (files, records): (Vec<&Call>, Vec<&Call>) = calls
            .iter()
            .filter(named)
            .partition(|call| call.kind == b'q');
        assert!(files.len() >= 2 && records.len() >= 2, "{n}");
    }
}

// ---- planted faults

/// Whether a recorded call is answered otherwise where this fault is planted.
fn shows(call: &Call, fault: Fault) -> bool {
    let text = &call.body;
    match call.kind {
        b'q' => quote_text(text, fault) != quote_text(text, Fault::None),
        b'j' => {
            let plan = record_of(call).0;
            judged(&plan, fault) != judged(&plan, Fault::None)
        }
        b'a' => read_archive(text, fault) != read_archive(text, Fault::None),
        b'r' => read_run(text, fault) != read_run(text, Fault::None),
        _ => false,
    }
}

/// Whoever answers the recorded calls rightly has none of these faults.
#[test]
fn recorded_calls_show_the_planted_faults() {
    let calls = record::calls(record::SEED);
    let (own, others): (Vec<&Call>, Vec<&Call>) =
        calls.iter().partition(|call| b"qj".contains(&call.kind));
    for (fault, name) in PLANTED {
        let asked = match fault {
            Fault::QuoteLimitInArchive | Fault::QuoteLimitInRuns => &others,
            _ => &own,
        };
        assert!(asked.iter().any(|call| shows(call, fault)), "{name}");
    }
}

/// Which of files and records show which fault about the quoting page.
#[test]
fn planted_faults_show_where_they_should() {
    let sound = Sound::new(2, 2000);
    let in_both = [
        Fault::QuoteOf11,
        Fault::QuoteOf13,
        Fault::QuoteOf20,
        Fault::QuoteRefuses13Only,
        Fault::QuoteRefuses20Only,
        Fault::GroupsQuotedUnbounded,
        Fault::QuoteBeforeHead,
        Fault::QuoteBeforeSource,
        Fault::QuoteAbove20,
        Fault::QuoteAfterLinks,
        Fault::QuoteAfterAll,
        Fault::QuoteLimitInVerdict,
        Fault::QuoteAlwaysPasses,
        Fault::QuoteWithoutSets,
    ];
    for fault in in_both {
        let found = sound.found(fault);
        assert!(found.quotes > 5, "{fault:?}: {found:?}");
        assert!(found.quote_records > 5, "{fault:?}: {found:?}");
        assert_eq!(
            (found.runs, found.steps, found.sites),
            (0, 0, 0),
            "{fault:?}"
        );
    }
    let in_files = [
        Fault::QuoteBeforeText,
        Fault::QuoteBeforeKind,
        Fault::QuoteBeforeOrder,
        Fault::QuoteWithoutLine,
        Fault::QuoteLimitInArchive,
        Fault::DeafQuoted,
        Fault::GroupNotQuoted,
    ];
    for fault in in_files {
        let found = sound.found(fault);
        assert!(found.quotes > 3, "{fault:?}: {found:?}");
        assert_eq!(found.quote_records, 0, "{fault:?}: {found:?}");
    }
    let runs = sound.found(Fault::QuoteLimitInRuns);
    assert!(runs.runs > 50 && runs.quotes == 0, "{runs:?}");
}
