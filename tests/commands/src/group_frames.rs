//! Frames with groups that are refused: the number and the line are those of document 02, P10, and
//! the words say which of the cause's alternatives it was.

use crate::answers::EXAMPLE;
use crate::checks::{lines, Checks};
use crate::greatest;
use crate::margins;
use crate::quote::alike;
use crate::sentences;

pub fn check(checks: &mut Checks) {
    for row in &AFTER_GROUPS {
        refused(checks, row, &[&GROUPED[..], row.3].concat());
    }
    for row in &WHOLE {
        refused(checks, row, row.3);
    }
    seventeenth(checks);
    with_a_bound(checks);
    no_group(checks);
    deaf(checks);
    kind_that_is_lacking(checks);
}

/// Drawing E's links with a group for each of 1 and 2: seven lines.
const GROUPED: [&str; 7] = [
    "010400ff", "020001", "020002", "020103", "020203", "07000002", "07000004",
];

/// The program that refuses, its answer, why, and the frames.
pub struct Row(
    pub &'static str,
    pub &'static str,
    pub &'static str,
    pub &'static [&'static str],
);

/// The lines after those of the groups. Within a line the lowest number decides, 17 as it stands
/// between 6 and 7, and within 17 the source is told of first.
const AFTER_GROUPS: [Row; 16] = [
    Row(
        "verdict",
        "ff030008",
        "links, 02, stand before the groups, 07",
        &["020301"],
    ),
    Row(
        "verdict",
        "ff030008",
        "links, 02, stand before the groups, 07",
        &["020101"],
    ),
    Row(
        "verdict",
        "ff030008",
        "a second head: 01 stands once, in the first line",
        &["010400ff"],
    ),
    Row(
        "verdict",
        "ff110008",
        "0 is the source, which is good: no group has it",
        &["07000001"],
    ),
    Row(
        "verdict",
        "ff110008",
        "0 is the source, which is good: no group has it",
        &["07000011"],
    ),
    Row(
        "verdict",
        "ff110008",
        "terminal 4: the terminals are 0 to 3",
        &["07000012"],
    ),
    Row(
        "verdict",
        "ff110008",
        "terminal 23: the terminals are 0 to 3",
        &["07800000"],
    ),
    Row(
        "verdict",
        "ff110009",
        "terminal 5: the terminals are 0 to 3",
        &["07000000", "07000020", "02"],
    ),
    Row(
        "verdict",
        "ff020008",
        "kind 07 with 1 byte after it: a group has 3 (a set of three bytes)",
        &["0702"],
    ),
    Row(
        "verdict",
        "ff020008",
        "kind 06: there are 01 to 05, and 07",
        &["06000002"],
    ),
    Row(
        "run",
        "ff030009",
        "groups, 07, stand before 03 and 04",
        &["03000002", "07000001"],
    ),
    Row(
        "run",
        "ff030009",
        "links, 02, stand before 03 and 04",
        &["03000002", "020301"],
    ),
    Row(
        "run",
        "ff070008",
        "bad 0: it is the source, which is good",
        &["03000009"],
    ),
    Row(
        "run",
        "ff070008",
        "bad 4: the terminals are 0 to 3",
        &["03000018"],
    ),
    Row(
        "run",
        "ff080008",
        "no group has both 1 and 2",
        &["03000006"],
    ),
    Row("run", "ff080008", "no group has 3", &["03000008"]),
];

const WHOLE: [Row; 6] = [
    Row(
        "verdict",
        "ff030001",
        "the first line is the head, 01",
        &["07000002", "010400ff"],
    ),
    Row(
        "verdict",
        "ff040001",
        "n 21: 2 to 20 terminals are allowed",
        &["011500ff"],
    ),
    Row(
        "verdict",
        "ff040001",
        "source 4: 0 to 3 are allowed for 4 terminals",
        &["010404ff", "07000002"],
    ),
    Row(
        "verdict",
        "ff040001",
        "bound 254: 0 to 3 are allowed for 4 terminals",
        &["010400fe", "07000002"],
    ),
    Row(
        "verdict",
        "ff050003",
        "hearer 4: the terminals are 0 to 3",
        &["010400ff", "020001", "020004", "07000001"],
    ),
    Row(
        "verdict",
        "ff060003",
        "0 > 1: line 2 has this link already",
        &["010400ff", "020001", "020001", "07000001"],
    ),
];

/// The program's answer, the words of `explain`, and the same words where nothing else is printed.
pub fn refused(checks: &mut Checks, Row(program, answer, why, _): &Row, frames: &[&str]) {
    let file = checks.file("group.hex", lines(frames).as_bytes());
    let number = |from: usize, to: usize| usize::from_str_radix(&answer[from..to], 16);
    let (cause, line) = (
        number(2, 4).expect("a cause"),
        number(4, 8).expect("a line"),
    );
    let place = match line {
        0 => "the whole file".to_string(),
        line => format!("line {line} ({})", frames[line - 1]),
    };
    let told = format!("refused, {place}: {why} (cause {cause})");
    for word in alike(program) {
        let done = checks.call(&[word, &file]);
        let label = format!("{word} of {frames:?}");
        checks.ends(&label, &done, 1, &format!("{answer}\n"), "");
    }
    if *program == "verdict" {
        margins::refuses(checks, frames, answer);
        greatest::like_archive(checks, frames);
        sentences::like_verdict(checks, frames);
    }
    let done = checks.call(&["explain", &file]);
    let wanted = format!("{answer}\n{told}\n");
    checks.ends(&format!("explain of {frames:?}"), &done, 1, &wanted, "");
    let others: &[&str] = match *program {
        "verdict" => &["check", "draw", "show", "mend"],
        _ => &["draw", "show", "trace"],
    };
    for word in others {
        let done = checks.call(&[word, &file]);
        checks.tells(&format!("{word} of {frames:?}"), &done, 1, &told);
    }
}

/// Sixteen are read, empty ones and the same again among them. 17 is told of the seventeenth
/// whatever else it is.
fn seventeenth(checks: &mut Checks) {
    let more = ["07000002"; 13];
    let sixteen = [&GROUPED[..], &more, &["07000000"]].concat();
    let done = checks.call_with(&["rewrite"], lines(&sixteen).as_bytes());
    checks.ends("sixteen groups", &done, 0, &lines(&sixteen), "");
    for last in ["07000002", "07000000", "07000001"] {
        let frames = [&sixteen[..], &[last]].concat();
        let why = "a seventeenth group: 16 are the most";
        refused(checks, &Row("verdict", "ff110016", why, &[]), &frames);
    }
}

/// A group is no link, so in a plan with a bound it ends the links: 15, and then 3.
fn with_a_bound(checks: &mut Checks) {
    let why = "a group, and the head has the bound 1: groups stand where it has ff";
    for group in ["07000002", "07000000", "07000001"] {
        let frames = [&EXAMPLE[..], &[group]].concat();
        refused(checks, &Row("verdict", "ff030006", why, &[]), &frames);
    }
    let run = [&EXAMPLE[..], &["03000002", "07000002"]].concat();
    refused(checks, &Row("run", "ff030007", why, &[]), &run);
    let table = [
        ("verdict", ["01020000", "07000002"], "ff0f0000"),
        ("run", ["01020000", "07000002"], "ff0f0000"),
        ("archive", ["01020000", "07000002"], "ff030002"),
        ("rewrite", ["01020000", "07000002"], "ff030002"),
        ("verdict", ["01020000", "0700"], "ff020002"),
        ("archive", ["01020000", "0700000200"], "ff020002"),
    ];
    answered(
        checks,
        &table.map(|(word, frames, wanted)| (word, frames.to_vec(), wanted)),
    );
}

pub fn answered(checks: &mut Checks, table: &[(&str, Vec<&str>, &str)]) {
    for (word, frames, wanted) in table {
        let status = i32::from(wanted.starts_with("ff"));
        for word in alike(word) {
            let done = checks.call_with(&[word], lines(frames).as_bytes());
            let label = format!("{word} of {frames:?}");
            checks.ends(&label, &done, status, &format!("{wanted}\n"), "");
        }
        if *word == "verdict" {
            margins::refuses(checks, frames, wanted);
            greatest::like_archive(checks, frames);
            sentences::like_verdict(checks, frames);
        }
    }
}

/// 17 with line 0, at the first line that is neither link nor group, before that line's other
/// causes and before 15; a line that is no frame, or a wrong link, comes first.
fn no_group(checks: &mut Checks) {
    let links = GROUPED[..5].to_vec();
    let head = vec!["010200ff"];
    let under = |line: &'static str| vec!["010200ff", line];
    let mut table = vec![
        ("run", vec!["010200ff", "020001", "03000001"], "ff110000"),
        ("run", vec!["010200ff", "020001", "04000000"], "ff110000"),
        ("run", under("050101000007"), "ff110000"),
        ("run", vec!["010200ff", "020100", "020100"], "ff060003"),
    ];
    for word in ["verdict", "archive", "rewrite", "run"] {
        table.push((word, links.clone(), "ff110000"));
        table.push((word, head.clone(), "ff110000"));
        table.push((word, under("010200ff"), "ff110000"));
        table.push((word, under("0"), "ff010002"));
        table.push((word, under("0900"), "ff020002"));
        table.push((word, under("020101"), "ff050002"));
    }
    answered(checks, &table);
    let why = "the head has ff for f, so the plan lists its groups, lines 07, and there is none";
    refused(checks, &Row("verdict", "ff110000", why, &[]), &links);
    refused(checks, &Row("verdict", "ff110000", why, &[]), &head);
    let run = [&links[..], &["03000002", "04000703"]].concat();
    refused(checks, &Row("run", "ff110000", why, &[]), &run);
}

/// 2 hears nobody: told where the groups end, and not of one's line. The archive goes on.
fn deaf(checks: &mut Checks) {
    let after = |lines: &[&'static str]| [&["010300ff", "020001", "07000002"], lines].concat();
    let fails = "8101000000000003000004";
    let table = [
        ("verdict", after(&[]), "ff0f0000"),
        ("run", after(&[]), "ff0f0000"),
        ("archive", after(&[]), fails),
        ("verdict", after(&["07000004"]), "ff0f0000"),
        ("archive", after(&["07000004"]), fails),
        ("verdict", after(&["07000001"]), "ff110004"),
        ("archive", after(&["07000001"]), "ff110004"),
        ("verdict", after(&["020002"]), "ff030004"),
        ("archive", after(&["020002"]), "ff030004"),
        ("verdict", after(&["010300ff"]), "ff0f0000"),
        ("archive", after(&["010300ff"]), "ff030004"),
        ("run", after(&["03000004"]), "ff0f0000"),
        ("run", after(&["03000001", "020002"]), "ff0f0000"),
        ("run", after(&["0300"]), "ff020004"),
    ];
    answered(checks, &table);
    let done = checks.call_with(&["rewrite"], lines(&after(&[])).as_bytes());
    checks.ends("rewrite of a deaf plan", &done, 0, &lines(&after(&[])), "");
}

/// A run's frames are for `run` alone, with groups too.
fn kind_that_is_lacking(checks: &mut Checks) {
    let frames = lines(&[&GROUPED[..], &["03000002", "04000703"]].concat());
    let done = checks.call_with(&["check"], frames.as_bytes());
    let why = "refused, line 8 (03000002): kind 03, a run's bad set: 'archive' has 01, 02 and 07 only (cause 2)";
    checks.tells("check of a run's frames with groups", &done, 1, why);
    for word in ["verdict", "archive", "quote", "sentence", "rewrite"] {
        let done = checks.call_with(&[word], frames.as_bytes());
        checks.ends(&format!("{word} of them"), &done, 1, "ff020008\n", "");
    }
    let states = [
        "820001000007",
        "820102000000",
        "820201010007",
        "820300000000",
    ];
    let done = checks.call_with(&["run"], frames.as_bytes());
    checks.ends("run of them", &done, 0, &lines(&states), "");
}
