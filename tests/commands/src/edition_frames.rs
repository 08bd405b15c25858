//! Frames with editions that are refused: the number and the line are those of document 02, P8, and
//! the words say which of the cause's alternatives it was.

use crate::answers::EXAMPLE;
use crate::checks::{lines, Checks};
use crate::group_frames::{answered, refused, Row};

pub fn check(checks: &mut Checks) {
    let bad = [&EXAMPLE[..], &["03000002"]].concat();
    let new = [&bad[..], &["040001000703"]].concat();
    let old = [&bad[..], &["04000703"]].concat();
    let tables: [(&[&str], &[Row]); 4] = [
        (&EXAMPLE, &AFTER_PLAN),
        (&bad, &AFTER_BAD),
        (&new, &AFTER_START),
        (&old, &AFTER_OLD_START),
    ];
    for (start, rows) in tables {
        for row in rows {
            refused(checks, row, &[start, row.3].concat());
        }
    }
    first_line(checks);
    with_groups(checks);
    kind_that_is_lacking(checks);
    accepted(checks);
}

/// After document 01's example plan (5 lines).
const AFTER_PLAN: [Row; 3] = [
    Row(
        "run",
        "ff030006",
        "a later notice, 08, stands after the start, 04",
        &["080100020008"],
    ),
    Row(
        "run",
        "ff030006",
        "the start, 04, stands after the bad set, 03",
        &["040001000703"],
    ),
    Row(
        "run",
        "ff030006",
        "a word, 05, stands after the start, 04",
        &["0502010300020009"],
    ),
];

/// After the same and its bad set, 1 (6 lines). Either form is right until the start is there; 9
/// comes before 16.
const AFTER_BAD: [Row; 17] = [
    Row(
        "run",
        "ff030007",
        "a later notice, 08, stands after the start, 04",
        &["080100020008"],
    ),
    Row(
        "run",
        "ff030007",
        "a later notice, 08, stands after the start, 04",
        &["080000000000"],
    ),
    Row(
        "run",
        "ff030007",
        "a word, 05, stands after the start, 04",
        &["0502010300020009"],
    ),
    Row(
        "run",
        "ff030007",
        "a word, 05, stands after the start, 04",
        &["0502010300000000"],
    ),
    Row(
        "run",
        "ff020007",
        "kind 04 with 1 byte after it: a start has 2 or 3 (value (2 bytes), rounds), or 4 or 5 (edition (2 bytes), layout (2 bytes), rounds)",
        &["0400"],
    ),
    Row(
        "run",
        "ff020007",
        "kind 04 with 6 bytes after it: a start has 2 or 3 (value (2 bytes), rounds), or 4 or 5 (edition (2 bytes), layout (2 bytes), rounds)",
        &["04000100070300"],
    ),
    Row(
        "run",
        "ff020007",
        "kind 05 with 6 bytes after it: a word has 5 (round, from, to, value (2 bytes)), or 7 (round, from, to, edition (2 bytes), layout (2 bytes)), or 4 (round, from, value (2 bytes))",
        &["05020103000209"],
    ),
    Row(
        "run",
        "ff020007",
        "kind 08 with 3 bytes after it: a later notice has 5 (round, edition (2 bytes), layout (2 bytes))",
        &["08010008"],
    ),
    Row(
        "run",
        "ff090007",
        "layout 0: layouts are 1 to 65535",
        &["040001000003"],
    ),
    Row(
        "run",
        "ff090007",
        "layout 0: layouts are 1 to 65535",
        &["0400000000"],
    ),
    Row(
        "run",
        "ff090007",
        "41 rounds: 0 to 40 are allowed",
        &["040001000729"],
    ),
    Row(
        "run",
        "ff090007",
        "41 rounds: 0 to 40 are allowed",
        &["040000000729"],
    ),
    Row(
        "run",
        "ff100007",
        "edition 0: editions are 1 to 65535",
        &["040000000703"],
    ),
    Row(
        "run",
        "ff100007",
        "edition 0: editions are 1 to 65535",
        &["0400000007"],
    ),
    Row(
        "run",
        "ff030008",
        "round 4: the run has rounds 1 to 3 (n-1, since none are given)",
        &["0400010007", "080400020008"],
    ),
    Row(
        "run",
        "ff030008",
        "round 1: the run has no round",
        &["040001000700", "080100020008"],
    ),
    Row(
        "run",
        "ff030008",
        "round 2: the run has round 1 only",
        &["040001000701", "080200020008"],
    ),
];

/// After a start of edition 1, layout 7 and 3 rounds (7 lines). On a later notice 3 comes first, then
/// 9, then 16.
const AFTER_START: [Row; 33] = [
    Row(
        "run",
        "ff020008",
        "a word without an edition: the start, line 7, has one",
        &["050201030009"],
    ),
    Row(
        "run",
        "ff020009",
        "a word without an edition: the start, line 7, has one",
        &["0501010300020009", "050001030000"],
    ),
    Row(
        "run",
        "ff020008",
        "a start without an edition: the start, line 7, has one",
        &["04000703"],
    ),
    Row(
        "run",
        "ff020008",
        "a start without an edition: the start, line 7, has one",
        &["040007"],
    ),
    Row(
        "run",
        "ff030008",
        "a second start: 04 stands once",
        &["040001000703"],
    ),
    Row(
        "run",
        "ff030008",
        "a second start: 04 stands once",
        &["0400000000"],
    ),
    Row(
        "run",
        "ff030009",
        "a second bad set: 03 stands once",
        &["080100020008", "03000002"],
    ),
    Row(
        "run",
        "ff030009",
        "links, 02, stand before 03 and 04",
        &["080100020008", "020301"],
    ),
    Row(
        "run",
        "ff020008",
        "kind 05 with 6 bytes after it: a word has 7 (round, from, to, edition (2 bytes), layout (2 bytes))",
        &["05020103000209"],
    ),
    Row(
        "run",
        "ff020008",
        "kind 04 with 1 byte after it: a start has 4 or 5 (edition (2 bytes), layout (2 bytes), rounds)",
        &["0400"],
    ),
    Row(
        "run",
        "ff020008",
        "kind 08 with 6 bytes after it: a later notice has 5 (round, edition (2 bytes), layout (2 bytes))",
        &["08010002000800"],
    ),
    Row(
        "run",
        "ff020008",
        "kind 0a: there are 01 to 05, and 08",
        &["0a01"],
    ),
    Row(
        "run",
        "ff030008",
        "round 0: the run has rounds 1 to 3",
        &["080000020008"],
    ),
    Row(
        "run",
        "ff030008",
        "round 4: the run has rounds 1 to 3",
        &["080400020008"],
    ),
    Row(
        "run",
        "ff030008",
        "round 4: the run has rounds 1 to 3",
        &["080400000000"],
    ),
    Row(
        "run",
        "ff030009",
        "round 2: line 8 has a later notice in this round already",
        &["080200020008", "080200030009"],
    ),
    Row(
        "run",
        "ff03000a",
        "round 1: later notices stand by their rounds, and line 9 has round 2",
        &["080100020008", "080200030009", "080100040008"],
    ),
    Row(
        "run",
        "ff030009",
        "round 1: later notices stand by their rounds, and line 8 has round 3",
        &["080300020008", "080100010000"],
    ),
    Row(
        "run",
        "ff030009",
        "later notices, 08, stand before the words, 05",
        &["0501010300020009", "080200020008"],
    ),
    Row(
        "run",
        "ff090008",
        "layout 0: layouts are 1 to 65535",
        &["080100020000"],
    ),
    Row(
        "run",
        "ff090008",
        "layout 0: layouts are 1 to 65535",
        &["080100010000"],
    ),
    Row(
        "run",
        "ff100008",
        "edition 0: editions are 1 to 65535",
        &["080100000008"],
    ),
    Row(
        "run",
        "ff100008",
        "edition 1: line 7 has edition 1, and a later notice has a higher one",
        &["080100010007"],
    ),
    Row(
        "run",
        "ff100009",
        "edition 4: line 8 has edition 5, and a later notice has a higher one",
        &["080100050008", "080200040009"],
    ),
    Row(
        "run",
        "ff10000a",
        "edition 256: line 9 has edition 256, and a later notice has a higher one",
        &["080100ff0008", "080201000009", "080301000008"],
    ),
    Row(
        "run",
        "ff0a0008",
        "edition 0: editions are 1 to 65535; silence needs no word",
        &["0502010300000009"],
    ),
    Row(
        "run",
        "ff0a0008",
        "layout 0: layouts are 1 to 65535; silence needs no word",
        &["0502010300020000"],
    ),
    Row(
        "run",
        "ff0a0008",
        "layout 0: layouts are 1 to 65535; silence needs no word",
        &["0502010300000000"],
    ),
    Row(
        "run",
        "ff0a0009",
        "round 4: the run has rounds 1 to 3",
        &["080300020008", "0504010300020009"],
    ),
    Row("run", "ff0a0008", "2 does not hear 1", &["0502010200020009"]),
    Row(
        "run",
        "ff0a0008",
        "2 is good, and the rules say what a good one says",
        &["0502020300020009"],
    ),
    Row(
        "run",
        "ff0a0008",
        "terminal 9: the terminals are 0 to 3",
        &["0502010900020009"],
    ),
    Row(
        "run",
        "ff0b0009",
        "line 8 has a word on this link in this round already",
        &["0502010300020009", "0502010300030008"],
    ),
];

/// After a start without an edition (7 lines).
const AFTER_OLD_START: [Row; 8] = [
    Row(
        "run",
        "ff020008",
        "a word with an edition: the start, line 7, has none",
        &["0502010300020009"],
    ),
    Row(
        "run",
        "ff020009",
        "a word with an edition: the start, line 7, has none",
        &["050101030009", "0500010300000000"],
    ),
    Row(
        "run",
        "ff020008",
        "a later notice with an edition: the start, line 7, has none",
        &["080100020008"],
    ),
    Row(
        "run",
        "ff020009",
        "a later notice with an edition: the start, line 7, has none",
        &["050101030009", "080000000000"],
    ),
    Row(
        "run",
        "ff020008",
        "a start with an edition: the start, line 7, has none",
        &["040001000703"],
    ),
    Row(
        "run",
        "ff020008",
        "a start with an edition: the start, line 7, has none",
        &["0400010007"],
    ),
    Row(
        "run",
        "ff020008",
        "kind 05 with 6 bytes after it: a word has 5 (round, from, to, value (2 bytes))",
        &["05020103000900"],
    ),
    Row("run", "ff020008", "kind 0a: there are 01 to 05", &["0a01"]),
];

fn first_line(checks: &mut Checks) {
    let row = Row("run", "ff030001", "the first line is the head, 01", &[]);
    refused(checks, &row, &["080100020008", "01040001"]);
}

/// A plan that lists groups is told of them too.
fn with_groups(checks: &mut Checks) {
    let start = [
        "010400ff",
        "020001",
        "020002",
        "020103",
        "020203",
        "07000002",
        "03000002",
        "040001000703",
    ];
    let table = [
        (
            "ff020009",
            "kind 0a: there are 01 to 05, 07 and 08",
            ["0a01"],
        ),
        (
            "ff100009",
            "edition 1: line 8 has edition 1, and a later notice has a higher one",
            ["080100010008"],
        ),
        (
            "ff030009",
            "groups, 07, stand before 03 and 04",
            ["07000002"],
        ),
    ];
    for (answer, why, frames) in table {
        let row = Row("run", answer, why, &[]);
        refused(checks, &row, &[&start[..], &frames].concat());
    }
}

/// Later notices are for `run` alone.
fn kind_that_is_lacking(checks: &mut Checks) {
    let under = |line: &'static str| [&EXAMPLE[..], &[line]].concat();
    let mut table = Vec::new();
    for word in ["verdict", "archive", "rewrite"] {
        table.push((word, under("080100020008"), "ff020006"));
        table.push((word, under("040001000703"), "ff020006"));
        table.push((word, under("0501010300020009"), "ff020006"));
    }
    answered(checks, &table);
    let file = lines(&under("080100020008"));
    let done = checks.call_with(&["check"], file.as_bytes());
    let why = "refused, line 6 (080100020008): kind 08, a run's later notice: 'archive' has 01 and 02 only (cause 2)";
    checks.tells("check of a later notice", &done, 1, why);
}

/// The nearest that is right: editions that rise by one and to the last, in the first round, between
/// and in the last; a word right after them.
fn accepted(checks: &mut Checks) {
    let run = [
        "03000002",
        "040001000703",
        "080100020008",
        "0802fffe0009",
        "0803ffff0007",
        "050101030001ffff",
    ];
    let frames = lines(&[&EXAMPLE[..], &run].concat());
    // 2 hears the source: in round 3 it takes what is issued in round 2. 3 has from 2 what the liar
    // does not say.
    let states = [
        "82000103ffff0007",
        "8201020000000000",
        "82020103fffe0009",
        "8203000000000000",
    ];
    let done = checks.call_with(&["run"], frames.as_bytes());
    checks.ends("run of three later notices", &done, 0, &lines(&states), "");
}
