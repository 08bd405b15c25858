//! Frames of a run on a shared channel that are refused: the number and the line are those of
//! document 02, P11, and the words say which of the cause's alternatives it was.

use crate::answers::EXAMPLE;
use crate::checks::{lines, Checks};
use crate::group_frames::{answered, refused, Row};

pub fn check(checks: &mut Checks) {
    let channel = [&EXAMPLE[..], &["090005"]].concat();
    let bad = [&channel[..], &["03000003"]].concat();
    let start = [&bad[..], &["04000703"]].concat();
    let own = [&EXAMPLE[..], &["03000002"]].concat();
    let old = [&own[..], &["04000703"]].concat();
    let new = [&own[..], &["040001000703"]].concat();
    let tables: [(&[&str], &[Row]); 8] = [
        (&EXAMPLE, &AFTER_PLAN),
        (&channel, &AFTER_CHANNEL),
        (&bad, &AFTER_BAD),
        (&start, &AFTER_START),
        (&own, &NOT_SHARED),
        (&old, &NOT_SHARED_STARTED),
        (&new, &NOT_SHARED_STARTED),
        (&GROUPED, &AFTER_GROUPS),
    ];
    for (start, rows) in tables {
        for row in rows {
            refused(checks, row, &[start, row.3].concat());
        }
    }
    let row = Row("run", "ff030001", "the first line is the head, 01", &[]);
    refused(checks, &row, &["090005", "01040001"]);
    where_the_links_end(checks);
    kind_that_is_lacking(checks);
    accepted(checks);
}

const HEARER: &str = "a word that names a hearer: line 6 has a shared channel, and a word on it reaches all who hear the sender";

/// After document 01's example plan (5 lines). A word without a hearer is a frame by itself.
const AFTER_PLAN: [Row; 6] = [
    Row(
        "run",
        "ff090006",
        "default 0: layouts are 1 to 65535",
        &["090000"],
    ),
    Row(
        "run",
        "ff020006",
        "kind 09 with 0 bytes after it: a shared channel has 2 (default layout (2 bytes))",
        &["09"],
    ),
    Row(
        "run",
        "ff020006",
        "kind 09 with 3 bytes after it: a shared channel has 2 (default layout (2 bytes))",
        &["09000500"],
    ),
    Row(
        "run",
        "ff030006",
        "a word, 05, stands after the start, 04",
        &["0501010009"],
    ),
    Row(
        "run",
        "ff030006",
        "a word, 05, stands after the start, 04",
        &["0500000000"],
    ),
    Row(
        "run",
        "ff020006",
        "kind 05 with 3 bytes after it: a word has 5 (round, from, to, value (2 bytes)), or 7 (round, from, to, edition (2 bytes), layout (2 bytes)), or 4 (round, from, value (2 bytes))",
        &["05010109"],
    ),
];

/// After the same and a shared channel (6 lines). 2 comes before 3, 7 before 8; the source may be bad,
/// and the others of the set are held to the bound.
const AFTER_CHANNEL: [Row; 27] = [
    Row(
        "run",
        "ff030007",
        "a second shared channel: 09 stands once",
        &["090005"],
    ),
    Row(
        "run",
        "ff030007",
        "a second shared channel: 09 stands once",
        &["090000"],
    ),
    Row(
        "run",
        "ff030007",
        "links, 02, stand before a shared channel, 09",
        &["020301"],
    ),
    Row(
        "run",
        "ff030007",
        "links, 02, stand before a shared channel, 09",
        &["020001"],
    ),
    Row(
        "run",
        "ff030007",
        "a group, and the head has the bound 1: groups stand where it has ff",
        &["07000002"],
    ),
    Row(
        "run",
        "ff030007",
        "a second head: 01 stands once, in the first line",
        &["01040001"],
    ),
    Row(
        "run",
        "ff030007",
        "the start, 04, stands after the bad set, 03",
        &["04000703"],
    ),
    Row(
        "run",
        "ff030007",
        "the start, 04, stands after the bad set, 03",
        &["040000"],
    ),
    Row(
        "run",
        "ff030007",
        "a word, 05, stands after the start, 04",
        &["0501010009"],
    ),
    Row(
        "run",
        "ff030000",
        "a run needs its bad set, a line 03, and there is none",
        &[],
    ),
    Row(
        "run",
        "ff020007",
        HEARER,
        &["050101030009"],
    ),
    Row(
        "run",
        "ff020007",
        HEARER,
        &["050000000000"],
    ),
    Row(
        "run",
        "ff020007",
        "a word with an edition: line 6 has a shared channel, and a run on it has none",
        &["0501010300020009"],
    ),
    Row(
        "run",
        "ff020007",
        "a later notice with an edition: line 6 has a shared channel, and a run on it has none",
        &["080100020008"],
    ),
    Row(
        "run",
        "ff020007",
        "a start with an edition: line 6 has a shared channel, and a run on it has none",
        &["040001000703"],
    ),
    Row(
        "run",
        "ff020007",
        "a start with an edition: line 6 has a shared channel, and a run on it has none",
        &["0400010007"],
    ),
    Row(
        "run",
        "ff020007",
        "kind 04 with 1 byte after it: a start has 2 or 3 (value (2 bytes), rounds)",
        &["0400"],
    ),
    Row(
        "run",
        "ff020007",
        "kind 05 with 3 bytes after it: a word has 4 (round, from, value (2 bytes))",
        &["05010109"],
    ),
    Row(
        "run",
        "ff020007",
        "kind 05 with 6 bytes after it: a word has 4 (round, from, value (2 bytes))",
        &["05010103000209"],
    ),
    Row(
        "run",
        "ff020007",
        "kind 08 with 1 byte after it: a later notice has 5 (round, edition (2 bytes), layout (2 bytes))",
        &["0801"],
    ),
    Row(
        "run",
        "ff020007",
        "kind 09 with 1 byte after it: a shared channel has 2 (default layout (2 bytes))",
        &["0905"],
    ),
    Row(
        "run",
        "ff020007",
        "kind 0a: there are 01 to 05, and 09",
        &["0a01"],
    ),
    Row(
        "run",
        "ff070007",
        "bad 4: the terminals are 0 to 3",
        &["03000011"],
    ),
    Row(
        "run",
        "ff070007",
        "bad 4: the terminals are 0 to 3",
        &["03000017"],
    ),
    Row(
        "run",
        "ff070007",
        "bad 23: the terminals are 0 to 3",
        &["03800000"],
    ),
    Row(
        "run",
        "ff080007",
        "terminal 3 hears 1 and 2, both bad, and the bound is 1; without the source the bad set must keep the bound, at the source too",
        &["03000007"],
    ),
    Row(
        "run",
        "ff080007",
        "terminal 3 hears 1 and 2, both bad, and the bound is 1",
        &["03000006"],
    ),
];

/// After the same and the bad set 0 and 1 (7 lines). A bad source's value is not used, and still no 0.
const AFTER_BAD: [Row; 14] = [
    Row(
        "run",
        "ff030008",
        "a second shared channel: 09 stands once",
        &["090005"],
    ),
    Row(
        "run",
        "ff030008",
        "a second bad set: 03 stands once",
        &["03000003"],
    ),
    Row(
        "run",
        "ff030008",
        "links, 02, stand before 03 and 04",
        &["020301"],
    ),
    Row(
        "run",
        "ff030008",
        "a word, 05, stands after the start, 04",
        &["0501000009"],
    ),
    Row(
        "run",
        "ff030000",
        "a run needs its value and rounds, a line 04, and there is none",
        &[],
    ),
    Row(
        "run",
        "ff090008",
        "value 0: layouts are 1 to 65535",
        &["04000003"],
    ),
    Row(
        "run",
        "ff090008",
        "value 0: layouts are 1 to 65535",
        &["040000"],
    ),
    Row(
        "run",
        "ff090008",
        "41 rounds: 0 to 40 are allowed",
        &["04000729"],
    ),
    Row(
        "run",
        "ff020008",
        "a start with an edition: line 6 has a shared channel, and a run on it has none",
        &["0400010007"],
    ),
    Row(
        "run",
        "ff020008",
        "a start with an edition: line 6 has a shared channel, and a run on it has none",
        &["0400000000"],
    ),
    Row(
        "run",
        "ff020008",
        "a later notice with an edition: line 6 has a shared channel, and a run on it has none",
        &["080000000000"],
    ),
    Row("run", "ff020008", HEARER, &["050101030009"]),
    Row(
        "run",
        "ff0a0009",
        "round 4: the run has rounds 1 to 3 (n-1, since none are given)",
        &["040007", "0504000009"],
    ),
    Row(
        "run",
        "ff0a0009",
        "round 1: the run has no round",
        &["04000700", "0501000009"],
    ),
];

/// After the same, value 7 and 3 rounds (8 lines). A sender is bad, and says one word a round.
const AFTER_START: [Row; 20] = [
    Row(
        "run",
        "ff0a0009",
        "round 0: the run has rounds 1 to 3",
        &["0500000009"],
    ),
    Row(
        "run",
        "ff0a0009",
        "round 4: the run has rounds 1 to 3",
        &["0504010009"],
    ),
    Row(
        "run",
        "ff0a0009",
        "2 is good, and the rules say what a good one says",
        &["0501020009"],
    ),
    Row(
        "run",
        "ff0a0009",
        "terminal 4: the terminals are 0 to 3",
        &["0501040009"],
    ),
    Row(
        "run",
        "ff0a0009",
        "terminal 255: the terminals are 0 to 3",
        &["0501ff0009"],
    ),
    Row(
        "run",
        "ff0a0009",
        "value 0: layouts are 1 to 65535; silence needs no word",
        &["0501000000"],
    ),
    Row(
        "run",
        "ff0a000a",
        "value 0: layouts are 1 to 65535; silence needs no word",
        &["0501000009", "0501000000"],
    ),
    Row(
        "run",
        "ff0b000a",
        "line 9 has a word of this sender in this round already",
        &["0501000009", "0501000009"],
    ),
    Row(
        "run",
        "ff0b000b",
        "line 9 has a word of this sender in this round already",
        &["0502010009", "0502000009", "0502010008"],
    ),
    Row("run", "ff020009", HEARER, &["050101030009"]),
    Row("run", "ff02000a", HEARER, &["0501010009", "050000000000"]),
    Row(
        "run",
        "ff020009",
        "a word with an edition: line 6 has a shared channel, and a run on it has none",
        &["0501010300020009"],
    ),
    Row(
        "run",
        "ff020009",
        "a later notice with an edition: line 6 has a shared channel, and a run on it has none",
        &["080100020008"],
    ),
    Row(
        "run",
        "ff020009",
        "a start with an edition: line 6 has a shared channel, and a run on it has none",
        &["040001000703"],
    ),
    Row(
        "run",
        "ff030009",
        "a second start: 04 stands once",
        &["04000703"],
    ),
    Row(
        "run",
        "ff030009",
        "a second bad set: 03 stands once",
        &["03000003"],
    ),
    Row(
        "run",
        "ff030009",
        "a second shared channel: 09 stands once",
        &["090005"],
    ),
    Row(
        "run",
        "ff03000a",
        "a second shared channel: 09 stands once",
        &["0501010009", "090000"],
    ),
    Row(
        "run",
        "ff020009",
        "kind 05 with 3 bytes after it: a word has 4 (round, from, value (2 bytes))",
        &["05010109"],
    ),
    Row(
        "run",
        "ff020009",
        "kind 0a: there are 01 to 05, and 09",
        &["0a01"],
    ),
];

/// After document 01's plan and its bad set, 1 (6 lines).
const NOT_SHARED: [Row; 3] = [
    Row(
        "run",
        "ff030007",
        "a shared channel, 09, stands just before the bad set, 03",
        &["090005"],
    ),
    Row(
        "run",
        "ff030007",
        "a shared channel, 09, stands just before the bad set, 03",
        &["090000"],
    ),
    Row(
        "run",
        "ff030007",
        "a word, 05, stands after the start, 04",
        &["0501010009"],
    ),
];

/// After the same and a start, with an edition or without (7 lines).
const NOT_SHARED_STARTED: [Row; 5] = [
    Row(
        "run",
        "ff020008",
        "a word without a hearer: only on a shared channel, 09, it names none",
        &["0501010009"],
    ),
    Row(
        "run",
        "ff020008",
        "a word without a hearer: only on a shared channel, 09, it names none",
        &["0500ff0000"],
    ),
    Row(
        "run",
        "ff030008",
        "a shared channel, 09, stands just before the bad set, 03",
        &["090005"],
    ),
    Row(
        "run",
        "ff030008",
        "a shared channel, 09, stands just before the bad set, 03",
        &["090000"],
    ),
    Row(
        "run",
        "ff020008",
        "kind 09 with 1 byte after it: a shared channel has 2 (default layout (2 bytes))",
        &["0905"],
    ),
];

/// Drawing E's links with a group for each of 1 and 2: seven lines.
const GROUPED: [&str; 7] = [
    "010400ff", "020001", "020002", "020103", "020203", "07000002", "07000004",
];

/// After these.
const AFTER_GROUPS: [Row; 10] = [
    Row(
        "run",
        "ff030009",
        "groups, 07, stand before a shared channel, 09",
        &["090005", "07000002"],
    ),
    Row(
        "run",
        "ff030009",
        "groups, 07, stand before a shared channel, 09",
        &["090005", "07000001"],
    ),
    Row(
        "run",
        "ff030009",
        "links, 02, stand before a shared channel, 09",
        &["090005", "020301"],
    ),
    Row(
        "run",
        "ff03000b",
        "groups, 07, stand before 03 and 04",
        &["090005", "03000003", "040007", "07000002"],
    ),
    Row(
        "run",
        "ff080009",
        "no group has both 1 and 2; without the source the bad set must be part of one group",
        &["090005", "03000007"],
    ),
    Row(
        "run",
        "ff080009",
        "no group has 3; without the source the bad set must be part of one group",
        &["090005", "03000009"],
    ),
    Row(
        "run",
        "ff080009",
        "no group has both 1 and 2",
        &["090005", "03000006"],
    ),
    Row(
        "run",
        "ff070009",
        "bad 4: the terminals are 0 to 3",
        &["090005", "03000011"],
    ),
    Row(
        "run",
        "ff020009",
        "kind 0a: there are 01 to 05, 07 and 09",
        &["090005", "0a01"],
    ),
    Row(
        "run",
        "ff090008",
        "default 0: layouts are 1 to 65535",
        &["090000"],
    ),
];

/// At a shared channel, if it is a frame: 17 for no group and then 15, before its own causes.
fn where_the_links_end(checks: &mut Checks) {
    let table = [
        ("run", vec!["01020000", "090005"], "ff0f0000"),
        ("run", vec!["01020000", "090000"], "ff0f0000"),
        ("run", vec!["01020000", "0900"], "ff020002"),
        ("run", vec!["01020000", "0501000009"], "ff0f0000"),
        ("run", vec!["010200ff", "020001", "090005"], "ff110000"),
        ("run", vec!["010200ff", "090000"], "ff110000"),
        ("run", vec!["010200ff", "07000002", "090000"], "ff0f0000"),
        ("run", vec!["010200ff", "090005", "07000002"], "ff110000"),
    ];
    answered(checks, &table);
}

/// A shared channel is for `run` alone.
fn kind_that_is_lacking(checks: &mut Checks) {
    let under = |plan: &[&'static str]| [plan, &["090005"]].concat();
    let mut table = Vec::new();
    for word in ["verdict", "archive", "rewrite"] {
        table.push((word, under(&EXAMPLE), "ff020006"));
        table.push((word, under(&GROUPED), "ff020008"));
    }
    answered(checks, &table);
    for (plan, line, has) in [
        (&EXAMPLE[..], 6, "01 and 02"),
        (&GROUPED, 8, "01, 02 and 07"),
    ] {
        let done = checks.call_with(&["check"], lines(&under(plan)).as_bytes());
        let why = format!("refused, line {line} (090005): kind 09, a run's shared channel: 'archive' has {has} only (cause 2)");
        checks.tells("check of a shared channel", &done, 1, &why);
    }
}

/// The nearest that is right. 2 has what the source says in round 1, and 3 takes it from 2 and the
/// liar in round 3; nobody hears 3; 1 and 2 are voices for 3 where both are good.
fn accepted(checks: &mut Checks) {
    let table: [(&str, &[&str], [&str; 4]); 4] = [
        (
            "words of the first round and the last",
            &[
                "09ffff",
                "03000003",
                "04000703",
                "0501000001",
                "0503010001",
                "050300ffff",
            ],
            [
                "820002000000",
                "820102000000",
                "820201010001",
                "820301030001",
            ],
        ),
        (
            "a word that nobody hears",
            &["090001", "03000008", "040007", "0501030009"],
            [
                "820001000007",
                "820101010007",
                "820201010007",
                "820302000000",
            ],
        ),
        (
            "nobody is bad",
            &["090007", "03000000", "040008"],
            [
                "820001000008",
                "820101010008",
                "820201010008",
                "820301020008",
            ],
        ),
        (
            "the source alone, silent",
            &["090006", "03000001", "04000702"],
            [
                "820002000000",
                "820101010006",
                "820201010006",
                "820301020006",
            ],
        ),
    ];
    for (label, run, states) in table {
        let frames = lines(&[&EXAMPLE[..], run].concat());
        let done = checks.call_with(&["run"], frames.as_bytes());
        checks.ends(&format!("run of {label}"), &done, 0, &lines(&states), "");
    }
}
