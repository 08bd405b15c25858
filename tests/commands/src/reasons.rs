//! Why a file of frames is refused: the number and the line are document 01's, the words say which
//! of the cause's alternatives it was.

use crate::answers::EXAMPLE;
use crate::checks::{lines, Checks};
use crate::greatest;
use crate::margins;
use crate::quote::alike;
use crate::sentences;

/// The program that refuses, cause, line, why, and the frames after the named start.
struct Row(
    &'static str,
    u8,
    usize,
    &'static str,
    &'static [&'static str],
);

/// Files by themselves.
const WHOLE: [Row; 16] = [
    Row(
        "verdict",
        1,
        3,
        "capital C: small digits only",
        &["01040001", "020001", "02000C"],
    ),
    Row(
        "verdict",
        1,
        2,
        "an empty line: every line has a frame",
        &["01040001", "", "020001"],
    ),
    Row(
        "verdict",
        1,
        2,
        "5 digits: a byte has two",
        &["01040001", "02000"],
    ),
    Row(
        "verdict",
        1,
        1,
        "a blank: digits 0-9a-f only",
        &["01 04 00 01"],
    ),
    Row("verdict", 1, 1, "'x': digits 0-9a-f only", &["0x040001"]),
    Row(
        "verdict",
        1,
        2,
        "'#': frames have no comments, the text form has",
        &["01040001", "# links"],
    ),
    Row(
        "verdict",
        2,
        2,
        "kind 0a: there are 01 to 05",
        &["01040001", "0a0001"],
    ),
    Row(
        "verdict",
        2,
        2,
        "kind 00: there are 01 to 05",
        &["01040001", "00"],
    ),
    Row(
        "verdict",
        2,
        3,
        "kind 02 with 1 byte after it: a link has 2 (from, to)",
        &["01040001", "020001", "0200"],
    ),
    Row(
        "verdict",
        3,
        1,
        "the first line is the head, 01",
        &["020001", "01040001"],
    ),
    Row(
        "verdict",
        3,
        3,
        "a second head: 01 stands once, in the first line",
        &["01020000", "020001", "01020000"],
    ),
    Row(
        "verdict",
        4,
        1,
        "n 21: 2 to 20 terminals are allowed",
        &["01150001"],
    ),
    Row(
        "verdict",
        4,
        1,
        "source 4: 0 to 3 are allowed for 4 terminals",
        &["01040401"],
    ),
    Row(
        "verdict",
        4,
        1,
        "bound 9: 0 to 3 are allowed for 4 terminals",
        &["01040009"],
    ),
    Row(
        "verdict",
        5,
        3,
        "hearer 4: the terminals are 0 to 3",
        &["01040001", "020001", "020004"],
    ),
    Row(
        "verdict",
        5,
        2,
        "sender 9: the terminals are 0 to 3",
        &["01040001", "020901"],
    ),
];

/// After document 01's example plan (5 lines).
const AFTER_PLAN: [Row; 9] = [
    Row(
        "verdict",
        5,
        6,
        "a link from 2 to itself joins nobody",
        &["020202"],
    ),
    Row(
        "verdict",
        6,
        6,
        "0 > 2: line 3 has this link already",
        &["020002"],
    ),
    Row(
        "run",
        3,
        7,
        "a word, 05, stands after the start, 04",
        &["03000002", "050201030009"],
    ),
    Row(
        "run",
        3,
        6,
        "the start, 04, stands after the bad set, 03",
        &["04000703"],
    ),
    Row(
        "run",
        3,
        0,
        "a run needs its value and rounds, a line 04, and there is none",
        &["03000002"],
    ),
    Row(
        "run",
        7,
        6,
        "bad 0: it is the source, which is good",
        &["03000003"],
    ),
    Row(
        "run",
        7,
        6,
        "bad 4: the terminals are 0 to 3",
        &["03000012"],
    ),
    Row(
        "run",
        8,
        6,
        "terminal 3 hears 1 and 2, both bad, and the bound is 1",
        &["03000006"],
    ),
    Row(
        "run",
        2,
        6,
        "kind 03 with 2 bytes after it: a bad set has 3 (a set of three bytes)",
        &["030002"],
    ),
];

/// After the same, its bad set 1, value 7 and 3 rounds (7 lines).
const AFTER_START: [Row; 10] = [
    Row("run", 3, 8, "a second start: 04 stands once", &["04000703"]),
    Row(
        "run",
        3,
        8,
        "a second bad set: 03 stands once",
        &["03000002"],
    ),
    Row(
        "run",
        3,
        8,
        "links, 02, stand before 03 and 04",
        &["020301"],
    ),
    Row(
        "run",
        10,
        8,
        "round 0: the run has rounds 1 to 3",
        &["050001030009"],
    ),
    Row(
        "run",
        10,
        8,
        "round 4: the run has rounds 1 to 3",
        &["050401030009"],
    ),
    Row(
        "run",
        10,
        8,
        "terminal 9: the terminals are 0 to 3",
        &["050201090009"],
    ),
    Row("run", 10, 8, "2 does not hear 1", &["050201020009"]),
    Row(
        "run",
        10,
        8,
        "2 is good, and the rules say what a good one says",
        &["050202030009"],
    ),
    Row(
        "run",
        10,
        8,
        "value 0: layouts are 1 to 65535; silence needs no word",
        &["050201030000"],
    ),
    Row(
        "run",
        11,
        9,
        "line 8 has a word on this link in this round already",
        &["050201030009", "050201030008"],
    ),
];

/// After the example plan and its bad set (6 lines).
const STARTS: [Row; 4] = [
    Row(
        "run",
        9,
        7,
        "value 0: layouts are 1 to 65535",
        &["04000003"],
    ),
    Row("run", 9, 7, "41 rounds: 0 to 40 are allowed", &["04000729"]),
    Row(
        "run",
        10,
        8,
        "round 4: the run has rounds 1 to 3 (n-1, since none are given)",
        &["040007", "050401030009"],
    ),
    Row(
        "run",
        10,
        8,
        "round 40: the run has rounds 1 to 39",
        &["04000727", "052801030009"],
    ),
];

pub fn check(checks: &mut Checks) {
    let tables: [(&[&str], &[Row]); 4] = [
        (&[], &WHOLE),
        (&EXAMPLE, &AFTER_PLAN),
        (
            &[&EXAMPLE[..], &["03000002", "04000703"]].concat(),
            &AFTER_START,
        ),
        (&[&EXAMPLE[..], &["03000002"]].concat(), &STARTS),
    ];
    for (start, rows) in tables {
        for row in rows {
            let frames = [start, row.4].concat();
            refused(checks, row, &frames);
        }
    }
    bytes_that_are_no_lines(checks);
    kind_that_is_lacking(checks);
}

fn refused(checks: &mut Checks, Row(program, cause, line, why, _): &Row, frames: &[&str]) {
    let file = checks.file("refused.hex", lines(frames).as_bytes());
    let frame = format!("ff{cause:02x}{line:04x}\n");
    let place = match line {
        0 => "the whole file".to_string(),
        line => format!("line {line} ({})", frames[line - 1]),
    };
    let told = format!("refused, {place}: {why} (cause {cause})");
    for word in alike(program) {
        let done = checks.call(&[word, &file]);
        checks.ends(&format!("{word}: {why}"), &done, 1, &frame, "");
    }
    if *program == "verdict" {
        margins::refuses(checks, frames, frame.trim_end());
        greatest::like_archive(checks, frames);
        sentences::like_verdict(checks, frames);
    }
    let done = checks.call(&["explain", &file]);
    checks.ends(
        &format!("explain: {why}"),
        &done,
        1,
        &format!("{frame}{told}\n"),
        "",
    );
    let others: &[&str] = match *program {
        "verdict" => &["check", "draw", "show", "mend", "links"],
        _ => &["draw", "show", "trace"],
    };
    for word in others {
        let done = checks.call(&[word, &file]);
        // A file without a run has none to trace, whatever else is wrong.
        checks.tells(&format!("{word}: {why}"), &done, 1, &told);
    }
}

/// A last line without its end, files of another length, and bytes that are no text.
fn bytes_that_are_no_lines(checks: &mut Checks) {
    let long = vec![b'0'; 24_577];
    let far_too_long = vec![0; 3_000_000];
    let too_long =
        "refused, the whole file: the file is too long: 24576 bytes are allowed (cause 1)";
    let table: [(&str, &[u8], &str, &str); 7] = [
        ("no line end", b"01040001\n020001", "ff010002", "refused, line 2 (020001): the last line has no line end (cause 1)"),
        ("empty", b"", "ff010000", "refused, the whole file: the file is empty (cause 1)"),
        ("too long", &long, "ff010000", too_long),
        ("far too long", &far_too_long, "ff010000", too_long),
        ("foreign bytes", b"01040001\n02\x00\xff\n", "ff010002", "refused, line 2 (02\\x00\\xff): '\\x00': digits 0-9a-f only (cause 1)"),
        ("Windows lines", b"01040001\r\n020001\r\n", "ff010001", "refused, line 1 (01040001\\r): a carriage return: a frame's line ends with byte 10 alone (cause 1)"),
        ("byte order mark", b"\xef\xbb\xbf01040001\n", "ff010001", "refused, line 1 (\\xef\\xbb\\xbf01040001): a byte order mark: frames start with a digit (cause 1)"),
    ];
    for (label, bytes, frame, told) in table {
        let file = checks.file("bytes.hex", bytes);
        let done = checks.call(&["explain", &file]);
        checks.ends(label, &done, 1, &format!("{frame}\n{told}\n"), "");
    }
}

/// A run's frames are for `run` alone.
fn kind_that_is_lacking(checks: &mut Checks) {
    let frames = lines(&[&EXAMPLE[..], &["03000002", "04000703"]].concat());
    for (word, program) in [
        ("check", "archive"),
        ("verdict", "verdict"),
        ("archive", "archive"),
        ("quote", "quote"),
        ("sentence", "sentence"),
        ("margins", "margins"),
        ("greatest", "greatest"),
        ("links", "greatest"),
        ("rewrite", "rewrite"),
    ] {
        let done = checks.call_with(&[word], frames.as_bytes());
        let told = format!("hulmayek: refused, line 6 (03000002): kind 03, a run's bad set: '{program}' has 01 and 02 only (cause 2)\n");
        match word {
            "check" | "links" => {
                checks.ends(&format!("{word} of a run's frames"), &done, 1, "", &told)
            }
            _ => checks.ends(
                &format!("{word} of a run's frames"),
                &done,
                1,
                "ff020006\n",
                "",
            ),
        }
    }
}
