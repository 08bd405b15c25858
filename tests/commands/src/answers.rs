//! Document 01's examples, however the file is given; and many files in one call.

use crate::checks::{done, lines, Checks};
use std::os::unix::fs::symlink;
use std::process::Command;

pub const EXAMPLE: [&str; 5] = ["01040001", "020001", "020002", "020103", "020203"];
pub const TEXT: &str = "terminals 4\nsource 0\nbound 1\n0 > 1 2\n1 > 3\n2 > 3\n";
const VERDICT: &str = "8101000002000005000008\n";
const RUN: [&str; 3] = ["03000002", "04000703", "050201030009"];
const STATES: [&str; 4] = [
    "820001000007",
    "820102000000",
    "820201010007",
    "820300000000",
];

pub fn check(checks: &mut Checks) {
    ways_to_give_a_file(checks);
    programs(checks);
    one_word(checks);
    many_files(checks);
}

fn ways_to_give_a_file(checks: &mut Checks) {
    let example = lines(&EXAMPLE);
    for words in [
        vec!["verdict"],
        vec!["verdict", "-"],
        vec!["archive"],
        vec!["quote"],
    ] {
        let done = checks.call_with(&words, example.as_bytes());
        checks.ends(&format!("{words:?} of input"), &done, 0, VERDICT, "");
    }
    let file = checks.file("e x.hex", example.as_bytes());
    let by_name = checks.call(&["verdict", &file]);
    checks.ends("verdict of a file", &by_name, 0, VERDICT, "");
    let link = checks.room.join("link");
    symlink(checks.top.join("hulmayek"), &link).expect("a link");
    let mut through = Command::new("./link");
    through
        .args(["verdict", "e x.hex"])
        .current_dir(&checks.room);
    let through = done(through, b"");
    checks.ends(
        "through a symbolic link, elsewhere",
        &through,
        0,
        VERDICT,
        "",
    );
}

fn programs(checks: &mut Checks) {
    let run = lines(&[&EXAMPLE[..], &RUN[..]].concat());
    let states = lines(&STATES);
    let told = lines(&[
        "3 rounds played, as given",
        "terminal 0, the source: took layout 7 in round 0",
        "terminal 1: bad",
        "terminal 2: took layout 7 in round 1",
        "terminal 3: waiting",
    ]);
    let other_order = lines(&["01040001", "020203", "020002", "020103", "020001"]);
    let example = lines(&EXAMPLE);
    let run_text = format!("{TEXT}bad 1\nvalue 7\nrounds 3\nround 2: 1 says 9 to 3\n");
    let table: [(&str, &str, String); 13] = [
        ("run", &run, states.clone()),
        ("run", &run_text, states.clone()),
        ("explain", &run, format!("{states}{told}")),
        ("explain", &run_text, format!("{states}{told}")),
        ("rewrite", &other_order, example.clone()),
        ("rewrite", TEXT, example.clone()),
        ("plan", &other_order, example.clone()),
        ("plan", &run_text, run.clone()),
        ("verdict", TEXT, VERDICT.into()),
        ("archive", TEXT, VERDICT.into()),
        ("archive", &run_text, VERDICT.into()),
        ("quote", TEXT, VERDICT.into()),
        ("quote", &run_text, VERDICT.into()),
    ];
    for (word, input, wanted) in table {
        let done = checks.call_with(&[word], input.as_bytes());
        checks.ends(&format!("{word} of {input:?}"), &done, 0, &wanted, "");
    }
    let shown = checks.call_with(&["show"], run.as_bytes());
    checks.ends("show of a run's frames", &shown, 0, &run_text, "");
}

/// Drawings A and E; a refused file; a wrong call.
fn one_word(checks: &mut Checks) {
    let wide = "terminals 21\nsource 0\nbound 1\n";
    let table = [
        ("terminals 2\nsource 0\nbound 0\n0 > 1\n", 0, "pass\n", ""),
        ("01020000\n020001\n", 0, "pass\n", ""),
        (TEXT, 3, "fail\n", ""),
        (
            wide,
            1,
            "",
            "hulmayek: refused, line 1 (terminals 21): 2 to 20 terminals are allowed (cause 4)\n",
        ),
    ];
    for (input, status, out, err) in table {
        let done = checks.call_with(&["check"], input.as_bytes());
        checks.ends(&format!("check of {input:?}"), &done, status, out, err);
    }
}

/// The names that a row's words and lines stand for.
const FILES: [(&str, &str); 8] = [
    ("good", "01020000\n020001\n"),
    ("failing", TEXT),
    ("deaf", "01020000\n"),
    ("deaf text", "terminals 2\nsource 0\nbound 0\n"),
    ("wide", "010d0000\n"),
    ("wide text", "terminals 13\nsource 0\nbound 0\n"),
    ("refused", "01150001\n"),
    ("missing", ""),
];

/// Words, status and lines, without the folder of the files.
const MANY: [(&[&str], i32, &[&str]); 14] = [
    (
        &["verdict", "good", "failing"],
        0,
        &[
            "good: 8100000000000000000000",
            "failing: 8101000002000005000008",
        ],
    ),
    (
        &["verdict", "refused", "good"],
        1,
        &["refused: ff040001", "good: 8100000000000000000000"],
    ),
    (
        &["archive", "good", "failing", "deaf", "deaf text"],
        0,
        &[
            "good: 8100000000000000000000",
            "failing: 8101000002000005000008",
            "deaf: 8101000000000001000002",
            "deaf text: 8101000000000001000002",
        ],
    ),
    (
        &["archive", "refused", "deaf"],
        1,
        &["refused: ff040001", "deaf: 8101000000000001000002"],
    ),
    (
        &["archive", "missing", "refused"],
        2,
        &["missing: there is no file 'missing'", "refused: ff040001"],
    ),
    (
        &["verdict", "deaf", "deaf text", "good"],
        1,
        &[
            "deaf: ff0f0000",
            "deaf text: refused, the whole file: terminal 1 hears nobody; a new plan must have no such terminal, and './hulmayek archive FILE' opens a plan that is on file already (cause 15)",
            "good: 8100000000000000000000",
        ],
    ),
    (
        &["quote", "good", "failing"],
        0,
        &[
            "good: 8100000000000000000000",
            "failing: 8101000002000005000008",
        ],
    ),
    (
        &["quote", "wide", "good", "wide text", "deaf"],
        1,
        &[
            "wide: ff0e0001",
            "good: 8100000000000000000000",
            "wide text: refused, line 1 (terminals 13): the quoting desk takes at most 12 terminals; './hulmayek verdict FILE' judges up to 20 (cause 14)",
            "deaf: ff0f0000",
        ],
    ),
    (
        &["quote", "missing", "wide", "refused"],
        2,
        &[
            "missing: there is no file 'missing'",
            "wide: ff0e0001",
            "refused: ff040001",
        ],
    ),
    (
        &["archive", "wide", "wide text"],
        0,
        &[
            "wide: 8101000000000001001ffe",
            "wide text: 8101000000000001001ffe",
        ],
    ),
    (
        &["check", "deaf", "good", "deaf text"],
        3,
        &["deaf: fail", "good: pass", "deaf text: fail"],
    ),
    (
        &["check", "good", "failing"],
        3,
        &["good: pass", "failing: fail"],
    ),
    (
        &["check", "refused", "failing"],
        1,
        &[
            "refused: refused, line 1 (01150001): n 21: 2 to 20 terminals are allowed (cause 4)",
            "failing: fail",
        ],
    ),
    (
        &["check", "missing", "refused"],
        2,
        &[
            "missing: there is no file 'missing'",
            "refused: refused, line 1 (01150001): n 21: 2 to 20 terminals are allowed (cause 4)",
        ],
    ),
];

fn many_files(checks: &mut Checks) {
    let mut files = FILES.to_vec();
    files.retain(|(_, text)| !text.is_empty());
    checks.many_files(&files, &MANY);
    let run = lines(&[&EXAMPLE[..], &RUN[..]].concat());
    let played = checks.file("played.hex", run.as_bytes());
    let line = format!("{played}: {}\n", STATES.join(" "));
    let done = checks.call(&["run", &played, &played]);
    checks.ends("run of two files", &done, 0, &line.repeat(2), "");
}
