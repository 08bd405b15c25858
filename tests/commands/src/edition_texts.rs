//! Editions in the text form: the run that a text means, and what is said where it means none.

use crate::answers::{EXAMPLE, TEXT};
use crate::checks::{lines, Checks};
use crate::group_texts::refused;

pub fn check(checks: &mut Checks) {
    same_run(checks);
    wrong_texts(checks);
    refused_texts(checks);
    shown_again(checks);
}

/// Document 01's plan, whose 1 is bad (7 lines).
fn with_bad() -> String {
    format!("{TEXT}bad 1\n")
}

const RUN: &str = "value 7 edition 1\nrounds 3\nround 1: source issues 8 edition 2\nround 3: source issues 7 edition 300\nround 2: 1 says 9 edition 2 to 3\nround 1: 1 says 8 edition 9 to 3\n";
const RUN_FRAMES: [&str; 6] = [
    "03000002",
    "040001000703",
    "080100020008",
    "0803012c0007",
    "0502010300020009",
    "0501010300090008",
];

/// The same run in other clothes. Later notices are issued by round, wherever their lines stand.
fn same_run(checks: &mut Checks) {
    let frames = [&EXAMPLE[..], &RUN_FRAMES].concat();
    let windows = RUN.replace('\n', "\r\n");
    let table = [
        ("as it is", RUN),
        ("Windows lines", &windows),
        (
            "later notices first, the last one before the others",
            "round 3: source issues 7 edition 300 # again\nround 1: source issues 8 edition 2\nround 2: 1 says 9 edition 2 to 3\nround 1: 1 says 8 edition 9 to 3\nrounds 3\nvalue 7 edition 1\n",
        ),
        (
            "blanks",
            "value  7   edition\t1\n rounds 3\nround 1:source issues  8 edition 2\nround 3 : source  issues 7 edition  300\nround 2: 1 says 9  edition 2 to 3\nround 1: 1 says 8 edition 9  to  3\n",
        ),
    ];
    for (label, run) in table {
        let text = with_bad() + run;
        let done = checks.call_with(&["plan"], text.as_bytes());
        checks.ends(&format!("plan: {label}"), &done, 0, &lines(&frames), "");
    }
}

const FORM: &str = "expected 'round NUMBER: source issues LAYOUT edition NUMBER'";

/// Lines under document 01's plan with its bad set, and the tool's own words. The first is line 8.
const WRONG: [(&str, &str); 20] = [
    (
        "value 7 edition 1\nround 2: 1 says 9 to 3",
        "line 9: no edition, and line 8 has one: a run has an edition with every layout, or with none",
    ),
    (
        "value 7\nround 2: 1 says 9 edition 1 to 3",
        "line 9: an edition, and line 8 has none: a run has an edition with every layout, or with none",
    ),
    (
        "value 7\n\nround 2: source issues 8 edition 2",
        "line 10: an edition, and line 8 has none: a run has an edition with every layout, or with none",
    ),
    (
        "round 2: 1 says 9 to 3\nvalue 7 edition 1",
        "line 9: an edition, and line 8 has none: a run has an edition with every layout, or with none",
    ),
    (
        "round 2: source issues 8 edition 2\nvalue 7",
        "line 9: no edition, and line 8 has one: a run has an edition with every layout, or with none",
    ),
    (
        "round 2: 1 says 9 edition 1 to 3\nround 3: 1 says 9 to 3\nvalue 7 edition 1",
        "line 9: no edition, and line 8 has one: a run has an edition with every layout, or with none",
    ),
    ("value 7\nround 2: source issues 8", "line 9: FORM"),
    ("value 7 edition 1\nround 2: source issues 8", "line 9: FORM"),
    (
        "value 7 edition 1\nround 2: 0 issues 8 edition 2",
        "line 9: FORM",
    ),
    (
        "value 7 edition 1\nround 2: issues 8 edition 2",
        "line 9: FORM",
    ),
    (
        "value 7 edition 1\nround 2 source issues 8 edition 2",
        "line 9: FORM",
    ),
    (
        "value 7 edition 1\nround x: source issues 8 edition 2",
        "line 9: expected a round after 'round', found 'x'",
    ),
    (
        "value 7 edition 1\nround 2: source issues edition 2",
        "line 9: expected one layout after 'issues', found nothing",
    ),
    (
        "value 7 edition 1\nround 2: source issues 8 9 edition 2",
        "line 9: expected one layout after 'issues', found '8 9'",
    ),
    (
        "value 7 edition",
        "line 8: expected one number after 'edition', found nothing",
    ),
    (
        "value 7 edition one",
        "line 8: expected one number after 'edition', found 'one'",
    ),
    (
        "value 7 edition 1 2",
        "line 8: expected one number after 'edition', found '1 2'",
    ),
    (
        "value edition 1",
        "line 8: expected one layout after 'value', found nothing",
    ),
    (
        "value 7 edition 1\nvalue 8 edition 2",
        "line 9: expected 'value' once, and line 8 has it",
    ),
    (
        "round 2: source issues 8 edition 2",
        "end of the file: expected 'value NUMBER', since it has a run",
    ),
];

fn wrong_texts(checks: &mut Checks) {
    let alone = format!("{TEXT}round 2: source issues 8 edition 2\n");
    let done = checks.call_with(&["plan"], alone.as_bytes());
    let why = "end of the file: expected 'value NUMBER', since it has a run";
    checks.tells("a later notice alone", &done, 1, why);
    for (run, why) in WRONG {
        let text = with_bad() + run + "\n";
        for word in ["run", "plan", "check"] {
            let done = checks.call_with(&[word], text.as_bytes());
            let label = format!("{word} of {run:?}");
            checks.tells(&label, &done, 1, &why.replace("FORM", FORM));
        }
    }
}

/// What the proved reader refuses, under the same: where in the text, and why. A number that is too
/// large for its frame is refused as one that is out of range. 3 comes before 9, and 9 before 16.
const REFUSED: [(&str, &str); 26] = [
    (
        "value 7 edition 0",
        "line 8 (value 7 edition 0): editions are 1 to 65535 (cause 16)",
    ),
    (
        "rounds 3\nvalue  7  edition 65536",
        "line 9 (value 7 edition 65536): editions are 1 to 65535 (cause 16)",
    ),
    (
        "value 0 edition 1",
        "line 8 (value 0 edition 1): layouts are 1 to 65535 (cause 9)",
    ),
    (
        "value 0 edition 0",
        "line 8 (value 0 edition 0): layouts are 1 to 65535 (cause 9)",
    ),
    (
        "value 70000 edition 1",
        "line 8 (value 70000 edition 1): layouts are 1 to 65535 (cause 9)",
    ),
    (
        "value 7 edition 0\nrounds 41",
        "line 9 (rounds 41): 0 to 40 are allowed (cause 9)",
    ),
    (
        "value 7 edition 1\nround 1: source issues 8 edition 0",
        "line 9 (round 1: source issues 8 edition 0): editions are 1 to 65535 (cause 16)",
    ),
    (
        "value 7 edition 1\nround 1: source issues 8 edition 99999",
        "line 9 (round 1: source issues 8 edition 99999): editions are 1 to 65535 (cause 16)",
    ),
    (
        "value 7 edition 2\nround 1: source issues 8 edition 2",
        "line 9 (round 1: source issues 8 edition 2): line 8 has edition 2, and a later notice has a higher one (cause 16)",
    ),
    (
        "round 1: source issues 8 edition 1\nvalue 7 edition 2",
        "line 8 (round 1: source issues 8 edition 1): line 9 has edition 2, and a later notice has a higher one (cause 16)",
    ),
    (
        "value 7 edition 1\nround 1: source issues 8 edition 3\nround 3: source issues 9 edition 3",
        "line 10 (round 3: source issues 9 edition 3): line 9 has edition 3, and a later notice has a higher one (cause 16)",
    ),
    (
        // By round the second line comes first.
        "value 7 edition 1\nround 3: source issues 8 edition 3\nround 2: source issues 9 edition 4",
        "line 9 (round 3: source issues 8 edition 3): line 10 has edition 4, and a later notice has a higher one (cause 16)",
    ),
    (
        "value 7 edition 1\nround 1: source issues 0 edition 2",
        "line 9 (round 1: source issues 0 edition 2): layouts are 1 to 65535 (cause 9)",
    ),
    (
        "value 7 edition 1\nround 1: source issues 0 edition 1",
        "line 9 (round 1: source issues 0 edition 1): layouts are 1 to 65535 (cause 9)",
    ),
    (
        "value 7 edition 1\nround 0: source issues 8 edition 2",
        "line 9 (round 0: source issues 8 edition 2): the run has rounds 1 to 3 (n-1, since none are given) (cause 3)",
    ),
    (
        "value 7 edition 1\nround 4: source issues 0 edition 0",
        "line 9 (round 4: source issues 0 edition 0): the run has rounds 1 to 3 (n-1, since none are given) (cause 3)",
    ),
    (
        "value 7 edition 1\nrounds 40\nround 41: source issues 8 edition 2",
        "line 10 (round 41: source issues 8 edition 2): the run has rounds 1 to 40 (cause 3)",
    ),
    (
        "value 7 edition 1\nround 300: source issues 8 edition 2",
        "line 9 (round 300: source issues 8 edition 2): the run has rounds 1 to 3 (n-1, since none are given) (cause 3)",
    ),
    (
        "value 7 edition 1\nrounds 0\nround 1: source issues 8 edition 2",
        "line 10 (round 1: source issues 8 edition 2): the run has no round (cause 3)",
    ),
    (
        "value 7 edition 1\nround 2: source issues 8 edition 2\nround 1: source issues 8 edition 3\nround  2: source issues 9 edition 4",
        "line 9 (round 2: source issues 8 edition 2): line 10 has edition 3, and a later notice has a higher one (cause 16)",
    ),
    (
        "value 7 edition 1\nround 2: source issues 8 edition 2\nround  2: source issues 9 edition 4",
        "line 10 (round 2: source issues 9 edition 4): line 9 has a later notice in this round already (cause 3)",
    ),
    (
        "value 7 edition 1\nround 2: 1 says 9 edition 0 to 3",
        "line 9 (round 2: 1 says 9 edition 0 to 3): editions are 1 to 65535; silence needs no word (cause 10)",
    ),
    (
        "value 7 edition 1\nround 2: 1 says 9 edition 65536 to 3",
        "line 9 (round 2: 1 says 9 edition 65536 to 3): editions are 1 to 65535; silence needs no word (cause 10)",
    ),
    (
        "value 7 edition 1\nround 2: 1 says 0 edition 2 to 3",
        "line 9 (round 2: 1 says 0 edition 2 to 3): layouts are 1 to 65535; silence needs no word (cause 10)",
    ),
    (
        "value 7 edition 1\nround 4: 1 says 9 edition 2 to 3",
        "line 9 (round 4: 1 says 9 edition 2 to 3): the run has rounds 1 to 3 (n-1, since none are given) (cause 10)",
    ),
    (
        "value 7 edition 1\nround 2: 1 says 9 edition 2 to 3\nround 2: 1 says 9 edition 3 to 3",
        "line 10 (round 2: 1 says 9 edition 3 to 3): line 9 has a word on this link in this round already (cause 11)",
    ),
];

fn refused_texts(checks: &mut Checks) {
    for (run, why) in REFUSED {
        let text = with_bad() + run + "\n";
        let words = ["run", "explain", "trace", "show", "draw", "plan"];
        refused(checks, &words, &text, why);
    }
}

/// Later notices stand by round under the rounds, then the words; twice is the same.
fn shown_again(checks: &mut Checks) {
    let given = format!("{TEXT}round 3: source issues 9 edition 5\nround 2: 1 says 8 edition 5 to 3\nvalue 7 edition 3 # first\nround 1: source issues 8 edition 4\nbad 1\nname 3 \"gate\"\n");
    let wanted = format!("{TEXT}name 3 \"gate\"\nbad 1\nvalue 7 edition 3\nround 1: source issues 8 edition 4\nround 3: source issues 9 edition 5\nround 2: 1 says 8 edition 5 to 3\n");
    for text in [&given, &wanted] {
        let done = checks.call_with(&["show"], text.as_bytes());
        checks.ends("show of a text with editions", &done, 0, &wanted, "");
    }
    // Words alike stand in one line; those of another edition in their own.
    let two = "terminals 5\nsource 0\nbound 1\n0 > 1 2\n1 > 3 4\n2 > 3 4\n";
    let run = "bad 1\nvalue 7 edition 1\nrounds 2\nround 1: 1 says 9 edition 1 to 3 4\nround 2: 1 says 9 edition 1 to 3\nround 2: 1 says 9 edition 2 to 4\n";
    let frames = [
        "01050001",
        "020001",
        "020002",
        "020103",
        "020104",
        "020203",
        "020204",
        "03000002",
        "040001000702",
        "0501010300010009",
        "0501010400010009",
        "0502010300010009",
        "0502010400020009",
    ];
    let done = checks.call_with(&["show"], lines(&frames).as_bytes());
    let wanted = format!("{two}{run}");
    checks.ends("show of frames with editions", &done, 0, &wanted, "");
}
