//! A shared channel in the text form: the run that a text means, and what is said where it means
//! none.

use crate::answers::{EXAMPLE, TEXT};
use crate::checks::{lines, Checks};
use crate::group_texts::refused;

pub fn check(checks: &mut Checks) {
    same_run(checks);
    wrong_texts(checks);
    refused_texts(checks);
    at_the_source(checks);
    with_groups(checks);
    shown_again(checks);
}

/// Under document 01's plan.
const RUN: &str = "shared channel, default 5\nbad 0 1\nvalue 7\nrounds 3\nround 1: 0 says 9\nround 2: 1 says 300\nround 2: 0 says 9\n";
const RUN_FRAMES: [&str; 6] = [
    "090005",
    "03000003",
    "04000703",
    "0501000009",
    "050201012c",
    "0502000009",
];

/// The same run in other clothes. The line stands anywhere under the head, and its comma may be left
/// out.
fn same_run(checks: &mut Checks) {
    let frames = [&EXAMPLE[..], &RUN_FRAMES].concat();
    let windows = RUN.replace('\n', "\r\n");
    let table = [
        ("as it is", RUN),
        ("Windows lines", &windows),
        (
            "the channel last",
            "round 1: 0 says 9\nround 2: 1 says 300\nround 2: 0 says 9\nrounds 3\nvalue 7\nbad 1 0\nshared channel, default 5 # for a silent office\n",
        ),
        (
            "no comma, and blanks",
            "bad 0 1\n shared  channel\tdefault   5 \nvalue 7\nrounds 3\nround 1:0 says  9\nround 2 : 1  says 300\nround 2: 0 says 9\n",
        ),
    ];
    for (label, run) in table {
        let text = format!("{TEXT}{run}");
        let done = checks.call_with(&["plan"], text.as_bytes());
        checks.ends(&format!("plan: {label}"), &done, 0, &lines(&frames), "");
    }
    // Without the line of the bad nobody is, and the channel still stands before them.
    let text = format!("{TEXT}value 7\nshared channel, default 1\n");
    let frames = [&EXAMPLE[..], &["090001", "03000000", "040007"]].concat();
    let done = checks.call_with(&["plan"], text.as_bytes());
    checks.ends("plan: nobody is bad", &done, 0, &lines(&frames), "");
}

const FORM: &str = "expected 'shared channel, default LAYOUT'";
const WORD: &str = "expected 'round NUMBER: TERMINAL says LAYOUT'";
const HEARER: &str =
    "a shared channel: a word on it reaches all who hear the sender, and names nobody";
const EDITION: &str = "a shared channel: a run on it has one notice, without an edition";

/// Lines under document 01's plan, and the tool's own words. The first is line 7.
const WRONG: [(&str, &str); 25] = [
    (
        "shared channel, default 5\nbad 0 1\nvalue 7\nround 1: 0 says 9 to 1",
        "line 10: a hearer, and line 7 has HEARER",
    ),
    (
        "bad 1\nvalue 7\nround 1: 1 says 9 to 3\n\nshared channel, default 5",
        "line 9: a hearer, and line 11 has HEARER",
    ),
    (
        "shared channel, default 5\nbad 1\nvalue 7\nround 1: 1 says 9 edition 2 to 3",
        "line 10: a hearer, and line 7 has HEARER",
    ),
    (
        "shared channel, default 5\nbad 1\nvalue 7\nround 1: 1 says 9 to",
        "line 10: a hearer, and line 7 has HEARER",
    ),
    (
        "shared channel, default 5\nvalue 7 edition 1",
        "line 8: an edition, and line 7 has EDITION",
    ),
    (
        "value 7 edition 1\nshared channel, default 5",
        "line 7: an edition, and line 8 has EDITION",
    ),
    (
        "shared channel, default 5\nvalue 7\nround 1: 1 says 9 edition 1",
        "line 9: an edition, and line 7 has EDITION",
    ),
    (
        "shared channel, default 5\nvalue 7\nround 1: source issues 8 edition 2",
        "line 9: a later notice, and line 7 has EDITION",
    ),
    (
        "shared channel, default 5\nvalue 7\nround 1: source issues 8",
        "line 9: a later notice, and line 7 has EDITION",
    ),
    (
        "shared channel, default 5\nbad 1\nshared channel, default 5",
        "line 9: expected 'shared' once, and line 7 has it",
    ),
    ("shared\nvalue 7", "line 7: FORM"),
    ("shared radio, default 5\nvalue 7", "line 7: FORM"),
    ("shared channel\nvalue 7", "line 7: FORM"),
    ("shared channel 5\nvalue 7", "line 7: FORM"),
    ("shared channel, 5\nvalue 7", "line 7: FORM"),
    (
        "shared channel, default\nvalue 7",
        "line 7: expected one layout after 'default', found nothing",
    ),
    (
        "shared channel, default five\nvalue 7",
        "line 7: expected one layout after 'default', found 'five'",
    ),
    (
        "shared channel, default 5 6\nvalue 7",
        "line 7: expected one layout after 'default', found '5 6'",
    ),
    (
        "shared channel, default 5 edition 1\nvalue 7",
        "line 7: expected one layout after 'default', found '5 edition 1'",
    ),
    (
        "shared channel, default 5",
        "end of the file: expected 'value NUMBER', since it has a run",
    ),
    (
        "shared channel, default 5\nvalue 7\nround 1 1 says 9",
        "line 9: WORD",
    ),
    (
        "shared channel, default 5\nvalue 7\nround 1: 1 9",
        "line 9: WORD",
    ),
    (
        "shared channel, default 5\nvalue 7\nround 1: 1 says",
        "line 9: expected one layout after 'says', found nothing",
    ),
    (
        "shared channel, default 5\nvalue 7\nround 1: 1 says 9 3",
        "line 9: expected one layout after 'says', found '9 3'",
    ),
    (
        "bad 1\nvalue 7\nround 1: 1 says 9",
        "line 9: expected 'round NUMBER: TERMINAL says LAYOUT to TERMINAL'",
    ),
];

fn wrong_texts(checks: &mut Checks) {
    let early = format!("shared channel, default 5\n{TEXT}");
    let done = checks.call_with(&["plan"], early.as_bytes());
    let why = "line 1: expected 'terminals NUMBER' before 'shared'";
    checks.tells("a shared channel before the head", &done, 1, why);
    for (run, why) in WRONG {
        let text = format!("{TEXT}{run}\n");
        let why = why.replace("FORM", FORM).replace("WORD", WORD);
        let why = why.replace("HEARER", HEARER).replace("EDITION", EDITION);
        for word in ["run", "plan", "check"] {
            let done = checks.call_with(&[word], text.as_bytes());
            checks.tells(&format!("{word} of {run:?}"), &done, 1, &why);
        }
    }
}

/// What the proved reader refuses, under the same and a shared channel with default 5, which is line
/// 7. 7 comes before 8, and a start's value is looked at whether the source is good or bad.
const REFUSED: [(&str, &str); 17] = [
    (
        "value 0\nbad 0",
        "line 8 (value 0): layouts are 1 to 65535 (cause 9)",
    ),
    (
        "value 0\nbad 1",
        "line 8 (value 0): layouts are 1 to 65535 (cause 9)",
    ),
    (
        "bad 0\nvalue 7\nrounds 41",
        "line 10 (rounds 41): 0 to 40 are allowed (cause 9)",
    ),
    (
        "bad 0 4\nvalue 7",
        "line 8 (bad 0 4): the terminals are 0 to 3 (cause 7)",
    ),
    (
        "bad 1 2 4\nvalue 7",
        "line 8 (bad 1 2 4): the terminals are 0 to 3 (cause 7)",
    ),
    (
        "bad 0 1 2\nvalue 7",
        "line 8 (bad 0 1 2): terminal 3 hears 1 and 2, both bad, and the bound is 1; without the source the bad set must keep the bound, at the source too (cause 8)",
    ),
    (
        "bad 1 2\nvalue 7",
        "line 8 (bad 1 2): terminal 3 hears 1 and 2, both bad, and the bound is 1 (cause 8)",
    ),
    (
        "bad 0 1\nvalue 7\nround 0: 1 says 9",
        "line 10 (round 0: 1 says 9): the run has rounds 1 to 3 (n-1, since none are given) (cause 10)",
    ),
    (
        "bad 0 1\nvalue 7\nround 4: 0 says 9",
        "line 10 (round 4: 0 says 9): the run has rounds 1 to 3 (n-1, since none are given) (cause 10)",
    ),
    (
        "bad 0 1\nvalue 7\nround 1: 2 says 9",
        "line 10 (round 1: 2 says 9): 2 is good, and the rules say what a good one says (cause 10)",
    ),
    (
        "bad 1\nvalue 7\nround 1: 0 says 7",
        "line 10 (round 1: 0 says 7): 0 is good, and the rules say what a good one says (cause 10)",
    ),
    (
        "bad 0 1\nvalue 7\nround 1: 4 says 9",
        "line 10 (round 1: 4 says 9): the terminals are 0 to 3 (cause 10)",
    ),
    (
        "bad 0 1\nvalue 7\nround 1: 999 says 9",
        "line 10 (round 1: 999 says 9): the terminals are 0 to 3 (cause 10)",
    ),
    (
        "bad 0 1\nvalue 7\nround 1: 0 says 0",
        "line 10 (round 1: 0 says 0): layouts are 1 to 65535; silence needs no word (cause 10)",
    ),
    (
        "bad 0 1\nvalue 7\nround 1: 0 says 70000",
        "line 10 (round 1: 0 says 70000): layouts are 1 to 65535; silence needs no word (cause 10)",
    ),
    (
        "bad 0 1\nvalue 7\nround 1: 1 says 9\nround 1: 0 says 9\nround 1: 1 says 8",
        "line 12 (round 1: 1 says 8): line 10 has a word of this sender in this round already (cause 11)",
    ),
    (
        "bad 0 1\nvalue 7\nround 1: 0 says 9\nround  1: 0 says  9",
        "line 11 (round 1: 0 says 9): line 10 has a word of this sender in this round already (cause 11)",
    ),
];

const WORDS: [&str; 6] = ["run", "explain", "trace", "show", "draw", "plan"];

fn refused_texts(checks: &mut Checks) {
    for (run, why) in REFUSED {
        let text = format!("{TEXT}shared channel, default 5\n{run}\n");
        refused(checks, &WORDS, &text, why);
    }
    let table = [
        (
            "shared channel, default 0",
            "line 7 (shared channel, default 0): layouts are 1 to 65535 (cause 9)",
        ),
        (
            "shared  channel default 65536",
            "line 7 (shared channel default 65536): layouts are 1 to 65535 (cause 9)",
        ),
    ];
    for (line, why) in table {
        // 9 stands on the channel's line, which comes before that of the bad.
        for run in ["value 7", "bad 0 9\nvalue 0"] {
            let text = format!("{TEXT}{line}\n{run}\n");
            refused(checks, &WORDS, &text, why);
        }
    }
    let deaf = "terminals 3\nsource 0\nbound 1\n0 > 1\nshared channel, default 0\nvalue 7\n";
    let why = "the whole file: terminal 2 hears nobody; a new plan must have no such terminal, and './hulmayek archive FILE' opens a plan that is on file already (cause 15)";
    refused(checks, &WORDS, deaf, why);
}

/// The source hears 1, 2 and 3, and the bound holds for it, good or bad.
fn at_the_source(checks: &mut Checks) {
    let plan = "terminals 4\nsource 0\nbound 1\n0 - 1 2 3\nshared channel, default 5\nvalue 7\n";
    let table = [
        (
            "bad 0 1 2",
            "line 7 (bad 0 1 2): terminal 0 hears 1 and 2, both bad, and the bound is 1; without the source the bad set must keep the bound, at the source too (cause 8)",
        ),
        (
            "bad 3 2 1 0",
            "line 7 (bad 3 2 1 0): terminal 0 hears 1, 2 and 3, all bad, and the bound is 1; without the source the bad set must keep the bound, at the source too (cause 8)",
        ),
        (
            "bad 1 2",
            "line 7 (bad 1 2): terminal 0 hears 1 and 2, both bad, and the bound is 1 (cause 8)",
        ),
    ];
    for (bad, why) in table {
        refused(checks, &WORDS, &format!("{plan}{bad}\n"), why);
    }
    // 2 and 3 have the default; whom a bad one hears, the source too, does not count.
    let done = checks.call_with(&["run"], format!("{plan}bad 0 1\n").as_bytes());
    let states = [
        "820002000000",
        "820102000000",
        "820201010005",
        "820301010005",
    ];
    checks.ends(
        "the bound kept at the source",
        &done,
        0,
        &lines(&states),
        "",
    );
}

/// Drawing F with two groups: without the source the bad are part of one.
fn with_groups(checks: &mut Checks) {
    let plan = "terminals 5\nsource 0\ngroup 1 2\ngroup 3\n0 > 1 2 3\n1 > 4\n2 > 4\n3 > 4\nshared channel, default 5\nvalue 7\n";
    let table = [
        (
            "bad 0 1 3",
            "line 11 (bad 0 1 3): no group has both 1 and 3; without the source the bad set must be part of one group (cause 8)",
        ),
        (
            "bad 0 4",
            "line 11 (bad 0 4): no group has 4; without the source the bad set must be part of one group (cause 8)",
        ),
        (
            "bad 1 3",
            "line 11 (bad 1 3): no group has both 1 and 3 (cause 8)",
        ),
        (
            "bad 0 5",
            "line 11 (bad 0 5): the terminals are 0 to 4 (cause 7)",
        ),
    ];
    for (bad, why) in table {
        refused(checks, &WORDS, &format!("{plan}{bad}\n"), why);
    }
    for bad in ["bad 0", "bad 0 1", "bad 2 0 1", "bad 0 3", "bad 1 2"] {
        let done = checks.call_with(&["run"], format!("{plan}{bad}\n").as_bytes());
        checks.same(bad, "0", &done.status.to_string());
    }
}

/// The channel stands under the plan, before the bad; twice is the same.
fn shown_again(checks: &mut Checks) {
    let given = format!("{TEXT}round 3: 1 says 8\nround 2: 0 says 8 # late\nvalue 7\nbad 1 0\nname 3 \"gate\"\nshared channel default 5\n");
    let wanted = format!("{TEXT}name 3 \"gate\"\nshared channel, default 5\nbad 0 1\nvalue 7\nround 3: 1 says 8\nround 2: 0 says 8\n");
    for text in [&given, &wanted] {
        let done = checks.call_with(&["show"], text.as_bytes());
        checks.ends("show on a shared channel", &done, 0, &wanted, "");
    }
    // Words alike are two words.
    let run = "shared channel, default 65535\nbad 0 1\nvalue 1\nrounds 2\nround 1: 0 says 9\nround 1: 1 says 9\nround 2: 0 says 9\nround 2: 1 says 9\n";
    let frames = [
        "09ffff",
        "03000003",
        "04000102",
        "0501000009",
        "0501010009",
        "0502000009",
        "0502010009",
    ];
    let frames = [&EXAMPLE[..], &frames].concat();
    let done = checks.call_with(&["show"], lines(&frames).as_bytes());
    let wanted = format!("{TEXT}{run}");
    checks.ends("show of frames", &done, 0, &wanted, "");
    let done = checks.call_with(&["plan"], wanted.as_bytes());
    checks.ends("and back", &done, 0, &lines(&frames), "");
}
