//! Runs on one shared channel (document 02, P11): a word reaches all who hear its sender, and the
//! source may be bad. What each terminal takes, and when, is worked out by hand from the rules.

use crate::answers::TEXT;
use crate::checks::{lines, read, Checks};
use crate::editions::{played, Example};
use crate::{shared_frames, shared_pictures, shared_texts};

pub fn check(checks: &mut Checks) {
    for example in &EXAMPLES {
        played(checks, example);
    }
    committed_frames(checks);
    for course in &COURSES {
        told(checks, course);
    }
    table(checks);
    widest(checks);
    many_files(checks);
    of_the_plan(checks);
    shared_texts::check(checks);
    shared_frames::check(checks);
    shared_pictures::check(checks);
}

pub const CHANNEL: &str = "one radio channel is shared by all, so a word reaches all who hear its sender; the default layout is 5";

/// Drawing F, whose 0 and 1 are bad. 2 and 3 hear the office and take in round 1: in shared what it
/// says then, in silent-office the default. Both say so in round 2, two voices at bound 1 for the
/// gate, against the one of 1. What the office says later is heard by those who have taken.
const EXAMPLES: [Example; 2] = [
    Example {
        name: "plans/runs/shared",
        in_frames: true,
        states: &[
            "820002000000",
            "820102000000",
            "820201010009",
            "820301010009",
            "820401020009",
        ],
        told: &[
            "4 rounds played: n-1, since none are given",
            CHANNEL,
            "the source is bad: it said 9 in round 1, and the good ones that hear it took that",
            "the good terminals agree: 3 of 3 have layout 9",
            "terminal 0, the source: bad",
            "terminal 1: bad",
            "terminal 2: took layout 9 in round 1",
            "terminal 3: took layout 9 in round 1",
            "terminal 4: took layout 9 in round 2",
        ],
        trace: &[
            "round 0: one shared channel, default 5; 0, the source, is bad",
            "round 1: bad 0, the source, says 9; 2 takes 9; 3 takes 9",
            "round 2: bad 0, the source, says 8; bad 1 says 8; 4 takes 9",
            "round 3: bad 0, the source, says 8; nobody takes",
            "round 4: nobody takes",
            "after 4 rounds: 3 of 3 good terminals have layout 9, the last since round 2; waiting: none; bad: 0, 1",
        ],
    },
    Example {
        name: "runs/silent-office",
        in_frames: false,
        states: &[
            "820002000000",
            "820102000000",
            "820201010005",
            "820301010005",
            "820401020005",
        ],
        told: &[
            "3 rounds played, as given",
            CHANNEL,
            "the source is bad: it said nothing in round 1, and the good ones that hear it took the default, 5",
            "the good terminals agree: 3 of 3 have layout 5",
            "terminal 0 (office), the source: bad",
            "terminal 1: bad",
            "terminal 2: took layout 5 in round 1",
            "terminal 3: took layout 5 in round 1",
            "terminal 4 (gate): took layout 5 in round 2",
        ],
        trace: &[
            "round 0: one shared channel, default 5; 0 (office), the source, is bad",
            "round 1: bad 0 (office), the source, says nothing: the default is 5; 2 takes 5; 3 takes 5",
            "round 2: bad 0 (office), the source, says 9; bad 1 says 9; 4 (gate) takes 5",
            "round 3: nobody takes",
            "after 3 rounds: 3 of 3 good terminals have layout 5, the last since round 2; waiting: none; bad: 0 (office), 1",
        ],
    },
];

/// The frames by document 02: 09 and the default, just before 03; a start without an edition; 05,
/// round, from, layout.
fn committed_frames(checks: &mut Checks) {
    let plan = [
        "01050001", "020001", "020002", "020003", "020104", "020204", "020304", "090005",
        "03000003",
    ];
    let said = ["0501000009", "0502000008", "0502010008", "0503000008"];
    let table = [
        (
            "plans/runs/shared",
            [&plan[..], &["040007"], &said].concat(),
        ),
        (
            "runs/silent-office",
            [&plan[..], &["04000703", "0502000009", "0502010009"]].concat(),
        ),
    ];
    for (name, frames) in table {
        let file = format!("{name}.txt");
        let done = checks.call(&["plan", &file]);
        checks.ends(&format!("plan of {file}"), &done, 0, &lines(&frames), "");
        if name.starts_with("plans") {
            let committed = read(&checks.top.join(format!("{name}.hex")));
            checks.same(&format!("{name}.hex"), &lines(&frames), &committed);
        }
    }
}

/// A plan and its run, the frames of the states, and what is told of them.
struct Course {
    label: &'static str,
    text: &'static str,
    states: &'static [&'static str],
    /// Under the states.
    told: &'static [&'static str],
    trace: &'static [&'static str],
}

/// Drawing E, whose plan fails: 2 hears the source, and 3 hears 1 and 2 and needs both.
const COURSES: [Course; 8] = [
    Course {
        label: "a good source",
        text: "terminals 4\nsource 0\nbound 1\n0 > 1 2\n1 > 3\n2 > 3\nshared channel, default 5\nbad 1\nvalue 7\nround 2: 1 says 9\n",
        states: &["820001000007", "820102000000", "820201010007", "820300000000"],
        told: &[
            "3 rounds played: n-1, since none are given",
            CHANNEL,
            "the source is good: its layout is 7",
            "the good terminals agree: 2 of 3 have layout 7; waiting: 3",
            "terminal 0, the source: took layout 7 in round 0",
            "terminal 1: bad",
            "terminal 2: took layout 7 in round 1",
            "terminal 3: waiting",
        ],
        trace: &[
            "round 0: one shared channel, default 5; 0, the source, has 7",
            "round 1: 2 takes 7",
            "round 2: bad 1 says 9; nobody takes",
            "round 3: nobody takes",
            "after 3 rounds: 2 of 3 good terminals have layout 7, the last since round 1; waiting: 3; bad: 1",
        ],
    },
    Course {
        label: "a liar that helps a liar",
        text: "terminals 4\nsource 0\nbound 1\n0 > 1 2\n1 > 3\n2 > 3\nround 1: 0 says 9\nround 3: 1 says 9\nbad 0 1\nvalue 7\nname 3 \"gate\"\nshared channel, default 5\n",
        states: &["820002000000", "820102000000", "820201010009", "820301030009"],
        told: &[
            "3 rounds played: n-1, since none are given",
            CHANNEL,
            "the source is bad: it said 9 in round 1, and the good ones that hear it took that",
            "the good terminals agree: 2 of 2 have layout 9",
            "terminal 0, the source: bad",
            "terminal 1: bad",
            "terminal 2: took layout 9 in round 1",
            "terminal 3 (gate): took layout 9 in round 3",
        ],
        trace: &[
            "round 0: one shared channel, default 5; 0, the source, is bad",
            "round 1: bad 0, the source, says 9; 2 takes 9",
            "round 2: nobody takes",
            "round 3: bad 1 says 9; 3 (gate) takes 9",
            "after 3 rounds: 2 of 2 good terminals have layout 9, the last since round 3; waiting: none; bad: 0, 1",
        ],
    },
    Course {
        label: "a failed plan, and a source that speaks late",
        text: "terminals 4\nsource 0\nbound 1\n0 > 1 2\n1 > 3\n2 > 3\nshared channel, default 5\nbad 1 0\nvalue 7\nrounds 2\nround 2: 0 says 9\nname 3 \"gate\"\n",
        states: &["820002000000", "820102000000", "820201010005", "820300000000"],
        told: &[
            "2 rounds played, as given",
            CHANNEL,
            "the source is bad: it said nothing in round 1, and the good ones that hear it took the default, 5",
            "the good terminals agree: 1 of 2 have layout 5; waiting: 3 (gate)",
            "terminal 0, the source: bad",
            "terminal 1: bad",
            "terminal 2: took layout 5 in round 1",
            "terminal 3 (gate): waiting",
        ],
        trace: &[
            "round 0: one shared channel, default 5; 0, the source, is bad",
            "round 1: bad 0, the source, says nothing: the default is 5; 2 takes 5",
            "round 2: bad 0, the source, says 9; nobody takes",
            "after 2 rounds: 1 of 2 good terminals have layout 5, the last since round 1; waiting: 3 (gate); bad: 0, 1",
        ],
    },
    Course {
        label: "no round",
        text: "terminals 4\nsource 0\nbound 1\n0 > 1 2\n1 > 3\n2 > 3\nshared channel, default 5\nbad 0\nvalue 7\nrounds 0\n",
        states: &["820002000000", "820100000000", "820200000000", "820300000000"],
        told: &[
            "0 rounds played, as given",
            CHANNEL,
            "the source is bad, and no round was played",
            "no good terminal has a layout; waiting: 1, 2, 3",
            "terminal 0, the source: bad",
            "terminal 1: waiting",
            "terminal 2: waiting",
            "terminal 3: waiting",
        ],
        trace: &[
            "round 0: one shared channel, default 5; 0, the source, is bad",
            "after 0 rounds: 0 of 3 good terminals have a layout; waiting: 1, 2, 3; bad: 0",
        ],
    },
    Course {
        label: "nobody is good",
        text: "terminals 2\nsource 0\nbound 1\n0 > 1\nshared channel, default 5\nbad 0 1\nvalue 7\n",
        states: &["820002000000", "820102000000"],
        told: &[
            "1 round played: n-1, since none are given",
            CHANNEL,
            "the source is bad: it said nothing in round 1, and the good ones that hear it took the default, 5",
            "no terminal is good",
            "terminal 0, the source: bad",
            "terminal 1: bad",
        ],
        trace: &[
            "round 0: one shared channel, default 5; 0, the source, is bad",
            "round 1: bad 0, the source, says nothing: the default is 5; nobody takes",
            "after 1 round: 0 of 0 good terminals have a layout; waiting: none; bad: 0, 1",
        ],
    },
    Course {
        // Nobody hears 3.
        label: "a word that nobody hears",
        text: "terminals 4\nsource 0\nbound 1\n0 > 1 2\n1 > 3\n2 > 3\nshared channel, default 5\nbad 3\nvalue 7\nrounds 1\nround 1: 3 says 9\n",
        states: &["820001000007", "820101010007", "820201010007", "820302000000"],
        told: &[
            "1 round played, as given",
            CHANNEL,
            "the source is good: its layout is 7",
            "the good terminals agree: 3 of 3 have layout 7",
            "terminal 0, the source: took layout 7 in round 0",
            "terminal 1: took layout 7 in round 1",
            "terminal 2: took layout 7 in round 1",
            "terminal 3: bad",
        ],
        trace: &[
            "round 0: one shared channel, default 5; 0, the source, has 7",
            "round 1: bad 3 says 9; 1 takes 7; 2 takes 7",
            "after 1 round: 3 of 3 good terminals have layout 7, the last since round 1; waiting: none; bad: 3",
        ],
    },
    Course {
        // 4 hears 3, which is in group B, and in round 2 also 1, which is in group A.
        label: "groups",
        text: "terminals 5\nsource 0\ngroup 1 2\ngroup 3\n0 > 1 2 3\n1 > 4\n2 > 4\n3 > 4\nshared channel, default 5\nbad 0 1 2\nvalue 7\nrounds 2\nround 1: 0 says 9\nround 1: 2 says 8\nround 2: 1 says 9\n",
        states: &[
            "820002000000",
            "820102000000",
            "820202000000",
            "820301010009",
            "820401020009",
        ],
        told: &[
            "2 rounds played, as given",
            CHANNEL,
            "the source is bad: it said 9 in round 1, and the good ones that hear it took that",
            "the good terminals agree: 2 of 2 have layout 9",
            "terminal 0, the source: bad",
            "terminal 1: bad",
            "terminal 2: bad",
            "terminal 3: took layout 9 in round 1",
            "terminal 4: took layout 9 in round 2",
        ],
        trace: &[
            "round 0: one shared channel, default 5; 0, the source, is bad",
            "round 1: bad 0, the source, says 9; bad 2 says 8; 3 takes 9",
            "round 2: bad 1 says 9; 4 takes 9",
            "after 2 rounds: 2 of 2 good terminals have layout 9, the last since round 2; waiting: none; bad: 0, 1, 2",
        ],
    },
    Course {
        // All hear the source, which says its own value first, and the default when it is too late.
        label: "another source, that says its value and the default",
        text: "terminals 4\nsource 2\nbound 0\n2 > 0 1 3\n0 > 3\nshared channel, default 5\nbad 2\nvalue 7\nrounds 2\nround 2: 2 says 5\nround 1: 2 says 7\nname 2 \"office\"\n",
        states: &["820001010007", "820101010007", "820202000000", "820301010007"],
        told: &[
            "2 rounds played, as given",
            CHANNEL,
            "the source is bad: it said 7 in round 1, and the good ones that hear it took that",
            "the good terminals agree: 3 of 3 have layout 7",
            "terminal 0: took layout 7 in round 1",
            "terminal 1: took layout 7 in round 1",
            "terminal 2 (office), the source: bad",
            "terminal 3: took layout 7 in round 1",
        ],
        trace: &[
            "round 0: one shared channel, default 5; 2 (office), the source, is bad",
            "round 1: bad 2 (office), the source, says 7; 0 takes 7; 1 takes 7; 3 takes 7",
            "round 2: bad 2 (office), the source, says 5; nobody takes",
            "after 2 rounds: 3 of 3 good terminals have layout 7, the last since round 1; waiting: none; bad: 2 (office)",
        ],
    },
];

fn told(checks: &mut Checks, course: &Course) {
    let text = course.text.as_bytes();
    let (label, states) = (course.label, lines(course.states));
    let done = checks.call_with(&["run"], text);
    checks.ends(&format!("run: {label}"), &done, 0, &states, "");
    let done = checks.call_with(&["explain"], text);
    let wanted = states + &lines(course.told);
    checks.ends(&format!("explain: {label}"), &done, 0, &wanted, "");
    let done = checks.call_with(&["trace"], text);
    let wanted = lines(course.trace);
    checks.ends(&format!("trace: {label}"), &done, 0, &wanted, "");
}

/// For a script: the columns of any run without editions.
fn table(checks: &mut Checks) {
    let text = "terminals 3\nsource 0\nbound 0\n0 > 1 2\nshared channel, default 300\nbad 0 2\nvalue 7\nrounds 1\n";
    let wanted = lines(&[
        "round,terminal,state,taken_in,value",
        "0,0,bad,,",
        "0,1,waiting,,",
        "0,2,bad,,",
        "1,0,bad,,",
        "1,1,taken,1,300",
        "1,2,bad,,",
    ]);
    let done = checks.call_with(&["trace", "--csv"], text.as_bytes());
    checks.ends("trace --csv on a shared channel", &done, 0, &wanted, "");
}

/// Two bytes each, in the last round too.
fn widest(checks: &mut Checks) {
    let text = "terminals 2\nsource 1\nbound 0\n1 > 0\nshared channel, default 258\nbad 1\nvalue 65535\nrounds 40\nround 1: 1 says 65535\nround 40: 1 says 256\n";
    let frames = [
        "01020100",
        "020100",
        "090102",
        "03000002",
        "04ffff28",
        "050101ffff",
        "0528010100",
    ];
    let done = checks.call_with(&["plan"], text.as_bytes());
    checks.ends("plan of wide numbers", &done, 0, &lines(&frames), "");
    let done = checks.call_with(&["run"], text.as_bytes());
    let wanted = lines(&["82000101ffff", "820102000000"]);
    checks.ends("run of wide numbers", &done, 0, &wanted, "");
    let done = checks.call_with(&["show"], lines(&frames).as_bytes());
    checks.ends("show of wide numbers", &done, 0, text, "");
}

/// Each by its own rules.
fn many_files(checks: &mut Checks) {
    let done = checks.call(&["run", "plans/runs/shared.hex", "plans/runs/late.hex"]);
    let wanted = lines(&[
        "plans/runs/shared.hex: 820002000000 820102000000 820201010009 820301010009 820401020009",
        "plans/runs/late.hex: 820001000007 820102000000 820201010007 820301040007 820400000000",
    ]);
    checks.ends("run of both", &done, 0, &wanted, "");
}

/// Words that need nothing of the run: in a plan the source is good.
fn of_the_plan(checks: &mut Checks) {
    let pass = "8100000000000000000000\n";
    let file = "plans/runs/shared.txt";
    let table: [(&[&str], i32, &str); 5] = [
        (&["verdict", file], 0, pass),
        (&["archive", file], 0, pass),
        (&["mend", file], 0, "# this plan passes: nothing to mend\n"),
        (
            &["with-bad", file, "1"],
            0,
            "1 may be bad: no good terminal hears more than 1 of the bad ones\nif they stay silent, all others have the notice after 2 rounds\n",
        ),
        (
            &["with-bad", file, "0"],
            1,
            "no: 0 may not be bad: bad 0: it is the source, which is good (cause 7)\n",
        ),
    ];
    for (words, status, wanted) in table {
        let done = checks.call(words);
        checks.ends(&format!("{words:?}"), &done, status, wanted, "");
    }
    // A comment and a name are no line of the run.
    let text = format!("{TEXT}# shared channel, default 5\nname 1 \"shared\"\nbad 1\nvalue 7\nround 2: 1 says 9 to 3 # shared\n");
    let done = checks.call_with(&["run"], text.as_bytes());
    let states = [
        "820001000007",
        "820102000000",
        "820201010007",
        "820300000000",
    ];
    checks.ends("no shared channel", &done, 0, &lines(&states), "");
}
