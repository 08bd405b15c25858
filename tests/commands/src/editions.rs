//! Runs with editions (document 02, P8): the office changes its mind, and the higher edition wins.
//! What each terminal takes, and when, is worked out by hand from the rules.

use crate::answers::TEXT;
use crate::checks::{lines, read, Checks};
use crate::runs::same_in_frames;
use crate::{edition_frames, edition_pictures, edition_texts};

pub fn check(checks: &mut Checks) {
    for example in &EXAMPLES {
        played(checks, example);
    }
    committed_frames(checks);
    table(checks);
    as_without(checks);
    for (label, text, told) in TRACES {
        let done = checks.call_with(&["trace"], text.as_bytes());
        checks.ends(label, &done, 0, &lines(told), "");
    }
    last_round_alone(checks);
    widest(checks);
    many_files(checks);
    of_the_plan(checks);
    edition_texts::check(checks);
    edition_frames::check(checks);
    edition_pictures::check(checks);
}

/// A committed run, with its frames beside it where `in_frames`.
pub struct Example {
    pub name: &'static str,
    pub in_frames: bool,
    pub states: &'static [&'static str],
    /// Under the states.
    pub told: &'static [&'static str],
    pub trace: &'static [&'static str],
}

/// mind-changed is drawing F, whose 1 is bad. 2 and 3 hear the office: edition 1 in round 1, and in
/// round 2 what it issues in round 1. Each passes both on, so the gate has edition 1 from both in
/// round 2 and edition 2 in round 3. The liar's edition 3 has one voter, and its edition 2 is below
/// it.
///
/// overtaken: 1 and 3 hear the source and take each notice a round after it is issued, editions 1
/// to 4 in rounds 1 to 4. 4 hears 1, 3 and the silent 2: it has each from both a round later, in
/// rounds 2 to 5. 5 hears 1, 4 and the silent 2. 1 says edition r-1 in round r, up to 5, and 4 says
/// edition r-2 in round r, from 3 up to 6: what counts of 1 is one edition ahead of what 4 says,
/// until both have said edition 4, in round 6.
const EXAMPLES: [Example; 3] = [
    Example {
        name: "runs/mind-changed",
        in_frames: false,
        states: &[
            "8200010100020008",
            "8201020000000000",
            "8202010200020008",
            "8203010200020008",
            "8204010300020008",
        ],
        told: &[
            "5 rounds played, as given",
            "the source's last notice is layout 8 edition 2, of round 1: 4 rounds played after it, and a plan that passes needs at most 4 (n-1)",
            "terminal 0 (office), the source: took layout 8 edition 2 in round 1",
            "terminal 1: bad",
            "terminal 2: took layout 8 edition 2 in round 2",
            "terminal 3: took layout 8 edition 2 in round 2",
            "terminal 4 (gate): took layout 8 edition 2 in round 3",
        ],
        trace: &[
            "round 0: 0 (office), the source, has 7 edition 1",
            "round 1: bad 1 says 9 edition 3 to 4 (gate); 2 takes 7 edition 1; 3 takes 7 edition 1; 0 (office), the source, issues 8 edition 2",
            "round 2: 2 takes 8 edition 2; 3 takes 8 edition 2; 4 (gate) takes 7 edition 1",
            "round 3: bad 1 says 7 edition 2 to 4 (gate); 4 (gate) takes 8 edition 2",
            "round 4: nobody takes",
            "round 5: nobody takes",
            "after 5 rounds: 4 of 4 good terminals have the source's last notice, 8 edition 2, the last of them since round 3; waiting: none; bad: 1",
        ],
    },
    Example {
        name: "plans/runs/overtaken",
        in_frames: true,
        states: &[
            "820001030004000a",
            "820101040004000a",
            "8202020000000000",
            "820301040004000a",
            "820401050004000a",
            "8205000000000000",
        ],
        told: &[
            "5 rounds played: n-1, since none are given",
            "the source's last notice is layout 10 edition 4, of round 3: 2 rounds played after it, and a plan that passes needs at most 5 (n-1)",
            "terminal 0, the source: took layout 10 edition 4 in round 3",
            "terminal 1: took layout 10 edition 4 in round 4",
            "terminal 2: bad",
            "terminal 3: took layout 10 edition 4 in round 4",
            "terminal 4: took layout 10 edition 4 in round 5",
            "terminal 5: waiting",
        ],
        trace: &[
            "round 0: 0, the source, has 7 edition 1",
            "round 1: 1 takes 7 edition 1; 3 takes 7 edition 1; 0, the source, issues 8 edition 2",
            "round 2: 1 takes 8 edition 2; 3 takes 8 edition 2; 4 takes 7 edition 1; 0, the source, issues 9 edition 3",
            "round 3: 1 takes 9 edition 3; 3 takes 9 edition 3; 4 takes 8 edition 2; 0, the source, issues 10 edition 4",
            "round 4: 1 takes 10 edition 4; 3 takes 10 edition 4; 4 takes 9 edition 3",
            "round 5: 4 takes 10 edition 4",
            "after 5 rounds: 4 of 5 good terminals have the source's last notice, 10 edition 4, the last of them since round 5; waiting: 5; bad: 2",
        ],
    },
    Example {
        name: "plans/runs/overtaken-8",
        in_frames: true,
        states: &[
            "820001030004000a",
            "820101040004000a",
            "8202020000000000",
            "820301040004000a",
            "820401050004000a",
            "820501060004000a",
        ],
        told: &[
            "8 rounds played, as given",
            "the source's last notice is layout 10 edition 4, of round 3: 5 rounds played after it, and a plan that passes needs at most 5 (n-1)",
            "terminal 0, the source: took layout 10 edition 4 in round 3",
            "terminal 1: took layout 10 edition 4 in round 4",
            "terminal 2: bad",
            "terminal 3: took layout 10 edition 4 in round 4",
            "terminal 4: took layout 10 edition 4 in round 5",
            "terminal 5: took layout 10 edition 4 in round 6",
        ],
        trace: &[
            "round 0: 0, the source, has 7 edition 1",
            "round 1: 1 takes 7 edition 1; 3 takes 7 edition 1; 0, the source, issues 8 edition 2",
            "round 2: 1 takes 8 edition 2; 3 takes 8 edition 2; 4 takes 7 edition 1; 0, the source, issues 9 edition 3",
            "round 3: 1 takes 9 edition 3; 3 takes 9 edition 3; 4 takes 8 edition 2; 0, the source, issues 10 edition 4",
            "round 4: 1 takes 10 edition 4; 3 takes 10 edition 4; 4 takes 9 edition 3",
            "round 5: 4 takes 10 edition 4",
            "round 6: 5 takes 10 edition 4",
            "round 7: nobody takes",
            "round 8: nobody takes",
            "after 8 rounds: 5 of 5 good terminals have the source's last notice, 10 edition 4, the last of them since round 6; waiting: none; bad: 2",
        ],
    },
];

/// The text, and its frames where they are committed; both ways between them. The plan passes.
pub fn played(checks: &mut Checks, example: &Example) {
    let name = example.name;
    let text = format!("{name}.txt");
    let states = lines(example.states);
    let mut files = vec![text.clone()];
    files.extend(example.in_frames.then(|| format!("{name}.hex")));
    for file in &files {
        let done = checks.call(&["run", file]);
        checks.ends(&format!("run of {file}"), &done, 0, &states, "");
        let done = checks.call(&["explain", file]);
        let wanted = states.clone() + &lines(example.told);
        checks.ends(&format!("explain of {file}"), &done, 0, &wanted, "");
        let done = checks.call(&["trace", file]);
        let wanted = lines(example.trace);
        checks.ends(&format!("trace of {file}"), &done, 0, &wanted, "");
    }
    same_in_frames(checks, name);
    let done = checks.call(&["check", &text]);
    checks.ends(&format!("check of {text}"), &done, 0, "pass\n", "");
    let written = read(&checks.top.join(&text));
    let plain: Vec<&str> = written
        .lines()
        .filter(|line| !line.starts_with('#'))
        .collect();
    let done = checks.call(&["show", &text]);
    checks.ends(&format!("show of {text}"), &done, 0, &lines(&plain), "");
}

/// The frames by document 02: start 04, edition, layout, rounds where given; 08, round, edition,
/// layout; 05, round, from, to, edition, layout.
fn committed_frames(checks: &mut Checks) {
    let overtaken = [
        "01060001", "020001", "020002", "020003", "020104", "020105", "020204", "020205", "020304",
        "020405", "03000004",
    ];
    let later = ["080100020008", "080200030009", "08030004000a"];
    let mind_changed = [
        "01050001",
        "020001",
        "020002",
        "020003",
        "020104",
        "020204",
        "020304",
        "03000002",
        "040001000705",
        "080100020008",
        "0501010400030009",
        "0503010400020007",
    ];
    let table = [
        ("runs/mind-changed", mind_changed.to_vec()),
        (
            "plans/runs/overtaken",
            [&overtaken[..], &["0400010007"], &later].concat(),
        ),
        (
            "plans/runs/overtaken-8",
            [&overtaken[..], &["040001000708"], &later].concat(),
        ),
    ];
    for (name, frames) in table {
        let file = format!("{name}.txt");
        let done = checks.call(&["plan", &file]);
        checks.ends(&format!("plan of {file}"), &done, 0, &lines(&frames), "");
        if name.starts_with("plans") {
            let committed = read(&checks.top.join(format!("{name}.hex")));
            checks.same(&format!("{name}.hex"), &lines(&frames), &committed);
        }
    }
}

/// For a script: the edition is the last column.
fn table(checks: &mut Checks) {
    let text = "terminals 3\nsource 0\nbound 0\n0 > 1 2\nvalue 7 edition 1\nrounds 1\nbad 2\nround 1: source issues 8 edition 300\n";
    let wanted = lines(&[
        "round,terminal,state,taken_in,value,edition",
        "0,0,taken,0,7,1",
        "0,1,waiting,,,",
        "0,2,bad,,,",
        "1,0,taken,1,8,300",
        "1,1,taken,1,7,1",
        "1,2,bad,,,",
    ]);
    for words in [["trace", "--csv", "-"], ["trace", "-", "--csv"]] {
        let done = checks.call_with(&words, text.as_bytes());
        checks.ends(&format!("{words:?} with editions"), &done, 0, &wanted, "");
    }
}

/// Document 01's example with editions and no later notice is as it was, with editions: 2 hears the
/// source, and 3 has 9 from 1 and 7 from 2, one voter each.
fn as_without(checks: &mut Checks) {
    let run = "bad 1\nvalue 7 edition 2\nrounds 3\nround 2: 1 says 9 edition 2 to 3\n";
    let text = format!("{TEXT}{run}");
    let states = [
        "8200010000020007",
        "8201020000000000",
        "8202010100020007",
        "8203000000000000",
    ];
    let done = checks.call_with(&["run"], text.as_bytes());
    checks.ends("document 01's run", &done, 0, &lines(&states), "");
    let told = [
        "3 rounds played, as given",
        "the source's last notice is layout 7 edition 2, of round 0: 3 rounds played after it, and a plan that passes needs at most 3 (n-1)",
        "terminal 0, the source: took layout 7 edition 2 in round 0",
        "terminal 1: bad",
        "terminal 2: took layout 7 edition 2 in round 1",
        "terminal 3: waiting",
    ];
    let done = checks.call_with(&["explain"], text.as_bytes());
    let wanted = lines(&states) + &lines(&told);
    checks.ends("explain of it", &done, 0, &wanted, "");
    let told = [
        "round 0: 0, the source, has 7 edition 2",
        "round 1: 2 takes 7 edition 2",
        "round 2: bad 1 says 9 edition 2 to 3; nobody takes",
        "round 3: nobody takes",
        "after 3 rounds: 2 of 3 good terminals have the source's last notice, 7 edition 2, the last of them since round 1; waiting: 3; bad: 1",
    ];
    let done = checks.call_with(&["trace"], text.as_bytes());
    checks.ends("trace of it", &done, 0, &lines(&told), "");
}

/// The plan fails. 3 has edition 1 from 2 and the liar in round 2, and 4 from 3 and the liar in round
/// 3; edition 2 has one voter at 3, which so never passes it on.
pub const OLDER_LAST: &str = "terminals 5\nsource 0\nbound 1\n0 > 1 2\n1 > 3 4\n2 > 3\n3 > 4\nbad 1\nvalue 7 edition 1\nrounds 3\nround 1: source issues 8 edition 2\nround 2: 1 says 7 edition 1 to 3\nround 3: 1 says 7 edition 1 to 4\n";

/// Other courses. Of drawing C with f 0 each hears one: a notice goes one terminal a round.
const TRACES: [(&str, &str, &[&str]); 5] = [
    (
        "an older notice is taken last",
        OLDER_LAST,
        &[
            "round 0: 0, the source, has 7 edition 1",
            "round 1: 2 takes 7 edition 1; 0, the source, issues 8 edition 2",
            "round 2: bad 1 says 7 edition 1 to 3; 2 takes 8 edition 2; 3 takes 7 edition 1",
            "round 3: bad 1 says 7 edition 1 to 4; 4 takes 7 edition 1",
            "after 3 rounds: 2 of 4 good terminals have the source's last notice, 8 edition 2, the last of them since round 2; still with 7 edition 1: 3, 4; waiting: none; bad: 1",
        ],
    ),
    (
        "who is with which older notice",
        "terminals 5\nsource 0\nbound 0\n0 > 1\n1 > 2\n2 > 3\n3 > 4\nvalue 7 edition 1\nrounds 3\nround 1: source issues 8 edition 4\nround 2: source issues 7 edition 6\nname 2 \"gate\"",
        &[
            "round 0: 0, the source, has 7 edition 1",
            "round 1: 1 takes 7 edition 1; 0, the source, issues 8 edition 4",
            "round 2: 1 takes 8 edition 4; 2 (gate) takes 7 edition 1; 0, the source, issues 7 edition 6",
            "round 3: 1 takes 7 edition 6; 2 (gate) takes 8 edition 4; 3 takes 7 edition 1",
            "after 3 rounds: 2 of 5 good terminals have the source's last notice, 7 edition 6, the last of them since round 3; still with 8 edition 4: 2 (gate); still with 7 edition 1: 3; waiting: 4; bad: none",
        ],
    ),
    (
        // Only the source has it: nobody hears what is issued in the last round.
        "issued in the last round",
        "terminals 3\nsource 0\nbound 0\n0 > 1\n1 > 2\nvalue 7 edition 1\nround 2: source issues 8 edition 2",
        &[
            "round 0: 0, the source, has 7 edition 1",
            "round 1: 1 takes 7 edition 1",
            "round 2: 2 takes 7 edition 1; 0, the source, issues 8 edition 2",
            "after 2 rounds: 1 of 3 good terminals have the source's last notice, 8 edition 2, the last of them since round 2; still with 7 edition 1: 1, 2; waiting: none; bad: none",
        ],
    ),
    (
        "a round in which only the source takes",
        "terminals 2\nsource 1\nbound 0\n1 > 0\nvalue 7 edition 1\nrounds 3\nround 2: source issues 8 edition 2\nname 1 \"office\"",
        &[
            "round 0: 1 (office), the source, has 7 edition 1",
            "round 1: 0 takes 7 edition 1",
            "round 2: nobody takes; 1 (office), the source, issues 8 edition 2",
            "round 3: 0 takes 8 edition 2",
            "after 3 rounds: 2 of 2 good terminals have the source's last notice, 8 edition 2, the last of them since round 3; waiting: none; bad: none",
        ],
    ),
    (
        // 3 hears 1 and 2 at f 1. In round 2 both have said something, of different editions; in
        // round 3 what 1 said in edition 1 is wiped, and edition 2 is said by both. Words alike are
        // told together, others by sender, and one sender's by edition.
        "a liar with several editions",
        "terminals 5\nsource 0\nbound 1\n0 > 1 2\n1 > 3 4\n2 > 3 4\n3 > 4\nbad 1\nvalue 7 edition 2\nrounds 3\nround 2: 1 says 7 edition 1 to 3\nround 3: 1 says 7 edition 2 to 3\nround 3: 1 says 9 edition 1 to 4",
        &[
            "round 0: 0, the source, has 7 edition 2",
            "round 1: 2 takes 7 edition 2",
            "round 2: bad 1 says 7 edition 1 to 3; nobody takes",
            "round 3: bad 1 says 9 edition 1 to 4; bad 1 says 7 edition 2 to 3; 3 takes 7 edition 2",
            "after 3 rounds: 3 of 4 good terminals have the source's last notice, 7 edition 2, the last of them since round 3; waiting: 4; bad: 1",
        ],
    ),
];

/// The states of one round, with a notice that is issued in it.
fn last_round_alone(checks: &mut Checks) {
    let text =
        "terminals 2\nsource 0\nbound 0\n0 > 1\nvalue 7 edition 1\nround 1: source issues 8 edition 2\n";
    let done = checks.call_with(&["run"], text.as_bytes());
    let wanted = lines(&["8200010100020008", "8201010100010007"]);
    checks.ends("run of one round", &done, 0, &wanted, "");
    let done = checks.call_with(&["explain"], text.as_bytes());
    let told = lines(&[
        "1 round played: n-1, since none are given",
        "the source's last notice is layout 8 edition 2, of round 1: 0 rounds played after it, and a plan that passes needs at most 1 (n-1)",
        "terminal 0, the source: took layout 8 edition 2 in round 1",
        "terminal 1: took layout 7 edition 1 in round 1",
    ]);
    checks.ends("explain of one round", &done, 0, &(wanted + &told), "");
}

/// Two bytes each, the edition first.
fn widest(checks: &mut Checks) {
    let text = "terminals 2\nsource 0\nbound 0\n0 > 1\nvalue 65535 edition 258\nrounds 40\nround 40: source issues 1 edition 65535\n";
    let frames = [
        "01020000",
        "020001",
        "03000000",
        "040102ffff28",
        "0828ffff0001",
    ];
    let done = checks.call_with(&["plan"], text.as_bytes());
    checks.ends("plan of wide numbers", &done, 0, &lines(&frames), "");
    let done = checks.call_with(&["run"], text.as_bytes());
    let wanted = lines(&["82000128ffff0001", "820101010102ffff"]);
    checks.ends("run of wide numbers", &done, 0, &wanted, "");
    let done = checks.call_with(&["show"], lines(&frames).as_bytes());
    let shown = text.replace("value", "bad none\nvalue");
    checks.ends("show of wide numbers", &done, 0, &shown, "");
}

/// Each in its own form.
fn many_files(checks: &mut Checks) {
    let done = checks.call(&["run", "plans/runs/overtaken.hex", "plans/runs/late.hex"]);
    let wanted = lines(&[
        "plans/runs/overtaken.hex: 820001030004000a 820101040004000a 8202020000000000 820301040004000a 820401050004000a 8205000000000000",
        "plans/runs/late.hex: 820001000007 820102000000 820201010007 820301040007 820400000000",
    ]);
    checks.ends("run of both forms", &done, 0, &wanted, "");
}

/// Words that need nothing of the run: passing and failing are judged on one notice.
fn of_the_plan(checks: &mut Checks) {
    let pass = "8100000000000000000000\n";
    let table: [(&[&str], i32, &str); 5] = [
        (&["verdict", "plans/runs/overtaken.txt"], 0, pass),
        (&["archive", "plans/runs/overtaken.txt"], 0, pass),
        (
            &["mend", "plans/runs/overtaken.txt"],
            0,
            "# this plan passes: nothing to mend\n",
        ),
        (
            &["with-bad", "plans/runs/overtaken.txt", "2"],
            0,
            "2 may be bad: no good terminal hears more than 1 of the bad ones\nif they stay silent, all others have the notice after 3 rounds\n",
        ),
        (
            &["with-bad", "plans/runs/overtaken.txt", "2", "3"],
            1,
            "no: 2 and 3 may not be bad: terminal 4 hears 2 and 3, both bad, and the bound is 1 (cause 8)\n",
        ),
    ];
    for (words, status, wanted) in table {
        let done = checks.call(words);
        checks.ends(&format!("{words:?}"), &done, status, wanted, "");
    }
}
