//! The example runs, round by round. What each terminal takes, and when, is worked out by hand.

use crate::checks::{lines, read, Checks};

pub fn check(checks: &mut Checks) {
    traces(checks);
    table(checks);
    no_run(checks);
    with_bad(checks);
    both_starts(checks);
    for name in ["runs/example", "runs/liars", "runs/silence", "runs/wet"] {
        same_in_frames(checks, name);
    }
}

/// plans/runs, as text and as frames. late: 3 has 7 from 2 in round 2 and from 1 in round 4, so it
/// takes in round 4 and speaks in round 5, when 4 has it from 2 and 3. passed: 2 and 3 hear the
/// source and speak in round 2; the liar's word has one voter.
fn both_starts(checks: &mut Checks) {
    let table: [(&str, &str, [&str; 5]); 3] = [
        (
            "late",
            "4 rounds played: n-1, since none are given",
            ["took 0", "bad", "took 1", "took 4", "waiting"],
        ),
        (
            "late-40",
            "40 rounds played, as given",
            ["took 0", "bad", "took 1", "took 4", "took 5"],
        ),
        (
            "passed",
            "4 rounds played: n-1, since none are given",
            ["took 0", "bad", "took 1", "took 1", "took 2"],
        ),
    ];
    for (name, played, states) in table {
        let (text, frames) = (
            format!("plans/runs/{name}.txt"),
            format!("plans/runs/{name}.hex"),
        );
        let wanted = frames_of(&states) + &lines(&[played]) + &words_of(&states);
        for file in [&text, &frames] {
            let done = checks.call(&["run", file]);
            checks.ends(&format!("run of {file}"), &done, 0, &frames_of(&states), "");
            let done = checks.call(&["explain", file]);
            checks.ends(&format!("explain of {file}"), &done, 0, &wanted, "");
        }
        same_in_frames(checks, &format!("plans/runs/{name}"));
        let committed = read(&checks.top.join(&frames));
        let done = checks.call(&["plan", &text]);
        checks.ends(&format!("plan of {text}"), &done, 0, &committed, "");
    }
}

/// Frames 82 of "took ROUND", "bad" and "waiting", with layout 7.
fn frames_of(states: &[&str]) -> String {
    let line = |(terminal, state): (usize, &&str)| match state.strip_prefix("took ") {
        Some(round) => format!("82{terminal:02x}010{round}0007\n"),
        None if *state == "bad" => format!("82{terminal:02x}02000000\n"),
        None => format!("82{terminal:02x}00000000\n"),
    };
    states.iter().enumerate().map(line).collect()
}

fn words_of(states: &[&str]) -> String {
    let line = |(terminal, state): (usize, &&str)| {
        let source = if terminal == 0 { ", the source" } else { "" };
        match state.strip_prefix("took ") {
            Some(round) => format!("terminal {terminal}{source}: took layout 7 in round {round}\n"),
            None => format!("terminal {terminal}{source}: {state}\n"),
        }
    };
    states.iter().enumerate().map(line).collect()
}

/// liars: 2, 3, 4 and 7 hear the source. In round 2, 5 has 7 from 2 and 4, and 6 from 2, 3 and 7;
/// 8 has it from 4 alone until 5 speaks in round 3, when 9 has it from 5 and 6. The word 9 has one
/// voter wherever it is heard.
fn traces(checks: &mut Checks) {
    let table: [(&str, &[&str]); 4] = [
        (
            "example",
            &[
                "round 0: 0, the source, has 7",
                "round 1: 2 takes 7",
                "round 2: bad 1 says 9 to 3; nobody takes",
                "round 3: nobody takes",
                "after 3 rounds: 2 of 3 good terminals have layout 7, the last since round 1; waiting: 3; bad: 1",
            ],
        ),
        (
            "liars",
            &[
                "round 0: 0 (office), the source, has 7",
                "round 1: bad 1 says 9 to 2, 4, 5 (crusher); 2 takes 7; 3 takes 7; 4 takes 7; 7 takes 7",
                "round 2: bad 10 (east gate) says 9 to 6, 7, 9; 5 (crusher) takes 7; 6 takes 7",
                "round 3: 8 takes 7; 9 takes 7",
                "round 4: nobody takes",
                "round 5: nobody takes",
                "after 5 rounds: 9 of 9 good terminals have layout 7, the last since round 3; waiting: none; bad: 1, 10 (east gate)",
            ],
        ),
        (
            "silence",
            &[
                "round 0: 0, the source, has 7",
                "round 1: 2 takes 7; 4 takes 7",
                "round 2: nobody takes",
                "round 3: nobody takes",
                "after 3 rounds: 3 of 5 good terminals have layout 7, the last since round 1; waiting: 5, 6; bad: 1, 3",
            ],
        ),
        (
            // 3 has 7 from 2 in round 2, and from 1 in round 3, after its spoiled first word.
            "wet",
            &[
                "round 0: 0, the source, has 7",
                "round 1: 2 takes 7",
                "round 2: bad 1 (wet connector) says 9 to 3; nobody takes",
                "round 3: bad 1 (wet connector) says 7 to 3; 3 takes 7",
                "after 3 rounds: 3 of 3 good terminals have layout 7, the last since round 3; waiting: none; bad: 1 (wet connector)",
            ],
        ),
    ];
    for (name, told) in table {
        let done = checks.call(&["trace", &format!("runs/{name}.txt")]);
        checks.ends(&format!("trace of {name}"), &done, 0, &lines(told), "");
    }
}

/// For a script: every terminal after every round.
fn table(checks: &mut Checks) {
    let wanted = lines(&[
        "round,terminal,state,taken_in,value",
        "0,0,taken,0,7",
        "0,1,bad,,",
        "0,2,waiting,,",
        "0,3,waiting,,",
        "1,0,taken,0,7",
        "1,1,bad,,",
        "1,2,taken,1,7",
        "1,3,waiting,,",
    ]);
    let text = "terminals 4\nsource 0\nbound 1\n0 > 1 2\n1 > 3\n2 > 3\nbad 1\nvalue 7\nrounds 1\n";
    for words in [["trace", "--csv", "-"], ["trace", "-", "--csv"]] {
        let done = checks.call_with(&words, text.as_bytes());
        checks.ends(&format!("{words:?}"), &done, 0, &wanted, "");
    }
}

fn no_run(checks: &mut Checks) {
    let done = checks.call(&["trace", "plans/e.txt"]);
    let why =
        "a plan without a run: 'trace' wants 'value' (and 'bad', 'rounds', 'round') under the plan";
    checks.tells("trace of a plan", &done, 1, why);
}

/// Drawing H and drawing F; who may be bad is document 01's bad set.
fn with_bad(checks: &mut Checks) {
    let may = |who: &str| {
        format!("{who} may be bad: no good terminal hears more than 1 of the bad ones\n")
    };
    let waits = "if they stay silent, these wait for ever:";
    let table = [
        ("plans/h.txt", vec!["1", "3"], 3, format!("{}{waits} 5, 6\n", may("1 and 3"))),
        ("plans/h.hex", vec!["3", "1"], 3, format!("{}{waits} 5, 6\n", may("1 and 3"))),
        ("plans/h.txt", vec!["1"], 0, format!("{}if they stay silent, all others have the notice after 3 rounds\n", may("1"))),
        ("plans/f.txt", vec!["2"], 0, format!("{}if they stay silent, all others have the notice after 2 rounds\n", may("2"))),
        ("plans/h.txt", vec!["1", "2"], 1, "no: 1 and 2 may not be bad: terminal 5 hears 1 and 2, both bad, and the bound is 1 (cause 8)\n".into()),
        ("plans/h.txt", vec!["0"], 1, "no: 0 may not be bad: bad 0: it is the source, which is good (cause 7)\n".into()),
        ("plans/h.txt", vec!["1", "9"], 1, "no: 1 and 9 may not be bad: bad 9: the terminals are 0 to 6 (cause 7)\n".into()),
        ("runs/silence.txt", vec!["3"], 0, format!("{}if they stay silent, all others have the notice after 3 rounds\n", may("3"))),
    ];
    for (file, terminals, status, wanted) in table {
        let words = [&["with-bad", file], &terminals[..]].concat();
        let done = checks.call(&words);
        checks.ends(&format!("{words:?}"), &done, status, &wanted, "");
    }
    let named = checks.call(&["with-bad", "plans/pit.txt", "2"]);
    let wanted = format!(
        "{}{waits} 4, 5 (crusher), 6, 7, 8, 9, 10 (east gate)\n",
        may("2")
    );
    checks.ends("with-bad and names", &named, 3, &wanted, "");
}

/// A run's text and its frames are the same run.
pub fn same_in_frames(checks: &mut Checks, name: &str) {
    let text = format!("{name}.txt");
    let frames = checks.call(&["plan", &text]).out;
    checks.holds(&format!("{name} has frames"), frames.starts_with("01"));
    let run = checks.call(&["run", &text]);
    let again = checks.call_with(&["run"], frames.as_bytes());
    checks.same(
        &format!("run of {name} and of its frames"),
        &run.out,
        &again.out,
    );
    let shown = checks.call_with(&["show"], frames.as_bytes());
    let back = checks.call_with(&["plan"], shown.out.as_bytes());
    checks.same(
        &format!("frames of {name} shown and back"),
        &frames,
        &back.out,
    );
}
