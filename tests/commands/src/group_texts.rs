//! Groups in the text form: the plan that a text means, and what is said where it means none.

use crate::checks::{lines, Checks};

pub fn check(checks: &mut Checks) {
    same_plan(checks);
    wrong_texts(checks);
    refused_texts(checks);
    refused_runs(checks);
    shown_again(checks);
}

/// Drawing F with its links and two groups.
const TEXT: &str = "terminals 5\nsource 0\ngroup 1 2\ngroup 3\n0 > 1 2 3\n1 > 4\n2 > 4\n3 > 4\n";
const FRAMES: [&str; 9] = [
    "010500ff", "020001", "020002", "020003", "020104", "020204", "020304", "07000006", "07000008",
];

/// The same plan in other clothes; and groups that change it, in the order of the text.
fn same_plan(checks: &mut Checks) {
    let windows = TEXT.replace('\n', "\r\n");
    let table = [
        ("as it is", TEXT),
        ("Windows lines", &windows),
        ("groups first", "group 2 1 # a supply\n group  3\nsource 0\nterminals 5\n3 > 4\n2 > 4\n1 > 4\n0 > 3 2 1\n"),
        ("one group after the links", "terminals 5\nsource 0\ngroup 1 2\n0 > 1 2 3\n1 > 4\n2 > 4\n3 > 4\ngroup 3\nname 3 \"gate\"\n"),
        ("a member twice", "terminals 5\nsource 0\ngroup 1 2 1\ngroup 3 3\n0 > 1 2 3\n1 > 4\n2 > 4\n3 > 4\n"),
    ];
    for (label, text) in table {
        for word in ["plan", "rewrite"] {
            let done = checks.call_with(&[word], text.as_bytes());
            checks.ends(&format!("{word}: {label}"), &done, 0, &lines(&FRAMES), "");
        }
        let done = checks.call_with(&["check"], text.as_bytes());
        checks.ends(&format!("check: {label}"), &done, 3, "fail\n", "");
    }
    let more = "terminals 3\nsource 1\ngroup 2\n1 > 0 2\ngroup none\ngroup 0 2\ngroup 2\n";
    let wanted = lines(&[
        "010301ff", "020100", "020102", "07000004", "07000000", "07000005", "07000004",
    ]);
    let done = checks.call_with(&["plan"], more.as_bytes());
    checks.ends("an empty group, and one twice", &done, 0, &wanted, "");
}

/// Texts that are no plan, and why.
const WRONG: [(&str, &str); 9] = [
    (
        "terminals 4\nsource 0\nbound 1\ngroup 1 2\n",
        "line 4: 'group', and line 3 has the 'bound': a plan has a bound or groups, not both",
    ),
    (
        "group 1 2\nterminals 4\n\nsource 0\nbound 1\n",
        "line 5: 'bound', and line 1 has a 'group': a plan has a bound or groups, not both",
    ),
    (
        "terminals 4\nsource 0\nbound 1\n0 > 1\ngroup none\n",
        "line 5: 'group', and line 3 has the 'bound': a plan has a bound or groups, not both",
    ),
    (
        "terminals 4\nsource 0\n",
        "end of the file: expected 'bound NUMBER' or 'group TERMINAL..'",
    ),
    (
        "terminals 4\nsource 0\n0 > 1\ngroup 1\n",
        "line 3: expected 'bound NUMBER' or 'group TERMINAL..' before the first link",
    ),
    (
        "source 0\ngroup 1\n0 > 1\n",
        "line 3: expected 'terminals NUMBER' before the first link",
    ),
    (
        "terminals 4\nsource 0\ngroup\n",
        "line 3: expected terminals or 'none' after 'group', found nothing",
    ),
    (
        "terminals 4\nsource 0\ngroup 1, 2\n",
        "line 3: expected terminals after 'group', found '1,'",
    ),
    (
        "terminals 4\nsource 0\ngroup none 2\n",
        "line 3: expected terminals after 'group', found 'none'",
    ),
];

fn wrong_texts(checks: &mut Checks) {
    for (text, why) in WRONG {
        for word in ["plan", "verdict", "draw"] {
            let done = checks.call_with(&[word], text.as_bytes());
            checks.tells(&format!("{word} of {text:?}"), &done, 1, why);
        }
    }
}

/// What the proved reader refuses. Links come before groups, whatever the text's order, and a bound
/// that is too large for a byte is still a bound.
const REFUSED: [(&str, &str); 8] = [
    (
        "terminals 4\nsource 2\ngroup 1 2\n",
        "line 3 (group 1 2): 2 is the source, which is good: no group has it (cause 17)",
    ),
    (
        "terminals 4\nsource 0\ngroup 1\n0 > 1 2 3\n\ngroup  3   4 # two\n",
        "line 6 (group 3 4): the terminals are 0 to 3 (cause 17)",
    ),
    (
        "terminals 20\nsource 0\ngroup 1 20\n",
        "line 3 (group 1 20): the terminals are 0 to 19 (cause 17)",
    ),
    (
        "terminals 4\nsource 0\ngroup 300\n",
        "line 3 (group 300): the terminals are 0 to 3 (cause 17)",
    ),
    (
        "group 0\nterminals 4\nsource 0\n0 > 4\n",
        "line 4 (0 > 4): the terminals are 0 to 3 (cause 5)",
    ),
    (
        "group 0\nterminals 21\nsource 0\n",
        "line 2 (terminals 21): 2 to 20 terminals are allowed (cause 4)",
    ),
    (
        "group 1\nterminals 4\nsource 4\n",
        "line 3 (source 4): 0 to 3 are allowed for 4 terminals (cause 4)",
    ),
    (
        "terminals 4\nsource 0\nbound 255\n0 > 1 2 3\n",
        "line 3 (bound 255): 0 to 3 are allowed for 4 terminals (cause 4)",
    ),
];

fn refused_texts(checks: &mut Checks) {
    for (text, why) in REFUSED {
        refused(
            checks,
            &["plan", "check", "verdict", "archive", "explain", "mend"],
            text,
            why,
        );
    }
    let sixteen = "terminals 4\nsource 0\n0 > 1 2 3\n"
        .replace("0 > 1", &("group 1\n".repeat(15) + "group none\n0 > 1"));
    let done = checks.call_with(&["check"], sixteen.as_bytes());
    checks.ends("sixteen groups", &done, 0, "pass\n", "");
    let seventeen = format!("{sixteen}group 2\n");
    let why = "line 20 (group 2): a seventeenth group: 16 are the most (cause 17)";
    refused(
        checks,
        &["plan", "check", "verdict", "archive", "explain"],
        &seventeen,
        why,
    );
}

pub fn refused(checks: &mut Checks, words: &[&str], text: &str, why: &str) {
    let told = format!("refused, {why}");
    for word in words {
        let done = checks.call_with(&[word], text.as_bytes());
        checks.tells(&format!("{word} of {text:?}"), &done, 1, &told);
    }
}

/// 7 comes before 8.
fn refused_runs(checks: &mut Checks) {
    let table = [
        (
            "bad 1 3",
            "line 9 (bad 1 3): no group has both 1 and 3 (cause 8)",
        ),
        ("bad 4", "line 9 (bad 4): no group has 4 (cause 8)"),
        (
            "bad 3 2 1",
            "line 9 (bad 3 2 1): no group has all of 1, 2 and 3 (cause 8)",
        ),
        (
            "bad 0 4",
            "line 9 (bad 0 4): it is the source, which is good (cause 7)",
        ),
        (
            "bad 4 5",
            "line 9 (bad 4 5): the terminals are 0 to 4 (cause 7)",
        ),
    ];
    for (bad, why) in table {
        let text = format!("{TEXT}{bad}\nvalue 7\n");
        refused(
            checks,
            &["run", "explain", "trace", "show", "draw"],
            &text,
            why,
        );
    }
    for bad in ["bad 1 2", "bad 2", "bad 3", "bad none", "# nobody"] {
        let text = format!("{TEXT}{bad}\nvalue 7\n");
        let done = checks.call_with(&["run"], text.as_bytes());
        let is = done.status == 0 && done.out.starts_with("820001000007\n");
        checks.holds(&format!("{bad} is part of a group"), is);
    }
}

/// Groups stand where the bound would, in their order; twice is the same.
fn shown_again(checks: &mut Checks) {
    let given = "source 0\ngroup 3 1\nterminals 4\n0 > 3 2 1\nname 3 \"gate\"\ngroup none\nvalue 7\ngroup 1 3\nsite \"Pit\"\n";
    let wanted = "site \"Pit\"\nterminals 4\nsource 0\ngroup 1 3\ngroup none\ngroup 1 3\n0 > 1 2 3\nname 3 \"gate\"\nbad none\nvalue 7\n";
    for text in [given, wanted] {
        let done = checks.call_with(&["show"], text.as_bytes());
        checks.ends("show of a text with groups", &done, 0, wanted, "");
    }
    let frames = lines(&[
        "010400ff", "020003", "020001", "020002", "0700000a", "07000000", "0700000a",
    ]);
    let done = checks.call_with(&["show"], frames.as_bytes());
    let wanted = "terminals 4\nsource 0\ngroup 1 3\ngroup none\ngroup 1 3\n0 > 1 2 3\n";
    checks.ends("show of frames with groups", &done, 0, wanted, "");
}
