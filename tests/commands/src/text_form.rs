//! The text form: what it takes, what it says where it takes none, and what comes back.

use crate::answers::{EXAMPLE, TEXT};
use crate::checks::{lines, Checks};

const HEAD: &str = "terminals 4\nsource 0\nbound 1\n";
const RUN: &str = "terminals 4\nsource 0\nbound 1\n0 > 1 2\n1 > 3\n2 > 3\nbad 1\nvalue 7\n";

pub fn check(checks: &mut Checks) {
    same_plan(checks);
    wrong_texts(checks);
    refused_texts(checks);
    shown_again(checks);
    warnings(checks);
    no_utf8(checks);
}

/// The same plan in other clothes. A name or a place changes nothing of it.
fn same_plan(checks: &mut Checks) {
    let windows = TEXT.replace('\n', "\r\n");
    let marked = format!("\u{feff}{TEXT}");
    let named = format!("site \"A, #1\"\n{TEXT}name 2 \"gate # 2 < 3\"\nat 2 -1.5 80\n");
    let table = [
        ("other order and blanks", "# a site\n\n bound 1 # one\r\nsource 0\n\tterminals  4\n2>3\n\n0 >  2\t1 # two hearers\n1 > 3"),
        ("Windows lines", windows.as_str()),
        ("a byte order mark", marked.as_str()),
        ("a name and a place", named.as_str()),
    ];
    for (label, text) in table {
        for word in ["plan", "rewrite"] {
            let done = checks.call_with(&[word], text.as_bytes());
            checks.ends(&format!("{word}: {label}"), &done, 0, &lines(&EXAMPLE), "");
        }
        let done = checks.call_with(&["check"], text.as_bytes());
        checks.ends(&format!("check: {label}"), &done, 3, "fail\n", "");
    }
    let both = format!("{HEAD}0 - 1 3\n2-1\n");
    let wanted = lines(&[
        "01040001", "020001", "020003", "020100", "020102", "020201", "020300",
    ]);
    let done = checks.call_with(&["plan"], both.as_bytes());
    checks.ends("each hears the other", &done, 0, &wanted, "");
}

/// Texts that are no plan, after the head, and the tool's own words on the text's own line.
const WRONG_AFTER_HEAD: [(&str, &str); 25] = [
    (
        "source 1",
        "line 4: expected 'source' once, and line 2 has it",
    ),
    (
        "0 >",
        "line 4: expected a terminal after '>', found nothing",
    ),
    (
        "0 -",
        "line 4: expected a terminal after '-', found nothing",
    ),
    (
        "> 1",
        "line 4: expected one terminal before '>', found nothing",
    ),
    (
        "0 1 > 2",
        "line 4: expected one terminal before '>', found '0 1'",
    ),
    (
        "0 > 1 > 2",
        "line 4: expected a terminal after '>', found '>'",
    ),
    (
        "0 - 1 > 2",
        "line 4: expected a terminal after '-', found '>'",
    ),
    (
        "# a note\n0 > 1 x",
        "line 5: expected a terminal after '>', found 'x'",
    ),
    (
        "name 4 \"gate\"",
        "line 4: 'name 4', and the terminals are 0 to 3",
    ),
    (
        "name 1 gate",
        "line 4: expected a name in quotes, as \"east gate\", found 'gate'",
    ),
    (
        "name 1 \"a\"b\"",
        "line 4: expected a name without quotes and control characters in it",
    ),
    ("name 1 \" \"", "line 4: expected a name in the quotes"),
    (
        "name 1 \"a\"\nname 1 \"b\"",
        "line 5: expected one name of 1",
    ),
    ("site \"a\"\nsite \"b\"", "line 5: expected 'site' once"),
    ("at 1 2", "line 4: expected 'at TERMINAL ACROSS DOWN'"),
    ("at 9 2 3", "line 4: 'at 9', and the terminals are 0 to 3"),
    (
        "at 1 2 nan",
        "line 4: expected a number for the place, found 'nan'",
    ),
    ("at 1 2 3\nat 1 4 5", "line 5: expected one place of 1"),
    ("at 1 2 3\nat 2 2.0 3", "line 5: 1 stands at 2.0 3 already"),
    (
        "bad",
        "line 4: expected terminals or 'none' after 'bad', found nothing",
    ),
    (
        "bad 1\nbad 2",
        "line 5: expected 'bad' once, and line 4 has it",
    ),
    (
        "bad 1",
        "end of the file: expected 'value NUMBER', since it has a run",
    ),
    (
        "value x",
        "line 4: expected one layout after 'value', found 'x'",
    ),
    (
        "round 2: 1 says 9",
        "line 4: expected 'round NUMBER: TERMINAL says LAYOUT to TERMINAL'",
    ),
    (
        "round 2: 1 says 9 to",
        "line 4: expected a terminal after 'to', found nothing",
    ),
];

/// The same of whole texts.
const WRONG: [(&str, &str); 8] = [
    ("terminal 4", "line 1: expected 'terminals', 'source', 'bound', a link 'A > B' or 'A - B', or a word of './hulmayek help text', found 'terminal 4'"),
    (
        "terminals 4\nsource",
        "line 2: expected one number after 'source', found nothing",
    ),
    (
        "terminals 4 5",
        "line 1: expected one number after 'terminals', found '4 5'",
    ),
    (
        "terminals 4\nsource 0\nbound -1",
        "line 3: expected one number after 'bound', found '-1'",
    ),
    (
        "terminals 4\nsource 0\n0 > 1",
        "line 3: expected 'bound NUMBER' or 'group TERMINAL..' before the first link",
    ),
    (
        "terminals 4\nsource 0\nname 1 \"a\"",
        "line 3: expected 'bound NUMBER' or 'group TERMINAL..' before 'name'",
    ),
    (
        "# nothing",
        "end of the file: expected 'terminals NUMBER'",
    ),
    (
        "source 0\nterminals 4",
        "end of the file: expected 'bound NUMBER' or 'group TERMINAL..'",
    ),
];

fn wrong_texts(checks: &mut Checks) {
    let after_head = WRONG_AFTER_HEAD.map(|(text, why)| (format!("{HEAD}{text}\n"), why));
    let whole = WRONG.map(|(text, why)| (format!("{text}\n"), why));
    for (text, why) in after_head.into_iter().chain(whole) {
        for word in ["plan", "verdict"] {
            let done = checks.call_with(&[word], text.as_bytes());
            checks.tells(&format!("{word} of {text:?}"), &done, 1, why);
        }
    }
}

/// What the proved reader refuses: where in the text, and why.
const REFUSED: [(&str, &str); 5] = [
    (
        "# wide\nterminals 21\nsource 0\nbound 1\n0 > 1",
        "line 2 (terminals 21): 2 to 20 terminals are allowed (cause 4)",
    ),
    (
        "source 0\nbound 0\nterminals 1",
        "line 3 (terminals 1): 2 to 20 terminals are allowed (cause 4)",
    ),
    (
        "terminals 99999999999999999999\nsource 0\nbound 1",
        "line 1 (terminals 99999999999999999999): 2 to 20 terminals are allowed (cause 4)",
    ),
    (
        "source 4\nterminals 4\nbound 4\n0 > 1",
        "line 1 (source 4): 0 to 3 are allowed for 4 terminals (cause 4)",
    ),
    (
        "terminals 4\nsource 3\nbound 256",
        "line 3 (bound 256): 0 to 3 are allowed for 4 terminals (cause 4)",
    ),
];
const REFUSED_AFTER_HEAD: [(&str, &str); 6] = [
    (
        "0 > 1 2 1",
        "line 4 (0 > 1): line 4 has this link already (cause 6)",
    ),
    (
        "1 > 2\n\n2 > 1\n1 > 3 2\n1 > 1",
        "line 7 (1 > 2): line 4 has this link already (cause 6)",
    ),
    (
        "0 - 1\n1 > 0",
        "line 5 (1 > 0): line 4 has this link already (cause 6)",
    ),
    (
        "0 > 1 2\n2 > 3 2",
        "line 5 (2 > 2): a link from 2 to itself joins nobody (cause 5)",
    ),
    (
        "0 > 3 4 5",
        "line 4 (0 > 4): the terminals are 0 to 3 (cause 5)",
    ),
    (
        "0 > 257",
        "line 4 (0 > 257): the terminals are 0 to 3 (cause 5)",
    ),
];

fn refused_texts(checks: &mut Checks) {
    let after_head = REFUSED_AFTER_HEAD.map(|(text, why)| (format!("{HEAD}{text}\n"), why));
    let whole = REFUSED.map(|(text, why)| (text.to_string(), why));
    for (text, why) in whole.into_iter().chain(after_head) {
        for word in ["plan", "check"] {
            let done = checks.call_with(&[word], text.as_bytes());
            checks.tells(
                &format!("{word} of {text:?}"),
                &done,
                1,
                &format!("refused, {why}"),
            );
        }
    }
    refused_runs(checks);
}

fn refused_runs(checks: &mut Checks) {
    let plan = TEXT;
    let table = [
        (format!("{plan}bad 0\nvalue 7\n"), "line 7 (bad 0): it is the source, which is good (cause 7)"),
        (format!("{plan}bad 1 300\nvalue 7\n"), "line 7 (bad 1 300): the terminals are 0 to 3 (cause 7)"),
        (format!("{plan}bad 1 2\nvalue 7\n"), "line 7 (bad 1 2): terminal 3 hears 1 and 2, both bad, and the bound is 1 (cause 8)"),
        (format!("{plan}bad none\nvalue 0\n"), "line 8 (value 0): layouts are 1 to 65535 (cause 9)"),
        (format!("{plan}rounds 3\nvalue 70000\n"), "line 8 (value 70000): layouts are 1 to 65535 (cause 9)"),
        (format!("{plan}value 7\n\nrounds 41\n"), "line 9 (rounds 41): 0 to 40 are allowed (cause 9)"),
        (format!("{RUN}rounds 3\nround 4: 1 says 9 to 3\n"), "line 10 (round 4: 1 says 9 to 3): the run has rounds 1 to 3 (cause 10)"),
        (format!("{RUN}round 3: 1 says 9 to 3\nround 4: 1 says 9 to 3\n"), "line 10 (round 4: 1 says 9 to 3): the run has rounds 1 to 3 (n-1, since none are given) (cause 10)"),
        (format!("{RUN}rounds 40\nround 40: 1 says 9 to 3\nround 41: 1 says 9 to 3\n"), "line 11 (round 41: 1 says 9 to 3): the run has rounds 1 to 40 (cause 10)"),
        (format!("{RUN}round 2: 1 says 9 to 2\n"), "line 9 (round 2: 1 says 9 to 2): 2 does not hear 1 (cause 10)"),
        (format!("{RUN}round 2: 1 says 9 to 3 3\n"), "line 9 (round 2: 1 says 9 to 3): line 9 has a word on this link in this round already (cause 11)"),
    ];
    for (text, why) in table {
        for word in ["run", "explain", "trace", "show", "draw"] {
            let done = checks.call_with(&[word], text.as_bytes());
            checks.tells(
                &format!("{word} of {text:?}"),
                &done,
                1,
                &format!("refused, {why}"),
            );
        }
    }
}

/// `show` of a text keeps what it has, in the fixed order; twice is the same.
fn shown_again(checks: &mut Checks) {
    let given = "terminals 4\nsource 0 # office\nbound 1\nat 3 120 80.50\nname 3 \"east # gate\"\n2 > 3\n3 > 1\n1 > 3\n0 > 2 1\nsite \"Pit\"\nround 3: 1 says 9 to 3\nvalue 7\nbad 1\nname 0 \"office\"\n";
    let wanted = "site \"Pit\"\nterminals 4\nsource 0\nbound 1\n0 > 1 2\n1 - 3\n2 > 3\nname 0 \"office\"\nname 3 \"east # gate\"\nat 3 120 80.50\nbad 1\nvalue 7\nround 3: 1 says 9 to 3\n";
    for text in [given, wanted] {
        let done = checks.call_with(&["show"], text.as_bytes());
        checks.ends("show of a text", &done, 0, wanted, "");
    }
    let nobody = format!("{TEXT}value 9\n");
    let done = checks.call_with(&["show"], nobody.as_bytes());
    let wanted = format!("{TEXT}bad none\nvalue 9\n");
    checks.ends("show of a run with nobody bad", &done, 0, &wanted, "");
    let given = format!("{TEXT}bad none\nvalue 9\nrounds 3\n");
    let done = checks.call_with(&["show"], given.as_bytes());
    checks.ends("show of a run with its rounds", &done, 0, &given, "");
}

/// Two of three links have their other direction: the third is warned of, and nothing else changes.
fn warnings(checks: &mut Checks) {
    let mostly = format!("{HEAD}0 - 1\n\n1 > 2\n");
    let warning =
        "hulmayek: warning: most links here are two-way, and these are not: 1 > 2 (line 6)\n";
    let done = checks.call_with(&["check"], mostly.as_bytes());
    checks.ends("one link of three is one-way", &done, 3, "fail\n", warning);
    for text in [
        format!("{HEAD}0 - 1\n1 > 2 3\n"),
        format!("{HEAD}0 - 1\n1 - 2\n"),
    ] {
        let done = checks.call_with(&["check"], text.as_bytes());
        checks.ends(
            &format!("nothing to warn of in {text:?}"),
            &done,
            3,
            "fail\n",
            "",
        );
    }
}

fn no_utf8(checks: &mut Checks) {
    let latin = [HEAD.as_bytes(), b"# T\xf6r\nname 1 \"T\xf6r\"\n"].concat();
    let done = checks.call_with(&["check"], &latin);
    let why = "line 5: expected a name in UTF-8; save the file so";
    checks.tells("a name in Latin-1", &done, 1, why);
    let long = format!("{TEXT}{}", "# a note of no use\n".repeat(60_000));
    let done = checks.call_with(&["check"], long.as_bytes());
    let why = "the text is longer than any plan with a run needs: 1 MiB is read";
    checks.tells("a text of more than 1 MiB", &done, 1, why);
    let wide = |units: &mut dyn Iterator<Item = [u8; 2]>| units.flatten().collect::<Vec<u8>>();
    let little = wide(&mut TEXT.encode_utf16().map(u16::to_le_bytes));
    let big = wide(&mut TEXT.encode_utf16().map(u16::to_be_bytes));
    let marked = [&b"\xff\xfe"[..], &little].concat();
    let why = "the file is UTF-16 text (in Windows 'Unicode'); save it as UTF-8";
    for bytes in [&little, &big, &marked] {
        for word in ["check", "verdict", "explain"] {
            let done = checks.call_with(&[word], bytes);
            checks.tells(&format!("{word} of UTF-16"), &done, 1, why);
        }
    }
}
