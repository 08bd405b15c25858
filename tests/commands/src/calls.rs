//! Help, version, wrong calls, and output that cannot be written.

use crate::checks::{done, read, Checks};
use std::process::Command;

const WORDS: [&str; 19] = [
    "check", "explain", "sentence", "heard", "draw", "mend", "with-bad", "greatest", "links",
    "trace", "verdict", "archive", "quote", "margins", "run", "show", "plan", "rewrite", "test",
];
const ONE_FILE: [&str; 8] = [
    "explain", "draw", "mend", "links", "trace", "show", "plan", "rewrite",
];
/// heard.rs has the wrong calls of the first.
const NO_FILE: [&str; 2] = ["heard", "test"];

pub fn check(checks: &mut Checks) {
    help(checks);
    wrong_calls(checks);
    unwritable_output(checks);
}

fn help(checks: &mut Checks) {
    let page = checks.call(&["help"]);
    checks.same("help: status", "0", &page.status.to_string());
    checks.holds("help: at most 24 lines", page.out.lines().count() <= 24);
    for words in [vec!["--help"], vec!["-h"], vec!["help", "--help"]] {
        let same = checks.call(&words);
        checks.ends(&format!("{words:?}"), &same, 0, &page.out, "");
    }
    for word in WORDS {
        let named = format!("  ./hulmayek {word} ");
        let lines = page.out.lines().filter(|line| line.starts_with(&named));
        checks.same(
            &format!("help names {word}"),
            "1",
            &lines.count().to_string(),
        );
        help_on(checks, word);
    }
    for topic in ["frames", "text", "main"].into_iter().chain(WORDS) {
        let page = read(&checks.top.join(format!("docs/help/{topic}.txt")));
        let wide = page.lines().find(|line| line.chars().count() > 81);
        checks.same(
            &format!("help {topic}: wide lines"),
            "",
            wide.unwrap_or_default(),
        );
    }
    frames_page(checks);
    let version = checks.call(&["--version"]);
    checks.ends("--version", &version, 0, "hulmayek 0.2.0\n", "");
}

/// The same page by each of the three ways to ask for it.
fn help_on(checks: &mut Checks, word: &str) {
    let own = checks.call(&[word, "--help"]);
    checks.same(
        &format!("{word} --help: status"),
        "0",
        &own.status.to_string(),
    );
    let first = own.out.lines().next().unwrap_or_default();
    let starts = first.starts_with(&format!("./hulmayek {word}"));
    checks.holds(&format!("{word} --help is about {word}"), starts);
    let after_file = checks.call(&[word, "x", "-h"]);
    checks.ends(&format!("{word} x -h"), &after_file, 0, &own.out, "");
    let by_help = checks.call(&["help", word]);
    checks.ends(&format!("help {word}"), &by_help, 0, &own.out, "");
}

/// Document 01's table of kinds and its limits, and document 02's groups, editions and further causes.
fn frames_page(checks: &mut Checks) {
    let page = checks.call(&["help", "frames"]).out;
    for words in [
        "01    n, source, f ",
        "02    from, to ",
        "03    set (3) ",
        "04    value (2), rounds (1) ",
        "05    round, from, to, value (2) ",
        "24,576",
        "high byte",
        "07    set (3) ",
        "04    edition (2), layout (2), ",
        "08    round, edition (2), ",
        "05    round, from, to, ",
        " 14 n above 12",
        " 15 a terminal",
        " 16 edition 0 in 04 or 08",
        " 17 a seventeenth group",
    ] {
        checks.holds(&format!("help frames has {words:?}"), page.contains(words));
    }
}

/// Calls that no file can mend.
const WRONG: [(&[&str], &str); 20] = [
    (
        &["mend", "--calls=x", "plans/a.txt"],
        "'--calls=x' has no number after the '='",
    ),
    (
        &["trace", "--csv=1", "plans/a.txt"],
        "'trace' has no option '--csv=1'",
    ),
    (
        &["judge"],
        "unknown word 'judge'; './hulmayek help' lists the words",
    ),
    (
        &["help", "judge"],
        "there is no help on 'judge'; './hulmayek help' lists the words",
    ),
    (
        &["help", "a", "b"],
        "'help' takes one word after it, and 2 were given",
    ),
    (&["--version", "2"], "'--version' takes nothing after it"),
    (&["test", "me"], "'test' takes nothing after it"),
    (
        &["draw", "--csv", "plans/a.txt"],
        "'draw' has no option '--csv'",
    ),
    (&["verdict", "--mend"], "'verdict' has no option '--mend'"),
    (&["archive", "--csv"], "'archive' has no option '--csv'"),
    (&["quote", "--mend"], "'quote' has no option '--mend'"),
    (&["sentence", "--mend"], "'sentence' has no option '--mend'"),
    (
        &["sentences", "plans/a.txt"],
        "unknown word 'sentences'; './hulmayek help' lists the words",
    ),
    (&["margins", "--csv"], "'margins' has no option '--csv'"),
    (&["greatest", "--mend"], "'greatest' has no option '--mend'"),
    (&["links", "--calls=9"], "'links' has no option '--calls=9'"),
    (
        &["link", "plans/a.txt"],
        "unknown word 'link'; './hulmayek help' lists the words",
    ),
    (
        &["margin", "plans/a.txt"],
        "unknown word 'margin'; './hulmayek help' lists the words",
    ),
    (
        &["with-bad", "plans/a.txt"],
        "'with-bad' wants a file and terminals, as in: with-bad FILE 4 7",
    ),
    (
        &["with-bad", "plans/a.txt", "x"],
        "'x' is no terminal: they are 0 to 19 at most",
    ),
];

fn wrong_calls(checks: &mut Checks) {
    let none = checks.call(&[]);
    checks.same(
        "no word: status and output",
        "2 ",
        &format!("{} {}", none.status, none.out),
    );
    for (words, why) in WRONG {
        let done = checks.call(words);
        checks.tells(&format!("{words:?}"), &done, 2, why);
    }
    for word in ONE_FILE {
        let done = checks.call(&[word, "a", "b"]);
        let why = format!("'{word}' takes one file, and 2 were given");
        checks.tells(&format!("{word} of two files"), &done, 2, &why);
    }
    let of_files = WORDS.into_iter().filter(|word| !NO_FILE.contains(word));
    for word in of_files {
        wrong_files(checks, word);
    }
}

fn wrong_files(checks: &mut Checks, word: &str) {
    let more: &[&str] = if word == "with-bad" { &["1"] } else { &[] };
    let room = checks.room.display().to_string();
    let missing = format!("{room}/not there");
    let table = [
        (missing.as_str(), format!("there is no file '{missing}'")),
        ("", "there is no file ''".to_string()),
        (room.as_str(), format!("'{room}' is a folder, not a file")),
    ];
    for (file, why) in table {
        let done = checks.call(&[&[word, file], more].concat());
        checks.tells(&format!("{word} of '{file}'"), &done, 2, &why);
    }
}

/// A full disk, an output that is closed, a name that is no text: never status 0, and one line of why.
fn unwritable_output(checks: &mut Checks) {
    let full = "the answer could not be written: No space left on device (os error 28)";
    let closed = "standard output is closed, so there is nowhere to print an answer";
    let page = "the help page 'main' could not be printed";
    let bytes = "\"a\\xFFb\" is not UTF-8, as names must be";
    let table = [
        ("check $'a\\xffb'", bytes),
        ("verdict plans/h.hex >/dev/full", full),
        ("archive plans/b.hex >/dev/full", full),
        ("quote plans/h.hex >/dev/full", full),
        ("sentence plans/h.hex >/dev/full", full),
        (
            "heard 2 'Even if all work, 1 never gets the notice.' >/dev/full",
            full,
        ),
        ("margins plans/h.hex >/dev/full", full),
        ("greatest plans/h.hex >/dev/full", full),
        ("links plans/h.hex >/dev/full", full),
        ("explain plans/h.txt >/dev/full", full),
        ("check plans/a.txt >/dev/full", full),
        ("draw plans/h.txt >/dev/full", full),
        ("help >/dev/full", page),
        ("--version >/dev/full", "the version could not be printed"),
        ("verdict plans/h.hex >&-", closed),
        ("quote plans/h.hex >&-", closed),
        ("sentence plans/h.hex >&-", closed),
        ("heard 2 x >&-", closed),
        ("margins plans/h.hex >&-", closed),
        ("greatest plans/h.hex >&-", closed),
        ("links plans/h.hex >&-", closed),
        ("check plans/a.txt >&-", closed),
        ("help >&-", closed),
    ];
    for (words, why) in table {
        let mut command = Command::new("bash");
        let script = format!("./hulmayek {words}");
        command.args(["-c", &script]).current_dir(&checks.top);
        let done = done(command, b"");
        checks.tells(words, &done, 2, why);
    }
}
