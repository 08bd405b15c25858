//! Margins for the fitter (document 02, P1): what `margins` prints, and where `explain` and `draw` have
//! it. Answers are worked out by hand, or by trying every bad set (bad_sets.rs).

use crate::bad_sets::{heading, Site, ALL_DIRECT};
use crate::bounded;
use crate::checks::{lines, read, Checks};
use crate::margin_pictures;
use crate::plans::files_in;

pub fn check(checks: &mut Checks) {
    for (text, table) in TEXTS {
        bounded::printed(checks, "margins", text, table);
    }
    two_digits(checks);
    bounded::drawings(checks, "margins", &DRAWINGS);
    committed_plans(checks);
    other_plans(checks);
    bounded::heads(checks, "margins", &HEADS);
    with_groups(checks);
    refused_texts(checks);
    with_a_run(checks);
    checks.many_files(&FILES, &MANY);
    for (text, told) in EXPLAINED {
        explained(checks, text, told);
    }
    margin_pictures::check(checks);
}

/// `verdict` refuses these frames so: and `margins` too, or by the head.
pub fn refuses(checks: &mut Checks, frames: &[&str], by_verdict: &str) {
    let Some(wanted) = bounded::refusal(frames, by_verdict) else {
        return;
    };
    let done = checks.call_with(&["margins"], lines(frames).as_bytes());
    let label = format!("margins of {frames:?}");
    checks.ends(&label, &done, 1, &format!("{wanted}\n"), "");
}

/// In the third nobody hears the source. In the fourth 2 hears 0 alone, which may be bad. In the fifth
/// none that 4 or 5 hears may be, in the last one that 5 hears.
const TEXTS: [(&str, &[&str]); 6] = [
    (
        "terminals 2\nsource 1\nbound 1\n1 > 0\n",
        &["0 direct", "1 0 0 0"],
    ),
    (
        "terminals 3\nsource 2\nbound 0\n2 > 0\n0 > 1\n",
        &["0 direct", "1 0", "1 0 1 0"],
    ),
    (
        "terminals 3\nsource 1\nbound 0\n0 - 2\n",
        &["0 -1", "2 -1", "0 2 0 0"],
    ),
    (
        "terminals 3\nsource 1\nbound 2\n1 > 0\n0 > 2\n",
        &["0 direct", "2 -3", "1 1 0 0"],
    ),
    (
        "terminals 6\nsource 0\nbound 0\n0 > 1 2 3\n1 > 4\n2 > 4\n3 > 4\n4 > 5\n1 > 5\n",
        &["1 direct", "2 direct", "3 direct", "4 2", "5 1", "3 0 0 2"],
    ),
    (
        "terminals 6\nsource 0\nbound 1\n0 > 1 2 3 4\n1 > 5\n2 > 5\n3 > 5\n4 > 5\n",
        &[
            "1 direct", "2 direct", "3 direct", "4 direct", "5 1", "4 0 0 1",
        ],
    ),
];

/// The most and the least that there is. 1 to 18 hear the source: with bound 0 none that 19 hears is
/// bad, and 18 voices are 17 beyond one; with bound 19 all of them may be, and 20 would be needed.
fn two_digits(checks: &mut Checks) {
    let source: String = (1..19).map(|to| format!(" {to}")).collect();
    let voices: String = (1..19).map(|from| format!("{from} > 19\n")).collect();
    for (bound, margin, counts) in [(0, 17, "18 0 0 1"), (19, -20, "18 1 0 0")] {
        let text = format!("terminals 20\nsource 0\nbound {bound}\n0 >{source}\n{voices}");
        let mut table: Vec<String> = (1..19).map(|one| format!("{one} direct")).collect();
        table.extend([format!("19 {margin}"), counts.to_string()]);
        let table: Vec<&str> = table.iter().map(String::as_str).collect();
        bounded::printed(checks, "margins", &text, &table);
    }
}

/// Document 01's drawings; the least that 4 hears in G is one voice of three needed.
const DRAWINGS: [(&str, &str, i32); 10] = [
    ("a", "1 direct|1 0 0 0", 0),
    ("b", "ff0f0000", 1),
    ("c", "1 direct|2 0|1 0 1 0", 0),
    ("d", "1 direct|2 -2|1 1 0 0", 0),
    ("e", "1 direct|2 direct|3 -1|2 1 0 0", 0),
    ("f", "1 direct|2 direct|3 direct|4 0|3 0 1 0", 0),
    ("g", "1 direct|2 direct|3 direct|4 -2|3 1 0 0", 0),
    (
        "h",
        "1 direct|2 direct|3 direct|4 direct|5 -1|6 -1|4 2 0 0",
        0,
    ),
    (
        "i",
        "1 direct|2 direct|3 direct|4 direct|5 0|6 0|4 0 2 0",
        0,
    ),
    ("j", "ff040001", 1),
];

/// Those with a bound, and two of 20 terminals. A plan passes where none is below zero, and only there.
fn committed_plans(checks: &mut Checks) {
    let mut tried = 0;
    let mut files = files_in(checks, &["plans"]);
    files.extend(["B01", "B16"].map(|name| format!("plans/bench/{name}.hex")));
    for file in files.iter().filter(|file| file.ends_with(".hex")) {
        let verdict = checks.call(&["verdict", file]);
        let frames = read(&checks.top.join(file));
        if verdict.status != 0 || &frames[6..8] == "ff" {
            continue;
        }
        let site = Site::of(&frames);
        // What a text may have meant otherwise is said too, as by the other words.
        for form in [file.clone(), file.replace(".hex", ".txt")] {
            if checks.top.join(&form).exists() {
                let done = checks.call(&["margins", &form]);
                let label = format!("margins of {form}");
                checks.same(&label, &site.table(), &done.out);
                checks.same(&format!("{label}: status"), "0", &done.status.to_string());
            }
        }
        let below = site.margins().values().flatten().any(|one| *one < 0);
        let fails = verdict.out.starts_with("8101");
        checks.holds(
            &format!("{file} fails by a margin below zero"),
            below == fails,
        );
        tried += 1;
    }
    checks.holds("plans with margins", tried >= 14);
}

/// Plans of five to seven terminals, in which each other than the source hears one or more.
fn other_plans(checks: &mut Checks) {
    let mut below = bounded::numbers(1);
    for _ in 0..40 {
        let (n, bound) = (5 + below(3), below(3));
        let source = below(n);
        let mut frames = vec![format!("01{n:02x}{source:02x}{bound:02x}")];
        for hearer in 0..n {
            let sure = (hearer + 1 + below(n - 1)) % n;
            for from in (0..n).filter(|from| *from != hearer) {
                if from == sure || below(5) < 2 {
                    frames.push(format!("02{from:02x}{hearer:02x}"));
                }
            }
        }
        let frames = lines(&frames);
        let done = checks.call_with(&["margins"], frames.as_bytes());
        let wanted = Site::of(&frames).table();
        checks.ends(&format!("margins of {frames:?}"), &done, 0, &wanted, "");
    }
}

/// A head alone: all others than the source hear nobody, or it has ff.
const HEADS: [(&str, &str); 11] = [
    ("01000000", "ff040001"),
    ("01010000", "ff040001"),
    ("01020000", "ff0f0000"),
    ("010200ff", "ff040001"),
    ("010202ff", "ff040001"),
    ("010200fe", "ff040001"),
    ("01020002", "ff040001"),
    ("01140013", "ff0f0000"),
    ("011413ff", "ff040001"),
    ("01150000", "ff040001"),
    ("0102ff", "ff020001"),
];

const NO_BOUND: &str = "margins are for a plan with a bound, and this one lists groups (cause 4)";

/// Refused by its head, whatever stands under it; in a text, in the line of the first group. The other
/// words have nothing of margins there.
fn with_groups(checks: &mut Checks) {
    for frames in bounded::under_groups() {
        refuses(checks, &frames, "ff000000");
    }
    let done = checks.call(&["margins", "plans/supplies.hex"]);
    checks.ends("margins of groups", &done, 1, "ff040001\n", "");
    let table = [
        (
            "source 0\ngroup 1\nterminals 2\n0 > 1\ngroup none\n",
            "line 2 (group 1)",
        ),
        (
            "terminals 2\nsource 0\ngroup 9\n0 > 1\nbad 1\nvalue 7\n",
            "line 3 (group 9)",
        ),
    ];
    for (text, place) in table {
        let told = format!("refused, {place}: {NO_BOUND}");
        bounded::refused(checks, &["margins"], text, &told);
    }
    bounded::silent(
        checks,
        &["explain", "draw"],
        "plans/supplies.txt",
        &["margin"],
    );
}

/// The causes of the head come before ff's.
fn refused_texts(checks: &mut Checks) {
    let table = [
        (
            "terminals 21\nsource 0\ngroup 1\n",
            "line 1 (terminals 21): 2 to 20 terminals are allowed (cause 4)",
        ),
        (
            "terminals 4\ngroup 1\nsource 4\n",
            "line 3 (source 4): 0 to 3 are allowed for 4 terminals (cause 4)",
        ),
        (
            "terminals 4\nsource 0\nbound 300\n",
            "line 3 (bound 300): 0 to 3 are allowed for 4 terminals (cause 4)",
        ),
        (
            "terminals 4\nsource 0\nbound 1\n0 > 1 1\n",
            "line 4 (0 > 1): line 4 has this link already (cause 6)",
        ),
        (
            "terminals 2\nsource 0\nbound 1\n",
            "the whole file: terminal 1 hears nobody; a new plan must have no such terminal, and './hulmayek archive FILE' opens a plan that is on file already (cause 15)",
        ),
    ];
    for (text, why) in table {
        let told = format!("refused, {why}");
        bounded::refused(checks, &["margins"], text, &told);
    }
}

/// As for `verdict`.
fn with_a_run(checks: &mut Checks) {
    let of_h = DRAWINGS[7].1.replace('|', "\n") + "\n";
    bounded::with_a_run(checks, "margins", &of_h);
    bounded::silent(
        checks,
        &["explain", "draw"],
        "runs/silence.txt",
        &["margin"],
    );
}

/// The names that a row's words and lines stand for.
const FILES: [(&str, &str); 5] = [
    ("chain", "01030000\n020001\n020102\n"),
    ("short", "terminals 3\nsource 0\nbound 1\n0 > 1\n1 > 2\n"),
    ("groups", "010200ff\n020001\n07000000\n"),
    ("group text", "terminals 2\nsource 0\ngroup 1\n0 > 1\n"),
    ("deaf", "01020000\n"),
];

/// Words, status and lines, without the folder of the files.
const MANY: [(&[&str], i32, &[&str]); 4] = [
    (
        &["margins", "chain", "short"],
        0,
        &[
            "chain: 1 direct, 2 0, 1 0 1 0",
            "short: 1 direct, 2 -2, 1 1 0 0",
        ],
    ),
    (
        &["margins", "groups", "chain", "deaf"],
        1,
        &[
            "groups: ff040001",
            "chain: 1 direct, 2 0, 1 0 1 0",
            "deaf: ff0f0000",
        ],
    ),
    (
        &["margins", "group text", "short"],
        1,
        &[
            "group text: refused, line 3 (group 1): margins are for a plan with a bound, and this one lists groups (cause 4)",
            "short: 1 direct, 2 -2, 1 1 0 0",
        ],
    ),
    (
        &["margins", "nowhere", "groups", "chain"],
        2,
        &[
            "nowhere: there is no file 'nowhere'",
            "groups: ff040001",
            "chain: 1 direct, 2 0, 1 0 1 0",
        ],
    ),
];

/// In the first 5 hears four who hear the source, and 6 three of them: one may be bad. 7 hears 5 and
/// 6, who always have the notice, and one of them may be bad. The heading is left out.
pub const EXPLAINED: [(&str, &[&str]); 3] = [
    (
        "terminals 8\nsource 0\nbound 1\n0 > 1 2 3 4\n1 > 5 6\n2 > 5 6\n3 > 5 6\n4 > 5\n5 > 7\n6 > 7\nname 6 \"gate\"\nname 1 \"yard\"\n",
        &[
            "terminal 7: -1, can be kept waiting",
            "terminal 6 (gate): 0, just enough",
            "terminal 5: 1, 1 more than it needs",
            "hear the source (direct): 1 (yard), 2, 3, 4",
        ],
    ),
    // 0 and 2 are as thin as each other, and nobody hears the source.
    (
        "terminals 3\nsource 1\nbound 1\n0 - 2\n",
        &[
            "terminal 0: -2, can be kept waiting",
            "terminal 2: -2, can be kept waiting",
        ],
    ),
    ("terminals 3\nsource 1\nbound 1\n1 > 0 2\n", &[ALL_DIRECT]),
];

/// The last lines, under what the verdict has.
fn explained(checks: &mut Checks, text: &str, told: &[&str]) {
    let mut wanted = lines(told);
    if told != [ALL_DIRECT] {
        wanted = heading(2) + &wanted;
    }
    let done = checks.call_with(&["explain"], text.as_bytes());
    let from = done.out.find("margins").unwrap_or(0);
    checks.same(
        &format!("margins in explain of {text:?}"),
        &wanted,
        &done.out[from..],
    );
    checks.same("explain: status", "0", &done.status.to_string());
}
