//! The fail in sentences (document 02, P9): what `sentence` prints, where `explain` has it, and that
//! `heard` turns each back into the frame of `verdict`. Sentences are written by hand, or composed
//! from that frame (composer.rs).

use crate::bounded;
use crate::checks::{lines, read, Checks};
use crate::composer::{opening, sentence_of};
use crate::plans::files_in;
use crate::quote::terminals_of;

pub fn check(checks: &mut Checks) {
    bounded::drawings(checks, "sentence", &DRAWINGS);
    for (name, wanted) in SITES {
        site(checks, name, wanted);
    }
    for (text, wanted) in TEXTS {
        bounded::printed(checks, "sentence", text, &[wanted]);
    }
    largest(checks);
    committed_plans(checks);
    other_plans(checks);
    bounded::heads(checks, "sentence", &HEADS);
    for (text, told) in REFUSED {
        bounded::refused(checks, &["sentence", "verdict"], text, told);
    }
    bounded::with_a_run(checks, "sentence", &lines(&[OF_H]));
    checks.many_files(&FILES, &MANY);
    explained(checks);
}

const OF_H: &str = "If 1 and 3 stay silent, 5 and 6 never get the notice.";

/// `sentence` refuses what `verdict` refuses; of all other frames it has the sentence, or `pass`.
pub fn like_verdict(checks: &mut Checks, frames: &[&str]) {
    let input = lines(frames);
    let judged = checks.call_with(&["verdict"], input.as_bytes());
    let wanted = match judged.out.starts_with("ff") {
        true => judged.out,
        false => sentence_of(&judged.out) + "\n",
    };
    let done = checks.call_with(&["sentence"], input.as_bytes());
    let label = format!("sentence of {frames:?}");
    checks.ends(&label, &done, judged.status, &wanted, "");
}

/// Document 01's, by its own sets.
const DRAWINGS: [(&str, &str, i32); 10] = [
    ("a", "pass", 0),
    ("b", "ff0f0000", 1),
    ("c", "pass", 0),
    ("d", "Even if all work, 2 never gets the notice.", 0),
    ("e", "If 1 stays silent, 3 never gets the notice.", 0),
    ("f", "pass", 0),
    ("g", "If 1 stays silent, 4 never gets the notice.", 0),
    ("h", OF_H, 0),
    ("i", "pass", 0),
    ("j", "ff040001", 1),
];

/// By the sets that plans.rs and groups.rs have of them. The port's source is not 0.
const SITES: [(&str, &str); 7] = [
    ("grain", "pass"),
    (
        "pit",
        "If 2 stays silent, 4, 5, 6, 7, 8, 9 and 10 never get the notice.",
    ),
    (
        "port",
        "If 0 and 5 stay silent, 6, 7, 8, 9, 10 and 11 never get the notice.",
    ),
    (
        "quarry",
        "If 6 stays silent, 8, 9, 10 and 11 never get the notice.",
    ),
    ("f-groups", "If 3 stays silent, 4 never gets the notice."),
    ("f-apart", "pass"),
    ("supplies", "If 4 stays silent, 7 never gets the notice."),
];

fn site(checks: &mut Checks, name: &str, wanted: &str) {
    for form in ["txt", "hex"] {
        let file = format!("plans/{name}.{form}");
        let done = checks.call(&["sentence", &file]);
        let label = format!("sentence of {file}");
        checks.same(&label, &format!("{wanted}\n"), &done.out);
        checks.same(&format!("{label}: status"), "0", &done.status.to_string());
    }
}

/// In the first nobody hears the source. In the third 3 and 4 hear 1 and 2, of whom one may be bad.
/// The fourth is drawing H with other numbers. In the fifth each of 7, 8 and 9 hears a pair of those
/// who hear the source, and the two others: one of each pair has to be bad. In the last 3 hears 1 and
/// 2 alone, who are one group.
const TEXTS: [(&str, &str); 7] = [
    (
        "terminals 3\nsource 1\nbound 0\n0 - 2\n",
        "Even if all work, 0 and 2 never get the notice.",
    ),
    ("terminals 2\nsource 1\nbound 1\n1 > 0\n", "pass"),
    (
        "terminals 5\nsource 0\nbound 1\n0 > 1 2\n1 > 3 4\n2 > 3 4\n",
        "If 1 stays silent, 3 and 4 never get the notice.",
    ),
    (
        "terminals 7\nsource 6\nbound 1\n6 > 0 1 2 3\n0 > 4\n1 > 4\n2 > 5\n3 > 5\n4 - 5\n",
        "If 0 and 2 stay silent, 4 and 5 never get the notice.",
    ),
    (
        "terminals 10\nsource 0\nbound 1\n0 > 1 2 3 4 5 6\n1 > 7\n2 > 7\n3 > 8\n4 > 8\n5 > 9\n6 > 9\n7 - 8 9\n8 - 9\n",
        "If 1, 3 and 5 stay silent, 7, 8 and 9 never get the notice.",
    ),
    (
        "terminals 4\nsource 0\nbound 1\n0 > 1\n1 > 2\n2 > 3\n",
        "Even if all work, 2 and 3 never get the notice.",
    ),
    (
        "terminals 4\nsource 0\ngroup 1 2\n0 > 1 2\n1 > 3\n2 > 3\n",
        "Even if all work, 3 never gets the notice.",
    ),
];

/// The source and a row of nineteen, each hearing the one before it: one voice is not enough for
/// bound 1, and where 17 alone may be bad it is not for 18.
fn largest(checks: &mut Checks) {
    let links: String = (1..20).map(|to| format!("{} > {to}\n", to - 1)).collect();
    let table = [
        (
            "bound 1",
            "Even if all work, 2, 3, 4, 5, 6, 7, 8, 9, 10, 11, 12, 13, 14, 15, 16, 17, 18 and 19 never get the notice.",
        ),
        (
            "group 17",
            "Even if all work, 18 and 19 never get the notice.",
        ),
        ("group none", "pass"),
        ("bound 0", "pass"),
    ];
    for (limit, wanted) in table {
        let text = format!("terminals 20\nsource 0\n{limit}\n{links}");
        bounded::printed(checks, "sentence", &text, &[wanted]);
    }
}

/// Of a plan that `verdict` answers so: the sentence, and `heard` of it, as a word and as input.
fn there_and_back(checks: &mut Checks, label: &str, terminals: u8, frame: &str, printed: &str) {
    let wanted = sentence_of(frame);
    checks.same(
        &format!("sentence of {label}"),
        &format!("{wanted}\n"),
        printed,
    );
    if wanted == "pass" {
        return;
    }
    let terminals = terminals.to_string();
    let done = checks.call(&["heard", &terminals, &wanted]);
    checks.ends(&format!("heard of {label}"), &done, 0, frame, "");
    let done = checks.call_with(&["heard", &terminals], printed.as_bytes());
    checks.ends(&format!("heard of {label}, piped"), &done, 0, frame, "");
}

/// All that are committed, in both forms; a text with a run is judged by its plan, and what `verdict`
/// refuses is refused with the same words.
fn committed_plans(checks: &mut Checks) {
    let folders = [
        "plans",
        "plans/bench",
        "plans/bench/groups",
        "plans/bench/quote",
        "plans/bench/margins",
        "plans/runs",
        "runs",
    ];
    let mut failing = 0;
    for file in files_in(checks, &folders) {
        let judged = checks.call(&["verdict", &file]);
        let told = checks.call(&["sentence", &file]);
        if judged.status != 0 {
            let label = format!("sentence of {file}");
            checks.ends(&label, &told, judged.status, &judged.out, &judged.err);
            continue;
        }
        let terminals = terminals_of(&read(&checks.top.join(&file)));
        there_and_back(checks, &file, terminals, &judged.out, &told.out);
        failing += usize::from(judged.out.starts_with("8101"));
    }
    checks.holds("plans that fail", failing >= 20);
}

/// Plans of four to thirteen terminals, every third with groups, in which everybody hears somebody.
fn other_plans(checks: &mut Checks) {
    let mut below = bounded::numbers(9);
    for turn in 0..60 {
        let n = 4 + below(10);
        let (source, bound, many) = (below(n), below(3), 1 + below(4));
        let limit = if turn % 3 == 0 { 0xff } else { bound };
        let mut frames = vec![format!("01{n:02x}{source:02x}{limit:02x}")];
        for hearer in (0..n).filter(|hearer| *hearer != source) {
            let surely = (hearer + 1 + below(n - 1)) % n;
            for from in (0..n).filter(|from| *from != hearer) {
                if below(8) < many || from == surely {
                    frames.push(format!("02{from:02x}{hearer:02x}"));
                }
            }
        }
        if limit == 0xff {
            for _ in 0..2 + bound {
                let group = below(1 << n) & !(1 << source);
                frames.push(format!("07{group:06x}"));
            }
        }
        let frames = lines(&frames);
        let frame = checks.call_with(&["verdict"], frames.as_bytes()).out;
        let told = checks.call_with(&["sentence"], frames.as_bytes());
        there_and_back(checks, &format!("{frames:?}"), n as u8, &frame, &told.out);
    }
}

/// A head alone: all others than the source hear nobody, or it lists no group.
const HEADS: [(&str, &str); 9] = [
    ("01010000", "ff040001"),
    ("01020000", "ff0f0000"),
    ("01020002", "ff040001"),
    ("010200ff", "ff110000"),
    ("010202ff", "ff040001"),
    ("01140013", "ff0f0000"),
    ("01150000", "ff040001"),
    ("0102ff", "ff020001"),
    ("020001", "ff030001"),
];

/// As for `verdict`, word for word.
const REFUSED: [(&str, &str); 7] = [
    (
        "terminals 21\nsource 0\nbound 1\n",
        "refused, line 1 (terminals 21): 2 to 20 terminals are allowed (cause 4)",
    ),
    (
        "terminals 4\nsource 0\nbound 4\n",
        "refused, line 3 (bound 4): 0 to 3 are allowed for 4 terminals (cause 4)",
    ),
    (
        "terminals 4\nsource 0\nbound 1\n0 > 1\n2 > 1 4\n",
        "refused, line 5 (2 > 4): the terminals are 0 to 3 (cause 5)",
    ),
    (
        "terminals 4\nsource 0\nbound 1\n0 > 1 1\n",
        "refused, line 4 (0 > 1): line 4 has this link already (cause 6)",
    ),
    (
        "terminals 3\nsource 0\nbound 1\n0 > 1\nname 2 \"gate\"\n",
        "refused, the whole file: terminal 2 hears nobody; a new plan must have no such terminal, and './hulmayek archive FILE' opens a plan that is on file already (cause 15)",
    ),
    (
        "terminals 3\nsource 0\ngroup 0\n0 > 1 2\n",
        "refused, line 3 (group 0): 0 is the source, which is good: no group has it (cause 17)",
    ),
    (
        "terminals 3\nsource 0\n0 > 1 2\n",
        "line 3: expected 'bound NUMBER' or 'group TERMINAL..' before the first link",
    ),
];

/// The names that a row's words and lines stand for.
const FILES: [(&str, &str); 5] = [
    ("chain", "01030001\n020001\n020102\n"),
    (
        "chain text",
        "terminals 3\nsource 0\nbound 0\n0 > 1\n1 > 2\n",
    ),
    (
        "groups",
        "010400ff\n020001\n020002\n020103\n020203\n07000002\n07000004\n",
    ),
    ("deaf", "01020000\n"),
    ("deaf text", "terminals 2\nsource 0\nbound 0\n"),
];

/// Words, status and lines, without the folder of the files.
const MANY: [(&[&str], i32, &[&str]); 3] = [
    (
        &["sentence", "chain", "chain text", "groups"],
        0,
        &[
            "chain: Even if all work, 2 never gets the notice.",
            "chain text: pass",
            "groups: If 1 stays silent, 3 never gets the notice.",
        ],
    ),
    (
        &["sentence", "deaf", "groups", "deaf text"],
        1,
        &[
            "deaf: ff0f0000",
            "groups: If 1 stays silent, 3 never gets the notice.",
            "deaf text: refused, the whole file: terminal 1 hears nobody; a new plan must have no such terminal, and './hulmayek archive FILE' opens a plan that is on file already (cause 15)",
        ],
    ),
    (
        &["sentence", "nowhere", "chain", "deaf"],
        2,
        &[
            "nowhere: there is no file 'nowhere'",
            "chain: Even if all work, 2 never gets the notice.",
            "deaf: ff0f0000",
        ],
    ),
];

/// The first line of a fail, once, and the frame under it; names are for the lines under that. Of a
/// pass, a run, a refused file and a plan for the archive there is none. plans.rs and groups.rs have
/// the rest.
fn explained(checks: &mut Checks) {
    let named =
        "terminals 4\nsource 0\nbound 1\n0 > 1 2\n1 > 3\n2 > 3\nname 1 \"yard\"\nname 3 \"gate\"\n";
    let done = checks.call_with(&["explain"], named.as_bytes());
    let over = lines(&[
        "If 1 stays silent, 3 never gets the notice.",
        "8101000002000005000008",
    ]);
    checks.holds("explain opens", done.out.starts_with(&over));
    for text in TEXTS.map(|(text, _)| text).iter().chain([&named]) {
        let done = checks.call_with(&["explain"], text.as_bytes());
        let frame = checks.call_with(&["verdict"], text.as_bytes()).out;
        let wanted = opening(&frame) + &frame;
        let start = done.out.get(..wanted.len()).unwrap_or_default();
        checks.same(&format!("explain of {text:?} opens"), &wanted, start);
        let said = done.out.matches("the notice.").count();
        let once = usize::from(frame.starts_with("8101"));
        checks.same("once", &once.to_string(), &said.to_string());
    }
    for file in [
        "plans/b.txt",
        "plans/b.hex",
        "plans/j.hex",
        "runs/silence.txt",
    ] {
        let done = checks.call(&["explain", file]);
        let none = !done.out.is_empty() && !done.out.contains("the notice.");
        checks.holds(&format!("explain of {file} has no sentence"), none);
    }
    bounded::silent(checks, &["draw"], "plans/h.txt", &["the notice."]);
}
