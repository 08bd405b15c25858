//! How much one link can cost (document 02, P13): what `greatest` and `links` print, and where `explain`
//! and `draw` have it. Answers are worked out by hand, or by trying every bad set (bad_sets.rs).

use crate::bad_sets::{greatest_told, Greatest, Site};
use crate::bounded;
use crate::checks::{lines, read, Checks};
use crate::cost_pictures;
use crate::plans::files_in;

pub fn check(checks: &mut Checks) {
    for (text, wanted) in TEXTS {
        bounded::printed(checks, "greatest", text, &[wanted]);
    }
    two_digits(checks);
    bounded::drawings(checks, "greatest", &DRAWINGS);
    own_bound(checks);
    for (text, wanted) in LINKS {
        links(checks, text, wanted);
    }
    committed_plans(checks);
    other_plans(checks);
    bounded::heads(checks, "greatest", &HEADS);
    with_groups(checks);
    refused_texts(checks);
    without_bound(checks);
    with_a_run(checks);
    checks.many_files(&FILES, &MANY);
    explained(checks);
    cost_pictures::check(checks);
}

/// `greatest` refuses what `archive` refuses, and a right head with ff; of all other frames it has an
/// answer, deaf terminals or not.
pub fn like_archive(checks: &mut Checks, frames: &[&str]) {
    let input = lines(frames);
    let by_archive = checks.call_with(&["archive"], input.as_bytes()).out;
    let (status, wanted) = match bounded::refusal(frames, by_archive.trim_end()) {
        Some(refused) => (1, refused),
        None => (0, named(Site::of(&input).greatest())),
    };
    let done = checks.call_with(&["greatest"], input.as_bytes());
    let label = format!("greatest of {frames:?}");
    checks.ends(&label, &done, status, &format!("{wanted}\n"), "");
}

fn named(greatest: Greatest) -> String {
    greatest.map_or("none".into(), |bound| bound.to_string())
}

/// In the third nobody hears the source, and in the fourth 1 hears nobody. In the fifth one of those
/// that 4 hears may be bad, and in the sixth two of five.
const TEXTS: [(&str, &str); 6] = [
    ("terminals 2\nsource 1\nbound 0\n1 > 0\n", "1"),
    ("terminals 3\nsource 2\nbound 2\n2 > 0\n0 > 1\n", "0"),
    ("terminals 3\nsource 1\nbound 0\n0 - 2\n", "none"),
    ("terminals 3\nsource 0\nbound 1\n0 > 2\n1 > 2\n", "none"),
    (
        "terminals 5\nsource 0\nbound 0\n0 > 1 2 3\n1 > 4\n2 > 4\n3 > 4\n",
        "1",
    ),
    (
        "terminals 7\nsource 0\nbound 0\n0 > 1 2 3 4 5\n1 > 6\n2 > 6\n3 > 6\n4 > 6\n5 > 6\n",
        "2",
    ),
];

/// Where all hear the source a drawing passes for every bound that there is. Where 19 hears 18 of them
/// and not the source, f may be bad and f + 1 must be left.
fn two_digits(checks: &mut Checks) {
    for terminals in [10, 11, 12, 20] {
        let hearers: String = (1..terminals).map(|to| format!(" {to}")).collect();
        let text = format!("terminals {terminals}\nsource 0\nbound 3\n0 >{hearers}\n");
        let most = (terminals - 1).to_string();
        bounded::printed(checks, "greatest", &text, &[&most]);
        let costs =
            (1..terminals).map(|to| format!("0 > {to}: none without it (costs {terminals})\n"));
        let wanted = greatest_told(Some(terminals - 1)) + &costs.collect::<String>();
        let done = checks.call_with(&["links"], text.as_bytes());
        checks.ends(&format!("links of {text:?}"), &done, 0, &wanted, "");
    }
    let source: String = (1..19).map(|to| format!(" {to}")).collect();
    let voices: String = (1..19).map(|from| format!("{from} > 19\n")).collect();
    let text = format!("terminals 20\nsource 0\nbound 0\n0 >{source}\n{voices}");
    bounded::printed(checks, "greatest", &text, &["8"]);
}

/// Document 01's drawings; D is C, and G is F, with another bound.
const DRAWINGS: [(&str, &str, i32); 10] = [
    ("a", "1", 0),
    ("b", "none", 0),
    ("c", "0", 0),
    ("d", "0", 0),
    ("e", "0", 0),
    ("f", "1", 0),
    ("g", "1", 0),
    ("h", "0", 0),
    ("i", "1", 0),
    ("j", "ff040001", 1),
];

/// It is in range or refused, and otherwise all the same.
fn own_bound(checks: &mut Checks) {
    let of_f = read(&checks.top.join("plans/f.hex"));
    for (bound, status, wanted) in [
        ("00", 0, "1\n"),
        ("01", 0, "1\n"),
        ("02", 0, "1\n"),
        ("04", 0, "1\n"),
        ("05", 1, "ff040001\n"),
        ("fe", 1, "ff040001\n"),
    ] {
        let frames = format!("010500{bound}{}", &of_f[8..]);
        let done = checks.call_with(&["greatest"], frames.as_bytes());
        checks.ends(&format!("F with {bound}"), &done, status, wanted, "");
    }
}

/// In the second 3 hears two who hear the source, and can do without it for 0. In the third all hear
/// it, and without it two others. In the fourth 3 hears 1 and 2, each of whom is enough for 0.
const LINKS: [(&str, &[&str]); 5] = [
    (
        "terminals 2\nsource 0\nbound 0\n0 > 1\n",
        &[
            "the greatest bound for which this drawing passes is 1",
            "0 > 1: none without it (costs 2)",
        ],
    ),
    (
        "terminals 4\nsource 0\nbound 3\n2 > 3\n0 > 3 2 1\n1 > 3\n",
        &[
            "the greatest bound for which this drawing passes is 3",
            "0 > 1: none without it (costs 4)",
            "0 > 2: none without it (costs 4)",
            "0 > 3: 0 without it (costs 3)",
            "cost nothing, each by itself (2):",
            "  1 > 3",
            "  2 > 3",
        ],
    ),
    (
        "terminals 4\nsource 1\nbound 0\n0 - 1 2 3\n1 - 2 3\n2 - 3\nname 0 \"gate\"\nname 1 \"office\"\n",
        &[
            "the greatest bound for which this drawing passes is 3",
            "1 (office) > 0 (gate): 0 without it (costs 3)",
            "1 (office) > 2: 0 without it (costs 3)",
            "1 (office) > 3: 0 without it (costs 3)",
            "cost nothing, each by itself (9):",
            "  0 (gate) > 1 (office), 2, 3",
            "  2 > 0 (gate), 1 (office), 3",
            "  3 > 0 (gate), 1 (office), 2",
        ],
    ),
    (
        "terminals 4\nsource 0\nbound 1\n0 > 1 2\n1 - 2\n1 > 3\n2 > 3\nname 3 \"gate\"\n",
        &[
            "the greatest bound for which this drawing passes is 0",
            "cost nothing, each by itself (6):",
            "  0 > 1, 2",
            "  1 > 2, 3 (gate)",
            "  2 > 1, 3 (gate)",
        ],
    ),
    (
        "terminals 3\nsource 1\nbound 0\n0 - 2\n",
        &[
            "this drawing fails for every bound, even for 0",
            "no link costs anything, since there is nothing to lose",
        ],
    ),
];

/// Of the text and of its frames, which have no names.
fn links(checks: &mut Checks, text: &str, wanted: &[&str]) {
    let wanted = lines(wanted);
    let done = checks.call_with(&["links"], text.as_bytes());
    checks.same(&format!("links of {text:?}"), &wanted, &done.out);
    checks.same(
        &format!("links of {text:?}: status"),
        "0",
        &done.status.to_string(),
    );
    let frames = checks.call_with(&["plan"], text.as_bytes()).out;
    let done = checks.call_with(&["links", "-"], frames.as_bytes());
    let plain = wanted.replace(" (gate)", "").replace(" (office)", "");
    checks.ends(&format!("links of {frames:?}"), &done, 0, &plain, "");
}

/// As `links` prints them, of a file without names.
fn told(site: &Site) -> String {
    let whole = site.greatest();
    if whole.is_none() {
        let none = "no link costs anything, since there is nothing to lose\n";
        return greatest_told(whole) + none;
    }
    let steps = |greatest: Greatest| greatest.map_or(0, |bound| bound + 1);
    let (mut dear, free): (Vec<_>, Vec<_>) = site
        .without_links()
        .into_iter()
        .partition(|(_, left)| *left != whole);
    dear.sort_by_key(|((from, to), left)| (steps(*left), *from, *to));
    let mut text = greatest_told(whole);
    for ((from, to), left) in dear {
        let cost = steps(whole) - steps(left);
        assert!(
            cost == 1 || from == site.source,
            "one at most, {from} > {to}"
        );
        text += &format!("{from} > {to}: {} without it (costs {cost})\n", named(left));
    }
    if !free.is_empty() {
        text += &format!("cost nothing, each by itself ({}):\n", free.len());
    }
    for sender in 0..20 {
        let hearers = free.iter().filter(|((from, _), _)| *from == sender);
        let hearers: Vec<String> = hearers.map(|((_, to), _)| to.to_string()).collect();
        if !hearers.is_empty() {
            text += &format!("  {sender} > {}\n", hearers.join(", "));
        }
    }
    text
}

/// Both forms, of those with a bound.
fn committed_plans(checks: &mut Checks) {
    let mut tried = 0;
    for file in files_in(checks, &["plans"]) {
        let frames = read(&checks.top.join(file.replace(".txt", ".hex")));
        if &frames[6..8] == "ff" || file.starts_with("plans/j.") {
            continue;
        }
        let site = Site::of(&frames);
        let done = checks.call(&["greatest", &file]);
        let wanted = format!("{}\n", named(site.greatest()));
        checks.same(&format!("greatest of {file}"), &wanted, &done.out);
        let done = checks.call(&["links", &file]);
        let plain = ["office", "crusher", "east gate"];
        let plain = plain.iter().fold(done.out, |text, name| {
            text.replace(&format!(" ({name})"), "")
        });
        checks.same(&format!("links of {file}"), &told(&site), &plain);
        tried += 1;
    }
    checks.holds("plans with a greatest bound", tried >= 26);
}

/// Plans of four to six terminals; in some there is one that hears nobody.
fn other_plans(checks: &mut Checks) {
    let mut below = bounded::numbers(7);
    for _ in 0..60 {
        let (n, many) = (4 + below(3), 2 + below(4));
        let (source, bound) = (below(n), below(n));
        let mut frames = vec![format!("01{n:02x}{source:02x}{bound:02x}")];
        for hearer in 0..n {
            for from in (0..n).filter(|from| *from != hearer) {
                if below(6) < many || from == source && below(2) == 0 {
                    frames.push(format!("02{from:02x}{hearer:02x}"));
                }
            }
        }
        let frames = lines(&frames);
        let site = Site::of(&frames);
        let done = checks.call_with(&["greatest"], frames.as_bytes());
        let wanted = format!("{}\n", named(site.greatest()));
        checks.ends(&format!("greatest of {frames:?}"), &done, 0, &wanted, "");
        let done = checks.call_with(&["links"], frames.as_bytes());
        checks.ends(&format!("links of {frames:?}"), &done, 0, &told(&site), "");
    }
}

/// A head alone: all others than the source hear nobody, or it has ff.
const HEADS: [(&str, &str); 12] = [
    ("01000000", "ff040001"),
    ("01010000", "ff040001"),
    ("01020000", "none"),
    ("01020001", "none"),
    ("01020002", "ff040001"),
    ("010200fe", "ff040001"),
    ("010200ff", "ff040001"),
    ("010202ff", "ff040001"),
    ("01140013", "none"),
    ("011413ff", "ff040001"),
    ("01150000", "ff040001"),
    ("0102ff", "ff020001"),
];

const NO_BOUND: &str =
    "the greatest bound is for a plan with a bound, and this one lists groups (cause 4)";

/// Refused by its head, whatever stands under it; in a text, in the line of the first group. The other
/// words say nothing of a greatest bound there.
fn with_groups(checks: &mut Checks) {
    for frames in bounded::under_groups() {
        like_archive(checks, &frames);
    }
    let done = checks.call(&["greatest", "plans/supplies.hex"]);
    checks.ends("greatest of groups", &done, 1, "ff040001\n", "");
    let done = checks.call(&["links", "plans/supplies.hex"]);
    let told = format!("refused, line 1 (010800ff): {NO_BOUND}");
    checks.tells("links of groups in frames", &done, 1, &told);
    let table = [
        (
            "source 0\ngroup 1\nterminals 2\n0 > 1\ngroup none\n",
            "line 2 (group 1)",
        ),
        (
            "terminals 2\nsource 0\n0 > 1\ngroup 9\nbad 1\nvalue 7\n",
            "line 4 (group 9)",
        ),
    ];
    for (text, place) in table {
        let told = format!("refused, {place}: {NO_BOUND}");
        bounded::refused(checks, &["greatest", "links"], text, &told);
    }
    bounded::silent(checks, &["explain", "draw"], "plans/supplies.txt", &NAMES);
}

/// How the other words may speak of it.
const NAMES: [&str; 3] = ["greatest", "drawing", "dearest"];

const REFUSED: [(&str, &str); 8] = [
    (
        "terminals 21\nsource 0\ngroup 1\n",
        "refused, line 1 (terminals 21): 2 to 20 terminals are allowed (cause 4)",
    ),
    (
        "terminals 21\nsource 0\n",
        "refused, line 1 (terminals 21): 2 to 20 terminals are allowed (cause 4)",
    ),
    (
        "terminals 4\nsource 4\n0 > 1\n",
        "refused, line 2 (source 4): 0 to 3 are allowed for 4 terminals (cause 4)",
    ),
    (
        "terminals 4\nsource 0\nbound 4\n",
        "refused, line 3 (bound 4): 0 to 3 are allowed for 4 terminals (cause 4)",
    ),
    (
        "terminals 4\nsource 0\n0 > 1\n2 > 1 4\n",
        "refused, line 4 (2 > 4): the terminals are 0 to 3 (cause 5)",
    ),
    (
        "terminals 4\nsource 0\nbound 1\n0 > 1 1\n",
        "refused, line 4 (0 > 1): line 4 has this link already (cause 6)",
    ),
    (
        "source 0\n0 > 1\n",
        "line 2: expected 'terminals NUMBER' before the first link",
    ),
    (
        "terminals 2\nsource 0\ngroup 1\nbound 1\n",
        "line 4: 'bound', and line 3 has a 'group': a plan has a bound or groups, not both",
    ),
];

fn refused_texts(checks: &mut Checks) {
    for (text, told) in REFUSED {
        bounded::refused(checks, &["greatest", "links"], text, told);
    }
}

/// A text may leave out the bound, for these two words alone.
fn without_bound(checks: &mut Checks) {
    let text = "terminals 3\nsource 0\n0 > 1\n1 > 2\nname 2 \"gate\"\n";
    let costs = lines(&[
        "the greatest bound for which this drawing passes is 0",
        "0 > 1: none without it (costs 1)",
        "1 > 2 (gate): none without it (costs 1)",
    ]);
    for (word, wanted) in [("greatest", "0\n"), ("links", &costs)] {
        for text in [
            text,
            &format!("{text}value 7\n"),
            &format!("{text}bound 2\n"),
        ] {
            let done = checks.call_with(&[word], text.as_bytes());
            checks.ends(&format!("{word} of {text:?}"), &done, 0, wanted, "");
        }
    }
    let done = checks.call_with(&["greatest"], b"terminals 2\nsource 0\n");
    checks.ends("greatest of no link and no bound", &done, 0, "none\n", "");
    for word in [
        "check", "verdict", "archive", "sentence", "margins", "explain", "draw", "mend", "plan",
    ] {
        let done = checks.call_with(&[word], text.as_bytes());
        let told = "line 3: expected 'bound NUMBER' or 'group TERMINAL..' before the first link";
        checks.tells(&format!("{word} without a bound"), &done, 1, told);
    }
}

/// As for `archive`.
fn with_a_run(checks: &mut Checks) {
    bounded::with_a_run(checks, "greatest", "0\n");
    let of_h = checks.call(&["links", "plans/h.txt"]).out;
    let done = checks.call(&["links", "runs/silence.txt"]);
    checks.ends("links of a run in text", &done, 0, &of_h, "");
    bounded::silent(checks, &["explain", "draw"], "runs/silence.txt", &NAMES);
}

/// The names that a row's words and lines stand for.
const FILES: [(&str, &str); 6] = [
    ("chain", "01030002\n020001\n020102\n"),
    ("one link", "terminals 2\nsource 0\nbound 0\n0 > 1\n"),
    ("no bound", "terminals 2\nsource 0\n0 > 1\n"),
    ("groups", "010200ff\n020001\n07000000\n"),
    ("group text", "terminals 2\nsource 0\ngroup 1\n0 > 1\n"),
    ("deaf", "01020000\n"),
];

/// Words, status and lines, without the folder of the files.
const MANY: [(&[&str], i32, &[&str]); 3] = [
    (
        &["greatest", "chain", "one link", "no bound", "deaf"],
        0,
        &["chain: 0", "one link: 1", "no bound: 1", "deaf: none"],
    ),
    (
        &["greatest", "groups", "chain", "group text"],
        1,
        &[
            "groups: ff040001",
            "chain: 0",
            "group text: refused, line 3 (group 1): the greatest bound is for a plan with a bound, and this one lists groups (cause 4)",
        ],
    ),
    (
        &["greatest", "nowhere", "groups", "deaf"],
        2,
        &[
            "nowhere: there is no file 'nowhere'",
            "groups: ff040001",
            "deaf: none",
        ],
    ),
];

/// One line, over the margins, whether the plan passes or fails. plans.rs and deaf.rs have the rest.
fn explained(checks: &mut Checks) {
    let table = [
        ("terminals 2\nsource 0\nbound 0\n0 > 1\n", Some(1)),
        ("terminals 3\nsource 0\nbound 1\n0 > 1\n1 > 2\n", Some(0)),
        ("terminals 3\nsource 1\nbound 1\n0 - 2\n", None),
    ];
    for (text, greatest) in table {
        let done = checks.call_with(&["explain"], text.as_bytes());
        let told = greatest_told(greatest);
        let label = format!("explain of {text:?}");
        checks.has_line(&label, &done.out, told.trim_end());
        let over = done.out.find(&told) < done.out.find("margins");
        checks.holds(&format!("{label}: over the margins"), over);
        let drawing = done.out.lines().filter(|line| line.contains("drawing"));
        checks.same(&format!("{label}: once"), "1", &drawing.count().to_string());
    }
}
