//! Deaf terminals: others than the source that hear nobody. A new plan with one is refused, and the
//! archive opens it (document 02, P6). What each word makes of such a plan is worked out by hand.

use crate::bad_sets::greatest_told;
use crate::checks::{lines, Checks};
use crate::greatest;
use crate::margins;
use crate::plans::files_in;
use crate::quote::alike;
use crate::sentences;

pub fn check(checks: &mut Checks) {
    for site in SITES {
        refused_as_new(checks, &site);
        explained(checks, &site);
        read_as_the_archive(checks, &site);
    }
    where_the_links_end(checks);
    second_head(checks);
    runs_on_them(checks);
    plan_of_a_run(checks);
    committed_plans(checks);
    for row in WITH_BAD {
        with_bad(checks, row);
    }
}

const RULE: &str = "a new plan must have no such terminal, and './hulmayek archive FILE' opens a plan that is on file already (cause 15)";

/// A plan with deaf terminals. With nobody bad they are cut off already, so F is empty.
struct Site {
    text: &'static str,
    frames: &'static [&'static str],
    /// Who hears nobody, as it is said of a refusal.
    hear: &'static str,
    verdict: &'static str,
    /// L, R, and what each of R hears and needs.
    told: &'static [&'static str],
}

const SITES: [Site; 4] = [
    // Drawing B.
    Site {
        text: "terminals 2\nsource 0\nbound 0\n",
        frames: &["01020000"],
        hear: "terminal 1 hears nobody",
        verdict: "8101000000000001000002",
        told: &[
            "reached (L): 0",
            "cut off (R): 1",
            "terminal 1 hears nobody and needs 1 reached terminal, or the source",
        ],
    },
    // The source hears nobody either, and is never deaf.
    Site {
        text: "terminals 4\nsource 2\nbound 1\n2 > 0\nname 1 \"north gate\"\n",
        frames: &["01040201", "020200"],
        hear: "terminals 1 and 3 hear nobody",
        verdict: "810100000000000500000a",
        told: &[
            "reached (L): 0, 2",
            "cut off (R): 1 (north gate), 3",
            "terminal 1 (north gate) hears nobody and needs 2 reached terminals, or the source",
            "terminal 3 hears nobody and needs 2 reached terminals, or the source",
        ],
    },
    // Who hears a deaf one alone is cut off, and not deaf.
    Site {
        text: "terminals 4\nsource 0\nbound 0\n0 > 1\n2 > 3\n",
        frames: &["01040000", "020001", "020203"],
        hear: "terminal 2 hears nobody",
        verdict: "810100000000000300000c",
        told: &[
            "reached (L): 0, 1",
            "cut off (R): 2, 3",
            "terminal 2 hears nobody and needs 1 reached terminal, or the source",
            "terminal 3 hears no reached terminal and needs 1, or the source",
        ],
    },
    // Links into the source alone: all others are deaf.
    Site {
        text: "terminals 4\nsource 0\nbound 1\n1 > 0\n2 > 0\n3 > 0\n",
        frames: &["01040001", "020100", "020200", "020300"],
        hear: "terminals 1, 2 and 3 hear nobody",
        verdict: "810100000000000100000e",
        told: &[
            "reached (L): 0",
            "cut off (R): 1, 2, 3",
            "terminal 1 hears nobody and needs 2 reached terminals, or the source",
            "terminal 2 hears nobody and needs 2 reached terminals, or the source",
            "terminal 3 hears nobody and needs 2 reached terminals, or the source",
        ],
    },
];

const NOTHING_TO_LOSE: &str = "this drawing fails for every bound, even for 0\nno link costs anything, since there is nothing to lose\n";

fn refusal(hear: &str) -> String {
    format!("refused, the whole file: {hear}; {RULE}")
}

fn refused_as_new(checks: &mut Checks, site: &Site) {
    let frames = lines(site.frames);
    for word in ["verdict", "quote", "sentence", "margins", "run"] {
        let done = checks.call_with(&[word], frames.as_bytes());
        let label = format!("{word} of {:?}", site.frames);
        checks.ends(&label, &done, 1, "ff0f0000\n", "");
        let done = checks.call_with(&[word], site.text.as_bytes());
        let label = format!("{word} of {:?}", site.text);
        checks.tells(&label, &done, 1, &refusal(site.hear));
    }
}

/// Of a text too the frames are printed: line 0 is the same in both forms. Frames have no names.
fn explained(checks: &mut Checks, site: &Site) {
    let new = ["ff0f0000".to_string(), refusal(site.hear)];
    let archived = [
        "the archive opens it:",
        site.verdict,
        "fail: even with no bad terminal, the cut-off ones wait for ever",
        "bad (F): none",
    ];
    let told = lines(site.told) + &greatest_told(None);
    let wanted = lines(&new) + &lines(&archived) + &told;
    let done = checks.call_with(&["explain"], site.text.as_bytes());
    checks.ends(
        &format!("explain of {:?}", site.text),
        &done,
        1,
        &wanted,
        "",
    );
    let done = checks.call_with(&["explain"], lines(site.frames).as_bytes());
    let plain = wanted.replace(" (north gate)", "");
    let label = format!("explain of {:?}", site.frames);
    checks.ends(&label, &done, 1, &plain, "");
}

/// The words for which the plan may be one that is on file.
fn read_as_the_archive(checks: &mut Checks, site: &Site) {
    let frames = lines(site.frames);
    let bare: String = site
        .text
        .lines()
        .filter(|line| !line.starts_with("name"))
        .map(|line| format!("{line}\n"))
        .collect();
    for (input, shown) in [(site.text, site.text), (&frames, &bare)] {
        let verdict = format!("{}\n", site.verdict);
        let table = [
            ("archive", 0, verdict.as_str()),
            ("check", 3, "fail\n"),
            ("greatest", 0, "none\n"),
            ("links", 0, NOTHING_TO_LOSE),
            ("plan", 0, &frames),
            ("rewrite", 0, &frames),
            ("show", 0, shown),
        ];
        for (word, status, wanted) in table {
            let done = checks.call_with(&[word], input.as_bytes());
            checks.ends(&format!("{word} of {input:?}"), &done, status, wanted, "");
        }
        let drawn = checks.call_with(&["draw"], input.as_bytes());
        let is = drawn.status == 0 && drawn.out.contains("This plan fails");
        checks.holds(&format!("draw of {input:?}"), is);
        let mend = checks.call_with(&["mend"], input.as_bytes());
        let mended = site.text.to_string() + &mend.out;
        let done = checks.call_with(&["verdict"], mended.as_bytes());
        let passes = "8100000000000000000000\n";
        checks.ends(&format!("mend of {input:?}"), &done, 0, passes, "");
    }
}

/// 1 is deaf in all of these but the last two. A line that is no frame of the program, or a wrong
/// link, is refused first; any other line is where the links end, whatever is wrong with it.
fn where_the_links_end(checks: &mut Checks) {
    let table: [(&str, &[&str], &str); 18] = [
        ("verdict", &["01020000", "020100"], "ff0f0000"),
        ("verdict", &["01020000", "020100", "020100"], "ff060003"),
        ("verdict", &["01020000", "020101"], "ff050002"),
        ("verdict", &["01020000", "020102"], "ff050002"),
        ("verdict", &["01020000", "0200"], "ff020002"),
        ("verdict", &["01020000", "03000000"], "ff020002"),
        ("verdict", &["01020000", "02010"], "ff010002"),
        ("verdict", &["01020000", "01020000"], "ff0f0000"),
        ("verdict", &["01020000", "01020000", "0"], "ff0f0000"),
        ("verdict", &["01020002"], "ff040001"),
        ("run", &["01020000", "03000001"], "ff0f0000"),
        ("run", &["01020000", "04000000"], "ff0f0000"),
        ("run", &["01020000", "050101000007"], "ff0f0000"),
        ("run", &["01020000", "03000000", "020001"], "ff0f0000"),
        ("run", &["01020000", "0300"], "ff020002"),
        ("run", &["01020000", "020100", "020100"], "ff060003"),
        ("verdict", &["01020000", "020001", "01020000"], "ff030003"),
        ("run", &["01020000", "020001", "03000001"], "ff070003"),
    ];
    for (word, frames, wanted) in table {
        for word in alike(word) {
            let done = checks.call_with(&[word], lines(frames).as_bytes());
            let label = format!("{word} of {frames:?}");
            checks.ends(&label, &done, 1, &format!("{wanted}\n"), "");
        }
        if word == "verdict" {
            margins::refuses(checks, frames, wanted);
            greatest::like_archive(checks, frames);
            sentences::like_verdict(checks, frames);
        }
    }
}

/// The archive comes to the line that `verdict` has not come to. The deaf are those of the links
/// before it.
fn second_head(checks: &mut Checks) {
    let frames = ["01030000", "020001", "01030200"];
    let wanted = lines(&[
        "ff0f0000",
        &refusal("terminal 2 hears nobody"),
        "the archive refuses it too:",
        "ff030003",
        "refused, line 3 (01030200): a second head: 01 stands once, in the first line (cause 3)",
    ]);
    let done = checks.call_with(&["explain"], lines(&frames).as_bytes());
    checks.ends("explain of a second head", &done, 1, &wanted, "");
    let done = checks.call_with(&["archive"], lines(&frames).as_bytes());
    checks.ends("archive of a second head", &done, 1, "ff030003\n", "");
}

const DEAF_RUN: &str = "terminals 3\nsource 0\nbound 1\n0 > 1\nbad 1\nvalue 7\nrounds 2\n";
const DEAF_RUN_FRAMES: [&str; 4] = ["01030001", "020001", "03000002", "04000702"];

/// Words that need the run: none of them plays it.
fn runs_on_them(checks: &mut Checks) {
    let told = refusal("terminal 2 hears nobody");
    for word in [
        "run", "trace", "explain", "draw", "show", "plan", "verdict", "sentence", "margins",
    ] {
        let done = checks.call_with(&[word], DEAF_RUN.as_bytes());
        checks.tells(&format!("{word} of a run in text"), &done, 1, &told);
    }
    let frames = lines(&DEAF_RUN_FRAMES);
    for word in ["trace", "draw", "show"] {
        let done = checks.call_with(&[word], frames.as_bytes());
        checks.tells(&format!("{word} of a run in frames"), &done, 1, &told);
    }
    let table = [
        ("run", "ff0f0000\n".to_string()),
        ("explain", format!("ff0f0000\n{told}\n")),
    ];
    for (word, wanted) in table {
        let done = checks.call_with(&[word], frames.as_bytes());
        checks.ends(&format!("{word} of a run in frames"), &done, 1, &wanted, "");
    }
}

/// Words that need the plan alone open it; 0 > 2 is the only link that can bring 2 the notice. What
/// stands under the links has been read by nobody, so it is not looked at.
fn plan_of_a_run(checks: &mut Checks) {
    let odd = lines(&["01030001", "020001", "03000002", "020102", "01020000"]);
    for input in [DEAF_RUN, &lines(&DEAF_RUN_FRAMES), &odd] {
        let done = checks.call_with(&["mend"], input.as_bytes());
        let links = done.out.lines().filter(|line| !line.starts_with('#'));
        let links: Vec<&str> = links.collect();
        checks.same(&format!("mend of {input:?}"), "0 > 2", &links.join("\n"));
        let done = checks.call_with(&["draw", "--mend"], input.as_bytes());
        let is = done.status == 0 && done.out.contains("With the dashed links it passes.");
        checks.holds(&format!("draw --mend of {input:?}"), is);
        let done = checks.call_with(&["with-bad", "-", "1"], input.as_bytes());
        let wanted = lines(&[
            "1 may be bad: no good terminal hears more than 1 of the bad ones",
            "if they stay silent, these wait for ever: 2",
        ]);
        checks.ends(&format!("with-bad of {input:?}"), &done, 3, &wanted, "");
    }
    let table = [
        ("archive", 0, "8101000000000003000004\n"),
        ("check", 3, "fail\n"),
        ("greatest", 0, "none\n"),
        ("links", 0, NOTHING_TO_LOSE),
    ];
    for (word, status, wanted) in table {
        let done = checks.call_with(&[word], DEAF_RUN.as_bytes());
        checks.ends(
            &format!("{word} of a run in text"),
            &done,
            status,
            wanted,
            "",
        );
    }
}

/// Of the plans and runs in this repository drawing B alone is for the archive.
fn committed_plans(checks: &mut Checks) {
    let mut deaf = Vec::new();
    for file in files_in(checks, &["plans", "plans/bench", "plans/runs", "runs"]) {
        let is_run = file.contains("runs/");
        let word = if is_run { "run" } else { "verdict" };
        let done = checks.call(&[word, &file]);
        if done.out == "ff0f0000\n" || done.err.ends_with("(cause 15)\n") {
            deaf.push(file);
        }
    }
    let wanted = "plans/b.hex plans/b.txt";
    checks.same("plans for the archive", wanted, &deaf.join(" "));
}

/// A plan's text, its bad terminals, the status, and the answer after its first words.
struct WithBad(&'static str, &'static [&'static str], i32, Silence);

enum Silence {
    /// Who waits for ever, and the bound.
    Waits(&'static str, u8),
    /// After so many rounds all have it, and the bound.
    All(&'static str, u8),
    No(&'static str),
}
use Silence::{All, No, Waits};

/// 2 is deaf; 1 hears it beside the source.
const HEARD: &str = "terminals 3\nsource 0\nbound 0\n0 > 1\n2 > 1\n";
const HEARD_AT_BOUND_1: &str = "terminals 3\nsource 0\nbound 1\n0 > 1\n2 > 1\n";
/// 2 is deaf, 3 hears 2 alone, 4 hears 3 alone.
const CHAIN: &str = "terminals 5\nsource 0\nbound 0\n0 > 1\n2 > 3\n3 > 4\n";
/// 3 is deaf; 4 needs two of 1, 2 and 3, and nobody hears 5.
const VOTER: &str = "terminals 6\nsource 0\nbound 1\n0 > 1 2 5\n1 > 4\n2 > 4\n3 > 4\n";
/// All but the source are deaf.
const NO_LINK: &str = "terminals 3\nsource 0\nbound 0\n";
const INTO_THE_SOURCE: &str = "terminals 3\nsource 0\nbound 1\n1 > 0\n2 > 0\n";
const DRAWING_B: &str = "terminals 2\nsource 0\nbound 0\n";
/// 1 and 3 are deaf.
const NAMED: &str = "terminals 4\nsource 2\nbound 1\n2 > 0\nname 1 \"north gate\"\n";
/// 2 is deaf; 3 hears 2 alone, and 1 hears 3 beside the source.
const THROUGH_A_BAD_ONE: &str = "terminals 4\nsource 0\nbound 1\n0 > 1\n2 > 3\n3 > 1\n";
/// 4 is deaf; 2 hears it, and 2 and 3 hear each other.
const PAIR: &str = "terminals 5\nsource 0\nbound 1\n0 > 1\n4 > 2\n2 > 3\n3 > 2\n";
/// 3 is deaf, and is heard by the source and by 4, which 2 hears beside 1.
const ALL_ROUND: &str = "terminals 5\nsource 0\nbound 1\n0 > 1\n1 > 2\n3 > 0 4\n4 > 2\n";

/// A deaf one that is good waits, and is no voice for those who hear it. One that is bad counts for
/// the bound as any other.
const WITH_BAD: [WithBad; 25] = [
    WithBad(
        HEARD,
        &["2"],
        1,
        No("2 may not be bad: terminal 1 hears 2, bad, and the bound is 0 (cause 8)"),
    ),
    WithBad(HEARD, &["1"], 3, Waits("2", 0)),
    WithBad(HEARD, &["1", "2"], 0, All("0 rounds", 0)),
    WithBad(HEARD_AT_BOUND_1, &["2"], 0, All("1 round", 1)),
    WithBad(HEARD_AT_BOUND_1, &["1"], 3, Waits("2", 1)),
    WithBad(CHAIN, &["1"], 3, Waits("2, 3, 4", 0)),
    WithBad(CHAIN, &["4"], 3, Waits("2, 3", 0)),
    WithBad(
        CHAIN,
        &["2"],
        1,
        No("2 may not be bad: terminal 3 hears 2, bad, and the bound is 0 (cause 8)"),
    ),
    WithBad(
        CHAIN,
        &["3"],
        1,
        No("3 may not be bad: terminal 4 hears 3, bad, and the bound is 0 (cause 8)"),
    ),
    WithBad(CHAIN, &["2", "3", "4"], 0, All("1 round", 0)),
    // 1 and 2 are two voices, and 3 is none: without 2 there is one.
    WithBad(VOTER, &["5"], 3, Waits("3", 1)),
    WithBad(VOTER, &["2"], 3, Waits("3, 4", 1)),
    WithBad(VOTER, &["3"], 0, All("2 rounds", 1)),
    WithBad(
        VOTER,
        &["3", "1"],
        1,
        No("1 and 3 may not be bad: terminal 4 hears 1 and 3, both bad, and the bound is 1 (cause 8)"),
    ),
    WithBad(NO_LINK, &["1"], 3, Waits("2", 0)),
    WithBad(NO_LINK, &["1", "2"], 0, All("0 rounds", 0)),
    WithBad(
        INTO_THE_SOURCE,
        &["1", "2"],
        1,
        No("1 and 2 may not be bad: terminal 0 hears 1 and 2, both bad, and the bound is 1 (cause 8)"),
    ),
    WithBad(DRAWING_B, &["1"], 0, All("0 rounds", 0)),
    WithBad(
        DRAWING_B,
        &["1", "2"],
        1,
        No("1 and 2 may not be bad: bad 2: the terminals are 0 to 1 (cause 7)"),
    ),
    WithBad(
        DRAWING_B,
        &["0"],
        1,
        No("0 may not be bad: bad 0: it is the source, which is good (cause 7)"),
    ),
    WithBad(NAMED, &["0"], 3, Waits("1 (north gate), 3", 1)),
    WithBad(THROUGH_A_BAD_ONE, &["3"], 3, Waits("2", 1)),
    WithBad(PAIR, &["1"], 3, Waits("2, 3, 4", 1)),
    WithBad(ALL_ROUND, &["1"], 3, Waits("2, 3, 4", 1)),
    WithBad(ALL_ROUND, &["3"], 3, Waits("2, 4", 1)),
];

fn with_bad(checks: &mut Checks, WithBad(text, bad, status, silence): WithBad) {
    let who = match bad {
        [one] => one.to_string(),
        [one, other] => format!("{one} and {other}"),
        _ => "2, 3 and 4".to_string(),
    };
    let may = |bound: u8| {
        format!("{who} may be bad: no good terminal hears more than {bound} of the bad ones\nif they stay silent,")
    };
    let wanted = match silence {
        Waits(whom, bound) => format!("{} these wait for ever: {whom}\n", may(bound)),
        All(after, bound) => format!("{} all others have the notice after {after}\n", may(bound)),
        No(why) => format!("no: {why}\n"),
    };
    let words = [&["with-bad", "-"], bad].concat();
    let done = checks.call_with(&words, text.as_bytes());
    checks.ends(
        &format!("{words:?} of {text:?}"),
        &done,
        status,
        &wanted,
        "",
    );
}
