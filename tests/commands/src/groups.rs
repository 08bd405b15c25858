//! Plans that list groups in the place of the bound (document 02, P10): what every word makes of
//! them. Who is cut off by whom is worked out by hand from the rule: a bad set is any part of one
//! group, and neighbours are enough where they fit together in none.

use crate::checks::{lines, read, Checks};
use crate::composer::opening;
use crate::plans::both_ways;
use crate::{group_frames, group_mends, group_pictures, group_texts};

pub fn check(checks: &mut Checks) {
    for site in SITES {
        committed(checks, &site);
    }
    drawn_frames(checks);
    for (text, told) in EXPLAINED {
        explained(checks, text, told);
    }
    deaf(checks);
    many_files(checks);
    as_a_bound(checks);
    a_run(checks);
    for row in WITH_BAD {
        with_bad(checks, row);
    }
    group_texts::check(checks);
    group_frames::check(checks);
    group_mends::check(checks);
    group_pictures::check(checks);
}

/// The committed plans with groups.
pub const PLANS: [&str; 3] = ["f-groups", "f-apart", "supplies"];
const PASS: &str = "8100000000000000000000";
const FAILS: &str = "fail: if the bad ones only stay silent, the cut-off ones wait for ever";
const FAILS_BY_ITSELF: &str = "fail: even with no bad terminal, the cut-off ones wait for ever";
const NEEDS: &str = "and needs some who together fit in no group, or the source";

struct Site {
    name: &'static str,
    frame: &'static str,
    /// Under the frame, NEEDS written as '..'.
    told: &'static [&'static str],
}

/// f-groups: without 3, 4 hears 1 and 2, who share a group; {1} and {2} leave it 3 and another, as
/// does nobody. f-apart: whoever of 1 to 3 is bad, two groups are left. supplies: 1 to 5 hear the
/// office. Without 1, 2 or 3, 6 hears 4 and 5 and 7 hears 4 and 5. Without 4, 6 hears 1 and 5, but 7
/// hears 5 and 6 alone, who share a group.
const SITES: [Site; 3] = [
    Site {
        name: "f-groups",
        frame: "8101000008000007000010",
        told: &[
            FAILS,
            "bad (F): 3",
            "reached (L): 0, 1, 2",
            "cut off (R): 4",
            "terminal 4 hears 2 reached terminals (1, 2), both in group A (1, 2), ..",
            "the bad ones are all of group B (3); a bad set is any part of one group",
        ],
    },
    Site {
        name: "f-apart",
        frame: PASS,
        told: &[
            "pass: whatever a bad set says, every good terminal has the source's layout after 4 rounds (n-1)",
            "if nobody is bad, the last one has it after 2 rounds",
            "a bad set is any part of one group: A (1), B (2), C (3)",
            "in no group, so taken to be good: 4",
        ],
    },
    Site {
        name: "supplies",
        frame: "810100001000006f000080",
        told: &[
            FAILS,
            "bad (F): 4 (belt)",
            "reached (L): 0 (office), 1 (workshop), 2 (store), 3 (crusher), 5 (ramp), 6 (lower ramp)",
            "cut off (R): 7 (pit gate)",
            "terminal 7 (pit gate) hears 2 reached terminals (5, 6), both in group C (5, 6), ..",
            "the bad ones are part of group B (3, 4); a bad set is any part of one group",
        ],
    },
];

/// Frames have no names.
const NAMES: [&str; 8] = [
    "office",
    "workshop",
    "store",
    "crusher",
    "belt",
    "ramp",
    "lower ramp",
    "pit gate",
];

fn whole(told: &[&str]) -> String {
    lines(told).replace("..", NEEDS)
}

/// Every word that judges, of both forms, and both ways between them.
fn committed(checks: &mut Checks, site: &Site) {
    let frame = format!("{}\n", site.frame);
    let (word, status) = match site.frame {
        PASS => ("pass\n", 0),
        _ => ("fail\n", 3),
    };
    let told = whole(site.told);
    let bare = NAMES.iter().fold(told.clone(), |told, name| {
        told.replace(&format!(" ({name})"), "")
    });
    for (form, told) in [("txt", told), ("hex", bare)] {
        let file = format!("plans/{}.{form}", site.name);
        for program in ["verdict", "archive"] {
            let done = checks.call(&[program, &file]);
            checks.ends(&format!("{program} of {file}"), &done, 0, &frame, "");
        }
        let done = checks.call(&["check", &file]);
        checks.ends(&format!("check of {file}"), &done, status, word, "");
        let done = checks.call(&["explain", &file]);
        let wanted = opening(&frame) + &frame + &told;
        checks.ends(&format!("explain of {file}"), &done, 0, &wanted, "");
    }
    both_ways(checks, site.name);
    let file = format!("plans/{}.hex", site.name);
    let done = checks.call(&["rewrite", &file]);
    let frames = read(&checks.top.join(&file));
    checks.ends(&format!("rewrite of {file}"), &done, 0, &frames, "");
}

/// Drawing F's links as document 01 has them, ff for its f, and the groups after the links.
fn drawn_frames(checks: &mut Checks) {
    let links = ["020001", "020002", "020003", "020104", "020204", "020304"];
    let table: [(&str, &[&str]); 2] = [
        ("f-groups", &["07000006", "07000008"]),
        ("f-apart", &["07000002", "07000004", "07000008"]),
    ];
    for (name, groups) in table {
        let frames = [&["010500ff"], &links[..], groups].concat();
        let committed = read(&checks.top.join(format!("plans/{name}.hex")));
        checks.same(&format!("frames of {name}"), &lines(&frames), &committed);
    }
}

/// Other plans, each with its frame and what is said under it.
const EXPLAINED: [(&str, &[&str]); 6] = [
    // One neighbour is enough for nobody where it may be bad; 3 hears nobody of L.
    (
        "terminals 4\nsource 0\ngroup 1\n0 > 1\n1 > 2\n2 > 3\n",
        &[
            "810100000000000300000c",
            FAILS_BY_ITSELF,
            "bad (F): none",
            "reached (L): 0, 1",
            "cut off (R): 2, 3",
            "terminal 2 hears 1 reached terminal (1), in group A (1), ..",
            "terminal 3 hears no reached terminal ..",
        ],
    ),
    // Three of one group are no more than one of it. The first group that has them is named.
    (
        "terminals 5\nsource 0\ngroup 1 2\ngroup 1 2 3\ngroup 3 2 1\n0 > 1 2 3\n1 > 4\n2 > 4\n3 > 4\n",
        &[
            "810100000000000f000010",
            FAILS_BY_ITSELF,
            "bad (F): none",
            "reached (L): 0, 1, 2, 3",
            "cut off (R): 4",
            "terminal 4 hears 3 reached terminals (1, 2, 3), all in group B (1, 2, 3), ..",
        ],
    ),
    // 1 and 2 fit in no group, whatever else they are in; without 1, or 2, the other one is alone.
    (
        "terminals 5\nsource 0\ngroup 1 3\ngroup 2 3\ngroup 4\n0 > 1 2 3\n1 > 4\n2 > 4\n",
        &[
            "810100000200000d000010",
            FAILS,
            "bad (F): 1",
            "reached (L): 0, 2, 3",
            "cut off (R): 4",
            "terminal 4 hears 1 reached terminal (2), in group B (2, 3), ..",
            "the bad ones are part of group A (1, 3); a bad set is any part of one group",
        ],
    ),
    // 3 needs 1 or 2, who are in no group: nobody may be bad.
    (
        "terminals 4\nsource 0\ngroup none\n0 > 1 2\n1 > 3\nname 2 \"gate\"\n",
        &[
            PASS,
            "pass: whatever a bad set says, every good terminal has the source's layout after 3 rounds (n-1)",
            "if nobody is bad, the last one has it after 2 rounds",
            "a bad set is any part of one group: A (none)",
            "in no group, so taken to be good: 1, 2 (gate), 3",
        ],
    ),
    // All but the source in one group, and all hear the source.
    (
        "terminals 3\nsource 1\ngroup 0 2\ngroup none\n1 > 0 2\n",
        &[
            PASS,
            "pass: whatever a bad set says, every good terminal has the source's layout after 2 rounds (n-1)",
            "if nobody is bad, the last one has it after 1 round",
            "a bad set is any part of one group: A (0, 2), B (none)",
        ],
    ),
    // By all of R together 4 and 5 would have 1 and 2, who fit in no group; each by itself has one.
    (
        "terminals 6\nsource 0\ngroup 1\ngroup 2\ngroup 3\n0 > 1 2 3\n1 > 4\n2 > 5\n4 - 5\n",
        &[
            "810100000000000f000030",
            FAILS_BY_ITSELF,
            "bad (F): none",
            "reached (L): 0, 1, 2, 3",
            "cut off (R): 4, 5",
            "terminal 4 hears 1 reached terminal (1), in group A (1), ..",
            "terminal 5 hears 1 reached terminal (2), in group B (2), ..",
        ],
    ),
];

fn explained(checks: &mut Checks, text: &str, told: &[&str]) {
    let label = |word: &str| format!("{word} of {text:?}");
    let wanted = opening(told[0]) + &whole(told);
    let done = checks.call_with(&["explain"], text.as_bytes());
    checks.ends(&label("explain"), &done, 0, &wanted, "");
    let frame = format!("{}\n", told[0]);
    for word in ["verdict", "archive", "quote"] {
        let done = checks.call_with(&[word], text.as_bytes());
        checks.ends(&label(word), &done, 0, &frame, "");
    }
}

/// A deaf terminal is refused as in a plan with a bound, and opened by the archive.
fn deaf(checks: &mut Checks) {
    let text = "terminals 3\nsource 0\ngroup 1\n0 > 1\n";
    let why = "refused, the whole file: terminal 2 hears nobody; a new plan must have no such terminal, and './hulmayek archive FILE' opens a plan that is on file already (cause 15)";
    let verdict = "8101000000000003000004";
    let done = checks.call_with(&["verdict"], text.as_bytes());
    checks.tells("verdict of a deaf plan with a group", &done, 1, why);
    let done = checks.call_with(&["archive"], text.as_bytes());
    let wanted = format!("{verdict}\n");
    checks.ends("archive of it", &done, 0, &wanted, "");
    let done = checks.call_with(&["explain"], text.as_bytes());
    let wanted = lines(&[
        "ff0f0000",
        why,
        "the archive opens it:",
        verdict,
        FAILS_BY_ITSELF,
        "bad (F): none",
        "reached (L): 0, 1",
        "cut off (R): 2",
        "terminal 2 hears nobody and needs reached terminals who together fit in no group, or the source",
    ]);
    checks.ends("explain of it", &done, 1, &wanted, "");
    let done = checks.call_with(&["with-bad", "-", "1"], text.as_bytes());
    let wanted =
        "1 may be bad: it is in group A (1)\nif they stay silent, these wait for ever: 2\n";
    checks.ends("with-bad of it", &done, 3, wanted, "");
    let done = checks.call_with(&["show"], text.as_bytes());
    checks.ends("show of it", &done, 0, text, "");
}

fn many_files(checks: &mut Checks) {
    let table = [
        ("check", 3, ["pass", "fail"]),
        ("verdict", 0, [PASS, "8101000008000007000010"]),
        ("archive", 0, [PASS, "8101000008000007000010"]),
    ];
    let files = ["plans/f-apart.hex", "plans/f-groups.txt"];
    for (word, status, answers) in table {
        let told = [0, 1].map(|at| format!("{}: {}", files[at], answers[at]));
        let done = checks.call(&[&[word], &files[..]].concat());
        checks.ends(
            &format!("{word} of two plans"),
            &done,
            status,
            &lines(&told),
            "",
        );
    }
}

/// What README says of the quarry: with a bound of 1 it passes, since each of 6 and 7 hears three.
fn as_a_bound(checks: &mut Checks) {
    let text = read(&checks.top.join("plans/supplies.txt"));
    let kept = text.lines().filter(|line| !line.starts_with("group"));
    let bound = lines(&kept.collect::<Vec<_>>()).replace("source 0\n", "source 0\nbound 1\n");
    let done = checks.call_with(&["check"], bound.as_bytes());
    checks.ends("the quarry with bound 1", &done, 0, "pass\n", "");
}

/// 7 has 9 from 5 and 6 in round 1, one group, and 7 from 1 and 4 in round 2, which no group has.
fn a_run(checks: &mut Checks) {
    let states = [
        "820001000007",
        "820101010007",
        "820201010007",
        "820301010007",
        "820401010007",
        "820502000000",
        "820602000000",
        "820701020007",
    ];
    for form in ["txt", "hex"] {
        let file = format!("plans/runs/cable.{form}");
        let done = checks.call(&["run", &file]);
        checks.ends(&format!("run of {file}"), &done, 0, &lines(&states), "");
        let gate = if form == "txt" { " (pit gate)" } else { "" };
        let told = [
            "round 0: 0, the source, has 7".to_string(),
            format!("round 1: bad 5 says 9 to 7{gate}; bad 6 says 9 to 7{gate}; 1 takes 7; 2 takes 7; 3 takes 7; 4 takes 7"),
            format!("round 2: 7{gate} takes 7"),
            "round 3: nobody takes".to_string(),
            "after 3 rounds: 6 of 6 good terminals have layout 7, the last since round 2; waiting: none; bad: 5, 6".to_string(),
        ];
        let done = checks.call(&["trace", &file]);
        checks.ends(&format!("trace of {file}"), &done, 0, &lines(&told), "");
        let done = checks.call(&["explain", &file]);
        let gate = format!("terminal 7{gate}: took layout 7 in round 2");
        checks.has_line(&format!("explain of {file}"), &done.out, &gate);
    }
    let done = checks.call(&["trace", "--csv", "plans/runs/cable.txt"]);
    checks.has_line("trace --csv", &done.out, "2,7,taken,2,7");
    let done = checks.call(&["check", "plans/runs/cable.txt"]);
    checks.ends("check of the run's plan", &done, 0, "pass\n", "");
    let text = read(&checks.top.join("plans/runs/cable.txt"));
    let plain: Vec<&str> = text.lines().filter(|line| !line.starts_with('#')).collect();
    let done = checks.call(&["show", "plans/runs/cable.txt"]);
    checks.ends("show of the run", &done, 0, &lines(&plain), "");
    let frames = read(&checks.top.join("plans/runs/cable.hex"));
    let done = checks.call(&["plan", "plans/runs/cable.txt"]);
    checks.ends("plan of the run", &done, 0, &frames, "");
}

/// A file, the bad ones, the status, and the answer.
struct WithBad(&'static str, &'static [&'static str], i32, &'static str);

/// Of the quarry 6 and 7 are two rounds from the office.
const WITH_BAD: [WithBad; 11] = [
    WithBad("supplies", &["6", "5"], 3, "5 and 6 may be bad: they are both in group C (5, 6)\nif they stay silent, these wait for ever: 7 (pit gate)"),
    WithBad("supplies", &["3", "4"], 3, "3 and 4 may be bad: they are both in group B (3, 4)\nif they stay silent, these wait for ever: 7 (pit gate)"),
    WithBad("supplies", &["1", "2"], 0, "1 and 2 may be bad: they are both in group A (1, 2)\nif they stay silent, all others have the notice after 2 rounds"),
    WithBad("supplies", &["7"], 0, "7 may be bad: it is in group D (7)\nif they stay silent, all others have the notice after 2 rounds"),
    WithBad("supplies", &["4", "5"], 1, "no: 4 and 5 may not be bad: no group has both 4 and 5 (cause 8)"),
    WithBad("supplies", &["1", "2", "3"], 1, "no: 1, 2 and 3 may not be bad: no group has all of 1, 2 and 3 (cause 8)"),
    WithBad("f-groups", &["4"], 1, "no: 4 may not be bad: no group has 4 (cause 8)"),
    WithBad("f-groups", &["1", "3"], 1, "no: 1 and 3 may not be bad: no group has both 1 and 3 (cause 8)"),
    WithBad("f-groups", &["1"], 0, "1 may be bad: it is in group A (1, 2)\nif they stay silent, all others have the notice after 2 rounds"),
    WithBad("f-groups", &["0", "4"], 1, "no: 0 and 4 may not be bad: bad 0: it is the source, which is good (cause 7)"),
    WithBad("f-groups", &["4", "9"], 1, "no: 4 and 9 may not be bad: bad 9: the terminals are 0 to 4 (cause 7)"),
];

fn with_bad(checks: &mut Checks, WithBad(name, bad, status, told): WithBad) {
    let file = format!("plans/{name}.txt");
    let words = [&["with-bad", &file], bad].concat();
    let done = checks.call(&words);
    let wanted = format!("{told}\n");
    checks.ends(&format!("{words:?}"), &done, status, &wanted, "");
}
