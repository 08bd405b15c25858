//! The committed plans: document 01's drawings, and the sites, whose sets are the second
//! implementation's. Text and frames say the same, both ways. Those with groups are in groups.rs.

use crate::bad_sets::Site;
use crate::checks::{lines, read, Checks};
use crate::composer::opening;
use crate::groups;

/// A verdict as the paper has it; the sets of a pass are the rounds until the last one takes if
/// nobody is bad, worked out by hand.
enum Outcome {
    Pass(u8),
    Fail(&'static [u8], &'static [u8], &'static [u8]),
}
use Outcome::{Fail, Pass};

struct Row(&'static str, u8, u8, &'static str, Outcome);

/// Name, n, f, links and outcome; the source is 0.
const DRAWINGS: [Row; 9] = [
    Row("a", 2, 0, "0>1", Pass(1)),
    Row("b", 2, 0, "", Fail(&[], &[0], &[1])),
    Row("c", 3, 0, "0>1 1>2", Pass(2)),
    Row("d", 3, 1, "0>1 1>2", Fail(&[], &[0, 1], &[2])),
    Row("e", 4, 1, "0>1 0>2 1>3 2>3", Fail(&[1], &[0, 2], &[3])),
    Row("f", 5, 1, "0>1 0>2 0>3 1>4 2>4 3>4", Pass(2)),
    Row(
        "g",
        5,
        2,
        "0>1 0>2 0>3 1>4 2>4 3>4",
        Fail(&[1], &[0, 2, 3], &[4]),
    ),
    Row(
        "h",
        7,
        1,
        "0>1 0>2 0>3 0>4 1>5 2>5 3>6 4>6 5>6 6>5",
        Fail(&[1, 3], &[0, 2, 4], &[5, 6]),
    ),
    Row(
        "i",
        7,
        1,
        "0>1 0>2 0>3 0>4 1>0 1>5 2>0 2>5 3>0 3>6 4>0 4>6 5>6 6>5",
        Pass(2),
    ),
];

/// In the grain merchant's line, where each hears three on either side, 1 to 3 take in round 1, 4
/// and 5 in round 2, 6 and 7 in round 3, 8 and 9 in round 4.
const SITES: [Row; 4] = [
    Row("grain", 10, 1, "", Pass(4)),
    Row(
        "pit",
        11,
        1,
        "",
        Fail(&[2], &[0, 1, 3], &[4, 5, 6, 7, 8, 9, 10]),
    ),
    Row(
        "port",
        12,
        1,
        "",
        Fail(&[0, 5], &[1, 2, 3, 4], &[6, 7, 8, 9, 10, 11]),
    ),
    Row(
        "quarry",
        12,
        1,
        "",
        Fail(&[6], &[0, 1, 2, 3, 4, 5, 7], &[8, 9, 10, 11]),
    ),
];

pub fn check(checks: &mut Checks) {
    for row in &DRAWINGS {
        drawn_frames(checks, row);
    }
    for row in DRAWINGS.iter().chain(&SITES) {
        judged(checks, row);
        both_ways(checks, row.0);
    }
    refused_drawing(checks);
    let known = DRAWINGS.iter().chain(&SITES).map(|row| row.0);
    let mut known: Vec<&str> = known.chain(["j"]).chain(groups::PLANS).collect();
    known.sort_unstable();
    let files = files_in(checks, &["plans"]);
    let mut there: Vec<&str> = files
        .iter()
        .filter_map(|file| file.strip_prefix("plans/")?.strip_suffix(".txt"))
        .collect();
    there.sort_unstable();
    checks.same("plans with a row here", &known.join(" "), &there.join(" "));
}

/// The committed plans and runs in these folders, in both forms, by name.
pub fn files_in(checks: &Checks, folders: &[&str]) -> Vec<String> {
    let mut files = Vec::new();
    for folder in folders {
        for entry in std::fs::read_dir(checks.top.join(folder)).expect("a folder of plans") {
            let name = entry.expect("a file").file_name();
            let name = name.to_string_lossy();
            if name.ends_with(".txt") || name.ends_with(".hex") {
                files.push(format!("{folder}/{name}"));
            }
        }
    }
    files.sort_unstable();
    files
}

/// The committed frames are those of document 01's table.
fn drawn_frames(checks: &mut Checks, Row(name, n, f, links, _): &Row) {
    let mut frames = vec![format!("01{n:02x}00{f:02x}")];
    for link in links.split_whitespace() {
        let (from, to) = link.split_once('>').expect("a link");
        frames.push(format!("020{from}0{to}"));
    }
    let committed = read(&checks.top.join(format!("plans/{name}.hex")));
    checks.same(
        &format!("frames of drawing {name}"),
        &lines(&frames),
        &committed,
    );
}

fn bits(set: &[u8]) -> String {
    let set = set.iter().fold(0, |set, terminal| set | 1 << terminal);
    format!("{set:06x}")
}

fn commas(set: &[u8]) -> String {
    if set.is_empty() {
        return "none".into();
    }
    let words: Vec<String> = set.iter().map(u8::to_string).collect();
    words.join(", ")
}

fn rounds(count: u8) -> String {
    if count == 1 {
        return "1 round".into();
    }
    format!("{count} rounds")
}

/// The drawing in which a terminal hears nobody: as a new plan it is refused. deaf.rs has the words.
const FOR_THE_ARCHIVE: &str = "b";

/// Archive and check, of the frames and of the text.
fn judged(checks: &mut Checks, row: &Row) {
    let Row(name, _, _, _, outcome) = row;
    let (frame, word, status) = match outcome {
        Pass(_) => ("8100000000000000000000\n".to_string(), "pass\n", 0),
        Fail(bad, reached, cut) => (
            format!("8101{}{}{}\n", bits(bad), bits(reached), bits(cut)),
            "fail\n",
            3,
        ),
    };
    for form in ["hex", "txt"] {
        let file = format!("plans/{name}.{form}");
        let done = checks.call(&["archive", &file]);
        checks.same(&format!("archive of {file}"), &frame, &done.out);
        let done = checks.call(&["check", &file]);
        checks.same(&format!("check of {file}"), word, &done.out);
        checks.same(
            &format!("status of {file}"),
            &status.to_string(),
            &done.status.to_string(),
        );
    }
    if *name != FOR_THE_ARCHIVE {
        judged_as_new(checks, row, &frame);
    }
}

/// Verdict of both, and explain of the frames. None has more terminals than the quoting desk takes.
fn judged_as_new(checks: &mut Checks, row: &Row, frame: &str) {
    let Row(name, n, _, _, outcome) = row;
    for form in ["hex", "txt"] {
        let file = format!("plans/{name}.{form}");
        for word in ["verdict", "quote"] {
            let done = checks.call(&[word, &file]);
            checks.same(&format!("{word} of {file}"), frame, &done.out);
        }
    }
    let wanted = match outcome {
        Pass(last) => format!(
            "pass: whatever a bad set says, every good terminal has the source's layout after {} (n-1)\nif nobody is bad, the last one has it after {}\n",
            rounds(n - 1),
            rounds(*last)
        ),
        Fail(..) => failed(checks, row),
    };
    let frames = read(&checks.top.join(format!("plans/{name}.hex")));
    let done = checks.call(&["explain", &format!("plans/{name}.hex")]);
    let wanted = opening(frame) + frame + &wanted + &Site::of(&frames).told();
    checks.ends(&format!("explain {name}"), &done, 0, &wanted, "");
}

/// Who hears how many of L is counted from the committed frames.
fn failed(checks: &Checks, row: &Row) -> String {
    let Row(name, _, f, _, Fail(bad, reached, cut)) = row else {
        unreachable!("a pass");
    };
    let why = match bad.len() {
        0 => "even with no bad terminal",
        _ => "if the bad ones only stay silent",
    };
    let mut told = vec![
        format!("fail: {why}, the cut-off ones wait for ever"),
        format!("bad (F): {}", commas(bad)),
        format!("reached (L): {}", commas(reached)),
        format!("cut off (R): {}", commas(cut)),
    ];
    let frames = read(&checks.top.join(format!("plans/{name}.hex")));
    for terminal in *cut {
        let heard: Vec<u8> = reached
            .iter()
            .copied()
            .filter(|from| frames.contains(&format!("02{from:02x}{terminal:02x}\n")))
            .collect();
        let whom = match heard.len() {
            0 => "no reached terminal".to_string(),
            1 => format!("1 reached terminal ({})", heard[0]),
            more => format!("{more} reached terminals ({})", commas(&heard)),
        };
        told.push(format!(
            "terminal {terminal} hears {whom} and needs {}, or the source",
            f + 1
        ));
    }
    if !bad.is_empty() {
        told.push(format!(
            "the bound, {f}, counts the bad ones that one good terminal hears, not those of the site ({})",
            bad.len()
        ));
    }
    lines(&told)
}

/// The committed text without its comments is in the fixed form, names and places kept.
pub fn both_ways(checks: &mut Checks, name: &str) {
    let frames = read(&checks.top.join(format!("plans/{name}.hex")));
    let text = read(&checks.top.join(format!("plans/{name}.txt")));
    let plain: Vec<&str> = text.lines().filter(|line| !line.starts_with('#')).collect();
    let in_frames =
        |line: &&&str| !["site", "name", "at"].contains(&line.split(' ').next().unwrap_or(""));
    let bare: Vec<&str> = plain.iter().filter(in_frames).copied().collect();
    let file = format!("plans/{name}.txt");
    let planned = checks.call(&["plan", &file]);
    checks.same(&format!("plan of {file}"), &frames, &planned.out);
    let shown = checks.call(&["show", &file]);
    checks.same(&format!("show of {file}"), &lines(&plain), &shown.out);
    let shown = checks.call(&["show", &format!("plans/{name}.hex")]);
    checks.same(
        &format!("show of plans/{name}.hex"),
        &lines(&bare),
        &shown.out,
    );
    let again = checks.call_with(&["plan"], shown.out.as_bytes());
    checks.same(&format!("plan of show of {name}"), &frames, &again.out);
}

fn refused_drawing(checks: &mut Checks) {
    let done = checks.call(&["verdict", "plans/j.hex"]);
    checks.ends("verdict of j", &done, 1, "ff040001\n", "");
    let why = "refused, line 2 (terminals 1): 2 to 20 terminals are allowed (cause 4)";
    for word in [
        "plan", "verdict", "archive", "quote", "sentence", "margins", "greatest", "links", "check",
        "explain", "draw", "show", "mend",
    ] {
        let done = checks.call(&[word, "plans/j.txt"]);
        checks.tells(&format!("{word} of j.txt"), &done, 1, why);
    }
}
