//! Runs on a shared channel in pictures: a frame around all terminals, and a bad source.

use crate::checks::Checks;
use crate::edition_pictures::{legend, marked, says, shows};
use crate::pictures::{distance, drawn, height_of_key, texts, Shown};
use crate::svg::Element;

pub fn check(checks: &mut Checks) {
    silent_office(checks);
    shared(checks);
    waiting(checks);
    other_sources(checks);
    elsewhere(checks);
}

const WORDS: &str = "one channel for all: a word reaches all who hear its sender; default layout";

/// As traced by hand in shared.rs.
fn silent_office(checks: &mut Checks) {
    let shown = drawn(checks, &["runs/silent-office.txt"], "");
    let label = "silent-office";
    shows(checks, label, &shown, ["0 1", "2 3 4", "", ""]);
    says(
        checks,
        label,
        &shown,
        "A run: 3 of 3 good terminals took a layout",
        "After 3 rounds; the source is bad and said nothing in round 1.",
        "office, source|round 1|round 1|gate, round 2",
    );
    marked(checks, label, &shown, "mark pass");
    framed(checks, label, &shown);
    let facts = "5 terminals, source 0, bound 1, 6 links, one shared channel (default 5)";
    checks.same("silent-office: facts", facts, &texts(&shown, "facts"));
    let channel = format!("{WORDS} 5");
    let wanted = [
        "bad: 0 (office), 1",
        "took layout 5, beside it when: 2, 3, 4 (gate)",
        "waiting: none",
        &channel,
        "the source: 0 (office)",
    ];
    let rows = legend(&shown);
    checks.same(
        "silent-office: legend",
        &wanted.join("|"),
        &rows[..5.min(rows.len())].join("|"),
    );
}

fn shared(checks: &mut Checks) {
    for file in ["plans/runs/shared.txt", "plans/runs/shared.hex"] {
        let shown = drawn(checks, &[file], "");
        shows(checks, file, &shown, ["0 1", "2 3 4", "", ""]);
        says(
            checks,
            file,
            &shown,
            "A run: 3 of 3 good terminals took a layout",
            "After 4 rounds; the source is bad and said 9 in round 1.",
            "source|round 1|round 1|round 2",
        );
        marked(checks, file, &shown, "mark pass");
        framed(checks, file, &shown);
        let took = "took layout 9, beside it when: 2, 3, 4";
        checks.holds(&format!("{file}: took"), legend(&shown).contains(&took));
    }
}

/// Drawing E: 3 has the layout from 2 alone.
fn waiting(checks: &mut Checks) {
    let text = "terminals 4\nsource 0\nbound 1\n0 > 1 2\n1 > 3\n2 > 3\nshared channel, default 5\nbad 0 1\nvalue 7\nround 1: 0 says 9\n";
    let shown = drawn(checks, &[], text);
    let label = "3 waits";
    shows(checks, label, &shown, ["0 1", "2", "", "3"]);
    marked(checks, label, &shown, "mark fail");
    framed(checks, label, &shown);
    says(
        checks,
        label,
        &shown,
        "A run: 1 of 2 good terminals took a layout",
        "After 3 rounds; the source is bad and said 9 in round 1.",
        "source|round 1",
    );
}

/// A good one, one whose word nobody has heard yet, and groups, whose letters are in the frame too.
fn other_sources(checks: &mut Checks) {
    let plan = "terminals 3\nsource 1\nbound 0\n1 > 0 2\nshared channel, default 65535\nvalue 7\n";
    let table = [
        (
            "rounds 2",
            "The source's layout is 7, after 2 rounds.",
            ["", "0 1 2", "", ""],
            "mark pass",
        ),
        (
            "bad 1\nrounds 0",
            "After 0 rounds; the source is bad.",
            ["1", "", "", "0 2"],
            "mark fail",
        ),
    ];
    for (run, why, roles, mark) in table {
        let shown = drawn(checks, &[], &format!("{plan}{run}\n"));
        shows(checks, run, &shown, roles);
        checks.same(&format!("{run}: why"), why, &texts(&shown, "why"));
        marked(checks, run, &shown, mark);
        framed(checks, run, &shown);
        let channel = format!("{WORDS} 65535");
        let told = legend(&shown).contains(&channel.as_str());
        checks.holds(&format!("{run}: the channel"), told);
    }
    let groups = "terminals 4\nsource 0\ngroup 1 2\ngroup 2 3\n0 - 1 2 3\nshared channel, default 5\nbad 0 1 2\nvalue 7\nname 2 \"gate\"\n";
    let shown = drawn(checks, &[], groups);
    shows(checks, "groups", &shown, ["0 1 2", "3", "", ""]);
    framed(checks, "groups", &shown);
}

/// One frame, with all terminals and the words beside them in it, under the heading and above the
/// legend; and a ring around the source's outline.
fn framed(checks: &mut Checks, label: &str, shown: &Shown) {
    let frames: Vec<&Element> = shown
        .all
        .iter()
        .filter(|one| one.is("channel") && one.group.is_none())
        .collect();
    checks.same(&format!("{label}: frames"), "1", &frames.len().to_string());
    let Some(frame) = frames.first() else {
        return;
    };
    let (left, top) = (frame.number("x"), frame.number("y"));
    let (right, bottom) = (left + frame.number("width"), top + frame.number("height"));
    let inside = |x: f64, y: f64, room: f64| {
        x > left + room && x < right - room && y > top + room && y < bottom - room
    };
    let all = shown.at.values().all(|(x, y)| inside(*x, *y, 20.0));
    checks.holds(&format!("{label}: terminals in the frame"), all);
    let beside = |one: &&Element| one.is("beside") || one.is("tag");
    let mut words = shown.all.iter().filter(|one| one.group.is_none());
    let words = words.by_ref().filter(beside);
    let in_it = words.into_iter().all(|one| {
        let letters = one.text.chars().count() as f64 * 7.5;
        let (x, y) = (one.number("x"), one.number("y"));
        let (from, to) = match one.get("text-anchor") {
            "start" => (x, x + letters),
            "end" => (x - letters, x),
            _ => (x - letters / 2.0, x + letters / 2.0),
        };
        inside(from, y - 11.0, 0.0) && inside(to, y + 4.0, 0.0)
    });
    checks.holds(&format!("{label}: words in the frame"), in_it);
    let heading = shown.all.iter().filter(|one| one.is("facts"));
    let heading = heading.map(|one| one.number("y")).fold(0.0, f64::max);
    checks.holds(&format!("{label}: heading above"), heading + 4.0 < top);
    let keys = shown.all.iter().filter(|one| one.is("key"));
    let key = keys.filter_map(height_of_key).fold(f64::MAX, f64::min);
    checks.holds(&format!("{label}: legend below"), bottom < key - 12.0);
    ringed(checks, label, shown);
}

/// The one terminal with a ring: its outline, a circle or a square, is inside.
fn ringed(checks: &mut Checks, label: &str, shown: &Shown) {
    let of = |place: usize| -> Vec<&Element> {
        let all = shown.all.iter();
        all.filter(|one| one.group == Some(place)).collect()
    };
    let groups = shown.all.iter().enumerate();
    let rings: Vec<bool> = groups
        .filter(|(_, one)| one.is("terminal"))
        .map(|(place, _)| of(place))
        .filter(|parts| parts.len() == 2 && parts[0].tag == "circle")
        .map(|parts| {
            let middle = (parts[0].number("cx"), parts[0].number("cy"));
            let outline = parts[1];
            let reach = match outline.tag.as_str() {
                "circle" => outline.number("r"),
                _ => distance(middle, (outline.number("x"), outline.number("y"))),
            };
            reach + 2.0 < parts[0].number("r")
        })
        .collect();
    checks.holds(&format!("{label}: the source's ring"), rings == [true]);
}

/// No frame in other runs, of plans, or of what mends the plan under such a run.
fn elsewhere(checks: &mut Checks) {
    for words in [
        &["plans/h.txt"][..],
        &["runs/liars.txt"],
        &["runs/mind-changed.txt"],
        &["--mend", "plans/runs/shared.txt"],
    ] {
        let shown = drawn(checks, words, "");
        let frames = shown.all.iter().filter(|one| one.is("channel")).count();
        checks.same(&format!("{words:?}: frames"), "0", &frames.to_string());
        let facts = texts(&shown, "facts");
        checks.holds(&format!("{words:?}: facts"), !facts.contains("channel"));
    }
}
