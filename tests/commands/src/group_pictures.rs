//! Groups in pictures: beside each member the letters of its groups, and a row for each group in
//! the legend; nothing of it in a plan with a bound.

use crate::checks::Checks;
use crate::pictures::{distance, drawn, height_of_key, texts, Shown, Spot};
use crate::svg::Element;
use std::collections::{BTreeMap, BTreeSet};

pub fn check(checks: &mut Checks) {
    for picture in PICTURES {
        shows(checks, &picture);
    }
    for (label, text) in [
        ("overlapping", OVERLAPPING.to_string()),
        ("all in all", all_in_all()),
    ] {
        readable(checks, label, &drawn(checks, &[], &text));
    }
    for file in ["plans/supplies.txt", "plans/runs/cable.txt"] {
        readable(checks, file, &drawn(checks, &[file], ""));
    }
    let mended = drawn(checks, &["--mend", "plans/f-groups.hex"], "");
    let wanted = BTreeSet::from([(0, 4)]);
    checks.holds("the new link of drawing F", mended.new_links == wanted);
    checks.same("its letters", "1 A|2 A|3 B", &letters(&mended));
    let bound = drawn(checks, &["plans/pit.txt"], "");
    checks.same("no letters with a bound", "", &texts(&bound, "tag"));
}

/// Twelve on a circle; a board in several groups, a group in another, one without members.
const OVERLAPPING: &str = "terminals 12\nsource 3\ngroup 0 1 2\ngroup 1 2 4\ngroup 2\ngroup none\ngroup 6 7 8 9 10 11\n0 - 1 2 10 11\n1 - 2 3 11\n2 - 3 4\n3 - 4 5\n4 - 5 6\n5 - 6 7\n6 - 7 8\n7 - 8 9\n8 - 9 10\n9 - 10 11\n10 - 11\nname 0 \"north berth\"\nname 6 \"south berth\"\nname 9 \"west berth\"\n";

/// Sixteen groups of all but the source, and names: the most that has to be told apart.
fn all_in_all() -> String {
    let members: String = (1..20).map(|one| format!(" {one}")).collect();
    let names: String = (0..20)
        .map(|one| format!("name {one} \"berth {one}\"\n"))
        .collect();
    let groups = format!("group{members}\n").repeat(16);
    format!("terminals 20\nsource 0\n{groups}0 >{members}\n{names}")
}

struct Picture {
    words: &'static [&'static str],
    input: &'static str,
    /// Terminals with their letters, ascending.
    letters: &'static str,
    legend: &'static [&'static str],
    facts: &'static str,
}

const PICTURES: [Picture; 4] = [
    Picture {
        words: &["plans/f-groups.txt"],
        input: "",
        letters: "1 A|2 A|3 B",
        legend: &["group A: 1, 2", "group B: 3"],
        facts: "5 terminals, source 0, 2 groups (a bad set is any part of one), 6 links",
    },
    Picture {
        words: &["plans/supplies.txt"],
        input: "",
        letters: "1 A|2 A|3 B|4 B|5 C|6 C|7 D",
        legend: &[
            "group A: 1, 2",
            "group B: 3, 4",
            "group C: 5, 6",
            "group D: 7",
        ],
        facts: "8 terminals, source 0, 4 groups (a bad set is any part of one), 28 links",
    },
    // A run shows them too.
    Picture {
        words: &["plans/runs/cable.hex"],
        input: "",
        letters: "1 A|2 A|3 B|4 B|5 C|6 C|7 D",
        legend: &[
            "group A: 1, 2",
            "group B: 3, 4",
            "group C: 5, 6",
            "group D: 7",
        ],
        facts: "8 terminals, source 0, 4 groups (a bad set is any part of one), 30 links",
    },
    Picture {
        words: &[],
        input: OVERLAPPING,
        letters: "0 A|1 AB|2 ABC|4 B|6 E|7 E|8 E|9 E|10 E|11 E",
        legend: &[
            "group A: 0, 1, 2",
            "group B: 1, 2, 4",
            "group C: 2",
            "group D: none",
            "group E: 6, 7, 8, 9, 10, 11",
        ],
        facts: "12 terminals, source 3, 5 groups (a bad set is any part of one), 48 links",
    },
];

fn tags(shown: &Shown) -> impl Iterator<Item = &Element> {
    let beside = |one: &&Element| one.is("tag") && one.group.is_none();
    shown.all.iter().filter(beside)
}

fn spot(text: &Element) -> Spot {
    (text.number("x"), text.number("y"))
}

/// The letters by the terminal that they stand nearest to.
fn letters(shown: &Shown) -> String {
    let mut all: BTreeMap<u8, String> = BTreeMap::new();
    for tag in tags(shown) {
        let far = |terminal: &&u8| distance(shown.at[terminal], spot(tag));
        let nearest = shown
            .at
            .keys()
            .min_by(|one, other| far(one).total_cmp(&far(other)));
        let letters = all.entry(*nearest.expect("a terminal")).or_default();
        *letters += &tag.text;
    }
    let told = all
        .iter()
        .map(|(terminal, letters)| format!("{terminal} {letters}"));
    told.collect::<Vec<_>>().join("|")
}

fn shows(checks: &mut Checks, picture: &Picture) {
    let shown = drawn(checks, picture.words, picture.input);
    let label = format!("picture of {:?}", picture.words);
    checks.same(
        &format!("{label}: letters"),
        picture.letters,
        &letters(&shown),
    );
    checks.same(
        &format!("{label}: facts"),
        picture.facts,
        &texts(&shown, "facts"),
    );
    let in_key = |one: &&Element| one.tag == "text" && one.group.is_some() && !one.is("tag");
    let rows = shown.all.iter().filter(in_key).map(|one| one.text.as_str());
    let rows: Vec<&str> = rows.filter(|row| row.starts_with("group ")).collect();
    checks.same(
        &format!("{label}: legend"),
        &picture.legend.join("|"),
        &rows.join("|"),
    );
    let samples = shown
        .all
        .iter()
        .filter(|one| one.is("tag") && one.group.is_some());
    let samples: String = samples.map(|one| one.text.as_str()).collect();
    let wanted: String = picture.legend.iter().map(|row| &row[6..7]).collect();
    checks.same(&format!("{label}: samples"), &wanted, &samples);
}

/// A box around words: bold capitals are wider than the letters of a name.
fn area(text: &Element) -> [f64; 4] {
    let (x, y) = spot(text);
    let letter = if text.is("tag") { 10.0 } else { 7.5 };
    let wide = letter * text.text.chars().count() as f64;
    let left = match text.get("text-anchor") {
        "start" => x,
        "end" => x - wide,
        _ => x - wide / 2.0,
    };
    [left, y - 11.0, left + wide, y + 3.0]
}

fn meet(one: &[f64; 4], other: &[f64; 4]) -> bool {
    one[0] < other[2] && other[0] < one[2] && one[1] < other[3] && other[1] < one[3]
}

/// No letters on other words, on a terminal, on the heading, in the legend or off the sheet; all
/// come after the lines.
fn readable(checks: &mut Checks, label: &str, shown: &Shown) {
    let words = |one: &&Element| (one.is("tag") || one.is("beside")) && one.group.is_none();
    let areas: Vec<[f64; 4]> = shown.all.iter().filter(words).map(area).collect();
    let pairs = (0..areas.len()).flat_map(|one| (0..one).map(move |other| (one, other)));
    let meeting = pairs.filter(|(one, other)| meet(&areas[*one], &areas[*other]));
    let label = |what: &str| format!("{label}: {what}");
    checks.same(&label("words that meet"), "0", &meeting.count().to_string());
    let around = |(x, y): Spot| [x - 12.0, y - 12.0, x + 12.0, y + 12.0];
    let covered = |at: &&Spot| areas.iter().any(|area| meet(area, &around(**at)));
    let covered = shown.at.values().filter(covered).count();
    checks.same(&label("covered terminals"), "0", &covered.to_string());
    let (heading, legend, width) = edges(shown);
    let between = |area: &[f64; 4]| area[1] > heading && area[3] < legend;
    let is = areas.iter().all(between);
    checks.holds(&label("under the heading, over the legend"), is);
    let inside = |area: &[f64; 4]| area[0] >= 0.0 && area[2] <= width;
    checks.holds(&label("on the sheet"), areas.iter().all(inside));
    let is_arrow = |one: &Element| one.group.is_none() && (one.is("link") || one.is("head"));
    let last_line = shown.all.iter().rposition(is_arrow);
    let first_tag = shown.all.iter().position(|one| one.is("tag"));
    checks.holds(&label("letters over lines"), last_line < first_tag);
}

/// Where the heading ends and the legend starts, and how wide the sheet is.
fn edges(shown: &Shown) -> (f64, f64, f64) {
    let heading = shown.all.iter().find(|one| one.is("facts"));
    let heading = heading.map_or(f64::MAX, |one| one.number("y") + 4.0);
    let keys = shown.all.iter().filter(|one| one.is("key"));
    let legend = keys.filter_map(height_of_key).fold(f64::MAX, f64::min);
    (heading, legend - 12.0, shown.all[0].number("width"))
}
