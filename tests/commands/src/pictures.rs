//! Pictures: the links, terminals, source and roles that they show are the file's.

use crate::checks::{read, Checks};
use crate::svg::{elements, Element};
use std::collections::{BTreeMap, BTreeSet};

pub type Spot = (f64, f64);
pub type Links = BTreeSet<(u8, u8)>;

pub fn check(checks: &mut Checks) {
    verdicts(checks);
    dense_plan(checks);
    names_and_places(checks);
    mended(checks);
    runs(checks);
    titles(checks);
    let drawn = checks.call(&["draw", "plans/h.txt"]).out;
    let committed = read(&checks.top.join("docs/drawing-h.svg"));
    checks.same("docs/drawing-h.svg", &committed, &drawn);
}

/// What a picture shows.
pub struct Shown {
    pub all: Vec<Element>,
    pub at: BTreeMap<u8, Spot>,
    pub links: Links,
    pub new_links: Links,
    lines: usize,
    roles: BTreeMap<u8, String>,
}

pub fn distance(one: Spot, other: Spot) -> f64 {
    (one.0 - other.0).hypot(one.1 - other.1)
}

fn read_picture(svg: &str) -> Shown {
    let all = elements(svg).expect("a picture with every tag closed");
    let label = |one: &&Element| one.tag == "text" && one.is("label");
    let at: BTreeMap<u8, Spot> = all
        .iter()
        .filter(label)
        .map(|one| {
            let middle = one.number("y") - 0.36 * one.number("font-size");
            (
                one.text.parse().expect("a number"),
                (one.number("x"), middle),
            )
        })
        .collect();
    let heads = |class: &str| -> Links {
        let heads = all
            .iter()
            .filter(|one| one.is(class) && one.group.is_none());
        heads.map(|head| link_of(&at, &head.corners())).collect()
    };
    let line = |one: &&Element| one.tag == "line" && one.is("link") && one.group.is_none();
    Shown {
        links: heads("head"),
        new_links: heads("new-head"),
        lines: all.iter().filter(line).count(),
        roles: roles(&all, &at),
        at,
        all,
    }
}

/// The hearer is the nearest to a head's tip, the sender the one that the head points away from.
pub fn link_of(at: &BTreeMap<u8, Spot>, corners: &[Spot]) -> (u8, u8) {
    let [tip, left, right] = corners else {
        panic!("a head has three corners");
    };
    let base = ((left.0 + right.0) / 2.0, (left.1 + right.1) / 2.0);
    let back = (base.1 - tip.1).atan2(base.0 - tip.0);
    let nearest =
        |one: &&u8, other: &&u8| distance(at[one], *tip).total_cmp(&distance(at[other], *tip));
    let hearer = *at.keys().min_by(nearest).expect("terminals");
    let turn = |one: &u8| {
        let way = (at[one].1 - tip.1).atan2(at[one].0 - tip.0) - back;
        way.sin().atan2(way.cos()).abs()
    };
    let others = at.keys().filter(|one| **one != hearer);
    let sender = *others
        .min_by(|one, other| turn(one).total_cmp(&turn(other)))
        .expect("another");
    (sender, hearer)
}

/// Each outline's role, and that its shape is the role's: no two roles share a shape.
fn roles(all: &[Element], at: &BTreeMap<u8, Spot>) -> BTreeMap<u8, String> {
    let mut roles = BTreeMap::new();
    for (place, group) in all.iter().enumerate().filter(|(_, one)| one.is("terminal")) {
        let outline = all.iter().rfind(|one| one.group == Some(place));
        let outline = outline.expect("an outline");
        let (shape, middle) = match outline.tag.as_str() {
            "circle" => ("circle", (outline.number("cx"), outline.number("cy"))),
            "rect" => {
                let half = outline.number("width") / 2.0;
                (
                    "rect",
                    (outline.number("x") + half, outline.number("y") + half),
                )
            }
            _ => {
                let corners = outline.corners();
                let sum = corners
                    .iter()
                    .fold((0.0, 0.0), |sum, one| (sum.0 + one.0, sum.1 + one.1));
                ("polygon", (sum.0 / 4.0, sum.1 / 4.0))
            }
        };
        let role = group.get("class").trim_start_matches("terminal ");
        let wanted = match role {
            "bad" => "rect",
            "cut-off" => "polygon",
            _ => "circle",
        };
        assert_eq!(shape, wanted, "the shape of {role}");
        let here = at.iter().find(|(_, spot)| distance(**spot, middle) < 1.0);
        roles.insert(*here.expect("a number in the outline").0, role.to_string());
    }
    roles
}

fn links_of(frames: &str) -> Links {
    let number = |line: &str, at: usize| u8::from_str_radix(&line[at..at + 2], 16).expect("digits");
    let links = frames.lines().filter(|line| line.starts_with("02"));
    links
        .map(|line| (number(line, 2), number(line, 4)))
        .collect()
}

pub fn drawn(checks: &Checks, words: &[&str], input: &str) -> Shown {
    let done = checks.call_with(&[&["draw"], words].concat(), input.as_bytes());
    assert_eq!(done.status, 0, "draw {words:?}: {}", done.err);
    read_picture(&done.out)
}

/// Of the plan's frames and of its text, each with its name.
pub fn both_forms(checks: &Checks, plan: &str) -> [(String, Shown); 2] {
    ["hex", "txt"].map(|form| {
        let name = format!("{plan}.{form}");
        let shown = drawn(checks, &[&format!("plans/{name}")], "");
        (name, shown)
    })
}

pub fn with_role(shown: &Shown, role: &str) -> String {
    let those = shown.roles.iter().filter(|(_, one)| *one == role);
    let numbers: Vec<String> = those.map(|(terminal, _)| terminal.to_string()).collect();
    numbers.join(" ")
}

pub fn texts(shown: &Shown, class: &str) -> String {
    let those = shown
        .all
        .iter()
        .filter(|one| one.tag == "text" && one.is(class));
    those
        .map(|one| one.text.as_str())
        .collect::<Vec<_>>()
        .join("|")
}

/// Name, what it says, F, L, R and the number of lines.
const VERDICTS: [(&str, &str, [&str; 3], usize); 6] = [
    ("h", FAILS, ["1 3", "0 2 4", "5 6"], 9),
    ("a", "This plan passes", ["", "", ""], 1),
    ("b", FAILS, ["", "0", "1"], 0),
    ("i", "This plan passes", ["", "", ""], 9),
    ("quarry", FAILS, ["6", "0 1 2 3 4 5 7", "8 9 10 11"], 29),
    ("port", FAILS, ["0 5", "1 2 3 4", "6 7 8 9 10 11"], 24),
];
const FAILS: &str = "This plan fails";

fn verdicts(checks: &mut Checks) {
    for (name, says, sets, lines) in VERDICTS {
        let file = format!("plans/{name}.hex");
        let shown = drawn(checks, &[&file], "");
        let wanted = links_of(&read(&checks.top.join(&file)));
        checks.holds(&format!("links of {name}"), shown.links == wanted);
        checks.same(
            &format!("lines of {name}"),
            &lines.to_string(),
            &shown.lines.to_string(),
        );
        checks.same(&format!("{name} says"), says, &texts(&shown, "says"));
        let mark = if says == FAILS {
            "mark fail"
        } else {
            "mark pass"
        };
        let marks = shown.all.iter().filter(|one| one.is("mark"));
        let marks: Vec<&str> = marks.map(|one| one.get("class")).collect();
        checks.same(&format!("mark of {name}"), mark, &marks.join("|"));
        for (role, wanted) in ["bad", "reached", "cut-off"].into_iter().zip(sets) {
            checks.same(
                &format!("{role} of {name}"),
                wanted,
                &with_role(&shown, role),
            );
        }
        nothing_covers(checks, name, &shown);
    }
}

/// Labels come after all lines; the heading is above the terminals and the legend below; the source
/// is named beside its terminal.
fn nothing_covers(checks: &mut Checks, name: &str, shown: &Shown) {
    let is_arrow = |one: &Element| one.group.is_none() && (one.is("link") || one.is("head"));
    let last_line = shown.all.iter().rposition(is_arrow);
    let first_label = shown.all.iter().position(|one| one.is("label"));
    checks.holds(
        &format!("{name}: labels over lines"),
        last_line < first_label,
    );
    let heights = || shown.at.values().map(|spot| spot.1);
    let (high, low) = (
        heights().fold(f64::MAX, f64::min),
        heights().fold(f64::MIN, f64::max),
    );
    let heading = shown
        .all
        .iter()
        .filter(|one| one.is("facts") || one.is("why"));
    let heading = heading.map(|one| one.number("y")).fold(0.0, f64::max);
    let above = heading > 0.0 && heading < high - 30.0;
    checks.holds(&format!("{name}: heading above"), above);
    let keys = shown.all.iter().filter(|one| one.is("key"));
    let legend = keys.filter_map(height_of_key).fold(f64::MAX, f64::min);
    let below = legend > low + 30.0 && legend < f64::MAX;
    checks.holds(&format!("{name}: legend below"), below);
    checks.same(
        &format!("{name}: the source"),
        "source",
        &texts(shown, "beside"),
    );
}

pub fn height_of_key(key: &Element) -> Option<f64> {
    let place = key.get("transform").trim_end_matches(')');
    place.rsplit(' ').next()?.parse().ok()
}

/// All 380 links: each line thin and pale but the source's, which cost the most, and every terminal's
/// outline not.
fn dense_plan(checks: &mut Checks) {
    let rows = (0..19).map(|from| {
        let hearers: String = (from + 1..20).map(|to| format!(" {to}")).collect();
        format!("{from} -{hearers}\n")
    });
    let text = format!(
        "terminals 20\nsource 0\nbound 19\n{}",
        rows.collect::<String>()
    );
    let shown = drawn(checks, &[], &text);
    checks.same(
        "links of a full plan",
        "380",
        &shown.links.len().to_string(),
    );
    let pale = |one: &&Element| {
        one.is("link")
            && one.group.is_none()
            && one.number("stroke-width") < 0.7
            && one.number("stroke-opacity") < 0.3
    };
    checks.same(
        "pale lines",
        "171",
        &shown.all.iter().filter(pale).count().to_string(),
    );
    let outlines = shown.all.iter().filter(|one| {
        one.tag == "circle" && one.group.is_some() && one.number("stroke-width") >= 2.0
    });
    checks.holds("dark outlines", outlines.count() >= 20);
}

/// Three in a row as placed; one without a place stands below them. A name is written as it is.
fn names_and_places(checks: &mut Checks) {
    let text = "site \"Pit <1> & 2\"\nterminals 4\nsource 0\nbound 0\n0 > 1 2 3\nname 2 \"a < b\"\nat 0 10 5\nat 2 20 5\nat 1 40 15\n";
    let shown = drawn(checks, &[], text);
    let at = |terminal: u8| shown.at[&terminal];
    let scale = (at(1).0 - at(0).0) / 30.0;
    checks.holds("places have a scale", scale > 1.0);
    let near = |got: f64, wanted: f64| (got - wanted).abs() < 0.2;
    checks.holds("2 across", near(at(2).0 - at(0).0, 10.0 * scale));
    checks.holds("2 down", near(at(2).1, at(0).1));
    checks.holds("1 down", near(at(1).1 - at(0).1, 10.0 * scale));
    checks.holds("3 below all", at(3).1 > at(1).1 + 50.0);
    checks.same("names", "source|a &lt; b", &texts(&shown, "beside"));
    checks.same("title", "Pit &lt;1&gt; &amp; 2", &texts(&shown, "title"));
    let round = drawn(checks, &["plans/a.hex"], "");
    checks.holds("on a circle 0 is on top", round.at[&0].1 < round.at[&1].1);
}

/// Drawing E with its one mend; a pass has none.
fn mended(checks: &mut Checks) {
    let shown = drawn(checks, &["--mend", "plans/e.txt"], "");
    checks.holds(
        "the new link of E",
        shown.new_links == BTreeSet::from([(0, 3)]),
    );
    checks.same("the old ones of E", "4", &shown.links.len().to_string());
    let dashed = shown.all.iter().filter(|one| {
        one.is("new-link") && one.group.is_none() && !one.get("stroke-dasharray").is_empty()
    });
    checks.same("dashed", "1", &dashed.count().to_string());
    let plain = drawn(checks, &["plans/e.txt"], "");
    checks.holds("none without --mend", plain.new_links.is_empty());
    let passes = drawn(checks, &["--mend", "plans/a.txt"], "");
    checks.holds("none for a pass", passes.new_links.is_empty());
}

/// Who took, who waits, who is bad: as traced by hand in runs.rs.
fn runs(checks: &mut Checks) {
    let shown = drawn(checks, &["runs/silence.txt"], "");
    checks.same("run: bad", "1 3", &with_role(&shown, "bad"));
    checks.same("run: took", "0 2 4", &with_role(&shown, "reached"));
    checks.same("run: waits", "5 6", &with_role(&shown, "cut-off"));
    checks.same(
        "run: rounds",
        "source, round 0|round 1|round 1",
        &texts(&shown, "beside"),
    );
    checks.same(
        "run: says",
        "A run: 3 of 5 good terminals took a layout",
        &texts(&shown, "says"),
    );
}

fn titles(checks: &mut Checks) {
    let table = [
        (vec!["plans/h.txt"], "", "h.txt"),
        (vec!["plans/pit.txt"], "", "Gravel pit"),
        (vec![], "terminals 2\nsource 0\nbound 0\n0 > 1\n", ""),
    ];
    for (words, input, title) in table {
        let shown = drawn(checks, &words, input);
        checks.same(
            &format!("title of {words:?}"),
            title,
            &texts(&shown, "title"),
        );
    }
}
