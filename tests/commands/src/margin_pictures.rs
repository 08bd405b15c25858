//! The margins in pictures: beside its terminal each, the thinnest bold, and told in the legend.

use crate::bad_sets::Site;
use crate::bounded::silent;
use crate::checks::{read, Checks};
use crate::pictures::{both_forms, distance, drawn, height_of_key, Shown};
use crate::svg::Element;

pub fn check(checks: &mut Checks) {
    for name in ["d", "e", "f", "h", "i", "grain", "pit", "port", "quarry"] {
        let frames = read(&checks.top.join(format!("plans/{name}.hex")));
        for (name, shown) in both_forms(checks, name) {
            margins(checks, &name, &frames, &shown);
        }
    }
    twenty(checks);
    none(checks);
    legends(checks);
    above_zero(checks);
}

fn labels(shown: &Shown) -> Vec<&Element> {
    let beside = |one: &&Element| one.is("margin") && one.group.is_none();
    shown.all.iter().filter(beside).collect()
}

/// "5:-1!" where it is one of the thinnest. A label is nearer to its terminal than to any other.
fn signs(shown: &Shown) -> String {
    let sign = |label: &&Element| {
        let place = (label.number("x"), label.number("y") - 5.0);
        let near = |one: &&u8, other: &&u8| {
            distance(shown.at[one], place).total_cmp(&distance(shown.at[other], place))
        };
        let terminal = *shown.at.keys().min_by(near).expect("a terminal");
        let bold = label.get("font-weight") == "bold";
        assert_eq!(bold, label.get("class") == "margin thinnest", "bold");
        let bang = if bold { "!" } else { "" };
        format!("{terminal}:{}{bang}", label.text)
    };
    let signs: Vec<String> = labels(shown).iter().map(sign).collect();
    signs.join(" ")
}

/// By trying every bad set.
fn wanted(frames: &str) -> String {
    let margins = Site::of(frames).margins();
    let least = margins.values().flatten().min().copied();
    let counted = margins
        .iter()
        .filter_map(|(terminal, margin)| Some((terminal, (*margin)?)));
    let signs: Vec<String> = counted
        .map(|(terminal, margin)| {
            let plus = if margin > 0 { "+" } else { "" };
            let bang = if Some(margin) == least { "!" } else { "" };
            format!("{terminal}:{plus}{margin}{bang}")
        })
        .collect();
    signs.join(" ")
}

fn margins(checks: &mut Checks, name: &str, frames: &str, shown: &Shown) {
    checks.same(
        &format!("margins in the picture of {name}"),
        &wanted(frames),
        &signs(shown),
    );
    apart(checks, name, shown);
}

/// How many pixels of its font's size a letter takes at most.
const LETTER: f64 = 0.7;

/// No label stands on another, on a name, or on a terminal; all are on the sheet, above the legend.
fn apart(checks: &mut Checks, name: &str, shown: &Shown) {
    let boxes: Vec<[f64; 4]> = labels(shown).iter().map(|one| extent(one)).collect();
    let names = shown.all.iter().filter(|one| one.is("beside"));
    let names: Vec<[f64; 4]> = names.map(extent).collect();
    for (at, one) in boxes.iter().enumerate() {
        let mut others = boxes[..at].iter().chain(&names);
        let free = others.all(|other| !overlap(one, other));
        checks.holds(&format!("{name}: labels apart"), free);
        let on_terminal = shown.at.values().any(|(x, y)| {
            let (dx, dy) = (x - x.clamp(one[0], one[2]), y - y.clamp(one[1], one[3]));
            dx.hypot(dy) < 15.0
        });
        checks.holds(&format!("{name}: labels beside terminals"), !on_terminal);
    }
    let sheet = &shown.all[0];
    let keys = shown.all.iter().filter(|one| one.is("key"));
    let legend = keys.filter_map(height_of_key).fold(f64::MAX, f64::min);
    let inside = |one: &[f64; 4]| {
        one[0] > 0.0 && one[2] < sheet.number("width") && one[1] > 130.0 && one[3] < legend - 10.0
    };
    checks.holds(
        &format!("{name}: labels on the sheet"),
        boxes.iter().all(inside),
    );
}

/// Left, top, right and bottom of a label's words.
fn extent(label: &Element) -> [f64; 4] {
    let size = label.number("font-size");
    let wide = label.text.len() as f64 * size * LETTER;
    let left = match label.get("text-anchor") {
        "start" => label.number("x"),
        "end" => label.number("x") - wide,
        _ => label.number("x") - wide / 2.0,
    };
    let base = label.number("y");
    [left, base - 0.75 * size, left + wide, base]
}

fn overlap(one: &[f64; 4], other: &[f64; 4]) -> bool {
    one[0] < other[2] && other[0] < one[2] && one[1] < other[3] && other[1] < one[3]
}

/// Each hears the four before it, the first four the source; on a circle.
fn twenty(checks: &mut Checks) {
    let mut frames = "01140001\n".to_string();
    for to in 1..20_u8 {
        for from in to.saturating_sub(4)..to {
            frames += &format!("02{from:02x}{to:02x}\n");
        }
    }
    let shown = drawn(checks, &[], &frames);
    margins(checks, "twenty in a row", &frames, &shown);
    checks.same("margins of twenty", "15", &labels(&shown).len().to_string());
}

/// Where all hear the source, somebody is deaf, there are groups, or it is a run.
fn none(checks: &mut Checks) {
    for file in [
        "plans/a.txt",
        "plans/b.txt",
        "plans/f-groups.txt",
        "plans/supplies.hex",
        "plans/runs/late.txt",
        "runs/silence.txt",
    ] {
        silent(checks, &["draw"], file, &["margin"]);
    }
}

const IS: &str =
    "margin: reached ones heard beyond the 2 needed, at worst; none if it hears the source";

/// What a margin is, and who has the thinnest; with new links, that it is without them.
fn legends(checks: &mut Checks) {
    let table: [(&[&str], &str, &str); 4] = [
        (
            &["plans/h.txt"],
            "-1",
            "thinnest margin, can be kept waiting: 5, 6",
        ),
        (&["plans/grain.txt"], "0", "thinnest margin, just enough: 9"),
        (
            &["plans/pit.txt"],
            "-2",
            "thinnest margin, can be kept waiting: 8, 9, 10 (east gate)",
        ),
        (
            &["--mend", "plans/h.txt"],
            "-1",
            "thinnest margin, can be kept waiting (without the dashed links): 5, 6",
        ),
    ];
    for (words, sample, thinnest) in table {
        let shown = drawn(checks, words, "");
        let samples = shown
            .all
            .iter()
            .filter(|one| one.is("margin") && one.group.is_some());
        let samples: Vec<&str> = samples.map(|one| one.text.as_str()).collect();
        let wanted = format!("\u{b1}m|{sample}");
        checks.same(
            &format!("samples of {words:?}"),
            &wanted,
            &samples.join("|"),
        );
        for row in [IS, thinnest] {
            let has = shown
                .all
                .iter()
                .any(|one| one.tag == "text" && one.text == row);
            checks.holds(&format!("legend of {words:?} has {row:?}"), has);
        }
    }
}

/// 5 hears four, and one of them may be bad.
fn above_zero(checks: &mut Checks) {
    let more = "terminals 6\nsource 0\nbound 1\n0 > 1 2 3 4\n1 > 5\n2 > 5\n3 > 5\n4 > 5\n";
    let shown = drawn(checks, &[], more);
    let row = "thinnest margin, 1 more than it needs: 5";
    let has = shown.all.iter().any(|one| one.text == row);
    checks.holds("legend where all have more than they need", has);
}
