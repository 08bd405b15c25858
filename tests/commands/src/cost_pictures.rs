//! The dearest links in pictures: heavier than the others, and told in the legend.

use crate::bad_sets::{Link, Site};
use crate::bounded::silent;
use crate::checks::{read, Checks};
use crate::pictures::{both_forms, drawn, link_of, Shown};
use crate::svg::Element;
use std::collections::BTreeSet;

pub fn check(checks: &mut Checks) {
    for name in [
        "a", "c", "e", "f", "h", "i", "grain", "pit", "port", "quarry",
    ] {
        let frames = read(&checks.top.join(format!("plans/{name}.hex")));
        let wanted = dearest(&frames);
        for (name, shown) in both_forms(checks, name) {
            heavy(checks, &name, &wanted, &shown);
        }
    }
    one_of_a_pair(checks);
    legends(checks);
    none(checks);
}

/// Those without which the least is left, if that is less; none is less than 0.
fn dearest(frames: &str) -> BTreeSet<Link> {
    let site = Site::of(frames);
    let without = site.without_links();
    let least = without.iter().map(|(_, left)| *left).min();
    let least = least.filter(|least| *least < site.greatest());
    let those = without.iter().filter(|(_, left)| Some(*left) == least);
    those.map(|(link, _)| *link).collect()
}

fn is_heavy(one: &Element) -> bool {
    one.get("class").ends_with(" dearest") && one.group.is_none()
}

/// Heavy heads are those of the dearest links, and a line is heavy where one of its heads is.
fn heavy(checks: &mut Checks, name: &str, wanted: &BTreeSet<Link>, shown: &Shown) {
    let heads = shown
        .all
        .iter()
        .filter(|one| one.is("head") && is_heavy(one));
    let heads: BTreeSet<Link> = heads
        .map(|one| link_of(&shown.at, &one.corners()))
        .collect();
    let label = format!("dearest links in the picture of {name}");
    checks.same(&label, &format!("{wanted:?}"), &format!("{heads:?}"));
    let pairs: BTreeSet<Link> = wanted
        .iter()
        .map(|(from, to)| (*from.min(to), *from.max(to)))
        .collect();
    let widths = |heavy: bool| {
        let lines = shown
            .all
            .iter()
            .filter(|one| one.is("link") && one.group.is_none());
        let lines = lines.filter(|one| is_heavy(one) == heavy);
        lines
            .map(|one| one.number("stroke-width"))
            .collect::<Vec<f64>>()
    };
    let (dear, others) = (widths(true), widths(false));
    checks.same(
        &format!("heavy lines in the picture of {name}"),
        &pairs.len().to_string(),
        &dear.len().to_string(),
    );
    let heavier = dear
        .iter()
        .all(|one| others.iter().all(|other| *one > 2.0 * other));
    checks.holds(&format!("{name}: heavier"), heavier);
}

/// 1 hears the source and nobody needs to hear 1: the heads of one line are told apart.
fn one_of_a_pair(checks: &mut Checks) {
    let frames = "01020000\n020001\n020100\n";
    let shown = drawn(checks, &[], frames);
    heavy(checks, "a pair", &BTreeSet::from([(0, 1)]), &shown);
    let heads = shown
        .all
        .iter()
        .filter(|one| one.is("head") && one.group.is_none());
    let sizes: Vec<f64> = heads.map(size).collect();
    let larger = sizes.len() == 2 && sizes[1] > 1.3 * sizes[0];
    checks.holds("the heavy head of a pair is larger", larger);
}

/// How far a head's base is from its tip, by its corners.
fn size(head: &Element) -> f64 {
    let corners = head.corners();
    let (tip, left, right) = (corners[0], corners[1], corners[2]);
    let base = ((left.0 + right.0) / 2.0, (left.1 + right.1) / 2.0);
    (tip.0 - base.0).hypot(tip.1 - base.1)
}

const ROW: &str = "dearest links: without one the greatest bound falls from";

/// What is left without one of them; with new links, that it is without them.
fn legends(checks: &mut Checks) {
    let table: [(&[&str], &str); 5] = [
        (&["plans/a.txt"], "1 to none"),
        (&["plans/h.txt"], "0 to none"),
        (&["plans/grain.txt"], "1 to 0"),
        (&["plans/f.txt"], "1 to none"),
        (
            &["--mend", "plans/h.txt"],
            "0 to none (without the dashed links)",
        ),
    ];
    for (words, fall) in table {
        let shown = drawn(checks, words, "");
        let rows = shown.all.iter().filter(|one| one.text.contains("dearest"));
        let rows: Vec<&str> = rows.map(|one| one.text.as_str()).collect();
        let label = format!("legend of {words:?}");
        checks.same(&label, &format!("{ROW} {fall}"), &rows.join("|"));
        let sample = |one: &&Element| one.get("class") == "link dearest" && one.group.is_some();
        let samples = shown.all.iter().filter(sample).count();
        checks.same(&format!("{label}: samples"), "1", &samples.to_string());
    }
}

/// Where no link costs anything, somebody is deaf, there are groups, or it is a run.
fn none(checks: &mut Checks) {
    for file in [
        "plans/b.txt",
        "plans/pit.txt",
        "plans/quarry.txt",
        "plans/f-groups.txt",
        "plans/supplies.hex",
        "plans/runs/late.txt",
        "runs/silence.txt",
    ] {
        silent(checks, &["draw"], file, &["dearest"]);
    }
}
