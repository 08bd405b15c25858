//! Runs with editions in pictures: who has the source's last notice, and who has which older one.

use crate::checks::Checks;
use crate::editions::OLDER_LAST;
use crate::pictures::{drawn, texts, with_role, Shown};

pub fn check(checks: &mut Checks) {
    on_the_way(checks);
    nobody_waits(checks);
    got_round(checks);
    overtaken(checks);
}

pub fn shows(checks: &mut Checks, label: &str, shown: &Shown, roles: [&str; 4]) {
    let names = ["bad", "reached", "plain", "cut-off"];
    for (role, wanted) in names.into_iter().zip(roles) {
        checks.same(&format!("{label}: {role}"), wanted, &with_role(shown, role));
    }
}

pub fn says(checks: &mut Checks, label: &str, shown: &Shown, says: &str, why: &str, beside: &str) {
    checks.same(&format!("{label}: says"), says, &texts(shown, "says"));
    checks.same(&format!("{label}: why"), why, &texts(shown, "why"));
    checks.same(&format!("{label}: beside"), beside, &texts(shown, "beside"));
}

pub fn marked(checks: &mut Checks, label: &str, shown: &Shown, wanted: &str) {
    let marks = shown.all.iter().filter(|one| one.is("mark"));
    let marks: Vec<&str> = marks.map(|one| one.get("class")).collect();
    checks.same(&format!("{label}: mark"), wanted, &marks.join("|"));
}

/// The words of the legend's rows.
pub fn legend(shown: &Shown) -> Vec<&str> {
    let in_key = |group: Option<usize>| group.is_some_and(|at| shown.all[at].is("key"));
    let rows = shown.all.iter();
    rows.filter(|one| one.tag == "text" && in_key(one.group))
        .map(|one| one.text.as_str())
        .collect()
}

/// The chain of editions.rs after three rounds, with a bad one beside it: 1 has the last notice, 2
/// and 3 have older ones.
fn on_the_way(checks: &mut Checks) {
    let text = "terminals 6\nsource 0\nbound 0\n0 > 1\n1 > 2 5\n2 > 3\n3 > 4\nvalue 7 edition 1\nrounds 3\nround 1: source issues 8 edition 4\nround 2: source issues 7 edition 6\nname 2 \"gate\"\nbad 5\n";
    let shown = drawn(checks, &[], text);
    let label = "on the way";
    shows(checks, label, &shown, ["5", "0 1", "2 3", "4"]);
    says(
        checks,
        label,
        &shown,
        "A run: 2 of 5 good terminals have the last notice",
        "The source's last notice is layout 7 edition 6, of round 2, after 3 rounds.",
        "source, round 2|round 3|gate, 8 edition 4 in round 3|7 edition 1 in round 3",
    );
    marked(checks, label, &shown, "mark fail");
    let rows = legend(&shown);
    let wanted = [
        "bad: 5",
        "took layout 7 edition 6, beside it when: 0, 1",
        "took an older notice, beside it which: 2 (gate), 3",
        "waiting: 4",
    ];
    checks.same(
        "on the way: legend",
        &wanted.join("|"),
        &rows[..4.min(rows.len())].join("|"),
    );
}

/// Everybody has a notice, and two an older one.
fn nobody_waits(checks: &mut Checks) {
    let shown = drawn(checks, &[], OLDER_LAST);
    let label = "nobody waits";
    shows(checks, label, &shown, ["1", "0 2", "3 4", ""]);
    marked(checks, label, &shown, "mark fail");
}

/// Everybody has the last notice, and nobody an older one.
fn got_round(checks: &mut Checks) {
    let shown = drawn(checks, &["runs/mind-changed.txt"], "");
    let label = "mind-changed";
    shows(checks, label, &shown, ["1", "0 2 3 4", "", ""]);
    says(
        checks,
        label,
        &shown,
        "A run: 4 of 4 good terminals have the last notice",
        "The source's last notice is layout 8 edition 2, of round 1, after 5 rounds.",
        "office, source, round 1|round 2|round 2|gate, round 3",
    );
    marked(checks, label, &shown, "mark pass");
    let rows = legend(&shown);
    let older = rows.iter().any(|row| row.contains("older"));
    checks.holds("mind-changed: no row for older notices", !older);
    checks.holds(
        "mind-changed: a row for the last one",
        rows.contains(&"took layout 8 edition 2, beside it when: 0 (office), 2, 3, 4 (gate)"),
    );
}

fn overtaken(checks: &mut Checks) {
    for file in ["plans/runs/overtaken.txt", "plans/runs/overtaken.hex"] {
        let shown = drawn(checks, &[file], "");
        shows(checks, file, &shown, ["2", "0 1 3 4", "", "5"]);
        says(
            checks,
            file,
            &shown,
            "A run: 4 of 5 good terminals have the last notice",
            "The source's last notice is layout 10 edition 4, of round 3, after 5 rounds.",
            "source, round 3|round 4|round 4|round 5",
        );
        marked(checks, file, &shown, "mark fail");
    }
    let shown = drawn(checks, &["plans/runs/overtaken-8.txt"], "");
    shows(checks, "overtaken-8", &shown, ["2", "0 1 3 4 5", "", ""]);
    marked(checks, "overtaken-8", &shown, "mark pass");
}
