//! What to add to a plan that fails. That a mend is enough, and that nothing smaller is, is asked
//! again by `check`, link by link.

use crate::checks::{lines, read, Checks};

pub fn check(checks: &mut Checks) {
    drawings(checks);
    single_links_of_h(checks);
    pair_of_the_pit(checks);
    repeaters(checks);
    passes_already(checks);
    beyond_the_limit(checks);
}

/// By hand: in B, D, E and G only a link from the source to the one that is cut off brings it what
/// it needs (f+1 of L, and L has no more that it does not hear).
fn drawings(checks: &mut Checks) {
    for (name, link) in [
        ("b", "0 > 1"),
        ("d", "0 > 2"),
        ("e", "0 > 3"),
        ("g", "0 > 4"),
    ] {
        let done = checks.call(&["mend", &format!("plans/{name}.txt")]);
        let (head, rest) = done.out.split_once('\n').unwrap_or_default();
        let is = head.starts_with("# 1 new link is enough, and no fewer (")
            && head.ends_with("; the only way)");
        checks.holds(&format!("mend of {name}: {head}"), is);
        let plain: Vec<&str> = rest.lines().filter(|line| !line.starts_with('#')).collect();
        checks.same(&format!("mend of {name}"), link, &plain.join("\n"));
    }
    for name in ["b", "d", "e", "g", "h", "pit", "port", "quarry"] {
        let file = format!("plans/{name}.txt");
        let mended = read(&checks.top.join(&file)) + &checks.call(&["mend", &file]).out;
        let done = checks.call_with(&["check"], mended.as_bytes());
        checks.same(
            &format!("{name} with its mend under it"),
            "pass\n",
            &done.out,
        );
    }
}

/// Every link that the plan lacks, each in a file of its own, in one call of `check`.
fn single_links(checks: &Checks, name: &str, n: u8) -> Vec<(String, bool)> {
    let frames = read(&checks.top.join(format!("plans/{name}.hex")));
    let mut links = Vec::new();
    let mut files = Vec::new();
    for (from, to) in (0..n).flat_map(|from| (0..n).map(move |to| (from, to))) {
        let link = format!("02{from:02x}{to:02x}\n");
        if from != to && !frames.contains(&link) {
            let file = format!("{name}-{from}-{to}.hex");
            files.push(checks.file(&file, (frames.clone() + &link).as_bytes()));
            links.push(format!("{from} > {to}"));
        }
    }
    let words: Vec<&str> = ["check"]
        .into_iter()
        .chain(files.iter().map(String::as_str))
        .collect();
    let done = checks.call(&words);
    let passes = done.out.lines().map(|line| line.ends_with(": pass"));
    links.into_iter().zip(passes).collect()
}

fn single_links_of_h(checks: &mut Checks) {
    let all = single_links(checks, "h", 7);
    checks.same("links that H lacks", "32", &all.len().to_string());
    let enough = all.iter().filter(|(_, passes)| *passes);
    let mut enough: Vec<&str> = enough.map(|(link, _)| link.as_str()).collect();
    let done = checks.call(&["mend", "plans/h.txt"]);
    let mut listed: Vec<&str> = done
        .out
        .lines()
        .take_while(|line| !line.starts_with("# or a repeater"))
        .filter_map(|line| {
            line.strip_prefix("# or ")
                .or((!line.starts_with('#')).then_some(line))
        })
        .collect();
    enough.sort_unstable();
    listed.sort_unstable();
    checks.same(
        "the single links that mend H",
        &lines(&enough),
        &lines(&listed),
    );
    checks.holds("H has such a link", enough.contains(&"0 > 5"));
}

fn pair_of_the_pit(checks: &mut Checks) {
    let all = single_links(checks, "pit", 11);
    let any = all.iter().any(|(_, passes)| *passes);
    checks.same(
        "single links that mend the pit",
        "66 false",
        &format!("{} {any}", all.len()),
    );
    let done = checks.call(&["mend", "plans/pit.txt"]);
    let first = done.out.lines().next().unwrap_or_default();
    let two = first.starts_with("# 2 new links are enough, and no fewer (");
    checks.holds(&format!("the pit's mend has two links: {first}"), two);
    let plain: Vec<&str> = done
        .out
        .lines()
        .filter(|line| !line.starts_with('#'))
        .collect();
    let hearers: usize = plain
        .iter()
        .map(|line| line.split_whitespace().count() - 2)
        .sum();
    checks.same("and as many are printed", "2", &hearers.to_string());
}

/// In E a new terminal that hears the source and is heard by 3 is enough; with one link it would not
/// be reached, or not be heard. In D it may itself be bad, and then 3 hears one good one as before.
fn repeaters(checks: &mut Checks) {
    let done = checks.call(&["mend", "plans/e.txt"]);
    let after = done
        .out
        .lines()
        .skip_while(|line| !line.contains("repeater"));
    let told: Vec<&str> = after.collect();
    let head = told.first().copied().unwrap_or_default();
    let is = head.starts_with("# or a repeater, terminal 4: 2 links are enough, and no fewer (");
    checks.holds(&format!("repeater of E: {head}"), is);
    let wanted = ["#   terminals 5", "#   0 > 4", "#   4 > 3"];
    checks.same(
        "its links",
        &lines(&wanted),
        &lines(told.get(1..).unwrap_or(&[])),
    );
    let done = checks.call(&["mend", "plans/d.txt"]);
    checks.has_line(
        "repeater of D",
        &done.out,
        "# no repeater is enough, wherever it stands",
    );
    let full = "terminals 20\nsource 0\nbound 0\n";
    let done = checks.call_with(&["mend"], full.as_bytes());
    checks.has_line(
        "no room for a repeater",
        &done.out,
        "# a repeater would be terminal 20, and 0 to 19 are the most",
    );
}

fn passes_already(checks: &mut Checks) {
    let done = checks.call(&["mend", "plans/a.txt"]);
    checks.ends(
        "mend of a pass",
        &done,
        0,
        "# this plan passes: nothing to mend\n",
        "",
    );
}

/// Twenty terminals without a link need one each: beyond the calls, but links are named that do.
fn beyond_the_limit(checks: &mut Checks) {
    let bare = "terminals 20\nsource 0\nbound 0\n";
    let done = checks.call_with(&["mend"], bare.as_bytes());
    let head = done.out.lines().next().unwrap_or_default();
    let wanted = "# no 2 links are enough; the fewest were not found within 4000 calls of the verdict. These 19 are enough,";
    let said = head.starts_with(wanted);
    checks.holds(&format!("the limit is said: {head}"), said);
    let fewer = checks.call_with(&["mend", "--calls=3"], bare.as_bytes());
    let wanted = "# the fewest were not found within 3 calls of the verdict. These 19 are enough, and none of them can be left out:";
    checks.has_line("another limit", &fewer.out, wanted);
    let mended = bare.to_string() + &done.out;
    let passes = checks.call_with(&["check"], mended.as_bytes());
    checks.same("and what is named is enough", "pass\n", &passes.out);
}
