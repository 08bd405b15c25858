//! What to add to a plan with groups that fails. Links are looked for by `mend`, and here by `check`,
//! one by one.

use crate::checks::{lines, read, Checks};

pub fn check(checks: &mut Checks) {
    only_way(checks);
    ways_of_the_quarry(checks);
    repeater(checks);
    no_repeater(checks);
    for name in ["f-groups", "supplies"] {
        let file = format!("plans/{name}.txt");
        let mended = read(&checks.top.join(&file)) + &checks.call(&["mend", &file]).out;
        let done = checks.call_with(&["check"], mended.as_bytes());
        let label = format!("{name} with its mend under it");
        checks.same(&label, "pass\n", &done.out);
    }
    let done = checks.call(&["mend", "plans/f-apart.hex"]);
    let nothing = "# this plan passes: nothing to mend\n";
    checks.ends("mend of a pass with groups", &done, 0, nothing, "");
}

/// 4 hears 1, 2 and 3 already, so the source alone is left.
fn only_way(checks: &mut Checks) {
    for form in ["txt", "hex"] {
        let done = checks.call(&["mend", &format!("plans/f-groups.{form}")]);
        let (head, rest) = done.out.split_once('\n').unwrap_or_default();
        let is = head.starts_with("# 1 new link is enough, and no fewer (")
            && head.ends_with("; the only way)");
        checks.holds(&format!("mend of f-groups.{form}: {head}"), is);
        let plain: Vec<&str> = rest.lines().filter(|line| !line.starts_with('#')).collect();
        checks.same("mend of f-groups", "0 > 4", &plain.join("\n"));
    }
}

/// By hand: 7 hears one of the crusher's and both of the ramp's, so the office or one of the
/// workshop's helps, and not 3, which fails with 4. Every link that is lacking is tried.
fn ways_of_the_quarry(checks: &mut Checks) {
    let text = read(&checks.top.join("plans/supplies.txt"));
    let frames = read(&checks.top.join("plans/supplies.hex"));
    let mut links = Vec::new();
    let mut files = Vec::new();
    for (from, to) in (0..8).flat_map(|from| (0..8).map(move |to| (from, to))) {
        if from != to && !frames.contains(&format!("02{from:02x}{to:02x}\n")) {
            let more = format!("{text}{from} > {to}\n");
            files.push(checks.file(&format!("quarry-{from}-{to}.txt"), more.as_bytes()));
            links.push(format!("{from} > {to}"));
        }
    }
    checks.same(
        "links that the quarry lacks",
        "28",
        &links.len().to_string(),
    );
    let words: Vec<&str> = ["check"]
        .into_iter()
        .chain(files.iter().map(String::as_str))
        .collect();
    let answers = checks.call(&words).out;
    let passes = answers.lines().map(|line| line.ends_with(": pass"));
    let enough = links.into_iter().zip(passes).filter(|(_, passes)| *passes);
    let enough: Vec<String> = enough.map(|(link, _)| link).collect();
    let wanted = ["0 > 7", "1 > 7", "2 > 7"];
    checks.same(
        "links that mend the quarry",
        &lines(&wanted),
        &lines(&enough),
    );
    let done = checks.call(&["mend", "plans/supplies.txt"]);
    let listed: Vec<&str> = done
        .out
        .lines()
        .skip(1)
        .take_while(|line| !line.contains("repeater"))
        .map(|line| line.trim_start_matches("# or "))
        .collect();
    checks.same("mend of the quarry", &lines(&wanted), &lines(&listed));
}

/// A repeater may fail too, by itself: it is a group. In drawing F it has to hear the source, since
/// any other alone may be bad, and 4 has to hear it.
fn repeater(checks: &mut Checks) {
    let done = checks.call(&["mend", "plans/f-groups.txt"]);
    let mut told = done
        .out
        .lines()
        .skip_while(|line| !line.contains("repeater"));
    let head = told.next().unwrap_or_default();
    let start =
        "# or a repeater, terminal 5, in a group of its own: 2 links are enough, and no fewer (";
    checks.holds(
        &format!("repeater of f-groups: {head}"),
        head.starts_with(start),
    );
    let rest: Vec<&str> = told.map(|line| line.trim_start_matches("#   ")).collect();
    let wanted = ["terminals 6", "group 5", "0 > 5", "5 > 4"];
    checks.same("its lines", &lines(&wanted), &lines(&rest));
    let text = read(&checks.top.join("plans/f-groups.txt"));
    let built = text.replace("terminals 5\n", "") + &lines(&rest);
    let built = "terminals 6\n".to_string() + &built.replace("terminals 6\n", "");
    let done = checks.call_with(&["check"], built.as_bytes());
    checks.ends("drawing F with the repeater", &done, 0, "pass\n", "");
}

/// 2 hears 1 alone. Without 1 it would hear the repeater alone, which may itself be bad.
fn no_repeater(checks: &mut Checks) {
    let chain = "0 > 1\n1 > 2\n";
    let text = format!("terminals 3\nsource 0\ngroup 1\n{chain}");
    let done = checks.call_with(&["mend"], text.as_bytes());
    let line = "# no repeater is enough, wherever it stands";
    checks.has_line("repeater of a chain", &done.out, line);
    let full = format!("terminals 3\nsource 0\n{}{chain}", "group 1\n".repeat(16));
    let done = checks.call_with(&["mend"], full.as_bytes());
    let line = "# a repeater would be a seventeenth group, and 16 are the most";
    checks.has_line("no group for a repeater", &done.out, line);
    let links: Vec<&str> = done
        .out
        .lines()
        .filter(|line| !line.starts_with('#'))
        .collect();
    checks.same("the link of the chain", "0 > 2", &links.join("\n"));
}
