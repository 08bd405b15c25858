//! The README and the help pages: what a command prints there is what it prints.

use crate::checks::{done, read, Checks};
use std::process::Command;

pub fn check(checks: &mut Checks) {
    let mut pages = vec![checks.top.join("README.md")];
    let folder = std::fs::read_dir(checks.top.join("docs/help")).expect("docs/help");
    pages.extend(folder.map(|entry| entry.expect("a page").path()));
    let mut tried = 0;
    for page in pages {
        for (command, printed) in examples(&read(&page)) {
            let mut bash = Command::new("bash");
            bash.args(["-c", &format!("{command} 2>&1")])
                .current_dir(&checks.top);
            let label = format!("{}: {command}", page.display());
            checks.same(&label, &printed, &done(bash, b"").out);
            tried += 1;
        }
    }
    checks.holds("the README has examples", tried >= 8);
}

/// Indented lines that start with '$', and the lines under each. Those that write a file, or show
/// nothing, are passed over.
fn examples(page: &str) -> Vec<(String, String)> {
    let mut all: Vec<(String, String)> = Vec::new();
    let mut open = false;
    for line in page.lines() {
        match (line.strip_prefix("    "), open) {
            (Some(line), _) if line.starts_with("$ ") => {
                let command = line[2..].split(" # ").next().unwrap_or_default();
                all.push((command.trim().to_string(), String::new()));
                open = true;
            }
            (Some(line), true) => {
                let last = all.last_mut().expect("an example is open");
                last.1 += &format!("{line}\n");
            }
            _ => open = false,
        }
    }
    all.retain(|(command, printed)| {
        command.contains("./hulmayek") && !command.contains('>') && !printed.is_empty()
    });
    all
}
