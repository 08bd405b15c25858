//! What `margins` and `greatest` have in common, as words for a plan with a bound.

use crate::checks::{lines, Checks};
use crate::quote::prints;

/// What they print of frames that `verdict`, or `archive`, answers so. They refuse what it refuses; and
/// a right head with ff, before they come to another line. None where both give an answer.
pub fn refusal(frames: &[&str], answer: &str) -> Option<String> {
    let by_the_head = answer.starts_with("ff") && answer.ends_with("0001");
    match frames.first() {
        Some(head) if head.len() == 8 && head.ends_with("ff") && !by_the_head => {
            Some("ff040001".into())
        }
        _ => answer.starts_with("ff").then(|| answer.into()),
    }
}

/// Of the text and of its frames.
pub fn printed(checks: &mut Checks, word: &str, text: &str, wanted: &[&str]) {
    let label = format!("{word} of {text:?}");
    let done = checks.call_with(&[word], text.as_bytes());
    checks.ends(&label, &done, 0, &lines(wanted), "");
    let frames = checks.call_with(&["plan"], text.as_bytes()).out;
    let done = checks.call_with(&[word, "-"], frames.as_bytes());
    checks.ends(&format!("{label} in frames"), &done, 0, &lines(wanted), "");
}

/// Document 01's drawings: name, lines with | between them, and status.
pub fn drawings(checks: &mut Checks, word: &str, table: &[(&str, &str, i32)]) {
    for (name, told, status) in table {
        let wanted = told.replace('|', "\n") + "\n";
        let done = checks.call(&[word, &format!("plans/{name}.hex")]);
        checks.ends(&format!("{word} of {name}"), &done, *status, &wanted, "");
    }
}

/// Below the limit each, the same of every run by the seed.
pub fn numbers(seed: u32) -> impl FnMut(u32) -> u32 {
    let mut state = seed;
    move |limit| {
        state = state.wrapping_mul(1_664_525).wrapping_add(1_013_904_223);
        (state >> 16) % limit
    }
}

/// A head alone each, and files that have none.
pub fn heads(checks: &mut Checks, word: &str, table: &[(&str, &str)]) {
    for (head, wanted) in table {
        prints(checks, word, lines(&[head]).as_bytes(), wanted);
    }
    let long = vec![b'0'; 24_577];
    let table: [(&[u8], &str); 4] = [
        (b"", "ff010000"),
        (&long, "ff010000"),
        (b"010200ff", "ff010001"),
        (b"010200ff\r\n", "ff010001"),
    ];
    for (file, wanted) in table {
        prints(checks, word, file, wanted);
    }
}

/// A link and one more line, under a head with ff: whatever they are, the head is refused.
pub fn under_groups() -> [[&'static str; 3]; 6] {
    ["07000002", "0", "", "020101", "03000002", "01020000"]
        .map(|under| ["010200ff", "020001", under])
}

/// Each of the words refuses the text, and says so.
pub fn refused(checks: &mut Checks, words: &[&str], text: &str, told: &str) {
    for word in words {
        let done = checks.call_with(&[word], text.as_bytes());
        checks.tells(&format!("{word} of {text:?}"), &done, 1, told);
    }
}

/// Of a text the plan alone, which is drawing H; a run's frames are refused.
pub fn with_a_run(checks: &mut Checks, word: &str, of_h: &str) {
    let done = checks.call(&[word, "runs/silence.txt"]);
    checks.ends(&format!("{word} of a run in text"), &done, 0, of_h, "");
    let frames = checks.call(&["plan", "runs/silence.txt"]).out;
    let done = checks.call_with(&[word], frames.as_bytes());
    let label = format!("{word} of a run in frames");
    checks.ends(&label, &done, 1, "ff02000c\n", "");
}

/// The words answer, and have nothing of the matter, by none of its names.
pub fn silent(checks: &mut Checks, words: &[&str], file: &str, names: &[&str]) {
    for word in words {
        let done = checks.call(&[word, file]);
        let silent = done.status == 0 && !names.iter().any(|name| done.out.contains(name));
        checks.holds(&format!("{word} of {file} has none of {names:?}"), silent);
    }
}
