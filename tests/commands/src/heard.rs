//! What was heard by phone (document 02, P9): `heard` turns a sentence and n back into the sets, and
//! refuses every other text. Frames are written by hand, or all sets of small sites are tried.

use crate::checks::Checks;
use crate::composer::sentence_of;
use std::collections::BTreeMap;

pub fn check(checks: &mut Checks) {
    for (terminals, sentence, frame) in HEARD {
        accepted(checks, terminals, sentence, frame);
    }
    for (terminals, sentence, why) in REFUSED {
        refused(checks, terminals, sentence, why);
    }
    for (terminals, why) in NUMBERS {
        number_first(checks, terminals, why);
    }
    for terminals in 2..=4 {
        all_fails(checks, terminals);
    }
    damaged(
        checks,
        4,
        "If 1 stays silent, 2 and 3 never get the notice.",
    );
    damaged(checks, 3, "Even if all work, 0 never gets the notice.");
    standard_input(checks);
    too_long(checks);
    wrong_calls(checks);
}

const OF_H: &str = "If 1 and 3 stay silent, 5 and 6 never get the notice.";

/// n, the sentence, and the frame: F, then all that it does not name, then R.
const HEARD: [(&str, &str, &str); 10] = [
    ("7", OF_H, "810100000a000015000060"),
    ("8", OF_H, "810100000a000095000060"),
    ("20", OF_H, "810100000a0fff95000060"),
    (
        "2",
        "Even if all work, 1 never gets the notice.",
        "8101000000000001000002",
    ),
    (
        "2",
        "Even if all work, 0 never gets the notice.",
        "8101000000000002000001",
    ),
    (
        "3",
        "If 0 stays silent, 2 never gets the notice.",
        "8101000001000002000004",
    ),
    (
        "10",
        "If 7, 8 and 9 stay silent, 0 never gets the notice.",
        "810100038000007e000001",
    ),
    (
        "11",
        "If 2 stays silent, 4, 5, 6, 7, 8, 9 and 10 never get the notice.",
        "810100000400000b0007f0",
    ),
    (
        "20",
        "If 1 stays silent, 19 never gets the notice.",
        "810100000207fffd080000",
    ),
    (
        "20",
        "If 1, 2, 3, 4, 5, 6, 7, 8, 9, 10, 11, 12, 13, 14, 15, 16, 17 and 18 stay silent, 19 never gets the notice.",
        "810107fffe000001080000",
    ),
];

/// As one word of the call, and as the standard input with its line end and without.
fn accepted(checks: &mut Checks, terminals: &str, sentence: &str, frame: &str) {
    let wanted = format!("{frame}\n");
    let label = format!("heard {terminals} {sentence:?}");
    let done = checks.call(&["heard", terminals, sentence]);
    checks.ends(&label, &done, 0, &wanted, "");
    for input in [sentence.to_string(), format!("{sentence}\n")] {
        let done = checks.call_with(&["heard", terminals], input.as_bytes());
        checks.ends(&format!("{label} as input"), &done, 0, &wanted, "");
    }
}

const FORM: &str = "expected \"If 1 and 3 stay silent, 5 and 6 never get the notice.\" or \"Even if all work, 5 never gets the notice.\", with the numbers of the site, \", \" between them and \" and \" before the last";

/// What is wrong with the numbers is told before what is wrong with the words, and first of all what
/// stands after the full stop. '..' is FORM.
const REFUSED: [(&str, &str, &str); 43] = [
    ("7", "", "there is none"),
    ("6", OF_H, "terminal 6: the terminals are 0 to 5"),
    ("2", OF_H, "terminal 3: the terminals are 0 to 1"),
    (
        "20",
        "If 20 stays silent, 5 never gets the notice.",
        "terminal 20: the terminals are 0 to 19",
    ),
    (
        "20",
        "Even if all work, 99999999999 never gets the notice.",
        "terminal 99999999999: the terminals are 0 to 19",
    ),
    (
        "7",
        "If 3 and 1 stay silent, 5 and 6 never get the notice.",
        "3 stands before 1: the numbers rise",
    ),
    (
        "7",
        "If 1 and 3 stay silent, 6 and 5 never get the notice.",
        "6 stands before 5: the numbers rise",
    ),
    (
        "12",
        "Even if all work, 1, 10 and 2 never get the notice.",
        "10 stands before 2: the numbers rise",
    ),
    (
        "7",
        "If 1 and 1 stay silent, 5 never gets the notice.",
        "1 stands there twice",
    ),
    (
        "7",
        "Even if all work, 4, 5 and 5 never get the notice.",
        "5 stands there twice",
    ),
    (
        "7",
        "If 01 stays silent, 5 never gets the notice.",
        "01: a number has no 0 before it",
    ),
    (
        "7",
        "If 1 stays silent, 00 never gets the notice.",
        "00: a number has no 0 before it",
    ),
    (
        "7",
        "If 1 and 3 stay silent, 3 and 5 never get the notice.",
        "3 is in both lists, and who stays silent does not wait",
    ),
    (
        "3",
        "If 0 stays silent, 1 and 2 never get the notice.",
        "all 3 are named, and the source, which has the notice, never is",
    ),
    (
        "2",
        "Even if all work, 0 and 1 never get the notice.",
        "all 2 are named, and the source, which has the notice, never is",
    ),
    (
        "7",
        "If 1 stay silent, 5 never gets the notice.",
        "one silent terminal takes 'stays'",
    ),
    (
        "7",
        "If 1 and 3 stays silent, 5 never gets the notice.",
        "2 silent terminals take 'stay'",
    ),
    (
        "7",
        "If 1 stays silent, 5 never get the notice.",
        "one waiting terminal takes 'gets'",
    ),
    (
        "7",
        "Even if all work, 4, 5 and 6 never gets the notice.",
        "3 waiting terminals take 'get'",
    ),
    (
        "7",
        "If 1 stays silent, 5 never gets the notice",
        "there is no full stop at its end",
    ),
    (
        "7",
        "If 1 stays silent, 5 never gets the notice. ",
        "something stands after its full stop",
    ),
    (
        "7",
        "If 1 stays silent, 5 never gets the notice.\r",
        "something stands after its full stop",
    ),
    (
        "7",
        "If 1 stays silent, 5 never gets the notice.\nEven if all work, 5 never gets the notice.",
        "something stands after its full stop",
    ),
    (
        "7",
        "If 1 stays silent, 5 never gets the notice.\n\n",
        "something stands after its full stop",
    ),
    ("7", "pass", ".."),
    ("7", "810100000a000015000060", ".."),
    ("7", "7", ".."),
    ("7", ".", ".."),
    ("7", "\nIf 1 stays silent, 5 never gets the notice.", ".."),
    ("7", " If 1 stays silent, 5 never gets the notice.", ".."),
    ("7", "if 1 stays silent, 5 never gets the notice.", ".."),
    ("7", "If 1 stays silent 5 never gets the notice.", ".."),
    ("7", "If 1 stays silent,5 never gets the notice.", ".."),
    ("7", "If 1  stays silent, 5 never gets the notice.", ".."),
    ("7", "If 1 stays silent, never gets the notice.", ".."),
    ("7", "If stay silent, 5 never gets the notice.", ".."),
    ("7", "If 1, 3 stay silent, 5 never gets the notice.", ".."),
    (
        "7",
        "If 1 and 2 and 3 stay silent, 5 never gets the notice.",
        "..",
    ),
    (
        "7",
        "If 1, 2, and 3 stay silent, 5 never gets the notice.",
        "..",
    ),
    (
        "7",
        "If 1 and 2, 3 stay silent, 5 never gets the notice.",
        "..",
    ),
    ("7", "Even if all work, none never get the notice.", ".."),
    ("7", "Even if all works, 5 never gets the notice.", ".."),
    (
        "7",
        "Even if 1 stays silent, 5 never gets the notice.",
        "..",
    ),
];

fn refused(checks: &mut Checks, terminals: &str, sentence: &str, why: &str) {
    let why = why.replace("..", FORM);
    let told = format!("refused, the sentence: {why} (cause 2)");
    let done = checks.call(&["heard", terminals, sentence]);
    checks.tells(&format!("heard {terminals} {sentence:?}"), &done, 1, &told);
    let done = checks.call_with(&["heard", terminals], format!("{sentence}\n").as_bytes());
    let label = format!("heard {terminals} {sentence:?} as input");
    checks.tells(&label, &done, 1, &told);
}

const NUMBERS: [(&str, &str); 8] = [
    ("0", "2 to 20 terminals are allowed"),
    ("1", "2 to 20 terminals are allowed"),
    ("21", "2 to 20 terminals are allowed"),
    ("255", "2 to 20 terminals are allowed"),
    ("258", "2 to 20 terminals are allowed"),
    ("99999999999999999999", "2 to 20 terminals are allowed"),
    ("07", "a number has no 0 before it"),
    ("00", "a number has no 0 before it"),
];

/// 4 comes before 2, whatever the sentence is.
fn number_first(checks: &mut Checks, terminals: &str, why: &str) {
    for sentence in [OF_H, "", "pass"] {
        let done = checks.call(&["heard", terminals, sentence]);
        let told = format!("refused, terminals {terminals}: {why} (cause 4)");
        checks.tells(&format!("heard {terminals} {sentence:?}"), &done, 1, &told);
    }
}

/// Every F, L and R that part n terminals, L and R not empty: the sentence and the frame.
fn sentences(terminals: u32) -> BTreeMap<String, String> {
    let all = (1_u32 << terminals) - 1;
    let mut found = BTreeMap::new();
    for bad in 0..=all {
        for cut_off in (1..=all).filter(|cut_off| bad & cut_off == 0) {
            let reached = all & !bad & !cut_off;
            if reached != 0 {
                let frame = format!("8101{bad:06x}{reached:06x}{cut_off:06x}");
                let other = found.insert(sentence_of(&frame), frame);
                assert!(other.is_none(), "two fails have one sentence");
            }
        }
    }
    found
}

fn all_fails(checks: &mut Checks, terminals: u32) {
    let found = sentences(terminals);
    let many = 3_usize.pow(terminals) - 2 * 2_usize.pow(terminals) + 1;
    checks.same(
        &format!("fails of {terminals}"),
        &many.to_string(),
        &found.len().to_string(),
    );
    for (sentence, frame) in found {
        let done = checks.call(&["heard", &terminals.to_string(), &sentence]);
        let label = format!("heard {terminals} {sentence:?}");
        checks.ends(&label, &done, 0, &format!("{frame}\n"), "");
    }
}

/// One byte left out, said twice or changed: another fail's sentence, or refused.
fn damaged(checks: &mut Checks, terminals: u32, sentence: &str) {
    let found = sentences(terminals);
    let (mut heard, mut refused) = (0, 0);
    for place in 0..sentence.len() {
        let (before, after) = (&sentence[..place], &sentence[place + 1..]);
        let one = &sentence[place..=place];
        let twice = one.repeat(2);
        for other in ["", twice.as_str(), "0", "2", "3", "s", " ", ",", "\n"] {
            if other == one {
                continue;
            }
            let text = format!("{before}{other}{after}");
            let done = checks.call(&["heard", &terminals.to_string(), &text]);
            let label = format!("heard {terminals} {text:?}");
            // One line end after a sentence is not part of it.
            match found.get(text.strip_suffix('\n').unwrap_or(&text)) {
                Some(frame) => {
                    checks.ends(&label, &done, 0, &format!("{frame}\n"), "");
                    heard += 1;
                }
                None => {
                    let told = done.err.starts_with("hulmayek: refused, the sentence: ")
                        && done.err.ends_with(" (cause 2)\n");
                    checks.holds(&label, done.status == 1 && done.out.is_empty() && told);
                    refused += 1;
                }
            }
        }
    }
    checks.holds("most are refused", heard > 0 && refused > 300);
}

/// A - is the standard input too, and one line end is dropped; what is given is not read as a file.
fn standard_input(checks: &mut Checks) {
    let wanted = "810100000a000015000060\n";
    let done = checks.call_with(&["heard", "7", "-"], OF_H.as_bytes());
    checks.ends("heard 7 -", &done, 0, wanted, "");
    let done = checks.call_with(&["heard", "7", OF_H], b"not read\n");
    checks.ends("heard with a word and input", &done, 0, wanted, "");
    let done = checks.call(&["heard", "7"]);
    let none = "refused, the sentence: there is none (cause 2)";
    checks.tells("heard of no input", &done, 1, none);
    let done = checks.call_with(&["heard", "7"], b"\n");
    checks.tells("heard of a line end", &done, 1, none);
    let form = format!("refused, the sentence: {FORM} (cause 2)");
    let done = checks.call_with(
        &["heard", "7"],
        b"If \xff stay silent, 5 never gets the notice.\n",
    );
    checks.tells("heard of bytes that are no text", &done, 1, &form);
    let file = checks.file("heard.txt", OF_H.as_bytes());
    let done = checks.call(&["heard", "7", &file]);
    checks.tells("heard of a file's name", &done, 1, &form);
}

/// With its number and the line ends: 24,576 bytes are looked at, and one more is not.
fn too_long(checks: &mut Checks) {
    let told =
        "refused, the sentence: it is too long, 24576 bytes are allowed with the number (cause 1)";
    let form = format!("refused, the sentence: {FORM} (cause 2)");
    let table = [(24_573, form.as_str()), (24_574, told), (3_000_000, told)];
    for (length, told) in table {
        let done = checks.call_with(&["heard", "7"], &vec![b'x'; length]);
        checks.tells(&format!("heard of {length} bytes"), &done, 1, told);
    }
}

fn wrong_calls(checks: &mut Checks) {
    let example = format!("as in: heard 7 \"{OF_H}\"");
    let wants = "'heard' wants how many terminals there are and the sentence";
    let table: [(&[&str], String); 9] = [
        (&["heard"], format!("{wants}, {example}")),
        (
            &["heard", OF_H],
            format!("'{OF_H}' is no number of terminals, {example}"),
        ),
        (
            &["heard", "x", OF_H],
            format!("'x' is no number of terminals, {example}"),
        ),
        (
            &["heard", "", OF_H],
            format!("'' is no number of terminals, {example}"),
        ),
        (
            &["heard", "-7", OF_H],
            format!("'-7' is no number of terminals, {example}"),
        ),
        (
            &["heard", "+7", OF_H],
            format!("'+7' is no number of terminals, {example}"),
        ),
        (
            &["heard", "7", "If", "1", "stays", "silent,"],
            format!("'heard' takes one sentence, in quotes, and 4 words were given, {example}"),
        ),
        (
            &["heard", "7", OF_H, OF_H],
            format!("'heard' takes one sentence, in quotes, and 2 words were given, {example}"),
        ),
        (
            &["heard", "--csv", "7", OF_H],
            "'heard' has no option '--csv'".into(),
        ),
    ];
    for (words, why) in table {
        let done = checks.call(words);
        checks.tells(&format!("{words:?}"), &done, 2, &why);
    }
}
