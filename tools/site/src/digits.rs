//! Why a line is no digits.

use crate::reason::{because, plainly, Reason};

/// A line that is no digits: what stands in the way first.
pub fn bad_line(line: &[u8]) -> Option<Reason> {
    let Some(digits) = line.strip_suffix(b"\n") else {
        return match first_foreign(line) {
            Some(reason) => Some(reason),
            None => plainly("the last line has no line end"),
        };
    };
    match first_foreign(digits) {
        Some(reason) => Some(reason),
        None if digits.is_empty() => plainly("an empty line: every line has a frame"),
        None if digits.len() % 2 == 1 => {
            because(format!("{} digits", digits.len()), "a byte has two")
        }
        None => None,
    }
}

fn first_foreign(digits: &[u8]) -> Option<Reason> {
    if digits.starts_with(b"\xef\xbb\xbf") {
        return because("a byte order mark", "frames start with a digit");
    }
    let known = |byte: &u8| matches!(byte, b'0'..=b'9' | b'a'..=b'f');
    let foreign = *digits.iter().find(|byte| !known(byte))?;
    match foreign {
        b'A'..=b'F' => because(
            format!("capital {}", char::from(foreign)),
            "small digits only",
        ),
        b'\r' => because(
            "a carriage return",
            "a frame's line ends with byte 10 alone",
        ),
        b' ' | b'\t' => because("a blank", "digits 0-9a-f only"),
        b'#' => because("'#'", "frames have no comments, the text form has"),
        other => because(format!("'{}'", other.escape_ascii()), "digits 0-9a-f only"),
    }
}
