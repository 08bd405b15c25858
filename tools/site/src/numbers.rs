//! Numbers, sets, names and coordinates as the text form has them.

use crate::groups::LISTED;
use crate::notice::Notice;

const LONGEST_NAME: usize = 40;

pub fn byte(word: &str, text: &str) -> Result<u8, String> {
    number(text, &format!("one number after '{word}'"))
}

/// A frame has one byte a number. A larger one stands there as 255, which is out of range
/// wherever a plan or a run has such a number, so it is refused with the right cause.
pub fn number(word: &str, expected: &str) -> Result<u8, String> {
    digits(word, expected)?;
    Ok(word.parse().unwrap_or(u8::MAX))
}

/// `8`, or `8 edition 2`.
pub fn notice(word: &str, text: &str) -> Result<Notice, String> {
    let (said, edition) = match text.split_once("edition") {
        Some((said, edition)) => (said.trim(), Some(edition.trim())),
        None => (text, None),
    };
    let one = |edition: &str| two_bytes(edition, "one number after 'edition'");
    Ok(Notice {
        layout: layout(word, said)?,
        edition: edition.map(one).transpose()?,
    })
}

/// One without an edition.
pub fn layout(word: &str, text: &str) -> Result<u16, String> {
    two_bytes(text, &format!("one layout after '{word}'"))
}

/// Layouts and editions have two bytes, all of them in range but 0: a larger one stands there as 0.
fn two_bytes(word: &str, expected: &str) -> Result<u16, String> {
    digits(word, expected)?;
    Ok(word.parse().unwrap_or(0))
}

fn digits(word: &str, expected: &str) -> Result<(), String> {
    if word.is_empty() {
        return Err(format!("expected {expected}, found nothing"));
    }
    if !word.bytes().all(|byte| byte.is_ascii_digit()) {
        return Err(format!("expected {expected}, found '{word}'"));
    }
    Ok(())
}

/// The bound's own byte: 255 there says that the plan lists groups, so the next one stands for all
/// that are too large.
pub fn bound(text: &str) -> Result<u8, String> {
    Ok(byte("bound", text)?.min(LISTED - 1))
}

/// Bits above 23 have no place in a frame; bit 23 is out of range on any site.
pub fn set(word: &str, text: &str) -> Result<u32, String> {
    if text == "none" {
        return Ok(0);
    }
    if text.is_empty() {
        return Err(format!(
            "expected terminals or 'none' after '{word}', found nothing"
        ));
    }
    let mut set = 0;
    for terminal in text.split_whitespace() {
        set |= 1 << number(terminal, &format!("terminals after '{word}'"))?.min(23);
    }
    Ok(set)
}

pub fn quoted(text: &str) -> Result<String, String> {
    let inner = text
        .strip_prefix('"')
        .and_then(|rest| rest.strip_suffix('"'));
    match inner {
        Some(name) if name.contains(['"']) || name.contains(char::is_control) => {
            Err("expected a name without quotes and control characters in it".into())
        }
        Some(name) if name.contains(char::REPLACEMENT_CHARACTER) => {
            Err("expected a name in UTF-8; save the file so".into())
        }
        Some(name) if name.trim().is_empty() => Err("expected a name in the quotes".into()),
        Some(name) if name.chars().count() > LONGEST_NAME => {
            Err(format!("expected a name of at most {LONGEST_NAME} letters"))
        }
        Some(name) => Ok(name.to_string()),
        None => Err(format!(
            "expected a name in quotes, as \"east gate\", found '{text}'"
        )),
    }
}

/// A coordinate; huge ones would leave no picture.
pub fn measure(word: &str) -> Result<f64, String> {
    match word.parse::<f64>() {
        Ok(number) if number.abs() <= 1e9 => Ok(number),
        _ => Err(format!("expected a number for the place, found '{word}'")),
    }
}
