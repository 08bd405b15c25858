//! The lines that `margins` prints, in decimal.

use crate::faults::Fault;
use crate::margins::Standing;

/// A line for each terminal but the source, ascending, and one of counts.
pub fn margins_lines(standings: &[Standing], fault: Fault) -> Vec<u8> {
    let all = (0..).zip(standings);
    let mut lines: Vec<String> = all
        .filter_map(|(number, &standing)| terminal_line(number, standing, fault))
        .collect();
    match fault {
        Fault::MarginsDescending => lines.reverse(),
        Fault::MarginsDirectFirst => lines.sort_by_key(|line| !line.contains("direct")),
        Fault::MarginsInTextOrder => lines.sort(),
        _ => {}
    }
    let counts = counts_line(standings, fault);
    match fault {
        Fault::MarginCountsFirst => lines.insert(0, counts),
        Fault::MarginCountsNotPrinted => {}
        _ => lines.push(counts),
    }
    let mut text = lines.concat().into_bytes();
    if fault == Fault::MarginsUnended {
        text.pop();
    }
    text
}

/// Nothing of the source.
fn terminal_line(number: u32, standing: Standing, fault: Fault) -> Option<String> {
    let word = match standing {
        Standing::Source if fault == Fault::MarginsSourcePrinted => "direct".to_string(),
        Standing::Source => return None,
        Standing::Direct => "direct".to_string(),
        Standing::Margin(margin) => margin_word(margin, fault),
    };
    Some(match fault {
        Fault::MarginsFromOne => format!("{} {word}\n", number + 1),
        Fault::MarginsNumberInHex => format!("{number:x} {word}\n"),
        Fault::MarginsNumberTwoDigits => format!("{number:02} {word}\n"),
        _ => format!("{number} {word}\n"),
    })
}

fn margin_word(margin: i32, fault: Fault) -> String {
    match fault {
        Fault::MarginPlusSign => format!("{margin:+}"),
        Fault::MarginPlusAboveZero if margin > 0 => format!("{margin:+}"),
        Fault::MarginTwoDigits => format!("{margin:02}"),
        Fault::MarginInHex if margin < 0 => format!("-{:x}", -margin),
        Fault::MarginInHex => format!("{margin:x}"),
        Fault::MarginLastDigit => format!("{}", margin % 10),
        Fault::MarginWithoutSign => format!("{}", margin.abs()),
        Fault::MarginAsByte => format!("{}", margin as u8),
        _ => format!("{margin}"),
    }
}

/// Direct, below, at and above zero.
fn counts_line(standings: &[Standing], fault: Fault) -> String {
    let count = |wanted: &dyn Fn(i32) -> bool| {
        let wanted = |one: &&Standing| matches!(one, Standing::Margin(margin) if wanted(*margin));
        standings.iter().filter(wanted).count()
    };
    let is_direct = |one: &&Standing| match one {
        Standing::Source => fault == Fault::MarginCountsSourceDirect,
        one => **one == Standing::Direct,
    };
    let direct = standings.iter().filter(is_direct).count();
    let [below, at, above]: [&dyn Fn(i32) -> bool; 3] = match fault {
        Fault::MarginCountsAtAsBelow => [&|m| m <= 0, &|_| false, &|m| m > 0],
        Fault::MarginCountsAtAsAbove => [&|m| m < 0, &|_| false, &|m| m >= 0],
        Fault::MarginCountsBelowInAll => [&|m| m <= 0, &|m| m == 0, &|m| m > 0],
        _ => [&|m| m < 0, &|m| m == 0, &|m| m > 0],
    };
    let mut counts = [direct, count(below), count(at), count(above)];
    match fault {
        Fault::MarginCountsDirectAndBelow => counts.swap(0, 1),
        Fault::MarginCountsBelowAndAt => counts.swap(1, 2),
        Fault::MarginCountsAtAndAbove => counts.swap(2, 3),
        Fault::MarginCountsBelowAndAbove => counts.swap(1, 3),
        _ => {}
    }
    let words = counts.map(|count| match fault {
        Fault::MarginCountsInHex => format!("{count:x}"),
        Fault::MarginCountsTwoDigits => format!("{count:02}"),
        _ => format!("{count}"),
    });
    format!("{}\n", words.join(" "))
}
