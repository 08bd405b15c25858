//! What is refused alike wherever a plan file may have no groups.

use super::{file, refused};

/// A file's words, the cause's number, and its line.
pub type Row = (&'static str, u8, u16);

/// What is printed of a file.
pub type Print = fn(&[u8]) -> String;

/// ff for f in the head, and what may come after it: refused with 4 on line 1.
pub const GROUPS: [&str; 11] = [
    "010300ff",
    "010300ff 020001",
    "010300ff 020001 020002 07000002",
    "010300ff 020001 020002 07000002 020001",
    "010300ff 07000001",
    "010300ff 020303",
    "010300ff 06",
    "010300ff 0g",
    "010300ff 01030001",
    "011400ff",
    "01ffffff",
];

/// 1, 2 and 3 on the line of ff, or before it.
pub const BEFORE_GROUPS: [Row; 8] = [
    ("010300ff0", 1, 1),
    ("010300fg", 1, 1),
    ("010300fF", 1, 1),
    ("010300ff00", 2, 1),
    ("0103ff", 2, 1),
    ("020001 010300ff", 3, 1),
    ("07000002 010300ff", 3, 1),
    ("01030001 020001 020002 010300ff", 3, 4),
];

/// Other causes.
pub const OTHERS: [Row; 12] = [
    ("01030001 020001 020002 07000002", 3, 4),
    ("01030001 020003", 5, 2),
    ("01030001 020101", 5, 2),
    ("01030001 020001 020001", 6, 3),
    ("01030001 020001 03000002", 2, 3),
    ("01030001 020001 0g", 1, 3),
    ("01030300", 4, 1),
    ("01030003", 4, 1),
    ("010300fe", 4, 1),
    ("01010000", 4, 1),
    ("01150000", 4, 1),
    ("020001", 3, 1),
];

/// ff for f is refused on the head's line, with these words too.
pub fn check_groups(print: Print, more: &[&str]) {
    for words in GROUPS.iter().chain(more) {
        assert_eq!(print(&file(words)), refused(4, 1), "{words}");
    }
}

/// What comes before ff, in these rows too, and a line without its end.
pub fn check_before_groups(print: Print, more: &[Row]) {
    check_rows(print, BEFORE_GROUPS.iter().chain(more));
    assert_eq!(print(b"010300ff"), refused(1, 1));
}

/// The other causes, in these rows too, each as by another program; and the sizes of files.
pub fn check_others(print: Print, other: Print, more: &[Row]) {
    for print in [print, other] {
        check_rows(print, OTHERS.iter().chain(more));
    }
    assert_eq!(print(b""), refused(1, 0));
    assert_eq!(print(&[b'0'; 24_577]), refused(1, 0));
    assert_eq!(print(&[b'0'; 24_576]), refused(1, 1));
}

fn check_rows<'a>(print: Print, rows: impl Iterator<Item = &'a Row>) {
    for &(words, number, line) in rows {
        assert_eq!(print(&file(words)), refused(number, line), "{words}");
    }
}
