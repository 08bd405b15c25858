//! Each cause of refusal in files, with its line, and which of two comes first.

mod common;

use common::{archive, file, refused, run, run_bytes, verdict, verdict_bytes};

/// Site E, a bad set {1}, value 7, 3 rounds: 7 lines.
const PLAN: &str = "01040001 020001 020002 020103 020203";
const RUN: &str = "01040001 020001 020002 020103 020203 03000002 04000703";

/// Twenty terminals in a chain: 20 lines.
fn chain() -> String {
    let links = (0..19).map(|from| format!(" 02{from:02x}{:02x}", from + 1));
    links.fold("01140000".to_string(), |words, link| words + &link)
}

fn plans_refused(number: u8, cases: &[(&str, u16)]) {
    for (words, line) in cases {
        assert_eq!(verdict(words), refused(number, *line), "verdict {words}");
        assert_eq!(run(words), refused(number, *line), "run {words}");
    }
}

/// Cases after the words that every one of them starts with.
fn runs_refused(number: u8, start: &str, cases: &[(&str, u16)]) {
    for (words, line) in cases {
        let all = format!("{start} {words}");
        assert_eq!(run(&all), refused(number, *line), "run {all}");
    }
}

#[test]
fn text_of_the_whole_file() {
    for size in [0, 24_577, 24_578, 60_000] {
        assert_eq!(verdict_bytes(&vec![b'0'; size]), refused(1, 0));
        assert_eq!(run_bytes(&vec![10; size]), refused(1, 0));
    }
    assert_eq!(verdict_bytes(&vec![b'0'; 24_576]), refused(1, 1));
    assert_eq!(verdict_bytes(b"0"), refused(1, 1));
    assert_eq!(verdict_bytes(b"\n"), refused(1, 1));
    let mut long = file(PLAN);
    long.resize(24_577, 10);
    assert_eq!(verdict_bytes(&long), refused(1, 0));
    long.pop();
    assert_eq!(verdict_bytes(&long), refused(1, 6));
}

#[test]
fn text_of_a_line() {
    let cases: [(&[u8], u16); 14] = [
        (b"01020000\n02000A\n", 2),
        (b"0102000G\n020001\n", 1),
        (b"01020000\r\n020001\r\n", 1),
        (b"01020000\n020001\r\n", 2),
        (b"01020000\n 020001\n", 2),
        (b"01020000\n02000\n", 2),
        (b"01020000\n0\n", 2),
        (b"01020000\n\n020001\n", 2),
        (b"\n01020000\n", 1),
        (b"01020000\n020001\n\n", 3),
        (b"01020000\n020001", 2),
        (b"01020000", 1),
        (b"01020000\n0200\xb1\n", 2),
        (b"01020000\n0200\x00\x00\n", 2),
    ];
    for (text, line) in cases {
        assert_eq!(verdict_bytes(text), refused(1, line), "{text:?}");
        assert_eq!(run_bytes(text), refused(1, line), "{text:?}");
    }
    for foreign in (0..=255u8).filter(|byte| !b"0123456789abcdef\n".contains(byte)) {
        assert_eq!(verdict_bytes(&[b'0', foreign, 10]), refused(1, 1));
    }
}

#[test]
fn kind() {
    plans_refused(
        2,
        &[
            ("00", 1),
            ("06", 1),
            ("ff040001", 1),
            ("01020000 81", 2),
            ("010200", 1),
            ("0102000000", 1),
            ("01020000 0200", 2),
            ("01020000 02000100", 2),
            ("01", 1),
            ("01020000 020001 10020000", 3),
        ],
    );
    for (words, line) in [
        ("03000000", 1),
        ("01020000 03", 2),
        ("01020000 0400", 2),
        ("05", 1),
    ] {
        assert_eq!(verdict(words), refused(2, line), "verdict {words}");
    }
    assert_eq!(verdict(RUN), refused(2, 6));
    let runs = [
        ("030002", 6),
        ("0300000002", 6),
        ("0400", 6),
        ("04000703000000", 6),
        ("05010103", 6),
        ("09", 6),
        ("090007ff", 6),
        ("05010103000700", 6),
        ("0801000200", 6),
        ("08010002000700", 6),
    ];
    runs_refused(2, PLAN, &runs);
    runs_refused(2, RUN, &[("05010103000900", 8), ("0501", 8)]);
}

#[test]
fn order_in_plans() {
    plans_refused(
        3,
        &[
            ("020001", 1),
            ("020001 01020000", 1),
            ("01020000 020001 01020000", 3),
            ("01020000 020001 01000000", 3),
            ("01020000 020001 01ffffff", 3),
        ],
    );
}

#[test]
fn order_in_runs() {
    let first = [("03000002", 1), ("040007", 1), ("050101030009", 1)];
    runs_refused(3, "", &first);
    runs_refused(
        3,
        PLAN,
        &[
            ("04000703", 6),
            ("050101030009", 6),
            ("", 0),
            ("03000002", 0),
        ],
    );
    runs_refused(3, PLAN, &[("03000002 03000002", 7), ("03000002 020301", 7)]);
    runs_refused(
        3,
        PLAN,
        &[("03000002 050101030009", 7), ("03000002 01040001", 7)],
    );
    runs_refused(
        3,
        RUN,
        &[
            ("04000703", 8),
            ("03000002", 8),
            ("020301", 8),
            ("01040001", 8),
        ],
    );
    runs_refused(
        3,
        RUN,
        &[("050101030009 04000000", 9), ("050101030009 03ffffff", 9)],
    );
    assert_eq!(run("01020000 020001"), refused(3, 0));
}

#[test]
fn head() {
    let heads = [
        "01000000", "01010000", "01150000", "01ff0000", "01020200", "0102ff00",
    ];
    for head in heads {
        plans_refused(4, &[(head, 1)]);
    }
    plans_refused(
        4,
        &[("01020002", 1), ("01140014", 1), ("011400fe 020001", 1)],
    );
    assert_eq!(archive("01140013").len(), 23);
    assert_eq!(verdict("01021300"), refused(4, 1));
}

#[test]
fn link_ends() {
    plans_refused(
        5,
        &[
            ("01020000 020002", 2),
            ("01020000 020200", 2),
            ("01020000 020001 02ffff", 3),
            ("01020000 020000", 2),
            ("01020000 020101", 2),
            ("01140000 021400", 2),
            ("01140000 021300 020014", 3),
        ],
    );
}

#[test]
fn link_twice() {
    plans_refused(
        6,
        &[
            ("01020000 020001 020001", 3),
            ("01030000 020001 020102 020001", 4),
            ("01030000 020100 020001 020100 020001", 4),
        ],
    );
    assert_eq!(
        verdict("01020000 020001 020100"),
        "8100000000000000000000\n"
    );
}

#[test]
fn bad_set_members() {
    let cases = [
        ("03000001", 6),
        ("03000003", 6),
        ("03000010", 6),
        ("03000012", 6),
    ];
    runs_refused(7, PLAN, &cases);
    runs_refused(
        7,
        PLAN,
        &[("03800000", 6), ("03100000", 6), ("03ffffff", 6)],
    );
    runs_refused(
        7,
        &chain(),
        &[("03100000", 21), ("03800000", 21), ("03000001", 21)],
    );
    let last_is_bad = format!("{} 03080000 040007", chain());
    assert_eq!(run(&last_is_bad).len(), 20 * 13);
}

#[test]
fn bad_set_bound() {
    runs_refused(8, PLAN, &[("03000006", 6), ("03000006 04000000", 6)]);
    runs_refused(8, "01030000 020001 020102", &[("03000002", 4)]);
    // Only the source hears too many.
    runs_refused(
        8,
        "01030001 020001 020002 020100 020200",
        &[("03000006", 6)],
    );
    runs_refused(8, "01020000 020001 020100", &[("03000002", 4)]);
    // Members of the set may hear as many as they like.
    let inside = run("01030000 020001 020102 020201 03000006 04000701");
    assert_eq!(inside, "820001000007\n820102000000\n820202000000\n");
    // More than f members in all.
    let spread = run("01050001 020001 020002 020103 020204 03000006 04000702");
    assert_eq!(spread.lines().nth(1), Some("820102000000"));
}

#[test]
fn start() {
    let start = format!("{PLAN} 03000002");
    let cases = [
        ("040000", 7),
        ("04000003", 7),
        ("04000729", 7),
        ("040007ff", 7),
    ];
    runs_refused(9, &start, &cases);
    runs_refused(9, &start, &[("04000029", 7), ("04000029 05", 7)]);
}

#[test]
fn words() {
    let cases = [
        ("050001030009", 8), // round 0
        ("050401030009", 8), // past the last round
        ("05ff01030009", 8),
        ("050101020009", 8), // no such link
        ("050101000009", 8),
        ("050101010009", 8), // to itself
        ("050101040009", 8), // ends at or above n
        ("050104010009", 8),
        ("0501ffff0009", 8),
        ("050102030009", 8), // good senders
        ("050100010009", 8),
        ("050101030000", 8), // value 0
        ("050101030009 050201030000", 9),
    ];
    runs_refused(10, RUN, &cases);
    let no_rounds = format!("{PLAN} 03000002 04000700");
    runs_refused(10, &no_rounds, &[("050101030009", 8)]);
    // Four terminals: three rounds where none are named, forty where 28 is.
    let unnamed = format!("{PLAN} 03000002 040007");
    let cases = [
        ("050301030009 050401030009", 9),
        ("050401030009", 8),
        ("052801030009", 8),
    ];
    runs_refused(10, &unnamed, &cases);
    let forty = format!("{PLAN} 03000002 04000728");
    let cases = [("050401030009 052801030009 052901030009", 10)];
    runs_refused(10, &forty, &cases);
}

#[test]
fn words_twice() {
    let cases = [
        ("050101030009 050101030009", 9),
        ("050101030009 050101030007", 9),
        ("050301030009 050101030009 050301030001", 10),
    ];
    runs_refused(11, RUN, &cases);
}

#[test]
fn words_that_are_accepted() {
    // Any order; into the source; to a bad hearer.
    let site = "01030001 020001 020002 020100 020102 020201 03000006 04000703";
    let printed = run(&format!(
        "{site} 050301020009 050101000009 050302010009 050201020009"
    ));
    assert_eq!(printed, "820001000007\n820102000000\n820202000000\n");
}

#[test]
fn lowest_number_on_a_line() {
    assert_eq!(verdict("0100000"), refused(1, 1)); // odd digits before head
    assert_eq!(verdict("0200"), refused(2, 1)); // length before order
    assert_eq!(verdict("01020000 0100"), refused(2, 2));
    assert_eq!(verdict("01020000 020001 01000000"), refused(3, 3)); // order before head
    assert_eq!(run("01020000 0200ff 03000000 0200ff"), refused(5, 2));
    let late = "01020000 020001 03000000 0200ff";
    assert_eq!(run(late), refused(3, 4)); // order before link end
    assert_eq!(run(&format!("{PLAN} 03000007")), refused(7, 6)); // member before bound
    assert_eq!(run(&format!("{PLAN} 04000000")), refused(3, 6)); // order before start
    let twice = "050101030009 050101030000";
    assert_eq!(run(&format!("{RUN} {twice}")), refused(10, 9)); // word before word twice
    assert_eq!(verdict_bytes(b"01020000\n020000"), refused(1, 2)); // end before link end
}

#[test]
fn first_line_decides() {
    assert_eq!(verdict("01020000 020000 0G"), refused(5, 2));
    assert_eq!(verdict_bytes(b"01020000\n020000\n020001"), refused(5, 2));
    assert_eq!(run("01020000 020001 020001 03000001"), refused(6, 3));
    assert_eq!(run("01020000 020001 03000001 01"), refused(7, 3));
    assert_eq!(run(&format!("{PLAN} 03000006 04")), refused(8, 6));
    // A frame missing at the end comes last.
    assert_eq!(run("01020000 020001 06"), refused(2, 3));
    assert_eq!(run_bytes(b"01020000\n020001"), refused(1, 2));
}

#[test]
fn longest_file_is_accepted() {
    let mut rng = second::rng::Rng::new(3);
    let text = second::draft::long_run(&mut rng, 24_576);
    assert_eq!(text.len(), 24_576);
    assert!([20 * 13, 20 * 17].contains(&run_bytes(&text).len()));
    let longer = second::draft::long_run(&mut rng, 24_577);
    assert_eq!(longer.len(), 24_577);
    assert_eq!(run_bytes(&longer), refused(1, 0));
}
