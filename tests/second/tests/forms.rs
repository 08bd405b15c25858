//! Run files with editions: the two forms of frames, later notices, and each cause with its line.

mod common;

use common::bytes::Bytes;
use common::{archive, file, refused, run, run_bytes, verdict};
use second::faults::Fault;
use second::forms::{mixed, WAYS};
use second::generate::{case, Kind, SORTS, VALID_SORTS};
use second::lent::{read_answer, read_lent, ReadCase, MARK};
use second::notice::{notice, Form, Notice};
use second::output::rewritten_text;
use second::plan::Cause;
use second::reader::{read_run, Refusal};
use second::record;
use second::rng::Rng;
use std::collections::BTreeMap;

/// Site E, a bad set {1}: 6 lines.
const SITE: &str = "01040001 020001 020002 020103 020203 03000002";
/// The same with edition 3, layout 7 and 3 rounds, and with an old start: 7 lines.
const NEW: &str = "01040001 020001 020002 020103 020203 03000002 040003000703";
const OLD: &str = "01040001 020001 020002 020103 020203 03000002 04000703";

/// Lines after a start, and the line that is refused.
fn check(number: u8, start: &str, cases: &[(&str, u16)]) {
    for (words, line) in cases {
        let all = format!("{start} {words}");
        assert_eq!(run(&all), refused(number, *line), "{all}");
    }
}

#[test]
fn printed_with_editions() {
    let waits = "8200010000030007\n8201020000000000\n8202010100030007\n8203000000000000\n";
    assert_eq!(run(NEW), waits);
    assert_eq!(run(&format!("{SITE} 0400030007")), waits);
    assert_eq!(run(&format!("{NEW} 0502010300030009")), waits);
    let taken = "8200010000030007\n8201020000000000\n8202010100030007\n8203010200030007\n";
    assert_eq!(run(&format!("{NEW} 0501010300030007")), taken);
    // A word in another edition is no vote, a higher one takes it back.
    assert_eq!(run(&format!("{NEW} 0501010300020007")), waits);
    let back = format!("{NEW} 0501010300030007 0502010300040007");
    assert_eq!(run(&back), waits);
    // The same file in the old frames.
    let old = run(&format!("{OLD} 050101030007"));
    assert_eq!(
        old,
        "820001000007\n820102000000\n820201010007\n820301020007\n"
    );
}

#[test]
fn later_notices_in_files() {
    let printed = run(&format!("{NEW} 080100040008"));
    let expected = "8200010100040008\n8201020000000000\n8202010200040008\n8203000000000000\n";
    assert_eq!(printed, expected);
    // One in the last round shows in the source's line only.
    let last = run(&format!("{NEW} 080300040008"));
    let expected = "8200010300040008\n8201020000000000\n8202010100030007\n8203000000000000\n";
    assert_eq!(last, expected);
    // Liar and good one agree on the later notice, each in its own round.
    let agreed = run(&format!("{NEW} 080100040008 0503010300040008"));
    assert_eq!(agreed.lines().last(), Some("8203010300040008"));
    // Several, and words after them.
    let both = run(&format!(
        "{NEW} 080100040008 0802ffff0001 0801ffff0001 0503010300040008"
    ));
    assert_eq!(both, refused(3, 10));
    let both = run(&format!("{NEW} 080100040008 0802ffff0001 050301030003ffff"));
    assert_eq!(
        both.lines().next(),
        Some("820001 02ffff0001".replace(' ', "").as_str())
    );
}

#[test]
fn an_overtaken_notice_in_a_file() {
    let links = "020001 020002 020003 020104 020204 020304 020105 020205 020405";
    let site = format!("01060001 {links} 03000004");
    let later = "080100020008 080200030009 08030004000a";
    let five = |text: &str| run(text).lines().last().map(str::to_string);
    let after_five = five(&format!("{site} 040001000705 {later}"));
    assert_eq!(after_five.as_deref(), Some("8205000000000000"));
    assert_eq!(five(&format!("{site} 0400010007 {later}")), after_five);
    let undisturbed = five(&format!("{site} 040001000708 {later}"));
    assert_eq!(undisturbed.as_deref(), Some("820501060004000a"));
    assert_eq!(
        verdict(&format!("01060001 {links}")),
        "8100000000000000000000\n"
    );
}

#[test]
fn the_other_form_after_the_start() {
    // The other form gets 2, wherever it stands after the start.
    let others = [
        ("04000703", 8),
        ("040007", 8),
        ("050101030009", 8),
        ("080100040008 04000703", 9),
        ("0501010300030009 050201030009", 9),
        ("0501010300030009 04000700", 9),
    ];
    check(2, NEW, &others);
    let others = [
        ("040003000703", 8),
        ("0400030007", 8),
        ("0501010300030009", 8),
        ("080100040008", 8),
        ("080000000000", 8),
        ("050101030009 080100040008", 9),
        ("050101030009 0400000000ff", 9),
    ];
    check(2, OLD, &others);
}

#[test]
fn starts_and_words_out_of_order() {
    // The same form gets 3, whatever it says.
    let same = [("040003000703", 8), ("0400000000", 8), ("040000000029", 8)];
    check(3, NEW, &same);
    check(3, OLD, &[("04000703", 8), ("040000", 8), ("040000ff", 8)]);
    // Before the start all of them are right, and out of order.
    let early = [
        ("050101030009", 7),
        ("0501010300030009", 7),
        ("080100040008", 7),
        ("080000000000", 7),
    ];
    check(3, SITE, &early);
    let plan = "01040001 020001 020002 020103 020203";
    let early = [
        ("04000703", 6),
        ("040003000703", 6),
        ("0400000000", 6),
        ("0501010300030009", 6),
        ("080100040008", 6),
    ];
    check(3, plan, &early);
    check(3, "", &[("080100040008", 1), ("0400030007", 1)]);
}

#[test]
fn lengths() {
    let wrong = [
        ("08", 8),
        ("0801", 8),
        ("0801000400", 8),
        ("08010004000800", 8),
        ("05010103000300", 8),
        ("050101030003000900", 8),
        ("04000300070300", 8),
    ];
    check(2, NEW, &wrong);
    check(2, SITE, &[("04", 7), ("0400", 7), ("04000300070300", 7)]);
    check(2, "", &[("08010004", 1), ("0801000400080000", 1)]);
}

/// Kind 08 is unknown to those that read plans, wherever it stands.
#[test]
fn plans_have_no_later_notices() {
    for words in [
        "01020000 020001 080100040008",
        "01020000 080100040008",
        "01030000 020001 08",
    ] {
        let line = words.split(' ').count() as u16;
        assert_eq!(verdict(words), refused(2, line));
        assert_eq!(archive(words), refused(2, line));
        let rewritten = rewritten_text(&file(words), Fault::None);
        assert_eq!(rewritten, refused(2, line).into_bytes());
    }
    assert_eq!(verdict("080100040008 01020000"), refused(2, 1));
    // To a run it is a line where the links end: 15 comes first, and 17.
    assert_eq!(run("01030000 020001 080100040008"), refused(15, 0));
    assert_eq!(run("010300ff 020001 080100040008"), refused(17, 0));
    assert_eq!(run("01030000 020001 0801000400"), refused(2, 3));
    assert_eq!(run("01030000 020001 0400030007"), refused(15, 0));
    assert_eq!(run("01030000 020001 0501010300030009"), refused(15, 0));
}

#[test]
fn starts() {
    check(16, SITE, &[("0400000007", 7), ("040000000703", 7)]);
    check(9, SITE, &[("0400030000", 7), ("0400000000", 7)]);
    check(9, SITE, &[("040003000729", 7), ("040000000729", 7)]);
    check(9, SITE, &[("040000000029", 7), ("0400030007ff", 7)]);
    let site = "01020000 020001 03000000";
    assert_eq!(
        run(&format!("{site} 04ffffffff28")),
        "82000100ffffffff\n82010101ffffffff\n"
    );
    assert_eq!(
        run(&format!("{site} 040001000100")),
        "8200010000010001\n8201000000000000\n"
    );
}

#[test]
fn wrong_later_notices() {
    let out_of_order = [
        ("080000040008", 8),
        ("080400040008", 8),
        ("08ff00040008", 8),
        ("080100040008 080100050008", 9),
        ("080200040008 080100050008", 9),
        ("0501010300030009 080100040008", 9),
        // Beside 9 and 16.
        ("080000040000", 8),
        ("080400000008", 8),
        ("080200040008 080200030000", 9),
        ("0501010300030009 080100000000", 9),
    ];
    check(3, NEW, &out_of_order);
    let no_layout = [
        ("080100040000", 8),
        ("080100000000", 8),
        ("080100030000", 8),
        ("080100020000", 8),
        ("080100040008 080200040000", 9),
    ];
    check(9, NEW, &no_layout);
    let not_above = [
        ("080100000008", 8),
        ("080100030008", 8),
        ("080100030007", 8),
        ("080100020008", 8),
        ("080100090008 080200090009", 9),
        ("080100090008 080200040009", 9),
        ("080101000008 080200ff0009", 9),
    ];
    check(16, NEW, &not_above);
    let no_rounds = format!("{SITE} 040003000700");
    check(3, &no_rounds, &[("080000040008", 8), ("080100040008", 8)]);
    // Three rounds where none are named.
    let unnamed = format!("{SITE} 0400030007");
    check(3, &unnamed, &[("080300040008 080400050008", 9)]);
}

#[test]
fn words_with_editions() {
    let wrong = [
        ("0501010300000009", 8),
        ("0501010300030000", 8),
        ("0501010300000000", 8),
        ("0500010300030009", 8),
        ("0504010300030009", 8),
        ("0501020300030009", 8),
        ("0501010200030009", 8),
        ("080100040008 0501010300000009", 9),
    ];
    check(10, NEW, &wrong);
    let twice = [
        ("0501010300030009 0501010300030009", 9),
        ("0501010300030009 0501010300040008", 9),
    ];
    check(11, NEW, &twice);
    let both = "0501010300030009 0501010300000009";
    assert_eq!(run(&format!("{NEW} {both}")), refused(10, 9));
}

// ---- the library's reader

fn read(words: &str, room: usize, later_room: usize) -> (Result<(), Refusal>, Vec<u32>, Vec<u32>) {
    let call = ReadCase {
        text: file(words),
        words: room,
        later: later_room,
    };
    let (answer, words, later) = read_answer(&call, Fault::None);
    (answer.map(drop), words, later)
}

#[test]
fn lists_of_the_reader() {
    let text = format!("{NEW} 080200040008 0502010300030009");
    let (answer, words, later) = read(&text, 16_000, 40);
    assert_eq!(answer, Ok(()));
    let at = (4 + 1) * 4 + 3;
    let expected = |place: usize| if place == at { 0x0003_0009 } else { 0 };
    assert!(words
        .iter()
        .enumerate()
        .all(|(place, &word)| word == expected(place)));
    let expected = |place: usize| if place == 1 { 0x0004_0008 } else { 0 };
    assert!(later
        .iter()
        .enumerate()
        .all(|(place, &entry)| entry == expected(place)));
    // Old words count as edition 1.
    let (_, words, later) = read(&format!("{OLD} 050201030009"), 16_000, 40);
    assert_eq!((words[at], later), (0x0001_0009, vec![0; 40]));
    let old = read_run(&file(OLD), Fault::None).expect("a right file");
    assert_eq!((old.form, old.start), (Form::Old, notice(1, 7)));
    // Either list of the wrong length, and both as they were.
    let cause = Cause::Length;
    for rooms in [(16_000, 39), (16_000, 41), (15_999, 40), (0, 40), (1, 0)] {
        let (answer, words, later) = read(&text, rooms.0, rooms.1);
        assert_eq!(answer, Err(Refusal { cause, line: 0 }));
        assert!(words.iter().chain(&later).all(|&entry| entry == MARK));
        // The file's own cause comes first.
        let (answer, words, later) = read(&format!("{text} 06"), rooms.0, rooms.1);
        assert_eq!(
            answer.map_err(|no| (no.cause.number(), no.line)),
            Err((2, 10))
        );
        assert!(words.iter().chain(&later).all(|&entry| entry == MARK));
    }
    let refusal = read_lent(b"", &mut [], &mut [], Fault::None).expect_err("no file");
    assert_eq!((refusal.cause, refusal.line), (Cause::Text, 0));
}

// ---- the generator and the recorded calls

/// Each way of a wrong file gets its number, on a line.
#[test]
fn every_way_gets_its_number() {
    for (place, (way, number)) in (0..).zip(WAYS) {
        for turn in 0..60 {
            let text = mixed(&mut Rng::for_case(3, place, turn), way);
            match read_run(&text, Fault::None) {
                Ok(_) => assert_eq!(number, 0, "{way:?}"),
                Err(no) => {
                    assert_eq!(no.cause.number(), number, "{way:?}");
                    assert!(no.line > 0);
                }
            }
        }
    }
}

/// What a valid run file is in.
fn sort_of(text: &[u8]) -> Vec<&'static str> {
    let Ok(file) = read_run(text, Fault::None) else {
        return Vec::new();
    };
    let last = file.later.last_key_value().map_or(0, |(&round, _)| round);
    let issued = |said: &Notice| *said == file.start || file.later.values().any(|one| one == said);
    let top = file
        .later
        .values()
        .next_back()
        .unwrap_or(&file.start)
        .edition;
    let above = file.words.iter().filter(|(_, said)| said.edition > top);
    let early = above.clone().any(|(at, _)| at.0 == 1);
    let several = |(&at, said): (&(u32, u32, u32), &Notice)| {
        let other = |(&to, next): (&(u32, u32, u32), &Notice)| {
            (at.1, at.2) == (to.1, to.2) && next.edition == said.edition && next != said
        };
        file.words.iter().any(other)
    };
    let marks = [
        ("old", file.form == Form::Old),
        ("new", file.form == Form::New),
        ("08", last > 0),
        ("08 in round 1", file.later.contains_key(&1)),
        ("08 in the last round", last > 0 && last == file.rounds),
        (
            "08 between",
            file.later.keys().any(|&at| at > 1 && at < file.rounds),
        ),
        ("08 often", file.later.len() > 2),
        ("high editions early", early),
        ("high editions", above.count() > 0),
        (
            "low editions late",
            file.words
                .iter()
                .any(|(at, said)| at.0 > last && last > 0 && said.edition < top),
        ),
        ("layouts in one edition", file.words.iter().any(several)),
        (
            "foretold",
            file.words.iter().any(|(at, said)| {
                file.later
                    .iter()
                    .any(|(&round, later)| round >= at.0 && later == said)
            }),
        ),
        ("a lie", !file.words.values().all(issued)),
    ];
    marks
        .iter()
        .filter(|mark| mark.1)
        .map(|mark| mark.0)
        .collect()
}

fn tally<'a>(texts: impl Iterator<Item = &'a [u8]>) -> BTreeMap<&'static str, u32> {
    let mut tally = BTreeMap::new();
    for mark in texts.flat_map(sort_of) {
        *tally.entry(mark).or_insert(0) += 1;
    }
    tally
}

const MINDS: [&str; 11] = [
    "08",
    "08 in round 1",
    "08 in the last round",
    "08 between",
    "08 often",
    "high editions early",
    "high editions",
    "low editions late",
    "layouts in one edition",
    "foretold",
    "a lie",
];

/// Among fresh files and among recorded ones; about half of the files have editions.
#[test]
fn every_mind_is_there() {
    let valid = (0..80 * SORTS).filter(|index| index % SORTS < VALID_SORTS);
    let fresh: Vec<Vec<u8>> = valid.map(|index| case(Kind::Run, 1, index)).collect();
    let calls = record::calls(record::SEED);
    let run_calls = calls.iter().filter(|call| call.kind == b'r');
    let recorded: Vec<Vec<u8>> = run_calls.map(|call| call.body.clone()).collect();
    for texts in [&fresh, &recorded] {
        let seen = tally(texts.iter().map(|text| &text[..]));
        for name in MINDS {
            let count = seen.get(name).copied().unwrap_or(0);
            assert!(count >= 15, "{name}: {count}");
        }
    }
    let seen = tally(fresh.iter().map(|text| &text[..]));
    let share = 100 * seen["new"] / (seen["new"] + seen["old"]);
    assert!((40..=65).contains(&share), "{share}");
    let texts = calls.iter().filter(|call| call.kind == b'f');
    let read = tally(texts.map(|call| &call.body[1..]));
    assert!(
        ["old", "new", "08"].iter().all(|name| read[name] > 40),
        "{read:?}"
    );
}

/// The answers of the reader, read back.
#[test]
fn recorded_reads_are_read_back() {
    let calls = record::calls(record::SEED);
    for call in calls.iter().filter(|call| call.kind == b'f') {
        let (answer, words, later) = read_answer(
            &ReadCase {
                text: call.body[1..].to_vec(),
                words: call.lent,
                later: usize::from(call.body[0]),
            },
            Fault::None,
        );
        let mut line = Bytes(&call.line);
        assert_eq!(
            line.byte(),
            answer.as_ref().map_or_else(|no| no.cause.number(), |_| 0)
        );
        line.skip(2 + 2 + 2 + 1 + 2);
        let places = usize::from(line.byte());
        line.skip(4 * places + 80 + 4);
        let read = (line.byte(), line.pair(), line.quad(), line.byte());
        let expected = answer.map_or((0, 0, 0, 0), |file| {
            let form = u8::from(file.form == Form::New);
            let default = file.default.unwrap_or(0);
            (form, default, file.start.number(), file.rounds as u8)
        });
        assert_eq!(read, expected);
        for list in [words, later] {
            let marks = list.iter().filter(|&&entry| entry == MARK).count();
            assert_eq!(line.quad() as usize, marks);
            for (place, entry) in list.iter().enumerate() {
                if ![0, MARK].contains(entry) {
                    assert_eq!((usize::from(line.pair()), line.quad()), (place, *entry));
                }
            }
        }
        assert!(line.0.is_empty());
    }
}

/// A digit of an edition, as of a layout: every byte in its place.
#[test]
fn digits_of_an_edition() {
    for byte in 0..=255u8 {
        let start = [
            b"01020000\n020001\n03000000\n040",
            &[byte][..],
            b"01000701\n",
        ]
        .concat();
        let expected = match char::from(byte).to_digit(16) {
            Some(value) if !byte.is_ascii_uppercase() => {
                let edition = 256 * value + 1;
                format!("82000100{edition:04x}0007\n82010101{edition:04x}0007\n")
            }
            _ => refused(1, 4),
        };
        assert_eq!(run_bytes(&start), expected, "byte {byte}");
    }
}
