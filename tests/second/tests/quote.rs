//! The quoting page: the verdict on at most 12 terminals, and where more of them are refused.

mod common;

use common::{archive, file, quote, quote_bytes, refused, run, set, verdict, verdict_bytes};
use second::faults::Fault;
use second::groups::Bound;
use second::output::rewritten_text;
use second::plan::{write_plan, Cause, Plan, Set};
use second::quote::quote as quote_of;
use second::verdict::{fault_cause, verdict as verdict_of, witness_check, Verdict};

const PASSES: &str = "8100000000000000000000\n";

/// Head and links: everyone hears the source.
fn star(n: u32, bound: &str) -> String {
    let links = (1..n).map(|hearer| format!(" 0200{hearer:02x}"));
    links.fold(format!("01{n:02x}00{bound}"), |words, link| words + &link)
}

/// Head and links: everyone hears the one before it. The next line is n + 1.
fn chain(n: u32, bound: &str) -> String {
    let links = (1..n).map(|hearer| format!(" 02{:02x}{hearer:02x}", hearer - 1));
    links.fold(format!("01{n:02x}00{bound}"), |words, link| words + &link)
}

// ---- as many terminals as may be quoted, and more

#[test]
fn twelve_and_thirteen() {
    for bound in ["00", "01", "0b"] {
        assert_eq!(quote(&star(12, bound)), PASSES);
        assert_eq!(quote(&star(13, bound)), refused(14, 1));
        assert_eq!(verdict(&star(12, bound)), PASSES);
        assert_eq!(verdict(&star(13, bound)), PASSES);
    }
    // With f = 1 the third of a chain hears one too few.
    let fails = "8101000000000003000ffc\n";
    assert_eq!(quote(&chain(12, "01")), fails);
    assert_eq!(verdict(&chain(12, "01")), fails);
    assert_eq!(quote(&chain(13, "01")), refused(14, 1));
    assert_eq!(verdict(&chain(13, "01")), "8101000000000003001ffc\n");
    assert_eq!(quote(&chain(20, "01")), refused(14, 1));
    assert_eq!(verdict(&chain(20, "01")), "81010000000000030ffffc\n");
}

#[test]
fn twelve_and_thirteen_with_groups() {
    for n in [12, 13] {
        let passes = format!("{} 07000002", star(n, "ff"));
        // All that 2 hears fits in a group.
        let fails = format!("{} 07000002 07000000", chain(n, "ff"));
        let left = 2u32.pow(n) - 4;
        let failed = format!("8101000000000003{left:06x}\n");
        assert_eq!(verdict(&passes), PASSES);
        assert_eq!(verdict(&fails), failed);
        let quoted = |answer: &str| match n {
            12 => answer.to_string(),
            _ => refused(14, 1),
        };
        assert_eq!(quote(&passes), quoted(PASSES));
        assert_eq!(quote(&fails), quoted(&failed));
    }
}

/// The example of the papers, and one with a bad set of two members.
#[test]
fn small_plans() {
    let rows = [
        (
            "01040001 020001 020002 020103 020203",
            "8101000002000005000008\n",
        ),
        (
            "01070001 020001 020002 020003 020004 020105 020205 020605 020306 020406 020506",
            "810100000a000015000060\n",
        ),
        ("01050001 020001 020002 020003 020104 020204 020304", PASSES),
        ("01020000 020001", PASSES),
    ];
    for (words, line) in rows {
        assert_eq!(quote(words), line, "{words}");
        assert_eq!(verdict(words), line, "{words}");
    }
}

/// What the text says of a file that is a head alone: everyone but the source is deaf in it.
fn head_alone(n: u32, source: u32, bound: u32, most: u32) -> String {
    let groups = bound == 255;
    if !(2..=20).contains(&n) || source >= n || (bound >= n && !groups) {
        return refused(4, 1);
    }
    match n > most {
        true => refused(14, 1),
        false if groups => refused(17, 0),
        false => refused(15, 0),
    }
}

#[test]
fn every_head() {
    let ends = [0, 1, 2, 11, 12, 13, 14, 19, 20, 21, 254, 255];
    for n in 0..=255 {
        for source in ends {
            for bound in ends {
                let words = format!("01{n:02x}{source:02x}{bound:02x}");
                assert_eq!(quote(&words), head_alone(n, source, bound, 12), "{words}");
                assert_eq!(verdict(&words), head_alone(n, source, bound, 20), "{words}");
            }
        }
    }
}

// ---- which cause, and its line

/// A file, and what the quoting page and the verdict refuse it for.
type Row<'a> = (&'a str, (u8, u16), (u8, u16));

/// One that both refuse alike.
fn both(words: &str, number: u8, line: u16) -> Row<'_> {
    (words, (number, line), (number, line))
}

fn check_rows(rows: &[Row]) {
    for (words, by_quote, by_verdict) in rows {
        assert_eq!(quote(words), refused(by_quote.0, by_quote.1), "{words}");
        let by_verdict = refused(by_verdict.0, by_verdict.1);
        assert_eq!(verdict(words), by_verdict, "{words}");
    }
}

/// More than 12 are refused on the head's line, whatever comes after it.
#[test]
fn before_the_causes_of_later_lines() {
    let f = (14, 1);
    check_rows(&[
        ("010d0000", f, (15, 0)),
        ("010d0000 020001", f, (15, 0)),
        ("010d0000 02000d", f, (5, 2)),
        ("010d0000 020d00", f, (5, 2)),
        ("010d0000 020c0c", f, (5, 2)),
        ("010d0000 020001 0200ff", f, (5, 3)),
        ("010d0000 020001 020001", f, (6, 3)),
        ("010d00ff", f, (17, 0)),
        ("010d00ff 020001", f, (17, 0)),
        ("010d00ff 07000001", f, (17, 2)),
        ("010d00ff 020001 07002000", f, (17, 3)),
        ("010d00ff 07000002", f, (15, 0)),
        ("010d00ff 07000002 020001", f, (3, 3)),
        ("010d0000 07000002", f, (15, 0)),
        ("010d0000 010c0000", f, (15, 0)),
        ("010d0000 010d0000", f, (15, 0)),
        ("010d0000 06", f, (2, 2)),
        ("010d0000 0200", f, (2, 2)),
        ("010d0000 03000000", f, (2, 2)),
        ("010d0000 0g", f, (1, 2)),
        ("010d0000 020", f, (1, 2)),
        ("01140000 02", f, (2, 2)),
        ("01141313", f, (15, 0)),
        ("011413ff 0", f, (1, 2)),
        ("010d0c0c 020d0d 020d0d", f, (5, 2)),
    ]);
}

/// The same files with 12 terminals: the two agree.
#[test]
fn the_same_with_twelve() {
    check_rows(&[
        both("010c0000", 15, 0),
        both("010c0000 02000c", 5, 2),
        both("010c0000 020c00", 5, 2),
        both("010c0000 020b0b", 5, 2),
        both("010c0000 020001 020001", 6, 3),
        both("010c00ff", 17, 0),
        both("010c00ff 07000001", 17, 2),
        both("010c00ff 020001 07001000", 17, 3),
        both("010c00ff 07000002", 15, 0),
        both("010c00ff 07000002 020001", 3, 3),
        both("010c0000 07000002", 15, 0),
        both("010c0000 06", 2, 2),
        both("010c0000 0g", 1, 2),
        both("010c0b0b", 15, 0),
    ]);
}

/// On the head's own line 1, 2, 3 and 4 come first.
#[test]
fn after_the_first_causes_of_its_line() {
    check_rows(&[
        both("010d0d00", 4, 1),
        both("010dff00 020d0d", 4, 1),
        both("010d000d", 4, 1),
        both("010d00fe", 4, 1),
        both("010d0dff", 4, 1),
        both("01141400", 4, 1),
        both("01140014", 4, 1),
        both("01150000", 4, 1),
        both("011500ff", 4, 1),
        both("01ff0000 0g", 4, 1),
        both("01010000", 4, 1),
        both("01000000", 4, 1),
        both("010d", 2, 1),
        both("010d00", 2, 1),
        both("010d000000", 2, 1),
        both("0d0d0000", 2, 1),
        both("010d000", 1, 1),
        both("010d000g", 1, 1),
        both("010D0000", 1, 1),
    ]);
    for text in [
        &b"010d0000"[..],
        b"010d0000\r\n",
        b"010d0000 \n",
        b"\n010d0000\n",
    ] {
        assert_eq!(quote_bytes(text), refused(1, 1));
    }
}

/// A head of more than 12 that is out of order, or comes again.
#[test]
fn after_order() {
    check_rows(&[
        both("020001 010d0000", 3, 1),
        both("07000002 010d00ff", 3, 1),
        both("06 010d0000", 2, 1),
        both("010c0000 010d0000", 15, 0),
        both("010c00ff 010d0000", 17, 0),
    ]);
    for second in ["010d0000", "01140000", "010d0d00", "01ff0000", "010c0001"] {
        let words = format!("{} {second}", chain(12, "01"));
        assert_eq!(quote(&words), refused(3, 13), "{second}");
        assert_eq!(verdict(&words), refused(3, 13), "{second}");
    }
}

/// An empty file and one that is too long are refused before anything is read.
#[test]
fn whole_files() {
    assert_eq!(quote_bytes(b""), refused(1, 0));
    let mut text = file("010d0000");
    text.resize(24_576, b'0');
    assert_eq!(quote_bytes(&text), refused(14, 1));
    assert_eq!(verdict_bytes(&text), refused(1, 2));
    text.push(b'0');
    assert_eq!(quote_bytes(&text), refused(1, 0));
}

/// Deaf terminals are refused as by the verdict; the archive opens them.
#[test]
fn deaf_terminals() {
    let words = chain(12, "01").replace(" 020a0b", "");
    assert_eq!(quote(&words), refused(15, 0));
    assert_eq!(verdict(&words), refused(15, 0));
    assert_eq!(archive(&words), "8101000000000003000ffc\n");
}

/// Nobody else bounds the terminals to 12.
#[test]
fn nowhere_else() {
    for n in 13..=20 {
        let words = chain(n, "01");
        let left = 2u32.pow(n) - 4;
        assert_eq!(quote(&words), refused(14, 1));
        let failed = format!("8101000000000003{left:06x}\n");
        assert_eq!(verdict(&words), failed);
        assert_eq!(archive(&words), failed);
        assert_eq!(rewritten_text(&file(&words), Fault::None), file(&words));
        let played = run(&format!("{words} 03000000 04000702"));
        assert_eq!(played.lines().count() as u32, n);
        assert!(played.starts_with("820001000007\n820101010007\n820200000000\n"));
    }
}

// ---- plan records

/// A chain.
fn record(n: u32, bound: Bound) -> Plan {
    let mut plan = Plan::with(n, 0, bound);
    plan.links = (1..n).map(|hearer| (hearer - 1, hearer)).collect();
    plan
}

/// The numbers of the quoting page and of the verdict; 0 for an answer.
fn numbers(plan: &Plan) -> (u8, u8) {
    let number = |answer: Result<Verdict, Cause>| answer.map_or_else(Cause::number, |_| 0);
    let judged = verdict_of(plan, Fault::None);
    (number(quote_of(plan, Fault::None)), number(judged))
}

#[test]
fn records_by_size() {
    for n in 0..=255 {
        let expected = match n {
            2..=12 => (0, 0),
            13..=20 => (14, 0),
            _ => (4, 4),
        };
        assert_eq!(numbers(&record(n, Bound::f(1))), expected, "{n}");
        let groups = Bound::groups(&[set(&[1])]);
        assert_eq!(numbers(&record(n, groups)), expected, "{n}, groups");
    }
}

#[test]
fn records_are_judged_alike() {
    let plan = record(12, Bound::f(1));
    let fails = Verdict {
        fails: true,
        bad: Set::new(),
        reached: set(&[0, 1]),
        left: (2..12).collect(),
    };
    assert_eq!(quote_of(&plan, Fault::None), Ok(fails));
    let mut plan = Plan::new(12, 5, 11);
    plan.links = (0..12).filter(|&to| to != 5).map(|to| (5, to)).collect();
    let passes = Verdict {
        fails: false,
        bad: Set::new(),
        reached: Set::new(),
        left: Set::new(),
    };
    assert_eq!(quote_of(&plan, Fault::None), Ok(passes));
}

/// Each cause of a record, with 12 terminals and with 13. What is 15 in a file is none here.
#[test]
fn causes_of_records() {
    let f = Bound::f;
    let groups = |members: &[u32]| Bound::groups(&[set(members)]);
    let with = |n: u32, bound: Bound, link: (u32, u32)| {
        let mut plan = record(n, bound);
        plan.links.insert(link);
        plan
    };
    for (n, quoted) in [(12, None), (13, Some(14)), (20, Some(14))] {
        let after = |number: u8| (quoted.unwrap_or(number), number);
        let mut source = record(n, f(1));
        source.source = n;
        let mut source_of_groups = record(n, groups(&[1]));
        source_of_groups.source = 255;
        let mut beside = f(1);
        beside.put(15, set(&[1]));
        let mut count = groups(&[1]);
        count.number = 17;
        let mut past = groups(&[1]);
        past.put(1, set(&[2]));
        let rows = [
            (record(n, f(n)), (4, 4)),
            (record(n, f(255)), (4, 4)),
            (source.clone(), (4, 4)),
            (source_of_groups, (4, 4)),
            (with(n, f(n), (n, 0)), (4, 4)),
            (with(n, f(1), (n, 0)), after(5)),
            (with(n, f(1), (0, n)), after(5)),
            (with(n, f(1), (31, 1)), after(5)),
            (with(n, f(1), (3, 3)), after(5)),
            (with(n, groups(&[0]), (3, 3)), after(5)),
            (record(n, groups(&[0])), after(17)),
            (record(n, groups(&[n])), after(17)),
            (record(n, Bound::groups(&[])), after(17)),
            (record(n, beside), after(17)),
            (record(n, count), after(17)),
            (record(n, past), after(17)),
            (Plan::new(n, 0, 0), after(0)),
        ];
        for (plan, expected) in rows {
            assert_eq!(numbers(&plan), expected, "{plan:?}");
        }
    }
}

/// The other calls on a plan record take up to 20.
#[test]
fn other_calls_on_records() {
    let plan = record(20, Bound::f(1));
    let (reached, left) = (set(&[0, 1]), (2..20).collect());
    let witness = witness_check(&plan, &Set::new(), &reached, &left, Fault::None);
    assert_eq!(witness, Ok(true));
    assert_eq!(fault_cause(&plan, &set(&[7]), Fault::None), Ok(()));
    // A head of 9 bytes and 19 links of 7.
    assert_eq!(write_plan(&plan, &mut [0; 142], Fault::None), Ok(142));
}
