//! Deaf terminals: where new plans with one are refused, what the archive makes of them, and which
//! of the files about them are among the cases.

mod common;

use common::{archive_bytes, file, first, refused, run_bytes, verdict_bytes};
use second::faults::{Fault, Sound};
use second::generate::{case, shared_case, Kind, SORTS, VALID_SORTS};
use second::groups::Bound;
use second::output::{plan_text, rewritten_text, verdict_line};
use second::plan::{set_of, write_plan, Cause, Plan, Set};
use second::plans::{deaf_plan, mend, random_plan};
use second::reader::{read_archive, read_plan, read_run, Refusal};
use second::record::{self, Call};
use second::rng::Rng;
use second::run::{run, Order};
use second::step::{Record, State};
use second::verdict::{fault_cause, verdict, witness_check};
use std::collections::{BTreeMap, BTreeSet};

// ---- the place, row by row

/// Terminal 2 of three hears nobody; the source hears 1. The next line is the fourth.
const DEAF: &str = "01030000\n020001\n020100\n";
/// The same with the link that it lacks. The next line is the fifth.
const HEARS: &str = "01030000\n020001\n020100\n020102\n";

const FAILS: &str = "8101000000000003000004\n";
const PASSES: &str = "8100000000000000000000\n";

/// What a program prints: a refusal as number and line, or another text.
#[derive(Clone, Copy, Debug)]
enum Prints {
    No(u8, u16),
    Text(&'static str),
}
use Prints::{No, Text};

fn printed(what: Prints) -> String {
    match what {
        No(number, line) => refused(number, line),
        Text(text) => text.to_string(),
    }
}

/// After the links, and what `verdict`, `run` and `archive` print.
type Row = (&'static str, Prints, Prints, Prints);

fn check_rows(links: &str, rows: &[Row]) {
    for (tail, by_verdict, by_run, by_archive) in rows {
        let text = [links, tail].concat().into_bytes();
        assert_eq!(verdict_bytes(&text), printed(*by_verdict), "verdict {tail}");
        assert_eq!(run_bytes(&text), printed(*by_run), "run {tail}");
        assert_eq!(archive_bytes(&text), printed(*by_archive), "archive {tail}");
    }
}

const D: Prints = No(15, 0);

#[test]
fn deaf_at_a_line_that_is_no_link() {
    let (one, two, three) = (No(1, 4), No(2, 4), No(3, 4));
    let rows: [Row; 24] = [
        ("", D, D, Text(FAILS)),
        ("03000000\n", two, D, two),
        ("03000000\n04000702\n", two, D, two),
        ("03000004\n04000702\n050102000009\n", two, D, two),
        ("03000001\n", two, D, two),           // beside 7: the source
        ("03000008\n04000702\n", two, D, two), // beside 7: no such terminal
        ("03000002\n04000702\n", two, D, two), // beside 8
        ("04000702\n", two, D, two),           // beside 3
        ("04000000\n", two, D, two),           // beside 3 and 9
        ("050101000009\n", two, D, two),       // beside 3
        ("01030000\n", D, D, three),           // beside 3: the same head
        ("01000000\n", D, D, three),           // beside 3 and 4
        ("01ffffff\n03000000\n", D, D, three),
        ("01030000\n020102\n", D, D, three), // the link that lacks comes too late
        ("03000000\n020102\n04000702\n", two, D, two),
        ("03000000\n0g\n", two, D, two), // another cause comes after the place
        ("01030000\n0g\n", D, D, three),
        ("04000702\n03000000\n", two, D, two),
        // Not reached by a line that fails 1 or 2, whatever comes after it.
        ("06\n01030000\n", two, two, two),
        ("\n01030000\n", one, one, one),
        ("0g\n03000000\n", one, one, one),
        ("0300000\n04000702\n", one, one, one),
        ("0300\n04000702\n", two, two, two),
        ("03000000", one, one, one), // no line end
    ];
    check_rows(DEAF, &rows);
}

/// All three programs refuse the file alike, at the line after the links.
fn all_refuse(number: u8, tail: &str) {
    let text = [DEAF, tail].concat().into_bytes();
    for print in [verdict_bytes, run_bytes, archive_bytes] {
        assert_eq!(print(&text), refused(number, 4), "{tail:?}");
    }
}

#[test]
fn lines_that_fail_1_come_first() {
    let spoiled = [
        "0103000A",
        "01 30000",
        "0103000",
        "0",
        "\r",
        " ",
        "",
        "0300000G",
        "030000\r",
        "04000702\r",
    ];
    for line in spoiled {
        all_refuse(1, &format!("{line}\n01030000\n"));
    }
    // No line end in the last line, right though it is but for that.
    for line in [
        "01030000",
        "020102",
        "03000000",
        "04000702",
        "050101000009",
        "06",
    ] {
        all_refuse(1, line);
    }
}

#[test]
fn lines_that_fail_2_come_first() {
    let wrong = [
        "00",
        "06000000",
        "10030000",
        "81",
        "ff0f0000",
        "01",
        "010300",
        "0103000000",
        "03",
        "030000",
        "0300000000",
        "04",
        "0400",
        "04000702000000",
        "080100020007ff",
        "0801",
        "05",
        "05010100",
        "09",
        "0900",
        "09000700",
        "05010100000900",
    ];
    for line in wrong {
        all_refuse(2, &format!("{line}\n01030000\n"));
    }
}

#[test]
fn causes_before_the_place() {
    let rows = [
        ("020003\n", 5),
        ("020202\n", 5),
        ("02ff02\n", 5),
        ("020001\n", 6),
        ("020100\n", 6),
        ("02010g\n", 1),
        ("02010\n", 1),
        ("0201\n", 2),
        ("02010200\n", 2),
    ];
    for (link, number) in rows {
        for after in ["", "03000000\n04000702\n", "01030000\n", "06\n", "020102\n"] {
            all_refuse(number, &format!("{link}{after}"));
        }
    }
    // Before the head, in it, and of the whole file.
    let first: [Row; 5] = [
        ("020001\n01030000\n", No(3, 1), No(3, 1), No(3, 1)),
        ("03000000\n01030000\n", No(2, 1), No(3, 1), No(2, 1)),
        ("01030003\n", No(4, 1), No(4, 1), No(4, 1)),
        ("01010000\n03000000\n", No(4, 1), No(4, 1), No(4, 1)),
        ("", No(1, 0), No(1, 0), No(1, 0)),
    ];
    check_rows("", &first);
    let long = DEAF.repeat(1200);
    for print in [verdict_bytes, run_bytes, archive_bytes] {
        assert_eq!(print(long.as_bytes()), refused(1, 0));
    }
}

/// The same lines where everybody hears somebody.
#[test]
fn nobody_deaf_at_the_place() {
    let (two, three) = (No(2, 5), No(3, 5));
    let played = Text("820001000007\n820101010007\n820201020007\n");
    let rows: [Row; 15] = [
        ("", Text(PASSES), No(3, 0), Text(PASSES)),
        ("03000000\n", two, No(3, 0), two),
        ("03000000\n04000702\n", two, played, two),
        ("03000001\n", two, No(7, 5), two),
        ("03000008\n", two, No(7, 5), two),
        ("03000002\n", two, No(8, 5), two),
        ("04000702\n", two, three, two),
        ("050101000009\n", two, three, two),
        ("01030000\n", three, three, three),
        ("01000000\n", three, three, three),
        ("01ffffff\n", three, three, three),
        ("03000000\n020201\n", two, No(3, 6), two),
        ("01030000\n020201\n", three, three, three),
        ("06\n", two, two, two),
        ("0300000\n", No(1, 5), No(1, 5), No(1, 5)),
    ];
    check_rows(HEARS, &rows);
}

/// Drawing B, and the same with the other terminal as source and with a link into the source.
#[test]
fn drawing_b() {
    let rows: [Row; 5] = [
        ("01020000\n", D, D, Text("8101000000000001000002\n")),
        ("01020100\n", D, D, Text("8101000000000002000001\n")),
        ("01020000\n020100\n", D, D, Text("8101000000000001000002\n")),
        ("01020000\n020001\n", Text(PASSES), No(3, 0), Text(PASSES)),
        ("01020000\n03000000\n04000701\n", No(2, 2), D, No(2, 2)),
    ];
    check_rows("", &rows);
}

// ---- who is deaf

#[test]
fn deaf_sets() {
    let rows: [(&str, &[u32]); 11] = [
        ("01020000", &[1]),
        ("01020100", &[0]),
        ("01020000 020100", &[1]),
        ("01020000 020001", &[]),
        ("01030000 020001", &[2]),
        ("01030000 020102", &[1]), // 2 hears only a deaf one, and is none itself
        ("01030000 020001 020102", &[]), // the source hears nobody
        ("01030100 020100 020102", &[]),
        ("01040200 020001 020100", &[3]),
        ("01040200 020302 020002 020102", &[0, 1, 3]),
        ("01050003 020401 020104 020203", &[2]), // 1 and 4 hear each other
    ];
    for (words, deaf) in rows {
        let deaf: Set = deaf.iter().copied().collect();
        let filed = read_archive(&file(words), Fault::None).expect("a right plan");
        assert_eq!(filed.deaf, deaf, "{words}");
        let new = read_plan(&file(words), Fault::None);
        let expected = if deaf.is_empty() {
            Ok(filed.plan)
        } else {
            Err(DEAF_FILE)
        };
        assert_eq!(new, expected, "{words}");
    }
    let nobody_hears = read_archive(&file("01140700"), Fault::None).expect("a right plan");
    assert_eq!(nobody_hears.deaf, (0..20).filter(|&t| t != 7).collect());
}

const DEAF_FILE: Refusal = Refusal {
    cause: Cause::Deaf,
    line: 0,
};

/// Terminals other than the source that no link ends at.
fn hear_nobody(plan: &Plan) -> Set {
    let hearers: BTreeSet<u32> = plan.links.iter().map(|link| link.1).collect();
    let mut deaf: Set = (0..plan.n).filter(|t| !hearers.contains(t)).collect();
    deaf.remove(&plan.source);
    deaf
}

#[test]
fn plans_come_back_from_the_archive() {
    let mut rng = Rng::new(23);
    for turn in 0..1200 {
        let n = 2 + turn % 19;
        let mut plan = match turn % 3 {
            0 => deaf_plan(&mut rng, n),
            _ => random_plan(&mut rng, n, None),
        };
        if turn % 3 == 2 {
            mend(&mut rng, &mut plan);
        }
        let deaf = hear_nobody(&plan);
        assert!(turn % 3 == 1 || deaf.is_empty() == (turn % 3 == 2));
        let mut list = vec![0; 3000];
        let length = write_plan(&plan, &mut list, Fault::None).expect("room");
        let text = &list[..length];
        let filed = read_archive(text, Fault::None).expect("a right plan");
        assert_eq!((&filed.plan, &filed.deaf), (&plan, &deaf));
        assert_eq!(rewritten_text(text, Fault::None), text);
        let new = read_plan(text, Fault::None);
        assert_eq!(
            new,
            if deaf.is_empty() {
                Ok(plan)
            } else {
                Err(DEAF_FILE)
            }
        );
    }
}

/// Nothing reaches a terminal that hears nobody, so no liar is needed.
#[test]
fn deaf_plans_fail_with_nobody_bad() {
    let mut rng = Rng::new(29);
    for turn in 0..600 {
        let plan = deaf_plan(&mut rng, 2 + turn % 19);
        let deaf = hear_nobody(&plan);
        assert!(!deaf.is_empty());
        let answer = verdict(&plan, Fault::None).expect("a right plan");
        assert!(answer.fails && answer.bad.is_empty());
        assert!(deaf.is_subset(&answer.left), "{plan:?}");
        let line = String::from_utf8(verdict_line(&answer, Fault::None)).expect("digits");
        assert!(line.starts_with("8101000000"));
        assert_eq!(archive_bytes(&plan_text(&plan, Fault::None)), line);
    }
}

/// 15 belongs to files: a plan record is judged as before.
#[test]
fn plan_records_may_be_deaf() {
    let plan = Plan::new(2, 0, 0);
    let (none, source, other) = (Set::new(), Set::from([0]), Set::from([1]));
    let answer = verdict(&plan, Fault::None).expect("a right plan");
    assert_eq!(
        (answer.reached, answer.left),
        (source.clone(), other.clone())
    );
    assert_eq!(
        witness_check(&plan, &none, &source, &other, Fault::None),
        Ok(true)
    );
    assert_eq!(fault_cause(&plan, &other, Fault::None), Ok(()));
    let mut records = vec![Record::source(first(3)); 2];
    let order = Order {
        plan: &plan,
        bad: &none,
        start: first(7),
        rounds: 3,
        later: &[0; 3],
        words: &[9; 12],
    };
    assert_eq!(run(&order, &mut records, Fault::None), Ok(()));
    let states: Vec<State> = records.iter().map(|record| record.state).collect();
    assert_eq!(states, [State::Taken(0, first(7)), State::Waiting]);
}

// ---- files of the generator and recorded ones

/// A file's links, and what stands where they end, told by the text alone.
struct Seen {
    plan: Plan,
    line: u16,
    what: &'static str,
    after: Vec<&'static str>,
}

fn bytes_of(digits: &[u8]) -> Result<Vec<u32>, &'static str> {
    if digits.is_empty() {
        return Err("empty");
    }
    if !digits.iter().all(|c| b"0123456789abcdef".contains(c)) {
        return Err("foreign");
    }
    if digits.len() % 2 == 1 {
        return Err("odd");
    }
    let text = std::str::from_utf8(digits).expect("digits");
    let pairs = (0..text.len()).step_by(2).map(|at| &text[at..at + 2]);
    let bytes = pairs.map(|pair| u32::from_str_radix(pair, 16).expect("digits"));
    Ok(bytes.collect())
}

fn head_of(plan: &Plan) -> [u32; 4] {
    let bound = match plan.bound.has_groups() {
        true => 255,
        false => plan.bound.number,
    };
    [1, plan.n, plan.source, bound]
}

/// What a line is that ends the plan, or has a cause in it; nothing for a right link or group.
fn line_name(plan: &Plan, line: &[u8]) -> Option<&'static str> {
    let bytes = match bytes_of(line) {
        Err(_) if line.starts_with(b"02") => return Some("link, 1"),
        Err(_) if line.starts_with(b"07") => return Some("group, 1"),
        Err(name) => return Some(name),
        Ok(bytes) => bytes,
    };
    let name = match bytes[..] {
        [1, n, source, bound] if [1, n, source, bound] == head_of(plan) => "same head",
        [1, _, _, _] => "other head",
        [2, _, _] if plan.bound.has_groups() && plan.bound.number > 0 => "late link",
        [2, from, to] if from >= plan.n || to >= plan.n || from == to => "link, 5",
        [2, from, to] if plan.links.contains(&(from, to)) => "link, 6",
        [2, _, _] => return None,
        [2, ..] => "link, 2",
        [3, high, middle, low] => {
            let bad = set_of(high * 65_536 + middle * 256 + low);
            match fault_cause(plan, &bad, Fault::None) {
                Ok(()) | Err(Cause::Group) => "bad set",
                Err(Cause::BadSetMember) => "bad set, 7",
                Err(_) => "bad set, 8",
            }
        }
        [4, _, _] | [4, _, _, _] | [4, _, _, _, _] | [4, _, _, _, _, _] => "start",
        [5, _, _, _, _] | [5, _, _, _, _, _] | [5, _, _, _, _, _, _, _] => "word",
        [9, 0, 0] => "default, 9",
        [9, _, _] => "default",
        [8, _, _, _, _, _] => "notice",
        [7, _, _, _] if !plan.bound.has_groups() => "group",
        [7, high, middle, low] => {
            let group = set_of(high * 65_536 + middle * 256 + low);
            let outside = group.iter().any(|&member| member >= plan.n);
            if outside || group.contains(&plan.source) || plan.bound.number == 16 {
                return Some("group, 17");
            }
            return None;
        }
        [7, ..] => "group, 2",
        [1 | 3 | 4 | 5 | 8 | 9, ..] => "length",
        _ => "kind",
    };
    Some(name)
}

/// Nothing where the file has no right head on its first line, or is too long.
fn seen(text: &[u8]) -> Option<Seen> {
    let whole = text.split_inclusive(|&byte| byte == 10);
    let lines: Vec<Option<&[u8]>> = whole.map(|line| line.strip_suffix(b"\n")).collect();
    let head = bytes_of((*lines.first()?)?).ok()?;
    let [1, n @ 2..=20, source, number] = head[..] else {
        return None;
    };
    if source >= n || (number >= n && number != 255) || text.len() > 24_576 {
        return None;
    }
    let mut plan = Plan::new(n, source, number);
    if number == 255 {
        plan.bound = Bound::groups(&[]);
    }
    let (mut at, mut what) = (1, "end");
    while let Some(line) = lines.get(at) {
        let name = line.map_or(Some("cut"), |line| line_name(&plan, line));
        if let Some(name) = name {
            what = name;
            break;
        }
        match bytes_of(line.expect("a line")).expect("digits")[..] {
            [2, from, to] => drop(plan.links.insert((from, to))),
            [7, high, middle, low] => plan.bound.add(set_of(high * 65_536 + middle * 256 + low)),
            _ => panic!("neither a link nor a group"),
        }
        at += 1;
    }
    let after = match lines.get(at + 1) {
        None if what == "bad set" => vec!["bad set, end"],
        Some(Some(line)) if line.starts_with(b"02") => vec!["link after"],
        _ => Vec::new(),
    };
    Some(Seen {
        plan,
        line: at as u16 + 1,
        what,
        after,
    })
}

/// The refusal that the text gives for what stands there; nothing where the file goes on, and 0
/// for one that is accepted.
fn by_the_text(seen: &Seen, program: u8) -> Option<(u8, u16)> {
    let deaf = !hear_nobody(&seen.plan).is_empty();
    let no_group = seen.plan.bound.has_groups() && seen.plan.bound.number == 0;
    let run = program == b'r';
    let own = match seen.what {
        "cut" | "empty" | "foreign" | "odd" | "link, 1" | "group, 1" => {
            return Some((1, seen.line))
        }
        "kind" | "length" | "link, 2" | "group, 2" => return Some((2, seen.line)),
        "late link" => return Some((3, seen.line)),
        "group, 17" => return Some((17, seen.line)),
        "link, 5" => return Some((5, seen.line)),
        "link, 6" => return Some((6, seen.line)),
        "bad set" | "bad set, 7" | "bad set, 8" | "start" | "word" | "notice" if !run => {
            return Some((2, seen.line))
        }
        "default" | "default, 9" if !run => return Some((2, seen.line)),
        "end" if run => Some((3, 0)),
        "end" => Some((0, 0)),
        "bad set" | "default" => None,
        "default, 9" => Some((9, seen.line)),
        "bad set, 7" => Some((7, seen.line)),
        "bad set, 8" => Some((8, seen.line)),
        _ => Some((3, seen.line)),
    };
    if no_group {
        return Some((17, 0));
    }
    if deaf && program != b'a' {
        return Some((15, 0));
    }
    own
}

fn refusal_of<T>(answer: Result<T, Refusal>) -> (u8, u16) {
    answer.map_or_else(|no| (no.cause.number(), no.line), |_| (0, 0))
}

/// Every file is refused, or not, as what stands where its links end says.
#[test]
fn the_place_decides() {
    for index in 0..200 * SORTS {
        let plan_file = case(Kind::Verdict, 3, index);
        let run_file = case(Kind::Run, 3, index);
        let shared_file = shared_case(Kind::Run, 3, index);
        for text in [plan_file, run_file, shared_file] {
            let Some(seen) = seen(&text) else { continue };
            let answers = [
                (b'v', refusal_of(read_plan(&text, Fault::None))),
                (b'a', refusal_of(read_archive(&text, Fault::None))),
                (b'r', refusal_of(read_run(&text, Fault::None))),
            ];
            for (program, answer) in answers {
                match by_the_text(&seen, program) {
                    Some(expected) => assert_eq!(answer, expected, "{}", seen.what),
                    None => assert!(answer.0 != 15 && answer != (17, 0) && answer.1 != seen.line),
                }
            }
        }
    }
}

/// The reader of new plans and that of the archive, on the same files.
#[test]
fn new_plans_and_the_archive() {
    let (mut accepted, mut deaf, mut both, mut differ) = (0, 0, 0, 0);
    for index in 0..300 * SORTS {
        let text = case(Kind::Verdict, 4, index);
        let new = read_plan(&text, Fault::None);
        match read_archive(&text, Fault::None) {
            Ok(filed) if filed.deaf.is_empty() => {
                assert_eq!(new, Ok(filed.plan));
                accepted += 1;
            }
            Ok(_) => {
                assert_eq!(new, Err(DEAF_FILE));
                deaf += 1;
            }
            Err(refusal) if new == Err(refusal) => both += 1,
            Err(refusal) => {
                // Only a second head can be where the plan of such a file ends, or a group beside f.
                assert_eq!((new, refusal.cause), (Err(DEAF_FILE), Cause::Order));
                assert!(refusal.line > 1);
                differ += 1;
            }
        }
    }
    assert!(accepted > 1800 && deaf > 300 && both > 1800 && differ > 50);
}

/// Of the valid files about a tenth have a deaf terminal.
#[test]
fn a_tenth_is_deaf() {
    for kind in [Kind::Verdict, Kind::Run] {
        for seed in 1..4 {
            let valid = (0..200 * SORTS).filter(|index| index % SORTS < VALID_SORTS);
            let plans = valid.filter_map(|index| seen(&case(kind, seed, index)));
            let deaf = plans.map(|seen| !hear_nobody(&seen.plan).is_empty());
            let (deaf, hearing): (Vec<bool>, Vec<bool>) = deaf.partition(|&deaf| deaf);
            let share = 100 * deaf.len() / (deaf.len() + hearing.len());
            assert!((7..=14).contains(&share), "{kind:?}, seed {seed}: {share}");
        }
    }
}

/// What is to be told apart among plans with deaf terminals, and beside them.
fn shapes(plan: &Plan) -> Vec<&'static str> {
    let deaf = hear_nobody(plan);
    let source_hears = !plan.heard_by(plan.source).is_empty();
    if deaf.is_empty() {
        let only_source = [(!source_hears, "only the source hears nobody")];
        return only_source.iter().filter(|s| s.0).map(|s| s.1).collect();
    }
    let others = (0..plan.n).map(|t| plan.heard_by(t));
    let hears_deaf = others.clone().any(|heard| !heard.is_disjoint(&deaf));
    let hears_only_deaf = others
        .clone()
        .any(|heard| !heard.is_empty() && heard.is_subset(&deaf));
    [
        (deaf.len() == 1, "one"),
        (
            deaf.len() > 1 && deaf.len() + 1 < plan.n as usize,
            "several",
        ),
        (plan.n > 2 && deaf.len() + 1 == plan.n as usize, "all"),
        (hears_deaf, "heard by others"),
        (hears_only_deaf, "alone heard by another"),
        (source_hears, "source hears"),
        (!source_hears, "source hears nobody"),
        (plan.links.is_empty(), "no link"),
        (plan.n == 2, "two"),
        (plan.n == 20, "twenty"),
    ]
    .into_iter()
    .filter(|shape| shape.0)
    .map(|shape| shape.1)
    .collect()
}

const SHAPES: [&str; 11] = [
    "only the source hears nobody",
    "one",
    "several",
    "all",
    "heard by others",
    "alone heard by another",
    "source hears",
    "source hears nobody",
    "no link",
    "two",
    "twenty",
];

/// What stands where the links of a deaf plan end, in run files; plan files lack none of it.
const PLACES: [&str; 21] = [
    "end",
    "bad set",
    "bad set, 7",
    "bad set, 8",
    "bad set, end",
    "start",
    "word",
    "notice",
    "same head",
    "other head",
    "kind",
    "length",
    "foreign",
    "odd",
    "empty",
    "cut",
    "link after",
    "link, 1",
    "link, 2",
    "link, 5",
    "link, 6",
];

fn tally<'a>(names: impl Iterator<Item = Vec<&'a str>>) -> BTreeMap<&'a str, u32> {
    let mut tally = BTreeMap::new();
    for name in names.flatten() {
        *tally.entry(name).or_insert(0) += 1;
    }
    tally
}

/// What stands at the place of a plan that is deaf, or of one that isn't.
fn places(text: &[u8], deaf: bool) -> Vec<&'static str> {
    match seen(text) {
        Some(seen) if hear_nobody(&seen.plan).is_empty() != deaf => {
            [&[seen.what], &seen.after[..]].concat()
        }
        _ => Vec::new(),
    }
}

fn bodies(letter: u8) -> Vec<Vec<u8>> {
    let calls = record::calls(record::SEED).into_iter();
    let of_kind = calls.filter(|call| call.kind == letter);
    of_kind.map(|call| call.body).collect()
}

fn fresh(kind: Kind) -> Vec<Vec<u8>> {
    (0..210 * SORTS).map(|index| case(kind, 1, index)).collect()
}

/// Each name that is needed is there so often.
fn check_tally(what: &str, tally: &BTreeMap<&str, u32>, needed: &[&str], least: u32) {
    for name in needed {
        let count = tally.get(name).copied().unwrap_or(0);
        assert!(count >= least, "{what}, {name}: {count}");
    }
}

/// All that can stand at the place, among fresh files and among recorded ones.
#[test]
fn every_place_is_there() {
    let files = [
        ("verdict", fresh(Kind::Verdict), 5),
        ("run", fresh(Kind::Run), 5),
        ("v", bodies(b'v'), 2),
        ("r", bodies(b'r'), 2),
        ("a", bodies(b'a'), 1),
        ("d", bodies(b'd'), 1),
    ];
    for (name, texts, least) in files {
        let deaf = tally(texts.iter().map(|text| places(text, true)));
        check_tally(name, &deaf, &PLACES, least);
    }
    for kind in [Kind::Verdict, Kind::Run] {
        let hearing = fresh(kind);
        let hearing = tally(hearing.iter().map(|text| places(text, false)));
        check_tally("nobody deaf", &hearing, &PLACES, 3);
    }
}

/// Every shape of plan, among the files that the archive accepts and among the runs' ones.
#[test]
fn every_shape_is_there() {
    let files = [
        ("verdict", fresh(Kind::Verdict), 5),
        ("run", fresh(Kind::Run), 5),
        ("a", bodies(b'a'), 1),
        ("d", bodies(b'd'), 1),
    ];
    for (name, texts, least) in files {
        let plans = texts.iter().filter_map(|text| seen(text));
        let right = plans.filter(|seen| ["end", "bad set"].contains(&seen.what));
        let tally = tally(right.map(|seen| shapes(&seen.plan)));
        check_tally(name, &tally, &SHAPES, least);
    }
}

// ---- recorded calls

/// Bytes that are read from the front, high byte first.
struct Bytes<'a>(&'a [u8]);

impl Bytes<'_> {
    fn number(&mut self, bytes: usize) -> u32 {
        let (front, rest) = self.0.split_at(bytes);
        self.0 = rest;
        let front = front.iter();
        front.fold(0, |number, &byte| number * 256 + u32::from(byte))
    }
}

/// The line of an accepted file against the plan as it is read here; the deaf set that it tells.
fn opened(line: &[u8], plan: &Plan) -> Set {
    let mut line = Bytes(line);
    assert_eq!(line.number(3), 0);
    let head = [line.number(2), line.number(2), line.number(1)];
    let groups = plan.bound.has_groups();
    assert_eq!(head, [plan.n, plan.source, u32::from(groups)]);
    assert_eq!(line.number(2), plan.bound.number);
    let listed = line.number(1);
    let places: Vec<Set> = (0..listed).map(|_| set_of(line.number(4))).collect();
    assert!(places.last().is_none_or(|last| !last.is_empty()));
    let mut wanted = plan.bound.listed();
    while wanted.last().is_some_and(|last| last.is_empty()) {
        wanted.pop();
    }
    assert_eq!(places, wanted);
    for hearer in 0..20 {
        let heard = plan.links.iter().filter(|link| link.1 == hearer);
        assert_eq!(set_of(line.number(4)), heard.map(|link| link.0).collect());
    }
    let deaf = set_of(line.number(4));
    assert!(line.0.is_empty());
    deaf
}

/// The archive's reader: zeros beside a refusal, and else all that the file says.
#[test]
fn opened_plans_are_read_back() {
    let calls = record::calls(record::SEED).into_iter();
    let mut counts: BTreeMap<&str, u32> = BTreeMap::new();
    for call in calls.filter(|call| call.kind == b'd') {
        assert_eq!(call.lent, 0);
        let accepted = seen(&call.body).filter(|seen| by_the_text(seen, b'a') == Some((0, 0)));
        let Some(Seen { plan, .. }) = accepted else {
            assert!(call.line[0] > 0 && call.line[3..].iter().all(|&byte| byte == 0));
            assert_eq!(call.line.len(), 3 + 2 + 2 + 1 + 2 + 1 + 80 + 4);
            *counts.entry("refused").or_insert(0) += 1;
            continue;
        };
        let told = opened(&call.line, &plan);
        assert_eq!(told, hear_nobody(&plan));
        let name = match (plan.bound.has_groups(), told.is_empty()) {
            (true, true) => "groups",
            (true, false) => "groups, deaf",
            (false, true) => "f",
            (false, false) => "f, deaf",
        };
        *counts.entry(name).or_insert(0) += 1;
    }
    let enough = counts.values().all(|&count| count > 15);
    assert!(counts.len() == 5 && enough, "{counts:?}");
}

/// The text functions: refused plans with their line, and the archive's fails on deaf ones.
#[test]
fn recorded_texts_are_about_deaf_plans() {
    let calls = record::calls(record::SEED);
    let holding = |letter: u8, number: u8, text: &[u8]| {
        let of_kind = calls.iter().filter(|call| call.kind == letter);
        let named = of_kind.filter(|call| call.line[0] == number);
        named
            .filter(|call| call.line[3..].starts_with(text))
            .count()
    };
    assert!(holding(b'v', 15, b"ff0f0000\n") > 20);
    assert!(holding(b'r', 15, b"ff0f0000\n") > 40);
    assert_eq!(holding(b'a', 15, b""), 0);
    // A list without room for the refusal's line doesn't hide it.
    assert!(holding(b'v', 15, b"Z") > 2 && holding(b'r', 15, b"Z") > 2);
    let deaf = calls
        .iter()
        .filter(|call| call.kind == b'a' && call.line[0] == 0);
    let deaf =
        deaf.filter(|call| seen(&call.body).is_some_and(|s| !hear_nobody(&s.plan).is_empty()));
    let fails = deaf.filter(|call| call.line[3..].starts_with(b"8101000000"));
    assert!(fails.count() > 30);
    let files = calls
        .iter()
        .filter(|call| call.kind == b'f' && call.line[0] == 15);
    let files: Vec<&Call> = files.collect();
    assert!(files.len() > 10 && files.iter().any(|call| call.lent != 16_000));
    assert!(files.iter().all(|call| call.line[1..3] == [0, 0]));
}

// ---- planted faults

/// Which files show which fault about deaf terminals.
#[test]
fn planted_faults_show_where_they_should() {
    let sound = Sound::new(2, 2000);
    let everywhere = [
        Fault::DeafWithLine,
        Fault::DeafBeforeText,
        Fault::DeafBeforeKind,
        Fault::DeafAfterLine,
        Fault::DeafAtEndOnly,
        Fault::DeafAtBadSetOnly,
    ];
    for fault in everywhere {
        let found = sound.found(fault);
        assert!(found.verdicts > 5 && found.runs > 5, "{fault:?}: {found:?}");
        assert_eq!((found.archive, found.steps), (0, 0), "{fault:?}");
    }
    for fault in [Fault::DeafInArchive, Fault::DeafByDeaf] {
        let found = sound.found(fault);
        assert!(found.archive > 5, "{fault:?}: {found:?}");
        assert_eq!((found.verdicts, found.runs), (0, 0), "{fault:?}");
    }
    for fault in [Fault::DeafNotInRuns, Fault::MissingBeforeDeaf] {
        let found = sound.found(fault);
        assert!(found.runs > 5, "{fault:?}: {found:?}");
        assert_eq!((found.verdicts, found.archive), (0, 0), "{fault:?}");
    }
    let source = sound.found(Fault::SourceDeaf);
    assert!(source.verdicts > 100 && source.archive > 100 && source.runs > 100);
}
