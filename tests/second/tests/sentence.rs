//! The fail in sentences: by hand, every way to part a few terminals both ways, the reader beside the
//! composer, and the two programs.

mod common;

use common::{heard_bytes, refused, sentence, sentence_bytes, set, verdict_bytes};
use second::drawings::{Outcome, DRAWINGS};
use second::faults::Fault;
use second::generate::{fresh_case, Kind};
use second::heard::read_sentence;
use second::heard_files::{by_hand, spoilt, BY_HAND, SPOILT};
use second::output::plan_text;
use second::plan::{Cause, Set};
use second::plans::passes;
use second::rng::Rng;
use second::sentence::{compose, sentence as sentence_of, Sets};
use second::sentence_files::{every, longest, sentence_case, some_fail, told_plan, EVERY};
use std::collections::{BTreeMap, BTreeSet};

fn sets(silent: &[u32], reached: &[u32], waiting: &[u32]) -> Sets {
    [set(silent), set(reached), set(waiting)]
}

fn said(n: u32, sets: &Sets) -> Result<String, u8> {
    sentence_of(n, sets, Fault::None).map_err(Cause::number)
}

fn heard(n: u32, text: &[u8]) -> Result<Sets, u8> {
    read_sentence(n, text, Fault::None).map_err(|(cause, sets)| {
        assert!(sets.iter().all(Set::is_empty), "sets beside a refusal");
        cause.number()
    })
}

/// The silent ones, those that are reached, those that wait, and the sentence.
type Row = (&'static [u32], &'static [u32], &'static [u32], &'static str);

// ---- by hand

const EXAMPLES: [Row; 8] = [
    (
        &[1],
        &[0, 2, 3, 4],
        &[5],
        "If 1 stays silent, 5 never gets the notice.",
    ),
    (
        &[1, 3],
        &[0, 2, 4],
        &[5, 6],
        "If 1 and 3 stay silent, 5 and 6 never get the notice.",
    ),
    (
        &[1, 3, 7],
        &[0, 2, 4, 8, 9],
        &[5, 6, 10],
        "If 1, 3 and 7 stay silent, 5, 6 and 10 never get the notice.",
    ),
    (
        &[],
        &[0, 1],
        &[2],
        "Even if all work, 2 never gets the notice.",
    ),
    (
        &[],
        &[2],
        &[0, 1],
        "Even if all work, 0 and 1 never get the notice.",
    ),
    (
        &[0],
        &[2],
        &[1],
        "If 0 stays silent, 1 never gets the notice.",
    ),
    (
        &[1],
        &[0],
        &[2, 3],
        "If 1 stays silent, 2 and 3 never get the notice.",
    ),
    (
        &[0, 1, 2],
        &[4],
        &[3],
        "If 0, 1 and 2 stay silent, 3 never gets the notice.",
    ),
];

#[test]
fn examples() {
    for (silent, reached, waiting, text) in EXAMPLES {
        let sets = sets(silent, reached, waiting);
        let n = sets.iter().map(|set| set.len() as u32).sum();
        assert_eq!(said(n, &sets).as_deref(), Ok(text));
        assert_eq!(heard(n, text.as_bytes()), Ok(sets), "{text}");
    }
}

/// Causes 4, 2 and 12, in this order; the list stays as it was, and the bytes after a text too.
#[test]
fn lent_lists() {
    let right = sets(&[1], &[0, 2], &[3]);
    let text = b"If 1 stays silent, 3 never gets the notice.";
    for (n, sets, room, expected) in [
        (4, &right, text.len(), Ok(text.len())),
        (4, &right, text.len() + 1, Ok(text.len())),
        (4, &right, 400, Ok(text.len())),
        (4, &right, text.len() - 1, Err(12)),
        (4, &right, 0, Err(12)),
        (5, &right, 400, Err(2)),
        (3, &right, 400, Err(2)),
        (5, &right, 0, Err(2)),
        (1, &right, 400, Err(4)),
        (21, &right, 0, Err(4)),
        (0, &sets(&[], &[], &[]), 400, Err(4)),
        (1, &sets(&[], &[0], &[]), 400, Err(4)),
        (255, &right, 400, Err(4)),
    ] {
        let mut list = vec![7; room];
        let answer = compose(n, sets, &mut list, Fault::None);
        let number = answer.map_err(|(cause, _)| cause.number());
        assert_eq!(number, expected, "{n}, {room}");
        assert!(answer.is_ok() || matches!(answer, Err((_, 0))));
        let written = answer.unwrap_or(0);
        assert_eq!(list[..written], text[..written]);
        assert!(list[written..].iter().all(|&byte| byte == 7));
    }
}

#[test]
fn wrong_sets() {
    for (n, sets) in [
        (3, sets(&[0], &[0, 1], &[2])),
        (3, sets(&[2], &[0, 1], &[2])),
        (3, sets(&[], &[0, 1, 2], &[2])),
        (3, sets(&[], &[0], &[2])),
        (3, sets(&[], &[1], &[2])),
        (3, sets(&[], &[], &[0, 1, 2])),
        (3, sets(&[0, 1], &[], &[2])),
        (3, sets(&[0, 1], &[2], &[])),
        (3, sets(&[0, 1, 2], &[], &[])),
        (3, sets(&[], &[], &[])),
        (3, sets(&[3], &[0, 1], &[2])),
        (3, sets(&[], &[0, 1, 3], &[2])),
        (3, sets(&[], &[0, 1, 31], &[2])),
        (3, sets(&[], &[0, 1], &[2, 20])),
        (2, sets(&[0], &[0], &[0])),
        (2, sets(&[], &[0], &[0])),
        (20, sets(&[], &(0..19).collect::<Vec<u32>>(), &[19, 20])),
    ] {
        assert_eq!(said(n, &sets), Err(2), "{n}, {sets:?}");
    }
}

/// The longest sentence has 108 bytes, whoever is where.
#[test]
fn longest_sentence() {
    assert_eq!(said(20, &longest()).map(|text| text.len()), Ok(108));
    let rng = &mut Rng::new(9);
    for _ in 0..20_000 {
        let n = rng.between(2, 20);
        let text = said(n, &some_fail(rng, n)).expect("a fail");
        assert!(text.len() <= 108, "{text}");
    }
    // One in L, the others shared out as 0 to 18 silent ones and the rest.
    for left_out in 0..20 {
        let others: Vec<u32> = (0..20).filter(|&one| one != left_out).collect();
        for silent in 0..19 {
            let (silent, waiting) = others.split_at(silent);
            let length = said(20, &sets(silent, &[left_out], waiting)).map(|text| text.len());
            assert!(length.is_ok_and(|length| length <= 108));
        }
    }
}

// ---- both ways

/// Every way to part up to four terminals that is a fail, by its n: no sentence twice, each read back.
fn all_fails() -> BTreeMap<u32, BTreeMap<String, Sets>> {
    let mut all: BTreeMap<u32, BTreeMap<String, Sets>> = BTreeMap::new();
    for (n, sets) in (0..EVERY).map(every) {
        let is_fail = !sets[1].is_empty() && !sets[2].is_empty();
        match said(n, &sets) {
            Ok(text) if is_fail => {
                let before = all.entry(n).or_default().insert(text, sets);
                assert_eq!(before, None);
            }
            answer => assert!(!is_fail && answer == Err(2), "{n}, {sets:?}"),
        }
    }
    all
}

#[test]
fn every_fail_of_a_few_terminals() {
    let all = all_fails();
    let counts: Vec<usize> = all.values().map(BTreeMap::len).collect();
    assert_eq!(counts, [2, 12, 50]);
    for (&n, sentences) in &all {
        for (text, sets) in sentences {
            assert_eq!(heard(n, text.as_bytes()).as_ref(), Ok(sets), "{text}");
        }
    }
}

/// Whatever the text is, the reader accepts exactly what the composer makes for this n.
#[test]
fn the_reader_beside_all_sentences() {
    let all = all_fails();
    let sentences: BTreeSet<&String> = all.values().flat_map(BTreeMap::keys).collect();
    let mut texts: Vec<Vec<u8>> = (0..BY_HAND).map(|index| by_hand(index).text).collect();
    texts.extend((0..SPOILT).map(|index| spoilt(index).text));
    texts.extend(sentences.iter().map(|text| text.as_bytes().to_vec()));
    let rng = &mut Rng::new(4);
    for sentence in &sentences {
        for _ in 0..200 {
            texts.push(edited(rng, sentence));
        }
    }
    let mut accepted = 0;
    for (text, (&n, sentences)) in texts
        .iter()
        .flat_map(|text| all.iter().map(move |of| (text, of)))
    {
        let known = std::str::from_utf8(text)
            .ok()
            .and_then(|text| sentences.get(text));
        accepted += u32::from(known.is_some());
        let expected = known.cloned().ok_or(2);
        assert_eq!(
            heard(n, text),
            expected,
            "{n}: {:?}",
            String::from_utf8_lossy(text)
        );
    }
    assert!(accepted > 300, "{accepted}");
}

/// A digit or a byte changed, a piece left out or repeated.
fn edited(rng: &mut Rng, sentence: &str) -> Vec<u8> {
    let mut text = sentence.as_bytes().to_vec();
    let at = rng.below(text.len());
    match rng.below(5) {
        0 | 1 => {
            let digits: Vec<usize> = (0..text.len())
                .filter(|&at| text[at].is_ascii_digit())
                .collect();
            text[rng.pick(&digits)] = rng.pick(b"012345");
        }
        2 => text[at] = rng.pick(b" ,.0123andstyge\n"),
        3 => {
            let end = (at + 1 + rng.below(4)).min(text.len());
            text.drain(at..end);
        }
        _ => {
            let end = (at + 1 + rng.below(6)).min(text.len());
            let piece = text[at..end].to_vec();
            text.splice(at..at, piece);
        }
    }
    text
}

#[test]
fn seeded_fails_are_read_back() {
    let rng = &mut Rng::new(11);
    for _ in 0..20_000 {
        let n = rng.between(2, 20);
        let sets = some_fail(rng, n);
        let text = said(n, &sets).expect("a fail");
        assert_eq!(heard(n, text.as_bytes()), Ok(sets.clone()), "{text}");
        // Under another n L is another; under a smaller one somebody may be out of range, or L empty.
        let other = rng.between(2, 20);
        let named: BTreeSet<u32> = sets[0].union(&sets[2]).copied().collect();
        let rest: Set = (0..other).filter(|one| !named.contains(one)).collect();
        let fits = !rest.is_empty() && named.iter().all(|&one| one < other);
        let expected = match fits {
            true => Ok([sets[0].clone(), rest, sets[2].clone()]),
            false => Err(2),
        };
        assert_eq!(heard(other, text.as_bytes()), expected, "{other}: {text}");
        for n in [0, 1, 21, 255] {
            assert_eq!(heard(n, text.as_bytes()), Err(4));
            assert_eq!(heard(n, b"x"), Err(4));
        }
    }
}

// ---- the programs

#[test]
fn drawings() {
    for drawing in &DRAWINGS {
        let text = plan_text(&drawing.plan(), Fault::None);
        let verdict = verdict_bytes(&text);
        let expected = match drawing.outcome {
            _ if verdict.starts_with("ff") => verdict,
            Outcome::Pass => "pass\n".to_string(),
            Outcome::Fail((silent, reached, waiting)) => {
                let words = said(drawing.n, &sets(silent, reached, waiting));
                words.expect("a fail") + "\n"
            }
            Outcome::Refused(_) => panic!("{}: {verdict}", drawing.name),
        };
        assert_eq!(sentence_bytes(&text), expected, "{}", drawing.name);
    }
    assert_eq!(
        sentence("01040001 020001 020002 020103 020203"),
        "If 1 stays silent, 3 never gets the notice.\n"
    );
    assert_eq!(sentence("01020000"), refused(15, 0));
    assert_eq!(sentence("01010000"), refused(4, 1));
    assert_eq!(sentence("01030001 020001 020001"), refused(6, 3));
    assert_eq!(sentence("010300ff 020001 020002"), refused(17, 0));
}

/// A fail's sentence, heard again, is the verdict's line; a refusal is the verdict's; a pass is a pass.
#[test]
fn as_the_verdict() {
    let (mut fails, mut passes, mut refusals) = (0, 0, 0);
    let fresh = (0..300).map(|index| fresh_case(Kind::Verdict, 5, index));
    for text in fresh.chain((0..900).map(|index| sentence_case(5, index))) {
        let (verdict, said) = (verdict_bytes(&text), sentence_bytes(&text));
        if verdict.starts_with("8101") {
            let n = u32::from_str_radix(std::str::from_utf8(&text[2..4]).expect("digits"), 16);
            let again = format!("{}\n{said}", n.expect("n"));
            assert_eq!(heard_bytes(again.as_bytes()), verdict, "{said}");
            fails += 1;
        } else if verdict.starts_with("8100") {
            assert_eq!(said, "pass\n");
            passes += 1;
        } else {
            assert_eq!(said, verdict);
            refusals += 1;
        }
    }
    assert!(
        fails > 400 && passes > 200 && refusals > 400,
        "{fails}, {passes}, {refusals}"
    );
}

/// Plans made to fail do so, with up to half of the others silent.
#[test]
fn told_plans_fail() {
    let rng = &mut Rng::new(6);
    let mut most = 0;
    for n in (3..=20).flat_map(|n| [n; 6]) {
        let plan = told_plan(rng, n);
        assert!(!passes(&plan), "{plan:?}");
        let said = sentence_bytes(&plan_text(&plan, Fault::None));
        let first = said.split(" silent, ").next().expect("a part");
        most = most.max(first.matches(',').count());
    }
    assert!(most >= 5, "{most}");
}

/// A sentence that is right from n 3 on.
const RIGHT: &str = "Even if all work, 2 never gets the notice.";

#[test]
fn phoned() {
    for (text, expected) in [
        (
            "7\nIf 1 and 3 stay silent, 5 and 6 never get the notice.\n",
            "810100000a000015000060\n",
        ),
        (
            "20\nEven if all work, 19 never gets the notice.\n",
            "810100000007ffff080000\n",
        ),
    ] {
        assert_eq!(heard_bytes(text.as_bytes()), expected, "{text}");
    }
}

/// Cause 4 with line 1, whatever comes after it.
#[test]
fn wrong_first_lines() {
    for first in [
        "",
        "0",
        "1",
        "21",
        "07",
        "+7",
        " 7",
        "7 ",
        "7\r",
        "a",
        "7\t",
        "4294967303",
        "8101",
    ] {
        for rest in [RIGHT, "", "x"] {
            let text = format!("{first}\n{rest}\n");
            assert_eq!(heard_bytes(text.as_bytes()), refused(4, 1), "{text:?}");
        }
    }
    for line in ["7", "x", RIGHT] {
        assert_eq!(heard_bytes(line.as_bytes()), refused(4, 1), "{line}");
    }
}

/// Cause 2 with line 2, and not before 4.
#[test]
fn wrong_second_lines() {
    for rest in [
        String::new(),
        "\n".into(),
        RIGHT.into(),
        format!("{RIGHT}\n\n"),
        format!("{RIGHT}\r\n"),
        format!("{RIGHT} \n"),
        format!("{RIGHT}\n{RIGHT}\n"),
        format!("{RIGHT}\nx"),
        format!("\n{RIGHT}\n"),
        "Even if all work, 7 never gets the notice.\n".into(),
    ] {
        let under = |n: u32| heard_bytes(format!("{n}\n{rest}").as_bytes());
        assert_eq!(under(7), refused(2, 2), "{rest:?}");
        assert_eq!(under(1), refused(4, 1), "{rest:?}");
    }
}

#[test]
fn sizes_of_files() {
    assert_eq!(heard_bytes(b""), refused(1, 0));
    for (first, number, line) in [("7", 2, 2), ("1", 4, 1)] {
        let longest = format!("{first}\n{}", "x".repeat(24_574));
        assert_eq!(heard_bytes(longest.as_bytes()), refused(number, line));
        assert_eq!(heard_bytes(format!("{longest}x").as_bytes()), refused(1, 0));
    }
}
