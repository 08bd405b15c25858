//! The worked examples, the drawings and the remarks below them.

mod common;

use common::{archive, refused, run, set, verdict};
use second::drawings::{Outcome, DRAWINGS};
use second::faults::Fault;
use second::output::{plan_text, verdict_line};
use second::plan::Cause;
use second::verdict::{verdict as verdict_of, witness_check, Verdict};

const SITE: &str = "01040001 020001 020002 020103 020203";

#[test]
fn worked_verdict() {
    assert_eq!(verdict(SITE), "8101000002000005000008\n");
}

#[test]
fn worked_run() {
    let printed = run(&format!("{SITE} 03000002 04000703 050201030009"));
    assert_eq!(
        printed,
        "820001000007\n820102000000\n820201010007\n820300000000\n"
    );
}

/// Site E: 3 hears 1, which is bad, and 2, which says 7 in round 2. Two votes are needed.
#[test]
fn every_value_of_a_neighbour_counts() {
    let three = |words: &str| {
        let printed = run(&format!("{SITE} 03000002 04000704 {words}"));
        printed.lines().last().expect("a line").to_string()
    };
    // A spoiled word in round 1, the good one in round 3.
    assert_eq!(three("050101030009 050301030007"), "820301030007");
    // The good one first, then another.
    assert_eq!(three("050101030007 050201030009"), "820301020007");
    // The good one between two others, beside 2's.
    let between = "050101030009 050201030007 050301030008";
    assert_eq!(three(between), "820301020007");
    // No good one at all, in whatever order.
    let never = "050101030009 050201030008 050301030009 050401030006";
    assert_eq!(three(never), "820300000000");
}

/// Drawing G, three votes needed: 1 and 2 are bad and agree on 5 one round apart.
#[test]
fn liars_that_agree_one_round_apart() {
    let site = "01050002 020001 020002 020003 020104 020204 020304 03000006 04000706";
    let four = |words: &str| {
        let printed = run(&format!("{site} 050101040005 050202040005 {words}"));
        printed.lines().last().expect("a line").to_string()
    };
    assert_eq!(four(""), "820400000000");
    assert_eq!(four("050301040007"), "820400000000");
    assert_eq!(four("050301040007 050402040007"), "820401040007");
}

#[test]
fn every_drawing() {
    for drawing in &DRAWINGS {
        let plan = drawing.plan();
        let answer = verdict_of(&plan, Fault::None);
        match drawing.outcome {
            Outcome::Pass => {
                let sets = (set(&[]), set(&[]), set(&[]));
                let (bad, reached, left) = sets;
                let pass = Verdict {
                    fails: false,
                    bad,
                    reached,
                    left,
                };
                assert_eq!(answer, Ok(pass), "drawing {}", drawing.name);
            }
            Outcome::Fail((bad, reached, left)) => {
                let (bad, reached, left) = (set(bad), set(reached), set(left));
                assert_eq!(
                    witness_check(&plan, &bad, &reached, &left, Fault::None),
                    Ok(true)
                );
                let fail = Verdict {
                    fails: true,
                    bad,
                    reached,
                    left,
                };
                assert_eq!(answer, Ok(fail), "drawing {}", drawing.name);
            }
            Outcome::Refused(number) => {
                assert_eq!(answer.map_err(Cause::number), Err(number));
            }
        }
    }
}

#[test]
fn every_drawing_as_a_file() {
    for drawing in &DRAWINGS {
        let plan = drawing.plan();
        let text = plan_text(&plan, Fault::None);
        let expected = match verdict_of(&plan, Fault::None) {
            Ok(answer) => verdict_line(&answer, Fault::None),
            Err(_) => b"ff040001\n".to_vec(),
        };
        let name = drawing.name;
        assert_eq!(second::archive_text(&text), expected, "drawing {name}");
        // In B terminal 1 hears nobody.
        let new = if name == 'B' {
            b"ff0f0000\n".to_vec()
        } else {
            expected
        };
        assert_eq!(second::verdict_text(&text), new, "drawing {name}");
    }
}

#[test]
fn drawings_printed() {
    let h = "01070001 020001 020002 020003 020004 020105 020205 020605 020306 020406 020506";
    assert_eq!(verdict("01020000 020001"), "8100000000000000000000\n");
    assert_eq!(verdict("01020000"), refused(15, 0));
    assert_eq!(archive("01020000"), "8101000000000001000002\n");
    assert_eq!(
        verdict("01030001 020001 020102"),
        "8101000000000003000004\n"
    );
    assert_eq!(verdict(h), "810100000a000015000060\n");
    assert_eq!(
        verdict(&format!("{h} 020100 020200 020300 020400")),
        "8100000000000000000000\n"
    );
    assert_eq!(verdict("01010000"), "ff040001\n");
}

#[test]
fn second_round_of_drawing_c() {
    let printed = run("01030000 020001 020102 03000000 040007");
    assert_eq!(printed, "820001000007\n820101010007\n820201020007\n");
    let one_round = run("01030000 020001 020102 03000000 04000701");
    assert_eq!(one_round, "820001000007\n820101010007\n820200000000\n");
}

/// Terminal 1 is bad and says the truth in round 4 alone: 3 takes then, 4 a round later.
#[test]
fn rounds_when_none_are_given() {
    let site = "01050001 020001 020002 020103 020203 020204 020304 03000002";
    let printed = |start: &str| run(&format!("{site} {start} 050401030007"));
    let until_3 = "820001000007\n820102000000\n820201010007\n820301040007\n";
    assert_eq!(printed("040007"), format!("{until_3}820400000000\n"));
    assert_eq!(printed("04000704"), printed("040007"));
    for rounds in ["05", "06", "28"] {
        let start = format!("040007{rounds}");
        assert_eq!(printed(&start), format!("{until_3}820401050007\n"));
    }
    assert_eq!(printed("04000703"), "ff0a000a\n");
}

#[test]
fn bound_up_to_all_but_one() {
    let chain = "020001 020102";
    assert_eq!(
        verdict(&format!("01030002 {chain}")),
        "8101000000000003000004\n"
    );
    assert_eq!(verdict(&format!("01030003 {chain}")), "ff040001\n");
}

#[test]
fn forty_rounds_but_no_more() {
    let site = "01020000 020001 03000000";
    let taken = "820001000007\n820101010007\n";
    assert_eq!(run(&format!("{site} 04000728")), taken);
    assert_eq!(run(&format!("{site} 040007")), taken);
    assert_eq!(run(&format!("{site} 04000729")), "ff090004\n");
    assert_eq!(
        run(&format!("{site} 04000700")),
        "820001000007\n820100000000\n"
    );
}
