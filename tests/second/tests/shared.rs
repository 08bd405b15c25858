//! One radio for all and a source that is not trusted, sentence by sentence: the frames, the causes in
//! their order, the step, the run, and that all good terminals agree.

mod common;

use common::{archive, first, place, refused, run, set, verdict, WAITS};
use second::channel::{some_channel, Channel};
use second::drawings::DRAWINGS;
use second::exhaust_shared::exhaust_shared;
use second::faults::Fault;
use second::groups::Bound;
use second::lent::{read_lent, LATER_PLACES, WORD_PLACES};
use second::notice::{notice, Notice};
use second::plan::{Cause, Plan, Set};
use second::reader::read_run;
use second::rng::Rng;
use second::run::{run as old_run, Order};
use second::shared::{shared_fault_cause, shared_run, SharedOrder};
use second::shared_calls::SharedSite;
use second::step::{shared_step, step, Place, Record, Row, State};
use second::verdict::verdict as judged;

/// Drawing E (0>1 0>2 1>3 2>3, f 1), and F (0>1 0>2 0>3 1>4 2>4 3>4, f 1), which passes.
const E: &str = "01040001 020001 020002 020103 020203";
const F: &str = "01050001 020001 020002 020003 020104 020204 020304";

// ---- the program

#[test]
fn a_good_source() {
    // Terminal 1 lies; 2 has the value, 3 hears one of each.
    let lines = "820001000007\n820102000000\n820201010007\n820300000000\n";
    let words = format!("{E} 090005 03000002 04000703 0502010009");
    assert_eq!(run(&words), lines);
    // The default is not taken, since the good source speaks in round 1.
    assert_eq!(
        run(&format!("{E} 090005 03000000 040007"))
            .matches("0007\n")
            .count(),
        4
    );
}

#[test]
fn a_bad_source() {
    // Silent: all that hear it take the default in round 1, and 4 takes it from them.
    let silent = "820002000000\n820101010005\n820201010005\n820301010005\n820401020005\n";
    assert_eq!(run(&format!("{F} 090005 03000001 040007")), silent);
    // Late: the same, whatever it says from round 2 on.
    let late = format!("{F} 090005 03000001 040007 0502000009 0503000009 0504000008");
    assert_eq!(run(&late), silent);
    // It speaks in round 1: its word, and neither the start's value nor the default.
    let spoken = silent.replace("0005\n", "0009\n");
    for later in ["", "0502000008 0503000006", "0504000001"] {
        let words = format!("{F} 090005 03000001 040007 0501000009 {later}");
        assert_eq!(run(&words), spoken);
    }
    // The default as a word, and the start's value, are words like others.
    let words = format!("{F} 090005 03000001 040007 0501000005");
    assert_eq!(run(&words), silent);
    let words = format!("{F} 090005 03000001 040007 0501000007");
    assert_eq!(run(&words), silent.replace("0005\n", "0007\n"));
}

#[test]
fn a_bad_source_and_a_bad_hearer_of_it() {
    // 4 hears 1, which lies, and takes what 2 and 3 say.
    let bad = "820002000000\n820102000000\n820201010005\n820301010005\n820401020005\n";
    let words = format!("{F} 090005 03000003 040007 0501010009 0502010009 0503010009");
    assert_eq!(run(&words), bad);
    // One word of 1 reaches all its hearers alike, and nobody else.
    let words = "01050001 020001 020002 020103 020203 020104 020204 \
                 090005 03000003 040007 0502010009 0501000009";
    let lines = "820002000000\n820102000000\n820201010009\n820301020009\n820401020009\n";
    assert_eq!(run(words), lines);
}

#[test]
fn rounds_as_elsewhere() {
    let waits = "820001000007\n820100000000\n820200000000\n";
    let plan = "01030000 020001 020102 090005 03000000";
    assert_eq!(run(&format!("{plan} 04000700")), waits);
    let one = waits.replace("820100000000", "820101010007");
    assert_eq!(run(&format!("{plan} 04000701")), one);
    let two = one.replace("820200000000", "820201020007");
    assert_eq!(run(&format!("{plan} 040007")), two);
    assert_eq!(run(&format!("{plan} 04000728")), two);
    // No round is played: nobody has taken the default.
    let bad = "01030000 020001 020102 090005 03000001 04000700";
    assert_eq!(run(bad), "820002000000\n820100000000\n820200000000\n");
}

#[test]
fn groups_with_the_mode() {
    let plan = "010500ff 020001 020002 020003 020104 020204 020304 07000006 07000004";
    // 1 and 2 lie together, and so does the source.
    let words = format!("{plan} 090005 03000007 040007 0501000008 0502010009 0502020009");
    // 3 alone is enough, being in no group.
    let lines = "820002000000\n820102000000\n820202000000\n820301010008\n820401020008\n";
    assert_eq!(run(&words), lines);
    // What is in no one group is no bad set, with the source or without it.
    for set in ["0300000a", "0300000b", "0300000d"] {
        assert_eq!(run(&format!("{plan} 090005 {set} 040007")), refused(8, 11));
    }
    assert!(run(&format!("{plan} 090005 03000001 040007")).starts_with("82"));
    // With 3 in a group of its own 4 waits, and still takes no lie.
    let words = words.replace("07000004", "07000008");
    assert_eq!(run(&words), lines.replace("820401020008", "820400000000"));
}

// ---- the frames and their order

fn told(words: &str, number: u8, line: u16) {
    assert_eq!(run(words), refused(number, line), "{words}");
}

#[test]
fn other_programs_lack_the_default() {
    for line in ["090005", "090000", "09", "09000500"] {
        for text in [format!("{F} {line}"), format!("{line} {F}")] {
            let at = if text.starts_with("09") { 1 } else { 8 };
            assert_eq!(verdict(&text), refused(2, at));
            assert_eq!(archive(&text), refused(2, at));
        }
    }
}

#[test]
fn the_default_stands_once_just_before_the_bad_set() {
    told(&format!("090005 {F}"), 3, 1);
    told(&format!("090000 {F}"), 3, 1);
    told(&format!("{F} 090005 090005"), 3, 9);
    told(&format!("{F} 090005 090000"), 3, 9);
    told(&format!("{F} 03000000 090005"), 3, 9);
    told(&format!("{F} 03000000 090000"), 3, 9);
    told(&format!("{F} 03000000 040007 090005"), 3, 10);
    told(&format!("{F} 03000000 0400010007 090005"), 3, 10);
    told(&format!("{F} 03000002 040007 050101040009 090005"), 3, 11);
    told(&format!("{F} 090005 03000001 090005"), 3, 10);
    told(&format!("{F} 090005 03000001 040007 090005"), 3, 11);
    told(
        &format!("{F} 090005 03000001 040007 0501000009 090005"),
        3,
        12,
    );
    // Nothing but the bad set follows it.
    for line in [
        "01050001",
        "020401",
        "020001",
        "07000002",
        "040007",
        "0501010009",
    ] {
        told(&format!("{F} 090005 {line}"), 3, 9);
    }
    let groups = F.replacen("01050001", "010500ff", 1);
    told(&format!("{groups} 07000002 090005 07000004"), 3, 10);
    told(&format!("{groups} 07000002 090005 020401"), 3, 10);
    // Something is missing at the end.
    told(&format!("{F} 090005"), 3, 0);
    told(&format!("{F} 090005 03000001"), 3, 0);
}

#[test]
fn the_default_is_a_layout() {
    told(&format!("{F} 090000"), 9, 8);
    for line in ["09", "0900", "09000500", "0900000005"] {
        told(&format!("{F} {line} 03000000"), 2, 8);
        told(&format!("{F} 03000000 {line}"), 2, 9);
        told(&format!("{F} 03000000 040007 {line}"), 2, 10);
        told(line, 2, 1);
    }
    for layout in ["0001", "ffff", "0100"] {
        assert!(run(&format!("{F} 09{layout} 03000001 040007")).contains(layout));
    }
}

#[test]
fn links_and_groups_end_at_the_default() {
    let deaf = "01040001 020001 020002 020103";
    assert!(run(&format!("{deaf} 090005 03000000 040007")).starts_with("82"));
    let deaf = "01040001 020001 020002";
    told(&format!("{deaf} 090005"), 15, 0);
    told(&format!("{deaf} 090000"), 15, 0);
    told(&format!("{deaf} 090005 020103"), 15, 0);
    told(&format!("{deaf} 090005 0g"), 15, 0);
    told(&format!("{deaf} 0900"), 2, 4);
    let none = deaf.replacen("01040001", "010400ff", 1);
    told(&format!("{none} 090005"), 17, 0);
    told(&format!("{none} 090000"), 17, 0);
    told(&format!("{none} 07000002 090005"), 15, 0);
    told(&format!("{none} 020103 090005 07000002"), 17, 0);
}

#[test]
fn forms_in_the_mode() {
    // From the default on, before the bad set, before the start, and after it.
    let places = [
        (format!("{F} 090005"), 9),
        (format!("{F} 090005 03000001"), 10),
        (format!("{F} 090005 03000001 040007"), 11),
        (format!("{F} 090005 03000001 040007 0501000009"), 12),
    ];
    for (before, line) in &places {
        for wrong in [
            "0400010007",
            "040001000704",
            "0400000000",
            "080100020008",
            "080000000000",
            "050100010009",
            "050000010000",
            "0501000100010009",
        ] {
            told(&format!("{before} {wrong}"), 2, *line);
        }
    }
    // A start without an edition, and a word without a hearer, only out of order.
    for (before, line) in &places[..1] {
        told(&format!("{before} 040007"), 3, *line);
        told(&format!("{before} 0501000009"), 3, *line);
    }
    told(&format!("{} 0501000009", places[1].0), 3, 10);
    for (before, line) in &places[2..] {
        for second in ["040007", "04000704", "04000029"] {
            told(&format!("{before} {second}"), 3, *line);
        }
    }
}

#[test]
fn forms_without_the_mode() {
    // A word without hearer is a frame by its length, before any start.
    told("0501000009", 3, 1);
    told("01030000 0501000009", 15, 0);
    told(&format!("{F} 0501000009"), 3, 8);
    told(&format!("{F} 0500000000"), 3, 8);
    told(&format!("{F} 03000002 0501010009"), 3, 9);
    // After a start it is one of another form.
    told(&format!("{F} 03000002 040007 0501010009"), 2, 10);
    told(&format!("{F} 03000002 0400010007 0501010009"), 2, 10);
    // A start with an edition before any default.
    told(&format!("{F} 0400010007 090005"), 3, 8);
    // The mode off, the source is trusted as before.
    told(&format!("{F} 03000001 040007"), 7, 8);
}

#[test]
fn the_bad_set() {
    let with = |set: &str| run(&format!("{F} 090005 {set} 040007"));
    for set in ["03000001", "03000003", "03000000", "03000010", "03000011"] {
        assert!(with(set).starts_with("82"), "{set}");
    }
    for set in ["03000020", "03000021", "03100000", "03800001", "03080000"] {
        assert_eq!(with(set), refused(7, 9));
    }
    // 4 hears two of it, with the source bad or not.
    for set in ["03000006", "03000007", "0300000d"] {
        assert_eq!(with(set), refused(8, 9));
    }
    // 7 before 8.
    assert_eq!(with("03000027"), refused(7, 9));
    // 4 is bad itself and has no bound.
    assert!(with("0300001f").starts_with("82"));
    // Hearers of the source hear it beside as many bad ones as others.
    let near = "01040001 020001 020002 020003 020201 020301 090005";
    assert!(run(&format!("{near} 03000005 040007")).starts_with("82"));
    told(&format!("{near} 0300000d 040007"), 8, 8);
}

#[test]
fn the_bound_at_the_source() {
    // The source hears 1 and 2, and nobody else hears both.
    let plan = "01050001 020001 020002 020003 020103 020204 020304 020100 020200 090005";
    told(&format!("{plan} 03000006 040007"), 8, 11);
    told(&format!("{plan} 03000007 040007"), 8, 11);
    assert!(run(&format!("{plan} 03000003 040007")).starts_with("82"));
    assert!(run(&format!("{plan} 03000005 040007")).starts_with("82"));
}

#[test]
fn the_start() {
    for bad in ["03000000", "03000001"] {
        told(&format!("{F} 090005 {bad} 040000"), 9, 10);
        told(&format!("{F} 090005 {bad} 04000004"), 9, 10);
        told(&format!("{F} 090005 {bad} 04000729"), 9, 10);
        assert!(run(&format!("{F} 090005 {bad} 04000728")).starts_with("82"));
        for line in ["04", "0400", "04000704000000"] {
            told(&format!("{F} 090005 {bad} {line}"), 2, 10);
        }
    }
}

#[test]
fn words() {
    let before = format!("{F} 090005 03000003 04000703");
    for word in ["0500000009", "0504000009", "05ff000009"] {
        told(&format!("{before} {word}"), 10, 11);
    }
    // A good sender, one that the site lacks, and value 0.
    for word in [
        "0501020009",
        "0501040009",
        "0501050009",
        "0501140009",
        "0501ff0009",
    ] {
        told(&format!("{before} {word}"), 10, 11);
    }
    told(&format!("{before} 0501000000"), 10, 11);
    told(&format!("{F} 090005 03000002 040007 0501000009"), 10, 11);
    // A second by one sender in one round; not in another, nor by another sender.
    told(&format!("{before} 0501000009 0501000009"), 11, 12);
    told(
        &format!("{before} 0501000009 0501010008 0502000009 0501000008"),
        11,
        14,
    );
    told(&format!("{before} 0501000009 0501000000"), 10, 12);
    let right = format!("{before} 0503000009 0501000009 0502000009 0501010008 0503010008");
    assert!(run(&right).starts_with("82"));
    for word in ["05", "0501", "050100", "05010000", "05010000090000"] {
        told(&format!("{before} {word}"), 2, 11);
    }
    // Nobody hears 4.
    let unheard = format!("{F} 090005 03000010 040007 0501040009");
    let lines = "820001000007\n820101010007\n820201010007\n820301010007\n820402000000\n";
    assert_eq!(run(&unheard), lines);
    // No round is played, so no word is in one.
    told(&format!("{F} 090005 03000001 04000700 0501000009"), 10, 11);
}

// ---- what is read

#[test]
fn words_into_the_lent_list() {
    let text = common::file(&format!(
        "{F} 090005 03000003 04000703 0503010009 0501000008"
    ));
    let mut words = vec![7; WORD_PLACES];
    let mut later = vec![7; LATER_PLACES];
    let file = read_lent(&text, &mut words, &mut later, Fault::None).expect("a right file");
    assert_eq!(file.default, Some(5));
    assert_eq!((file.start, file.rounds), (first(7), 3));
    // Round 1, sender 0; and round 3, sender 1, of five terminals.
    let said: Vec<(usize, u32)> = words
        .iter()
        .copied()
        .enumerate()
        .filter(|word| word.1 > 0)
        .collect();
    assert_eq!(said, [(0, 65_536 + 8), (2 * 5 + 1, 65_536 + 9)]);
    assert!(later.iter().all(|&entry| entry == 0));
    let off = read_run(&common::file(&format!("{F} 03000000 040007")), Fault::None);
    assert_eq!(off.expect("a right file").default, None);
}

// ---- the step

/// A step of `place` in this mode in which these say something.
fn stepped(place: &Place, record: Record, default: u16, words: &[(u32, u16)]) -> Record {
    let mut said = vec![0; place.n as usize];
    words
        .iter()
        .for_each(|&(who, layout)| said[who as usize] = layout);
    shared_step(place, record, default, &said, Fault::None).expect("a right call")
}

#[test]
fn round_one_at_a_hearer_of_the_source() {
    let waiting = Record::waiting;
    let after = stepped(&place(), waiting(), 5, &[(0, 9), (1, 3), (2, 3), (4, 3)]);
    // The source's word, though three agree on a smaller one; the notes are those of any round.
    assert_eq!((after.round, after.state), (1, State::Taken(1, first(9))));
    assert_eq!(*after.row(0), Row::of(1, &[9]));
    assert_eq!(*after.row(1), Row::of(1, &[3]));
    assert_eq!(*after.row(3), Row::default());
    // The default, though three agree; nothing is noted of the source.
    let after = stepped(&place(), waiting(), 5, &[(1, 3), (2, 3), (4, 3)]);
    assert_eq!((after.round, after.state), (1, State::Taken(1, first(5))));
    assert_eq!(*after.row(0), Row::default());
    assert_eq!(*after.row(4), Row::of(1, &[3]));
    // A row with a higher edition hides the word from the notes, and not from the take.
    let mut before = waiting();
    *before.row_mut(0) = Row::of(2, &[]);
    let after = stepped(&place(), before, 5, &[(0, 9)]);
    assert_eq!(after.state, State::Taken(1, first(9)));
    assert_eq!(*after.row(0), Row::of(2, &[]));
}

/// Every other record goes by the old rules, with the words as edition 1.
#[test]
fn other_records_go_by_the_old_rules() {
    let words = [9, 3, 3, 0, 5];
    let numbers = common::firsts(&words);
    let deaf_to_source = Place {
        heard: set(&[1, 2, 4]),
        ..place()
    };
    let is_source = Place {
        number: 0,
        heard: set(&[1, 2]),
        ..place()
    };
    let mut later = Record::waiting();
    later.round = 1;
    let mut noted = later.clone();
    *noted.row_mut(0) = Row::of(1, &[8]);
    let taken = |round: u32| Record {
        round,
        state: State::Taken(0, first(4)),
        ..Record::waiting()
    };
    let cases = [
        (&deaf_to_source, Record::waiting()),
        (&deaf_to_source, later.clone()),
        (&is_source, Record::source(first(7))),
        (&place(), later.clone()),
        (&place(), noted.clone()),
        (&place(), taken(0)),
        (&place(), taken(3)),
    ];
    for (place, record) in cases {
        let old = step(place, record.clone(), &numbers, Fault::None);
        let new = shared_step(place, record, 6, &words, Fault::None);
        assert_eq!(new, old);
    }
    // In a later round the default is never taken, and the source's first word is.
    let silent = stepped(&place(), later, 6, &[(1, 3)]);
    assert_eq!((silent.round, silent.state), (2, WAITS));
    let direct = stepped(&place(), noted, 6, &[(0, 9), (1, 3), (2, 3)]);
    assert_eq!(direct.state, State::Taken(2, first(8)));
    // Who does not hear the source takes neither its word nor the default.
    let alone = stepped(&deaf_to_source, Record::waiting(), 6, &[(0, 9), (1, 3)]);
    assert_eq!(alone.state, WAITS);
    assert_eq!(*alone.row(0), Row::default());
}

#[test]
fn step_refusals_in_order() {
    let number = |place: &Place, record: &Record, default: u16, said: usize| {
        let answer = shared_step(place, record.clone(), default, &vec![7; said], Fault::None);
        answer.map_or_else(
            |(cause, after)| {
                assert_eq!(after, *record);
                cause.number()
            },
            |_| 0,
        )
    };
    let mut wrong = place();
    let mut record = Record::waiting();
    assert_eq!(number(&wrong, &record, 5, 5), 0);
    assert_eq!(number(&wrong, &record, 5, 4), 12);
    assert_eq!(number(&wrong, &record, 5, 6), 12);
    assert_eq!(number(&wrong, &record, 0, 6), 9);
    record.round = 40;
    assert_eq!(number(&wrong, &record, 5, 6), 13);
    assert_eq!(number(&wrong, &record, 0, 6), 9);
    record.round = 0;
    record.row_mut(1).count = 1;
    assert_eq!(number(&wrong, &record, 5, 5), 13);
    assert_eq!(number(&wrong, &record, 0, 5), 9);
    wrong.bound = Bound::groups(&[]);
    assert_eq!(number(&wrong, &record, 0, 6), 17);
    wrong.heard.insert(3);
    assert_eq!(number(&wrong, &record, 0, 6), 5);
    wrong.n = 21;
    assert_eq!(number(&wrong, &record, 0, 6), 4);
    // The source waiting, and an own number that the site lacks.
    let source = Place {
        number: 0,
        heard: set(&[1]),
        ..place()
    };
    assert_eq!(number(&source, &Record::waiting(), 5, 5), 13);
    assert_eq!(number(&source, &Record::waiting(), 0, 5), 9);
    let outside = Place {
        number: 5,
        ..place()
    };
    assert_eq!(number(&outside, &Record::waiting(), 5, 5), 13);
}

// ---- the run

/// Site F with the source and terminal 1 bad, two rounds.
fn site() -> SharedSite {
    SharedSite {
        plan: DRAWINGS[5].plan(),
        bad: set(&[0, 1]),
        value: 7,
        default: 5,
        rounds: 2,
        words: vec![0; 10],
    }
}

fn number(of: &SharedSite, records: usize) -> u8 {
    let held = Record {
        round: 77,
        state: State::Taken(5, first(5)),
        ..Record::waiting()
    };
    let mut list = vec![held.clone(); records];
    let answer = shared_run(&of.order(), &mut list, Fault::None);
    assert!(answer.is_ok() || list.iter().all(|record| *record == held));
    answer.map_or_else(Cause::number, |()| 0)
}

#[test]
fn run_refusals() {
    let wrong = |change: fn(&mut SharedSite)| {
        let mut of = site();
        change(&mut of);
        number(&of, 5)
    };
    assert_eq!(wrong(|_| {}), 0);
    assert_eq!(wrong(|of| of.plan.n = 21), 4);
    assert_eq!(wrong(|of| of.plan.bound = Bound::f(5)), 4);
    assert_eq!(wrong(|of| of.plan.links.extend([(2, 2)])), 5);
    assert_eq!(wrong(|of| of.plan.bound = Bound::groups(&[])), 17);
    assert_eq!(wrong(|of| of.bad = set(&[5])), 7);
    assert_eq!(wrong(|of| of.bad = set(&[0, 31])), 7);
    assert_eq!(wrong(|of| of.bad = set(&[0, 1, 2])), 8);
    assert_eq!(wrong(|of| of.value = 0), 9);
    assert_eq!(wrong(|of| of.default = 0), 9);
    assert_eq!(wrong(|of| of.rounds = 41), 9);
    for length in [0, 9, 11, 50] {
        let words = vec![0; length];
        assert_eq!(number(&SharedSite { words, ..site() }, 5), 12);
    }
    for records in [0, 4, 6] {
        assert_eq!(number(&site(), records), 12);
    }
    // One after the other, the first that is looked for last.
    let mut of = SharedSite {
        words: Vec::new(),
        ..site()
    };
    assert_eq!(number(&of, 9), 12);
    of.default = 0;
    assert_eq!(number(&of, 9), 9);
    of.bad.insert(2);
    assert_eq!(number(&of, 9), 8);
    of.bad.insert(20);
    assert_eq!(number(&of, 9), 7);
    of.plan.bound = Bound::groups(&[set(&[0])]);
    assert_eq!(number(&of, 9), 17);
    of.plan.links.insert((1, 1));
    assert_eq!(number(&of, 9), 5);
    of.plan.source = 5;
    assert_eq!(number(&of, 9), 4);
    // Forty rounds, and none.
    let most = SharedSite {
        rounds: 40,
        words: vec![9; 200],
        ..site()
    };
    assert_eq!(number(&most, 5), 0);
    let none = SharedSite {
        rounds: 0,
        words: Vec::new(),
        ..site()
    };
    assert_eq!(number(&none, 5), 0);
}

#[test]
fn the_run_round_by_round() {
    let mut of = site();
    // Round 1: the source says 8, terminal 1 says 3. Round 2: the source says 6. Entries of good senders
    // are not looked at.
    of.words = vec![8, 3, 4, 4, 4, 6, 0, 4, 4, 4];
    let (answer, records) = of.played(Fault::None);
    assert_eq!(answer, Ok(()));
    assert_eq!(records[0], Record::waiting());
    assert_eq!(records[1], Record::waiting());
    let mut two = Record::waiting();
    two.round = 2;
    two.state = State::Taken(1, first(8));
    // Taken in round 1, it still notes what the source says in round 2.
    *two.row_mut(0) = Row::of(1, &[8, 6]);
    assert_eq!(records[2], two);
    assert_eq!(records[3], two);
    let mut four = Record::waiting();
    four.round = 2;
    four.state = State::Taken(2, first(8));
    *four.row_mut(1) = Row::of(1, &[3]);
    *four.row_mut(2) = Row::of(1, &[8]);
    *four.row_mut(3) = Row::of(1, &[8]);
    assert_eq!(records[4], four);
    // A good source is taken in round 0 with its value.
    of.bad.remove(&0);
    let (_, records) = of.played(Fault::None);
    let mut source = Record::source(first(7));
    source.round = 2;
    assert_eq!(records[0], source);
    assert_eq!(records[4].state, State::Taken(2, first(7)));
    // No round: the start records.
    of.rounds = 0;
    of.words.clear();
    let (_, records) = of.played(Fault::None);
    assert_eq!(records[0], Record::source(first(7)));
    assert!(records[1..]
        .iter()
        .all(|record| *record == Record::waiting()));
}

#[test]
fn the_check_of_a_bad_set() {
    let plan = DRAWINGS[5].plan();
    let number = |plan: &Plan, bad: &Set| {
        let answer = shared_fault_cause(plan, bad, Fault::None);
        answer.map_or_else(Cause::number, |()| 0)
    };
    for bad in [&[][..], &[0], &[0, 1], &[4], &[0, 4], &[0, 1, 2, 3, 4]] {
        assert_eq!(number(&plan, &set(bad)), 0);
    }
    for bad in [&[5][..], &[0, 5], &[1, 2, 20], &[0, 31]] {
        assert_eq!(number(&plan, &set(bad)), 7);
    }
    for bad in [&[1, 2][..], &[0, 1, 3], &[0, 2, 3]] {
        assert_eq!(number(&plan, &set(bad)), 8);
    }
    let mut hearing = plan.clone();
    hearing.links.extend([(1, 0), (4, 0)]);
    for bad in [&[1, 4][..], &[0, 1, 4]] {
        assert_eq!(number(&hearing, &set(bad)), 8);
        assert_eq!(number(&plan, &set(bad)), 0);
    }
}

// ---- agreement

/// What round 1 carries from the source: its value if it is good, else its word, or the default.
fn carried(channel: &Channel) -> u16 {
    let source = channel.plan.source;
    match channel.source_bad() {
        true => channel
            .words
            .get(&(1, source))
            .copied()
            .unwrap_or(channel.default),
        false => channel.value,
    }
}

/// The run by the old rules of a good source that says what is carried, each word told to all.
fn old_records(channel: &Channel) -> Vec<Record> {
    let (n, rounds) = (channel.plan.n, channel.played());
    let mut bad = channel.bad.clone();
    bad.remove(&channel.plan.source);
    let mut words = vec![0; (rounds * n * n) as usize];
    for (&(round, from), &layout) in &channel.words {
        for to in 0..n {
            let place = ((round - 1) * n + from) * n + to;
            words[place as usize] = first(layout).number();
        }
    }
    let order = Order {
        plan: &channel.plan,
        bad: &bad,
        start: first(carried(channel)),
        rounds,
        later: &vec![0; rounds as usize],
        words: &words,
    };
    let mut records = vec![Record::waiting(); n as usize];
    old_run(&order, &mut records, Fault::None).expect("a right run");
    records
}

/// In any plan nobody good holds anything but what was carried; in a passed plan all do after n-1
/// rounds. States, rounds and all notes but the source's are those of the old rules.
#[test]
fn good_terminals_agree() {
    let mut rng = Rng::new(11);
    let [mut passed, mut bad_source, mut by_default, mut grouped, mut lied] = [0; 5];
    for turn in 0..6000 {
        let channel = some_channel(&mut rng, 2 + turn % 7);
        let carried = carried(&channel);
        let (answer, records) = SharedSite::of(&channel).played(Fault::None);
        assert_eq!(answer, Ok(()), "{channel:?}");
        let long = channel.played() >= channel.plan.n - 1;
        let passes = long && judged(&channel.plan, Fault::None).is_ok_and(|told| !told.fails);
        let old = old_records(&channel);
        let good = (0..channel.plan.n).filter(|one| !channel.bad.contains(one));
        for number in good {
            let record = &records[number as usize];
            match record.state {
                State::Taken(_, held) => assert_eq!(held, first(carried), "{channel:?}"),
                State::Waiting => assert!(!passes, "{channel:?}"),
            }
            let mut expected = old[number as usize].clone();
            if channel.source_bad() {
                let of_source = record.row(channel.plan.source).clone();
                *expected.row_mut(channel.plan.source) = of_source;
            }
            assert_eq!(*record, expected, "{channel:?}");
        }
        let silent = !channel.words.contains_key(&(1, channel.plan.source));
        passed += u32::from(passes);
        bad_source += u32::from(passes && channel.source_bad());
        by_default += u32::from(passes && channel.source_bad() && silent);
        grouped += u32::from(passes && channel.source_bad() && channel.plan.bound.has_groups());
        lied += u32::from(passes && channel.bad.len() > 1 && channel.words.len() > 3);
    }
    let counts = [passed, bad_source, by_default, grouped, lied];
    assert!(counts.iter().all(|&count| count > 300), "{counts:?}");
}

/// Every plan of three terminals, and what shows there where a rule is broken.
#[test]
fn small_sites_agree() {
    let totals = exhaust_shared(Fault::None).expect("no violation");
    assert_eq!(totals.plans, 19 * 64);
    let broken = [
        Fault::VotesWithoutOne,
        Fault::DefaultNeverTaken,
        Fault::DefaultWhereSourceSpoke,
        Fault::DefaultToAll,
        Fault::BadSourceTrusted,
        Fault::BoundNotAskedOfBadSource,
    ];
    for fault in broken {
        assert!(exhaust_shared(fault).is_err(), "{fault:?}");
    }
}

/// What the program prints of a run of the mode is what the run leaves.
#[test]
fn the_program_prints_the_run() {
    let mut rng = Rng::new(12);
    for turn in 0..600 {
        let channel = some_channel(&mut rng, 2 + turn % 9);
        let printed = common::run_bytes(&channel.text());
        let (_, records) = SharedSite::of(&channel).played(Fault::None);
        let lines: Vec<&str> = printed.lines().collect();
        assert_eq!(lines.len(), records.len());
        for (number, (line, record)) in lines.iter().zip(&records).enumerate() {
            let (state, round, held) = match record.state {
                _ if channel.bad.contains(&(number as u32)) => (2, 0, Notice::default()),
                State::Waiting => (0, 0, notice(0, 0)),
                State::Taken(round, held) => (1, round, held),
            };
            let layout = held.layout;
            assert_eq!(
                *line,
                format!("82{number:02x}{state:02x}{round:02x}{layout:04x}")
            );
        }
    }
}

/// Without the default the same lines are read as before.
#[test]
fn the_mode_off() {
    let mut rng = Rng::new(13);
    for turn in 0..300 {
        let channel = some_channel(&mut rng, 2 + turn % 6);
        let text = second::draft::join(&channel.old_lines());
        let file = read_run(&text, Fault::None).expect("a right file");
        assert_eq!((file.default, file.shared_words.len()), (None, 0));
    }
}

#[test]
fn entries_of_good_senders_are_not_looked_at() {
    let mut rng = Rng::new(14);
    for turn in 0..400 {
        let channel = some_channel(&mut rng, 2 + turn % 6);
        let of = SharedSite::of(&channel);
        let (_, records) = of.played(Fault::None);
        let mut noisy = of.words.clone();
        for (place, word) in noisy.iter_mut().enumerate() {
            if !channel.bad.contains(&(place as u32 % channel.plan.n)) {
                *word = 1 + rng.below(65_535) as u16;
            }
        }
        let order = SharedOrder {
            words: &noisy,
            ..of.order()
        };
        let mut again = vec![Record::waiting(); records.len()];
        shared_run(&order, &mut again, Fault::None).expect("a right run");
        assert_eq!(again, records);
    }
}
