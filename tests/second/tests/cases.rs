//! The generator, the planted faults and the whole space of small sites.

use second::compare::{ask, Answer, TIME_LIMIT};
use second::draft::join;
use second::exhaust::exhaust;
use second::faults::{planted, Fault, Sound};
use second::generate::{case, turning_run, Kind, SORTS, VALID_SORTS};
use second::notice::Notice;
use second::output::run_text;
use second::reader::{read_run, RunFile};
use second::record;
use second::rng::Rng;
use second::run::run_file;
use second::step::{step, State};
use second::steps::step_case;
use second::verdict::verdict;
use std::collections::BTreeSet;

#[test]
fn same_seed_same_cases() {
    for kind in [Kind::Verdict, Kind::Run] {
        let differing = (0..64).filter(|&index| case(kind, 1, index) != case(kind, 2, index));
        assert!(differing.count() > 40);
        assert!((0..64).all(|index| case(kind, 1, index) == case(kind, 1, index)));
    }
}

/// The causes that the cases reach, and whether on a line.
fn reached(kind: Kind, text: fn(&[u8]) -> Vec<u8>) -> BTreeSet<(String, bool)> {
    let printed = (0..1600).map(|index| {
        let input = case(kind, 1, index);
        // Verdicts on many terminals take long without optimisation.
        let long = kind == Kind::Verdict && index % SORTS < VALID_SORTS;
        String::from_utf8(if long { Vec::new() } else { text(&input) }).expect("digits")
    });
    let refusals = printed.filter(|line| line.starts_with("ff"));
    refusals
        .map(|line| (line[2..4].to_string(), &line[4..8] != "0000"))
        .collect()
}

#[test]
fn cases_reach_every_cause() {
    let verdicts = reached(Kind::Verdict, second::verdict_text);
    let runs = reached(Kind::Run, second::run_text);
    for cause in (1..=11).chain([16]) {
        let on_a_line = (format!("{cause:02x}"), true);
        assert!(runs.contains(&on_a_line), "run, cause {cause}");
        assert_eq!(
            verdicts.contains(&on_a_line),
            cause <= 6,
            "verdict, cause {cause}"
        );
    }
    for set in [&verdicts, &runs] {
        assert!(set.contains(&("01".to_string(), false)));
        assert!(set.contains(&("0f".to_string(), false)));
        assert!(!set.contains(&("0f".to_string(), true)));
        assert!(set.contains(&("11".to_string(), false)));
        assert!(set.contains(&("11".to_string(), true)));
    }
    assert!(runs.contains(&("03".to_string(), false)));
}

#[test]
fn step_cases_reach_every_cause() {
    let causes: BTreeSet<u8> = (0..2000)
        .filter_map(|index| {
            let call = step_case(1, index);
            step(&call.place, call.record, &call.said, Fault::None).err()
        })
        .map(|(cause, _)| cause.number())
        .collect();
    assert_eq!(causes, BTreeSet::from([4, 5, 12, 13, 17]));
}

#[test]
fn planted_faults_are_found() {
    let sound = Sound::new(1, 1600);
    assert_eq!(sound.found(Fault::None).all(), 0);
    for (fault, name) in planted() {
        assert!(sound.found(fault).all() > 0, "{name}");
    }
}

/// Where the rule on values shows in what a run prints, and where only a step shows it.
#[test]
fn planted_faults_are_found_in_runs_and_steps() {
    let sound = Sound::new(2, 1600);
    let in_runs = [
        Fault::FirstWordOnly,
        Fault::FirstValueCounted,
        Fault::LastWordKept,
        Fault::WordsCounted,
        Fault::VotesWithoutOne,
    ];
    for fault in in_runs {
        let found = sound.found(fault);
        assert!(found.runs > 5 && found.steps > 5, "{fault:?}: {found:?}");
    }
    let in_steps = [
        Fault::PlacesCounted,
        Fault::LastWordOfSource,
        Fault::CountNotChecked,
        Fault::UnheardNoted,
        Fault::LargestValue,
    ];
    for fault in in_steps {
        let found = sound.found(fault);
        assert!(found.runs == 0 && found.steps > 5, "{fault:?}: {found:?}");
    }
}

#[test]
fn small_sites_hold() {
    let totals = exhaust(Fault::None).expect("no violation");
    // Three times f, four times one group, twelve times two groups.
    assert_eq!(totals.plans, 19 * 64);
}

#[test]
fn small_sites_show_broken_rules() {
    let broken = [
        Fault::VotesWithoutOne,
        Fault::ClosureWithoutOne,
        Fault::WordsCounted,
        Fault::CountAtRoundRefused,
        Fault::FitInAllGroups,
        Fault::BadSetBySize,
    ];
    for fault in broken {
        assert!(exhaust(fault).is_err(), "{fault:?}");
    }
}

#[test]
fn programs_are_asked() {
    assert_eq!(
        ask("cat", b"01\n", TIME_LIMIT),
        Answer::Output(b"01\n".to_vec())
    );
    assert!(matches!(
        ask("no-such-program", b"", TIME_LIMIT),
        Answer::Crash(_)
    ));
}

/// A run file's n, whether its start names its rounds, and the rounds that its words are in.
fn start_and_words(text: &[u8]) -> (u32, bool, BTreeSet<u32>) {
    let lines: Vec<&[u8]> = text.split(|&byte| byte == 10).collect();
    let byte = |line: &[u8], place: usize| {
        let digits = std::str::from_utf8(&line[2 * place..2 * place + 2]).expect("digits");
        u32::from_str_radix(digits, 16).expect("digits")
    };
    let start = lines.iter().find(|line| line.starts_with(b"04"));
    let words = lines.iter().filter(|line| line.starts_with(b"05"));
    (
        byte(lines[0], 1),
        [8, 12].contains(&start.expect("a start").len()),
        words.map(|line| byte(line, 1)).collect(),
    )
}

/// The edge that all words of a run file stand in, and whether its start names its rounds.
fn edges(text: &[u8]) -> Vec<(&'static str, bool)> {
    let (n, named, rounds) = start_and_words(text);
    [("n-1", n - 1), ("n", n), ("40", 40)]
        .into_iter()
        .filter(|(_, round)| rounds == BTreeSet::from([*round]))
        .map(|(edge, _)| (edge, named))
        .collect()
}

/// The fresh cases that are made for the edges.
fn edge_cases() -> Vec<Vec<u8>> {
    let made = (0..400 * SORTS).filter(|index| index % (2 * SORTS) == 5);
    made.map(|index| case(Kind::Run, 1, index)).collect()
}

/// Both forms of start, with words in round n-1, n or 40 alone, are among the cases and among the
/// recorded calls. Where the start names no rounds, those in n and in 40 are refused.
#[test]
fn both_forms_of_start_with_words_at_the_edge() {
    let fresh = edge_cases().into_iter().filter_map(|text| {
        let printed = second::run_text(&text);
        let deaf = printed.starts_with(b"ff0f");
        (!deaf).then(|| (text, printed.starts_with(b"ff0a")))
    });
    let calls = record::calls(record::SEED).into_iter();
    let recorded = calls.filter(|call| call.kind == b'r' && [0, 10].contains(&call.line[0]));
    let recorded = recorded.map(|call| (call.body, call.line[0] == 10));
    let seen = |files: Vec<(Vec<u8>, bool)>| -> BTreeSet<(&str, bool, bool)> {
        let seen = files.into_iter().flat_map(|(text, refused)| {
            let edges = edges(&text).into_iter();
            edges.map(move |(edge, named)| (edge, named, refused))
        });
        seen.collect()
    };
    for seen in [seen(fresh.collect()), seen(recorded.collect())] {
        for edge in ["n-1", "n", "40"] {
            assert!(seen.contains(&(edge, false, edge != "n-1")), "{edge}");
            assert!(seen.contains(&(edge, true, false)), "{edge}, named");
        }
        assert!(!seen.contains(&("n", false, false)) && !seen.contains(&("40", false, false)));
    }
}

/// The rounds that are meant show in what is printed of accepted files too, and not in refusals
/// alone, both among the cases and among the recorded calls.
#[test]
fn default_rounds_show_in_accepted_files() {
    let fresh = edge_cases();
    let calls = record::calls(record::SEED).into_iter();
    let recorded = calls.filter(|call| call.kind == b'r' && call.line[0] == 0);
    let recorded: Vec<Vec<u8>> = recorded.map(|call| call.body).collect();
    for files in [fresh, recorded] {
        for fault in [Fault::UnnamedRoundsForty, Fault::UnnamedRoundsAsTerminals] {
            let shown = files.iter().filter(|text| {
                let printed = run_text(text, Fault::None);
                printed.starts_with(b"82") && printed != run_text(text, fault)
            });
            assert!(shown.count() > 1, "{fault:?}");
        }
    }
}

/// The reader of run files is recorded on accepted files with either form of start.
#[test]
fn both_forms_of_start_are_read() {
    let calls = record::calls(record::SEED).into_iter();
    let read = calls.filter(|call| call.kind == b'f' && call.line[0] == 0);
    let named = read.map(|call| start_and_words(&call.body[1..]).1);
    let (named, unnamed): (Vec<bool>, Vec<bool>) = named.partition(|&named| named);
    assert!(named.len() > 20 && unnamed.len() > 20);
}

/// Of a passed plan's run whose start names no rounds, no line says that a terminal waits, where one
/// notice is all that is issued.
#[test]
fn passed_plans_end_with_nobody_waiting() {
    let mut ended = 0;
    for index in (0..200 * SORTS).filter(|index| index % SORTS < VALID_SORTS) {
        let text = case(Kind::Run, 1, index);
        let (n, named, _) = start_and_words(&text);
        let Ok(RunFile { plan, later, .. }) = read_run(&text, Fault::None) else {
            continue;
        };
        if named
            || !later.is_empty()
            || n > 9
            || verdict(&plan, Fault::None).map_or(true, |answer| answer.fails)
        {
            continue;
        }
        let printed = String::from_utf8(second::run_text(&text)).expect("digits");
        assert_eq!(printed.lines().count(), n as usize);
        assert!(printed.lines().all(|line| &line[4..6] != "00"), "{printed}");
        ended += 1;
    }
    assert!(ended > 50, "{ended} runs");
}

/// Whether the office had issued this before the round of taking; the source takes it in its round.
fn was_issued(file: &RunFile, number: u32, round: u32, held: Notice) -> bool {
    let (from, is_source) = (
        u32::from(number != file.plan.source),
        number == file.plan.source,
    );
    let mut later = file.later.iter();
    (held == file.start && round >= from)
        || later.any(|(&at, &notice)| notice == held && (at < round || (is_source && at == round)))
}

/// Liars that change what they say plant nothing. In a passed plan everybody holds the last notice,
/// if it was left undisturbed for long enough.
#[test]
fn liars_that_change_their_words_plant_nothing() {
    let mut rng = Rng::new(17);
    let (mut lied, mut passed, mut grouped, mut overtaking) = (0, 0, 0, 0);
    for turn in 0..4000 {
        let rounds = rng.pick(&[None, Some(9), Some(12)]);
        let text = join(&turning_run(&mut rng, 3 + turn % 6, rounds).lines);
        let file = read_run(&text, Fault::None).expect("a right file");
        let records = run_file(&file, Fault::None).expect("a right run");
        let passes = verdict(&file.plan, Fault::None).is_ok_and(|answer| !answer.fails);
        let last = file.later.last_key_value();
        let (at, last) = last.map_or((0, file.start), |(&at, &last)| (at, last));
        let passes = passes && file.rounds - at >= file.plan.n - 1;
        for (number, record) in (0..).zip(&records) {
            let holds = match record.state {
                State::Taken(round, held) => {
                    assert!(was_issued(&file, number, round, held), "{file:?}");
                    held == last
                }
                State::Waiting => false,
            };
            assert!(holds || !passes || file.bad.contains(&number), "{file:?}");
        }
        lied += u32::from(file.words.values().any(|&word| word != file.start));
        overtaking += u32::from(passes && !file.later.is_empty());
        passed += u32::from(passes && !file.words.is_empty());
        let groups = file.plan.bound.has_groups() && !file.words.is_empty();
        grouped += u32::from(passes && groups);
    }
    let counts = [lied, passed, grouped, overtaking];
    assert!(lied > 1000 && passed > 300, "{counts:?}");
    assert!(grouped > 100 && overtaking > 100, "{counts:?}");
}

/// Whether two liars say one lie to a good hearer, the second a round after the first.
fn agree_one_round_apart(file: &RunFile) -> bool {
    let said = |round: u32, from: u32, to: u32| file.words.get(&(round, from, to));
    file.words.iter().any(|(&(round, from, to), &lie)| {
        let mut others = file.bad.iter().filter(|&&other| other != from);
        let later = others.any(|&other| {
            let before = (1..=round).any(|early| said(early, other, to) == Some(&lie));
            said(round + 1, other, to) == Some(&lie) && !before
        });
        later && lie != file.start && !file.bad.contains(&to)
    })
}

/// Among the cases and among the recorded calls.
#[test]
fn liars_agree_one_round_apart() {
    let fresh: Vec<Vec<u8>> = (0..1600).map(|index| case(Kind::Run, 1, index)).collect();
    let calls = record::calls(record::SEED).into_iter();
    let recorded: Vec<Vec<u8>> = calls
        .filter(|call| call.kind == b'r')
        .map(|call| call.body)
        .collect();
    for files in [fresh, recorded] {
        let files = files
            .iter()
            .filter_map(|text| read_run(text, Fault::None).ok());
        assert!(files.filter(agree_one_round_apart).count() > 10);
    }
}

/// The rule on values shows in recorded calls of a run's text and of the run itself.
#[test]
fn second_values_show_in_recorded_runs() {
    let calls = record::calls(record::SEED);
    let texts = calls.iter().filter(|call| call.kind == b'r');
    for fault in [Fault::FirstWordOnly, Fault::LastWordKept] {
        let shown = texts.clone().filter(|call| {
            let printed = run_text(&call.body, Fault::None);
            printed.starts_with(b"82") && printed != run_text(&call.body, fault)
        });
        assert!(shown.count() > 10, "{fault:?}");
    }
}

/// A recorded call that no case reaches would compare nothing.
#[test]
fn recorded_calls_reach_every_answer() {
    let calls = record::calls(record::SEED);
    let numbers = |kind: u8| -> BTreeSet<u8> {
        let of_kind = calls.iter().filter(|call| call.kind == kind);
        of_kind.map(|call| call.line[0]).collect()
    };
    let expected: [(u8, &[u8]); 16] = [
        (b'v', &[0, 1, 2, 3, 4, 5, 6, 12, 15, 17]),
        (b'a', &[0, 1, 2, 3, 4, 5, 6, 12, 17]),
        (b'd', &[0, 1, 2, 3, 4, 5, 6, 17]),
        (
            b'r',
            &[0, 1, 2, 3, 4, 5, 6, 7, 8, 9, 10, 11, 12, 15, 16, 17],
        ),
        (
            b'f',
            &[0, 1, 2, 3, 4, 5, 6, 7, 8, 9, 10, 11, 12, 15, 16, 17],
        ),
        (b'p', &[0, 4, 5, 12, 17]),
        (b's', &[0, 4, 5, 12, 13, 17]),
        (b'w', &[0, 1, 4, 5, 17]),
        (b'c', &[0, 4, 5, 7, 8, 17]),
        (b'n', &[0, 4, 5, 7, 8, 9, 12, 16, 17]),
        (b'l', &[0, 4, 5, 7, 8, 9, 12, 16, 17]),
        (b'i', &[0, 9, 13, 16]),
        (b'S', &[0, 4, 5, 9, 12, 13, 17]),
        (b'C', &[0, 4, 5, 7, 8, 17]),
        (b'N', &[0, 4, 5, 7, 8, 9, 12, 17]),
        (b'L', &[0, 4, 5, 7, 8, 9, 12, 17]),
    ];
    for (kind, answers) in expected {
        let answers: BTreeSet<u8> = answers.iter().copied().collect();
        assert_eq!(numbers(kind), answers, "kind {}", kind as char);
    }
}

/// A wrong file beside a list of the wrong length: the file's number, for a reader and for a text.
#[test]
fn recorded_calls_have_a_wrong_file_and_a_wrong_list() {
    let calls = record::calls(record::SEED);
    let number = |call: &record::Call| call.line[0];
    let both = |kind: u8, wrong_list: fn(&record::Call) -> bool| {
        let wrong = calls
            .iter()
            .filter(|call| call.kind == kind && wrong_list(call));
        let (list, file): (Vec<_>, Vec<_>) = wrong.partition(|call| number(call) == 12);
        assert!(
            !list.is_empty() && !file.is_empty(),
            "kind {}",
            kind as char
        );
        let of_files = |number: u8| (1..12).contains(&number) || (15..=17).contains(&number);
        assert!(file.iter().all(|call| of_files(number(call))));
    };
    both(b'f', |call| call.lent != 16_000);
    both(b'f', |call| call.lent == 16_000 && call.body[0] != 40);
    both(b'v', |call| call.lent < 9);
    both(b'r', |call| call.lent < 9);
    both(b'a', |call| call.lent < 9);
}
