//! Which files, steps and plan records with groups are among the cases and the recorded calls, and
//! which of them show a planted fault.

mod common;

use common::bytes::Bytes;
use second::faults::{Fault, Found, Sound};
use second::generate::{case, Kind, SORTS, VALID_SORTS};
use second::groups::Bound;
use second::plan::{set_of, Plan, Set};
use second::reader::{read_archive, read_run};
use second::record::{self, Call};
use second::records::{record_answer, record_case};
use second::verdict::{fault_cause, verdict};
use std::collections::BTreeMap;

type Tally = BTreeMap<&'static str, u32>;

fn tally(names: impl Iterator<Item = Vec<&'static str>>) -> Tally {
    let mut tally = Tally::new();
    for name in names.flatten() {
        *tally.entry(name).or_insert(0) += 1;
    }
    tally
}

/// The names of what holds.
fn named(marks: &[(&'static str, bool)]) -> Vec<&'static str> {
    let holding = marks.iter().filter(|mark| mark.1);
    holding.map(|mark| mark.0).collect()
}

fn check(what: &str, tally: &Tally, needed: &[&str], least: u32) {
    for name in needed {
        let count = tally.get(name).copied().unwrap_or(0);
        assert!(count >= least, "{what}, {name}: {count} of {tally:?}");
    }
}

fn calls_of(kinds: &[u8]) -> Vec<Call> {
    let calls = record::calls(record::SEED).into_iter();
    calls.filter(|call| kinds.contains(&call.kind)).collect()
}

fn fresh(kind: Kind, seed: u64) -> Vec<Vec<u8>> {
    (0..210 * SORTS)
        .map(|index| case(kind, seed, index))
        .collect()
}

fn bodies(kinds: &[u8]) -> Vec<Vec<u8>> {
    let calls = calls_of(kinds);
    calls.iter().map(|call| text_of(call).to_vec()).collect()
}

/// The file in a call's body; the reader's has a byte before it.
fn text_of(call: &Call) -> &[u8] {
    &call.body[usize::from(call.kind == b'f')..]
}

// ---- plans

/// Of the valid files a third list groups.
#[test]
fn a_third_has_groups() {
    for kind in [Kind::Verdict, Kind::Run] {
        for seed in 1..4 {
            let valid = (0..200 * SORTS).filter(|index| index % SORTS < VALID_SORTS);
            let grouped = valid.map(|index| case(kind, seed, index)[6..8] == *b"ff");
            let (with, without): (Vec<bool>, Vec<bool>) = grouped.partition(|&grouped| grouped);
            let share = 100 * with.len() / (with.len() + without.len());
            assert!((28..=40).contains(&share), "{kind:?}, seed {seed}: {share}");
        }
    }
}

/// What is to be told apart among the groups of a plan.
fn shapes(plan: &Plan) -> Vec<&'static str> {
    let groups = plan.bound.listed();
    let pairs = || {
        let others = |at: usize| groups.iter().skip(at + 1);
        (0..groups.len()).flat_map(move |at| others(at).map(move |other| (at, other)))
    };
    let some_pair = |holds: &dyn Fn(&Set, &Set) -> bool| {
        pairs().any(|(at, other)| holds(&groups[at], other) || holds(other, &groups[at]))
    };
    let all: Set = groups.iter().flatten().copied().collect();
    named(&[
        ("one", groups.len() == 1),
        ("sixteen", groups.len() == 16),
        ("empty", groups.iter().any(Set::is_empty)),
        ("only empty", all.is_empty()),
        ("of one", groups.iter().any(|group| group.len() == 1)),
        (
            "all but the source",
            groups.iter().any(|g| g.len() as u32 == plan.n - 1),
        ),
        (
            "of six or more",
            groups.iter().any(|group| group.len() >= 6),
        ),
        ("twice", some_pair(&|one, other| one == other)),
        (
            "nested",
            some_pair(&|one, other| {
                one.len() < other.len() && !one.is_empty() && one.is_subset(other)
            }),
        ),
        (
            "overlapping",
            some_pair(&|one, other| {
                !one.is_disjoint(other) && !one.is_subset(other) && !other.is_subset(one)
            }),
        ),
        (
            "apart",
            groups.len() > 1 && !some_pair(&|one, other| !one.is_disjoint(other)),
        ),
        ("someone in none", (all.len() as u32) < plan.n - 1),
        ("everyone in one", all.len() as u32 == plan.n - 1),
        ("more than twelve terminals", plan.n > 12),
        (
            "the last one empty",
            groups.last().is_some_and(Set::is_empty),
        ),
    ])
}

const SHAPES: [&str; 15] = [
    "one",
    "sixteen",
    "empty",
    "only empty",
    "of one",
    "all but the source",
    "of six or more",
    "twice",
    "nested",
    "overlapping",
    "apart",
    "someone in none",
    "everyone in one",
    "more than twelve terminals",
    "the last one empty",
];

#[test]
fn every_shape_is_there() {
    let plans = |texts: Vec<Vec<u8>>| -> Vec<Plan> {
        let read = texts.into_iter().filter_map(|text| {
            let plan = read_archive(&text, Fault::None).map(|filed| filed.plan);
            plan.or_else(|_| read_run(&text, Fault::None).map(|file| file.plan))
                .ok()
        });
        read.filter(|plan| plan.bound.has_groups()).collect()
    };
    let files = [
        ("verdict", fresh(Kind::Verdict, 1), 8),
        ("run", fresh(Kind::Run, 1), 8),
        ("v", bodies(b"v"), 3),
        ("r", bodies(b"r"), 3),
        ("a and d", bodies(b"ad"), 2),
        ("f", bodies(b"f"), 1),
    ];
    for (name, texts, least) in files {
        let seen = tally(plans(texts).iter().map(shapes));
        check(name, &seen, &SHAPES, least);
    }
    let records = calls_of(b"pwcnl");
    let records = records.iter().map(|call| Bytes(&call.body).plan());
    let right = records.filter(|plan| plan.check(Fault::None).is_ok() && plan.bound.has_groups());
    check(
        "records",
        &tally(right.map(|plan| shapes(&plan))),
        &SHAPES,
        3,
    );
}

/// What the verdict says of plans with groups, and of which size the witness is.
fn outcome(plan: &Plan) -> Vec<&'static str> {
    let answer = verdict(plan, Fault::None).expect("a right plan");
    let groups = plan.bound.listed();
    let whole = groups.contains(&answer.bad) && !answer.bad.is_empty();
    named(&[
        ("passes", !answer.fails),
        ("fails", answer.fails),
        ("nobody", answer.fails && answer.bad.is_empty()),
        ("one", answer.bad.len() == 1),
        ("several", answer.bad.len() > 1),
        ("a whole group", whole),
        ("a part of a group", !whole && !answer.bad.is_empty()),
        (
            "passes, and someone hears no source",
            !answer.fails && direct(plan) + 1 < plan.n as usize,
        ),
        ("several left", answer.left.len() > 1),
    ])
}

/// How many hear the source.
fn direct(plan: &Plan) -> usize {
    plan.links
        .iter()
        .filter(|link| link.0 == plan.source)
        .count()
}

const OUTCOMES: [&str; 9] = [
    "passes",
    "fails",
    "nobody",
    "one",
    "several",
    "a whole group",
    "a part of a group",
    "passes, and someone hears no source",
    "several left",
];

#[test]
fn every_outcome_is_there() {
    let grouped = |text: &Vec<u8>| {
        let plan = read_archive(text, Fault::None).ok()?.plan;
        plan.bound.has_groups().then_some(plan)
    };
    let recorded = bodies(b"v");
    let seen = tally(
        recorded
            .iter()
            .filter_map(grouped)
            .map(|plan| outcome(&plan)),
    );
    check("recorded", &seen, &["passes", "fails"], 60);
    check("recorded", &seen, &OUTCOMES, 4);
    let fresh = fresh(Kind::Verdict, 1);
    let seen = tally(fresh.iter().filter_map(grouped).map(|plan| outcome(&plan)));
    check("fresh", &seen, &["passes", "fails"], 100);
    check("fresh", &seen, &OUTCOMES, 8);
}

// ---- files with a wrong group

/// Which way a file is refused by 17.
fn way_of_file(text: &[u8], line: u16) -> &'static str {
    let lines: Vec<&[u8]> = text.split(|&byte| byte == 10).collect();
    if line == 0 {
        let plan = |line: &&[u8]| line.starts_with(b"02") || line.starts_with(b"01");
        let links = 1 + lines[1..]
            .iter()
            .take_while(|line| line.starts_with(b"02"))
            .count();
        return match lines[links..] {
            [b""] => "none at the end",
            [next, ..] if plan(&next) => "none at a head",
            [next, ..] if next.starts_with(b"03") => "none at a bad set",
            _ => "none at another line",
        };
    }
    let number = |at: usize| {
        let digits = std::str::from_utf8(lines[at]).expect("digits");
        u32::from_str_radix(&digits[2..], 16).expect("digits")
    };
    let head = number(0);
    let (n, source) = (head / 65_536, head / 256 % 256);
    let group = set_of(number(usize::from(line) - 1));
    let earlier = lines[..usize::from(line) - 1].iter();
    if earlier.filter(|line| line.starts_with(b"07")).count() == 16 {
        return "seventeenth";
    }
    match group.iter().find(|&&member| member >= n) {
        _ if group.contains(&source) => "the source",
        Some(&member) if member == n => "n",
        Some(&member) if member < 20 => "above n",
        Some(_) => "20 or above",
        None => panic!("a right group is refused"),
    }
}

const WAYS_ON_A_LINE: [&str; 5] = ["seventeenth", "the source", "n", "above n", "20 or above"];
const WAYS_WITHOUT: [&str; 3] = ["none at the end", "none at a head", "none at a bad set"];

#[test]
fn files_with_wrong_groups() {
    for kind in [Kind::Verdict, Kind::Run] {
        let texts = fresh(kind, 1);
        let ways = texts.iter().filter_map(|text| {
            let refusal = match kind {
                Kind::Verdict => read_archive(text, Fault::None).err(),
                Kind::Run => read_run(text, Fault::None).err(),
            };
            let no = refusal.filter(|no| no.cause.number() == 17)?;
            Some(vec![way_of_file(text, no.line)])
        });
        let seen = tally(ways);
        check(kind.name(), &seen, &WAYS_ON_A_LINE, 4);
        check(kind.name(), &seen, &WAYS_WITHOUT[..2], 4);
    }
    let recorded = calls_of(b"vadrf");
    let wrong = recorded.iter().filter(|call| call.line[0] == 17);
    let ways = wrong.map(|call| {
        let line = match call.kind {
            b'd' | b'f' => u16::from(call.line[1]) * 256 + u16::from(call.line[2]),
            _ => read_run(text_of(call), Fault::None).map_or_else(|no| no.line, |_| 0),
        };
        vec![way_of_file(text_of(call), line)]
    });
    let seen = tally(ways);
    check("recorded", &seen, &WAYS_ON_A_LINE, 8);
    check("recorded", &seen, &WAYS_WITHOUT, 8);
}

/// The last cause that a run file can have, and those about bad sets, with groups and without.
#[test]
fn seldom_causes_are_recorded() {
    let calls = calls_of(b"rf");
    let grouped = |call: &&Call| text_of(call).get(6..8) == Some(b"ff");
    let of = |number: u8| calls.iter().filter(move |call| call.line[0] == number);
    assert!(of(11).count() >= 20);
    for number in [7, 8, 10, 11] {
        let (with, without): (Vec<&Call>, Vec<&Call>) = of(number).partition(grouped);
        assert!(with.len() >= 4 && without.len() >= 4, "cause {number}");
    }
    let played = calls
        .iter()
        .filter(|call| call.kind == b'r' && call.line[0] == 0);
    let files = played
        .filter(grouped)
        .filter_map(|call| read_run(&call.body, Fault::None).ok());
    let lying = files.filter(|file| file.words.values().any(|&word| word != file.start));
    assert!(lying.count() >= 60);
}

// ---- plan records

/// The ways in which a plan record's groups are wrong.
fn ways(plan: &Plan) -> Vec<&'static str> {
    let bound = &plan.bound;
    let count = if bound.has_groups() { bound.number } else { 0 };
    let members: Set = bound.listed().into_iter().flatten().collect();
    named(&[
        ("no group", bound.has_groups() && bound.number == 0),
        ("above 16", count > 16),
        ("past the count", bound.has_groups() && bound.used() > count),
        ("beside f", !bound.has_groups() && bound.used() > 0),
        ("the source", members.contains(&plan.source)),
        ("n", members.contains(&plan.n)),
        ("above n", members.iter().any(|&member| member > plan.n)),
    ])
}

/// The way of one that is wrong in one way; also what else is wrong with the call.
fn marks(plan: &Plan, bad: &Set) -> Vec<&'static str> {
    let ways = ways(plan);
    if ways.is_empty() {
        return ways;
    }
    let f = match plan.bound.has_groups() {
        true => 0,
        false => plan.bound.number,
    };
    let right = Plan {
        bound: Bound::f(f),
        ..plan.clone()
    };
    let heard = fault_cause(&right, bad, Fault::None).map_err(|cause| cause.number());
    match heard {
        Err(4) => vec!["beside 4"],
        Err(5) => vec!["beside 5"],
        Err(7) => vec!["beside 7"],
        _ if ways.len() == 1 => ways,
        _ => vec!["in two ways"],
    }
}

const WAYS: [&str; 7] = [
    "no group",
    "above 16",
    "past the count",
    "beside f",
    "the source",
    "n",
    "above n",
];

#[test]
fn records_with_wrong_groups() {
    let recorded = calls_of(b"pwcnl");
    let seen = tally(recorded.iter().map(|call| {
        let mut body = Bytes(&call.body);
        let plan = body.plan();
        let bad = match call.kind {
            b'p' => Set::new(),
            _ => set_of(body.quad()),
        };
        let marks = marks(&plan, &bad);
        if WAYS.iter().any(|way| marks.contains(way)) || marks.contains(&"beside 7") {
            assert_eq!(call.line[0], 17, "{marks:?}");
        }
        marks
    }));
    check("recorded", &seen, &WAYS, 8);
    check(
        "recorded",
        &seen,
        &["beside 4", "beside 5", "beside 7", "in two ways"],
        4,
    );
    let fresh = (0..4000).map(|index| record_case(1, index));
    let seen = tally(fresh.map(|case| marks(&case.plan, &case.bad)));
    check("fresh", &seen, &WAYS, 15);
    check(
        "fresh",
        &seen,
        &["beside 4", "beside 5", "beside 7", "in two ways"],
        8,
    );
}

/// Bad sets of plan records with groups.
#[test]
fn bad_sets_of_records() {
    let marks = |plan: &Plan, bad: &Set| {
        let groups = plan.bound.listed();
        let all: Set = groups.iter().flatten().copied().collect();
        let largest = groups.iter().map(Set::len).max().unwrap_or(0);
        let no = fault_cause(plan, bad, Fault::None).map_err(|cause| cause.number());
        let heard_by = |terminal: u32| plan.heard_by(terminal).intersection(bad).count();
        let outside = || (0..plan.n).filter(|terminal| !bad.contains(terminal));
        named(&[
            ("empty", no == Ok(()) && bad.is_empty()),
            (
                "a group",
                no == Ok(()) && groups.contains(bad) && !bad.is_empty(),
            ),
            (
                "a part",
                no == Ok(()) && !groups.contains(bad) && !bad.is_empty(),
            ),
            (
                "many heard",
                no == Ok(()) && outside().any(|terminal| heard_by(terminal) > 1),
            ),
            ("of all together", no == Err(8) && bad.is_subset(&all)),
            ("in none", no == Err(8) && !bad.is_subset(&all)),
            (
                "no more than the largest",
                no == Err(8) && bad.len() <= largest,
            ),
            ("more than the largest", no == Err(8) && bad.len() > largest),
            ("7", no == Err(7)),
        ])
    };
    let needed = [
        "empty",
        "a group",
        "a part",
        "many heard",
        "of all together",
        "in none",
        "no more than the largest",
        "more than the largest",
        "7",
    ];
    let recorded = calls_of(b"cnl");
    let sets = recorded.iter().map(|call| {
        let mut body = Bytes(&call.body);
        (body.plan(), set_of(body.quad()))
    });
    let grouped = sets.filter(|(plan, _)| plan.bound.has_groups());
    check(
        "recorded",
        &tally(grouped.map(|(plan, bad)| marks(&plan, &bad))),
        &needed,
        8,
    );
    let fresh = (0..4000).map(|index| record_case(1, index));
    let grouped = fresh.filter(|case| case.plan.bound.has_groups());
    check(
        "fresh",
        &tally(grouped.map(|case| marks(&case.plan, &case.bad))),
        &needed,
        8,
    );
}

/// Texts of plans with groups, with room and without; the witness check on them, yes and no.
#[test]
fn other_calls_on_records() {
    let calls = calls_of(b"pw");
    let of = |kind: u8, number: u8| {
        let of_kind = calls
            .iter()
            .filter(|call| call.kind == kind && call.line[0] == number);
        of_kind
            .filter(|call| Bytes(&call.body).plan().bound.has_groups())
            .count()
    };
    for (kind, number) in [
        (b'p', 0),
        (b'p', 12),
        (b'p', 17),
        (b'w', 0),
        (b'w', 1),
        (b'w', 17),
    ] {
        assert!(
            of(kind, number) >= 8,
            "{} {number}: {}",
            kind as char,
            of(kind, number)
        );
    }
    let longest = calls
        .iter()
        .filter(|call| call.kind == b'p')
        .map(|call| call.lent)
        .max();
    assert_eq!(longest, Some(3_000));
}

/// The same answers again, from the same case.
#[test]
fn records_are_answered_alike() {
    for index in 0..200 {
        let (one, other) = (record_case(1, index), record_case(1, index));
        assert_eq!(
            record_answer(&one, Fault::None),
            record_answer(&other, Fault::None)
        );
    }
}

// ---- planted faults

/// Which sorts of cases show which fault about groups.
#[test]
fn planted_faults_show_where_they_should() {
    let sound = Sound::new(2, 2300);
    let shown = |fault: Fault| sound.found(fault);
    let everywhere = [
        Fault::MembersCounted,
        Fault::FitInAllGroups,
        Fault::UnionOfGroups,
        Fault::LastGroupForgotten,
        Fault::FirstGroupOnly,
        Fault::SourceInGroupAccepted,
        Fault::GroupMemberNAccepted,
    ];
    for fault in everywhere {
        let Found {
            verdicts,
            archive,
            runs,
            steps,
            records,
            ..
        } = shown(fault);
        let least = [verdicts, archive, runs, steps, records].into_iter().min();
        assert!(least > Some(2), "{fault:?}: {:?}", shown(fault));
    }
    for fault in [
        Fault::BadSetInUnion,
        Fault::BadSetBySize,
        Fault::WholeGroupsOnly,
    ] {
        let found = shown(fault);
        assert!(
            found.verdicts > 2 && found.runs > 2 && found.records > 2,
            "{fault:?}: {found:?}"
        );
    }
    let in_files = [
        Fault::SeventeenthGroupAccepted,
        Fault::EmptyGroupRefused,
        Fault::GroupTwiceRefused,
        Fault::LinkAfterGroupAccepted,
        Fault::NoGroupWithLine,
        Fault::NoGroupBeforeText,
        Fault::NoGroupBeforeKind,
        Fault::NoGroupAfterLine,
        Fault::NoGroupAtEndOnly,
        Fault::NoGroupAccepted,
    ];
    for fault in in_files {
        let found = shown(fault);
        let least = [found.verdicts, found.archive, found.runs]
            .into_iter()
            .min();
        assert!(least > Some(5), "{fault:?}: {found:?}");
        assert_eq!((found.steps, found.records), (0, 0), "{fault:?}");
    }
    // These are about 15, which the archive doesn't look for.
    let new_plans = [
        Fault::NoGroupAfterDeaf,
        Fault::GroupBesideNumberNoPlace,
        Fault::FirstGroupEndsLinks,
        Fault::LateLinkEndsPlan,
    ];
    for fault in new_plans {
        let found = shown(fault);
        assert!(found.verdicts > 5 && found.runs > 5, "{fault:?}: {found:?}");
        assert_eq!(found.archive, 0, "{fault:?}");
    }
    let deaf = shown(Fault::DeafNotWithGroups);
    assert!(deaf.verdicts > 5 && deaf.runs > 5 && deaf.archive == 0);
    for fault in [Fault::GroupHighByteIgnored, Fault::GroupLowByteFirst] {
        let found = shown(fault);
        assert!(found.archive > 5 && found.runs > 5, "{fault:?}: {found:?}");
    }
    assert!(shown(Fault::GroupAfterBadSetAccepted).runs > 2);
    assert!(shown(Fault::NoGroupInArchiveAccepted).archive > 5);
    let written = [
        Fault::GroupsWrittenBeforeLinks,
        Fault::GroupsWrittenSorted,
        Fault::EmptyGroupsNotWritten,
        Fault::CountWrittenInHead,
    ];
    for fault in written {
        let found = shown(fault);
        assert!(
            found.archive > 50 && found.records > 50,
            "{fault:?}: {found:?}"
        );
        assert_eq!((found.verdicts, found.runs, found.steps), (0, 0, 0));
    }
    let in_records = [
        Fault::NoGroupInRecord,
        Fault::CountAbove16InRecord,
        Fault::PastCountAccepted,
        Fault::PastCountUsed,
        Fault::GroupsBesideNumber,
        Fault::GroupsBeforeLinkEnds,
    ];
    for fault in in_records {
        let found = shown(fault);
        assert!(found.steps > 2 && found.records > 2, "{fault:?}: {found:?}");
        assert_eq!((found.verdicts, found.runs), (0, 0), "{fault:?}");
    }
    assert!(shown(Fault::GroupsAfterBadSet).records > 5);
    assert!(shown(Fault::GroupsAfterRecord).steps > 5);
    assert!(shown(Fault::LeftCountedTogether).records > 0);
}
