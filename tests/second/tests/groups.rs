//! Groups that fail together, sentence by sentence: files, bad sets, verdicts, steps, runs, plan
//! records, and the causes 17 and 8.

mod common;

use common::{
    archive, archive_bytes, file, first, firsts, refused, run, run_bytes, set, verdict,
    verdict_bytes,
};
use second::faults::Fault;
use second::groups::Bound;
use second::output::{plan_text, rewritten_text};
use second::plan::{set_of, write_plan, Cause, Plan, Set};
use second::reader::{read_archive, read_plan, read_run};
use second::run::{run as play, Order};
use second::step::{step, Place, Record, Row, State};
use second::verdict::{fault_cause, is_bad_set, verdict as judge, witness_check, Verdict};

fn groups(groups: &[&[u32]]) -> Bound {
    Bound::groups(&groups.iter().map(|group| set(group)).collect::<Vec<Set>>())
}

const PASSES: &str = "8100000000000000000000\n";

/// Drawing F with ff for f: seven lines, without its groups.
const FAN: &str = "010500ff 020001 020002 020003 020104 020204 020304";

// ---- files: what is accepted

#[test]
fn drawing_f_with_groups() {
    // {1,2} and {3}: where 3 fails, 4 hears 1 and 2, which fit in one group.
    let pair = format!("{FAN} 07000006 07000008");
    let fails = "8101000008000007000010\n";
    assert_eq!(
        (verdict(&pair), archive(&pair)),
        (fails.into(), fails.into())
    );
    let singles = format!("{FAN} 07000002 07000004 07000008");
    assert_eq!(
        (verdict(&singles), archive(&singles)),
        (PASSES.into(), PASSES.into())
    );
}

/// The order of the groups is kept, and a group without members, and one given twice.
#[test]
fn groups_are_read_as_they_stand() {
    let words = format!("{FAN} 07000008 07000000 07000006 07000008 07000000");
    let bound = groups(&[&[3], &[], &[1, 2], &[3], &[]]);
    let plan = read_plan(&file(&words), Fault::None).expect("a right plan");
    assert_eq!(plan.bound, bound);
    let filed = read_archive(&file(&words), Fault::None).expect("a right plan");
    assert_eq!((filed.plan, filed.deaf), (plan, Set::new()));
    let run = read_run(&file(&format!("{words} 03000004 04000702")), Fault::None);
    assert_eq!(run.expect("a right run").plan.bound, bound);
    // Links come first, by sender and hearer; groups after them, as they stood.
    let mixed = "010500ff 020304 020001 020204 020003 020002 020104 07000008 07000000 07000006";
    let sorted = format!("{FAN} 07000008 07000000 07000006");
    assert_eq!(rewritten_text(&file(mixed), Fault::None), file(&sorted));
}

#[test]
fn one_to_sixteen_groups() {
    for count in 1..=16 {
        let words = format!("{FAN} {}", "07000002 ".repeat(count));
        let plan = read_plan(&file(&words), Fault::None).expect("a right plan");
        assert_eq!(plan.bound, Bound::groups(&vec![set(&[1]); count]));
        assert_eq!(rewritten_text(&file(&words), Fault::None), file(&words));
    }
    // The seventeenth is on line 24.
    for last in ["07000002", "07000000", "07000001", "07800000"] {
        let words = format!("{FAN} {}{last}", "07000002 ".repeat(16));
        all_refuse(&words, 17, 24);
    }
}

/// All programs refuse the file alike.
fn all_refuse(words: &str, number: u8, line: u16) {
    let told = refused(number, line);
    assert_eq!(verdict(words), told, "verdict {words}");
    assert_eq!(run(words), told, "run {words}");
    assert_eq!(archive(words), told, "archive {words}");
    let rewritten = rewritten_text(&file(words), Fault::None);
    assert_eq!(rewritten, told.as_bytes(), "rewrite {words}");
}

// ---- files: heads

#[test]
fn heads_of_groups() {
    // n and source are in range as before; f is not looked at.
    for head in [
        "010000ff", "010100ff", "011500ff", "01ffffff", "010505ff", "0105ffff",
    ] {
        all_refuse(&format!("{head} 07000000"), 4, 1);
    }
    // Any other number out of range is no ff.
    for head in ["01050005", "010500fe", "01140014"] {
        all_refuse(&format!("{head} 07000000"), 4, 1);
    }
    assert_eq!(verdict("010204ff 020001 07000000"), refused(4, 1));
    assert_eq!(verdict("010200ff 020001 07000000"), PASSES);
    assert_eq!(verdict("010201ff 020100 07000001"), PASSES);
}

// ---- files: cause 17 on a group's line

#[test]
fn wrong_groups() {
    // The source alone, beside others, and other sources.
    all_refuse(&format!("{FAN} 07000001"), 17, 8);
    all_refuse(&format!("{FAN} 0700001f"), 17, 8);
    all_refuse(&format!("{FAN} 07000002 07000003"), 17, 9);
    all_refuse("010302ff 020200 020201 07000004", 17, 4);
    // n, and anything above, up to the last bit.
    all_refuse(&format!("{FAN} 07000020"), 17, 8);
    all_refuse(&format!("{FAN} 07000002 07000004 07000026"), 17, 10);
    for bit in 5..24 {
        let number = 2u32.pow(bit);
        all_refuse(&format!("{FAN} 07{number:06x}"), 17, 8);
    }
    // Twenty terminals: bit 19 is one, bits 20 to 23 are none.
    let links: String = (1..20).map(|to| format!("0200{to:02x} ")).collect();
    let twenty = format!("011400ff {links}");
    assert_eq!(verdict(&format!("{twenty}07080000")), PASSES);
    assert_eq!(verdict(&format!("{twenty}070ffffe")), PASSES);
    for bit in 20..24 {
        all_refuse(&format!("{twenty}07{:06x}", 2u32.pow(bit)), 17, 21);
    }
}

/// On a group's line: 1, 2, 3, 17. An earlier line wins.
#[test]
fn causes_on_a_line() {
    for line in ["0700001", "070000g1", "07000001\r", "07 00001"] {
        let text = [&file(FAN)[..], line.as_bytes(), b"\n"].concat();
        assert_eq!(verdict_bytes(&text), refused(1, 8), "{line}");
        assert_eq!(run_bytes(&text), refused(1, 8), "{line}");
        assert_eq!(archive_bytes(&text), refused(1, 8), "{line}");
    }
    let cut = [&file(FAN)[..], b"07000001"].concat();
    assert_eq!(verdict_bytes(&cut), refused(1, 8));
    for line in ["07", "0700", "070001", "0700000100", "070000000001"] {
        all_refuse(&format!("{FAN} {line}"), 2, 8);
        all_refuse(&format!("{FAN} 07000002 {line}"), 2, 9);
        all_refuse(&format!("01050001 {line}"), 2, 2);
        all_refuse(line, 2, 1);
    }
    // Order before 17: the source in a group that has no place here.
    all_refuse("07000001", 3, 1);
    all_refuse("07ffffff 010500ff", 3, 1);
    all_refuse("01020000 020001 07000001", 3, 3);
    all_refuse("01020000 020001 07ffffff", 3, 3);
    // The first wrong line decides.
    all_refuse(&format!("{FAN} 07000001 020001"), 17, 8);
    all_refuse(&format!("{FAN} 020001 07000001"), 6, 8);
    all_refuse(&format!("{FAN} 020505 07000001"), 5, 8);
    all_refuse(&format!("{FAN} 07000020 0g"), 17, 8);
}

// ---- files: order

#[test]
fn links_come_before_groups() {
    // Any link, right or wrong, given before or new.
    for link in ["020401", "020001", "020505", "02ffff"] {
        all_refuse(&format!("{FAN} 07000002 {link}"), 3, 9);
        all_refuse(&format!("{FAN} 07000000 {link} 07000001"), 3, 9);
    }
    all_refuse("010200ff 07000000 020001", 3, 3);
    // It is no end of the plan: terminal 2 is deaf, and no link helps.
    all_refuse("010300ff 020001 07000002 020102", 3, 4);
}

#[test]
fn groups_come_before_the_bad_set() {
    let start = format!("{FAN} 07000006 03000002");
    assert_eq!(run(&format!("{start} 07000002")), refused(3, 10));
    assert_eq!(run(&format!("{start} 07000001")), refused(3, 10));
    assert_eq!(run(&format!("{start} 04000702 07000002")), refused(3, 11));
    assert_eq!(
        run(&format!("{start} 04000702 050101040009 07ffffff")),
        refused(3, 12)
    );
    let number = "01020000 020001 03000000";
    assert_eq!(run(&format!("{number} 07000000")), refused(3, 4));
    assert_eq!(run(&format!("{number} 07000001 04000702")), refused(3, 4));
    // The plan programs know no 03, but know 07.
    assert_eq!(verdict(&format!("{start} 07000002")), refused(2, 9));
}

// ---- files: 07 beside f

/// A group ends the links where f is the bound: 15 first, then 3.
#[test]
fn groups_beside_f() {
    let deaf = "01030000 020001";
    for group in ["07000000", "07000002", "07000001", "07ffffff"] {
        for rest in ["", "020102", "01030000", "03000000 04000702", "0g"] {
            let words = format!("{deaf} {group} {rest}");
            assert_eq!(verdict(&words), refused(15, 0), "{words}");
            assert_eq!(run(&words), refused(15, 0), "{words}");
            assert_eq!(archive(&words), refused(3, 3), "{words}");
            let rewritten = rewritten_text(&file(&words), Fault::None);
            assert_eq!(rewritten, refused(3, 3).as_bytes(), "{words}");
            all_refuse(&format!("{deaf} 020102 {group} {rest}"), 3, 4);
        }
    }
}

// ---- files: no group

/// Two terminals, or three of which 2 is deaf, with ff for f. What follows is none of the plan.
#[test]
fn no_group_at_a_line() {
    let ends = [
        "010200ff", "01020000", "01000000", "01ffffff", // a second head: 3
    ];
    for plan in ["010200ff 020001", "010300ff 020001", "010200ff"] {
        all_refuse(plan, 17, 0);
        for end in ends {
            all_refuse(&format!("{plan} {end}"), 17, 0);
            all_refuse(&format!("{plan} {end} 07000002"), 17, 0);
            all_refuse(&format!("{plan} {end} 0g"), 17, 0);
        }
        let of_runs = [
            "03000000",
            "03000001",
            "03ffffff",
            "03000002 04000702",
            "04000702",
            "04000000",
            "050101000009",
            "03000000 07000002 04000702",
        ];
        for end in of_runs {
            let words = format!("{plan} {end}");
            assert_eq!(run(&words), refused(17, 0), "{words}");
            let line = plan.split(' ').count() as u16 + 1;
            assert_eq!(verdict(&words), refused(2, line), "{words}");
            assert_eq!(archive(&words), refused(2, line), "{words}");
        }
    }
}

/// A line that fails 1 or 2 comes before, and so does any earlier one.
#[test]
fn no_group_comes_after_1_and_2() {
    for plan in ["010200ff 020001", "010300ff 020001"] {
        for (line, number) in [
            ("0g", 1),
            ("0", 1),
            ("0702", 2),
            ("07", 2),
            ("06", 2),
            ("0300", 2),
            ("01", 2),
            ("0200", 2),
        ] {
            all_refuse(&format!("{plan} {line} 010200ff"), number, 3);
        }
        all_refuse(&format!("{plan} 020001"), 6, 3);
        all_refuse(&format!("{plan} 020909"), 5, 3);
        let cut = [&file(plan)[..], b"07000000"].concat();
        assert_eq!(verdict_bytes(&cut), refused(1, 3));
        // A wrong group is one on its line, and not none.
        all_refuse(&format!("{plan} 07000001"), 17, 3);
    }
}

/// With a group only 15 is left, at the first line that is neither link nor group; the archive opens
/// the plan.
#[test]
fn deaf_plans_with_groups() {
    let deaf = "010300ff 020001 07000000";
    assert_eq!(verdict(deaf), refused(15, 0));
    assert_eq!(run(deaf), refused(15, 0));
    assert_eq!(archive(deaf), "8101000000000003000004\n");
    assert_eq!(rewritten_text(&file(deaf), Fault::None), file(deaf));
    for end in ["010300ff", "01000000"] {
        let words = format!("{deaf} 07000002 {end}");
        assert_eq!(verdict(&words), refused(15, 0));
        assert_eq!(run(&words), refused(15, 0));
        assert_eq!(archive(&words), refused(3, 5));
    }
    for end in [
        "03000000",
        "03000001",
        "03000006",
        "04000702",
        "050101000009",
    ] {
        let words = format!("{deaf} {end}");
        assert_eq!(run(&words), refused(15, 0), "{words}");
        assert_eq!(verdict(&words), refused(2, 4), "{words}");
    }
    // A group's own causes come on its line, before the plan ends.
    all_refuse(&format!("{deaf} 07000001"), 17, 4);
    all_refuse(&format!("{deaf} 0700"), 2, 4);
    all_refuse(&format!("{deaf} {}", "07000000 ".repeat(16)), 17, 19);
}

/// A missing frame comes after both.
#[test]
fn at_the_end() {
    assert_eq!(run("010200ff 020001"), refused(17, 0));
    assert_eq!(run("010300ff 020001 07000000"), refused(15, 0));
    assert_eq!(run("010200ff 020001 07000000"), refused(3, 0));
    assert_eq!(run("010200ff 020001 07000000 03000000"), refused(3, 0));
}

// ---- bad sets

/// Drawing F; a bad set is any part of {1,2} or of {2,3,4}.
#[test]
fn bad_sets_in_files() {
    let plan = format!("{FAN} 07000006 0700001c");
    let ends = |bad: &str| run(&format!("{plan} 03{bad} 04000702"));
    let parts = [
        "000000", "000002", "000004", "000006", "000008", "000010", "00000c", "000014", "000018",
        "00001c",
    ];
    for bad in parts {
        assert!(ends(bad).starts_with("8200"), "{bad}");
    }
    // A part of both together, more than either has, all.
    for bad in ["00000a", "000012", "00000e", "000016", "00001a", "00001e"] {
        assert_eq!(ends(bad), refused(8, 10), "{bad}");
    }
    // 7 before 8.
    for bad in ["000001", "00001f", "000020", "800000", "00002a", "ffffff"] {
        assert_eq!(ends(bad), refused(7, 10), "{bad}");
    }
    // Who is heard by how many doesn't matter: 4 hears two bad ones, and f is not asked.
    let site = ends("000006");
    assert_eq!(site.lines().nth(4), Some("820400000000"));
}

#[test]
fn bad_sets_in_calls() {
    let mut plan = second::drawings::DRAWINGS[5].plan();
    plan.bound = groups(&[&[], &[1, 2], &[2, 3]]);
    let cause = |bad: &[u32]| fault_cause(&plan, &set(bad), Fault::None).map_err(Cause::number);
    for bad in [&[][..], &[1], &[2], &[3], &[1, 2], &[2, 3]] {
        assert_eq!(cause(bad), Ok(()), "{bad:?}");
        assert_eq!(is_bad_set(&plan, &set(bad), Fault::None), Ok(true));
    }
    for bad in [&[4][..], &[1, 3], &[1, 2, 3], &[1, 4], &[1, 2, 3, 4]] {
        assert_eq!(cause(bad), Err(8), "{bad:?}");
        assert_eq!(is_bad_set(&plan, &set(bad), Fault::None), Ok(false));
    }
    for bad in [&[0][..], &[0, 1, 3], &[5], &[1, 31]] {
        assert_eq!(cause(bad), Err(7), "{bad:?}");
    }
    // Only the empty set is part of an empty group.
    plan.bound = groups(&[&[]]);
    assert_eq!(fault_cause(&plan, &set(&[]), Fault::None), Ok(()));
    let single = fault_cause(&plan, &set(&[1]), Fault::None);
    assert_eq!(single, Err(Cause::BadSetBound));
}

// ---- the verdict

fn plan(n: u32, bound: Bound, links: &[(u32, u32)]) -> Plan {
    let mut plan = Plan::with(n, 0, bound);
    plan.links = links.iter().copied().collect();
    plan
}

/// F, L and R of a fail; nothing of a pass.
fn witness(plan: &Plan) -> Option<[Vec<u32>; 3]> {
    let Verdict {
        fails,
        bad,
        reached,
        left,
    } = judge(plan, Fault::None).expect("a right plan");
    let own = witness_check(plan, &bad, &reached, &left, Fault::None);
    assert_eq!(own, Ok(fails));
    let list = |set: Set| set.into_iter().collect();
    fails.then(|| [bad, reached, left].map(list))
}

#[test]
fn least_witnesses() {
    // 5 hears 1 to 4. Whoever fails, the rest of them has to fit in no group.
    let links = [
        (0, 1),
        (0, 2),
        (0, 3),
        (0, 4),
        (1, 5),
        (2, 5),
        (3, 5),
        (4, 5),
    ];
    let of = |bound: Bound| witness(&plan(6, bound, &links));
    let found = |bad: &[u32], reached: &[u32]| Some([bad.to_vec(), reached.to_vec(), vec![5]]);
    assert_eq!(of(groups(&[&[]])), None);
    assert_eq!(of(groups(&[&[1], &[2], &[3], &[4]])), None);
    assert_eq!(of(groups(&[&[1, 2], &[3]])), None);
    // Two groups have them all: the smaller one fails, and the greater one is the rest.
    assert_eq!(of(groups(&[&[1, 2, 3], &[4]])), found(&[4], &[0, 1, 2, 3]));
    assert_eq!(of(groups(&[&[4], &[1, 2, 3]])), found(&[4], &[0, 1, 2, 3]));
    // Of two with two members the smaller number.
    assert_eq!(of(groups(&[&[3, 4], &[1, 2]])), found(&[1, 2], &[0, 3, 4]));
    assert_eq!(of(groups(&[&[2, 3], &[1, 4]])), found(&[2, 3], &[0, 1, 4]));
    // A part of a group where the groups overlap.
    assert_eq!(
        of(groups(&[&[1, 2, 3], &[2, 3, 4]])),
        found(&[1], &[0, 2, 3, 4])
    );
    // All in one: nobody has to fail.
    assert_eq!(of(groups(&[&[1, 2, 3, 4]])), found(&[], &[0, 1, 2, 3, 4]));
    assert_eq!(
        of(groups(&[&[1], &[1, 2, 3, 4, 5], &[]])),
        found(&[], &[0, 1, 2, 3, 4])
    );
}

/// Whoever hears the source gets the notice, whatever the groups are.
#[test]
fn all_but_the_source_in_one_group() {
    let star = [(0, 1), (0, 2), (0, 3)];
    let all = groups(&[&[1, 2, 3]]);
    assert_eq!(witness(&plan(4, all.clone(), &star)), None);
    let tail = [(0, 1), (0, 2), (1, 3), (2, 3)];
    let waits = Some([vec![], vec![0, 1, 2], vec![3]]);
    assert_eq!(witness(&plan(4, all, &tail)), waits);
}

/// Document 000 would look at 1 and 2 together, which fit in no group; here 3 has 1 alone, and 4
/// has 2 alone.
#[test]
fn one_terminal_must_have_enough_by_itself() {
    let links = [(0, 1), (0, 2), (1, 3), (2, 4)];
    let apart = plan(5, groups(&[&[1], &[2]]), &links);
    let (bad, reached, left) = (set(&[]), set(&[0, 1, 2]), set(&[3, 4]));
    let answer = judge(&apart, Fault::None).expect("a right plan");
    assert_eq!((&answer.bad, &answer.left), (&bad, &left));
    let yes = witness_check(&apart, &bad, &reached, &left, Fault::None);
    assert_eq!(yes, Ok(true));
    // Together they are enough for one that hears both.
    let both = plan(
        5,
        groups(&[&[1], &[2]]),
        &[(0, 1), (0, 2), (1, 3), (2, 3), (0, 4)],
    );
    assert!(!witness_check(
        &both,
        &set(&[]),
        &set(&[0, 1, 2, 4]),
        &set(&[3]),
        Fault::None
    )
    .unwrap());
}

#[test]
fn witness_checks() {
    let plan = second::drawings::DRAWINGS[10].plan();
    assert_eq!(plan.bound, groups(&[&[1, 2], &[3]]));
    let yes = |bad: &[u32], reached: &[u32], left: &[u32]| {
        let (bad, reached, left) = (set(bad), set(reached), set(left));
        witness_check(&plan, &bad, &reached, &left, Fault::None).expect("a right plan")
    };
    assert!(yes(&[3], &[0, 1, 2], &[4])); // the verdict's own
    assert!(yes(&[1, 2], &[0, 3], &[4]));
    assert!(!yes(&[1], &[0, 2, 3], &[4])); // 2 and 3 fit in no group
    assert!(!yes(&[], &[0, 1, 2, 3], &[4]));
    assert!(!yes(&[1, 3], &[0, 2], &[4])); // no bad set, part of both groups together
    assert!(!yes(&[1, 2, 3], &[0], &[4]));
    assert!(!yes(&[3], &[0, 1], &[2, 4])); // 2 hears the source
    assert!(!yes(&[3], &[0, 1, 2, 4], &[]));
    assert!(!yes(&[3], &[0, 1, 2, 31], &[4]));
    let mut wrong = plan.clone();
    wrong.bound = groups(&[&[0]]);
    let none = Set::new();
    let answer = witness_check(&wrong, &none, &none, &none, Fault::None);
    assert_eq!(answer, Err(Cause::Group));
    assert_eq!(judge(&wrong, Fault::None), Err(Cause::Group));
}

// ---- the step

/// Terminal 3 of 5; it hears 0, the source, and 1, 2 and 4.
fn place(bound: Bound) -> Place {
    Place {
        n: 5,
        source: 0,
        bound,
        number: 3,
        heard: set(&[0, 1, 2, 4]),
    }
}

/// Groups, rows after five rounds, words of the sixth, and what is taken.
type Example = (
    &'static str,
    &'static [&'static [u32]],
    &'static [(u32, &'static [u16])],
    [u16; 5],
    Option<u16>,
);

const EXAMPLES: [Example; 22] = [
    (
        "part of one group",
        &[&[1, 2], &[4]],
        &[],
        [0, 9, 0, 0, 0],
        None,
    ),
    (
        "a whole group",
        &[&[1, 2], &[4]],
        &[],
        [0, 9, 9, 0, 0],
        None,
    ),
    (
        "of two groups",
        &[&[1, 2], &[4]],
        &[],
        [0, 9, 0, 0, 9],
        Some(9),
    ),
    (
        "the other of two",
        &[&[1, 2], &[4]],
        &[],
        [0, 0, 9, 0, 9],
        Some(9),
    ),
    (
        "by rows",
        &[&[1, 2], &[4]],
        &[(1, &[9]), (4, &[5, 9])],
        [0; 5],
        Some(9),
    ),
    (
        "a row and a word",
        &[&[1], &[2]],
        &[(1, &[9])],
        [0, 0, 9, 0, 0],
        Some(9),
    ),
    (
        "overlap, one",
        &[&[1, 2], &[2, 4]],
        &[],
        [0, 9, 9, 0, 0],
        None,
    ),
    (
        "overlap, the other",
        &[&[1, 2], &[2, 4]],
        &[],
        [0, 0, 9, 0, 9],
        None,
    ),
    (
        "overlap, across",
        &[&[1, 2], &[2, 4]],
        &[],
        [0, 9, 0, 0, 9],
        Some(9),
    ),
    (
        "nested",
        &[&[1], &[1, 2], &[1, 2, 4]],
        &[],
        [0, 9, 9, 0, 9],
        None,
    ),
    (
        "all heard in the last",
        &[&[1], &[], &[1, 2, 4]],
        &[],
        [0, 9, 9, 0, 9],
        None,
    ),
    (
        "many in one",
        &[&[1, 2, 4], &[3]],
        &[],
        [0, 9, 9, 0, 9],
        None,
    ),
    (
        "one that is in none",
        &[&[1, 2]],
        &[],
        [0, 0, 0, 0, 9],
        Some(9),
    ),
    ("an empty group", &[&[]], &[], [0, 9, 0, 0, 0], Some(9)),
    ("nobody", &[&[]], &[], [0; 5], None),
    (
        "the smallest that has enough",
        &[&[1, 2], &[4]],
        &[(1, &[5, 9]), (2, &[5])],
        [0, 0, 0, 0, 9],
        Some(9),
    ),
    (
        "the smallest of two",
        &[&[1, 2], &[4]],
        &[(1, &[9, 300]), (2, &[256])],
        [0, 0, 300, 0, 9],
        Some(9),
    ),
    (
        "a value twice in a row",
        &[&[1], &[2]],
        &[(1, &[9, 9])],
        [0, 9, 0, 0, 0],
        None,
    ),
    (
        "the source's word",
        &[&[1, 2, 4]],
        &[(1, &[5]), (2, &[5])],
        [7, 0, 0, 0, 5],
        Some(7),
    ),
    (
        "the source's first word",
        &[&[1]],
        &[(0, &[7, 5])],
        [5, 0, 5, 0, 5],
        Some(7),
    ),
    (
        "the source has 0 first, and no group has the source",
        &[&[1, 2, 4]],
        &[(0, &[0, 7])],
        [0; 5],
        Some(7),
    ),
    ("its own word", &[&[1]], &[(3, &[9])], [0, 9, 0, 9, 0], None),
];

fn record(rows: &[(u32, &[u16])]) -> Record {
    let mut record = Record::waiting();
    record.round = 5;
    for &(terminal, values) in rows {
        *record.row_mut(terminal) = Row::of(1, values);
    }
    record
}

#[test]
fn examples_of_enough() {
    for (name, listed, rows, said, taken) in EXAMPLES {
        let place = place(groups(listed));
        let said = firsts(&said);
        let after = step(&place, record(rows), &said, Fault::None).expect("a right call");
        let state = taken.map_or(State::Waiting, |layout| State::Taken(6, first(layout)));
        assert_eq!((after.round, after.state), (6, state), "{name}");
        // The order of the groups doesn't matter, nor does one that is given twice, or is empty.
        let mut more: Vec<Set> = listed.iter().rev().map(|group| set(group)).collect();
        more.push(more[0].clone());
        more.insert(0, Set::new());
        let other = Place {
            bound: Bound::groups(&more),
            ..place
        };
        let same = step(&other, record(rows), &said, Fault::None).expect("a right call");
        assert_eq!(same, after, "{name}");
    }
}

// ---- the run

/// Drawing F with {1,2} and {3}; 3 is bad, and 4 needs its word.
#[test]
fn runs_with_groups() {
    let site = format!("{FAN} 07000006 07000008 03000008");
    let four = |rest: &str| {
        let printed = run(&format!("{site} {rest}"));
        printed.lines().last().expect("a line").to_string()
    };
    assert_eq!(four("040007"), "820400000000");
    assert_eq!(four("04000704 050303040007"), "820401030007");
    assert_eq!(four("04000704 050303040009"), "820400000000");
    assert_eq!(four("04000704 050103040009 050303040007"), "820401030007");
    // Two bad ones of one group can't plant anything, and keep nobody waiting who hears 3 and more.
    let pair = format!("{FAN} 07000006 07000008 03000006 04000704");
    let lies = "050101040009 050102040009 050201040008 050202040008";
    let printed = run(&format!("{pair} {lies}"));
    assert_eq!(printed.lines().last(), Some("820400000000"));
    let helped = run(&format!("{pair} {lies} 050402040007"));
    assert_eq!(helped.lines().last(), Some("820401040007"));
    // With {1}, {2}, {3} nobody waits, whoever fails.
    let singles = format!("{FAN} 07000002 07000004 07000008");
    for bad in ["000000", "000002", "000004", "000008"] {
        let printed = run(&format!("{singles} 03{bad} 040007"));
        assert_eq!(printed.lines().last(), Some("820401020007"), "{bad}");
    }
}

// ---- plan records

/// A right record, to be spoiled.
fn right() -> Plan {
    let mut plan = second::drawings::DRAWINGS[5].plan();
    plan.bound = groups(&[&[1, 2], &[], &[3]]);
    plan
}

/// What all calls answer of a plan record.
fn causes(plan: &Plan) -> Vec<Option<u8>> {
    let none = Set::new();
    let mut list = [0; 300];
    let mut records = vec![Record::waiting(); 5];
    let order = Order {
        plan,
        bad: &none,
        start: first(7),
        rounds: 0,
        later: &[],
        words: &[],
    };
    let place = Place {
        n: plan.n,
        source: plan.source,
        bound: plan.bound.clone(),
        number: 3,
        heard: set(&[1]),
    };
    let stepped = step(&place, Record::waiting(), &[0; 5], Fault::None);
    let answers = [
        judge(plan, Fault::None).err(),
        is_bad_set(plan, &none, Fault::None).err(),
        fault_cause(plan, &none, Fault::None).err(),
        witness_check(plan, &none, &none, &none, Fault::None).err(),
        write_plan(plan, &mut list, Fault::None).err(),
        play(&order, &mut records, Fault::None).err(),
        stepped.err().map(|(cause, _)| cause),
    ];
    answers
        .into_iter()
        .map(|no| no.map(Cause::number))
        .collect()
}

#[test]
fn wrong_groups_in_records() {
    let all = |number: Option<u8>| vec![number; 7];
    assert_eq!(causes(&right()), all(None));
    let wrong = |change: &dyn Fn(&mut Bound)| {
        let mut plan = right();
        change(&mut plan.bound);
        causes(&plan)
    };
    // No group, too many, some past the count.
    assert_eq!(wrong(&|bound| *bound = Bound::groups(&[])), all(Some(17)));
    for count in [0, 1, 2, 17, 18, 255] {
        assert_eq!(
            wrong(&|bound| bound.number = count),
            all(Some(17)),
            "{count}"
        );
    }
    assert_eq!(wrong(&|bound| bound.number = 4), all(None)); // one more, without members
    assert_eq!(wrong(&|bound| bound.number = 16), all(None));
    for place in 3..16 {
        assert_eq!(
            wrong(&|bound| bound.put(place, set(&[1]))),
            all(Some(17)),
            "{place}"
        );
    }
    // The source, n, and above; in each place.
    for place in 0..3 {
        for member in [0, 5, 6, 19, 20, 23, 24, 31] {
            let put = |bound: &mut Bound| bound.put(place, set(&[1, member]));
            assert_eq!(wrong(&put), all(Some(17)), "{place}, {member}");
        }
    }
    // Anything in any place where f is the bound.
    for place in 0..16 {
        for member in [0, 1, 4, 31] {
            let beside = |bound: &mut Bound| {
                *bound = Bound::f(1);
                bound.put(place, set(&[member]));
            };
            assert_eq!(wrong(&beside), all(Some(17)), "{place}, {member}");
        }
    }
    // An f out of range is 4, and a count is none.
    assert_eq!(wrong(&|bound| *bound = Bound::f(5)), all(Some(4)));
}

/// 4, 5, 17, and then what each call looks for.
#[test]
fn order_of_the_causes() {
    let wrongs = [groups(&[&[0]]), groups(&[&[5]]), groups(&[]), {
        let mut beside = Bound::f(1);
        beside.put(15, set(&[1]));
        beside
    }];
    for bound in wrongs {
        let mut plan = right();
        plan.bound = bound;
        // Beside 7 and 8, 9, 12.
        for bad in [&[0][..], &[31], &[1, 2, 3, 4]] {
            let bad = set(bad);
            assert_eq!(fault_cause(&plan, &bad, Fault::None), Err(Cause::Group));
            let mut records = vec![Record::source(first(3)); 4];
            let order = Order {
                plan: &plan,
                bad: &bad,
                start: first(0),
                rounds: 41,
                later: &[],
                words: &[1],
            };
            let answer = play(&order, &mut records, Fault::None);
            assert_eq!(answer, Err(Cause::Group));
            assert_eq!(records, vec![Record::source(first(3)); 4]);
        }
        assert_eq!(write_plan(&plan, &mut [], Fault::None), Err(Cause::Group));
        // Beside 5, then 4.
        plan.links.insert((2, 2));
        assert!(causes(&plan)[..6].iter().all(|&cause| cause == Some(5)));
        plan.source = 5;
        assert!(causes(&plan).iter().all(|&cause| cause == Some(4)));
    }
}

#[test]
fn order_of_the_causes_in_a_step() {
    let refused = |place: &Place, record: Record, length: usize| {
        let before = record.clone();
        let answer = step(place, record, &firsts(&vec![7; length]), Fault::None);
        let (cause, after) = answer.expect_err("wrong");
        assert_eq!(after, before);
        cause.number()
    };
    let mut late = Record::waiting();
    late.round = 40;
    let mut wrong = place(groups(&[&[1], &[0]]));
    assert_eq!(refused(&wrong, Record::waiting(), 5), 17);
    assert_eq!(refused(&wrong, late.clone(), 4), 17);
    wrong.number = 5;
    assert_eq!(refused(&wrong, late.clone(), 4), 17);
    wrong.heard.insert(5);
    assert_eq!(refused(&wrong, late.clone(), 4), 5);
    wrong.n = 21;
    assert_eq!(refused(&wrong, late.clone(), 4), 4);
    // Right groups: 13 before 12, as before.
    let right = place(groups(&[&[1], &[2]]));
    assert_eq!(refused(&right, late, 4), 13);
    assert_eq!(refused(&right, Record::waiting(), 4), 12);
    // The terminal may be in a group itself, and so may those that it doesn't hear.
    let member = place(groups(&[&[3, 4]]));
    assert!(step(&member, Record::waiting(), &[0; 5], Fault::None).is_ok());
}

// ---- writing

#[test]
fn writer() {
    let text =
        b"010500ff\n020001\n020002\n020003\n020104\n020204\n020304\n07000006\n07000000\n07000008\n";
    let plan = right();
    assert_eq!(plan_text(&plan, Fault::None), text);
    let mut list = vec![b'x'; text.len() + 3];
    let length = write_plan(&plan, &mut list, Fault::None);
    assert_eq!(length, Ok(text.len()));
    assert_eq!(
        (&list[..text.len()], &list[text.len()..]),
        (&text[..], &b"xxx"[..])
    );
    let mut short = vec![b'x'; text.len() - 1];
    assert_eq!(
        write_plan(&plan, &mut short, Fault::None),
        Err(Cause::Length)
    );
    assert!(short.iter().all(|&byte| byte == b'x'));
}

/// 380 links and sixteen groups have 2813 bytes.
#[test]
fn longest_text() {
    let mut plan = Plan::with(20, 0, Bound::groups(&vec![set_of(0xf_fffe); 16]));
    plan.links = (0..400)
        .map(|place| (place / 20, place % 20))
        .filter(|(from, to)| from != to)
        .collect();
    let mut list = vec![0; 2813];
    assert_eq!(write_plan(&plan, &mut list, Fault::None), Ok(2813));
    assert_eq!(
        write_plan(&plan, &mut list[..2812], Fault::None),
        Err(Cause::Length)
    );
    let filed = read_archive(&list, Fault::None).expect("a right plan");
    assert_eq!(filed.plan, plan);
    assert_eq!(read_plan(&list, Fault::None), Ok(plan));
}
