//! The margins: small plans worked out by hand, what they have to do with the verdict, and refusals.

mod common;

use common::refusals::{check_before_groups, check_groups, check_others};
use common::{margins, margins_bytes, refused, set, verdict_bytes};
use second::drawings::DRAWINGS;
use second::faults::Fault;
use second::groups::Bound;
use second::margin_files::{margin_case, margin_record};
use second::margins::{margins as margins_of, Standing};
use second::output::plan_text;
use second::plan::{set_of, Cause, Plan, Set};
use second::verdict::{is_bad_set, verdict};

/// Lines as they are printed, from words in which a semicolon ends a line.
fn lines(words: &str) -> String {
    words.split("; ").map(|line| format!("{line}\n")).collect()
}

// ---- by hand

/// In D {1} is bad and leaves 2 nobody to hear; in G {1, 2} leaves 4 one of three. In H {1, 3} leaves
/// one of L to 5 and one to 6; in I the source bounds that to one of the two.
#[test]
fn drawings() {
    let rows = [
        ('A', "1 direct; 1 0 0 0"),
        ('C', "1 direct; 2 0; 1 0 1 0"),
        ('D', "1 direct; 2 -2; 1 1 0 0"),
        ('E', "1 direct; 2 direct; 3 -1; 2 1 0 0"),
        ('F', "1 direct; 2 direct; 3 direct; 4 0; 3 0 1 0"),
        ('G', "1 direct; 2 direct; 3 direct; 4 -2; 3 1 0 0"),
        (
            'H',
            "1 direct; 2 direct; 3 direct; 4 direct; 5 -1; 6 -1; 4 2 0 0",
        ),
        (
            'I',
            "1 direct; 2 direct; 3 direct; 4 direct; 5 0; 6 0; 4 0 2 0",
        ),
    ];
    for (name, expected) in rows {
        let drawing = DRAWINGS.iter().find(|drawing| drawing.name == name);
        let plan = drawing.expect("a drawing").plan();
        let text = plan_text(&plan, Fault::None);
        assert_eq!(margins_bytes(&text), lines(expected), "{name}");
    }
}

/// B is deaf, J has one terminal, and drawing F with groups has no f.
#[test]
fn refused_drawings() {
    for drawing in &DRAWINGS {
        let text = plan_text(&drawing.plan(), Fault::None);
        let expected = match (drawing.name, drawing.groups) {
            ('B', _) => refused(15, 0),
            ('J', _) => refused(4, 1),
            (_, []) => continue,
            _ => refused(4, 1),
        };
        assert_eq!(margins_bytes(&text), expected, "{}", drawing.name);
    }
    let record = DRAWINGS[1].plan();
    let answer = margins_of(&record, Fault::None);
    assert_eq!(answer, Ok(vec![Standing::Source, Standing::Margin(-1)]));
}

/// With f = 1 whoever hears four, three or two that hear the source has one to spare, none, or one too
/// few.
const ALL_SORTS: &str = "01080001 020001 020002 020003 020004 020105 020205 020305 020405 \
                         020106 020206 020306 020107 020207";

#[test]
fn below_at_and_above_zero() {
    let direct = "1 direct; 2 direct; 3 direct; 4 direct";
    assert_eq!(
        margins(ALL_SORTS),
        lines(&format!("{direct}; 5 1; 6 0; 7 -1; 4 1 1 1"))
    );
    // Drawing H and a terminal that hears all of 1 to 6: it is bad where 1 and 3 are, and where it is
    // good one of the six is bad at most.
    let watched = "01080001 020001 020002 020003 020004 020105 020205 020605 020306 020406 020506 \
                   020107 020207 020307 020407 020507 020607";
    assert_eq!(
        margins(watched),
        lines(&format!("{direct}; 5 -1; 6 -1; 7 3; 4 2 0 1"))
    );
}

/// The source is any terminal, and has no line; what it hears makes nobody direct.
#[test]
fn other_sources() {
    assert_eq!(
        margins("01030200 020201 020100"),
        lines("0 0; 1 direct; 1 0 1 0")
    );
    assert_eq!(
        margins("01030100 020100 020002 020201"),
        lines("0 direct; 2 0; 1 0 1 0")
    );
}

/// A chain of 14: with f = 0 nobody before a good one may be bad; with f = 1 the one before it is.
#[test]
fn chains() {
    for (bound, margin, counts) in [("00", "0", "1 0 12 0"), ("01", "-2", "1 12 0 0")] {
        let links = (1..14).map(|hearer| format!(" 02{:02x}{hearer:02x}", hearer - 1));
        let words = links.fold(format!("010e00{bound}"), |words, link| words + &link);
        let others: String = (2..14)
            .map(|number| format!("{number} {margin}; "))
            .collect();
        assert_eq!(
            margins(&words),
            lines(&format!("1 direct; {others}{counts}"))
        );
    }
}

/// Twenty terminals. All but the source hear each other, and 1 hears the source: with f = 0 a bad one
/// would be heard, so 18 less 1 are left; with f = 19 all but one may be bad, so 0 less 20.
#[test]
fn numbers_of_two_digits() {
    let pairs = (1..20).flat_map(|from| (1..20).map(move |to| (from, to)));
    let links = pairs
        .filter(|(from, to)| from != to)
        .map(|(from, to)| format!(" 02{from:02x}{to:02x}"));
    let links = links.fold(" 020001".to_string(), |words, link| words + &link);
    for (bound, margin, counts) in [("00", "17", "1 0 0 18"), ("13", "-20", "1 18 0 0")] {
        let others: String = (2..20)
            .map(|number| format!("{number} {margin}; "))
            .collect();
        assert_eq!(
            margins(&format!("011400{bound}{links}")),
            lines(&format!("1 direct; {others}{counts}"))
        );
    }
    let star = (1..20).map(|hearer| format!(" 0200{hearer:02x}"));
    let words = star.fold("01140005".to_string(), |words, link| words + &link);
    let direct: String = (1..20).map(|number| format!("{number} direct; ")).collect();
    assert_eq!(margins(&words), lines(&format!("{direct}19 0 0 0")));
}

/// f = n-1 is read, f = n is not.
#[test]
fn greatest_f() {
    assert_eq!(
        margins("01030002 020001 020102"),
        lines("1 direct; 2 -3; 1 1 0 0")
    );
    assert_eq!(margins("01030003 020001 020102"), refused(4, 1));
}

// ---- by the definition, with sets of terminals

/// L of this bad set: whoever can join does, one after the other.
fn reached(plan: &Plan, bad: &Set) -> Set {
    let mut reached = set(&[plan.source]);
    let joins = |reached: &Set, terminal: &u32| {
        let heard = plan.heard_by(*terminal);
        let told = heard.intersection(reached).count();
        heard.contains(&plan.source) || told > plan.bound.number as usize
    };
    let next = |reached: &Set| {
        let mut others = (0..plan.n).filter(|one| !bad.contains(one) && !reached.contains(one));
        others.find(|one| joins(reached, one))
    };
    while let Some(terminal) = next(&reached) {
        reached.insert(terminal);
    }
    reached
}

/// Every bad set, with its L.
fn bad_sets(plan: &Plan) -> Vec<(Set, Set)> {
    let sets = (0..2u32.pow(plan.n)).map(set_of);
    let bad = sets.filter(|bad| is_bad_set(plan, bad, Fault::None) == Ok(true));
    bad.map(|bad| {
        let reached = reached(plan, &bad);
        (bad, reached)
    })
    .collect()
}

fn by_definition(plan: &Plan, bad_sets: &[(Set, Set)], terminal: u32) -> Standing {
    let heard = plan.heard_by(terminal);
    if terminal == plan.source {
        return Standing::Source;
    }
    if heard.contains(&plan.source) {
        return Standing::Direct;
    }
    let leaving = bad_sets.iter().filter(|(bad, _)| !bad.contains(&terminal));
    let counts = leaving.map(|(_, reached)| heard.intersection(reached).count() as i32);
    let least = counts.min().expect("the empty set leaves everyone good");
    Standing::Margin(least - (plan.bound.number as i32 + 1))
}

/// The definition, and what the request says of the margins: a terminal is below zero exactly if some
/// bad set keeps it waiting, and nobody is exactly if the plan passes.
fn check_plan(plan: &Plan) {
    let answer = margins_of(plan, Fault::None).expect("a right plan");
    let bad_sets = bad_sets(plan);
    assert_eq!(answer.len() as u32, plan.n);
    let mut below = Set::new();
    for (terminal, &standing) in (0..).zip(&answer) {
        let expected = by_definition(plan, &bad_sets, terminal);
        assert_eq!(standing, expected, "{terminal} of {plan:?}");
        let is_below = matches!(standing, Standing::Margin(margin) if margin < 0);
        let mut waiting = bad_sets.iter();
        let waits =
            waiting.any(|(bad, reached)| !bad.contains(&terminal) && !reached.contains(&terminal));
        assert_eq!(is_below, waits, "{terminal} of {plan:?}");
        below.extend(is_below.then_some(terminal));
    }
    let judged = verdict(plan, Fault::None).expect("a right plan");
    assert_eq!(judged.fails, !below.is_empty(), "{plan:?}");
    assert!(judged.left.is_subset(&below), "{plan:?}");
}

/// Every plan of two and of three terminals.
#[test]
fn small_plans() {
    for n in [2, 3] {
        let pairs = (0..n).flat_map(|from| (0..n).map(move |to| (from, to)));
        let pairs: Vec<(u32, u32)> = pairs.filter(|(from, to)| from != to).collect();
        for chosen in 0..2u32.pow(pairs.len() as u32) {
            let chosen = set_of(chosen);
            let links = chosen.iter().map(|&place| pairs[place as usize]);
            for (source, f) in (0..n).flat_map(|source| (0..n).map(move |f| (source, f))) {
                let mut plan = Plan::new(n, source, f);
                plan.links = links.clone().collect();
                check_plan(&plan);
            }
        }
    }
}

#[test]
fn seeded_plans() {
    let plans = (0..900).map(|index| margin_record(3, index));
    let right: Vec<Plan> = plans
        .filter(|plan| plan.n <= 8 && margins_of(plan, Fault::None).is_ok())
        .collect();
    assert!(right.len() > 300, "{}", right.len());
    right.iter().for_each(check_plan);
}

/// Larger ones beside the verdict alone.
#[test]
fn seeded_plans_and_the_verdict() {
    let (mut passed, mut failed) = (0, 0);
    for plan in (0..600).map(|index| margin_record(4, index)) {
        let Ok(answer) = margins_of(&plan, Fault::None) else {
            continue;
        };
        let is_below =
            |number: u32| matches!(answer[number as usize], Standing::Margin(m) if m < 0);
        let judged = verdict(&plan, Fault::None).expect("a right plan");
        assert_eq!(judged.fails, (0..plan.n).any(is_below), "{plan:?}");
        assert!(judged.left.iter().all(|&one| is_below(one)), "{plan:?}");
        passed += u32::from(!judged.fails);
        failed += u32::from(judged.fails);
    }
    assert!(passed > 80 && failed > 80, "{passed}, {failed}");
}

// ---- refused files

/// ff is refused on the head's line, whatever comes after it.
#[test]
fn groups_are_refused_by_their_head() {
    let more = ["010300ff 020001 020001", "010d00ff", "01030cff"];
    check_groups(margins_bytes, &more);
}

/// On its line 1, 2 and 3 come first, and so does 15 where a head comes again after a deaf plan.
#[test]
fn other_causes_of_the_line_come_first() {
    let more = [
        ("01030001 020001 020002 01ffffff", 3, 4),
        ("01030001 020001 010300ff", 15, 0),
        ("01030001 020001 010300ff00", 2, 3),
    ];
    check_before_groups(margins_bytes, &more);
}

/// The rest is refused as by the verdict.
#[test]
fn refused_as_by_the_verdict() {
    let more = [
        ("01030001 020001 020002 07000001", 3, 4),
        ("01030001 020001 020002 0700", 2, 4),
        ("01030001 020001 07000002", 15, 0),
        ("01030001 07000002 020001 020002", 15, 0),
        ("01030001 020001", 15, 0),
        ("01140000", 15, 0),
    ];
    check_others(margins_bytes, verdict_bytes, &more);
}

/// A file whose first line is a head with ff and of the right form.
fn has_groups_head(text: &[u8]) -> bool {
    let line = text.split_inclusive(|&byte| byte == 10).next();
    let digits = line.and_then(|line| line.strip_suffix(b"\n"));
    digits.is_some_and(|digits| {
        let right = digits.iter().all(|byte| b"0123456789abcdef".contains(byte));
        right && digits.len() == 8 && digits.starts_with(b"01") && digits.ends_with(b"ff")
    })
}

/// 4 on line 1 exactly where such a head comes first, and else refused where the verdict refuses.
#[test]
fn files_beside_the_verdict() {
    let (mut groups, mut refusals, mut answers) = (0, 0, 0);
    for index in 0..1500 {
        let text = margin_case(6, index);
        let printed = margins_bytes(&text);
        let sized = (1..=24_576).contains(&text.len());
        if sized && has_groups_head(&text) {
            assert_eq!(printed, refused(4, 1));
            groups += 1;
            continue;
        }
        let judged = verdict_bytes(&text);
        if judged.starts_with("ff") {
            assert_eq!(printed, judged);
            refusals += 1;
        } else {
            let counts = printed.lines().last().expect("counts");
            let below = counts.split(' ').nth(1).expect("four counts");
            assert_eq!(judged.starts_with("8100"), below == "0");
            answers += 1;
        }
    }
    assert!(
        groups > 250 && refusals > 250 && answers > 400,
        "{groups}, {refusals}, {answers}"
    );
}

// ---- refused records

/// A chain.
fn chain(n: u32, bound: Bound) -> Plan {
    let mut plan = Plan::with(n, 0, bound);
    plan.links = (1..n.min(20)).map(|hearer| (hearer - 1, hearer)).collect();
    plan
}

fn with(mut plan: Plan, link: (u32, u32)) -> Plan {
    plan.links.insert(link);
    plan
}

/// The number of a plan record's refusal.
fn check_numbers(rows: &[(Plan, Option<u8>)]) {
    for (plan, expected) in rows {
        let number = margins_of(plan, Fault::None).err().map(Cause::number);
        assert_eq!(number, *expected, "{plan:?}");
    }
}

#[test]
fn numbers_and_links_of_records() {
    let mut no_source = chain(3, Bound::f(1));
    no_source.source = 3;
    check_numbers(&[
        (chain(3, Bound::f(2)), None),
        (Plan::new(20, 0, 0), None),
        (chain(1, Bound::f(0)), Some(4)),
        (chain(21, Bound::f(0)), Some(4)),
        (chain(255, Bound::f(0)), Some(4)),
        (chain(3, Bound::f(3)), Some(4)),
        (no_source.clone(), Some(4)),
        (with(no_source, (1, 1)), Some(4)),
        (with(chain(3, Bound::f(1)), (1, 1)), Some(5)),
        (with(chain(3, Bound::f(1)), (3, 1)), Some(5)),
        (with(chain(3, Bound::f(1)), (31, 1)), Some(5)),
        (with(chain(3, Bound::f(1)), (1, 3)), Some(5)),
    ]);
}

/// Groups in a record, right or wrong, and a group in any place beside f: 4, before 5.
#[test]
fn groups_of_records() {
    let groups = || Bound::groups(&[set(&[1])]);
    let beside = |place: u32| {
        let mut bound = Bound::f(1);
        bound.put(place, set(&[2]));
        bound
    };
    check_numbers(&[
        (chain(3, groups()), Some(4)),
        (chain(13, groups()), Some(4)),
        (with(chain(3, groups()), (1, 1)), Some(4)),
        (chain(3, Bound::groups(&[])), Some(4)),
        (chain(3, Bound::groups(&[set(&[0])])), Some(4)),
        (with(chain(3, beside(15)), (1, 1)), Some(4)),
    ]);
    for place in 0..16 {
        check_numbers(&[(chain(3, beside(place)), Some(4))]);
    }
}

/// Whoever hears nobody is answered in a record: less f+1.
#[test]
fn deaf_records() {
    let mut plan = Plan::new(3, 1, 2);
    plan.links.insert((1, 0));
    let expected = vec![Standing::Direct, Standing::Source, Standing::Margin(-3)];
    assert_eq!(margins_of(&plan, Fault::None), Ok(expected));
}
