//! The greatest f for which a drawing passes: small drawings worked out by hand, what it has to do with
//! the verdict and with single links, and refusals.

mod common;

use common::refusals::{check_before_groups, check_groups, check_others};
use common::{archive_bytes, greatest, greatest_bytes, refused};
use second::drawings::DRAWINGS;
use second::faults::Fault;
use second::greatest::greatest as greatest_of;
use second::groups::Bound;
use second::output::plan_text;
use second::plan::{set_of, Cause, Plan};
use second::plans::{any_plan, hear_at_source, random_plan};
use second::rng::Rng;
use second::verdict::verdict;

// ---- by hand

/// C passes for 0 and D is the same drawing; E's terminal 3 hears two that hear the source, which one
/// bad one spoils; F's 4 hears three. I passes for 1 because the source hears 1 to 4, and for no more.
#[test]
fn drawings() {
    let rows = [
        ('A', "1\n"),
        ('B', "none\n"),
        ('C', "0\n"),
        ('D', "0\n"),
        ('E', "0\n"),
        ('F', "1\n"),
        ('G', "1\n"),
        ('H', "0\n"),
        ('I', "1\n"),
        ('J', "ff040001\n"),
    ];
    for (name, expected) in rows {
        let drawing = DRAWINGS.iter().find(|drawing| drawing.name == name);
        let plan = drawing.expect("a drawing").plan();
        let text = plan_text(&plan, Fault::None);
        assert_eq!(greatest_bytes(&text), expected, "{name}");
    }
}

/// Whatever f the head has, it is read and checked alone.
#[test]
fn heads() {
    let links = "020001 020002 020003 020104 020204 020304";
    for f in 0..5 {
        assert_eq!(greatest(&format!("010500{f:02x} {links}")), "1\n", "{f}");
    }
    for f in [5, 6, 20, 254, 255] {
        let words = format!("010500{f:02x} {links}");
        assert_eq!(greatest(&words), refused(4, 1), "{f}");
    }
}

/// Where all hear the source it is n-1, for every n; one fewer, and whoever hears nobody has none.
#[test]
fn all_hear_the_source() {
    for (n, source) in (2..=20).flat_map(|n| [(n, 0), (n, n - 1)]) {
        let mut plan = Plan::new(n, source, 0);
        let others = (0..n).filter(|&terminal| terminal != source);
        plan.links = others.map(|hearer| (source, hearer)).collect();
        assert_eq!(greatest_of(&plan, Fault::None), Ok(Some(n - 1)));
        let text = plan_text(&plan, Fault::None);
        assert_eq!(greatest_bytes(&text), format!("{}\n", n - 1));
        plan.links.pop_last();
        assert_eq!(greatest_of(&plan, Fault::None), Ok(None));
        let text = plan_text(&plan, Fault::None);
        assert_eq!(greatest_bytes(&text), "none\n");
    }
}

/// Each of the others hears the same 2f+1, which hear the source.
fn thin(n: u32, f: u32) -> Plan {
    let near = 2 * f + 1;
    let mut plan = Plan::new(n, 0, 0);
    plan.links = (1..=near).map(|hearer| (0, hearer)).collect();
    let far = (near + 1..n).flat_map(|hearer| (1..=near).map(move |sender| (sender, hearer)));
    plan.links.extend(far);
    plan
}

/// Every f that a drawing can have in which not all hear the source; and one link less costs one.
#[test]
fn every_f() {
    for n in 3..=20 {
        for f in (0..n).take_while(|f| 2 * f + 2 < n) {
            let mut plan = thin(n, f);
            assert_eq!(greatest_of(&plan, Fault::None), Ok(Some(f)), "{n}, {f}");
            plan.links.remove(&(1, n - 1));
            let expected = f.checked_sub(1);
            assert_eq!(greatest_of(&plan, Fault::None), Ok(expected), "{n}, {f}");
        }
    }
}

/// 0>1 alone, and twenty of which the source has one hearer less.
#[test]
fn a_link_from_the_source() {
    assert_eq!(greatest("01020000 020001"), "1\n");
    assert_eq!(greatest("01020000"), "none\n");
    let star = (1..20).map(|hearer| format!(" 0200{hearer:02x}"));
    let words = star.fold("01140000".to_string(), |words, link| words + &link);
    assert_eq!(greatest(&words), "19\n");
    assert_eq!(greatest(&words.replace(" 020013", " 020113")), "0\n");
    assert_eq!(greatest(&words.replace(" 020013", "")), "none\n");
}

// ---- by the verdict and the definition

/// For each f from 0 to n-1 whether the verdict passes.
fn passing(plan: &Plan) -> Vec<bool> {
    let with = |f: u32| Plan {
        bound: Bound::f(f),
        ..plan.clone()
    };
    let judged = (0..plan.n).map(|f| verdict(&with(f), Fault::None));
    judged
        .map(|answer| !answer.expect("a right plan").fails)
        .collect()
}

/// How many f pass: one more than the greatest, and 0 for none.
fn height(plan: &Plan) -> u32 {
    let found = greatest_of(plan, Fault::None).expect("a right drawing");
    found.map_or(0, |f| f + 1)
}

/// What the request says: it is the greatest that passes, every smaller one passes too, and without a
/// link it is never more, and lower by one at the most if that doesn't start at the source.
fn check_drawing(plan: &Plan) {
    let passing = passing(plan);
    let height = height(plan);
    let lower = (0..).zip(&passing);
    for (f, &passes) in lower {
        assert_eq!(passes, f < height, "{f} of {plan:?}");
    }
    let hears = |terminal: &u32| plan.links.contains(&(plan.source, *terminal));
    let mut others = (0..plan.n).filter(|&terminal| terminal != plan.source);
    let all_direct = others.clone().all(|terminal| hears(&terminal));
    assert_eq!(height == plan.n, all_direct, "{plan:?}");
    let deaf = others.any(|terminal| plan.heard_by(terminal).is_empty());
    assert!(!deaf || height == 0, "{plan:?}");
    assert_eq!(height > 0, plan.all_reached(), "{plan:?}");
}

fn check_links(plan: &Plan) {
    let before = height(plan);
    for link in &plan.links {
        let mut poorer = plan.clone();
        poorer.links.remove(link);
        let after = height(&poorer);
        assert!(after <= before, "{link:?} of {plan:?}");
        let at_most_one = after + 1 >= before || link.0 == plan.source;
        assert!(at_most_one, "{link:?} of {plan:?}");
    }
}

fn all_drawings(n: u32) -> impl Iterator<Item = Plan> {
    let pairs = (0..n).flat_map(|from| (0..n).map(move |to| (from, to)));
    let pairs: Vec<(u32, u32)> = pairs.filter(|(from, to)| from != to).collect();
    let chosen = (0..2u32.pow(pairs.len() as u32)).map(move |chosen| {
        let places = set_of(chosen).into_iter();
        places.map(|place| pairs[place as usize]).collect()
    });
    chosen.flat_map(move |links: std::collections::BTreeSet<(u32, u32)>| {
        (0..n).map(move |source| Plan {
            links: links.clone(),
            ..Plan::new(n, source, 0)
        })
    })
}

/// Every drawing of two, three and four terminals; of four with the source 0.
#[test]
fn small_drawings() {
    for plan in all_drawings(2).chain(all_drawings(3)) {
        check_drawing(&plan);
        check_links(&plan);
    }
    for plan in all_drawings(4).filter(|plan| plan.source == 0) {
        check_drawing(&plan);
        check_links(&plan);
    }
}

#[test]
fn seeded_drawings() {
    let rng = &mut Rng::new(13);
    let mut heights = [0; 8];
    for _ in 0..1500 {
        let n = rng.between(4, 7);
        let mut plan = match rng.below(3) {
            0 => any_plan(rng, n),
            1 => random_plan(rng, n, Some(85)),
            _ => random_plan(rng, n, None),
        };
        if rng.chance(30) {
            hear_at_source(rng, &mut plan);
        }
        check_drawing(&plan);
        check_links(&plan);
        heights[height(&plan) as usize] += 1;
    }
    assert!(heights.iter().all(|&count| count > 15), "{heights:?}");
}

// ---- refused files

/// ff is refused on the head's line, whatever comes after it.
#[test]
fn groups_are_refused_by_their_head() {
    check_groups(greatest_bytes, &[]);
}

/// On its line 1, 2 and 3 come first.
#[test]
fn other_causes_of_the_line_come_first() {
    let more = [
        ("01030001 020001 010300ff", 3, 3),
        ("01030001 01ffffff", 3, 2),
    ];
    check_before_groups(greatest_bytes, &more);
}

/// The rest is refused as by the archive, which opens plans with deaf terminals.
#[test]
fn refused_as_by_the_archive() {
    let more = [
        ("01030001 020001 07000001", 3, 3),
        ("01030001 07000002 020001", 3, 2),
        ("01030001 020001 0700", 2, 3),
        ("01030001 01030001", 3, 2),
    ];
    check_others(greatest_bytes, archive_bytes, &more);
}

// ---- refused records

/// The number of a drawing's refusal. What bounds the bad in the record is not looked at.
#[test]
fn numbers_of_records() {
    let chain = |n: u32, source: u32, more: &[(u32, u32)]| {
        let mut plan = Plan::new(n, source, 255);
        let links = (1..n.min(20)).map(|hearer| (hearer - 1, hearer));
        plan.links = links.chain(more.iter().copied()).collect();
        plan
    };
    for (plan, expected) in [
        (chain(2, 0, &[]), None),
        (chain(20, 19, &[]), None),
        (chain(20, 0, &[(19, 0)]), None),
        (chain(0, 0, &[]), Some(4)),
        (chain(1, 0, &[]), Some(4)),
        (chain(21, 0, &[]), Some(4)),
        (chain(255, 0, &[]), Some(4)),
        (chain(3, 3, &[]), Some(4)),
        (chain(3, 255, &[]), Some(4)),
        (chain(3, 3, &[(1, 1)]), Some(4)),
        (chain(21, 0, &[(20, 0)]), Some(4)),
        (chain(3, 0, &[(1, 1)]), Some(5)),
        (chain(3, 0, &[(0, 0)]), Some(5)),
        (chain(3, 0, &[(3, 1)]), Some(5)),
        (chain(3, 0, &[(31, 1)]), Some(5)),
        (chain(20, 0, &[(20, 1)]), Some(5)),
        (chain(3, 0, &[(1, 3)]), Some(5)),
        (chain(3, 0, &[(1, 19)]), Some(5)),
    ] {
        let number = greatest_of(&plan, Fault::None).err().map(Cause::number);
        assert_eq!(number, expected, "{plan:?}");
    }
}
