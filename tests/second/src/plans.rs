//! Seeded valid plans with a number f: of every density, sure to pass, near the border, and joined drawings.

use crate::drawings::DRAWINGS;
use crate::faults::Fault;
use crate::groups::Bound;
use crate::plan::{Plan, Set};
use crate::rng::Rng;
use crate::verdict::{is_bad_set, verdict};

const DENSITIES: [u32; 10] = [0, 5, 10, 20, 35, 50, 70, 85, 95, 100];

fn bound(rng: &mut Rng, n: u32) -> u32 {
    let most = if rng.chance(80) {
        (n - 1).min(3)
    } else {
        n - 1
    };
    rng.between(0, most)
}

fn source(rng: &mut Rng, n: u32) -> u32 {
    if rng.chance(40) {
        0
    } else {
        rng.between(0, n - 1)
    }
}

fn all_links(n: u32) -> Vec<(u32, u32)> {
    let pairs = (0..n).flat_map(|from| (0..n).map(move |to| (from, to)));
    pairs.filter(|(from, to)| from != to).collect()
}

/// Each link is there with the same chance.
pub fn random_plan(rng: &mut Rng, n: u32, density: Option<u32>) -> Plan {
    let density = density.unwrap_or_else(|| rng.pick(&DENSITIES));
    let mut plan = Plan::new(n, source(rng, n), bound(rng, n));
    plan.links = all_links(n)
        .into_iter()
        .filter(|_| rng.chance(density))
        .collect();
    plan
}

/// The terminals in random order, the source first.
pub fn source_first(rng: &mut Rng, plan: &Plan) -> Vec<u32> {
    let mut order: Vec<u32> = (0..plan.n).collect();
    rng.shuffle(&mut order);
    order.retain(|&terminal| terminal != plan.source);
    order.insert(0, plan.source);
    order
}

/// Each terminal hears the source, or some of those before it; `enough` of them if asked.
fn layered(rng: &mut Rng, n: u32, f: u32, enough: u32) -> Plan {
    let mut plan = Plan::new(n, source(rng, n), f);
    let order = source_first(rng, &plan);
    let near = rng.between(1, enough.max(1)) as usize;
    for (place, &hearer) in order.iter().enumerate().skip(1) {
        let mut earlier = order[1..place].to_vec();
        rng.shuffle(&mut earlier);
        if place <= near || earlier.len() < enough as usize {
            plan.links.insert((plan.source, hearer));
        }
        let wanted = enough as usize + rng.below(2);
        plan.links
            .extend(earlier.iter().take(wanted).map(|&sender| (sender, hearer)));
    }
    // Links backwards change who may be bad, above all those into the source.
    for link in all_links(n) {
        if link.0 != plan.source && rng.chance(8) {
            plan.links.insert(link);
        }
    }
    plan
}

/// Passes: whoever doesn't hear the source hears 2f+1 earlier ones, of which f may be bad.
pub fn strong_plan(rng: &mut Rng, n: u32) -> Plan {
    let f = rng.between(0, (n - 1).min(2));
    layered(rng, n, f, 2 * f + 1)
}

/// Passes or fails: some terminals hear fewer than they need.
pub fn weak_plan(rng: &mut Rng, n: u32) -> Plan {
    let f = rng.between(0, (n - 1).min(3));
    let enough = rng.between(f.max(1), 2 * f + 1);
    layered(rng, n, f, enough)
}

/// A chain or ladder, in which rounds of taking differ.
pub fn deep_plan(rng: &mut Rng, n: u32) -> Plan {
    let f = rng.between(0, (n - 1).min(2));
    ladder(rng, n, f, 2 * f + 1)
}

/// The same with nobody to spare: whoever hears a liar waits for its word.
pub fn thin_plan(rng: &mut Rng, n: u32) -> Plan {
    let f = rng.between(1, (n - 1).min(2));
    ladder(rng, n, f, f + 1)
}

/// Each hears so many before it; the first ones hear the source.
fn ladder(rng: &mut Rng, n: u32, f: u32, width: u32) -> Plan {
    let mut plan = Plan::new(n, source(rng, n), f);
    let order = source_first(rng, &plan);
    let width = width as usize;
    for place in 1..order.len() {
        if place <= width {
            plan.links.insert((plan.source, order[place]));
        } else {
            let before = &order[place - width..place];
            plan.links
                .extend(before.iter().map(|&sender| (sender, order[place])));
        }
    }
    plan
}

/// Passing, but no more once the next link goes; given before or after it goes.
pub fn border_plan(rng: &mut Rng, n: u32) -> Plan {
    let mut plan = random_plan(rng, n, Some(70));
    plan.bound = Bound::f(rng.between(0, (n - 1).min(2)));
    let mut links = all_links(n);
    rng.shuffle(&mut links);
    for &link in &links {
        if passes(&plan) {
            break;
        }
        plan.links.insert(link);
    }
    rng.shuffle(&mut links);
    for &link in &links {
        let mut poorer = plan.clone();
        if !poorer.links.remove(&link) {
            continue;
        }
        if passes(&poorer) {
            plan = poorer;
        } else if rng.chance(30) {
            return poorer;
        }
    }
    plan
}

pub fn passes(plan: &Plan) -> bool {
    verdict(plan, Fault::None).is_ok_and(|answer| !answer.fails)
}

/// Two or three drawings with f = 1 around one source, under other numbers.
///
/// Witnesses of different sizes stand beside each other, and which is the smaller number is
/// left to chance.
pub fn joined_plan(rng: &mut Rng) -> Plan {
    let mut links = Vec::new();
    let mut n = 1;
    for _ in 0..rng.pick(&[2, 2, 2, 3]) {
        let part = DRAWINGS[rng.pick(&[4, 4, 5, 7, 7, 8])].plan();
        if n + part.n - 1 > 12 {
            break;
        }
        let shift = |terminal: u32| if terminal == 0 { 0 } else { terminal + n - 1 };
        links.extend(
            part.links
                .iter()
                .map(|&(from, to)| (shift(from), shift(to))),
        );
        n += part.n - 1;
    }
    let mut names: Vec<u32> = (0..n).collect();
    if rng.chance(50) {
        rng.shuffle(&mut names);
    }
    let name = |terminal: u32| names[terminal as usize];
    let mut plan = Plan::new(n, name(0), 1);
    plan.links = links
        .into_iter()
        .map(|(from, to)| (name(from), name(to)))
        .collect();
    if rng.chance(25) {
        hear_at_source(rng, &mut plan);
    }
    plan
}

/// Lets the source hear others, which bounds the bad sets further.
pub fn hear_at_source(rng: &mut Rng, plan: &mut Plan) {
    let share = rng.pick(&[30, 60, 100]);
    for terminal in (0..plan.n).filter(|&terminal| terminal != plan.source) {
        if rng.chance(share) {
            plan.links.insert((terminal, plan.source));
        }
    }
}

/// Takes all links into some terminals, which may still be heard by others.
pub fn deafen(rng: &mut Rng, plan: &mut Plan) {
    let others = source_first(rng, plan).split_off(1);
    let some = 1 + rng.below(others.len());
    let count = rng.pick(&[1, 1, 1, 2, some]);
    let deaf: Set = others.into_iter().take(count).collect();
    plan.links.retain(|link| !deaf.contains(&link.1));
}

/// Two terminals of three or more hear each other alone, so that nothing reaches them.
pub fn cut_off(rng: &mut Rng, plan: &mut Plan) {
    let others = source_first(rng, plan).split_off(1);
    let pair = [others[0], others[1]];
    plan.links.retain(|link| !pair.contains(&link.1));
    plan.links.extend([(pair[0], pair[1]), (pair[1], pair[0])]);
}

/// Lets whoever is deaf hear somebody.
pub fn mend(rng: &mut Rng, plan: &mut Plan) {
    for hearer in plan.deaf(Fault::None) {
        let sender = (hearer + rng.between(1, plan.n - 1)) % plan.n;
        plan.links.insert((sender, hearer));
    }
}

/// A plan of any sort.
pub fn any_plan(rng: &mut Rng, n: u32) -> Plan {
    let make = rng.pick(&[
        strong_plan as fn(&mut Rng, u32) -> Plan,
        weak_plan,
        deep_plan,
        |rng, n| random_plan(rng, n, None),
    ]);
    make(rng, n)
}

/// One in which one terminal or several are deaf.
pub fn deaf_plan(rng: &mut Rng, n: u32) -> Plan {
    let mut plan = any_plan(rng, n);
    if rng.chance(30) {
        hear_at_source(rng, &mut plan);
    }
    deafen(rng, &mut plan);
    plan
}

/// A bad set of the plan, grown member by member as far as the bound allows.
pub fn random_bad_set(rng: &mut Rng, plan: &Plan, percent: u32) -> Set {
    let mut bad = Set::new();
    for terminal in source_first(rng, plan).into_iter().skip(1) {
        let mut larger = bad.clone();
        larger.insert(terminal);
        if rng.chance(percent) && is_bad_set(plan, &larger, Fault::None) == Ok(true) {
            bad = larger;
        }
    }
    bad
}
