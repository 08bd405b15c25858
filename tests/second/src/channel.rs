//! Seeded runs of sites with one radio for all: who is bad, and what is said on the channel.

use crate::draft::{
    bad_set_line, default_line, join, plan_draft, shared_word_line, start_line, word_line,
};
use crate::faults::Fault;
use crate::grouping::{group_thinly, maybe_grouped};
use crate::plan::{bound_holds, number_of, Plan, Set};
use crate::plans::{
    any_plan, deep_plan, hear_at_source, mend, random_bad_set, strong_plan, thin_plan, weak_plan,
};
use crate::rng::Rng;
use std::collections::BTreeMap;

/// All that a run file of this mode says.
#[derive(Clone, Debug)]
pub struct Channel {
    pub plan: Plan,
    pub bad: Set,
    pub value: u16,
    pub default: u16,
    /// Left out, they are one less than there are terminals.
    pub rounds: Option<u32>,
    /// By round, then sender.
    pub words: BTreeMap<(u32, u32), u16>,
}

/// How one bad terminal talks.
#[derive(Clone, Copy, Debug, PartialEq, Eq)]
pub enum Speech {
    Silent,
    /// In round 1 alone.
    Once,
    /// Nothing in round 1.
    Late,
    /// One layout in every round.
    Steady,
    /// Another layout in each round.
    Changing,
    /// Now and then, any of a few layouts.
    Wild,
}

/// The source's first word decides, so there is mostly one, or none and later ones.
const OF_SOURCE: [Speech; 8] = [
    Speech::Silent,
    Speech::Once,
    Speech::Late,
    Speech::Late,
    Speech::Steady,
    Speech::Changing,
    Speech::Changing,
    Speech::Wild,
];
const OF_OTHERS: [Speech; 7] = [
    Speech::Silent,
    Speech::Once,
    Speech::Late,
    Speech::Steady,
    Speech::Changing,
    Speech::Wild,
    Speech::Wild,
];

const LAYOUTS: [u16; 7] = [1, 7, 255, 256, 300, 4660, 65_535];

impl Channel {
    pub fn played(&self) -> u32 {
        self.rounds.unwrap_or(self.plan.n - 1)
    }

    pub fn source_bad(&self) -> bool {
        self.bad.contains(&self.plan.source)
    }

    pub fn plan_lines(&self) -> Vec<Vec<u8>> {
        plan_draft(self.plan.clone()).lines
    }

    pub fn bad_line(&self) -> Vec<u8> {
        bad_set_line(number_of(&self.bad))
    }

    pub fn start_line(&self) -> Vec<u8> {
        start_line(self.value, self.rounds)
    }

    pub fn word_lines(&self) -> Vec<Vec<u8>> {
        let words = self.words.iter();
        words
            .map(|(&(round, from), &layout)| shared_word_line(round, from, layout))
            .collect()
    }

    pub fn lines(&self) -> Vec<Vec<u8>> {
        let mut lines = self.plan_lines();
        lines.push(default_line(self.default));
        lines.push(self.bad_line());
        lines.push(self.start_line());
        lines.extend(self.word_lines());
        lines
    }

    pub fn text(&self) -> Vec<u8> {
        join(&self.lines())
    }

    /// The same words in the old frames, each to all hearers, with the source good.
    pub fn old_lines(&self) -> Vec<Vec<u8>> {
        let mut lines = self.plan_lines();
        let mut bad = self.bad.clone();
        bad.remove(&self.plan.source);
        lines.push(bad_set_line(number_of(&bad)));
        lines.push(self.start_line());
        let words = self.words.iter().filter(|word| bad.contains(&word.0 .1));
        for (&(round, from), &layout) in words {
            let links = self.plan.links.iter().filter(|link| link.0 == from);
            lines.extend(links.map(|&(from, to)| word_line(round, from, to, layout)));
        }
        lines
    }
}

/// A plan of so many terminals in which nobody is deaf, with f or with groups.
pub fn channel_plan(rng: &mut Rng, n: u32) -> Plan {
    let make = rng.pick(&[
        strong_plan as fn(&mut Rng, u32) -> Plan,
        strong_plan,
        deep_plan,
        thin_plan,
        weak_plan,
        any_plan,
    ]);
    let mut plan = make(rng, n);
    if rng.chance(30) {
        hear_at_source(rng, &mut plan);
    }
    mend(rng, &mut plan);
    if rng.chance(15) && plan.bound.number > 0 {
        group_thinly(rng, &mut plan);
    } else {
        maybe_grouped(rng, &mut plan);
    }
    plan
}

/// A bad set of the plan as elsewhere, mostly with the source, at times rather of those that hear it.
pub fn channel_bad(rng: &mut Rng, plan: &Plan) -> Set {
    let share = rng.pick(&[0, 25, 60, 100]);
    let mut bad = random_bad_set(rng, plan, share);
    if rng.chance(25) {
        let hears = |terminal: &u32| plan.links.contains(&(plan.source, *terminal));
        let near: Set = bad.iter().copied().filter(hears).collect();
        // Whoever is good again has a bound too.
        if !near.is_empty() && bound_holds(plan, &near, Fault::None) {
            bad = near;
        }
    }
    if rng.chance(65) {
        bad.insert(plan.source);
    }
    bad
}

/// A run of any such plan.
pub fn some_channel(rng: &mut Rng, n: u32) -> Channel {
    let plan = channel_plan(rng, n);
    let bad = channel_bad(rng, &plan);
    let any = rng.between(0, 12);
    let rounds = rng.pick(&[None, None, None, Some(n - 1), Some(n), Some(any)]);
    channel_of(rng, plan, bad, rounds)
}

/// A run of this plan, with these bad ones.
pub fn channel_of(rng: &mut Rng, plan: Plan, bad: Set, rounds: Option<u32>) -> Channel {
    let value = rng.pick(&LAYOUTS);
    let default = match rng.chance(15) {
        true => value,
        false => rng.pick(&LAYOUTS),
    };
    let mut channel = Channel {
        plan,
        bad,
        value,
        default,
        rounds,
        words: BTreeMap::new(),
    };
    speak(rng, &mut channel);
    channel
}

/// Few layouts, so that liars agree by chance with each other, the source or the default.
fn speak(rng: &mut Rng, channel: &mut Channel) {
    let above = channel.value.checked_add(1).unwrap_or(8);
    let below = channel.default.max(2) - 1;
    let layouts = [channel.value, channel.default, above, below, 9];
    for from in channel.bad.clone() {
        let speech = match from == channel.plan.source {
            true => rng.pick(&OF_SOURCE),
            false => rng.pick(&OF_OTHERS),
        };
        let main = rng.pick(&layouts);
        for round in 1..=channel.played().min(41) {
            let any = rng.pick(&layouts);
            let said = match speech {
                Speech::Silent => None,
                Speech::Once => (round == 1).then_some(main),
                Speech::Late => (round > 1 && rng.chance(70)).then_some(main),
                Speech::Steady => Some(main),
                Speech::Changing => Some(layouts[(round as usize + from as usize) % 5]),
                Speech::Wild => rng.chance(50).then_some(any),
            };
            if let Some(layout) = said {
                channel.words.insert((round, from), layout);
            }
        }
    }
}

/// Every bad terminal says a new layout in each of so many rounds, until rows are full.
pub fn flooded_channel(rng: &mut Rng, rounds: u32) -> Channel {
    let (plan, bad) = loop {
        let n = rng.between(4, 6);
        let plan = thin_plan(rng, n);
        let mut bad = random_bad_set(rng, &plan, 100);
        bad.extend(rng.pick(&[None, Some(plan.source)]));
        let mut links = plan.links.iter();
        if links.any(|(from, to)| bad.contains(from) && !bad.contains(to)) {
            break (plan, bad);
        }
    };
    let mut channel = channel_of(rng, plan, bad, Some(rounds));
    for from in channel.bad.clone() {
        let layout = |round: u32| 10_000 + 100 * from as u16 + round as u16;
        let words = (1..=rounds).map(|round| ((round, from), layout(round)));
        channel.words.extend(words);
    }
    channel
}
