//! The drawings A to J of the specification, and drawing F with groups, with their outcomes.

use crate::groups::Bound;
use crate::plan::{Plan, Set};

/// F, L and R of a failing plan.
pub type Witness = (&'static [u32], &'static [u32], &'static [u32]);

pub enum Outcome {
    Pass,
    Fail(Witness),
    /// The number of the refusal.
    Refused(u8),
}

pub struct Drawing {
    pub name: char,
    pub n: u32,
    pub f: u32,
    /// Groups instead of f, where there are some.
    pub groups: &'static [&'static [u32]],
    pub links: &'static str,
    pub outcome: Outcome,
}

const FAN: &str = "0>1 0>2 0>3 1>4 2>4 3>4";
const PAIR: &str = "0>1 0>2 0>3 0>4 1>5 2>5 6>5 3>6 4>6 5>6";
const PAIR_HEARD: &str = "0>1 0>2 0>3 0>4 1>5 2>5 6>5 3>6 4>6 5>6 1>0 2>0 3>0 4>0";

const fn drawing(name: char, n: u32, f: u32, links: &'static str, outcome: Outcome) -> Drawing {
    Drawing {
        name,
        n,
        f,
        groups: &[],
        links,
        outcome,
    }
}

const fn grouped(groups: &'static [&'static [u32]], drawing: Drawing) -> Drawing {
    Drawing { groups, ..drawing }
}

pub const DRAWINGS: [Drawing; 12] = [
    drawing('A', 2, 0, "0>1", Outcome::Pass),
    drawing('B', 2, 0, "", Outcome::Fail((&[], &[0], &[1]))),
    drawing('C', 3, 0, "0>1 1>2", Outcome::Pass),
    drawing('D', 3, 1, "0>1 1>2", Outcome::Fail((&[], &[0, 1], &[2]))),
    drawing(
        'E',
        4,
        1,
        "0>1 0>2 1>3 2>3",
        Outcome::Fail((&[1], &[0, 2], &[3])),
    ),
    drawing('F', 5, 1, FAN, Outcome::Pass),
    drawing('G', 5, 2, FAN, Outcome::Fail((&[1], &[0, 2, 3], &[4]))),
    drawing(
        'H',
        7,
        1,
        PAIR,
        Outcome::Fail((&[1, 3], &[0, 2, 4], &[5, 6])),
    ),
    drawing('I', 7, 1, PAIR_HEARD, Outcome::Pass),
    drawing('J', 1, 0, "", Outcome::Refused(4)),
    grouped(
        &[&[1, 2], &[3]],
        drawing('F', 5, 0, FAN, Outcome::Fail((&[3], &[0, 1, 2], &[4]))),
    ),
    grouped(&[&[1], &[2], &[3]], drawing('F', 5, 0, FAN, Outcome::Pass)),
];

impl Drawing {
    pub fn plan(&self) -> Plan {
        let members = |group: &&[u32]| group.iter().copied().collect();
        let groups: Vec<Set> = self.groups.iter().map(members).collect();
        let bound = match self.groups {
            [] => Bound::f(self.f),
            _ => Bound::groups(&groups),
        };
        let mut plan = Plan::with(self.n, 0, bound);
        for link in self.links.split_whitespace() {
            let ends: Vec<u32> = link
                .split('>')
                .map(|end| end.parse().unwrap_or(0))
                .collect();
            plan.links.insert((ends[0], ends[1]));
        }
        plan
    }
}
