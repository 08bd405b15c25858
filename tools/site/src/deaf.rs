//! The proved `run` refuses a plan with a deaf terminal, one other than the source that hears
//! nobody. What silence does on such a plan is asked of another, in which everybody hears somebody
//! and all whose state is in question do the same:
//!
//! - A bad one that hears nobody is given a link from the source. What a bad one hears changes
//!   nothing of what it says, which is silence.
//! - A good one that hears nobody never has the notice and never says a word. So nobody misses its
//!   own links, and they are dropped. It is given a link from the source, by which it has the
//!   notice and nobody to pass it on to; on the plan as it is it waits, and so it is told.
//!
//! Dropped links may leave others that hear nobody, so this is done until there is none; each
//! then hears the source for good. The bound is held or broken as before: it counts links from bad
//! terminals to good ones, and no such link comes or goes. Groups do not look at links at all.

use crate::frames::{Plan, State};

pub struct Hearing {
    /// Without a deaf terminal.
    pub plan: Plan,
    /// Good ones that never have the notice on the plan as it is.
    waiting: Vec<u8>,
}

impl Hearing {
    pub fn of(plan: &Plan, bad: &[u8]) -> Hearing {
        let mut hearing = Hearing {
            plan: plan.clone(),
            waiting: Vec::new(),
        };
        loop {
            let deaf = hearing.plan.deaf();
            if deaf.is_empty() {
                return hearing;
            }
            for terminal in deaf {
                hearing.give_link(terminal, bad.contains(&terminal));
            }
        }
    }

    fn give_link(&mut self, terminal: u8, is_bad: bool) {
        if !is_bad {
            self.plan.links.retain(|(from, _)| *from != terminal);
            self.waiting.push(terminal);
        }
        self.plan.links.push((self.plan.source, terminal));
    }

    /// The states on the plan as it is, from those on the other.
    pub fn states(&self, played: Vec<(u8, State)>) -> Vec<(u8, State)> {
        let as_it_is = |(terminal, state)| match self.waiting.contains(&terminal) {
            true => (terminal, State::Waiting),
            false => (terminal, state),
        };
        played.into_iter().map(as_it_is).collect()
    }
}
