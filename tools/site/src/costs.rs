//! What a link costs: the greatest bound for which a drawing passes, and what is left of it without
//! the link. All is asked of the proved `greatest`, once of the drawing and once without each link.
//! A drawing is a plan without its bound, which `greatest` does not look at.

use crate::ask::Programs;
use crate::document::{Document, Extras};
use crate::frames::{Answer, Plan};
use crate::groups::Limit;
use crate::search::{clear_progress, show_progress, Link};
use crate::Trouble;

/// None where the drawing fails for 0, which is one below it.
pub type Greatest = Option<u8>;

/// In decimal, or the word.
pub fn read(printed: &str) -> Option<Greatest> {
    match printed.strip_suffix('\n')? {
        "none" => Some(None),
        number => Some(Some(number.parse().ok()?)),
    }
}

fn named(greatest: Greatest) -> String {
    greatest.map_or("none".into(), |bound| bound.to_string())
}

fn in_words(greatest: Greatest) -> String {
    match greatest {
        Some(bound) => format!("the greatest bound for which this drawing passes is {bound}"),
        None => "this drawing fails for every bound, even for 0".into(),
    }
}

pub struct Costs {
    whole: Greatest,
    /// Each link with the greatest bound without it, by sender and then by hearer.
    without: Vec<(Link, Greatest)>,
}

impl Costs {
    /// Of an accepted plan. A drawing that fails for 0 has nothing to lose, so no link of it is asked.
    fn of(whole: Greatest, plan: &Plan, programs: &Programs) -> Result<Costs, Trouble> {
        let mut without = Vec::new();
        let mut links = plan.links.clone();
        links.sort_unstable();
        if whole.is_none() {
            links.clear();
        }
        for link in &links {
            show_progress(without.len() + 1, links.len());
            let mut rest = plan.clone();
            rest.links.retain(|one| one != link);
            without.push((*link, programs.greatest(&rest)?));
        }
        clear_progress();
        Ok(Costs { whole, without })
    }

    /// Of a plan's picture; none where it lists groups.
    pub fn of_plan(plan: &Plan, programs: &Programs) -> Result<Option<Costs>, Trouble> {
        if let Limit::Groups(_) = plan.limit {
            return Ok(None);
        }
        let whole = programs.greatest(plan)?;
        Costs::of(whole, plan, programs).map(Some)
    }

    /// How many steps down; from 0 to none is one.
    fn cost(&self, without: Greatest) -> u8 {
        let steps = |greatest: Greatest| greatest.map_or(0, |bound| bound + 1);
        steps(self.whole).saturating_sub(steps(without))
    }

    /// The links that cost the most, if they cost anything.
    pub fn dearest(&self) -> Vec<Link> {
        let Some(least) = self.least().filter(|least| *least < self.whole) else {
            return Vec::new();
        };
        let those = self.without.iter().filter(|(_, left)| *left == least);
        those.map(|(link, _)| *link).collect()
    }

    /// What is left without one of the dearest.
    fn least(&self) -> Option<Greatest> {
        self.without.iter().map(|(_, left)| *left).min()
    }

    /// What the dearest links do, for a picture's legend.
    pub fn fall(&self) -> String {
        let least = self.least().unwrap_or(self.whole);
        format!("from {} to {}", named(self.whole), named(least))
    }

    /// Those that cost something, dearest first; the others by sender, since they are many.
    fn in_words(&self, extras: &Extras) -> String {
        let mut text = in_words(self.whole) + "\n";
        if self.whole.is_none() {
            text += "no link costs anything, since there is nothing to lose\n";
        }
        let (mut dear, free): (Vec<_>, Vec<_>) = self
            .without
            .iter()
            .partition(|(_, left)| *left < self.whole);
        dear.sort_by_key(|(_, left)| *left);
        for ((from, to), left) in dear {
            let (from, to) = (extras.called(from), extras.called(to));
            let (left, cost) = (named(left), self.cost(left));
            text += &format!("{from} > {to}: {left} without it (costs {cost})\n");
        }
        if !free.is_empty() {
            text += &format!("cost nothing, each by itself ({}):\n", free.len());
        }
        for links in free.chunk_by(|(one, _), (next, _)| one.0 == next.0) {
            let hearers: Vec<u8> = links.iter().map(|((_, to), _)| *to).collect();
            let from = extras.called(links[0].0 .0);
            text += &format!("  {from} > {}\n", extras.listed(&hearers));
        }
        text
    }
}

/// The word `links`.
pub fn links(document: &Document, programs: &Programs) -> Result<String, Trouble> {
    let whole = match programs.ask("greatest", document.plan_frames())?.1 {
        Answer::Greatest(whole) => whole,
        Answer::Refused(refusal) => return Err(document.refused("greatest", &refusal)),
        _ => return Err(Trouble::Broken("'greatest' gave no bound".into())),
    };
    let costs = Costs::of(whole, &document.plan(), programs)?;
    Ok(costs.in_words(&document.extras))
}

/// Under a verdict; nothing where the plan lists groups.
pub fn told(document: &Document, programs: &Programs) -> Result<Option<String>, Trouble> {
    let plan = document.plan();
    if let Limit::Groups(_) = plan.limit {
        return Ok(None);
    }
    Ok(Some(in_words(programs.greatest(&plan)?)))
}
