//! What to add to a plan that fails: the fewest links, or a repeater. What is printed can be put
//! under the plan's text: the first way as lines, the others as comments.

use crate::ask::Programs;
use crate::document::Document;
use crate::frames::Plan;
use crate::groups::MOST_GROUPS;
use crate::search::{clear_progress, Link, Mends, Search};
use crate::shown;
use crate::Trouble;
use std::collections::BTreeSet;

const MOST_TERMINALS: u8 = 20;
/// How many further ways are listed.
const WAYS: usize = 20;

/// Within so many calls of the verdict for links, and as many for a repeater.
pub fn mend(document: &Document, limit: usize, programs: &Programs) -> Result<String, Trouble> {
    let plan = programs.accepted_plan(document)?;
    if !programs.verdict(&plan.to_frames())?.fails {
        return Ok("# this plan passes: nothing to mend\n".into());
    }
    let text = links(&plan, limit, programs)? + &repeater(&plan, limit, programs)?;
    clear_progress();
    Ok(text)
}

/// The links of the first way that is found; empty for a plan that passes.
pub fn first_way(plan: &Plan, programs: &Programs) -> Result<Vec<Link>, Trouble> {
    if !programs.verdict(&plan.to_frames())?.fails {
        return Ok(Vec::new());
    }
    let mut search = Search::new(programs, plan, missing(plan));
    let mends = search.fewest()?;
    let way = match mends.sets.into_iter().next() {
        Some(way) => Some(way),
        None => search.enough()?,
    };
    clear_progress();
    Ok(way.unwrap_or_default())
}

fn missing(plan: &Plan) -> BTreeSet<Link> {
    let all = (0..plan.terminals).flat_map(|from| (0..plan.terminals).map(move |to| (from, to)));
    all.filter(|link| link.0 != link.1 && !plan.links.contains(link))
        .collect()
}

fn links(plan: &Plan, limit: usize, programs: &Programs) -> Result<String, Trouble> {
    let mut search = Search::new(programs, plan, missing(plan));
    search.limit = limit;
    let mends = search.fewest()?;
    let Some((first, others)) = mends.sets.split_first() else {
        let some = search.enough()?.unwrap_or_default();
        return Ok(some_links(&mends, limit, &some));
    };
    let are = if first.len() == 1 {
        "link is"
    } else {
        "links are"
    };
    let mut text = format!(
        "# {} new {are} enough, and no fewer (asked {} times{})\n",
        first.len(),
        search.calls,
        ways(&mends)
    );
    text += &shown::links(first);
    for way in others.iter().take(WAYS) {
        text += &format!("# or {}\n", commas(way));
    }
    if others.len() > WAYS {
        text += &format!("# and {} more ways\n", others.len() - WAYS);
    }
    Ok(text)
}

/// Where the limit came first.
fn some_links(mends: &Mends, limit: usize, some: &[Link]) -> String {
    let settled = match mends.none_of {
        0 => String::new(),
        1 => "no single link is enough; ".into(),
        more => format!("no {more} links are enough; "),
    };
    let head = format!(
        "# {settled}the fewest were not found within {limit} calls of the verdict. These {} are enough, and none of them can be left out:\n",
        some.len()
    );
    head + &shown::links(some)
}

fn ways(mends: &Mends) -> String {
    match (mends.sets.len(), mends.complete) {
        (1, true) => "; the only way".into(),
        (all, true) => format!("; {all} ways in all"),
        (_, false) => "; there may be more ways".into(),
    }
}

fn commas(links: &[Link]) -> String {
    let words: Vec<String> = links
        .iter()
        .map(|(from, to)| format!("{from} > {to}"))
        .collect();
    words.join(", ")
}

/// The plan with one terminal more. A new board may fail as any other: where the plan lists groups
/// it has one of its own, as with its own supply, since in no group it would be taken to be good.
/// None where there is no room for that group.
fn with_repeater(plan: &Plan) -> Option<Plan> {
    if plan.limit.groups().len() == MOST_GROUPS {
        return None;
    }
    let mut plan = plan.clone();
    plan.limit.add_group(vec![plan.terminals]);
    plan.terminals += 1;
    Some(plan)
}

/// One more terminal, and links from and to it alone.
fn repeater(plan: &Plan, limit: usize, programs: &Programs) -> Result<String, Trouble> {
    let own = plan.terminals;
    if own == MOST_TERMINALS {
        return Ok("# a repeater would be terminal 20, and 0 to 19 are the most\n".into());
    }
    let Some(plan) = with_repeater(plan) else {
        return Ok("# a repeater would be a seventeenth group, and 16 are the most\n".into());
    };
    let pool = (0..own).flat_map(|other| [(other, own), (own, other)]);
    let mut search = Search::new(programs, &plan, pool.collect());
    search.limit = limit;
    let Some(some) = search.enough()? else {
        return Ok("# no repeater is enough, wherever it stands\n".into());
    };
    let mends = search.fewest()?;
    let (way, fewest) = match mends.sets.first() {
        Some(way) => (way, "no fewer"),
        None => (&some, "none of them can be left out"),
    };
    let (apart, group) = match plan.limit.groups().last() {
        Some(group) => (", in a group of its own", shown::group(group)),
        None => ("", String::new()),
    };
    let head = format!(
        "# or a repeater, terminal {own}{apart}: {} links are enough, and {fewest} (asked {} times)\n",
        way.len(),
        search.calls
    );
    let lines = format!("terminals {}\n{group}{}", plan.terminals, shown::links(way));
    let lines = lines.lines().map(|line| format!("#   {line}\n"));
    Ok(head + &lines.collect::<String>())
}
