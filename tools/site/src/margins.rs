//! How close each terminal is to trouble: the table of the proved `margins`, read and put in words.
//! A margin is how many reached neighbours a terminal hears, less those that it needs, at its least
//! over all bad sets that leave it good. It is no count of links that may go: without one of them
//! other sets may be bad.

use crate::document::{Document, Extras};
use crate::groups::Limit;
use crate::{ask::Programs, Trouble};

/// None where the terminal hears the source.
type Margin = Option<i16>;

/// By terminal, ascending; empty where a plan has none.
#[derive(Default)]
pub struct Margins(Vec<(u8, Margin)>);

impl Margins {
    /// A line for each terminal, and under them one of four counts.
    pub fn read(printed: &str) -> Option<Margins> {
        let mut lines: Vec<&str> = printed.lines().collect();
        let counts = lines.pop()?.split(' ').map(str::parse::<u8>);
        let counts: Vec<u8> = counts.collect::<Result<_, _>>().ok()?;
        let margins: Option<Vec<(u8, Margin)>> = lines.into_iter().map(line).collect();
        (counts.len() == 4).then_some(Margins(margins?))
    }

    pub fn of(&self, terminal: u8) -> Option<i16> {
        let (_, margin) = self.counted().find(|(one, _)| *one == terminal)?;
        Some(margin)
    }

    fn counted(&self) -> impl Iterator<Item = (u8, i16)> + '_ {
        let counted = |(terminal, margin): &(u8, Margin)| Some((*terminal, (*margin)?));
        self.0.iter().filter_map(counted)
    }

    fn direct(&self) -> Vec<u8> {
        let those = self.0.iter().filter(|(_, margin)| margin.is_none());
        those.map(|(terminal, _)| *terminal).collect()
    }

    /// The least margin, and who has it.
    pub fn thinnest(&self) -> Option<(i16, Vec<u8>)> {
        let least = self.counted().map(|(_, margin)| margin).min()?;
        let those = self.counted().filter(|(_, margin)| *margin == least);
        Some((least, those.map(|(terminal, _)| terminal).collect()))
    }

    /// Where the fitter looks comes first.
    fn in_words(&self, extras: &Extras, needed: u8) -> Vec<String> {
        let mut counted: Vec<(u8, i16)> = self.counted().collect();
        if counted.is_empty() {
            return vec!["margins: none, since every terminal hears the source (direct)".into()];
        }
        counted.sort_by_key(|(_, margin)| *margin);
        let mut told = vec![format!(
            "margins, thinnest first (reached neighbours heard, less the {needed} needed, at the worst bad set):"
        )];
        told.extend(counted.into_iter().map(|(terminal, margin)| {
            let called = extras.called(terminal);
            format!("terminal {called}: {margin}, {}", meaning(margin))
        }));
        let direct = self.direct();
        if !direct.is_empty() {
            told.push(format!(
                "hear the source (direct): {}",
                extras.listed(&direct)
            ));
        }
        told
    }
}

fn line(line: &str) -> Option<(u8, Margin)> {
    let (terminal, margin) = line.split_once(' ')?;
    let margin = match margin {
        "direct" => None,
        number => Some(number.parse().ok()?),
    };
    Some((terminal.parse().ok()?, margin))
}

pub fn meaning(margin: i16) -> String {
    match margin {
        ..=-1 => "can be kept waiting".into(),
        0 => "just enough".into(),
        more => format!("{more} more than it needs"),
    }
}

/// Under a verdict; nothing where the plan lists groups.
pub fn told(document: &Document, programs: &Programs) -> Result<Vec<String>, Trouble> {
    let plan = document.plan();
    let Limit::Bound(bound) = plan.limit else {
        return Ok(Vec::new());
    };
    let margins = programs.margins(&plan)?;
    let lines = margins.map(|margins| margins.in_words(&document.extras, bound + 1));
    Ok(lines.unwrap_or_default())
}
