//! The text form: three lines for the head, or two and the groups; links, names and places, and a
//! run under the plan. docs/help/text.txt has it for people.

use crate::document::Extras;
use crate::frames::{self, Word};
use crate::groups::LISTED;
use crate::notice::{Later, Notice};
use crate::numbers::{bound, byte, layout, measure, notice, number, quoted, set};
use std::collections::BTreeSet;

const HEAD: [&str; 3] = ["terminals", "source", "bound"];
/// The same as they are asked for where they are missing.
const WANTED: [&str; 3] = [
    "'terminals NUMBER'",
    "'source NUMBER'",
    "'bound NUMBER' or 'group TERMINAL..'",
];
const NOT_BOTH: &str = "a plan has a bound or groups, not both";
const ALL_OR_NONE: &str = "a run has an edition with every layout, or with none";
const NO_HEARER: &str = "a word on it reaches all who hear the sender, and names nobody";
const NO_EDITION: &str = "a run on it has one notice, without an edition";

/// Where a part of the text stands, to be told of where it is refused.
#[derive(Clone)]
pub struct Place {
    pub line: usize,
    pub words: String,
}

struct Part<T> {
    place: Place,
    is: T,
}

/// The head's parts by their place in `HEAD`, and the others in the order given. There is a bound
/// or a group, and not both; of a drawing there may be neither.
#[derive(Default)]
pub struct Draft {
    head: [Option<Part<u8>>; 3],
    groups: Vec<Part<u32>>,
    links: Vec<Part<(u8, u8)>>,
    /// The line that says that all share one channel, wherever it stands.
    shared: Option<usize>,
    /// And the default layout that it has.
    default: Option<Part<u16>>,
    /// A drawing alone: the bound may be left out, as it is not looked at.
    is_drawing: bool,
    bad: Option<Part<u32>>,
    /// The first notice, in 'value'.
    start: Option<Part<Notice>>,
    rounds: Option<Part<u8>>,
    later: Vec<Part<Later>>,
    says: Vec<Part<Word>>,
    /// The first line with a notice, and whether it has an edition.
    form: Option<(usize, bool)>,
    pub extras: Extras,
}

pub fn read(text: &str, is_drawing: bool) -> Result<Draft, String> {
    let mut draft = Draft {
        shared: shared_line(text),
        is_drawing,
        ..Draft::default()
    };
    for (line, text) in (1..).zip(text.lines()) {
        let text = without_comment(text).trim();
        let taken = if text.is_empty() {
            Ok(())
        } else {
            draft.take(line, text)
        };
        taken.map_err(|why| format!("line {line}: {why}"))?;
    }
    if let Some(wanted) = draft.missing() {
        return Err(format!("end of the file: expected {wanted}"));
    }
    if draft.start.is_none() && draft.has_run_part() {
        return Err("end of the file: expected 'value NUMBER', since it has a run".into());
    }
    Ok(draft)
}

/// What a word is depends on it, so it is looked for first.
fn shared_line(text: &str) -> Option<usize> {
    let is_it = |text: &str| without_comment(text).split_whitespace().next() == Some("shared");
    let place = text.lines().position(is_it)?;
    Some(place + 1)
}

/// A '#' in quotes is part of a name.
fn without_comment(line: &str) -> &str {
    let mut quoted = false;
    for (place, character) in line.char_indices() {
        match character {
            '"' => quoted = !quoted,
            '#' if !quoted => return &line[..place],
            _ => {}
        }
    }
    line
}

impl Draft {
    fn missing(&self) -> Option<&'static str> {
        let [terminals, source, bound] = &self.head;
        let limit = self.is_drawing || bound.is_some() || !self.groups.is_empty();
        let there = [terminals.is_some(), source.is_some(), limit];
        let place = there.iter().position(|is| !is)?;
        Some(WANTED[place])
    }

    fn has_run_part(&self) -> bool {
        let lines = !self.later.is_empty() || !self.says.is_empty();
        self.default.is_some() || self.bad.is_some() || self.rounds.is_some() || lines
    }

    fn take(&mut self, line: usize, text: &str) -> Result<(), String> {
        let (word, rest) = text.split_once(char::is_whitespace).unwrap_or((text, ""));
        let rest = rest.trim();
        match (HEAD.iter().position(|known| *known == word), word) {
            (Some(2), _) => return self.take_bound(line, text, rest),
            (Some(place), _) => {
                return take_once(&mut self.head[place], line, text, byte(word, rest)?)
            }
            (None, "group") => return self.take_group(line, text, rest),
            _ => {}
        }
        let starts_with_letter = text.starts_with(|c: char| c.is_ascii_alphabetic());
        if let Some(missing) = self.missing() {
            return match (word, starts_with_letter) {
                ("site", _) => self.take_site(rest),
                (_, false) if text.contains(['>', '-']) => {
                    Err(format!("expected {missing} before the first link"))
                }
                (known, _) if LATER.contains(&known) => {
                    Err(format!("expected {missing} before '{word}'"))
                }
                _ => Err(unknown(text)),
            };
        }
        match word {
            "site" => self.take_site(rest),
            "name" => self.take_name(rest),
            "at" => self.take_place(rest),
            "shared" => take_once(&mut self.default, line, text, default_of(rest)?),
            "bad" => take_once(&mut self.bad, line, text, set(word, rest)?),
            "value" => self.take_start(line, text, rest),
            "rounds" => take_once(&mut self.rounds, line, text, byte(word, rest)?),
            "round" if rest.contains("issues") => self.take_later(line, rest),
            "round" => self.take_words(line, rest),
            _ if starts_with_letter => Err(unknown(text)),
            _ => self.take_links(line, text),
        }
    }

    fn take_bound(&mut self, line: usize, text: &str, rest: &str) -> Result<(), String> {
        let number = bound(rest)?;
        if let Some(group) = self.groups.first() {
            let given = group.place.line;
            return Err(format!(
                "'bound', and line {given} has a 'group': {NOT_BOTH}"
            ));
        }
        take_once(&mut self.head[2], line, text, number)
    }

    fn take_group(&mut self, line: usize, text: &str, rest: &str) -> Result<(), String> {
        let is = set("group", rest)?;
        if let Some(bound) = &self.head[2] {
            let given = bound.place.line;
            return Err(format!(
                "'group', and line {given} has the 'bound': {NOT_BOTH}"
            ));
        }
        let place = place_of(line, text);
        self.groups.push(Part { place, is });
        Ok(())
    }

    fn take_links(&mut self, line: usize, text: &str) -> Result<(), String> {
        let sign = match (text.find('>'), text.find('-')) {
            (Some(one), Some(other)) if other < one => '-',
            (Some(_), _) => '>',
            (None, Some(_)) => '-',
            (None, None) => return Err(unknown(text)),
        };
        let (sender, hearers) = text.split_once(sign).expect("the sign was found");
        let sender = sender.trim();
        let from = number(sender, &format!("one terminal before '{sign}'"))?;
        if hearers.trim().is_empty() {
            return Err(format!("expected a terminal after '{sign}', found nothing"));
        }
        for hearer in hearers.split_whitespace() {
            let to = number(hearer, &format!("a terminal after '{sign}'"))?;
            let words = format!("{sender} {sign} {hearer}");
            let place = Place { line, words };
            let mut push = |is| {
                let place = place.clone();
                self.links.push(Part { place, is });
            };
            push((from, to));
            if sign == '-' {
                push((to, from));
            }
        }
        Ok(())
    }

    /// An error where all share one channel, on which there is no such thing.
    fn not_on_shared(&self, what: &str, rule: &str) -> Result<(), String> {
        match self.shared {
            Some(given) => Err(format!(
                "{what}, and line {given} has a shared channel: {rule}"
            )),
            None => Ok(()),
        }
    }

    /// A line's notice; whether it has an edition is as in the lines before.
    fn notice(&mut self, line: usize, word: &str, text: &str) -> Result<Notice, String> {
        let notice = notice(word, text)?;
        let has = notice.edition.is_some();
        if has {
            self.not_on_shared("an edition", NO_EDITION)?;
        }
        match *self.form.get_or_insert((line, has)) {
            (given, false) if has => Err(format!(
                "an edition, and line {given} has none: {ALL_OR_NONE}"
            )),
            (given, true) if !has => Err(format!(
                "no edition, and line {given} has one: {ALL_OR_NONE}"
            )),
            _ => Ok(notice),
        }
    }

    fn take_start(&mut self, line: usize, text: &str, rest: &str) -> Result<(), String> {
        let notice = self.notice(line, "value", rest)?;
        take_once(&mut self.start, line, text, notice)
    }

    /// After 'round': `2: source issues 8 edition 2`.
    fn take_later(&mut self, line: usize, text: &str) -> Result<(), String> {
        self.not_on_shared("a later notice", NO_EDITION)?;
        let form = "expected 'round NUMBER: source issues LAYOUT edition NUMBER'";
        let (round, rest) = text.split_once(':').ok_or(form)?;
        let (who, rest) = rest.split_once("issues").ok_or(form)?;
        let (round, who, issued) = (round.trim(), who.trim(), rest.trim());
        if who != "source" || !issued.contains("edition") {
            return Err(form.into());
        }
        let is = Later {
            round: number(round, "a round after 'round'")?,
            notice: self.notice(line, "issues", issued)?,
        };
        let place = place_of(line, &format!("round {round}: source issues {issued}"));
        self.later.push(Part { place, is });
        Ok(())
    }

    /// After 'round': `2: 3 says 9 to 6 7`, or `2: 3 says 9 edition 2 to 6 7`; on a shared channel
    /// `2: 3 says 9`.
    fn take_words(&mut self, line: usize, text: &str) -> Result<(), String> {
        let form = match self.shared {
            Some(_) => "expected 'round NUMBER: TERMINAL says LAYOUT'",
            None => "expected 'round NUMBER: TERMINAL says LAYOUT to TERMINAL'",
        };
        let (round, rest) = text.split_once(':').ok_or(form)?;
        let (from, rest) = rest.split_once("says").ok_or(form)?;
        let (round, from) = (round.trim(), from.trim());
        let (said, hearers) = match rest.split_once("to") {
            Some(parts) => {
                self.not_on_shared("a hearer", NO_HEARER)?;
                parts
            }
            None if self.shared.is_some() => {
                return self.take_word(line, [round, from, rest.trim()], None)
            }
            None => return Err(form.into()),
        };
        if hearers.trim().is_empty() {
            return Err("expected a terminal after 'to', found nothing".into());
        }
        for hearer in hearers.split_whitespace() {
            self.take_word(line, [round, from, said.trim()], Some(hearer))?;
        }
        Ok(())
    }

    /// A round, a sender and what it says, to a hearer where one is named.
    fn take_word(
        &mut self,
        line: usize,
        [round, from, said]: [&str; 3],
        to: Option<&str>,
    ) -> Result<(), String> {
        let hearer = |to: &str| number(to, "a terminal after 'to'");
        let is = Word {
            round: number(round, "a round after 'round'")?,
            from: number(from, "one terminal before 'says'")?,
            to: to.map(hearer).transpose()?,
            notice: self.notice(line, "says", said)?,
        };
        let to = to.map(|to| format!(" to {to}")).unwrap_or_default();
        let place = place_of(line, &format!("round {round}: {from} says {said}{to}"));
        self.says.push(Part { place, is });
        Ok(())
    }

    fn take_site(&mut self, text: &str) -> Result<(), String> {
        let name = quoted(text)?;
        match self.extras.site.replace(name) {
            Some(_) => Err("expected 'site' once".into()),
            None => Ok(()),
        }
    }

    fn take_name(&mut self, text: &str) -> Result<(), String> {
        let (terminal, name) = text.split_once(char::is_whitespace).unwrap_or((text, ""));
        let terminal = self.known(terminal, "name")?;
        match self.extras.names.insert(terminal, quoted(name.trim())?) {
            Some(_) => Err(format!("expected one name of {terminal}")),
            None => Ok(()),
        }
    }

    fn take_place(&mut self, text: &str) -> Result<(), String> {
        let words: Vec<&str> = text.split_whitespace().collect();
        let [terminal, x, y] = words[..] else {
            return Err("expected 'at TERMINAL ACROSS DOWN'".into());
        };
        let terminal = self.known(terminal, "at")?;
        let spot = (measure(x)?, measure(y)?);
        let mut others = self.extras.places.iter();
        let same = others.find(|(_, (x, y))| measure(x) == Ok(spot.0) && measure(y) == Ok(spot.1));
        if let Some((other, _)) = same {
            return Err(format!("{other} stands at {x} {y} already"));
        }
        let written = (x.to_string(), y.to_string());
        match self.extras.places.insert(terminal, written) {
            Some(_) => Err(format!("expected one place of {terminal}")),
            None => Ok(()),
        }
    }

    /// A terminal with a name or a place: no frame has these, so no program can refuse it.
    fn known(&self, word: &str, what: &str) -> Result<u8, String> {
        let terminal = number(word, &format!("a terminal after '{what}'"))?;
        match self.head[0].as_ref().map_or(0, |part| part.is) {
            terminals if terminal < terminals => Ok(terminal),
            terminals => Err(format!(
                "'{what} {word}', and the terminals are 0 to {}",
                terminals.saturating_sub(1)
            )),
        }
    }

    /// Each frame with its places in the text, and how many frames are the plan's.
    pub fn frames(&self) -> (Vec<(String, Vec<Place>)>, usize) {
        let mut lines = vec![self.head_frame()];
        for Part { place, is } in &self.links {
            lines.push((frames::link(is.0, is.1), vec![place.clone()]));
        }
        for Part { place, is } in &self.groups {
            lines.push((frames::group(*is), vec![place.clone()]));
        }
        let plan_lines = lines.len();
        if let Some(start) = &self.start {
            lines.extend(self.run_frames(start));
        }
        (lines, plan_lines)
    }

    /// Where groups are listed, the first of them is the place of the third number. A drawing without
    /// a bound has 0 for it.
    fn head_frame(&self) -> (String, Vec<Place>) {
        let [Some(terminals), Some(source), bound] = &self.head else {
            unreachable!("nothing is missing");
        };
        let (limit, limit_at) = match (bound, self.groups.first()) {
            (Some(bound), _) => (bound.is, Some(&bound.place)),
            (None, Some(group)) => (LISTED, Some(&group.place)),
            (None, None) => (0, None),
        };
        let given = [Some(&terminals.place), Some(&source.place), limit_at];
        let places = given.into_iter().flatten().cloned();
        (
            frames::head(terminals.is, source.is, limit),
            places.collect(),
        )
    }

    /// Without a 'bad' line nobody is bad. A default layout stands before the bad set. Later notices
    /// stand in the order of their rounds, and those of one round in the order given.
    fn run_frames(&self, start: &Part<Notice>) -> Vec<(String, Vec<Place>)> {
        let (set, place) = match &self.bad {
            Some(bad) => (bad.is, &bad.place),
            None => (0, &start.place),
        };
        let rounds = self.rounds.as_ref().map(|rounds| rounds.is);
        let mut places = vec![start.place.clone()];
        places.extend(self.rounds.iter().map(|rounds| rounds.place.clone()));
        let mut lines = Vec::new();
        if let Some(Part { place, is }) = &self.default {
            lines.push((frames::channel(*is), vec![place.clone()]));
        }
        lines.push((frames::bad_set(set), vec![place.clone()]));
        lines.push((frames::start(start.is, rounds), places));
        let mut later: Vec<&Part<Later>> = self.later.iter().collect();
        later.sort_by_key(|part| part.is.round);
        for Part { place, is } in later {
            lines.push((frames::later(*is), vec![place.clone()]));
        }
        for Part { place, is } in &self.says {
            lines.push((frames::word(*is), vec![place.clone()]));
        }
        lines
    }

    /// Links without their other direction, where most links have theirs.
    pub fn warnings(&self) -> Vec<String> {
        let links: BTreeSet<(u8, u8)> = self.links.iter().map(|part| part.is).collect();
        let one_way =
            |&&Part { is: (from, to), .. }: &&Part<(u8, u8)>| !links.contains(&(to, from));
        let alone: Vec<String> = self
            .links
            .iter()
            .filter(one_way)
            .map(
                |Part {
                     place,
                     is: (from, to),
                 }| format!("{from} > {to} (line {})", place.line),
            )
            .collect();
        if alone.is_empty() || 2 * alone.len() >= self.links.len() {
            return Vec::new();
        }
        vec![format!(
            "warning: most links here are two-way, and these are not: {}",
            alone.join(", ")
        )]
    }
}

/// Words that come after the head.
const LATER: [&str; 7] = ["name", "at", "shared", "bad", "value", "rounds", "round"];

fn unknown(text: &str) -> String {
    format!(
        "expected 'terminals', 'source', 'bound', a link 'A > B' or 'A - B', or a word of './hulmayek help text', found '{text}'"
    )
}

/// After 'shared': `channel, default 7`. The comma may be left out.
fn default_of(text: &str) -> Result<u16, String> {
    let words: Vec<&str> = text.split_whitespace().collect();
    match &words[..] {
        ["channel" | "channel,", "default", rest @ ..] => layout("default", &rest.join(" ")),
        _ => Err("expected 'shared channel, default LAYOUT'".into()),
    }
}

fn take_once<T>(part: &mut Option<Part<T>>, line: usize, text: &str, is: T) -> Result<(), String> {
    let place = place_of(line, text);
    if let Some(first) = part {
        let (given, word) = (
            first.place.line,
            place.words.split(' ').next().unwrap_or_default(),
        );
        return Err(format!("expected '{word}' once, and line {given} has it"));
    }
    *part = Some(Part { place, is });
    Ok(())
}

/// A whole line, with single blanks.
fn place_of(line: usize, text: &str) -> Place {
    let words = text.split_whitespace().collect::<Vec<_>>().join(" ");
    Place { line, words }
}
