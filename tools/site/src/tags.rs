//! Small words by a terminal in a picture, and their rows in the legend. Where the plan lists groups
//! they are the letters of its groups, so that groups may overlap; where it has a bound, its margin.

use crate::document::Extras;
use crate::frames::Plan;
use crate::groups::{letter, Group, Limit};
use crate::margins::{meaning, Margins};
use crate::shapes::Point;

/// A line of tags below or above the words beside a terminal.
pub const TAG_LINE: f64 = 17.0;
/// What a bold capital takes.
const LETTER: f64 = 10.5;
/// As other words on lines have.
const WHITE_EDGE: &str = r##"stroke="#ffffff" stroke-width="4" paint-order="stroke""##;

/// Letters are bold, of a colour that no terminal has; the thinnest margins bold and larger than the
/// others.
#[derive(Clone, Copy)]
enum Kind {
    Group,
    Margin,
    Thinnest,
}

impl Kind {
    fn look(self) -> &'static str {
        match self {
            Kind::Group => r##"class="tag" font-size="14" font-weight="bold" fill="#6b2a7a""##,
            Kind::Margin => r##"class="margin" font-size="13" fill="#333333""##,
            Kind::Thinnest => {
                r##"class="margin thinnest" font-size="17" font-weight="bold" fill="#b34700""##
            }
        }
    }
}

pub struct Tag {
    kind: Kind,
    words: String,
}

impl Tag {
    pub fn of(plan: &Plan, margins: &Margins, terminal: u8) -> Option<Tag> {
        if let Some(margin) = margins.of(terminal) {
            return Some(Tag::of_margin(margins, margin));
        }
        let words = letters(&plan.limit, terminal);
        let kind = Kind::Group;
        (!words.is_empty()).then_some(Tag { kind, words })
    }

    /// With its sign, so that nobody takes it for a terminal's number.
    fn of_margin(margins: &Margins, margin: i16) -> Tag {
        let thinnest = margins.thinnest().is_some_and(|(least, _)| least == margin);
        let kind = if thinnest {
            Kind::Thinnest
        } else {
            Kind::Margin
        };
        let words = match margin {
            ..=0 => margin.to_string(),
            more => format!("+{more}"),
        };
        Tag { kind, words }
    }

    pub fn drawn(&self, at: Point, anchor: &str) -> String {
        format!(
            "<text {} x=\"{:.1}\" y=\"{:.1}\" text-anchor=\"{anchor}\" {WHITE_EDGE}>{}</text>\n",
            self.kind.look(),
            at.x,
            at.y,
            self.words
        )
    }

    /// In the legend, around (0, 0).
    fn sample(&self) -> String {
        self.drawn(Point { x: 0.0, y: 5.0 }, "middle")
    }
}

/// The letters of the groups that have this terminal.
fn letters(limit: &Limit, terminal: u8) -> String {
    let groups = limit.groups().iter().enumerate();
    groups
        .filter(|(_, group)| group.contains(&terminal))
        .map(|(place, _)| letter(place))
        .collect()
}

/// How much room the longest tag takes.
pub fn widest(plan: &Plan) -> f64 {
    let tags = (0..plan.terminals).map(|terminal| letters(&plan.limit, terminal));
    tags.map(|tag| tag.len() as f64 * LETTER)
        .fold(0.0, f64::max)
}

/// Samples, drawn around (0, 0), with their words.
pub fn group_rows(limit: &Limit) -> Vec<(String, String)> {
    let row = |(place, group): (usize, &Group)| {
        let words = letter(place).to_string();
        let kind = Kind::Group;
        let members = Extras::default().listed(group);
        let told = format!("group {}: {members}", letter(place));
        (Tag { kind, words }.sample(), told)
    };
    limit.groups().iter().enumerate().map(row).collect()
}

/// What a margin is, and who has the thinnest. They are of the links that are there.
pub fn margin_rows(
    limit: &Limit,
    margins: &Margins,
    extras: &Extras,
    as_it_is: &str,
) -> Vec<(String, String)> {
    let (Limit::Bound(bound), Some((least, those))) = (limit, margins.thinnest()) else {
        return Vec::new();
    };
    let any = Tag {
        kind: Kind::Margin,
        words: "\u{b1}m".into(),
    };
    let is = format!(
        "margin: reached ones heard beyond the {} needed, at worst; none if it hears the source",
        bound + 1
    );
    let thinnest = format!(
        "thinnest margin, {}{as_it_is}: {}",
        meaning(least),
        extras.listed(&those)
    );
    vec![
        (any.sample(), is),
        (Tag::of_margin(margins, least).sample(), thinnest),
    ]
}

/// What the bad ones are held to, for the line of facts.
pub fn fact(limit: &Limit) -> String {
    match limit {
        Limit::Bound(bound) => format!("bound {bound}"),
        Limit::Groups(groups) if groups.len() == 1 => {
            "1 group (a bad set is any part of it)".into()
        }
        Limit::Groups(groups) => {
            format!("{} groups (a bad set is any part of one)", groups.len())
        }
    }
}
