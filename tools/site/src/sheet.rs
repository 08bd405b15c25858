//! The sheet of a picture: heading, links, terminals, labels and legend.

use crate::costs::Costs;
use crate::document::Document;
use crate::frames::Plan;
use crate::margins::Margins;
use crate::places::{self, Layout};
use crate::search::Link;
use crate::shapes::{circle, mark, shared_channel, Pen, Point, Role};
use crate::tags::{self, Tag, TAG_LINE};
use std::collections::BTreeMap;

const LEFT: f64 = 40.0;
const HEADING: f64 = 140.0;
const ROW: f64 = 34.0;
const SOURCE_RING: f64 = 6.0;
/// Room around the terminals, and what a letter of a label takes.
const MARGIN: f64 = 75.0;
const LETTER: f64 = 7.5;
const NARROWEST: f64 = 800.0;
/// More room around them, for a frame that says that all share one channel; and where it stands.
const FRAME_ROOM: f64 = 16.0;
const FRAME: f64 = 12.0;

/// The tips of a link in the legend.
const SAMPLE: [Point; 2] = [Point { x: -24.0, y: 0.0 }, Point { x: 24.0, y: 0.0 }];

/// What the heading, the shapes and the legend say.
pub struct Told {
    pub good: bool,
    pub says: String,
    pub why: String,
    pub roles: Vec<Role>,
    pub legend: Vec<(Role, String)>,
    /// A word beside a terminal.
    pub beside: BTreeMap<u8, String>,
    /// The default layout, where all share one channel.
    pub default: Option<u16>,
    pub margins: Margins,
    pub costs: Option<Costs>,
}

pub struct Sheet<'a> {
    plan: &'a Plan,
    document: &'a Document,
    told: Told,
    new: Vec<Link>,
    layout: Layout,
    corner: Point,
    width: f64,
}

impl<'a> Sheet<'a> {
    pub fn new(plan: &'a Plan, document: &'a Document, told: Told, new: Vec<Link>) -> Sheet<'a> {
        let layout = places::layout(plan, &document.extras);
        let mut sheet = Sheet {
            plan,
            document,
            told,
            new,
            layout,
            corner: Point {
                x: 0.0,
                y: HEADING + 60.0,
            },
            width: 0.0,
        };
        let labels = (0..plan.terminals).filter_map(|terminal| sheet.beside(terminal));
        let longest = labels.map(|words| words.chars().count()).max().unwrap_or(0);
        let words = f64::max(longest as f64 * LETTER, tags::widest(plan));
        let side = f64::max(MARGIN + 35.0, words + 50.0) + sheet.frame_room();
        sheet.width = f64::max(sheet.layout.width + 2.0 * side, NARROWEST);
        sheet.corner.x = (sheet.width - sheet.layout.width) / 2.0;
        sheet.corner.y += sheet.frame_room();
        sheet
    }

    fn frame_room(&self) -> f64 {
        self.told.default.map_or(0.0, |_| FRAME_ROOM)
    }

    /// The whole file. Lines come first and labels last, so that no line covers a label.
    pub fn picture(&self) -> String {
        let legend = self.legend();
        let has_tags = (0..self.plan.terminals).any(|terminal| self.tag_of(terminal).is_some());
        let tag_line = if has_tags { TAG_LINE } else { 0.0 };
        let bottom = self.corner.y + self.layout.height + MARGIN + tag_line + self.frame_room();
        let height = bottom + ROW * legend.len() as f64 + 10.0;
        let mut svg =
            self.opening(height) + &self.heading() + &self.channel(bottom) + &self.links();
        for terminal in 0..self.plan.terminals {
            svg += &self.terminal(terminal);
        }
        for terminal in 0..self.plan.terminals {
            svg += &self.label(terminal);
        }
        for (row, (sample, words)) in (0..).zip(legend) {
            svg += &key(bottom + ROW * f64::from(row), &sample, &words);
        }
        svg + "</svg>\n"
    }

    fn opening(&self, height: f64) -> String {
        let width = self.width;
        format!(
            r##"<svg xmlns="http://www.w3.org/2000/svg" viewBox="0 0 {width:.0} {height:.0}" width="{width:.0}" height="{height:.0}" font-family="sans-serif" fill="#111111">
<title>{}</title>
<rect width="{width:.0}" height="{height:.0}" fill="#ffffff"/>
"##,
            escaped(&self.told.says)
        )
    }

    fn heading(&self) -> String {
        let plan = self.plan;
        let channel = |default: u16| format!(", one shared channel (default {default})");
        let facts = format!(
            "{} terminals, source {}, {}, {} links{}",
            plan.terminals,
            plan.source,
            tags::fact(&plan.limit),
            plan.links.len(),
            self.told.default.map(channel).unwrap_or_default()
        );
        let line = |x: f64, y: u32, size: u32, class: &str, text: &str| {
            let text = escaped(text);
            format!(
                "<text class=\"{class}\" x=\"{x}\" y=\"{y}\" font-size=\"{size}\">{text}</text>\n"
            )
        };
        line(LEFT, 36, 18, "title", &self.document.title())
            + &mark(
                Point {
                    x: LEFT + 15.0,
                    y: 66.0,
                },
                self.told.good,
            )
            + &line(LEFT + 42.0, 75, 26, "says", &self.told.says)
            + &line(LEFT, 104, 16, "why", &self.told.why)
            + &line(LEFT, 128, 16, "facts", &facts)
    }

    /// A frame around all who share a channel, between the heading and the legend.
    fn channel(&self, bottom: f64) -> String {
        if self.told.default.is_none() {
            return String::new();
        }
        let size = [
            self.width - 2.0 * FRAME,
            bottom - 2.0 * FRAME_ROOM - HEADING,
        ];
        shared_channel([FRAME, HEADING], size) + "\n"
    }

    fn spot(&self, terminal: u8) -> Point {
        let spot = self.layout.spots[usize::from(terminal)];
        Point {
            x: spot.x + self.corner.x,
            y: spot.y + self.corner.y,
        }
    }

    fn role(&self, terminal: u8) -> Role {
        self.told.roles[usize::from(terminal)]
    }

    /// A pair of links is one line with two heads; heavy where one of them is, with heads of its own.
    fn links(&self) -> String {
        let dearest = self.dearest();
        let (pen, heavy) = (
            Pen::for_links(self.plan.links.len()),
            Pen::for_dearest_links(),
        );
        let pen_of = |link: &Link| match dearest.contains(link) {
            true => &heavy,
            false => &pen,
        };
        let mut pairs: BTreeMap<(u8, u8), [Option<&Pen>; 2]> = BTreeMap::new();
        for link @ &(from, to) in &self.plan.links {
            let heads = pairs.entry((from.min(to), from.max(to))).or_default();
            heads[usize::from(from < to)] = Some(pen_of(link));
        }
        let old = pairs.into_iter().map(|((one, other), heads)| {
            let is_heavy = heads.into_iter().flatten().any(Pen::is_heavy);
            let line = if is_heavy { &heavy } else { &pen };
            line.line_with(self.tips((one, other)), heads)
        });
        let new_pen = Pen::for_new_links();
        let new = self.new.iter();
        let new = new.map(|link| new_pen.arrow(self.tips(*link), [false, true]));
        old.chain(new).collect()
    }

    fn dearest(&self) -> Vec<Link> {
        self.told.costs.as_ref().map_or(Vec::new(), Costs::dearest)
    }

    fn tips(&self, (one, other): Link) -> [Point; 2] {
        [self.tip(one, other), self.tip(other, one)]
    }

    fn ring(&self, terminal: u8) -> f64 {
        if terminal == self.plan.source {
            SOURCE_RING
        } else {
            0.0
        }
    }

    /// How far a terminal is from its middle; the source's ring is a circle.
    fn reach(&self, terminal: u8, direction: Point) -> f64 {
        let (role, size) = (self.role(terminal), self.layout.size);
        match terminal == self.plan.source {
            true => role.widest(size) + SOURCE_RING,
            false => role.reach(size, direction),
        }
    }

    /// Where a link from the other one ends: just outside this one's outline.
    fn tip(&self, terminal: u8, other: u8) -> Point {
        let here = self.spot(terminal);
        let direction = here.towards(self.spot(other));
        here.moved(direction, self.reach(terminal, direction) + 4.0)
    }

    fn terminal(&self, terminal: u8) -> String {
        let (role, at) = (self.role(terminal), self.spot(terminal));
        let ring = if terminal == self.plan.source {
            source_ring(at, role.widest(self.layout.size))
        } else {
            String::new()
        };
        format!(
            "<g class=\"terminal {}\">{ring}{}</g>\n",
            role.name(),
            role.outline(at, self.layout.size)
        )
    }

    /// The source's word, a name, when it took.
    fn beside(&self, terminal: u8) -> Option<String> {
        let source = (terminal == self.plan.source).then(|| "source".to_string());
        let name = self.document.extras.names.get(&terminal).cloned();
        let when = self.told.beside.get(&terminal).cloned();
        let words: Vec<String> = [name, source, when].into_iter().flatten().collect();
        (!words.is_empty()).then(|| words.join(", "))
    }

    /// The number in the terminal; beside it what else is known, away from the lines.
    fn label(&self, terminal: u8) -> String {
        let at = self.spot(terminal);
        let size = self.layout.size * 0.9;
        let number = format!(
            "<text class=\"label\" x=\"{:.1}\" y=\"{:.1}\" font-size=\"{size:.1}\" font-weight=\"bold\" text-anchor=\"middle\">{terminal}</text>\n",
            at.x,
            at.y + size * 0.36
        );
        let tag = self.tag(terminal);
        let Some(words) = self.beside(terminal) else {
            return number + &tag;
        };
        let (place, anchor) = self.outside(terminal);
        // A white edge keeps the words apart from the lines that they may stand on.
        let beside = format!(
            "<text class=\"beside\" x=\"{:.1}\" y=\"{:.1}\" font-size=\"14\" text-anchor=\"{anchor}\" stroke=\"#ffffff\" stroke-width=\"4\" paint-order=\"stroke\">{}</text>\n",
            place.x,
            place.y,
            escaped(&words)
        );
        number + &beside + &tag
    }

    /// Where the words beside a terminal stand, and how they are anchored there.
    fn outside(&self, terminal: u8) -> (Point, &'static str) {
        let out = self.layout.outwards[usize::from(terminal)];
        let away = self.layout.size * 1.4 + self.ring(terminal) + 12.0;
        let place = self.spot(terminal).moved(out, away);
        let anchor = match out.x {
            x if x > 0.3 => "start",
            x if x < -0.3 => "end",
            _ => "middle",
        };
        let y = place.y + 5.0;
        (Point { y, ..place }, anchor)
    }

    fn tag_of(&self, terminal: u8) -> Option<Tag> {
        Tag::of(self.plan, &self.told.margins, terminal)
    }

    /// The letters of its groups, or its margin, farther out than the words beside it.
    fn tag(&self, terminal: u8) -> String {
        let Some(tag) = self.tag_of(terminal) else {
            return String::new();
        };
        let (mut place, anchor) = self.outside(terminal);
        if self.beside(terminal).is_some() {
            let upwards = self.layout.outwards[usize::from(terminal)].y < -0.3;
            place.y += if upwards { -TAG_LINE } else { TAG_LINE };
        }
        tag.drawn(place, anchor)
    }

    fn margin_rows(&self) -> Vec<(String, String)> {
        let extras = &self.document.extras;
        tags::margin_rows(
            &self.plan.limit,
            &self.told.margins,
            extras,
            self.as_it_is(),
        )
    }

    /// Margins and costs are of the links that are there.
    fn as_it_is(&self) -> &'static str {
        match self.new.is_empty() {
            true => "",
            false => " (without the dashed links)",
        }
    }

    /// What the heavy links do; they are too many to be named.
    fn dearest_row(&self) -> Option<(String, String)> {
        let costs = self.told.costs.as_ref();
        let fall = costs.filter(|costs| !costs.dearest().is_empty())?.fall();
        let sample = Pen::for_dearest_links().arrow(SAMPLE, [false, true]);
        let words = format!(
            "dearest links: without one the greatest bound falls {fall}{}",
            self.as_it_is()
        );
        Some((sample, words))
    }

    /// Samples, drawn around (0, 0), with their words.
    fn legend(&self) -> Vec<(String, String)> {
        let here = Point { x: 0.0, y: 0.0 };
        let pen = Pen::for_links(0);
        let roles = self.told.legend.iter();
        let mut rows: Vec<(String, String)> = roles
            .map(|(role, words)| (role.outline(here, 11.0), words.clone()))
            .collect();
        rows.extend(tags::group_rows(&self.plan.limit));
        rows.extend(self.margin_rows());
        rows.extend(self.told.default.map(|default| {
            let sample = shared_channel([-24.0, -11.0], [48.0, 22.0]);
            let words = format!("one channel for all: a word reaches all who hear its sender; default layout {default}");
            (sample, words)
        }));
        let source = self.document.extras.called(self.plan.source);
        rows.push((source_ring(here, 8.0), format!("the source: {source}")));
        let right = "the right one hears the left one".to_string();
        rows.push((pen.arrow(SAMPLE, [false, true]), right));
        rows.push((
            pen.arrow(SAMPLE, [true, true]),
            "each hears the other".into(),
        ));
        rows.extend(self.dearest_row());
        if !self.new.is_empty() {
            let links: Vec<String> = self.new.iter().map(|(a, b)| format!("{a} > {b}")).collect();
            let words = format!("to be added: {}", links.join(", "));
            rows.push((Pen::for_new_links().arrow(SAMPLE, [false, true]), words));
        }
        rows
    }
}

fn source_ring(at: Point, size: f64) -> String {
    let look = r##"fill="#ffffff" stroke="#111111" stroke-width="2.5""##;
    circle(at, size + SOURCE_RING, look)
}

fn key(y: f64, sample: &str, words: &str) -> String {
    format!(
        "<g class=\"key\" transform=\"translate({:.1} {y:.1})\">{sample}<text x=\"44\" y=\"5\" font-size=\"15\">{}</text></g>\n",
        LEFT + 24.0,
        escaped(words)
    )
}

/// Names may have any letter, and file names any character.
fn escaped(text: &str) -> String {
    text.replace(char::is_control, " ")
        .replace('&', "&amp;")
        .replace('<', "&lt;")
        .replace('>', "&gt;")
}
