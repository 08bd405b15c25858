//! Outlines and arrowheads. What a terminal is shows in its shape and stroke as well as in its
//! colour, so that a picture can be read without colours.

use std::f64::consts::SQRT_2;

#[derive(Clone, Copy)]
pub struct Point {
    pub x: f64,
    pub y: f64,
}

impl Point {
    /// The point at a distance from here, in a direction of length 1.
    pub fn moved(self, direction: Point, distance: f64) -> Point {
        Point {
            x: self.x + direction.x * distance,
            y: self.y + direction.y * distance,
        }
    }

    /// The direction from here to there, of length 1.
    pub fn towards(self, there: Point) -> Point {
        let (x, y) = (there.x - self.x, there.y - self.y);
        let length = x.hypot(y);
        Point {
            x: x / length,
            y: y / length,
        }
    }
}

/// What the verdict or a run says of a terminal; `Plain` where the plan passes.
#[derive(Clone, Copy, PartialEq, Eq)]
pub enum Role {
    Plain,
    Bad,
    Reached,
    CutOff,
}

impl Role {
    pub fn name(self) -> &'static str {
        match self {
            Role::Plain => "plain",
            Role::Bad => "bad",
            Role::Reached => "reached",
            Role::CutOff => "cut-off",
        }
    }

    /// Fill and stroke; the strokes are of the Okabe-Ito palette, which colour-blind eyes tell apart.
    fn look(self) -> &'static str {
        match self {
            Role::Plain => r##"fill="#ffffff" stroke="#333333" stroke-width="2""##,
            Role::Bad => {
                r##"fill="#f9d9c4" stroke="#d55e00" stroke-width="3" stroke-dasharray="6 3""##
            }
            Role::Reached => r##"fill="#d4e8f4" stroke="#0072b2" stroke-width="3""##,
            Role::CutOff => r##"fill="#f7ef8a" stroke="#000000" stroke-width="1.5""##,
        }
    }

    /// How far the outline is from its middle in a direction.
    pub fn reach(self, size: f64, direction: Point) -> f64 {
        let (x, y) = (direction.x.abs(), direction.y.abs());
        match self {
            Role::Plain | Role::Reached => size,
            Role::Bad => size * 0.92 / x.max(y),
            Role::CutOff => size * 1.4 / (x + y),
        }
    }

    /// The circle that the outline of a source fits in, which never waits.
    pub fn widest(self, size: f64) -> f64 {
        match self {
            Role::Bad => size * 0.92 * SQRT_2,
            Role::Plain | Role::Reached | Role::CutOff => size,
        }
    }

    /// A circle, a dashed square, or a diamond with a double line.
    pub fn outline(self, at: Point, size: f64) -> String {
        let look = self.look();
        match self {
            Role::Plain | Role::Reached => circle(at, size, look),
            Role::Bad => {
                let (x, y, side) = (at.x - size * 0.92, at.y - size * 0.92, size * 1.84);
                format!(
                    r#"<rect x="{x:.1}" y="{y:.1}" width="{side:.1}" height="{side:.1}" {look}/>"#
                )
            }
            Role::CutOff => {
                let inner = r##"fill="none" stroke="#000000" stroke-width="1.5""##;
                diamond(at, size * 1.4, look) + &diamond(at, size * 1.4 - 5.0, inner)
            }
        }
    }
}

pub fn circle(at: Point, radius: f64, look: &str) -> String {
    let Point { x, y } = at;
    format!(r#"<circle cx="{x:.1}" cy="{y:.1}" r="{radius:.1}" {look}/>"#)
}

/// A dotted frame with round corners, from its upper left corner.
pub fn shared_channel([x, y]: [f64; 2], [width, height]: [f64; 2]) -> String {
    format!(
        r##"<rect class="channel" x="{x:.1}" y="{y:.1}" width="{width:.1}" height="{height:.1}" rx="10" fill="none" stroke="#6b2a7a" stroke-width="2.5" stroke-dasharray="1 6" stroke-linecap="round"/>"##
    )
}

fn diamond(at: Point, half: f64, look: &str) -> String {
    let Point { x, y } = at;
    let (left, right, top, bottom) = (x - half, x + half, y - half, y + half);
    format!(
        r#"<polygon points="{x:.1},{top:.1} {right:.1},{y:.1} {x:.1},{bottom:.1} {left:.1},{y:.1}" {look}/>"#
    )
}

/// How links are drawn; thin and pale where there are many, so that the terminals stand out.
pub struct Pen {
    width: f64,
    opacity: f64,
    head_length: f64,
    head_half: f64,
    colour: &'static str,
    /// The links that cost the most.
    heavy: bool,
    /// Links that are not there yet.
    dashed: bool,
}

impl Pen {
    pub fn for_links(links: usize) -> Pen {
        let (width, opacity, head_length, head_half) = match links {
            0..=60 => (1.8, 0.9, 12.0, 4.5),
            61..=120 => (1.0, 0.5, 9.0, 3.0),
            121..=220 => (0.8, 0.35, 8.0, 2.4),
            _ => (0.6, 0.22, 7.0, 2.0),
        };
        Pen {
            width,
            opacity,
            head_length,
            head_half,
            colour: "#333333",
            heavy: false,
            dashed: false,
        }
    }

    /// Told from the others by its width, however many there are.
    pub fn for_dearest_links() -> Pen {
        Pen {
            width: 4.5,
            opacity: 1.0,
            head_length: 17.0,
            head_half: 8.0,
            colour: "#333333",
            heavy: true,
            dashed: false,
        }
    }

    pub fn for_new_links() -> Pen {
        Pen {
            width: 3.0,
            opacity: 1.0,
            head_length: 14.0,
            head_half: 6.0,
            colour: "#007a5a",
            heavy: false,
            dashed: true,
        }
    }

    pub fn is_heavy(&self) -> bool {
        self.heavy
    }

    fn class(&self, what: &str) -> String {
        match (self.dashed, self.heavy) {
            (true, _) => format!("new-{what}"),
            (_, true) => format!("{what} dearest"),
            _ => what.to_string(),
        }
    }

    /// A head with its tip here, pointing in a direction.
    fn head(&self, tip: Point, direction: Point) -> String {
        let base = tip.moved(direction, -self.head_length);
        let side = Point {
            x: -direction.y,
            y: direction.x,
        };
        let (left, right) = (
            base.moved(side, self.head_half),
            base.moved(side, -self.head_half),
        );
        format!(
            r##"<polygon class="{}" points="{:.1},{:.1} {:.1},{:.1} {:.1},{:.1}" fill="{}" fill-opacity="{}"/>"##,
            self.class("head"),
            tip.x,
            tip.y,
            left.x,
            left.y,
            right.x,
            right.y,
            self.colour,
            self.opacity
        )
    }

    fn line(&self, from: Point, to: Point) -> String {
        let dashes = if self.dashed {
            r#" stroke-dasharray="9 5""#
        } else {
            ""
        };
        format!(
            r##"<line class="{}" x1="{:.1}" y1="{:.1}" x2="{:.1}" y2="{:.1}" stroke="{}" stroke-width="{}" stroke-opacity="{}"{dashes}/>"##,
            self.class("link"),
            from.x,
            from.y,
            to.x,
            to.y,
            self.colour,
            self.width,
            self.opacity
        )
    }

    /// The line between two tips, one element, with a head at each end that has one.
    pub fn arrow(&self, tips: [Point; 2], heads: [bool; 2]) -> String {
        self.line_with(tips, heads.map(|has_head| has_head.then_some(self)))
    }

    /// The same with a pen for each head: of a pair of links one may cost more. The line stops at a
    /// head's base, since a half-transparent head would show it.
    pub fn line_with(&self, tips: [Point; 2], heads: [Option<&Pen>; 2]) -> String {
        let along = tips[0].towards(tips[1]);
        let back = tips[1].towards(tips[0]);
        let cut = |head: Option<&Pen>| head.map_or(0.0, |pen| pen.head_length);
        let start = tips[0].moved(along, cut(heads[0]));
        let end = tips[1].moved(back, cut(heads[1]));
        let mut drawn = self.line(start, end);
        for (head, (tip, direction)) in heads.into_iter().zip([(tips[0], back), (tips[1], along)]) {
            drawn += &head.map_or(String::new(), |pen| pen.head(tip, direction));
        }
        drawn + "\n"
    }
}

/// A tick in a circle, or a cross in a square: told apart without colours.
pub fn mark(at: Point, good: bool) -> String {
    let Point { x, y } = at;
    if good {
        return circle(at, 15.0, r##"class="mark pass" fill="#007a5a""##)
            + &stroke(&[(x - 7.0, y + 0.5), (x - 2.0, y + 6.0), (x + 7.5, y - 6.0)])
            + "\n";
    }
    let (left, top) = (x - 14.0, y - 14.0);
    format!(
        r##"<rect class="mark fail" x="{left:.1}" y="{top:.1}" width="28" height="28" fill="#b34700"/>"##
    ) + &stroke(&[(x - 6.5, y - 6.5), (x + 6.5, y + 6.5)])
        + &stroke(&[(x - 6.5, y + 6.5), (x + 6.5, y - 6.5)])
        + "\n"
}

fn stroke(points: &[(f64, f64)]) -> String {
    let points: Vec<String> = points
        .iter()
        .map(|(x, y)| format!("{x:.1},{y:.1}"))
        .collect();
    format!(
        r##"<polyline points="{}" fill="none" stroke="#ffffff" stroke-width="4"/>"##,
        points.join(" ")
    )
}
