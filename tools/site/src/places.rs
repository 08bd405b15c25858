//! Where each terminal stands in a picture: where the text says, or on a circle, 0 on top and the
//! others clockwise.

use crate::document::Extras;
use crate::frames::Plan;
use crate::numbers::measure;
use crate::shapes::Point;
use std::f64::consts::TAU;

/// The box that places are fitted into.
const WIDE: f64 = 760.0;
const HIGH: f64 = 560.0;
/// Below the places, for terminals that have none.
const ROW_GAP: f64 = 110.0;

pub struct Layout {
    /// By terminal, from the top left of the drawing.
    pub spots: Vec<Point>,
    /// The way from a terminal to its label: away from the lines.
    pub outwards: Vec<Point>,
    /// A terminal's size, so that neighbours do not touch.
    pub size: f64,
    pub width: f64,
    pub height: f64,
}

pub fn layout(plan: &Plan, extras: &Extras) -> Layout {
    if extras.places.is_empty() {
        return circle(plan.terminals);
    }
    let spots = placed(plan.terminals, extras);
    let reach = |along: fn(&Point) -> f64| spots.iter().map(along).fold(0.0, f64::max);
    Layout {
        outwards: (0..plan.terminals)
            .map(|terminal| freest(plan, &spots, terminal))
            .collect(),
        size: (nearest(&spots) * 0.36).clamp(8.0, 20.0),
        width: reach(|spot| spot.x),
        height: reach(|spot| spot.y),
        spots,
    }
}

fn circle(terminals: u8) -> Layout {
    let (ring, size) = match terminals {
        0..=8 => (200.0, 22.0),
        9..=13 => (270.0, 19.0),
        _ => (350.0, 15.0),
    };
    let outwards: Vec<Point> = (0..terminals)
        .map(|terminal| {
            let angle = TAU * f64::from(terminal) / f64::from(terminals);
            Point {
                x: angle.sin(),
                y: -angle.cos(),
            }
        })
        .collect();
    let centre = Point { x: ring, y: ring };
    Layout {
        spots: outwards
            .iter()
            .map(|way| centre.moved(*way, ring))
            .collect(),
        outwards,
        size,
        width: 2.0 * ring,
        height: 2.0 * ring,
    }
}

/// The given places in one scale; a row under them for the others.
fn placed(terminals: u8, extras: &Extras) -> Vec<Point> {
    let given = |terminal: u8| {
        let (across, down) = extras.places.get(&terminal)?;
        let (x, y) = (measure(across).ok()?, measure(down).ok()?);
        Some(Point { x, y })
    };
    let known: Vec<Point> = (0..terminals).filter_map(given).collect();
    let least = |along: fn(&Point) -> f64| known.iter().map(along).fold(f64::MAX, f64::min);
    let most = |along: fn(&Point) -> f64| known.iter().map(along).fold(f64::MIN, f64::max);
    let (left, top) = (least(|spot| spot.x), least(|spot| spot.y));
    let (wide, high) = (most(|spot| spot.x) - left, most(|spot| spot.y) - top);
    let scale = f64::min(WIDE / wide.max(1e-9), HIGH / high.max(1e-9));
    let scale = if wide.max(high) == 0.0 { 1.0 } else { scale };
    let row = high * scale + ROW_GAP;
    let mut in_row = 0.0;
    (0..terminals)
        .map(|terminal| match given(terminal) {
            Some(spot) => Point {
                x: (spot.x - left) * scale,
                y: (spot.y - top) * scale,
            },
            None => {
                in_row += 1.0;
                Point {
                    x: (in_row - 1.0) * 70.0,
                    y: row,
                }
            }
        })
        .collect()
}

/// The way from a terminal, of eight, that is farthest from its links; down where it has none.
fn freest(plan: &Plan, spots: &[Point], terminal: u8) -> Point {
    let here = spots[usize::from(terminal)];
    let ways: Vec<Point> = plan
        .links
        .iter()
        .filter(|(from, to)| *from == terminal || *to == terminal)
        .map(|(from, to)| {
            let other = if *from == terminal { to } else { from };
            here.towards(spots[usize::from(*other)])
        })
        .collect();
    // The closer a link's direction, the greater the product; the nearest link counts.
    let closeness = |way: &Point| {
        let products = ways.iter().map(|link| link.x * way.x + link.y * way.y);
        products.fold(-1.0, f64::max)
    };
    let eighth = |turn: i32| Point {
        x: (TAU * f64::from(turn) / 8.0).sin(),
        y: (TAU * f64::from(turn) / 8.0).cos(),
    };
    // Down, up, then the sides: of ways as free as each other the first stays.
    let mut best = eighth(0);
    for way in [4, 2, 6, 1, 7, 3, 5].map(eighth) {
        if closeness(&way) < closeness(&best) - 0.05 {
            best = way;
        }
    }
    best
}

/// The distance of the two that stand closest.
fn nearest(spots: &[Point]) -> f64 {
    let mut least = f64::MAX;
    for (place, one) in spots.iter().enumerate() {
        for other in &spots[..place] {
            least = least.min((one.x - other.x).hypot(one.y - other.y));
        }
    }
    least
}
