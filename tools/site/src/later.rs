//! Why a later notice of the source is refused, kind 08; and a start's edition.

use crate::frames;
use crate::notice::Later;
use crate::reason::{because, plainly, rounds, Reason, Scene};

pub const EDITIONS: &str = "editions are 1 to 65535";

/// Out of order, by its place or by its round.
pub fn misplaced(scene: &Scene) -> Option<Reason> {
    if !scene.has(4) {
        return plainly("a later notice, 08, stands after the start, 04");
    }
    if scene.has(5) {
        return plainly("later notices, 08, stand before the words, 05");
    }
    let Later { round, .. } = issued(scene)?;
    if round == 0 || round > scene.run.rounds {
        return because(format!("round {round}"), rounds(&scene.run));
    }
    let last = scene.run.later.last()?.round;
    let line = scene.earlier(&[8, last])?;
    let rule = match last == round {
        true => format!("line {line} has a later notice in this round already"),
        false => format!("later notices stand by their rounds, and line {line} has round {last}"),
    };
    because(format!("round {round}"), rule)
}

fn issued(scene: &Scene) -> Option<Later> {
    frames::run(scene.line).later.first().copied()
}

/// A start's edition is refused for being 0 alone.
pub fn wrong_edition(scene: &Scene) -> Option<Reason> {
    let edition = issued(scene).map_or(Some(0), |later| later.notice.edition)?;
    if edition == 0 {
        return because("edition 0", EDITIONS);
    }
    let last = scene.run.last_issued();
    let before = last.notice.edition?;
    let line = match last.round {
        0 => scene.earlier(&[4])?,
        round => scene.earlier(&[8, round])?,
    };
    because(
        format!("edition {edition}"),
        format!("line {line} has edition {before}, and a later notice has a higher one"),
    )
}
