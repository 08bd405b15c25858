//! Why a frame's kind or length is refused.

use crate::groups::Limit;
use crate::reason::{because, Reason, Scene};

/// A name, the lengths after the kind byte, and what they hold.
struct Kind(u8, &'static str, &'static [usize], &'static str);

/// In runs without editions.
const PLAIN: [Kind; 7] = [
    Kind(1, "head", &[3], "n, source, f"),
    Kind(2, "link", &[2], "from, to"),
    Kind(3, "bad set", &[3], "a set of three bytes"),
    Kind(4, "start", &[2, 3], "value (2 bytes), rounds"),
    Kind(5, "word", &[5], "round, from, to, value (2 bytes)"),
    Kind(7, "group", &[3], "a set of three bytes"),
    Kind(9, "shared channel", &[2], "default layout (2 bytes)"),
];
/// What is otherwise in runs with editions.
const WITH_EDITIONS: [Kind; 3] = [
    Kind(
        4,
        "start",
        &[4, 5],
        "edition (2 bytes), layout (2 bytes), rounds",
    ),
    Kind(
        5,
        "word",
        &[7],
        "round, from, to, edition (2 bytes), layout (2 bytes)",
    ),
    Kind(
        8,
        "later notice",
        &[5],
        "round, edition (2 bytes), layout (2 bytes)",
    ),
];

/// What is otherwise on a shared channel.
const SHARED: [Kind; 1] = [Kind(5, "word", &[4], "round, from, value (2 bytes)")];

pub fn wrong(scene: &Scene, program: &str) -> Option<Reason> {
    let kind = *scene.frame.first()?;
    let forms: Vec<&Kind> = PLAIN
        .iter()
        .chain(&WITH_EDITIONS)
        .chain(&SHARED)
        .filter(|known| known.0 == kind)
        .collect();
    let Some(Kind(_, name, ..)) = forms.first() else {
        return because(
            format!("kind {kind:02x}"),
            format!("there are {}", all(scene)),
        );
    };
    if matches!(kind, 3..=5 | 8 | 9) && program != "run" {
        let of_plan = match scene.plan.limit {
            Limit::Bound(_) => "01 and 02",
            Limit::Groups(_) => "01, 02 and 07",
        };
        return because(
            format!("kind {kind:02x}, a run's {name}"),
            format!("'{program}' has {of_plan} only"),
        );
    }
    let length = scene.frame.len() - 1;
    barred(scene, kind, length)
        .or_else(|| other_form(scene, kind, length))
        .or_else(|| wrong_length(scene, kind, length, &forms))
}

/// A plan with a bound has no place for a group, so it is not told of one; and only a run with
/// editions is told of later notices, and one on a shared channel of that.
fn all(scene: &Scene) -> String {
    let groups = matches!(scene.plan.limit, Limit::Groups(_)).then_some("07");
    let later = (has_editions(scene) == Some(true)).then_some("08");
    let channel = scene.run.default.map(|_| "09");
    match [groups, later, channel]
        .into_iter()
        .flatten()
        .collect::<Vec<_>>()[..]
    {
        [] => "01 to 05".into(),
        [one] => format!("01 to 05, and {one}"),
        [one, other, ..] => format!("01 to 05, {one} and {other}"),
    }
}

/// Known by the start.
fn has_editions(scene: &Scene) -> Option<bool> {
    scene.has(4).then(|| scene.run.start.edition.is_some())
}

fn with_length(kinds: &'static [Kind], kind: u8, length: usize) -> Option<&'static Kind> {
    let mut kinds = kinds.iter();
    kinds.find(|known| known.0 == kind && known.2.contains(&length))
}

/// A frame that would be right elsewhere and not on this channel: one with an edition where it is
/// shared, and a word that names a hearer there, or none where it is not.
fn barred(scene: &Scene, kind: u8, length: usize) -> Option<Reason> {
    let Some(line) = scene.earlier(&[9]) else {
        with_length(&SHARED, kind, length)?;
        return because(
            "a word without a hearer",
            "only on a shared channel, 09, it names none",
        );
    };
    if let Some(Kind(_, name, ..)) = with_length(&WITH_EDITIONS, kind, length) {
        return because(
            format!("a {name} with an edition"),
            format!("line {line} has a shared channel, and a run on it has none"),
        );
    }
    with_length(&PLAIN, kind, length).filter(|known| known.0 == 5)?;
    because(
        "a word that names a hearer",
        format!(
            "line {line} has a shared channel, and a word on it reaches all who hear the sender"
        ),
    )
}

/// A frame that would be right in a run of the other form.
fn other_form(scene: &Scene, kind: u8, length: usize) -> Option<Reason> {
    let editions = has_editions(scene)?;
    let line = scene.earlier(&[4])?;
    if editions {
        let Kind(_, name, ..) = with_length(&PLAIN, kind, length)?;
        return because(
            format!("a {name} without an edition"),
            format!("the start, line {line}, has one"),
        );
    }
    let Kind(_, name, ..) = with_length(&WITH_EDITIONS, kind, length)?;
    because(
        format!("a {name} with an edition"),
        format!("the start, line {line}, has none"),
    )
}

fn counted(bytes: usize) -> String {
    match bytes {
        1 => "1 byte".into(),
        more => format!("{more} bytes"),
    }
}

/// Before the start all forms are right, where no channel is shared. The last of a word's three is
/// that of a shared one.
fn wrong_length(scene: &Scene, kind: u8, found: usize, forms: &[&Kind]) -> Option<Reason> {
    let allowed = match (forms, scene.run.default, has_editions(scene)) {
        ([_, _, _], Some(_), _) => &forms[2..],
        ([_, _], Some(_), _) => &forms[..1],
        ([_, _, ..], None, Some(false)) => &forms[..1],
        ([_, _, ..], None, Some(true)) => &forms[1..2],
        _ => forms,
    };
    let lengths = |kind: &&Kind| {
        let wanted: Vec<String> = kind.2.iter().map(usize::to_string).collect();
        format!("{} ({})", wanted.join(" or "), kind.3)
    };
    if allowed.iter().any(|kind| kind.2.contains(&found)) {
        return None;
    }
    let allowed: Vec<String> = allowed.iter().map(lengths).collect();
    because(
        format!("kind {kind:02x} with {} after it", counted(found)),
        format!("a {} has {}", forms[0].1, allowed.join(", or ")),
    )
}
