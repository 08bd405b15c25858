//! Files about the place where the links end, or the groups: what stands there, on the line before,
//! or after it.

use crate::damage::{plant, FOREIGN};
use crate::draft::{
    bad_set_line, group_line, head_line, join, link_line, notice_line, run_draft, start_in,
    start_line, word_in,
};
use crate::faults::Fault;
use crate::generate::Kind;
use crate::grouping::group_up;
use crate::groups::{Bound, MOST_GROUPS};
use crate::notice::{notice, Form};
use crate::office::Manner;
use crate::output::digits;
use crate::plan::{Plan, Set};
use crate::plans::{deafen, deep_plan, hear_at_source, strong_plan, thin_plan, weak_plan};
use crate::rng::Rng;

type Lines = Vec<Vec<u8>>;

/// What stands at the place, or where the cause is on the line before, or what comes after.
#[derive(Clone, Copy, Debug, PartialEq, Eq)]
pub enum There {
    RightBadSet,
    BadSetMember,
    BadSetBound,
    Start,
    Word,
    /// A later notice before the start, and before the bad set or after it.
    Notice,
    NoticeAfterBadSet,
    SameHead,
    WrongHead,
    UnknownKind,
    WrongLength,
    Foreign,
    OddDigits,
    Empty,
    Cut,
    End,
    EndAfterBadSet,
    LinkAfter,
    LinkEndBefore,
    LinkTwiceBefore,
    LinkTextBefore,
    LinkLengthBefore,
    LinkCut,
    NoHeadBefore,
    /// A group where f is the bound; a wrong one there.
    Group,
    WrongGroup,
    GroupLength,
    GroupAfter,
    GroupAfterBadSet,
    LinkAfterGroup,
    GroupSourceBefore,
    GroupOutsideBefore,
    SeventeenthBefore,
    GroupTextBefore,
    GroupLengthBefore,
    GroupCut,
}

pub const THERE: [There; 36] = [
    There::RightBadSet,
    There::BadSetMember,
    There::BadSetBound,
    There::Start,
    There::Word,
    There::Notice,
    There::NoticeAfterBadSet,
    There::SameHead,
    There::WrongHead,
    There::UnknownKind,
    There::WrongLength,
    There::Foreign,
    There::OddDigits,
    There::Empty,
    There::Cut,
    There::End,
    There::EndAfterBadSet,
    There::LinkAfter,
    There::LinkEndBefore,
    There::LinkTwiceBefore,
    There::LinkTextBefore,
    There::LinkLengthBefore,
    There::LinkCut,
    There::NoHeadBefore,
    There::Group,
    There::WrongGroup,
    There::GroupLength,
    There::GroupAfter,
    There::GroupAfterBadSet,
    There::LinkAfterGroup,
    There::GroupSourceBefore,
    There::GroupOutsideBefore,
    There::SeventeenthBefore,
    There::GroupTextBefore,
    There::GroupLengthBefore,
    There::GroupCut,
];

/// What the plan has: f, groups, or ff for f and no group.
#[derive(Clone, Copy, Debug, PartialEq, Eq)]
pub enum Listing {
    Number,
    Groups,
    NoGroup,
}

impl There {
    /// Whether this can stand in such a file. A group is the end only where f is the bound, and a
    /// line after a group, or a wrong one, wants groups.
    fn suits(self, listing: Listing) -> bool {
        match self {
            There::Group | There::WrongGroup => listing == Listing::Number,
            There::GroupAfterBadSet
            | There::LinkAfterGroup
            | There::GroupSourceBefore
            | There::GroupOutsideBefore
            | There::SeventeenthBefore => listing == Listing::Groups,
            There::GroupTextBefore | There::GroupLengthBefore | There::GroupCut => {
                listing != Listing::Number
            }
            _ => true,
        }
    }

    /// One of the listings that suit; no group at all only where it is asked for.
    pub fn listing(self, rng: &mut Rng, no_group: bool) -> Listing {
        if no_group && self.suits(Listing::NoGroup) {
            return Listing::NoGroup;
        }
        let mut others = vec![Listing::Number, Listing::Groups];
        others.retain(|&listing| self.suits(listing));
        rng.pick(&others)
    }
}

/// A file with this at the place, and a plan that is deaf or not and lists groups or not.
pub fn placed(rng: &mut Rng, kind: Kind, there: There, deaf: bool, listing: Listing) -> Vec<u8> {
    let mut plan = small_plan(rng, deaf);
    if listing != Listing::Number {
        group_up(rng, &mut plan);
    }
    if there == There::BadSetBound {
        refuse_many(rng, &mut plan);
    }
    let rounds = rng.pick(&[None, Some(2), Some(40)]);
    let draft = run_draft(rng, plan, rounds, Manner::Wild);
    let mut lines = draft.lines.clone();
    match there {
        There::BadSetMember => drop(plant(rng, kind, &draft, &mut lines, 7)),
        There::BadSetBound => drop(plant(rng, kind, &draft, &mut lines, 8)),
        There::Start if rng.chance(50) => drop(plant(rng, kind, &draft, &mut lines, 9)),
        _ => {}
    }
    let mut groups = lines.split_off(1 + draft.plan.links.len());
    let mut rest = groups.split_off(draft.plan.bound.listed().len());
    if listing == Listing::NoGroup || there == There::LinkCut {
        groups.clear();
    }
    rng.shuffle(&mut lines[1..]);
    change_links(rng, &draft.plan, &mut lines, there);
    change_groups(rng, &draft.plan, &mut groups, there);
    change_rest(rng, &draft.plan, &mut rest, there);
    lines.extend(groups);
    lines.extend(rest);
    let mut text = join(&lines);
    if matches!(there, There::Cut | There::LinkCut | There::GroupCut) {
        text.pop();
    }
    text
}

/// So few may be bad that some bad set is refused.
fn refuse_many(rng: &mut Rng, plan: &mut Plan) {
    let single = Set::from([(plan.source + 1) % plan.n]);
    plan.bound = match plan.bound.has_groups() {
        false => Bound::f(0),
        true if plan.n > 2 && rng.chance(60) => Bound::groups(&[Set::new(), single]),
        true => Bound::groups(&[Set::new()]),
    };
}

/// Few terminals, of which one is heard beside the source, so that no cause is out of reach.
fn small_plan(rng: &mut Rng, deaf: bool) -> Plan {
    let n = rng.between(2, 6);
    let make = rng.pick(&[
        strong_plan as fn(&mut Rng, u32) -> Plan,
        weak_plan,
        deep_plan,
        thin_plan,
    ]);
    let mut plan = make(rng, n);
    if rng.chance(50) {
        hear_at_source(rng, &mut plan);
    }
    if deaf {
        deafen(rng, &mut plan);
    }
    if plan.links.iter().all(|link| link.0 == plan.source) {
        let other = (plan.source + rng.between(1, n - 1)) % n;
        plan.links.insert((other, plan.source));
    }
    plan
}

/// The line before the place, where that one has a cause.
fn change_links(rng: &mut Rng, plan: &Plan, lines: &mut Lines, there: There) {
    let known = lines[1 + rng.below(lines.len() - 1)].clone();
    let inside = rng.between(0, plan.n - 1);
    match there {
        There::LinkEndBefore => {
            let outside = rng.pick(&[inside, plan.n, 255]);
            let ends = rng.pick(&[(inside, outside), (outside, inside)]);
            lines.push(link_line(ends.0, ends.1));
        }
        There::LinkTwiceBefore => lines.push(known),
        There::LinkTextBefore => {
            let mut line = known;
            line[1 + rng.below(5)] = rng.pick(&FOREIGN);
            line.truncate(rng.pick(&[5, 6, 6]));
            lines.push(line);
        }
        There::LinkLengthBefore => {
            let tail = rng.pick(&[&b""[..], b"00", b"0001"]);
            lines.push([&known[..4], tail, tail].concat());
        }
        There::LinkCut => lines.push(late_link(rng, plan)),
        There::NoHeadBefore => {
            let first = [known, bad_set_line(0), start_line(7, None), group_line(0)];
            lines.insert(0, first[rng.below(4)].clone());
        }
        _ => {}
    }
}

/// The line before the place, where that one is a group and has a cause.
fn change_groups(rng: &mut Rng, plan: &Plan, groups: &mut Lines, there: There) {
    let known = group_line(0);
    match there {
        There::LinkAfterGroup => groups.push(late_link(rng, plan)),
        There::GroupSourceBefore => {
            let with_others = rng.between(0, 2u32.pow(plan.n) - 1);
            groups.push(group_line(with_others | 2u32.pow(plan.source)));
        }
        There::GroupOutsideBefore => {
            let outside = rng.between(plan.n, 23);
            let outside = rng.pick(&[plan.n, 20, 23, outside]).max(plan.n);
            groups.push(group_line(2u32.pow(outside)));
        }
        There::SeventeenthBefore => {
            let last = groups[groups.len() - 1].clone();
            groups.resize(MOST_GROUPS as usize + 1, last);
        }
        There::GroupTextBefore => {
            let mut line = known;
            line[1 + rng.below(7)] = rng.pick(&FOREIGN);
            line.truncate(rng.pick(&[7, 8, 8]));
            groups.push(line);
        }
        There::GroupLengthBefore => groups.push(group_of_wrong_length(rng)),
        There::GroupCut => groups.push(known),
        _ => {}
    }
}

/// What follows the links; with no change it is a right bad set, a start and words.
fn change_rest(rng: &mut Rng, plan: &Plan, rest: &mut Lines, there: There) {
    match there {
        There::Start => drop(rest.remove(0)),
        There::Word => {
            let zero = rng.pick(&[0, 1]);
            let form = rng.pick(&[Form::Old, Form::New]);
            let said = notice(1, 9 * zero as u16);
            rest.insert(0, word_in(form, (zero, 0, 1), said));
        }
        There::Notice => rest.insert(0, any_notice(rng)),
        There::NoticeAfterBadSet => rest.insert(1, any_notice(rng)),
        There::SameHead => rest.insert(0, head_line(plan)),
        There::WrongHead => {
            let wrong = rng.pick(&[b"01000000", b"01ffffff", b"01150000"]);
            rest.insert(0, wrong.to_vec());
        }
        There::UnknownKind => {
            let kind = rng.pick(&[0, 6, 8, 16, 17, 18, 129, 255]);
            rest.insert(0, digits(&[kind, 0, 1, 0][..rng.below(4) + 1]));
        }
        There::WrongLength => wrong_length(rng, &mut rest[0]),
        There::Foreign => {
            let at = rng.below(rest[0].len());
            rest[0][at] = rng.pick(&FOREIGN);
        }
        There::OddDigits => drop(rest[0].pop()),
        There::Empty => rest.insert(0, Vec::new()),
        There::Cut => {
            let start = start_in(Form::New, notice(1, 7), None);
            let last = [rest[0].clone(), head_line(plan), start, any_notice(rng)];
            *rest = vec![last[rng.below(4)].clone()];
        }
        There::End | There::LinkCut | There::GroupCut => rest.clear(),
        There::EndAfterBadSet => rest.truncate(1),
        There::LinkAfter => {
            if rng.chance(50) {
                rest[0] = head_line(plan);
            }
            rest.insert(1, late_link(rng, plan));
        }
        There::Group => rest.insert(0, group_line(0)),
        There::WrongGroup => {
            let wrong = rng.pick(&[plan.source, plan.n, 23]);
            rest.insert(0, group_line(2u32.pow(wrong)));
        }
        There::GroupLength => rest.insert(0, group_of_wrong_length(rng)),
        There::GroupAfterBadSet => rest.insert(1, group_line(0)),
        There::GroupAfter => {
            let group = rng.pick(&[0, 0, 2u32.pow(plan.source), 2u32.pow(plan.n)]);
            if rng.chance(25) {
                rest[0] = head_line(plan);
            }
            rest.insert(rng.pick(&[1, 1, 2]), group_line(group));
        }
        _ => {}
    }
}

/// A later notice, right in itself or not.
fn any_notice(rng: &mut Rng) -> Vec<u8> {
    let later = rng.pick(&[notice(2, 7), notice(0, 7), notice(2, 0)]);
    notice_line(rng.pick(&[0, 1, 1, 41]), later)
}

/// The line gets too long or too short, under its own kind or another.
fn wrong_length(rng: &mut Rng, line: &mut Vec<u8>) {
    match rng.below(3) {
        0 => line.truncate(rng.pick(&[2, 6])),
        1 => line.extend(b"00"),
        _ => {
            let kind = rng.pick(&[1, 3, 4, 5, 8]);
            *line = digits(&[kind, 2, 0, 0, 0, 0, 0][..rng.pick(&[1, 2, 7])]);
        }
    }
}

fn group_of_wrong_length(rng: &mut Rng) -> Vec<u8> {
    digits(&[7, 0, 0, 0, 0, 0][..rng.pick(&[1, 2, 3, 5, 6])])
}

/// The link that a deaf terminal lacks; any other where nobody is deaf.
fn late_link(rng: &mut Rng, plan: &Plan) -> Vec<u8> {
    let any = (plan.source + 1) % plan.n;
    let hearer = plan.deaf(Fault::None).first().copied().unwrap_or(any);
    let sender = (hearer + rng.between(1, plan.n - 1)) % plan.n;
    link_line(sender, hearer)
}
