//! Run files about one radio for all: one wrong line in each, and the cause that it gets.

use crate::channel::{channel_bad, channel_of, channel_plan, Channel};
use crate::draft::{
    bad_set_line, default_line, group_line, head_line, join, link_line, notice_line, plan_draft,
    shared_word_line, start_in, start_line, word_in,
};
use crate::faults::Fault;
use crate::groups::Bound;
use crate::notice::{notice, Form};
use crate::output::digits;
use crate::plan::{bound_holds, number_of, Plan, Set};
use crate::plans::{any_plan, deafen, hear_at_source, random_bad_set, source_first};
use crate::rng::Rng;

type Lines = Vec<Vec<u8>>;

/// What is wrong, or is right and looks wrong.
#[derive(Clone, Copy, Debug, PartialEq, Eq)]
pub enum Way {
    Nothing,
    ModeOff,
    DefaultBeforeHead,
    DefaultTwice,
    DefaultAgainAfterBadSet,
    DefaultAgainAfterStart,
    DefaultAgainAfterWords,
    DefaultAfterBadSet,
    DefaultAfterStart,
    DefaultAfterNewStart,
    DefaultAfterWords,
    DefaultZero,
    DefaultZeroTwice,
    DefaultZeroAfterBadSet,
    DefaultZeroBeforeHead,
    DefaultLength,
    DefaultLengthAfterStart,
    HeadAfterDefault,
    LinkAfterDefault,
    GroupAfterDefault,
    StartAfterDefault,
    WordAfterDefault,
    WordBeforeStart,
    WordBeforeDefault,
    NoHearerBeforeStart,
    NoHearerInOld,
    NoHearerInNew,
    HearerAfterDefault,
    HearerBeforeStart,
    HearerInMode,
    EditionWordAfterDefault,
    EditionWordBeforeStart,
    EditionWordInMode,
    NoticeAfterDefault,
    NoticeBeforeStart,
    NoticeInMode,
    EditionStartAfterDefault,
    EditionStartForStart,
    EditionStartAfterStart,
    EditionStartBeforeDefault,
    SecondStart,
    StartLength,
    StartZero,
    StartLong,
    Deaf,
    DeafAndZero,
    DeafAndLength,
    NoGroup,
    NoGroupAndDeaf,
    BadSetOutside,
    BadSetAbove19,
    BadSetOverBound,
    BadSetOverBoundAtSource,
    BadSetWithSourceInBound,
    BadSetOutsideGroups,
    BadSetTwice,
    RoundZero,
    RoundPast,
    GoodSender,
    GoodSource,
    SenderOutside,
    WordZero,
    WordTwice,
    WordTwiceZero,
    WordInOtherRound,
    UnheardSender,
    WordLength,
    EndAfterDefault,
    EndAfterBadSet,
}

/// All of them, with the number that the file gets; 0 where it is accepted.
pub const WAYS: [(Way, u8); 69] = [
    (Way::Nothing, 0),
    (Way::ModeOff, 0),
    (Way::DefaultBeforeHead, 3),
    (Way::DefaultTwice, 3),
    (Way::DefaultAgainAfterBadSet, 3),
    (Way::DefaultAgainAfterStart, 3),
    (Way::DefaultAgainAfterWords, 3),
    (Way::DefaultAfterBadSet, 3),
    (Way::DefaultAfterStart, 3),
    (Way::DefaultAfterNewStart, 3),
    (Way::DefaultAfterWords, 3),
    (Way::DefaultZero, 9),
    (Way::DefaultZeroTwice, 3),
    (Way::DefaultZeroAfterBadSet, 3),
    (Way::DefaultZeroBeforeHead, 3),
    (Way::DefaultLength, 2),
    (Way::DefaultLengthAfterStart, 2),
    (Way::HeadAfterDefault, 3),
    (Way::LinkAfterDefault, 3),
    (Way::GroupAfterDefault, 3),
    (Way::StartAfterDefault, 3),
    (Way::WordAfterDefault, 3),
    (Way::WordBeforeStart, 3),
    (Way::WordBeforeDefault, 3),
    (Way::NoHearerBeforeStart, 3),
    (Way::NoHearerInOld, 2),
    (Way::NoHearerInNew, 2),
    (Way::HearerAfterDefault, 2),
    (Way::HearerBeforeStart, 2),
    (Way::HearerInMode, 2),
    (Way::EditionWordAfterDefault, 2),
    (Way::EditionWordBeforeStart, 2),
    (Way::EditionWordInMode, 2),
    (Way::NoticeAfterDefault, 2),
    (Way::NoticeBeforeStart, 2),
    (Way::NoticeInMode, 2),
    (Way::EditionStartAfterDefault, 2),
    (Way::EditionStartForStart, 2),
    (Way::EditionStartAfterStart, 2),
    (Way::EditionStartBeforeDefault, 3),
    (Way::SecondStart, 3),
    (Way::StartLength, 2),
    (Way::StartZero, 9),
    (Way::StartLong, 9),
    (Way::Deaf, 15),
    (Way::DeafAndZero, 15),
    (Way::DeafAndLength, 2),
    (Way::NoGroup, 17),
    (Way::NoGroupAndDeaf, 17),
    (Way::BadSetOutside, 7),
    (Way::BadSetAbove19, 7),
    (Way::BadSetOverBound, 8),
    (Way::BadSetOverBoundAtSource, 8),
    (Way::BadSetWithSourceInBound, 0),
    (Way::BadSetOutsideGroups, 8),
    (Way::BadSetTwice, 3),
    (Way::RoundZero, 10),
    (Way::RoundPast, 10),
    (Way::GoodSender, 10),
    (Way::GoodSource, 10),
    (Way::SenderOutside, 10),
    (Way::WordZero, 10),
    (Way::WordTwice, 11),
    (Way::WordTwiceZero, 10),
    (Way::WordInOtherRound, 0),
    (Way::UnheardSender, 0),
    (Way::WordLength, 2),
    (Way::EndAfterDefault, 3),
    (Way::EndAfterBadSet, 3),
];

/// A file that is wrong in this way.
pub fn shared_file(rng: &mut Rng, way: Way) -> Vec<u8> {
    let channel = base(rng, way);
    let mut file = Pieces::of(&channel);
    spoil_plan(rng, &mut file, way);
    spoil_default(rng, &mut file, way);
    spoil_bad_set(rng, &mut file, way);
    spoil_start(rng, &mut file, way);
    spoil_form(rng, &mut file, way);
    spoil_word(rng, &mut file, way);
    file.join()
}

/// The lines of a run file of this mode, and what they say.
struct Pieces {
    channel: Channel,
    plan: Lines,
    default: Lines,
    bad: Lines,
    start: Lines,
    words: Lines,
}

impl Pieces {
    fn of(channel: &Channel) -> Pieces {
        Pieces {
            plan: channel.plan_lines(),
            default: vec![default_line(channel.default)],
            bad: vec![channel.bad_line()],
            start: vec![channel.start_line()],
            words: channel.word_lines(),
            channel: channel.clone(),
        }
    }

    /// The same run in the old frames, without the default.
    fn switch_off(&mut self) {
        let plan = self.plan.len();
        let mut lines = self.channel.old_lines().split_off(plan);
        self.words = lines.split_off(2);
        self.start = lines.split_off(1);
        self.bad = lines;
        self.default.clear();
    }

    fn join(self) -> Vec<u8> {
        let parts = [self.plan, self.default, self.bad, self.start, self.words];
        join(&parts.concat())
    }

    /// A bad terminal, the source if it is one in half of the cases.
    fn liar(&self, rng: &mut Rng) -> u32 {
        let channel = &self.channel;
        let all: Vec<u32> = channel.bad.iter().copied().collect();
        match channel.source_bad() && rng.chance(50) {
            true => channel.plan.source,
            false => rng.pick(&all),
        }
    }

    /// A round that is played.
    fn round(&self, rng: &mut Rng) -> u32 {
        rng.between(1, self.channel.played())
    }

    /// After the start: just there, or after the words.
    fn later(&mut self, rng: &mut Rng, line: Vec<u8>) {
        match rng.below(2) {
            0 => self.start.push(line),
            _ => self.words.push(line),
        }
    }
}

/// A small plan in which somebody is bad, for some rounds.
fn base(rng: &mut Rng, way: Way) -> Channel {
    loop {
        let n = rng.between(3, 6);
        let plan = channel_plan(rng, n);
        let bad = match way {
            Way::BadSetOverBoundAtSource | Way::BadSetOverBound | Way::BadSetWithSourceInBound => {
                Set::from([plan.source])
            }
            _ => channel_bad(rng, &plan),
        };
        let rounds = rng.pick(&[None, Some(2), Some(4), Some(40)]);
        let channel = channel_of(rng, plan, bad, rounds);
        if suits(&channel, way) {
            return channel;
        }
    }
}

/// Whether a file can be wrong in this way.
fn suits(channel: &Channel, way: Way) -> bool {
    let (plan, bad) = (&channel.plan, &channel.bad);
    let some_good = (0..plan.n).any(|one| one != plan.source && !bad.contains(&one));
    let grouped = plan.bound.has_groups();
    let this_way = match way {
        Way::GoodSource => !channel.source_bad(),
        Way::GoodSender => some_good,
        Way::WordTwice | Way::WordTwiceZero => !channel.words.is_empty(),
        Way::BadSetOutsideGroups => grouped && in_no_group(plan).is_some(),
        Way::BadSetOverBound => !grouped && over_bound(plan, plan.n).is_some(),
        Way::BadSetOverBoundAtSource => !grouped && over_bound(plan, plan.source).is_some(),
        Way::BadSetWithSourceInBound => !grouped && just_bound(plan).is_some(),
        Way::UnheardSender => !grouped && plan.bound.number > 0,
        Way::ModeOff | Way::NoHearerInOld => bad.iter().any(|one| *one != plan.source),
        _ => true,
    };
    this_way && !bad.is_empty()
}

// ---- wrong lines

fn spoil_plan(rng: &mut Rng, file: &mut Pieces, way: Way) {
    let mut plan = file.channel.plan.clone();
    match way {
        Way::Deaf | Way::DeafAndZero | Way::DeafAndLength | Way::NoGroupAndDeaf => {
            deafen(rng, &mut plan);
        }
        Way::UnheardSender => {
            // Who is not heard by anybody may be bad beside all others.
            let n = plan.n;
            plan.n = n + 1;
            plan.links.insert((plan.source, n));
            file.channel.bad.insert(n);
        }
        _ => {}
    }
    if matches!(way, Way::NoGroup | Way::NoGroupAndDeaf) {
        plan.bound = Bound::groups(&[]);
    }
    if plan != file.channel.plan {
        file.channel.plan = plan;
        file.plan = file.channel.plan_lines();
        file.bad = vec![file.channel.bad_line()];
    }
}

fn spoil_default(rng: &mut Rng, file: &mut Pieces, way: Way) {
    let right = default_line(rng.pick(&[7, 9, 65_535]));
    let zero = default_line(0);
    let any = rng.pick(&[0, 9]);
    let any = default_line(any);
    match way {
        Way::DefaultBeforeHead => file.plan.insert(0, right),
        Way::DefaultZeroBeforeHead => file.plan.insert(0, zero),
        Way::DefaultTwice => file.default.push(any),
        Way::DefaultZeroTwice => file.default.push(zero),
        Way::DefaultAgainAfterBadSet => file.bad.push(any),
        Way::DefaultAgainAfterStart => file.start.push(any),
        Way::DefaultAgainAfterWords => file.words.push(any),
        Way::DefaultZero | Way::DeafAndZero => file.default = vec![zero],
        Way::DefaultLength | Way::DeafAndLength => {
            file.default = vec![default_of_wrong_length(rng)];
        }
        Way::DefaultLengthAfterStart => {
            let line = default_of_wrong_length(rng);
            file.later(rng, line);
        }
        Way::ModeOff => file.switch_off(),
        Way::DefaultAfterBadSet => {
            file.switch_off();
            file.bad.push(right);
        }
        Way::DefaultZeroAfterBadSet => {
            file.switch_off();
            file.bad.push(zero);
        }
        Way::DefaultAfterStart => {
            file.switch_off();
            file.start.push(any);
        }
        Way::DefaultAfterWords => {
            file.switch_off();
            file.words.push(any);
        }
        Way::DefaultAfterNewStart => {
            file.switch_off();
            file.words.clear();
            file.start = vec![start_in(Form::New, notice(1, 7), None), any];
        }
        _ => {}
    }
}

fn default_of_wrong_length(rng: &mut Rng) -> Vec<u8> {
    digits(&[9, rng.pick(&[0, 1]), 7, 0, 0][..rng.pick(&[1, 2, 4, 5])])
}

fn spoil_bad_set(rng: &mut Rng, file: &mut Pieces, way: Way) {
    let plan = file.channel.plan.clone();
    let mut bad = file.channel.bad.clone();
    let source = rng.pick(&[None, Some(plan.source)]);
    match way {
        Way::BadSetOutside => drop(bad.insert(rng.pick(&[plan.n, plan.n + 1, 19]).max(plan.n))),
        Way::BadSetAbove19 => drop(bad.insert(rng.between(20, 23))),
        Way::BadSetOverBound => bad = over_bound(&plan, plan.n).expect("it suits"),
        Way::BadSetOverBoundAtSource => {
            bad = over_bound(&plan, plan.source).expect("it suits");
        }
        Way::BadSetOutsideGroups => bad = in_no_group(&plan).expect("it suits"),
        Way::BadSetWithSourceInBound => bad = just_bound(&plan).expect("it suits"),
        Way::BadSetTwice => file.bad.push(file.bad[0].clone()),
        _ => return,
    }
    match way {
        Way::BadSetOverBound | Way::BadSetOverBoundAtSource | Way::BadSetOutsideGroups => {
            bad.extend(source);
        }
        Way::BadSetWithSourceInBound => {
            bad.insert(plan.source);
            file.channel.bad = bad.clone();
            file.words.clear();
        }
        _ => {}
    }
    file.bad[0] = bad_set_line(number_of(&bad));
}

/// The fewest of which this hearer hears too many, and nobody else does, where there are such. With n
/// for the hearer, any that is not the source.
fn over_bound(plan: &Plan, hearer: u32) -> Option<Set> {
    let f = plan.bound.number as usize;
    let hearers = (0..plan.n).filter(|&one| match hearer < plan.n {
        true => one == hearer,
        false => one != plan.source,
    });
    let mut found = None;
    for hearer in hearers {
        let mut heard: Vec<u32> = plan.heard_by(hearer).into_iter().collect();
        heard.retain(|&sender| sender != plan.source);
        if heard.len() <= f {
            continue;
        }
        let bad: Set = heard.into_iter().take(f + 1).collect();
        let mut without = plan.clone();
        without.links.retain(|link| link.1 != hearer);
        if bound_holds(&without, &bad, Fault::None) {
            found = Some(bad);
        }
    }
    found
}

/// As many as someone that hears the source may hear beside it.
fn just_bound(plan: &Plan) -> Option<Set> {
    let f = plan.bound.number as usize;
    let hearers = (0..plan.n).filter(|&one| plan.links.contains(&(plan.source, one)));
    let mut sets = hearers.map(|hearer| -> (u32, Set) {
        let heard = plan.heard_by(hearer).into_iter();
        let others = heard.filter(|&sender| sender != plan.source);
        (hearer, others.take(f).collect())
    });
    let right = |(hearer, bad): &(u32, Set)| {
        bad.len() == f && !bad.contains(hearer) && bound_holds(plan, bad, Fault::None)
    };
    sets.find(right).map(|(_, bad)| bad)
}

/// The first that are part of no group.
fn in_no_group(plan: &Plan) -> Option<Set> {
    let mut bad = Set::new();
    for terminal in (0..plan.n).filter(|&one| one != plan.source) {
        bad.insert(terminal);
        if !bound_holds(plan, &bad, Fault::None) {
            return Some(bad);
        }
    }
    None
}

fn spoil_start(rng: &mut Rng, file: &mut Pieces, way: Way) {
    let rounds = file.channel.rounds;
    let new = start_in(
        Form::New,
        notice(rng.pick(&[0, 1, 2]), 7),
        rng.pick(&[rounds, Some(41)]),
    );
    match way {
        Way::StartZero => file.start = vec![start_line(0, rounds)],
        Way::StartLong => file.start = vec![start_line(7, Some(rng.pick(&[41, 128, 255])))],
        Way::StartLength => {
            let bytes = [4, 0, 1, 0, 7, 3, 0, 0];
            file.start = vec![digits(&bytes[..rng.pick(&[1, 2, 7, 8])])];
        }
        Way::SecondStart => {
            let line = start_line(rng.pick(&[0, 7]), rng.pick(&[None, Some(3), Some(41)]));
            file.later(rng, line);
        }
        Way::StartAfterDefault => file.default.push(start_line(7, rounds)),
        Way::EditionStartAfterDefault => file.default.push(new),
        Way::EditionStartForStart => file.start = vec![new],
        Way::EditionStartAfterStart => file.later(rng, new),
        Way::EditionStartBeforeDefault => file.plan.push(new),
        Way::EndAfterDefault => {
            file.bad.clear();
            file.start.clear();
            file.words.clear();
        }
        Way::EndAfterBadSet => {
            file.start.clear();
            file.words.clear();
        }
        _ => {}
    }
}

/// Frames of another form, or where they must not be.
fn spoil_form(rng: &mut Rng, file: &mut Pieces, way: Way) {
    let (round, from) = (file.round(rng), file.liar(rng));
    let to = rng.between(0, file.channel.plan.n - 1);
    let zero = rng.pick(&[0, 9]);
    let hearer = word_in(Form::Old, (round, from, to), notice(1, zero));
    let edition = word_in(Form::New, (round, from, to), notice(1, zero));
    let later = notice_line(round, notice(2, zero));
    let plan = file.channel.plan.clone();
    match way {
        Way::HeadAfterDefault => file.default.push(head_line(&plan)),
        Way::LinkAfterDefault => {
            let ends = rng.pick(&[(plan.source, to), (to, plan.n), (from, to)]);
            file.default.push(link_line(ends.0, ends.1));
        }
        Way::GroupAfterDefault => {
            let group = rng.pick(&[0, 2u32.pow(from), 2u32.pow(plan.source), 2u32.pow(plan.n)]);
            file.default.push(group_line(group));
        }
        Way::HearerAfterDefault => file.default.push(hearer),
        Way::HearerBeforeStart => file.bad.push(hearer),
        Way::HearerInMode => file.later(rng, hearer),
        Way::EditionWordAfterDefault => file.default.push(edition),
        Way::EditionWordBeforeStart => file.bad.push(edition),
        Way::EditionWordInMode => file.later(rng, edition),
        Way::NoticeAfterDefault => file.default.push(later),
        Way::NoticeBeforeStart => file.bad.push(later),
        Way::NoticeInMode => file.later(rng, later),
        _ => {}
    }
}

fn spoil_word(rng: &mut Rng, file: &mut Pieces, way: Way) {
    let plan = file.channel.plan.clone();
    let (round, from) = (file.round(rng), file.liar(rng));
    let last = file.channel.played();
    let good: Vec<u32> = (0..plan.n)
        .filter(|one| *one != plan.source && !file.channel.bad.contains(one))
        .collect();
    let right = shared_word_line(round, from, 9);
    let any = shared_word_line(rng.pick(&[0, 1, 255]), from, rng.pick(&[0, 9]));
    let line = match way {
        Way::WordAfterDefault => return file.default.push(any),
        Way::WordBeforeStart => return file.bad.push(any),
        Way::WordBeforeDefault => return file.plan.push(any),
        Way::NoHearerBeforeStart => {
            file.switch_off();
            let place = rng.pick(&[0, 1]);
            return [&mut file.plan, &mut file.bad][place].push(any);
        }
        Way::NoHearerInOld => {
            file.switch_off();
            right
        }
        Way::NoHearerInNew => {
            file.switch_off();
            file.words.clear();
            file.start = vec![start_in(Form::New, notice(1, 7), file.channel.rounds)];
            right
        }
        Way::RoundZero => shared_word_line(0, from, 9),
        Way::RoundPast => shared_word_line(rng.pick(&[last + 1, 41, 255]), from, 9),
        Way::GoodSender => shared_word_line(round, rng.pick(&good), 9),
        Way::GoodSource => shared_word_line(round, plan.source, 9),
        Way::SenderOutside => {
            let outside = rng.pick(&[plan.n, plan.n + 1, 20, 32, 255]);
            shared_word_line(round, outside, 9)
        }
        Way::WordZero => {
            file.words.clear();
            shared_word_line(round, from, 0)
        }
        Way::WordTwice | Way::WordTwiceZero => {
            let words: Vec<(u32, u32)> = file.channel.words.keys().copied().collect();
            let (round, from) = rng.pick(&words);
            let layout = match way {
                Way::WordTwice => rng.pick(&[file.channel.words[&(round, from)], 9]),
                _ => 0,
            };
            file.words.push(shared_word_line(round, from, layout));
            return;
        }
        Way::WordInOtherRound => {
            let sender = from;
            file.words = [1, last]
                .into_iter()
                .take(last.min(2) as usize)
                .map(|round| shared_word_line(round, sender, 9))
                .collect();
            return;
        }
        Way::UnheardSender => {
            let unheard = plan.n - 1;
            shared_word_line(round.min(last), unheard, 9)
        }
        Way::WordLength => {
            let bytes = [5, 1, from as u8, 0, 0, 9, 0, 0, 0];
            digits(&bytes[..rng.pick(&[1, 2, 3, 4, 7, 9])])
        }
        _ => return,
    };
    file.later(rng, line);
}

/// A right file into which lines of all kinds come by chance, and from which one may be lost. What is
/// right then depends on all that stands before it.
pub fn any_order(rng: &mut Rng) -> Vec<u8> {
    let channel = base(rng, Way::Nothing);
    let mut lines = channel.lines();
    if rng.chance(30) {
        lines = channel.old_lines();
    }
    let after_links = 1 + channel.plan.links.len();
    if rng.chance(40) {
        let at = rng
            .between(0, lines.len() as u32 - 1)
            .max(after_links as u32 - 1);
        lines.remove(at as usize);
    }
    for _ in 0..rng.between(1, 3) {
        let line = any_line(rng, &channel);
        let early = rng.below(lines.len() + 1);
        let late = after_links.min(lines.len());
        let late = late + rng.below(lines.len() - late + 1);
        lines.insert(rng.pick(&[late, late, late, early]), line);
    }
    join(&lines)
}

/// A line of any kind and form, right in itself for the most part.
fn any_line(rng: &mut Rng, channel: &Channel) -> Vec<u8> {
    let plan = &channel.plan;
    let (from, to) = (rng.between(0, plan.n - 1), rng.between(0, plan.n - 1));
    let round = rng.between(1, channel.played());
    let layout = rng.pick(&[0, 5, 7, 9]);
    let said = notice(1, layout);
    match rng.below(12) {
        0 => head_line(plan),
        1 => link_line(from, to),
        2 => group_line(2u32.pow(from)),
        3 | 4 => default_line(layout),
        5 => channel.bad_line(),
        6 => start_line(layout, channel.rounds),
        7 => start_in(Form::New, said, channel.rounds),
        8 => notice_line(round, notice(2, layout)),
        9 => word_in(Form::Old, (round, from, to), said),
        10 => word_in(Form::New, (round, from, to), said),
        _ => shared_word_line(round, from, layout),
    }
}

/// A plan with a default at any place but the first, for the readers that lack it.
pub fn plan_with_default(rng: &mut Rng) -> Vec<u8> {
    let n = rng.between(2, 7);
    let plan = channel_plan(rng, n);
    let mut lines = plan_draft(plan).lines;
    let line = match rng.below(4) {
        0 => default_of_wrong_length(rng),
        1 => default_line(0),
        _ => default_line(7),
    };
    let at = rng.pick(&[0, 1, lines.len(), lines.len(), lines.len()]);
    lines.insert(at, line);
    join(&lines)
}

/// A plan, and a set that is over the bound at the source alone, which is bad or good.
pub fn over_at_source(rng: &mut Rng) -> (Plan, Set) {
    loop {
        let n = rng.between(3, 8);
        let mut plan = any_plan(rng, n);
        hear_at_source(rng, &mut plan);
        if let Some(mut bad) = over_bound(&plan, plan.source) {
            bad.extend(rng.pick(&[None, Some(plan.source)]));
            return (plan, bad);
        }
    }
}

/// A set for the check of this mode: a bad set with the source or without it, or one that breaks the
/// bound at the source alone.
pub fn proposed_set(rng: &mut Rng, plan: &Plan) -> Set {
    let mut bad = match rng.below(6) {
        0 => source_first(rng, plan)
            .split_off(1)
            .into_iter()
            .take(2)
            .collect(),
        1..=3 if !plan.bound.has_groups() => {
            let hearer = rng.pick(&[plan.source, plan.source, plan.n]);
            over_bound(plan, hearer).unwrap_or_default()
        }
        4 if !plan.bound.has_groups() => just_bound(plan).unwrap_or_default(),
        _ => random_bad_set(rng, plan, 100),
    };
    if rng.chance(60) {
        bad.insert(plan.source);
    }
    if rng.chance(10) {
        bad.insert(rng.between(plan.n.min(31), 31));
    }
    bad
}
