//! Run files about the two forms of frames and about later notices: one wrong line in each, and the
//! cause that it gets.

use crate::draft::{bad_draft, join, notice_line, plan_draft, start_in, word_in, Draft};
use crate::notice::{notice, Form, Notice};
use crate::office::{Manner, Office};
use crate::output::digits;
use crate::plan::{Plan, Set};
use crate::plans::{strong_plan, thin_plan};
use crate::rng::Rng;

type Lines = Vec<Vec<u8>>;

/// What is wrong.
#[derive(Clone, Copy, Debug, PartialEq, Eq)]
pub enum Way {
    Nothing,
    NoticeInLastRound,
    OtherStart,
    SameStart,
    OldWordInNew,
    NewWordInOld,
    NoticeInOld,
    NoticeBeforeBadSet,
    NoticeBeforeStart,
    OldWordBeforeStart,
    NewWordBeforeStart,
    NoticeAfterWord,
    RoundZero,
    RoundPastLast,
    RoundTwice,
    RoundFalls,
    LayoutZero,
    EditionZero,
    EditionEqual,
    EditionLower,
    EditionOfStart,
    BothZero,
    LayoutZeroAndLower,
    OrderAndLayoutZero,
    OrderAndEditionZero,
    NoticeLength,
    NoticeInNoRounds,
    StartEditionZero,
    StartLayoutZero,
    StartBothZero,
    StartLong,
    StartLongAndEditionZero,
    StartLength,
    WordEditionZero,
    WordLayoutZero,
    WordBothZero,
    WordTwiceInOtherEdition,
    WordLength,
}

/// All of them, with the number that the file gets; 0 where it is accepted.
pub const WAYS: [(Way, u8); 38] = [
    (Way::Nothing, 0),
    (Way::NoticeInLastRound, 0),
    (Way::OtherStart, 2),
    (Way::SameStart, 3),
    (Way::OldWordInNew, 2),
    (Way::NewWordInOld, 2),
    (Way::NoticeInOld, 2),
    (Way::NoticeBeforeBadSet, 3),
    (Way::NoticeBeforeStart, 3),
    (Way::OldWordBeforeStart, 3),
    (Way::NewWordBeforeStart, 3),
    (Way::NoticeAfterWord, 3),
    (Way::RoundZero, 3),
    (Way::RoundPastLast, 3),
    (Way::RoundTwice, 3),
    (Way::RoundFalls, 3),
    (Way::LayoutZero, 9),
    (Way::EditionZero, 16),
    (Way::EditionEqual, 16),
    (Way::EditionLower, 16),
    (Way::EditionOfStart, 16),
    (Way::BothZero, 9),
    (Way::LayoutZeroAndLower, 9),
    (Way::OrderAndLayoutZero, 3),
    (Way::OrderAndEditionZero, 3),
    (Way::NoticeLength, 2),
    (Way::NoticeInNoRounds, 3),
    (Way::StartEditionZero, 16),
    (Way::StartLayoutZero, 9),
    (Way::StartBothZero, 9),
    (Way::StartLong, 9),
    (Way::StartLongAndEditionZero, 9),
    (Way::StartLength, 2),
    (Way::WordEditionZero, 10),
    (Way::WordLayoutZero, 10),
    (Way::WordBothZero, 10),
    (Way::WordTwiceInOtherEdition, 11),
    (Way::WordLength, 2),
];

/// A file that is wrong in this way.
pub fn mixed(rng: &mut Rng, way: Way) -> Vec<u8> {
    let form = form_for(rng, way);
    let mut file = Pieces::of(&base(rng, form, way));
    spoil_order(rng, &mut file, way);
    spoil_notice(rng, &mut file, way);
    spoil_start(rng, &mut file, way);
    spoil_word(rng, &mut file, way);
    file.join()
}

fn form_for(rng: &mut Rng, way: Way) -> Form {
    match way {
        Way::NewWordInOld | Way::NoticeInOld => Form::Old,
        Way::Nothing
        | Way::OtherStart
        | Way::SameStart
        | Way::NoticeBeforeBadSet
        | Way::NoticeBeforeStart
        | Way::OldWordBeforeStart
        | Way::NewWordBeforeStart
        | Way::StartLength => rng.pick(&[Form::Old, Form::New]),
        _ => Form::New,
    }
}

/// The lines of a run file, and what is needed to change them.
struct Pieces {
    form: Form,
    office: Office,
    rounds: u32,
    /// A link from a liar.
    link: (u32, u32),
    plan: Lines,
    /// The bad set alone, with what was put beside it.
    bad: Lines,
    start: Lines,
    notices: Lines,
    words: Lines,
}

impl Pieces {
    fn of(draft: &Draft) -> Pieces {
        let plan_lines = plan_draft(draft.plan.clone()).lines.len();
        let mut plan = draft.lines.clone();
        let mut bad = plan.split_off(plan_lines);
        let mut start = bad.split_off(1);
        let mut notices = start.split_off(1);
        let words = notices.split_off(draft.office.later.len());
        let mut links = draft.plan.links.iter();
        let link = links.find(|link| draft.bad.contains(&link.0));
        Pieces {
            form: draft.office.form,
            office: draft.office.clone(),
            rounds: draft.rounds,
            link: link.copied().unwrap_or((0, 1)),
            plan,
            bad,
            start,
            notices,
            words,
        }
    }

    fn join(self) -> Vec<u8> {
        let parts = [self.plan, self.bad, self.start, self.notices, self.words];
        join(&parts.concat())
    }

    /// A right word of this form, in a round that no other has.
    fn word(&self, form: Form) -> Vec<u8> {
        let (from, to) = self.link;
        word_in(form, (self.rounds, from, to), notice(1, 9))
    }
}

/// A small plan in which nobody is deaf and someone lies, but not in the last round. The office has
/// issued later notices, if at all, in rounds before that.
fn base(rng: &mut Rng, form: Form, way: Way) -> Draft {
    let rounds = match way {
        Way::NoticeInNoRounds => 0,
        _ => rng.between(4, 7),
    };
    let layout = rng.pick(&[7, 256]);
    let mut office = match form {
        Form::Old => Office::old(layout),
        Form::New => Office::new(notice(rng.pick(&[5, 300, 65_000]), layout)),
    };
    if form == Form::New && rounds > 0 {
        let rises = matches!(way, Way::RoundTwice | Way::RoundFalls | Way::EditionOfStart);
        for round in [2, 3]
            .into_iter()
            .take(rng.pick(&[0, 1, 2]).max(usize::from(rises)))
        {
            let edition = office.last().1.edition + rng.pick(&[2, 2, 257]);
            office.later.insert(round, notice(edition, 8));
        }
    }
    let (plan, bad) = lying_plan(rng);
    let manner = rng.pick(&[Manner::Silent, Manner::Once(1), Manner::Once(2)]);
    bad_draft(rng, plan, bad, Some(rounds), manner, office)
}

/// A plan in which one terminal that is heard is bad.
fn lying_plan(rng: &mut Rng) -> (Plan, Set) {
    loop {
        let n = rng.between(4, 6);
        let make = rng.pick(&[strong_plan as fn(&mut Rng, u32) -> Plan, thin_plan]);
        let plan = make(rng, n);
        let others = plan.links.iter().find(|link| link.0 != plan.source);
        let f = plan.bound.number;
        if let Some(&(liar, _)) = others.filter(|_| f > 0) {
            return (plan, Set::from([liar]));
        }
    }
}

/// Lines where they must not be, or of the other form.
fn spoil_order(rng: &mut Rng, file: &mut Pieces, way: Way) {
    let (other, right) = match file.form {
        Form::Old => (Form::New, notice(2, 9)),
        Form::New => (Form::Old, notice(1, 9)),
    };
    let later = notice_line(1, notice(65_535, 9));
    let rounds = rng.pick(&[None, Some(3), Some(41)]);
    let starts = |form: Form| start_in(form, right, rounds);
    match way {
        Way::OtherStart => anywhere(rng, file, starts(other)),
        Way::SameStart => anywhere(rng, file, starts(file.form)),
        Way::OldWordInNew => anywhere(rng, file, file.word(Form::Old)),
        Way::NewWordInOld => anywhere(rng, file, file.word(Form::New)),
        Way::NoticeInOld => anywhere(rng, file, later),
        Way::NoticeBeforeBadSet => file.plan.push(later),
        Way::NoticeBeforeStart => file.bad.push(later),
        Way::OldWordBeforeStart | Way::NewWordBeforeStart => {
            let form = match way {
                Way::OldWordBeforeStart => Form::Old,
                _ => Form::New,
            };
            let word = file.word(form);
            match rng.below(2) {
                0 => file.plan.push(word),
                _ => file.bad.push(word),
            }
        }
        _ => {}
    }
}

/// After the start: just there, after the later notices, or after the words.
fn anywhere(rng: &mut Rng, file: &mut Pieces, line: Vec<u8>) {
    match rng.below(3) {
        0 => file.start.push(line),
        1 => file.notices.push(line),
        _ => file.words.push(line),
    }
}

/// A wrong line of kind 08, after the right ones, in the next round where no round is asked for.
fn spoil_notice(rng: &mut Rng, file: &mut Pieces, way: Way) {
    let (before, last) = file.office.last();
    let (next, above) = (before + 1, last.edition + 1);
    let past = rng.pick(&[file.rounds + 1, 41, 255]);
    let out_of_order = rng.pick(&[0, before, past]);
    let start = file.office.start;
    let right = notice(above, 9);
    let lower = |layout: u16| notice(last.edition - 1, layout);
    let (round, later): (u32, Notice) = match way {
        Way::NoticeInLastRound => (file.rounds, right),
        Way::NoticeAfterWord => {
            file.words.push(file.word(Form::New));
            file.words.push(notice_line(next, right));
            return;
        }
        Way::RoundZero => (0, right),
        Way::RoundPastLast => (past, right),
        Way::RoundTwice => (before, right),
        Way::RoundFalls => (before - 1, right),
        Way::LayoutZero => (next, notice(above, 0)),
        Way::EditionZero => (next, notice(0, 9)),
        Way::EditionEqual => (next, notice(last.edition, 9)),
        Way::EditionLower => (next, lower(9)),
        Way::EditionOfStart => (next, rng.pick(&[start, notice(start.edition + 1, 9)])),
        Way::BothZero => (next, notice(0, 0)),
        Way::LayoutZeroAndLower => (next, lower(0)),
        Way::OrderAndLayoutZero => (out_of_order, notice(above, 0)),
        Way::OrderAndEditionZero => (out_of_order, notice(0, 9)),
        Way::NoticeInNoRounds => (rng.pick(&[0, 1]), right),
        Way::NoticeLength => {
            let line = notice_line(next, right);
            let length = rng.pick(&[2, 4, 8, 10]);
            let longer = [&line[..], b"0000"].concat();
            let longer = longer[..rng.pick(&[14, 16])].to_vec();
            let wrong = rng.pick(&[&line[..length], &longer[..]]).to_vec();
            file.notices.push(wrong);
            return;
        }
        _ => return,
    };
    file.notices.push(notice_line(round, later));
}

fn spoil_start(rng: &mut Rng, file: &mut Pieces, way: Way) {
    let rounds = rng.pick(&[None, Some(file.rounds)]);
    let long = Some(rng.pick(&[41, 41, 128, 255]));
    let (start, rounds) = match way {
        Way::StartEditionZero => (notice(0, 7), rounds),
        Way::StartLayoutZero => (notice(1, 0), rounds),
        Way::StartBothZero => (notice(0, 0), rounds),
        Way::StartLong => (notice(1, 7), long),
        Way::StartLongAndEditionZero => (notice(0, 7), long),
        Way::StartLength => {
            let bytes = [4, 0, 1, 0, 7, 3, 0, 0];
            let length = rng.pick(&[1, 2, 7, 8]);
            file.start = vec![digits(&bytes[..length])];
            return;
        }
        _ => return,
    };
    file.start = vec![start_in(Form::New, start, rounds)];
}

/// A wrong word of the new form.
fn spoil_word(rng: &mut Rng, file: &mut Pieces, way: Way) {
    let (from, to) = file.link;
    let at = (file.rounds, from, to);
    let edition = rng.pick(&[1, 5, 65_535]);
    let said = match way {
        Way::WordEditionZero => notice(0, 9),
        Way::WordLayoutZero => notice(edition, 0),
        Way::WordBothZero => notice(0, 0),
        Way::WordTwiceInOtherEdition => {
            file.words.push(word_in(Form::New, at, notice(edition, 9)));
            notice(edition - 1 + 2 * u16::from(edition == 1), 9)
        }
        Way::WordLength => {
            let line = word_in(Form::New, at, notice(edition, 9));
            let longer = [&line[..], b"00"].concat();
            let length = rng.pick(&[2, 8, 10, 14, 18]);
            file.words.push(longer[..length].to_vec());
            return;
        }
        _ => return,
    };
    file.words.push(word_in(Form::New, at, said));
}
