//! Plan files and run files: from lines of hexadecimal digits to a plan or a run.

use crate::faults::Fault;
use crate::frames::{frame_bytes, length_fits, Known};
use crate::greatest;
use crate::groups::{group_allowed, Bound, MOST_GROUPS};
use crate::margins;
use crate::notice::{notice, Form, Notice, OLD_EDITION};
use crate::output::GROUPS_LISTED;
use crate::plan::{
    bound_holds, head_in_range, link_in_range, members_allowed, set_of, Cause, Plan, Set,
};
use crate::quote;
use crate::run::{last_round, rises};
use crate::shared::set_cause;
use std::collections::BTreeMap;

pub const LONGEST_FILE: usize = 24_576;

/// A refused file: the cause and the line, from 1, or 0 for the whole file.
#[derive(Clone, Copy, Debug, PartialEq, Eq)]
pub struct Refusal {
    pub cause: Cause,
    pub line: u16,
}

/// All that a run file says; later notices by round, words by (round, sender, hearer), those without
/// hearer by (round, sender).
#[derive(Clone, Debug, PartialEq, Eq)]
pub struct RunFile {
    pub plan: Plan,
    pub bad: Set,
    pub form: Form,
    pub start: Notice,
    pub rounds: u32,
    pub later: BTreeMap<u32, Notice>,
    pub words: BTreeMap<(u32, u32, u32), Notice>,
    /// The default layout, where one radio is for all.
    pub default: Option<u16>,
    pub shared_words: BTreeMap<(u32, u32), u16>,
}

/// A plan already on file, with the terminals in it that hear nobody.
#[derive(Clone, Debug, PartialEq, Eq)]
pub struct Filed {
    pub plan: Plan,
    pub deaf: Set,
}

/// A new plan.
pub fn read_plan(text: &[u8], fault: Fault) -> Result<Plan, Refusal> {
    read(text, Reader::Plan, fault).map(|reading| reading.file.plan)
}

/// A new plan from the quoting page.
pub fn read_quote(text: &[u8], fault: Fault) -> Result<Plan, Refusal> {
    let read = read(text, Reader::Quote, fault).map(|reading| reading.file.plan);
    quote::told_late(text, read, fault)
}

/// A new plan for the fitter.
pub fn read_margins(text: &[u8], fault: Fault) -> Result<Plan, Refusal> {
    let read = read(text, Reader::Margins, fault).map(|reading| reading.file.plan);
    read.map_err(|refusal| margins::retold(text, refusal, fault))
}

/// A drawing from the archive, of which the greatest f is asked.
pub fn read_greatest(text: &[u8], fault: Fault) -> Result<Plan, Refusal> {
    let read = read(text, Reader::Greatest, fault).map(|reading| reading.file.plan);
    read.map_err(|refusal| greatest::retold(text, refusal, fault))
}

/// A plan from the archive.
pub fn read_archive(text: &[u8], fault: Fault) -> Result<Filed, Refusal> {
    let plan = read(text, Reader::Archive, fault)?.file.plan;
    let deaf = plan.deaf(fault);
    Ok(Filed { plan, deaf })
}

/// A new plan with a run of it.
pub fn read_run(text: &[u8], fault: Fault) -> Result<RunFile, Refusal> {
    read(text, Reader::Run, fault).map(|reading| reading.file)
}

/// Who reads. Only the archive opens plans with deaf terminals, also to ask for the greatest f; nobody
/// opens one that has ff for f and no group. Only the quoting page is bounded to few terminals. For the
/// fitter and where the greatest f is asked there are no groups: ff is an f out of range.
#[derive(Clone, Copy, PartialEq, Eq)]
enum Reader {
    Plan,
    Quote,
    Margins,
    Greatest,
    Archive,
    Run,
}

impl Reader {
    fn knows(self, kind: u8, fault: Fault) -> bool {
        match kind {
            1 | 2 => true,
            7 if fault == Fault::GroupNotQuoted => self != Reader::Quote,
            7 if fault == Fault::GroupUnknownToMargins => self != Reader::Margins,
            7 if fault == Fault::GroupUnknownToGreatest => self != Reader::Greatest,
            7 => fault != Fault::GroupKindUnknown,
            8 if fault == Fault::NoticeUnknown => false,
            8 if fault == Fault::NoticeKnownInPlans => true,
            9 if fault == Fault::DefaultUnknown => false,
            9 if fault == Fault::DefaultKnownInPlans => true,
            3..=5 | 8 | 9 => self == Reader::Run,
            _ => false,
        }
    }

    /// Whether ff in a head says that groups are listed.
    fn lists_groups(self, fault: Fault) -> bool {
        match (self, fault) {
            (_, Fault::HeadOfGroupsRefused) => false,
            (Reader::Margins, fault) => fault == Fault::MarginGroupsAccepted,
            (Reader::Greatest, fault) => fault == Fault::GreatestGroupsAccepted,
            _ => true,
        }
    }

    fn refuses_no_group(self, fault: Fault) -> bool {
        match fault {
            Fault::NoGroupAccepted => false,
            Fault::NoGroupInArchiveAccepted => self != Reader::Archive,
            _ => true,
        }
    }

    fn refuses_deaf(self, fault: Fault) -> bool {
        match self {
            Reader::Plan => true,
            Reader::Quote => fault != Fault::DeafQuoted,
            Reader::Margins => fault != Fault::DeafInMargins,
            Reader::Greatest => fault == Fault::GreatestDeafRefused,
            Reader::Archive => fault == Fault::DeafInArchive,
            Reader::Run => fault != Fault::DeafNotInRuns,
        }
    }

    /// Whether the head is asked for cause 14.
    fn refuses_many(self, fault: Fault) -> bool {
        match self {
            Reader::Plan => fault == Fault::QuoteLimitInVerdict,
            Reader::Quote => !quote::is_late(fault),
            Reader::Margins => fault == Fault::QuoteLimitInMargins,
            Reader::Greatest => fault == Fault::QuoteLimitInGreatest,
            Reader::Archive => fault == Fault::QuoteLimitInArchive,
            Reader::Run => fault == Fault::QuoteLimitInRuns,
        }
    }
}

/// What the lines so far allow next.
#[derive(Clone, Copy, PartialEq, Eq)]
enum Stage {
    Head,
    Links,
    Groups,
    BadSet,
    Start,
    Notices,
    Words,
}

struct Reading {
    reader: Reader,
    stage: Stage,
    known: Known,
    file: RunFile,
}

/// Why a line is refused, and whether the cause is one of the whole plan.
struct Found {
    cause: Cause,
    whole: bool,
}

impl From<Cause> for Found {
    fn from(cause: Cause) -> Found {
        Found {
            cause,
            whole: false,
        }
    }
}

fn read(text: &[u8], reader: Reader, fault: Fault) -> Result<Reading, Refusal> {
    if text.is_empty() || text.len() > LONGEST_FILE {
        return refuse(Cause::Text, 0, fault);
    }
    let plan = Plan::new(0, 0, 0);
    let file = RunFile {
        plan,
        bad: Set::new(),
        form: Form::Old,
        start: Notice::default(),
        rounds: 0,
        later: BTreeMap::new(),
        words: BTreeMap::new(),
        default: None,
        shared_words: BTreeMap::new(),
    };
    let mut reading = Reading {
        reader,
        stage: Stage::Head,
        known: Known::default(),
        file,
    };
    let first = if fault == Fault::LinesFromZero { 0 } else { 1 };
    for (line, piece) in (first..).zip(text.split_inclusive(|&byte| byte == 10)) {
        if let Err(found) = reading.take_line(piece, fault) {
            let found = reading.hidden_by_many(found, piece, fault);
            // What is wrong with the whole plan is told with line 0, wherever it was seen.
            let line = if found.whole { 0 } else { line };
            return refuse(found.cause, line, fault);
        }
    }
    match reading.take_end(fault) {
        Err(found) => refuse(found.cause, 0, fault),
        Ok(()) => Ok(reading),
    }
}

fn refuse(cause: Cause, line: u16, fault: Fault) -> Result<Reading, Refusal> {
    let cause = match (fault, cause) {
        (Fault::KindAndOrderExchanged, Cause::Kind) => Cause::Order,
        (Fault::KindAndOrderExchanged, Cause::Order) => Cause::Kind,
        _ => cause,
    };
    let line = match (fault, cause) {
        (Fault::QuoteWithoutLine, Cause::TooMany) => 0,
        _ => line,
    };
    Err(Refusal { cause, line })
}

/// The first of the causes that were found on a line.
fn lowest(found: &[(bool, Cause)]) -> Result<(), Cause> {
    let causes = found
        .iter()
        .filter(|(applies, _)| *applies)
        .map(|(_, cause)| *cause);
    causes.min().map_or(Ok(()), Err)
}

impl Reading {
    fn take_line(&mut self, piece: &[u8], fault: Fault) -> Result<(), Found> {
        let Some(frame) = frame_bytes(piece, fault) else {
            if !piece.starts_with(b"02") && !piece.starts_with(b"07") {
                self.ends_early(None, Cause::Text, fault)?;
            }
            return Err(Cause::Text.into());
        };
        let kind = frame[0];
        let length = frame.len();
        if !self.reader.knows(kind, fault) || !length_fits(kind, length, self.known, fault) {
            if self.is_place(kind, fault) {
                self.ends_early(Some(kind), Cause::Kind, fault)?;
            }
            return Err(Cause::Kind.into());
        }
        let rest: Vec<u32> = frame[1..].iter().map(|&byte| u32::from(byte)).collect();
        let ended = if self.is_place(kind, fault) {
            self.plan_ends(Some(kind), fault)
        } else if kind == 7 && fault == Fault::FirstGroupEndsLinks {
            self.check_deaf(Some(kind), fault)
        } else {
            Ok(())
        };
        let after_line = match fault {
            Fault::DeafAfterLine => Some(Cause::Deaf),
            Fault::NoGroupAfterLine => Some(Cause::Group),
            _ => None,
        };
        match ended {
            Err(found) if Some(found.cause) != after_line => Err(found),
            ended => {
                self.take_frame(kind, &rest, fault)?;
                ended
            }
        }
    }

    /// Whether a frame of this kind ends the plan: the first one after the head that is no link,
    /// and no group either where groups are listed.
    fn is_place(&self, kind: u8, fault: Fault) -> bool {
        let in_plan = match kind {
            2 => self.stage != Stage::Groups || fault != Fault::LateLinkEndsPlan,
            7 if self.file.plan.bound.has_groups() => true,
            7 => fault == Fault::GroupBesideNumberNoPlace,
            8 => fault == Fault::NoticeNoPlace,
            9 => fault == Fault::DefaultNoPlace,
            _ => false,
        };
        matches!(self.stage, Stage::Links | Stage::Groups) && !in_plan
    }

    /// Where the plan ends, at a frame or at the end of the file: cause 17 of a plan that has ff
    /// for f and no group, then cause 15.
    fn plan_ends(&self, at: Option<u8>, fault: Fault) -> Result<(), Found> {
        if fault == Fault::NoGroupAfterDeaf {
            self.check_deaf(at, fault)?;
        }
        self.check_no_group(at, fault)?;
        self.check_deaf(at, fault)
    }

    /// The planted faults that look for these before the causes 1 and 2 of the line.
    fn ends_early(&self, at: Option<u8>, before: Cause, fault: Fault) -> Result<(), Found> {
        match (fault, before) {
            (Fault::DeafBeforeText, Cause::Text) => self.check_deaf(at, fault),
            (Fault::DeafBeforeKind, Cause::Kind) => self.check_deaf(at, fault),
            (Fault::NoGroupBeforeText, Cause::Text) => self.check_no_group(at, fault),
            (Fault::NoGroupBeforeKind, Cause::Kind) => self.check_no_group(at, fault),
            _ => Ok(()),
        }
    }

    /// The planted faults by which cause 14 hides another one of the line.
    fn hidden_by_many(&self, found: Found, piece: &[u8], fault: Fault) -> Found {
        match quote::hides_on_line(found.cause, piece, fault) {
            true if self.reader == Reader::Quote => Cause::TooMany.into(),
            _ => found,
        }
    }

    fn check_no_group(&self, at: Option<u8>, fault: Fault) -> Result<(), Found> {
        let bound = &self.file.plan.bound;
        let none = bound.has_groups() && bound.number == 0;
        let here = match fault {
            Fault::NoGroupAtEndOnly => at.is_none(),
            _ => self.stage == Stage::Links,
        };
        if here && none && self.reader.refuses_no_group(fault) {
            return Err(Found {
                cause: Cause::Group,
                whole: fault != Fault::NoGroupWithLine,
            });
        }
        Ok(())
    }

    fn check_deaf(&self, at: Option<u8>, fault: Fault) -> Result<(), Found> {
        let open = matches!(self.stage, Stage::Links | Stage::Groups);
        let here = match fault {
            Fault::DeafAtEndOnly => at.is_none(),
            Fault::DeafAtBadSetOnly => open && matches!(at, None | Some(3)),
            _ => open,
        };
        let groups = self.file.plan.bound.has_groups();
        let passed_over = groups && fault == Fault::DeafNotWithGroups;
        let asked = here && self.reader.refuses_deaf(fault) && !passed_over;
        if asked && !self.file.plan.deaf(fault).is_empty() {
            return Err(Found {
                cause: Cause::Deaf,
                whole: fault != Fault::DeafWithLine,
            });
        }
        Ok(())
    }

    /// The end of the file: it may be where the plan ends, and a frame may be missing.
    fn take_end(&self, fault: Fault) -> Result<(), Found> {
        let started = matches!(self.stage, Stage::Notices | Stage::Words);
        let missing = self.reader == Reader::Run && !started;
        let ended = self.plan_ends(None, fault);
        let after_missing = match fault {
            Fault::MissingBeforeDeaf => Some(Cause::Deaf),
            Fault::MissingBeforeNoGroup => Some(Cause::Group),
            _ => None,
        };
        match ended {
            Err(found) if Some(found.cause) != after_missing => Err(found),
            _ if missing => Err(Cause::Order.into()),
            ended => ended,
        }
    }

    fn take_frame(&mut self, kind: u8, rest: &[u32], fault: Fault) -> Result<(), Cause> {
        let late_link = fault == Fault::LinkAfterGroupAccepted;
        match (self.stage, kind) {
            (Stage::Head, 1) => self.take_head(rest, fault),
            (Stage::Links, 2) => self.take_link(rest, fault),
            (Stage::Groups, 2) if late_link => self.take_link(rest, fault),
            (Stage::Links | Stage::Groups, 7) => self.take_group(rest, fault),
            (Stage::Start, 7) if fault == Fault::GroupAfterBadSetAccepted => {
                self.take_group(rest, fault)?;
                self.stage = Stage::Start;
                Ok(())
            }
            (_, 9) => self.take_default(rest, fault),
            (Stage::BadSet, 2) if fault == Fault::LinkAfterDefaultAccepted => {
                self.take_link(rest, fault)
            }
            (Stage::BadSet, 7) if fault == Fault::GroupAfterDefaultAccepted => {
                self.take_group(rest, fault)?;
                self.stage = Stage::BadSet;
                Ok(())
            }
            (Stage::Links | Stage::Groups | Stage::BadSet, 3) => self.take_bad_set(rest, fault),
            (Stage::Start, 4) => self.take_start(rest, fault),
            (Stage::Notices, 8) => self.take_notice(rest, fault),
            (Stage::Words, 8) if fault == Fault::NoticeAfterWordAccepted => {
                self.take_notice(rest, fault)
            }
            (Stage::Notices | Stage::Words, 5) if self.known.shared || rest.len() == 4 => {
                self.take_shared_word(rest, fault)
            }
            (Stage::Notices | Stage::Words, 5) => self.take_word(rest, fault),
            _ => Err(Cause::Order),
        }
    }

    fn take_head(&mut self, rest: &[u32], fault: Fault) -> Result<(), Cause> {
        let (n, source, number) = (rest[0], rest[1], rest[2]);
        let listed = number == u32::from(GROUPS_LISTED) && self.reader.lists_groups(fault);
        let bound = if listed {
            Bound::groups(&[])
        } else {
            Bound::f(number)
        };
        let many = self.reader.refuses_many(fault) && quote::too_many(n, listed, fault);
        let in_range = match self.reader {
            Reader::Greatest => {
                greatest::file_head_allowed(n, source, (!listed).then_some(number), fault)
            }
            _ => head_in_range(n, source, &bound),
        };
        lowest(&[(many, Cause::TooMany), (!in_range, Cause::Head)])?;
        self.file.plan = Plan::with(n, source, bound);
        self.stage = Stage::Links;
        Ok(())
    }

    fn take_link(&mut self, rest: &[u32], fault: Fault) -> Result<(), Cause> {
        let link = (rest[0], rest[1]);
        let outside = !link_in_range(self.file.plan.n, link.0, link.1);
        let twice = self.file.plan.links.contains(&link) && fault != Fault::LinkTwiceAccepted;
        lowest(&[(twice, Cause::LinkTwice), (outside, Cause::LinkEnd)])?;
        self.file.plan.links.insert(link);
        Ok(())
    }

    /// Groups stand only where groups are listed instead of f.
    fn take_group(&mut self, rest: &[u32], fault: Fault) -> Result<(), Cause> {
        let plan = &mut self.file.plan;
        let group = match fault {
            Fault::GroupHighByteIgnored => named_set(&[0, rest[1], rest[2]]),
            Fault::GroupLowByteFirst => named_set(&[rest[2], rest[1], rest[0]]),
            _ => named_set(rest),
        };
        let out_of_order = !plan.bound.has_groups();
        let sixteen = plan.bound.has_groups() && plan.bound.number >= MOST_GROUPS;
        let too_many = sixteen && fault != Fault::SeventeenthGroupAccepted;
        let wrong = !group_allowed(plan.n, plan.source, &group, fault);
        let twice = plan.bound.listed().contains(&group);
        if wrong && fault == Fault::GroupBeforeOrder {
            return Err(Cause::Group);
        }
        lowest(&[
            (wrong || too_many, Cause::Group),
            (out_of_order, Cause::Order),
            (twice && fault == Fault::GroupTwiceRefused, Cause::Group),
            (
                group.is_empty() && fault == Fault::EmptyGroupRefused,
                Cause::Group,
            ),
        ])?;
        self.stage = Stage::Groups;
        let dropped = match fault {
            Fault::GroupTwiceDropped => twice,
            Fault::EmptyGroupDropped => group.is_empty(),
            _ => false,
        };
        if !dropped {
            plan.bound.add(group);
        }
        Ok(())
    }

    /// The default layout ends links and groups, and sets the mode. Only the bad set may follow.
    fn take_default(&mut self, rest: &[u32], fault: Fault) -> Result<(), Cause> {
        let default = two_bytes(rest);
        let in_order = match self.stage {
            Stage::Links | Stage::Groups => true,
            Stage::BadSet => fault == Fault::SecondDefaultAccepted,
            Stage::Start => fault == Fault::DefaultAfterBadSetAccepted && !self.known.shared,
            Stage::Notices => fault == Fault::DefaultAfterStartAccepted && !self.known.shared,
            _ => false,
        };
        let zero = default == 0 && fault != Fault::DefaultZeroAccepted;
        if zero && fault == Fault::DefaultZeroBeforeOrder {
            return Err(Cause::Start);
        }
        lowest(&[(zero, Cause::Start), (!in_order, Cause::Order)])?;
        self.file.default = Some(default);
        self.known.shared = true;
        if matches!(self.stage, Stage::Links | Stage::Groups) {
            self.stage = Stage::BadSet;
        }
        Ok(())
    }

    fn take_bad_set(&mut self, rest: &[u32], fault: Fault) -> Result<(), Cause> {
        let plan = &self.file.plan;
        let bad = named_set(rest);
        if self.known.shared {
            set_cause(plan, &bad, fault)?;
        } else if !members_allowed(plan, &bad, fault) {
            return Err(Cause::BadSetMember);
        } else if !bound_holds(plan, &bad, fault) {
            return Err(Cause::BadSetBound);
        }
        self.file.bad = bad;
        self.stage = Stage::Start;
        Ok(())
    }

    fn take_start(&mut self, rest: &[u32], fault: Fault) -> Result<(), Cause> {
        let (form, start, named) = match rest {
            [_, _] | [_, _, _] => (Form::Old, old_notice(rest, fault), rest.get(2)),
            _ => (Form::New, new_notice(rest), rest.get(4)),
        };
        let rounds = rounds_of(named.copied(), self.file.plan.n, fault);
        let no_edition = start.edition == 0 && fault != Fault::EditionZeroStartAccepted;
        let wrong = start.layout == 0 || rounds > last_round(fault);
        first_of_start(wrong, no_edition, fault)?;
        self.known.form = Some(form);
        self.file.form = form;
        self.file.start = start;
        self.file.rounds = rounds;
        self.stage = Stage::Notices;
        Ok(())
    }

    /// The office's later notice: its round, then the notice. What is out of order comes first.
    fn take_notice(&mut self, rest: &[u32], fault: Fault) -> Result<(), Cause> {
        let (round, later) = (rest[0], new_notice(&rest[1..]));
        let file = &mut self.file;
        let before = file.later.last_key_value();
        let last_round = before.map_or(0, |(round, _)| *round);
        let last = match fault {
            Fault::LaterBesideStartOnly => file.start.edition,
            _ => before.map_or(file.start.edition, |(_, notice)| notice.edition),
        };
        let past = round > file.rounds && fault != Fault::NoticePastLastAccepted;
        let rising = match fault {
            Fault::NoticeRoundZeroAccepted if round == 0 => true,
            Fault::NoticeRoundTwiceAccepted if round > 0 => round >= last_round,
            Fault::NoticeRoundsFallAccepted => round > 0 && round != last_round,
            _ => round > last_round,
        };
        let stays = !rises(last, later.edition, fault);
        match fault {
            Fault::LayoutBeforeOrder if later.layout == 0 => return Err(Cause::Start),
            Fault::EditionBeforeOrder if stays => return Err(Cause::Edition),
            _ => {}
        }
        let old = self.known.form == Some(Form::Old) && fault == Fault::NoticeInOldRunOrder;
        lowest(&[(past || !rising || old, Cause::Order)])?;
        first_of_start(later.layout == 0, stays, fault)?;
        file.later.insert(round, later);
        Ok(())
    }

    fn take_word(&mut self, rest: &[u32], fault: Fault) -> Result<(), Cause> {
        let (round, from, to) = (rest[0], rest[1], rest[2]);
        let said = match rest.len() {
            5 => old_notice(&rest[3..], fault),
            _ => new_notice(&rest[3..]),
        };
        let file = &mut self.file;
        let nothing = match fault {
            Fault::EditionZeroWordAccepted => said.layout == 0,
            Fault::LayoutZeroWordAccepted => {
                said.edition == 0 || file.form == Form::Old && said.layout == 0
            }
            Fault::EditionZeroWordAsNotice if said.edition == 0 => return Err(Cause::Edition),
            _ => said.is_silence(),
        };
        let twice = file.words.get(&(round, from, to));
        let twice = match fault {
            Fault::OtherEditionNotTwice => twice.is_some_and(|word| word.edition == said.edition),
            _ => twice.is_some(),
        };
        lowest(&[
            (twice, Cause::WordTwice),
            (round == 0 || round > file.rounds, Cause::Word),
            (!file.plan.links.contains(&(from, to)), Cause::Word),
            (!file.bad.contains(&from), Cause::Word),
            (nothing, Cause::Word),
        ])?;
        file.words.insert((round, from, to), said);
        self.stage = Stage::Words;
        Ok(())
    }

    /// A word that all hearers of its sender hear; it matters not whether there are any.
    fn take_shared_word(&mut self, rest: &[u32], fault: Fault) -> Result<(), Cause> {
        let (round, from) = (rest[0], rest[1]);
        let layout = two_bytes(&rest[rest.len() - 2..]);
        let file = &mut self.file;
        let source = from == file.plan.source && fault == Fault::BadSourceMayNotSpeak;
        let unheard = file.plan.links.iter().all(|link| link.0 != from);
        let good = match fault {
            Fault::SharedGoodSenderAccepted => from >= file.plan.n,
            Fault::SharedSenderOutsideAccepted => from < file.plan.n && !file.bad.contains(&from),
            _ => !file.bad.contains(&from),
        };
        let twice = match fault {
            Fault::SharedTwiceAccepted => false,
            Fault::SharedTwiceInAnyRound => file.shared_words.keys().any(|key| key.1 == from),
            Fault::SharedTwiceByAnySender => file.shared_words.keys().any(|key| key.0 == round),
            _ => file.shared_words.contains_key(&(round, from)),
        };
        let past = round > file.rounds && fault != Fault::SharedPastLastAccepted;
        if twice && fault == Fault::SharedTwiceBeforeWord {
            return Err(Cause::WordTwice);
        }
        lowest(&[
            (twice, Cause::WordTwice),
            (round == 0 || past, Cause::Word),
            (good || source, Cause::Word),
            (unheard && fault == Fault::UnheardSenderRefused, Cause::Word),
            (
                layout == 0 && fault != Fault::SharedZeroAccepted,
                Cause::Word,
            ),
        ])?;
        file.shared_words.insert((round, from), layout);
        self.stage = Stage::Words;
        Ok(())
    }
}

/// Cause 9, then 16.
fn first_of_start(wrong: bool, edition: bool, fault: Fault) -> Result<(), Cause> {
    if edition && fault == Fault::EditionBeforeLayout {
        return Err(Cause::Edition);
    }
    lowest(&[(edition, Cause::Edition), (wrong, Cause::Start)])
}

/// A layout alone.
fn old_notice(bytes: &[u32], fault: Fault) -> Notice {
    let edition = match fault {
        Fault::OldCountsAsTwo => 2,
        _ => OLD_EDITION,
    };
    notice(edition, two_bytes(bytes))
}

/// An edition, then a layout.
fn new_notice(bytes: &[u32]) -> Notice {
    notice(two_bytes(bytes), two_bytes(&bytes[2..]))
}

fn two_bytes(bytes: &[u32]) -> u16 {
    (bytes[0] * 256 + bytes[1]) as u16
}

/// The rounds that a start means: those it names, or one less than there are terminals.
fn rounds_of(named: Option<u32>, terminals: u32, fault: Fault) -> u32 {
    match (fault, named) {
        (Fault::NamedRoundsIgnored, _) => terminals - 1,
        (_, Some(rounds)) => rounds,
        (Fault::UnnamedRoundsForty, None) => 40,
        (Fault::UnnamedRoundsAsTerminals, None) => terminals,
        (_, None) => terminals - 1,
    }
}

/// The set that three bytes stand for, the high byte first.
fn named_set(bytes: &[u32]) -> Set {
    set_of((bytes[0] * 256 + bytes[1]) * 256 + bytes[2])
}
