//! Frames, one a line: from bytes to numbers and back. Nothing is checked here but the form:
//! what comes in has been accepted by a proved program, or was printed by one.

use crate::costs::{self, Greatest};
use crate::groups::Limit;
use crate::margins::Margins;
use crate::notice::{Later, Notice};
use crate::sentence::{self, Sentence};
use std::collections::BTreeSet;

#[derive(Clone)]
pub struct Plan {
    pub terminals: u8,
    pub source: u8,
    pub limit: Limit,
    /// (sender, hearer), in the file's order.
    pub links: Vec<(u8, u8)>,
}

/// A liar's word.
#[derive(Clone, Copy)]
pub struct Word {
    pub round: u8,
    pub from: u8,
    /// None on a shared channel, where all who hear the sender hear the word.
    pub to: Option<u8>,
    pub notice: Notice,
}

/// What a run file has beside its plan. Its notices all have an edition, or none has.
#[derive(Clone)]
pub struct Run {
    /// The default layout, where all share one channel.
    pub default: Option<u16>,
    pub bad: Vec<u8>,
    pub start: Notice,
    /// Those that are played.
    pub rounds: u8,
    /// Whether the start frame has its rounds byte; without it they are one less than the terminals.
    pub given: bool,
    pub later: Vec<Later>,
    pub words: Vec<Word>,
}

/// The most rounds of a run.
pub const MOST_ROUNDS: u8 = 40;

/// The cause of more terminals than the quoting desk takes: `quote` alone has it.
pub const TOO_MANY: u8 = 14;

/// The cause that a new plan with a deaf terminal is refused with: one other than the source that
/// hears nobody.
pub const DEAF: u8 = 15;

/// The cause of a notice of the source whose edition is 0, or not above its last.
pub const EDITION: u8 = 16;

/// The cause of a wrong group, and of a plan that lists groups and has none.
pub const GROUPS: u8 = 17;

/// Cause and line of a refused file; line 0 is the whole file.
pub struct Refusal {
    pub cause: u8,
    pub line: usize,
}

/// F, L and R of a failing plan; all empty where it passes.
pub struct Verdict {
    pub fails: bool,
    pub bad: Vec<u8>,
    pub reached: Vec<u8>,
    pub cut_off: Vec<u8>,
}

#[derive(Clone, Copy, PartialEq, Eq)]
pub enum State {
    Waiting,
    Taken { round: u8, notice: Notice },
    Bad,
}

pub enum Answer {
    Refused(Refusal),
    Verdict(Verdict),
    /// By terminal, ascending.
    Terminals(Vec<(u8, State)>),
    /// A plan in its fixed order.
    Plan,
    Margins(Margins),
    Greatest(Greatest),
    Sentence(Sentence),
}

/// The limit is the bound, or says that groups are listed.
pub fn head(terminals: u8, source: u8, limit: u8) -> String {
    format!("01{terminals:02x}{source:02x}{limit:02x}\n")
}

pub fn link(from: u8, to: u8) -> String {
    format!("02{from:02x}{to:02x}\n")
}

/// The set as a number: bit i stands for terminal i.
pub fn set_of(terminals: &[u8]) -> u32 {
    terminals
        .iter()
        .fold(0, |set, terminal| set | 1 << terminal)
}

pub fn group(set: u32) -> String {
    format!("07{set:06x}\n")
}

pub fn channel(default: u16) -> String {
    format!("09{default:04x}\n")
}

pub fn bad_set(set: u32) -> String {
    format!("03{set:06x}\n")
}

pub fn start(notice: Notice, rounds: Option<u8>) -> String {
    let notice = notice.digits();
    match rounds {
        Some(rounds) => format!("04{notice}{rounds:02x}\n"),
        None => format!("04{notice}\n"),
    }
}

pub fn later(Later { round, notice }: Later) -> String {
    format!("08{round:02x}{}\n", notice.digits())
}

pub fn word(word: Word) -> String {
    let Word {
        round,
        from,
        to,
        notice,
    } = word;
    let to = to.map(|to| format!("{to:02x}")).unwrap_or_default();
    format!("05{round:02x}{from:02x}{to}{}\n", notice.digits())
}

impl Plan {
    pub fn to_frames(&self) -> String {
        let links = self.links.iter().map(|&(from, to)| link(from, to));
        let groups = self.limit.groups().iter().map(|one| group(set_of(one)));
        head(self.terminals, self.source, self.limit.in_head())
            + &links.collect::<String>()
            + &groups.collect::<String>()
    }

    /// Whom a terminal hears, ascending.
    pub fn heard_by(&self, terminal: u8) -> Vec<u8> {
        let heard = self.links.iter().filter(|(_, to)| *to == terminal);
        let senders: BTreeSet<u8> = heard.map(|(from, _)| *from).collect();
        senders.into_iter().collect()
    }

    /// The terminals other than the source that hear nobody, ascending.
    pub fn deaf(&self) -> Vec<u8> {
        let others = (0..self.terminals).filter(|one| *one != self.source);
        others
            .filter(|one| self.heard_by(*one).is_empty())
            .collect()
    }
}

impl Run {
    /// One notice without an edition, everybody good, and so many rounds.
    pub fn plain(rounds: u8) -> Run {
        Run {
            default: None,
            bad: Vec::new(),
            start: Notice::plain(1),
            rounds,
            given: true,
            later: Vec::new(),
            words: Vec::new(),
        }
    }

    /// The frames of the run after those of its plan. Later notices and words past the last round
    /// would be refused.
    pub fn to_frames(&self) -> String {
        let issued = self.later.iter().filter(|one| one.round <= self.rounds);
        let played = self.words.iter().filter(|word| word.round <= self.rounds);
        self.default.map(channel).unwrap_or_default()
            + &bad_set(set_of(&self.bad))
            + &start(self.start, Some(self.rounds))
            + &issued.map(|&one| later(one)).collect::<String>()
            + &played.map(|&one| word(one)).collect::<String>()
    }

    /// A start's notice has two bytes, or four with its edition; one more is the rounds byte.
    fn take_start(&mut self, rest: &[u8]) {
        let (notice, rounds) = rest.split_at(rest.len() & !1);
        if let Some(notice) = Notice::of(notice) {
            self.start = notice;
        }
        if let [rounds] = *rounds {
            (self.rounds, self.given) = (rounds, true);
        }
    }

    /// What a bad source says in round 1, when whoever hears it takes its word, or else the default.
    pub fn first_word_of(&self, source: u8) -> Option<Notice> {
        let mut words = self.words.iter();
        let first = words.find(|word| (word.round, word.from) == (1, source))?;
        Some(first.notice)
    }

    /// What the good terminals are to have in the end: the source's last notice; of a bad source, on
    /// a shared channel, what it says in round 1, or the default.
    pub fn carried(&self, source: u8) -> Notice {
        match self.default {
            Some(default) if self.bad.contains(&source) => {
                let silent = Notice::plain(default);
                self.first_word_of(source).unwrap_or(silent)
            }
            _ => self.last_issued().notice,
        }
    }

    /// What the source issued last, and in which round; the start is of round 0.
    pub fn last_issued(&self) -> Later {
        let start = Later {
            round: 0,
            notice: self.start,
        };
        self.later.last().copied().unwrap_or(start)
    }
}

/// Kinds 03 to 05, 08 and 09 are those that only `run` has.
pub fn is_run_file(file: &[u8]) -> bool {
    let mut lines = file.split(|&byte| byte == b'\n');
    lines.any(|line| matches!(line, [b'0', b'3' | b'4' | b'5' | b'8' | b'9', ..]))
}

/// The first line, the links under it, and the groups where it has ff for the bound. A file that
/// is refused for a deaf terminal has been accepted so far, and no further.
pub fn plan_part(file: &[u8]) -> &[u8] {
    let mut lines = file.split_inclusive(|&byte| byte == b'\n');
    let head = lines.next().unwrap_or_default();
    let lists_groups = matches!(plan(head).limit, Limit::Groups(_));
    let rest =
        lines.take_while(|line| line.starts_with(b"02") || lists_groups && line.starts_with(b"07"));
    &file[..head.len() + rest.map(<[u8]>::len).sum::<usize>()]
}

/// The head, the links and the groups of an accepted file; other frames of a run file are passed
/// over.
pub fn plan(file: &[u8]) -> Plan {
    let mut plan = Plan {
        terminals: 0,
        source: 0,
        limit: Limit::Bound(0),
        links: Vec::new(),
    };
    for line in String::from_utf8_lossy(file).lines() {
        match bytes(line).unwrap_or_default()[..] {
            [1, terminals, source, limit] => {
                (plan.terminals, plan.source) = (terminals, source);
                plan.limit = Limit::of_head(limit);
            }
            [2, from, to] => plan.links.push((from, to)),
            [7, a, b, c] => plan.limit.add_group(members([a, b, c])),
            _ => {}
        }
    }
    plan
}

/// The default layout, the bad set, the start, the later notices and the words of an accepted run
/// file.
pub fn run(file: &[u8]) -> Run {
    let mut run = Run {
        given: false,
        ..Run::plain(plan(file).terminals.saturating_sub(1))
    };
    for line in String::from_utf8_lossy(file).lines() {
        match bytes(line).unwrap_or_default()[..] {
            [9, high, low] => run.default = Some(u16::from_be_bytes([high, low])),
            [3, a, b, c] => run.bad = members([a, b, c]),
            [4, ref rest @ ..] => run.take_start(rest),
            [5, round, from, ref rest @ ..] => {
                let (to, said) = hearer_of(rest);
                let word = |notice| Word {
                    round,
                    from,
                    to,
                    notice,
                };
                run.words.extend(Notice::of(said).map(word));
            }
            [8, round, ref issued @ ..] => {
                let later = |notice| Later { round, notice };
                run.later.extend(Notice::of(issued).map(later));
            }
            _ => {}
        }
    }
    run
}

/// The hearer and the notice of a word; two bytes are a notice alone.
fn hearer_of(rest: &[u8]) -> (Option<u8>, &[u8]) {
    match rest {
        [to, said @ ..] if said.len() != 1 => (Some(*to), said),
        said => (None, said),
    }
}

/// What a program printed: frames, by the kind of the first, or margins, a greatest bound or a
/// sentence.
pub fn answer(printed: &str) -> Option<Answer> {
    of_frames(printed)
        .or_else(|| Margins::read(printed).map(Answer::Margins))
        .or_else(|| costs::read(printed).map(Answer::Greatest))
        .or_else(|| sentence::read(printed).map(Answer::Sentence))
}

fn of_frames(printed: &str) -> Option<Answer> {
    let frames: Option<Vec<Vec<u8>>> = printed.lines().map(bytes).collect();
    let frames = frames?;
    match frames.first()?[..] {
        [0xff, cause, high, low] => Some(Answer::Refused(Refusal {
            cause,
            line: usize::from(u16::from_be_bytes([high, low])),
        })),
        [0x81, fails, ..] => verdict(fails, &frames[0][2..]),
        [0x82, ..] => {
            let states: Option<Vec<_>> = frames.iter().map(|frame| terminal(frame)).collect();
            states.map(Answer::Terminals)
        }
        [0x01, ..] => Some(Answer::Plan),
        _ => None,
    }
}

fn verdict(fails: u8, sets: &[u8]) -> Option<Answer> {
    let [a, b, c, d, e, f, g, h, i] = *sets else {
        return None;
    };
    Some(Answer::Verdict(Verdict {
        fails: fails == 1,
        bad: members([a, b, c]),
        reached: members([d, e, f]),
        cut_off: members([g, h, i]),
    }))
}

fn terminal(frame: &[u8]) -> Option<(u8, State)> {
    let [0x82, number, state, round, ref held @ ..] = *frame else {
        return None;
    };
    let notice = Notice::of(held)?;
    match state {
        0 => Some((number, State::Waiting)),
        1 => Some((number, State::Taken { round, notice })),
        2 => Some((number, State::Bad)),
        _ => None,
    }
}

/// A set is a number whose bit i stands for terminal i, high byte first.
pub fn members([high, middle, low]: [u8; 3]) -> Vec<u8> {
    let set = u32::from_be_bytes([0, high, middle, low]);
    (0..24)
        .filter(|&terminal| set >> terminal & 1 == 1)
        .collect()
}

pub fn bytes(line: &str) -> Option<Vec<u8>> {
    let digits: Option<Vec<u32>> = line.chars().map(|digit| digit.to_digit(16)).collect();
    let pairs = digits?;
    let byte = |pair: &[u32]| Some((pair.first()? * 16 + pair.get(1)?) as u8);
    pairs.chunks(2).map(byte).collect()
}
