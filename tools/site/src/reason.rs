//! Which of a cause's alternatives it was. The cause and the line are the proved program's; this
//! looks at the file once more, and says nothing where it cannot tell.

use crate::digits::bad_line;
use crate::frames::{self, Plan, Refusal, Run, Word, DEAF, EDITION, GROUPS, TOO_MANY};
use crate::groups::{self, Limit, LISTED};
use crate::{channel, kinds, later};

pub const LONGEST_FILE: usize = 24_576;
const AT_THE_DESK: &str =
    "the quoting desk takes at most 12 terminals; './hulmayek verdict FILE' judges up to 20";

const NO_MARGINS: &str = "margins are for a plan with a bound, and this one lists groups";
const NO_GREATEST: &str =
    "the greatest bound is for a plan with a bound, and this one lists groups";

/// What is wrong, and what would be right.
pub struct Reason {
    /// Which number of the frame it is about, where the text form has a line for each.
    pub field: usize,
    pub subject: String,
    pub rule: String,
}

impl Reason {
    /// For frames, whose line does not show the number in decimal digits.
    pub fn whole(self) -> String {
        if self.subject.is_empty() {
            return self.rule;
        }
        format!("{}: {}", self.subject, self.rule)
    }
}

pub fn because(subject: impl Into<String>, rule: impl Into<String>) -> Option<Reason> {
    Some(Reason {
        field: 0,
        subject: subject.into(),
        rule: rule.into(),
    })
}

pub fn plainly(rule: impl Into<String>) -> Option<Reason> {
    because("", rule)
}

/// The file up to the refused line, which the program has accepted so far.
pub struct Scene<'a> {
    before: Vec<Vec<u8>>,
    pub plan: Plan,
    pub run: Run,
    pub line: &'a [u8],
    pub frame: Vec<u8>,
    line_of: &'a dyn Fn(usize) -> usize,
}

pub fn find(
    file: &[u8],
    program: &str,
    refusal: &Refusal,
    line_of: &dyn Fn(usize) -> usize,
) -> Option<Reason> {
    if refusal.line == 0 {
        return whole_file(file, refusal.cause);
    }
    let mut lines = file.split_inclusive(|&byte| byte == b'\n');
    let before: Vec<&[u8]> = lines.by_ref().take(refusal.line - 1).collect();
    let line = lines.next()?;
    if refusal.cause == 1 {
        return bad_line(line);
    }
    let before = before.concat();
    let read = |line: &[u8]| frames::bytes(std::str::from_utf8(line).ok()?.trim_end());
    let scene = Scene {
        plan: frames::plan(&before),
        run: frames::run(&before),
        before: before
            .split(|&byte| byte == b'\n')
            .filter_map(read)
            .collect(),
        frame: read(line)?,
        line,
        line_of,
    };
    scene.reason(program, refusal.cause)
}

fn whole_file(file: &[u8], cause: u8) -> Option<Reason> {
    let has = |kind: &[u8]| {
        let mut lines = file.split(|&byte| byte == b'\n');
        lines.any(|line| line.starts_with(kind))
    };
    match cause {
        1 if file.is_empty() => plainly("the file is empty"),
        1 if file.len() > LONGEST_FILE => plainly(format!(
            "the file is too long: {LONGEST_FILE} bytes are allowed"
        )),
        3 if !has(b"03") => plainly("a run needs its bad set, a line 03, and there is none"),
        3 if !has(b"04") => {
            plainly("a run needs its value and rounds, a line 04, and there is none")
        }
        GROUPS => groups::none_listed(),
        DEAF => hear_nobody(&frames::plan(frames::plan_part(file))),
        _ => None,
    }
}

fn hear_nobody(plan: &Plan) -> Option<Reason> {
    let deaf = plan.deaf();
    let hear = match deaf.len() {
        0 => return None,
        1 => format!("terminal {} hears nobody", deaf[0]),
        _ => format!("terminals {} hear nobody", with_and(&deaf)),
    };
    plainly(format!(
        "{hear}; a new plan must have no such terminal, and './hulmayek archive FILE' opens a plan that is on file already"
    ))
}

/// Which rounds there are.
pub fn rounds(run: &Run) -> String {
    let has = match run.rounds {
        0 => "the run has no round".into(),
        1 => "the run has round 1 only".into(),
        more => format!("the run has rounds 1 to {more}"),
    };
    match run.given {
        true => has,
        false => format!("{has} (n-1, since none are given)"),
    }
}

impl Scene<'_> {
    fn reason(&self, program: &str, cause: u8) -> Option<Reason> {
        match cause {
            2 => kinds::wrong(self, program),
            3 => self.wrong_order(),
            4 => self.out_of_range(program),
            5 => self.wrong_link(),
            6 => self.second_link(),
            7 => self.wrong_bad_set(),
            8 => self.too_many_bad(),
            9 => self.wrong_start(),
            10 => self.wrong_word(),
            11 => self.second_word(),
            TOO_MANY => plainly(AT_THE_DESK),
            EDITION => later::wrong_edition(self),
            GROUPS => groups::refused(&self.plan, &self.named()?),
            _ => None,
        }
    }

    pub fn has(&self, kind: u8) -> bool {
        self.before.iter().any(|frame| frame.first() == Some(&kind))
    }

    fn wrong_order(&self) -> Option<Reason> {
        let kind = *self.frame.first()?;
        match kind {
            1 if self.has(1) => plainly("a second head: 01 stands once, in the first line"),
            _ if !self.has(1) => plainly("the first line is the head, 01"),
            2 if self.has(3) || self.has(4) => plainly("links, 02, stand before 03 and 04"),
            2 if self.has(9) => plainly("links, 02, stand before a shared channel, 09"),
            2 if self.has(7) => plainly("links, 02, stand before the groups, 07"),
            7 => self.misplaced_group(),
            3 if self.has(3) => plainly("a second bad set: 03 stands once"),
            4 if self.has(4) => plainly("a second start: 04 stands once"),
            3 if self.has(4) => plainly("the bad set, 03, stands before 04"),
            4 => plainly("the start, 04, stands after the bad set, 03"),
            5 if !self.has(4) => plainly("a word, 05, stands after the start, 04"),
            8 => later::misplaced(self),
            9 => channel::misplaced(self),
            _ => None,
        }
    }

    fn misplaced_group(&self) -> Option<Reason> {
        match self.plan.limit {
            Limit::Bound(bound) => plainly(format!(
                "a group, and the head has the bound {bound}: groups stand where it has ff"
            )),
            Limit::Groups(_) if !self.has(3) => {
                plainly("groups, 07, stand before a shared channel, 09")
            }
            Limit::Groups(_) => plainly("groups, 07, stand before 03 and 04"),
        }
    }

    fn out_of_range(&self, program: &str) -> Option<Reason> {
        let [_, n, source, bound] = self.frame[..] else {
            return None;
        };
        let allowed = format!("0 to {} are allowed for {n} terminals", n.saturating_sub(1));
        let (field, subject, rule) = match n {
            0 | 1 | 21.. => (0, format!("n {n}"), "2 to 20 terminals are allowed".into()),
            _ if source >= n => (1, format!("source {source}"), allowed),
            _ if bound == LISTED => (2, String::new(), no_groups(program)?.into()),
            _ if bound >= n => (2, format!("bound {bound}"), allowed),
            _ => return None,
        };
        Some(Reason {
            field,
            subject,
            rule,
        })
    }

    fn terminals(&self) -> String {
        format!(
            "the terminals are 0 to {}",
            self.plan.terminals.saturating_sub(1)
        )
    }

    fn wrong_link(&self) -> Option<Reason> {
        let [_, from, to] = self.frame[..] else {
            return None;
        };
        let n = self.plan.terminals;
        match (from, to) {
            _ if from >= n => because(format!("sender {from}"), self.terminals()),
            _ if to >= n => because(format!("hearer {to}"), self.terminals()),
            _ if from == to => plainly(format!("a link from {from} to itself joins nobody")),
            _ => None,
        }
    }

    /// The line of the first frame before this one that starts with these bytes.
    pub fn earlier(&self, start: &[u8]) -> Option<usize> {
        let place = self
            .before
            .iter()
            .position(|frame| frame.starts_with(start))?;
        Some((self.line_of)(place + 1))
    }

    fn second_link(&self) -> Option<Reason> {
        let line = self.earlier(&self.frame)?;
        let [_, from, to] = self.frame[..] else {
            return None;
        };
        because(
            format!("{from} > {to}"),
            format!("line {line} has this link already"),
        )
    }

    fn named(&self) -> Option<Vec<u8>> {
        let [_, a, b, c] = self.frame[..] else {
            return None;
        };
        Some(frames::members([a, b, c]))
    }

    fn wrong_bad_set(&self) -> Option<Reason> {
        let named = self.named()?;
        let source = self.plan.source;
        if named.contains(&source) && self.run.default.is_none() {
            return because(format!("bad {source}"), "it is the source, which is good");
        }
        let above = named.iter().find(|one| **one >= self.plan.terminals)?;
        because(format!("bad {above}"), self.terminals())
    }

    /// Of a bad source, on a shared channel, the others are looked at.
    fn too_many_bad(&self) -> Option<Reason> {
        let mut named = self.named()?;
        let source = named.iter().position(|one| *one == self.plan.source);
        let Some(place) = source else {
            return self.too_many_of(&named);
        };
        named.remove(place);
        let Reason { rule, .. } = self.too_many_of(&named)?;
        plainly(format!(
            "{rule}; {}",
            channel::others_must(&self.plan.limit)
        ))
    }

    fn too_many_of(&self, named: &[u8]) -> Option<Reason> {
        let Limit::Bound(bound) = self.plan.limit else {
            return groups::part_of_none(named);
        };
        let heard = |terminal: u8| -> Vec<u8> {
            let all = self.plan.heard_by(terminal);
            all.into_iter().filter(|one| named.contains(one)).collect()
        };
        let mut good = (0..self.plan.terminals).filter(|one| !named.contains(one));
        let hearer = good.find(|one| heard(*one).len() > usize::from(bound))?;
        let bad = heard(hearer);
        let all = match bad.len() {
            1 => "bad",
            2 => "both bad",
            _ => "all bad",
        };
        plainly(format!(
            "terminal {hearer} hears {}, {all}, and the bound is {bound}",
            with_and(&bad)
        ))
    }

    /// The start, a later notice, or a default layout.
    fn wrong_start(&self) -> Option<Reason> {
        let run = frames::run(self.line);
        if run.default == Some(0) {
            return because("default 0", "layouts are 1 to 65535");
        }
        let notice = run.later.first().map_or(run.start, |later| later.notice);
        if notice.layout == 0 {
            return because(notice.layout_named(), "layouts are 1 to 65535");
        }
        if run.given && run.rounds > frames::MOST_ROUNDS {
            return Some(Reason {
                field: 1,
                subject: format!("{} rounds", run.rounds),
                rule: "0 to 40 are allowed".into(),
            });
        }
        None
    }

    fn wrong_word(&self) -> Option<Reason> {
        let said = frames::run(self.line).words;
        let Word {
            round,
            from,
            to,
            notice,
        } = *said.first()?;
        let (run, n) = (&self.run, self.plan.terminals);
        if round == 0 || round > run.rounds {
            return because(format!("round {round}"), rounds(run));
        }
        for end in [from].into_iter().chain(to) {
            if end >= n {
                return because(format!("terminal {end}"), self.terminals());
            }
        }
        if let Some(to) = to.filter(|to| !self.plan.links.contains(&(from, *to))) {
            return plainly(format!("{to} does not hear {from}"));
        }
        if !run.bad.contains(&from) {
            return plainly(format!(
                "{from} is good, and the rules say what a good one says"
            ));
        }
        let needs_none = "silence needs no word";
        if notice.layout == 0 {
            let rule = format!("layouts are 1 to 65535; {needs_none}");
            return because(notice.layout_named(), rule);
        }
        if notice.edition == Some(0) {
            let rule = format!("{}; {needs_none}", later::EDITIONS);
            return because("edition 0", rule);
        }
        None
    }

    fn second_word(&self) -> Option<Reason> {
        let (same, of) = match self.run.default {
            Some(_) => (3, "of this sender"),
            None => (4, "on this link"),
        };
        let line = self.earlier(self.frame.get(..same)?)?;
        plainly(format!("line {line} has a word {of} in this round already"))
    }
}

/// Why a program takes no plan that lists groups.
fn no_groups(program: &str) -> Option<&'static str> {
    match program {
        "margins" => Some(NO_MARGINS),
        "greatest" => Some(NO_GREATEST),
        _ => None,
    }
}

/// "1 and 3", "1, 3 and 4".
pub fn with_and(terminals: &[u8]) -> String {
    let words: Vec<String> = terminals.iter().map(u8::to_string).collect();
    match words.split_last() {
        Some((last, [])) => last.clone(),
        Some((last, others)) => format!("{} and {last}", others.join(", ")),
        None => "nobody".into(),
    }
}
