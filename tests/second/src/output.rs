//! Frames as lines of hexadecimal digits, and the text that each program prints.

use crate::faults::Fault;
use crate::greatest::{greatest_line, greatest_of_file};
use crate::margins::margins;
use crate::margins_text::margins_lines;
use crate::notice::{Form, Notice};
use crate::plan::{number_of, Cause, Plan, Set};
use crate::quote::quote;
use crate::reader::{
    read_archive, read_greatest, read_margins, read_plan, read_quote, read_run, Refusal,
};
use crate::run::run_file;
use crate::sentence_text::{heard_answer, sentence_answer};
use crate::step::{Record, State};
use crate::verdict::{verdict, Verdict};

/// The digits of a frame, without its line end.
pub fn digits(frame: &[u8]) -> Vec<u8> {
    frame
        .iter()
        .flat_map(|byte| format!("{byte:02x}").into_bytes())
        .collect()
}

pub fn line(frame: &[u8]) -> Vec<u8> {
    let mut text = digits(frame);
    text.push(10);
    text
}

/// What the head has in the place of f where groups are listed.
pub const GROUPS_LISTED: u8 = 0xff;

pub fn head_frame(plan: &Plan) -> [u8; 4] {
    let bound = if plan.bound.has_groups() {
        GROUPS_LISTED
    } else {
        plan.bound.number as u8
    };
    [1, plan.n as u8, plan.source as u8, bound]
}

pub fn group_frame(group: &Set) -> [u8; 4] {
    let [_, high, middle, low] = number_of(group).to_be_bytes();
    [7, high, middle, low]
}

/// The head, then the links by sender, then by hearer, then the groups in their order.
pub fn plan_text(plan: &Plan, fault: Fault) -> Vec<u8> {
    let links = plan.links.iter();
    let links = links.flat_map(|&(from, to)| line(&[2, from as u8, to as u8]));
    let mut groups = plan.bound.listed();
    match fault {
        Fault::GroupsWrittenSorted => groups.sort_by_key(number_of),
        Fault::EmptyGroupsNotWritten => groups.retain(|group| !group.is_empty()),
        _ => {}
    }
    let groups = groups.iter().flat_map(|group| line(&group_frame(group)));
    let mut head = head_frame(plan);
    if fault == Fault::CountWrittenInHead {
        head[3] = plan.bound.number as u8;
    }
    let head = line(&head).into_iter();
    match fault {
        Fault::GroupsWrittenBeforeLinks => head.chain(groups).chain(links).collect(),
        _ => head.chain(links).chain(groups).collect(),
    }
}

pub fn verdict_line(answer: &Verdict, fault: Fault) -> Vec<u8> {
    let sets: [&Set; 3] = if fault == Fault::ReachedAndLeftSwapped {
        [&answer.bad, &answer.left, &answer.reached]
    } else {
        [&answer.bad, &answer.reached, &answer.left]
    };
    let mut frame = vec![0x81, u8::from(answer.fails)];
    for set in sets {
        frame.extend(&number_of(set).to_be_bytes()[1..]);
    }
    line(&frame)
}

pub fn terminal_line(number: u32, bad: bool, record: &Record, form: Form) -> Vec<u8> {
    let (state, round, held) = match record.state {
        _ if bad => (2, 0, Notice::default()),
        State::Waiting => (0, 0, Notice::default()),
        State::Taken(round, held) => (1, round as u8, held),
    };
    let mut frame = vec![0x82, number as u8, state, round];
    if form == Form::New {
        frame.extend(held.edition.to_be_bytes());
    }
    frame.extend(held.layout.to_be_bytes());
    line(&frame)
}

pub fn refusal_line(refusal: Refusal) -> Vec<u8> {
    let [high, low] = refusal.line.to_be_bytes();
    line(&[0xff, refusal.cause.number(), high, low])
}

/// The line of what was judged of a plan that was read.
fn judged(answer: Result<Verdict, Cause>, fault: Fault) -> Result<Vec<u8>, Refusal> {
    let answer = answer.map_err(|cause| Refusal { cause, line: 0 })?;
    Ok(verdict_line(&answer, fault))
}

/// The verdict's line on a new plan's file, or why the file is refused.
pub fn verdict_answer(text: &[u8], fault: Fault) -> Result<Vec<u8>, Refusal> {
    judged(verdict(&read_plan(text, fault)?, fault), fault)
}

/// The same for the quoting page.
pub fn quote_answer(text: &[u8], fault: Fault) -> Result<Vec<u8>, Refusal> {
    judged(quote(&read_quote(text, fault)?, fault), fault)
}

/// The fitter's lines on a new plan's file, or why the file is refused.
pub fn margins_answer(text: &[u8], fault: Fault) -> Result<Vec<u8>, Refusal> {
    let plan = read_margins(text, fault)?;
    let standings = margins(&plan, fault).map_err(|cause| Refusal { cause, line: 0 })?;
    Ok(margins_lines(&standings, fault))
}

/// The greatest f's line on any drawing's file, deaf or not, or why the file is refused.
pub fn greatest_answer(text: &[u8], fault: Fault) -> Result<Vec<u8>, Refusal> {
    let plan = read_greatest(text, fault)?;
    let found = greatest_of_file(&plan, fault).map_err(|cause| Refusal { cause, line: 0 })?;
    Ok(greatest_line(found, fault))
}

/// The verdict's line on any plan's file, deaf or not, or why the file is refused.
pub fn archive_answer(text: &[u8], fault: Fault) -> Result<Vec<u8>, Refusal> {
    judged(verdict(&read_archive(text, fault)?.plan, fault), fault)
}

/// All of the program `verdict`, from text to text.
pub fn verdict_text(text: &[u8], fault: Fault) -> Vec<u8> {
    verdict_answer(text, fault).unwrap_or_else(refusal_line)
}

/// All of the program `quote`, from text to text.
pub fn quote_text(text: &[u8], fault: Fault) -> Vec<u8> {
    quote_answer(text, fault).unwrap_or_else(refusal_line)
}

/// All of the program `margins`, from text to text.
pub fn margins_text(text: &[u8], fault: Fault) -> Vec<u8> {
    margins_answer(text, fault).unwrap_or_else(refusal_line)
}

/// All of the program `greatest`, from text to text.
pub fn greatest_text(text: &[u8], fault: Fault) -> Vec<u8> {
    greatest_answer(text, fault).unwrap_or_else(refusal_line)
}

/// All of the program `sentence`, from text to text.
pub fn sentence_text(text: &[u8], fault: Fault) -> Vec<u8> {
    sentence_answer(text, fault).unwrap_or_else(refusal_line)
}

/// All of the program `heard`, from text to text.
pub fn heard_text(text: &[u8], fault: Fault) -> Vec<u8> {
    heard_answer(text, fault).unwrap_or_else(refusal_line)
}

/// All of the program `archive`, from text to text.
pub fn archive_text(text: &[u8], fault: Fault) -> Vec<u8> {
    archive_answer(text, fault).unwrap_or_else(refusal_line)
}

/// All of the program `rewrite`, from text to text. It opens plans as the archive does.
pub fn rewritten_text(text: &[u8], fault: Fault) -> Vec<u8> {
    match read_archive(text, fault) {
        Ok(filed) => plan_text(&filed.plan, fault),
        Err(refusal) => refusal_line(refusal),
    }
}

/// The terminals' lines of the run that a file asks for, or why the file is refused.
pub fn run_answer(text: &[u8], fault: Fault) -> Result<Vec<u8>, Refusal> {
    let file = read_run(text, fault)?;
    let records = run_file(&file, fault).map_err(|cause| Refusal { cause, line: 0 })?;
    let form = match fault {
        Fault::OldPrintedNew => Form::New,
        Fault::NewPrintedOld => Form::Old,
        Fault::SharedPrintedNew if file.default.is_some() => Form::New,
        _ => file.form,
    };
    let lines = (0..).zip(&records).flat_map(|(number, record)| {
        let source = number == file.plan.source && fault == Fault::BadSourceLineWaiting;
        let bad = file.bad.contains(&number) && !source;
        terminal_line(number, bad, record, form)
    });
    Ok(lines.collect())
}

/// All of the program `run`, from text to text.
pub fn run_text(text: &[u8], fault: Fault) -> Vec<u8> {
    run_answer(text, fault).unwrap_or_else(refusal_line)
}
