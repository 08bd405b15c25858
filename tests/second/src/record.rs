//! Recorded calls: what the program `replay` is given, and what it has to print.
//!
//! A call is its kind, the length of the list that it lends, the length of its body (both two
//! bytes, high byte first) and the body. Each call has one line of digits.
//!
//! A notice is edition times 65,536 plus layout (4). A record is its state (0 waiting, 1 taken), the
//! round of taking, the notice (0 if waiting), the round, and 20 rows. A row is its edition (2), its
//! count, how many places follow, and these (2 each, layouts): all up to the last that is not 0.
//!
//! A bound is its kind (0 for f, 1 for groups), its number (f, or the count of groups), how many
//! places follow, and these (4 each): all up to the last that is not 0. A plan is n, source, a bound
//! and 20 rows (4 each). In a call the numbers have one byte, in an answer two.
//!
//! The kinds with notices: `s` has what was said (4 each). `n` has a plan, a fault set (4), the start,
//! the rounds, how many later notices follow (2), these, and the words; `l` has the five records
//! before the words. `i` has a record and a notice. `f` has the room of the list of later notices
//! (1) and the file; its answer is number, line (2), the plan, the fault set (4), the form (0 old, 1
//! new), the default layout (2; 0 where there is none), the start, the rounds, how many places of the
//! words hold the mark (4), those words that are neither 0 nor the mark (place 2, word 4), and the same
//! of the later notices.
//!
//! Where one radio is for all (src/record_shared.rs), layouts (2 each) are said: `S` has what `s` has,
//! with the default (2) before what was said, and that in layouts. `N` has a plan, a fault set (4), the
//! start's layout, the default, the rounds and the words, one a sender and round; `L` has the five
//! records before the words. `C` has what `c` has. Their answers are those of `s`, `n`, `l` and `c`.
//!
//! Of the quoting page (src/record_quote.rs) `q` has a file, as `v` has. `j` has a plan; its answer is
//! what the verdict says of it and then what the quoting page says: number, whether it fails (1), F, L
//! and R (4 each), zeros beside a refusal.
//!
//! Of the margins (src/record_margins.rs) `m` has a file, as `v` has. `M` has a plan; its answer is the
//! number and, where that is 0, of each terminal from 0 what it is (0 the source, 1 direct, 2 with a
//! margin) and the margin (4, signed; 0 beside the other two).
//!
//! Of the greatest f (src/record_greatest.rs) `g` has a file, as `v` has. `G` has n, source and 20 rows (4
//! each); its answer is the number and, where that is 0, whether there is an f (1) and it (1; 0 for none).
//!
//! Of the fail in sentences (src/record_sentence.rs) `e` has a plan file and `h` a file with n and a
//! sentence, as `v` has. `E` lends a list of so many bytes and has n, F, L and R (4 each); its answer is the
//! number, the text's length (2) and the whole list. `H` has n and a text; its answer is the number, F, L and
//! R (4 each), zeros beside a refusal.

use crate::characters;
use crate::damage::plant;
use crate::draft::{join, plan_draft, run_draft, Draft};
use crate::faults::Fault;
use crate::forms::{mixed, WAYS as MIXED};
use crate::generate::{case, edge_run, overtaken_run, turning_run, Kind, SORTS, VALID_SORTS};
use crate::greatest_files::{HEADED, SHAPED as SHAPED_DRAWINGS, THIN};
use crate::grouping::{group_thinly, group_up, maybe_grouped};
use crate::groups::{Bound, Sort};
use crate::heard_files::{BY_HAND, LISTED, SIZED, SPOILT};
use crate::issues::{issue_case, IssueCase};
use crate::lent::{
    read_answer, read_case, ReadCase, LATER_PLACES, MARK as MARK_NOTICE, WORD_PLACES,
};
use crate::margin_files::SHAPED;
use crate::notice::{notice, Form, Notice};
use crate::office::Manner;
use crate::output::{
    archive_answer, digits, greatest_answer, margins_answer, quote_answer, refusal_line,
    run_answer, verdict_answer,
};
use crate::place::{placed, THERE};
use crate::plan::{number_of, set_of, write_plan, Cause, Plan, Set};
use crate::plans::{deaf_plan, deep_plan, mend, strong_plan, thin_plan, weak_plan};
use crate::quotes::CHAINS;
use crate::reader::{read_archive, read_run, Refusal, RunFile};
use crate::record_greatest::{
    bounded_call, bounded_shape_call, greatest_call, headed_call, shaped_greatest_call,
    sized_greatest_call, thin_call,
};
use crate::record_margins::{
    fitted_call, fitted_shape_call, margins_call, shaped_call, sized_margins_call,
};
use crate::record_quote::{chain_call, judged_call, judged_chain_call, quote_call, sized_call};
use crate::record_sentence::{
    by_hand_call, composed_call, composed_every_call, heard_call, hearing_by_hand_call,
    hearing_call, hearing_every_call, listed_heard_call, sentence_call, sized_heard_call,
    sized_sentence_call, spoilt_call, wrong_sets_call,
};
use crate::record_shared::{
    channel_call, channel_read_call, flooded_call, shared_file_call, shared_file_read_call,
    shared_lent_call, shared_set_call, shared_site_call, shared_step_call, small_shared_call,
};
use crate::records::{break_groups, some_bad_set, some_plan, some_sets, WAYS};
use crate::rng::Rng;
use crate::run::{issue, run};
use crate::sentence_files::{EVERY, WRONG_SETS};
use crate::sentence_text::{heard_answer, sentence_answer};
use crate::shared_files::WAYS as SHARED_WAYS;
use crate::sites::{noisy_site, wrong_lists, Site};
use crate::step::{step, Place, Record, Row, State, PLACES, ROWS};
use crate::steps::{step_case, StepCase};
use crate::verdict::{fault_cause, witness_check};
use std::fs;
use std::io;
use std::path::Path;

pub const SEED: u64 = 20;

/// What a lent list of bytes holds at each place before a call.
pub(crate) const MARK: u8 = 0x5a;
/// The longest list that `replay` lends for a plan's text.
const LONGEST_TEXT: usize = 3_000;

/// The longest body that `replay` reads, and the most digits that it prints in a line, with some
/// to spare.
pub const LONGEST_BODY: usize = 60_000;
pub const LONGEST_LINE: usize = 65_000;

/// So many calls of a kind may have more bytes than this in body and line together.
const MAY_BE_LONG: u64 = 120;
const LONG: usize = 1_900;

/// One call, and the line that answers it.
#[derive(Clone)]
pub struct Call {
    pub kind: u8,
    pub lent: usize,
    pub body: Vec<u8>,
    pub line: Vec<u8>,
}

/// Writes all calls into one file and all lines into another.
pub fn write(calls_file: &Path, lines_file: &Path) -> io::Result<()> {
    let (mut input, mut output) = (Vec::new(), Vec::new());
    for call in calls(SEED) {
        input.push(call.kind);
        input.extend(pair(call.lent as u16));
        input.extend(pair(call.body.len() as u16));
        input.extend(&call.body);
        output.extend(digits(&call.line));
        output.push(10);
    }
    fs::write(calls_file, input)?;
    fs::write(lines_file, output)
}

type Maker = fn(u64, u64) -> Call;

/// Every kind of call, and how many of it.
const KINDS: [(Maker, u64); 70] = [
    (verdict_call, 600),
    (run_call, 600),
    (edge_call, 150),
    (turning_call, 200),
    (read_call, 300),
    (write_call, 200),
    (step_call, 1800),
    (witness_call, 500),
    (fault_set_call, 400),
    (site_call, 300),
    (small_site_call, 500),
    (turning_site_call, 100),
    (flood_site_call, 12),
    (lent_call, 300),
    (verdict_character_call, characters::FILES),
    (run_character_call, characters::FILES),
    (archive_call, 300),
    (open_call, 300),
    (placed_plan_call, 5 * THERE.len() as u64),
    (placed_run_call, 5 * THERE.len() as u64),
    (grouped_call, 150),
    (longest_text_call, 3),
    (wrong_groups_call, 84),
    (seldom_call, 80),
    (seldom_read_call, 50),
    (mixed_call, 4 * MIXED.len() as u64),
    (mixed_read_call, 2 * MIXED.len() as u64),
    (overtaken_call, 40),
    (wrong_lists_call, 120),
    (issue_call, 400),
    (shared_step_call, 500),
    (shared_site_call, 150),
    (small_shared_call, 100),
    (flooded_call, 8),
    (shared_lent_call, 100),
    (shared_set_call, 150),
    (channel_call, 162),
    (shared_file_call, 2 * SHARED_WAYS.len() as u64),
    (channel_read_call, 82),
    (shared_file_read_call, SHARED_WAYS.len() as u64),
    (quote_call, 306),
    (chain_call, CHAINS),
    (sized_call, 3),
    (judged_call, 260),
    (judged_chain_call, CHAINS),
    (margins_call, 230),
    (shaped_call, SHAPED),
    (sized_margins_call, 6),
    (fitted_call, 200),
    (fitted_shape_call, SHAPED),
    (greatest_call, 170),
    (shaped_greatest_call, SHAPED_DRAWINGS),
    (headed_call, HEADED),
    (sized_greatest_call, 2),
    (bounded_call, 150),
    (bounded_shape_call, SHAPED_DRAWINGS),
    (thin_call, THIN),
    (sentence_call, 240),
    (sized_sentence_call, 2),
    (heard_call, 216),
    (listed_heard_call, LISTED),
    (by_hand_call, BY_HAND),
    (sized_heard_call, SIZED),
    (composed_call, 216),
    (composed_every_call, EVERY),
    (wrong_sets_call, WRONG_SETS),
    (hearing_call, 240),
    (hearing_every_call, EVERY),
    (hearing_by_hand_call, BY_HAND),
    (spoilt_call, SPOILT),
];

/// The calls of each kind. Of the long ones a few are enough.
pub fn calls(seed: u64) -> Vec<Call> {
    let of_kind = |&(make, count): &(Maker, u64)| {
        let made = (0..count).map(move |index| (index, make(seed, index)));
        made.filter(|(index, call)| {
            *index < MAY_BE_LONG || call.body.len() + call.line.len() <= LONG
        })
    };
    let calls: Vec<Call> = KINDS
        .iter()
        .flat_map(of_kind)
        .map(|(_, call)| call)
        .collect();
    for call in &calls {
        assert!(call.body.len() <= LONGEST_BODY, "a body is too long");
        assert!(2 * call.line.len() <= LONGEST_LINE, "a line is too long");
    }
    calls
}

pub(crate) fn pair(value: u16) -> [u8; 2] {
    value.to_be_bytes()
}

pub(crate) fn quad(set: &Set) -> [u8; 4] {
    number_of(set).to_be_bytes()
}

pub(crate) fn number(answer: Result<(), Cause>) -> u8 {
    answer.map_or_else(Cause::number, |()| 0)
}

/// A generator for a kind of call that the cases of files do not use.
pub(crate) fn rng_for(seed: u64, kind: u8, index: u64) -> Rng {
    Rng::for_case(seed, 100 + u64::from(kind), index)
}

// ---- lent lists of bytes

/// Puts the text into a list of so many places, if it has room, and returns the whole list.
fn put(text: &[u8], room: usize) -> (Result<usize, Cause>, Vec<u8>) {
    let mut list = vec![MARK; room];
    let length = match list.get_mut(..text.len()) {
        Some(front) => {
            front.copy_from_slice(text);
            Ok(text.len())
        }
        None => Err(Cause::Length),
    };
    (length, list)
}

/// The number, the text's length, and the whole list after the call.
pub(crate) fn written(number: u8, length: usize, list: &[u8]) -> Vec<u8> {
    [&[number], &pair(length as u16)[..], list].concat()
}

/// A wrong file's number comes before that of a short list: it is lower, or it is 14, 15 or 17, which
/// stand before the lower ones of their places. The file's line of text is put where there is room for it.
fn answered(answer: Result<Vec<u8>, Refusal>, room: usize) -> Vec<u8> {
    let file = answer
        .as_ref()
        .map_or_else(|refusal| refusal.cause.number(), |_| 0);
    let (length, list) = put(&answer.unwrap_or_else(refusal_line), room);
    let short = number(length.map(|_| ()));
    written(
        if file > 0 { file } else { short },
        length.unwrap_or(0),
        &list,
    )
}

/// A list that just has room, is one short, is empty, or is longer than the text.
pub(crate) fn room_for(rng: &mut Rng, text: usize, most: usize) -> usize {
    let longer = text + rng.below(9);
    let room = rng.pick(&[text, text, text.saturating_sub(1), 0, longer, longer]);
    room.min(most)
}

/// A program's text function: the letter of its calls, and what it answers.
#[derive(Clone, Copy)]
pub(crate) struct Text {
    letter: u8,
    answer: fn(&[u8], Fault) -> Result<Vec<u8>, Refusal>,
}

const VERDICT: Text = Text {
    letter: b'v',
    answer: verdict_answer,
};
pub(crate) const RUN: Text = Text {
    letter: b'r',
    answer: run_answer,
};
pub(crate) const QUOTE: Text = Text {
    letter: b'q',
    answer: quote_answer,
};
pub(crate) const MARGINS: Text = Text {
    letter: b'm',
    answer: margins_answer,
};
pub(crate) const GREATEST: Text = Text {
    letter: b'g',
    answer: greatest_answer,
};
pub(crate) const SENTENCE: Text = Text {
    letter: b'e',
    answer: sentence_answer,
};
pub(crate) const HEARD: Text = Text {
    letter: b'h',
    answer: heard_answer,
};
const ARCHIVE: Text = Text {
    letter: b'a',
    answer: archive_answer,
};

/// A file for a program's text function, with as much room as is asked for a text of that length.
fn text_call(text: Text, file: Vec<u8>, room: impl FnOnce(usize) -> usize) -> Call {
    let answer = (text.answer)(&file, Fault::None);
    let length = answer
        .as_ref()
        .map_or_else(|&refusal| refusal_line(refusal).len(), Vec::len);
    let lent = room(length);
    Call {
        kind: text.letter,
        lent,
        body: file,
        line: answered(answer, lent),
    }
}

/// The same with any room.
pub(crate) fn roomed_call(text: Text, file: Vec<u8>, seed: u64, index: u64) -> Call {
    let mut rng = rng_for(seed, text.letter, index);
    text_call(text, file, |length| room_for(&mut rng, length, 400))
}

/// The same with room for the whole answer.
pub(crate) fn whole_call(text: Text, file: Vec<u8>) -> Call {
    text_call(text, file, |length| length)
}

fn verdict_call(seed: u64, index: u64) -> Call {
    roomed_call(VERDICT, case(Kind::Verdict, seed, index), seed, index)
}

fn run_call(seed: u64, index: u64) -> Call {
    roomed_call(RUN, case(Kind::Run, seed, index), seed, index)
}

/// Both forms of start, and words at the edge of the rounds that are played, with room for the
/// whole answer. Small sites, in which fewer lie and a word more often matters.
fn edge_call(seed: u64, index: u64) -> Call {
    let mut rng = rng_for(seed, b'e', index);
    let n = rng.between(2, 8);
    whole_call(RUN, join(&edge_run(&mut rng, n).lines))
}

/// Liars that change what they say, with room for the whole answer.
fn turning_call(seed: u64, index: u64) -> Call {
    let mut rng = rng_for(seed, b't', index);
    let n = rng.between(4, 9);
    let rounds = rng.pick(&[None, Some(6), Some(9)]);
    whole_call(RUN, join(&turning_run(&mut rng, n, rounds).lines))
}

/// Small plans with groups, with room for the whole answer; by turns sure to pass with f, or not.
fn grouped_call(seed: u64, index: u64) -> Call {
    let mut rng = rng_for(seed, b'g', index);
    let n = rng.between(3, 9);
    let mut plan = match index % 3 {
        0 => strong_plan(&mut rng, n),
        1 => deep_plan(&mut rng, n),
        _ => weak_plan(&mut rng, n),
    };
    mend(&mut rng, &mut plan);
    group_up(&mut rng, &mut plan);
    whole_call(VERDICT, join(&plan_draft(plan).lines))
}

/// Every byte in the place of a digit, with room for the whole answer.
fn verdict_character_call(_: u64, index: u64) -> Call {
    whole_call(VERDICT, characters::file(Kind::Verdict, index))
}

fn run_character_call(_: u64, index: u64) -> Call {
    whole_call(RUN, characters::file(Kind::Run, index))
}

/// All that can stand where a plan ends, in turn, mostly with a deaf plan.
fn placed_file(kind: Kind, seed: u64, letter: u8, index: u64) -> Vec<u8> {
    let mut rng = rng_for(seed, letter, index);
    let all = THERE.len() as u64;
    let there = THERE[(index % all) as usize];
    // By turns: deaf, no group where groups are promised, deaf, and nobody deaf.
    let turn = index / all % 4;
    let deaf = turn.is_multiple_of(2) || (turn == 1 && rng.chance(50));
    let no_group = turn == 1;
    let listing = there.listing(&mut rng, no_group);
    placed(&mut rng, kind, there, deaf, listing)
}

fn placed_plan_call(seed: u64, index: u64) -> Call {
    whole_call(VERDICT, placed_file(Kind::Verdict, seed, b'1', index))
}

fn placed_run_call(seed: u64, index: u64) -> Call {
    whole_call(RUN, placed_file(Kind::Run, seed, b'2', index))
}

/// A run file that is refused for this cause. Any earlier one would hide it.
fn late_file(rng: &mut Rng, cause: u32) -> Vec<u8> {
    loop {
        let n = rng.between(3, 6);
        let draft = turning_run(rng, n, Some(4));
        let mut lines = draft.lines.clone();
        plant(rng, Kind::Run, &draft, &mut lines, cause);
        let text = join(&lines);
        if read_run(&text, Fault::None).is_err_and(|no| u32::from(no.cause.number()) == cause) {
            return text;
        }
    }
}

/// Causes that the damaged files seldom reach, in turn.
const SELDOM: [u32; 10] = [11, 17, 11, 8, 7, 11, 6, 9, 4, 16];

fn seldom_file(seed: u64, letter: u8, index: u64) -> Vec<u8> {
    let cause = SELDOM[(index % SELDOM.len() as u64) as usize];
    late_file(&mut rng_for(seed, letter, index), cause)
}

fn seldom_call(seed: u64, index: u64) -> Call {
    whole_call(RUN, seldom_file(seed, b'3', index))
}

fn seldom_read_call(seed: u64, index: u64) -> Call {
    read_of(ReadCase {
        text: seldom_file(seed, b'4', index),
        words: WORD_PLACES,
        later: LATER_PLACES,
    })
}

/// Each way of mixing the forms, and of a wrong later notice, in turn.
fn mixed_file(seed: u64, letter: u8, index: u64) -> Vec<u8> {
    let (way, _) = MIXED[(index % MIXED.len() as u64) as usize];
    mixed(&mut rng_for(seed, letter, index), way)
}

fn mixed_call(seed: u64, index: u64) -> Call {
    whole_call(RUN, mixed_file(seed, b'5', index))
}

fn mixed_read_call(seed: u64, index: u64) -> Call {
    read_of(ReadCase {
        text: mixed_file(seed, b'6', index),
        words: WORD_PLACES,
        later: LATER_PLACES,
    })
}

/// Notices that overtake each other, with room for the whole answer.
fn overtaken_call(seed: u64, index: u64) -> Call {
    let mut rng = rng_for(seed, b'7', index);
    let manner = rng.pick(&[
        Manner::Silent,
        Manner::Wild,
        Manner::Forward,
        Manner::Backward,
    ]);
    whole_call(RUN, join(&overtaken_run(&mut rng, manner).lines))
}

fn write_call(seed: u64, index: u64) -> Call {
    let mut rng = rng_for(seed, b'p', index);
    let plan = some_plan(&mut rng, if index.is_multiple_of(20) { 20 } else { 7 });
    let length = write_plan(&plan, &mut [0; LONGEST_TEXT], Fault::None).unwrap_or(9);
    write_into(&plan, room_for(&mut rng, length, LONGEST_TEXT))
}

/// The longest text there is, into a list that just has room, is one short, or is longer.
fn longest_text_call(_: u64, index: u64) -> Call {
    let all_but_source: Set = (1..20).collect();
    let mut plan = Plan::with(20, 0, Bound::groups(&vec![all_but_source; 16]));
    let pairs = (0..400).map(|place| (place / 20, place % 20));
    plan.links = pairs.filter(|(from, to)| from != to).collect();
    write_into(&plan, [2_813, 2_812, LONGEST_TEXT][index as usize])
}

fn write_into(plan: &Plan, lent: usize) -> Call {
    let mut list = vec![MARK; lent];
    let answer = write_plan(plan, &mut list, Fault::None);
    Call {
        kind: b'p',
        lent,
        body: plan_bytes(plan),
        line: written(number(answer.map(|_| ())), answer.unwrap_or(0), &list),
    }
}

// ---- the archive

/// By turns: the place where the links end, a plan with deaf terminals, and other files than those
/// that the verdict is asked about, among which more are valid.
fn archive_file(seed: u64, letter: u8, index: u64) -> Vec<u8> {
    let mut rng = rng_for(seed, letter, index);
    let turn = index / 3;
    match index % 3 {
        0 => placed_file(Kind::Verdict, seed, letter, turn),
        1 => {
            let mut plan = deaf_plan(&mut rng, 2 + (turn % 19) as u32);
            maybe_grouped(&mut rng, &mut plan);
            let links = plan.links.len();
            let mut lines = plan_draft(plan).lines;
            rng.shuffle(&mut lines[1..=links]);
            join(&lines)
        }
        _ => {
            let sorts = rng.pick(&[VALID_SORTS, SORTS]);
            let place = (1_000 * u64::from(letter) + turn) * SORTS;
            let sort = rng.below(sorts as usize) as u64;
            case(Kind::Verdict, seed, place + sort)
        }
    }
}

fn archive_call(seed: u64, index: u64) -> Call {
    roomed_call(ARCHIVE, archive_file(seed, b'a', index), seed, index)
}

/// The archive's reader: number, line, the plan, and the deaf set; zeros beside a refusal.
fn open_call(seed: u64, index: u64) -> Call {
    let body = archive_file(seed, b'd', index);
    let line = match read_archive(&body, Fault::None) {
        Ok(filed) => [&[0; 3], &answered_plan(&filed.plan)[..], &quad(&filed.deaf)].concat(),
        Err(refusal) => [
            &[refusal.cause.number()],
            &pair(refusal.line)[..],
            &NO_PLAN,
            &[0; 4],
        ]
        .concat(),
    };
    Call {
        kind: b'd',
        lent: 0,
        body,
        line,
    }
}

// ---- the reader of run files

fn read_call(seed: u64, index: u64) -> Call {
    read_of(read_case(seed, index))
}

/// A file for the reader, and two lists of so many places.
pub(crate) fn read_of(call: ReadCase) -> Call {
    let (answer, words, later) = read_answer(&call, Fault::None);
    let mut line = match answer {
        Ok(file) => accepted_file(&file),
        Err(refusal) => refused_file(refusal),
    };
    line.extend(list_bytes(&words));
    line.extend(list_bytes(&later));
    Call {
        kind: b'f',
        lent: call.words,
        body: [&[call.later as u8], &call.text[..]].concat(),
        line,
    }
}

/// Number and line, and zeros for all that is read.
fn refused_file(refusal: Refusal) -> Vec<u8> {
    let zeros = [0; 4 + 1 + 2 + 4 + 1];
    let line = pair(refusal.line);
    [&[refusal.cause.number()], &line[..], &NO_PLAN, &zeros].concat()
}

fn accepted_file(file: &RunFile) -> Vec<u8> {
    let mut line = vec![0; 3];
    line.extend(answered_plan(&file.plan));
    line.extend(quad(&file.bad));
    line.push(u8::from(file.form == Form::New));
    line.extend(pair(file.default.unwrap_or(0)));
    line.extend(file.start.number().to_be_bytes());
    line.push(file.rounds as u8);
    line
}

/// How many places of a list hold the mark, and what the others hold, but for zeros.
fn list_bytes(list: &[u32]) -> Vec<u8> {
    let marks = list.iter().filter(|&&number| number == MARK_NOTICE).count();
    let mut bytes = (marks as u32).to_be_bytes().to_vec();
    for (place, &number) in list.iter().enumerate() {
        if number != 0 && number != MARK_NOTICE {
            bytes.extend(pair(place as u16));
            bytes.extend(number.to_be_bytes());
        }
    }
    bytes
}

// ---- plans and sets

/// Beside a refusal: n, source, kind, number, listed places and rows are all 0.
const NO_PLAN: [u8; 2 + 2 + 1 + 2 + 1 + 80] = [0; 88];

/// The places of a bound, after how many they are.
fn place_bytes(bound: &Bound) -> Vec<u8> {
    let places = (0..bound.used()).flat_map(|place| quad(&bound.at(place)));
    [bound.used() as u8].into_iter().chain(places).collect()
}

pub(crate) fn row_bytes(plan: &Plan) -> Vec<u8> {
    (0..20)
        .flat_map(|hearer| quad(&plan.heard_by(hearer)))
        .collect()
}

/// A plan in an answer, its numbers in two bytes.
fn answered_plan(plan: &Plan) -> Vec<u8> {
    [
        &answered_head(plan.n, plan.source, &plan.bound)[..],
        &row_bytes(plan),
    ]
    .concat()
}

fn answered_head(n: u32, source: u32, bound: &Bound) -> Vec<u8> {
    [
        &pair(n as u16)[..],
        &pair(source as u16),
        &[u8::from(bound.has_groups())],
        &pair(bound.number as u16),
        &place_bytes(bound),
    ]
    .concat()
}

/// n, source and a bound in a call.
pub(crate) fn head_bytes(n: u32, source: u32, bound: &Bound) -> Vec<u8> {
    let numbers = [
        n as u8,
        source as u8,
        u8::from(bound.has_groups()),
        bound.number as u8,
    ];
    [&numbers[..], &place_bytes(bound)].concat()
}

/// A plan in a call.
pub(crate) fn plan_bytes(plan: &Plan) -> Vec<u8> {
    let head = head_bytes(plan.n, plan.source, &plan.bound);
    [head, row_bytes(plan)].concat()
}

// ---- the two checks

fn witness_call(seed: u64, index: u64) -> Call {
    let mut rng = rng_for(seed, b'w', index);
    let plan = some_plan(&mut rng, 9);
    let [bad, reached, left] = &some_sets(&mut rng, &plan);
    let answer = match witness_check(&plan, bad, reached, left, Fault::None) {
        Ok(accepted) => u8::from(!accepted),
        Err(cause) => cause.number(),
    };
    Call {
        kind: b'w',
        lent: 0,
        body: [
            &plan_bytes(&plan)[..],
            &quad(bad),
            &quad(reached),
            &quad(left),
        ]
        .concat(),
        line: vec![answer],
    }
}

fn fault_set_call(seed: u64, index: u64) -> Call {
    let mut rng = rng_for(seed, b'c', index);
    let plan = some_plan(&mut rng, 20);
    let bad = some_bad_set(&mut rng, &plan);
    fault_set(&plan, &bad)
}

/// Each way in which groups are wrong, in turn, beside any bad set.
fn wrong_groups_call(seed: u64, index: u64) -> Call {
    let mut rng = rng_for(seed, b'y', index);
    let n = rng.between(2, 9);
    let mut plan = weak_plan(&mut rng, n);
    group_up(&mut rng, &mut plan);
    let bad = some_bad_set(&mut rng, &plan);
    let way = index as usize % WAYS;
    break_groups(&mut rng, &mut plan.bound, n, plan.source, way);
    fault_set(&plan, &bad)
}

fn fault_set(plan: &Plan, bad: &Set) -> Call {
    Call {
        kind: b'c',
        lent: 0,
        body: [&plan_bytes(plan)[..], &quad(bad)].concat(),
        line: vec![number(fault_cause(plan, bad, Fault::None))],
    }
}

// ---- the step

pub(crate) fn record_bytes(record: &Record) -> Vec<u8> {
    let (state, round, held) = match record.state {
        State::Waiting => (0, 0, Notice::default()),
        State::Taken(round, held) => (1, round as u8, held),
    };
    let mut bytes = vec![state, round];
    bytes.extend(held.number().to_be_bytes());
    bytes.push(record.round as u8);
    for row in &record.notes {
        bytes.extend(pair(row.edition));
        bytes.extend([row.count as u8, row.used() as u8]);
        bytes.extend((0..row.used()).flat_map(|place| pair(row.at(place))));
    }
    bytes
}

/// Notices, four bytes each.
fn number_bytes(list: &[u32]) -> Vec<u8> {
    list.iter()
        .flat_map(|number| number.to_be_bytes())
        .collect()
}

fn step_call(seed: u64, index: u64) -> Call {
    let StepCase {
        place,
        record,
        said,
    } = step_case(seed, index);
    let mut body = head_bytes(place.n, place.source, &place.bound);
    body.push(place.number as u8);
    body.extend(quad(&place.heard));
    body.extend(record_bytes(&record));
    body.extend(number_bytes(&said));
    let answer = step(&place, record, &said, Fault::None);
    Call {
        kind: b's',
        lent: said.len(),
        body,
        line: answered_record(answer),
    }
}

/// A number, and the record beside it.
pub(crate) fn answered_record(answer: Result<Record, (Cause, Record)>) -> Vec<u8> {
    let (number, after) = match answer {
        Ok(after) => (0, after),
        Err((cause, after)) => (cause.number(), after),
    };
    [&[number], &record_bytes(&after)[..]].concat()
}

/// The source's board takes a later notice.
fn issue_call(seed: u64, index: u64) -> Call {
    let IssueCase { record, later } = issue_case(seed, index);
    Call {
        kind: b'i',
        lent: 0,
        body: [&record_bytes(&record)[..], &later.frame_bytes()].concat(),
        line: answered_record(issue(record, later, Fault::None)),
    }
}

// ---- the run by value

/// All but the words of a run's call.
fn site_head(of: &Site) -> Vec<u8> {
    let mut bytes = plan_bytes(&of.plan);
    bytes.extend(quad(&of.bad));
    bytes.extend(of.start.number().to_be_bytes());
    bytes.push(of.rounds as u8);
    bytes.extend(pair(of.later.len() as u16));
    bytes.extend(number_bytes(&of.later));
    bytes
}

fn site(of: Site) -> Call {
    // Twenty places are printed at most; a plan with more is refused and leaves start records.
    let (answer, records) = of.played(Fault::None);
    let mut line = vec![number(answer)];
    line.extend(records.iter().take(20).flat_map(record_bytes));
    Call {
        kind: b'n',
        lent: of.words.len(),
        body: [site_head(&of), number_bytes(&of.words)].concat(),
        line,
    }
}

fn site_call(seed: u64, index: u64) -> Call {
    site(noisy_site(&mut rng_for(seed, b'n', index), seed, 2..=8))
}

fn wrong_lists_call(seed: u64, index: u64) -> Call {
    site(wrong_lists(&mut rng_for(seed, b'8', index), seed))
}

/// A sample of the whole space of sites with three terminals: any links, f or two groups, bad set
/// and script over silence, two notices and a lie, for two rounds.
fn small_site_call(seed: u64, index: u64) -> Call {
    let mut rng = rng_for(seed, b'x', index);
    let mut plan = Plan::new(3, rng.between(0, 2), rng.between(0, 2));
    for (from, to) in [(0, 1), (0, 2), (1, 0), (1, 2), (2, 0), (2, 1)] {
        if rng.chance(60) {
            plan.links.insert((from, to));
        }
    }
    if rng.chance(40) {
        let groups = [set_of(rng.between(0, 7)), set_of(rng.between(0, 7))];
        let count = rng.pick(&[1, 2, 2]);
        plan.bound = Bound::groups(&groups[..count]);
        // Seldom a group that names the source.
        for place in (0..count as u32).filter(|_| rng.chance(95)) {
            let mut group = plan.bound.at(place);
            group.remove(&plan.source);
            plan.bound.put(place, group);
        }
    }
    let mut bad = set_of(rng.between(0, 7));
    bad.remove(&plan.source);
    let [first, second] = [notice(1, 7).number(), notice(2, 3).number()];
    let lie = notice(1, 3).number();
    let words = (0..18)
        .map(|_| rng.pick(&[0, first, lie, second]))
        .collect();
    let later = [[0, 0], [second, 0], [0, second]];
    site(Site {
        plan,
        bad,
        start: notice(1, 7),
        rounds: 2,
        later: rng.pick(&later).to_vec(),
        words,
    })
}

/// The run of a drafted file that is accepted and has a liar.
fn drafted_site(mut draft: impl FnMut() -> Draft) -> Call {
    loop {
        match read_run(&join(&draft().lines), Fault::None) {
            Ok(file) if !file.words.is_empty() => return site(Site::of(file)),
            _ => continue,
        }
    }
}

/// Liars that change what they say: the rows of whoever hears them have several values.
fn turning_site_call(seed: u64, index: u64) -> Call {
    let mut rng = rng_for(seed, b'u', index);
    drafted_site(|| {
        let n = rng.between(4, 7);
        turning_run(&mut rng, n, Some(6))
    })
}

/// A new lie in each of 39 or 40 rounds, until rows are full.
fn flood_site_call(seed: u64, index: u64) -> Call {
    let mut rng = rng_for(seed, b'o', index);
    drafted_site(|| {
        let n = rng.between(4, 6);
        let mut plan = thin_plan(&mut rng, n);
        if index % 3 == 2 {
            group_thinly(&mut rng, &mut plan);
        }
        let rounds = 39 + (index % 2) as u32;
        run_draft(&mut rng, plan, Some(rounds), Manner::Flood)
    })
}

// ---- the run over lent records

/// Records that `replay` lends: one too many for four terminals, one too few for six.
pub(crate) const LENT_RECORDS: usize = 5;

/// A record that no run has left.
pub(crate) fn noise(rng: &mut Rng) -> Record {
    let state = match rng.below(3) {
        0 => State::Waiting,
        _ => {
            let held = [notice(0, 0), notice(1, 7), notice(65_535, 65_535)];
            State::Taken(u32::from(rng.byte()), rng.pick(&held))
        }
    };
    Record {
        state,
        round: u32::from(rng.byte()),
        notes: (0..ROWS).map(|_| noise_row(rng)).collect(),
        ..Record::waiting()
    }
}

fn noise_row(rng: &mut Rng) -> Row {
    let mut row = Row::default();
    if rng.chance(50) {
        return row;
    }
    let any = u32::from(rng.byte());
    row.edition = rng.pick(&[0, 1, 256, 65_535]);
    row.count = rng.pick(&[0, 1, 2, 40, any]);
    let last = rng.between(0, PLACES - 1);
    for place in [0, 1, last] {
        if rng.chance(if place < 2 { 40 } else { 4 }) {
            row.put(place, 1 + u16::from(rng.byte()));
        }
    }
    row
}

/// Five places that hold noise, lent to the run of four to six terminals: what the rules leave
/// where it is accepted, and the noise where it is refused.
fn lent_call(seed: u64, index: u64) -> Call {
    let mut rng = rng_for(seed, b'l', index);
    let sizes = if rng.chance(60) { 5..=5 } else { 4..=6 };
    let of = noisy_site(&mut rng, seed, sizes);
    let mut records: Vec<Record> = (0..LENT_RECORDS).map(|_| noise(&mut rng)).collect();
    let before: Vec<u8> = records.iter().flat_map(record_bytes).collect();
    let mut line = vec![number(run(&of.order(), &mut records, Fault::None))];
    line.extend(records.iter().flat_map(record_bytes));
    Call {
        kind: b'l',
        lent: of.words.len(),
        body: [site_head(&of), before, number_bytes(&of.words)].concat(),
        line,
    }
}

// ---- the step as a board calls it

/// Board calls as lines of digits, and the lines that answer them: n and source in two bytes, the
/// bound as in an answer's plan, own number in two bytes, the heard set in four, the record, and
/// what was said.
pub fn write_boards(seed: u64, count: u64, calls: &Path, lines: &Path) -> io::Result<()> {
    write_lines(
        (0..count).map(|index| board_call(seed, index)),
        calls,
        lines,
    )
}

/// The same of a board that takes a later notice: the record, and the notice.
pub fn write_issues(seed: u64, count: u64, calls: &Path, lines: &Path) -> io::Result<()> {
    let all = (0..count).map(|index| board_issue(seed, index));
    write_lines(all, calls, lines)
}

pub(crate) fn write_lines(
    all: impl Iterator<Item = (Vec<u8>, Vec<u8>)>,
    calls: &Path,
    lines: &Path,
) -> io::Result<()> {
    let (mut input, mut output) = (Vec::new(), Vec::new());
    for (call, line) in all {
        input.extend(digits(&call));
        input.push(10);
        output.extend(digits(&line));
        output.push(10);
    }
    fs::write(calls, input)?;
    fs::write(lines, output)
}

/// Bytes of a record, one in five of which has bytes that are no state, and the record that they stand
/// for: such bytes are a wrong record, and that is looked at in the same place.
pub(crate) fn board_record(rng: &mut Rng, record: Record) -> (Vec<u8>, Record) {
    let mut bytes = record_bytes(&record);
    if !rng.chance(20) {
        return (bytes, record);
    }
    break_state(rng, &mut bytes);
    let stands_for = Record {
        state: State::Taken(0, Notice::default()),
        ..record
    };
    (bytes, stands_for)
}

/// A refused record's bytes come back as they are, whatever they are.
pub(crate) fn board_line(answer: Result<Record, (Cause, Record)>, before: &[u8]) -> Vec<u8> {
    match answer {
        Ok(after) => [&[0], &record_bytes(&after)[..]].concat(),
        Err((cause, _)) => [&[cause.number()], before].concat(),
    }
}

fn board_issue(seed: u64, index: u64) -> (Vec<u8>, Vec<u8>) {
    let mut rng = rng_for(seed, b'j', index);
    let IssueCase { record, later } = issue_case(seed, index);
    let (bytes, record) = board_record(&mut rng, record);
    let call = [&bytes[..], &later.frame_bytes()].concat();
    (call, board_line(issue(record, later, Fault::None), &bytes))
}

/// A step's call.
fn board_call(seed: u64, index: u64) -> (Vec<u8>, Vec<u8>) {
    let mut rng = rng_for(seed, b'b', index);
    let StepCase {
        mut place,
        record,
        said,
    } = step_case(seed, index);
    let (bytes, record) = board_record(&mut rng, record);
    let mut call = board_head(&mut place, &bytes);
    call.extend(number_bytes(&said));
    let answer = step(&place, record, &said, Fault::None);
    (call, board_line(answer, &bytes))
}

/// Where the board stands, and the bytes of its record. A board that is told f has no place for a
/// group.
pub(crate) fn board_head(place: &mut Place, record: &[u8]) -> Vec<u8> {
    if place.bound.sort == Sort::Number {
        place.bound = Bound::f(place.bound.number);
    }
    let mut call = answered_head(place.n, place.source, &place.bound);
    call.extend(pair(place.number as u16));
    call.extend(quad(&place.heard));
    call.extend(record);
    call
}

/// A first byte that is neither 0 nor 1, or a waiting record with a round or a notice.
fn break_state(rng: &mut Rng, bytes: &mut [u8]) {
    bytes[..6].copy_from_slice(&[0; 6]);
    match rng.below(4) {
        0 => bytes[1] = 1 + rng.below(255) as u8,
        1 => bytes[2 + rng.below(4)] = 1 + rng.below(255) as u8,
        _ => {
            bytes[0] = 2 + rng.below(254) as u8;
            bytes[1] = rng.byte();
            bytes[3] = rng.byte();
            bytes[5] = rng.byte();
        }
    }
}
