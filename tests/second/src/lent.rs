//! The library's reader of run files, which is lent two lists.

use crate::faults::Fault;
use crate::generate::{case, shared_case, Kind, SHARED_SORTS, SORTS, VALID_SORTS};
use crate::plan::Cause;
use crate::reader::{read_run, Refusal, RunFile};
use crate::rng::Rng;
use crate::run::{later_of, words_of};
use crate::shared::shared_words_of;

/// Places in the list of words that the reader of run files is lent.
pub const WORD_PLACES: usize = 16_000;
/// Places in its list of later notices, one for each round.
pub const LATER_PLACES: usize = 40;

/// A run file into lent lists: where it is accepted, every place of both is written. The file's own
/// causes all come before that of a list's length.
pub fn read_lent(
    text: &[u8],
    words: &mut [u32],
    later: &mut [u32],
    fault: Fault,
) -> Result<RunFile, Refusal> {
    let file = read_run(text, fault)?;
    let wrong_words = words.len() != WORD_PLACES;
    let wrong_later = later.len() != LATER_PLACES && fault != Fault::LaterRoomNotChecked;
    if wrong_later && !wrong_words && fault == Fault::WordsWrittenBesideLater {
        fill(words, &words_of(&file), fault);
    }
    if wrong_words && !wrong_later && fault == Fault::LaterWrittenBesideWords {
        fill(later, &later_of(&file), fault);
    }
    if wrong_words || wrong_later {
        let cause = Cause::Length;
        return Err(Refusal { cause, line: 0 });
    }
    fill(words, &listed(&file, fault), fault);
    if fault != Fault::LaterNotWritten {
        fill(later, &later_of(&file), fault);
    }
    match fault {
        Fault::DefaultNotAnswered => Ok(RunFile {
            default: None,
            ..file
        }),
        _ => Ok(file),
    }
}

/// The words in their places; other places or numbers under two faults about words without hearer.
fn listed(file: &RunFile, fault: Fault) -> Vec<u32> {
    let shared = file.default.is_some();
    match fault {
        Fault::SharedListedByHearer if shared => {
            let n = file.plan.n as usize;
            let one_of_n = |word: u32| [word].into_iter().chain(vec![0; n - 1]);
            words_of(file).into_iter().flat_map(one_of_n).collect()
        }
        Fault::SharedListedAsLayouts if shared => {
            shared_words_of(file).into_iter().map(u32::from).collect()
        }
        _ => words_of(file),
    }
}

/// Zeros where nothing is said.
fn fill(list: &mut [u32], said: &[u32], fault: Fault) {
    for (place, entry) in list.iter_mut().enumerate() {
        let number = said.get(place).copied().unwrap_or(0);
        if number > 0 || fault != Fault::SilenceNotWritten {
            *entry = number;
        }
    }
}

// ---- seeded calls

/// What both lists hold at each place before a call.
pub const MARK: u32 = 0x5a5a_5a5a;

/// A file, and the rooms of the two lists.
#[derive(Clone, Debug)]
pub struct ReadCase {
    pub text: Vec<u8>,
    pub words: usize,
    pub later: usize,
}

/// What is read, and both lists after the call.
pub type ReadAnswer = (Result<RunFile, Refusal>, Vec<u32>, Vec<u32>);

pub fn read_answer(call: &ReadCase, fault: Fault) -> ReadAnswer {
    let mut words = vec![MARK; call.words];
    let mut later = vec![MARK; call.later];
    let answer = read_lent(&call.text, &mut words, &mut later, fault);
    (answer, words, later)
}

/// Other files than those that are run, with lists of the right length or not.
pub fn read_case(seed: u64, index: u64) -> ReadCase {
    let mut rng = Rng::for_case(seed, 7, index);
    let sorts = if rng.chance(55) { VALID_SORTS } else { SORTS };
    let place = (1_000 + index) * SORTS + rng.below(sorts as usize) as u64;
    let (words, later) = rooms(&mut rng);
    ReadCase {
        text: case(Kind::Run, seed, place),
        words,
        later,
    }
}

/// Files about one radio for all, half of them right, with lists of the right length or not.
pub fn shared_read_case(seed: u64, index: u64) -> ReadCase {
    let mut rng = Rng::for_case(seed, 12, index);
    let sorts = rng.pick(&[2, SHARED_SORTS]);
    let place = (10_000 + index) * SHARED_SORTS + rng.below(sorts as usize) as u64;
    let (words, later) = rooms(&mut rng);
    ReadCase {
        text: shared_case(Kind::Run, seed, place),
        words,
        later,
    }
}

/// One of the two rooms is wrong in one call of four, or both.
fn rooms(rng: &mut Rng) -> (usize, usize) {
    let wrong_words = [0, 1, WORD_PLACES - 1, WORD_PLACES + 1];
    let wrong_later = [0, 1, LATER_PLACES - 1, LATER_PLACES + 1];
    let (words, later) = (rng.pick(&wrong_words), rng.pick(&wrong_later));
    match rng.below(16) {
        0 => (words, LATER_PLACES),
        1 | 2 => (WORD_PLACES, later),
        3 => (words, later),
        _ => (WORD_PLACES, LATER_PLACES),
    }
}
