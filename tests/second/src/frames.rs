//! Lines as frames: the digits of a line, and the lengths that frames have.

use crate::faults::Fault;
use crate::notice::Form;

/// The bytes of a line, or nothing where the line is no text of the right form.
pub fn frame_bytes(piece: &[u8], fault: Fault) -> Option<Vec<u8>> {
    let digits = match piece.strip_suffix(b"\n") {
        Some(digits) => digits,
        None if fault == Fault::UnendedLineAccepted => piece,
        None => return None,
    };
    if digits.is_empty() || digits.len() % 2 == 1 {
        return None;
    }
    digits
        .chunks(2)
        .map(|pair| Some(digit(pair[0], fault)? * 16 + digit(pair[1], fault)?))
        .collect()
}

/// A digit's value is its place among the sixteen; no other character is one.
fn digit(character: u8, fault: Fault) -> Option<u8> {
    let sixteen: &[u8] = match fault {
        Fault::CharactersExchanged => b"0123456789acbdef",
        Fault::CharacterMissing => b"0123456789abcde",
        _ => b"0123456789abcdef",
    };
    let character = match fault {
        Fault::CapitalsAccepted => character.to_ascii_lowercase(),
        _ => character,
    };
    let place = sixteen.iter().position(|&known| known == character)?;
    Some(place as u8)
}

/// What the lines so far say about the frames to come.
#[derive(Clone, Copy, Debug, Default, PartialEq, Eq)]
pub struct Known {
    /// Without editions or with them, known by the start.
    pub form: Option<Form>,
    /// One radio for all: old frames only, and words that name no hearer.
    pub shared: bool,
}

/// Whether a frame of this kind has so many bytes, the kind among them. Of starts and words either
/// form is right until the start has said which one the file has, or the default that it is shared.
pub fn length_fits(kind: u8, length: usize, known: Known, fault: Fault) -> bool {
    let known = Known {
        shared: known.shared && (known.form.is_some() || fault != Fault::ModeKnownAtStart),
        ..known
    };
    let form = known.form;
    let old = form != Some(Form::New);
    let new = form != Some(Form::Old);
    match kind {
        1 | 3 => length == 4,
        2 => length == 3,
        4 => start_fits(length, known, fault),
        5 => word_fits(length, known, fault),
        7 if fault == Fault::GroupLengthNotChecked => length >= 4,
        7 => length == 4,
        8 if known.shared => fault == Fault::NoticeInModeAccepted && length == 6,
        8 => match fault {
            Fault::NoticeLengthNotChecked => new && length >= 6,
            Fault::NoticeInOldRunAccepted | Fault::NoticeInOldRunOrder => length == 6,
            Fault::NoticeBeforeStartUnknown => form == Some(Form::New) && length == 6,
            Fault::NoticeInNewRunUnknown => old && length == 6,
            _ => new && length == 6,
        },
        9 => match fault {
            Fault::DefaultLengthNotChecked => length >= 3,
            Fault::DefaultAfterStartUnknown => length == 3 && form.is_none(),
            _ => length == 3,
        },
        _ => false,
    }
}

fn start_fits(length: usize, Known { form, shared }: Known, fault: Fault) -> bool {
    let edition_barred = shared && fault != Fault::EditionStartInMode;
    let (old, new) = match (fault, form) {
        (Fault::OtherStartOrder, _) => (true, true),
        (Fault::SecondStartUnknown, Some(_)) => (false, false),
        (Fault::SecondStartInModeUnknown, Some(_)) if shared => (false, false),
        _ => (
            form != Some(Form::New),
            form != Some(Form::Old) && !edition_barred,
        ),
    };
    let least = if fault == Fault::NewStartNeedsRounds {
        6
    } else {
        5
    };
    (old && (3..=4).contains(&length)) || (new && (least..=6).contains(&length))
}

/// A word names a hearer or not, and has an edition or not, but never an edition and no hearer.
fn word_fits(length: usize, Known { form, shared }: Known, fault: Fault) -> bool {
    if shared {
        return match fault {
            Fault::HearerInModeAccepted => length == 5 || length == 6,
            Fault::EditionWordInModeAccepted => length == 5 || length == 8,
            _ => length == 5,
        };
    }
    let hearerless = match fault {
        Fault::NoHearerAccepted => form != Some(Form::New),
        Fault::NoHearerInNewRunAccepted => form != Some(Form::Old),
        Fault::NoHearerBeforeModeUnknown => false,
        _ => form.is_none(),
    };
    let (old, new) = match (fault, form) {
        (Fault::OldWordInNewRun, Some(Form::New)) => (true, true),
        (Fault::NewWordInOldRun, Some(Form::Old)) => (true, true),
        (Fault::NewWordBeforeStartUnknown, None) => (true, false),
        (Fault::OldWordBeforeStartUnknown, None) => (false, true),
        _ => (form != Some(Form::New), form != Some(Form::Old)),
    };
    (hearerless && length == 5) || (old && length == 6) || (new && length == 8)
}
