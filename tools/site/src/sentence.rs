//! A fail as one sentence, which a fitter reads out by phone: the proved `sentence` composes it, and
//! heard.rs has the way back.

use crate::ask::Programs;
use crate::document::Document;
use crate::frames::{Answer, Verdict};
use crate::Trouble;

/// With its line end; none where the plan passes.
pub type Sentence = Option<String>;

pub fn read(printed: &str) -> Option<Sentence> {
    match printed.strip_suffix('\n')? {
        "pass" => Some(None),
        line if line.ends_with(" the notice.") => Some(Some(printed.into())),
        _ => None,
    }
}

/// Over a verdict; nothing where the plan passes.
pub fn told(
    document: &Document,
    verdict: &Verdict,
    programs: &Programs,
) -> Result<String, Trouble> {
    if !verdict.fails {
        return Ok(String::new());
    }
    match programs.ask("sentence", document.plan_frames())?.1 {
        Answer::Sentence(Some(sentence)) => Ok(sentence),
        _ => Err(Trouble::Broken("'sentence' gave no sentence".into())),
    }
}
