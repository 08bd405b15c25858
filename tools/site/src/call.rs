//! One call: its word, its options and its files; and which part of this program answers it.

use crate::ask::Programs;
use crate::document::{self, Document};
use crate::frames::{self, Answer, DEAF};
use crate::search::LIMIT;
use crate::{costs, draw, margins, mend, sentence, shown, silence, tell, trace, words};
use crate::{Told, Trouble};

pub struct Call {
    word: String,
    /// Given, and its number where it has one.
    option: Option<usize>,
    files: Vec<String>,
    terminals: Vec<String>,
}

/// The words' options; the last one has a number after it.
const OPTIONS: [(&str, &str); 3] = [("draw", "--mend"), ("trace", "--csv"), ("mend", "--calls=")];
const MANY_FILES: [&str; 8] = [
    "verdict", "archive", "quote", "sentence", "margins", "greatest", "check", "run",
];
/// They do not look at the bound.
const OF_DRAWINGS: [&str; 2] = ["greatest", "links"];

const PASSES: u8 = 0;
const REFUSED: u8 = 1;
const WRONG: u8 = 2;
const FAILS: u8 = 3;

pub fn plainly(text: String) -> Told {
    Told {
        text,
        status: PASSES,
    }
}

/// The number of an option that has one, else 0; a wrong call where the word has no such option.
fn number_of(word: &str, given: &str) -> Result<usize, Trouble> {
    let known = OPTIONS.iter().find(|(of, _)| *of == word);
    let rest = known.and_then(|(_, option)| given.strip_prefix(option));
    let takes_number = known.is_some_and(|(_, option)| option.ends_with('='));
    match (rest, takes_number) {
        (Some(""), false) => Ok(0),
        (Some(number), true) => number
            .parse()
            .map_err(|_| Trouble::Broken(format!("'{given}' has no number after the '='"))),
        _ => Err(Trouble::Broken(format!("'{word}' has no option '{given}'"))),
    }
}

/// The last option's number, and all that is no option.
pub fn without_options(
    word: &str,
    rest: &[String],
) -> Result<(Option<usize>, Vec<String>), Trouble> {
    let (options, others): (Vec<String>, Vec<String>) =
        rest.iter().cloned().partition(|one| one.starts_with("--"));
    let mut option = None;
    for given in &options {
        option = Some(number_of(word, given)?);
    }
    Ok((option, others))
}

impl Call {
    pub fn read(word: &str, rest: &[String]) -> Result<Call, Trouble> {
        let (option, mut files) = without_options(word, rest)?;
        let mut terminals = Vec::new();
        if word == "with-bad" {
            if files.len() < 2 {
                let why = "'with-bad' wants a file and terminals, as in: with-bad FILE 4 7";
                return Err(Trouble::Broken(why.into()));
            }
            terminals = files.split_off(1);
        }
        if files.len() > 1 && !MANY_FILES.contains(&word) {
            let why = format!("'{word}' takes one file, and {} were given", files.len());
            return Err(Trouble::Broken(why));
        }
        if files.is_empty() {
            files.push("-".into());
        }
        Ok(Call {
            word: word.to_string(),
            option,
            files,
            terminals,
        })
    }

    pub fn answer(&self, programs: &Programs) -> Result<Told, Trouble> {
        if let [file] = self.files.as_slice() {
            return self.answer_of_file(file, programs);
        }
        Ok(self.answers(programs))
    }

    /// What a file may have meant otherwise is said where it is not refused.
    fn answer_of_file(&self, file: &str, programs: &Programs) -> Result<Told, Trouble> {
        let is_drawing = OF_DRAWINGS.contains(&self.word.as_str());
        let (document, warnings) = document::read(file, is_drawing)?;
        let answer = self.answer_of(&document, programs)?;
        for warning in warnings {
            tell(&warning);
        }
        Ok(answer)
    }

    fn answer_of(&self, document: &Document, programs: &Programs) -> Result<Told, Trouble> {
        match self.word.as_str() {
            program @ ("verdict" | "archive" | "quote" | "sentence" | "margins" | "greatest") => {
                asked(program, document.plan_frames(), document, programs)
            }
            "run" => asked("run", document.frames(), document, programs),
            "rewrite" | "plan" => rewritten(document, programs),
            "check" => checked(document, programs),
            "explain" => explained(document, programs),
            "links" => costs::links(document, programs).map(plainly),
            "show" => show(document, programs).map(plainly),
            "draw" => draw::draw(document, self.option.is_some(), programs).map(plainly),
            "trace" => trace::trace(document, self.option.is_some(), programs).map(plainly),
            "mend" => mend::mend(document, self.option.unwrap_or(LIMIT), programs).map(plainly),
            "with-bad" => silence::with_bad(document, &self.terminals, programs),
            other => Err(Trouble::Broken(format!("site has no word '{other}'"))),
        }
    }

    /// Many files: a line for each, with its name. The worst status stands for all.
    fn answers(&self, programs: &Programs) -> Told {
        let mut all = plainly(String::new());
        let between = if self.word == "margins" { ", " } else { " " };
        for file in &self.files {
            let answer = self.answer_of_file(file, programs);
            let (line, status) = match answer {
                Ok(told) => (told.text.trim_end().replace('\n', between), told.status),
                Err(trouble) => (trouble.words().to_string(), trouble.status()),
            };
            all.text += &format!("{file}: {line}\n");
            let rank = |status: u8| {
                [PASSES, FAILS, REFUSED, WRONG]
                    .iter()
                    .position(|one| *one == status)
            };
            if rank(status) > rank(all.status) {
                all.status = status;
            }
        }
        all
    }
}

/// What the program prints, as it stands; of a text that it refuses, where in the text and why.
fn asked(
    program: &str,
    frames: &[u8],
    document: &Document,
    programs: &Programs,
) -> Result<Told, Trouble> {
    match programs.ask(program, frames)? {
        (_, Answer::Refused(refusal)) if document.is_text() => {
            Err(document.refused(program, &refusal))
        }
        (printed, Answer::Refused(_)) => Ok(Told {
            text: printed,
            status: REFUSED,
        }),
        (printed, _) => Ok(plainly(printed)),
    }
}

/// A plan's frames in their fixed order; those of a text's run follow, if `run` accepts them.
fn rewritten(document: &Document, programs: &Programs) -> Result<Told, Trouble> {
    let mut told = asked("rewrite", document.plan_frames(), document, programs)?;
    if document.is_text() && document.is_run() {
        asked("run", document.frames(), document, programs)?;
        let run = &document.frames()[document.plan_frames().len()..];
        told.text += &String::from_utf8_lossy(run);
    }
    Ok(told)
}

fn checked(document: &Document, programs: &Programs) -> Result<Told, Trouble> {
    let (text, status) = match programs.verdict_of(document)?.fails {
        true => ("fail\n".to_string(), FAILS),
        false => ("pass\n".to_string(), PASSES),
    };
    Ok(Told { text, status })
}

/// The sentence of a plan that fails, the frames as they came, then the words.
fn explained(document: &Document, programs: &Programs) -> Result<Told, Trouble> {
    let program = if document.is_run() { "run" } else { "verdict" };
    let (printed, answer) = programs.ask(program, document.frames())?;
    let mut text = printed + &words::ended(&in_words(document, program, &answer, programs)?);
    match &answer {
        Answer::Refused(refusal) if refusal.cause == DEAF && !document.is_run() => {
            text += &archived(document, programs)?;
        }
        Answer::Refused(refusal) if document.is_text() => {
            return Err(document.refused(program, refusal));
        }
        Answer::Verdict(verdict) => {
            text += &words::ended(&margins::told(document, programs)?);
            text = sentence::told(document, verdict, programs)? + &text;
        }
        _ => {}
    }
    Ok(Told {
        text,
        status: u8::from(matches!(answer, Answer::Refused(_))),
    })
}

fn in_words(
    document: &Document,
    program: &str,
    answer: &Answer,
    programs: &Programs,
) -> Result<Vec<String>, Trouble> {
    Ok(match answer {
        Answer::Refused(refusal) => vec![document.refusal_in_words(program, refusal)],
        Answer::Verdict(verdict) => {
            let mut lines = words::of_verdict(document, verdict, programs)?;
            lines.extend(costs::told(document, programs)?);
            lines
        }
        Answer::Terminals(states) => words::of_states(document, states),
        Answer::Plan | Answer::Margins(_) | Answer::Greatest(_) | Answer::Sentence(_) => Vec::new(),
    })
}

/// What the archive has of a plan that is refused as a new one. It may refuse it too, for a line
/// under the links that `verdict` has not come to.
fn archived(document: &Document, programs: &Programs) -> Result<String, Trouble> {
    let (printed, answer) = programs.ask("archive", document.frames())?;
    let does = match answer {
        Answer::Refused(_) => "refuses it too",
        _ => "opens it",
    };
    let lines = in_words(document, "archive", &answer, programs)?;
    Ok(format!(
        "the archive {does}:\n{printed}{}",
        words::ended(&lines)
    ))
}

/// The proved writer puts the plan's links in order.
fn show(document: &Document, programs: &Programs) -> Result<String, Trouble> {
    let plan = programs.accepted(document)?;
    let (printed, _) = programs.ask("rewrite", plan.to_frames().as_bytes())?;
    let plan = frames::plan(printed.as_bytes());
    let mut text = shown::plan(&plan, &document.extras);
    if document.is_run() {
        text += &shown::run(&words::run_of(document));
    }
    Ok(text)
}
