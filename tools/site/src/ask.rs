//! The proved programs, as the script has built them.

use crate::costs::Greatest;
use crate::document::Document;
use crate::frames::{self, Answer, Plan, Refusal, State, Verdict, DEAF};
use crate::margins::Margins;
use crate::Trouble;
use std::io::Write;
use std::path::{Path, PathBuf};
use std::process::{Command, Output, Stdio};
use std::thread;

pub struct Programs {
    folder: PathBuf,
}

impl Programs {
    pub fn new(root: &str) -> Programs {
        let folder = Path::new(root).join("target/bin");
        Programs { folder }
    }

    /// What the program prints on this input, and what that means.
    pub fn ask(&self, name: &str, input: &[u8]) -> Result<(String, Answer), Trouble> {
        let output = self
            .pipe(name, input)
            .map_err(|error| Trouble::Broken(format!("cannot run '{name}': {error}")))?;
        if !output.status.success() {
            return Err(Trouble::Broken(format!(
                "the program '{name}' did not end well"
            )));
        }
        let printed = String::from_utf8_lossy(&output.stdout).into_owned();
        match frames::answer(&printed) {
            Some(answer) => Ok((printed, answer)),
            None => Err(Trouble::Broken(format!(
                "'{name}' printed what is no answer: {printed:?}"
            ))),
        }
    }

    /// The verdict on frames that are no file of the user's. `archive` has it of any plan, and
    /// what is tried here may have a deaf terminal.
    pub fn verdict(&self, frames: &str) -> Result<Verdict, Trouble> {
        match self.ask("archive", frames.as_bytes())?.1 {
            Answer::Verdict(verdict) => Ok(verdict),
            _ => Err(Trouble::Broken("'archive' gave no verdict".into())),
        }
    }

    /// The verdict on a document's plan, be it new or on file.
    pub fn verdict_of(&self, document: &Document) -> Result<Verdict, Trouble> {
        match self.ask("archive", document.plan_frames())?.1 {
            Answer::Verdict(verdict) => Ok(verdict),
            Answer::Refused(refusal) => Err(document.refused("archive", &refusal)),
            _ => Err(Trouble::Broken("'archive' gave no verdict".into())),
        }
    }

    /// A document's plan, once the program that reads all of it has accepted it.
    pub fn accepted(&self, document: &Document) -> Result<Plan, Trouble> {
        match self.refusal_of(document)? {
            Some((program, refusal)) => Err(document.refused(program, &refusal)),
            None => Ok(document.plan()),
        }
    }

    /// The same for a word that needs nothing of a run: where `run` refuses a deaf terminal, the
    /// plan is still one for the archive.
    pub fn accepted_plan(&self, document: &Document) -> Result<Plan, Trouble> {
        match self.refusal_of(document)? {
            Some((program, refusal)) if refusal.cause != DEAF => {
                Err(document.refused(program, &refusal))
            }
            _ => Ok(document.plan()),
        }
    }

    /// By `run`, or of a plan by `rewrite`, which opens those of the archive too.
    fn refusal_of(&self, document: &Document) -> Result<Option<(&str, Refusal)>, Trouble> {
        let program = if document.is_run() { "run" } else { "rewrite" };
        match self.ask(program, document.frames())?.1 {
            Answer::Refused(refusal) => Ok(Some((program, refusal))),
            _ => Ok(None),
        }
    }

    /// The states after a run of frames that are no file of the user's.
    pub fn states(&self, frames: &str) -> Result<Vec<(u8, State)>, Trouble> {
        match self.ask("run", frames.as_bytes())?.1 {
            Answer::Terminals(states) => Ok(states),
            _ => Err(Trouble::Broken("'run' gave no states".into())),
        }
    }

    /// None of a plan that is not for `margins`: it lists groups, or is one for the archive.
    pub fn margins(&self, plan: &Plan) -> Result<Option<Margins>, Trouble> {
        match self.ask("margins", plan.to_frames().as_bytes())?.1 {
            Answer::Margins(margins) => Ok(Some(margins)),
            Answer::Refused(_) => Ok(None),
            _ => Err(Trouble::Broken("'margins' gave no margins".into())),
        }
    }

    /// The greatest bound of a plan that has one, and that a program has accepted.
    pub fn greatest(&self, plan: &Plan) -> Result<Greatest, Trouble> {
        match self.ask("greatest", plan.to_frames().as_bytes())?.1 {
            Answer::Greatest(greatest) => Ok(greatest),
            _ => Err(Trouble::Broken("'greatest' gave no bound".into())),
        }
    }

    fn pipe(&self, name: &str, input: &[u8]) -> std::io::Result<Output> {
        let mut child = Command::new(self.folder.join(name))
            .stdin(Stdio::piped())
            .stdout(Stdio::piped())
            .spawn()?;
        let mut pipe = child.stdin.take().expect("the input is piped");
        let input = input.to_vec();
        // A program that has seen enough stops reading: a failed write is no trouble.
        let writer = thread::spawn(move || drop(pipe.write_all(&input)));
        let output = child.wait_with_output();
        drop(writer.join());
        output
    }
}
