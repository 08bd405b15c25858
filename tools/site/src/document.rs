//! A file as it was given, in frames or in the text form: the frames to ask a program with, and
//! where a refused frame stands in the file.

use crate::frames::{self, Plan, Refusal};
use crate::reason;
use crate::text::{self, Place};
use crate::words;
use crate::Trouble;
use std::collections::BTreeMap;
use std::fs::File;
use std::io::{self, Read};

/// Far above the longest file that a program accepts, so what is cut off here is refused anyway.
const LONGEST_INPUT: u64 = 1 << 20;
const BYTE_ORDER_MARK: &[u8] = b"\xef\xbb\xbf";

/// What the text form has and frames have no room for.
#[derive(Default)]
pub struct Extras {
    pub site: Option<String>,
    pub names: BTreeMap<u8, String>,
    /// As written, to be written back.
    pub places: BTreeMap<u8, (String, String)>,
}

impl Extras {
    /// A terminal's number, with its name where it has one.
    pub fn called(&self, terminal: u8) -> String {
        match self.names.get(&terminal) {
            Some(name) => format!("{terminal} ({name})"),
            None => terminal.to_string(),
        }
    }

    pub fn listed(&self, terminals: &[u8]) -> String {
        if terminals.is_empty() {
            return "none".into();
        }
        let called: Vec<String> = terminals.iter().map(|one| self.called(*one)).collect();
        called.join(", ")
    }
}

/// Where the frames come from.
enum Form {
    Frames,
    /// The places of each frame in the text: three of a head, two of a start, else one.
    Text(Vec<Vec<Place>>),
}

pub struct Document {
    /// As on the command line.
    pub file: String,
    pub extras: Extras,
    frames: Vec<u8>,
    /// How many bytes of the frames are the plan's.
    plan_length: usize,
    form: Form,
}

/// The file's bytes; `-` is the standard input.
pub fn bytes_of(file: &str) -> Result<Vec<u8>, Trouble> {
    let mut bytes = Vec::new();
    let read = if file == "-" {
        io::stdin().take(LONGEST_INPUT + 1).read_to_end(&mut bytes)
    } else {
        let opened = File::open(file).map_err(|error| no_file(file, &error))?;
        opened.take(LONGEST_INPUT + 1).read_to_end(&mut bytes)
    };
    match read {
        Ok(_) => Ok(bytes),
        Err(error) => Err(no_file(file, &error)),
    }
}

fn no_file(file: &str, error: &io::Error) -> Trouble {
    Trouble::Broken(match error.kind() {
        io::ErrorKind::NotFound => format!("there is no file '{file}'"),
        _ if std::path::Path::new(file).is_dir() => format!("'{file}' is a folder, not a file"),
        _ => format!("the file '{file}' cannot be read: {error}"),
    })
}

/// The document of a file, and the warnings about it. Of a drawing a text need not have the bound.
pub fn read(file: &str, is_drawing: bool) -> Result<(Document, Vec<String>), Trouble> {
    let bytes = bytes_of(file)?;
    if is_utf16(&bytes) {
        let why = "the file is UTF-16 text (in Windows 'Unicode'); save it as UTF-8";
        return Err(Trouble::Refused(why.into()));
    }
    let text = bytes.strip_prefix(BYTE_ORDER_MARK).unwrap_or(&bytes);
    if !is_text(text) {
        return Ok((of_frames(file, bytes), Vec::new()));
    }
    if bytes.len() as u64 > LONGEST_INPUT {
        let why = "the text is longer than any plan with a run needs: 1 MiB is read";
        return Err(Trouble::Refused(why.into()));
    }
    let text = String::from_utf8_lossy(text);
    let draft = text::read(&text, is_drawing).map_err(Trouble::Refused)?;
    let warnings = draft.warnings();
    let (lines, plan_lines) = draft.frames();
    let plan_length = lines[..plan_lines].iter().map(|(line, _)| line.len()).sum();
    let (lines, places): (Vec<String>, Vec<Vec<Place>>) = lines.into_iter().unzip();
    let document = Document {
        file: file.to_string(),
        extras: draft.extras,
        frames: lines.concat().into_bytes(),
        plan_length,
        form: Form::Text(places),
    };
    Ok((document, warnings))
}

fn of_frames(file: &str, bytes: Vec<u8>) -> Document {
    Document {
        file: file.to_string(),
        extras: Extras::default(),
        plan_length: bytes.len(),
        frames: bytes,
        form: Form::Frames,
    }
}

/// By its byte order mark, or by a zero in every second byte of the first four.
fn is_utf16(bytes: &[u8]) -> bool {
    match bytes {
        [0xff, 0xfe, ..] | [0xfe, 0xff, ..] => true,
        [a, b, c, d, ..] => {
            [*a, *b, *c, *d].map(|byte| byte == 0) == [false, true, false, true]
                || [*a, *b, *c, *d].map(|byte| byte == 0) == [true, false, true, false]
        }
        _ => false,
    }
}

/// By the first line that is neither blank nor a comment: a link, or a word that is no number in
/// hexadecimal. What is neither form goes to the proved reader, which refuses it.
fn is_text(bytes: &[u8]) -> bool {
    let text = String::from_utf8_lossy(bytes);
    let mut comments = false;
    for line in text.lines().map(str::trim).filter(|line| !line.is_empty()) {
        if line.starts_with('#') {
            comments = true;
            continue;
        }
        let word = line.split(|c: char| !c.is_ascii_alphabetic()).next();
        let word = word.unwrap_or_default();
        let is_word = word == "bad" || word.chars().any(|c| !c.is_ascii_hexdigit());
        let is_link = line.contains('>') || line.contains(" - ");
        return is_word || is_link;
    }
    comments
}

impl Document {
    pub fn is_text(&self) -> bool {
        matches!(self.form, Form::Text(_))
    }

    pub fn is_run(&self) -> bool {
        match self.form {
            Form::Frames => frames::is_run_file(&self.frames),
            Form::Text(_) => self.plan_length < self.frames.len(),
        }
    }

    pub fn frames(&self) -> &[u8] {
        &self.frames
    }

    /// The plan alone where the file is text, which may have a run under it. Frames stay whole: a
    /// program that lacks a kind refuses it.
    pub fn plan_frames(&self) -> &[u8] {
        &self.frames[..self.plan_length]
    }

    /// Of an accepted document, or one that is refused for a deaf terminal alone.
    pub fn plan(&self) -> Plan {
        frames::plan(frames::plan_part(&self.frames))
    }

    /// A title for people: the site's name, or the file's.
    pub fn title(&self) -> String {
        match (&self.extras.site, self.file.as_str()) {
            (Some(site), _) => site.clone(),
            (None, "-") => String::new(),
            (None, file) => {
                let name = std::path::Path::new(file).file_name();
                name.unwrap_or_default().to_string_lossy().into_owned()
            }
        }
    }

    pub fn refused(&self, program: &str, refusal: &Refusal) -> Trouble {
        Trouble::Refused(self.refusal_in_words(program, refusal))
    }

    /// The number and the line are the program's; why is found again from the frames.
    pub fn refusal_in_words(&self, program: &str, refusal: &Refusal) -> String {
        let line_of = |line: usize| match &self.form {
            Form::Frames => line,
            Form::Text(places) => places[line - 1][0].line,
        };
        let reason = reason::find(&self.frames, program, refusal, &line_of);
        let (place, why) = match (&self.form, refusal.line) {
            (_, 0) => ("the whole file".to_string(), reason.map(|why| why.whole())),
            (Form::Frames, line) => (
                format!("line {line} ({})", words::line_of(&self.frames, line)),
                reason.map(|why| why.whole()),
            ),
            (Form::Text(places), line) => {
                let field = reason.as_ref().map_or(0, |why| why.field);
                let places = &places[line - 1];
                let place = places.get(field).unwrap_or(&places[0]);
                let at = format!("line {} ({})", place.line, place.words);
                (at, reason.map(|why| why.rule))
            }
        };
        let why = why.unwrap_or_else(|| words::cause(refusal).to_string());
        format!("refused, {place}: {why} (cause {})", refusal.cause)
    }
}
