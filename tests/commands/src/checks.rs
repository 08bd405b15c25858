//! Calls of the command, and what was wanted beside what came.

use std::fs;
use std::io::Write;
use std::path::{Path, PathBuf};
use std::process::{Command, Output, Stdio};

pub struct Checks {
    /// The checkout.
    pub top: PathBuf,
    /// A folder for the test's own files.
    pub room: PathBuf,
    count: usize,
    failed: usize,
}

pub struct Done {
    pub status: i32,
    pub out: String,
    pub err: String,
}

impl Checks {
    pub fn new(top: &str, room: PathBuf) -> Checks {
        Checks {
            top: PathBuf::from(top),
            room,
            count: 0,
            failed: 0,
        }
    }

    pub fn same(&mut self, label: &str, wanted: &str, got: &str) {
        self.count += 1;
        if wanted != got {
            self.failed += 1;
            println!("commands: {label}\n  wanted: {wanted:?}\n  got:    {got:?}");
        }
    }

    pub fn holds(&mut self, label: &str, is: bool) {
        self.same(label, "true", &is.to_string());
    }

    /// The status, all that was printed, and all that was said.
    pub fn ends(&mut self, label: &str, done: &Done, status: i32, out: &str, err: &str) {
        self.same(
            &format!("{label}: status"),
            &status.to_string(),
            &done.status.to_string(),
        );
        self.same(&format!("{label}: output"), out, &done.out);
        self.same(&format!("{label}: messages"), err, &done.err);
    }

    /// Nothing printed, and this one line said.
    pub fn tells(&mut self, label: &str, done: &Done, status: i32, line: &str) {
        self.ends(label, done, status, "", &format!("hulmayek: {line}\n"));
    }

    /// This line is among what was said or printed.
    pub fn has_line(&mut self, label: &str, text: &str, line: &str) {
        let has = text.lines().any(|one| one == line);
        self.same(label, line, if has { line } else { text });
    }

    pub fn file(&self, name: &str, bytes: &[u8]) -> String {
        let path = self.room.join(name);
        fs::write(&path, bytes).expect("a file of the test's own");
        path.display().to_string()
    }

    /// The checkout's command, with no input.
    pub fn call(&self, words: &[&str]) -> Done {
        self.call_with(words, b"")
    }

    pub fn call_with(&self, words: &[&str], input: &[u8]) -> Done {
        let mut command = Command::new(self.top.join("hulmayek"));
        command.args(words).current_dir(&self.top);
        done(command, input)
    }

    /// Calls in the folder of these files: words, status and lines of each.
    pub fn many_files(&mut self, files: &[(&str, &str)], calls: &[(&[&str], i32, &[&str])]) {
        for (name, text) in files {
            self.file(name, text.as_bytes());
        }
        for (words, status, wanted) in calls {
            let mut command = Command::new(self.top.join("hulmayek"));
            command.args(*words).current_dir(&self.room);
            let done = done(command, b"");
            self.ends(&format!("{words:?}"), &done, *status, &lines(wanted), "");
        }
    }

    /// Whether all held, and how many there were.
    pub fn finish(&self) -> bool {
        if self.failed > 0 {
            println!("commands: {} of {} checks failed", self.failed, self.count);
        } else {
            println!("commands: {} checks passed", self.count);
        }
        self.failed == 0 && self.count > 0
    }
}

/// A command with this input, to its end.
pub fn done(mut command: Command, input: &[u8]) -> Done {
    let mut child = command
        .stdin(Stdio::piped())
        .stdout(Stdio::piped())
        .stderr(Stdio::piped())
        .spawn()
        .expect("the command starts");
    let mut pipe = child.stdin.take().expect("its input is piped");
    let input = input.to_vec();
    // A command that reads nothing closes the pipe: a failed write is no trouble.
    let writer = std::thread::spawn(move || drop(pipe.write_all(&input)));
    let output = child.wait_with_output().expect("the command ends");
    drop(writer.join());
    said(&output)
}

fn said(output: &Output) -> Done {
    Done {
        status: output.status.code().unwrap_or(-1),
        out: String::from_utf8_lossy(&output.stdout).into_owned(),
        err: String::from_utf8_lossy(&output.stderr).into_owned(),
    }
}

/// Each line ended.
pub fn lines<T: AsRef<str>>(lines: &[T]) -> String {
    lines
        .iter()
        .map(|line| format!("{}\n", line.as_ref()))
        .collect()
}

pub fn read(path: &Path) -> String {
    fs::read_to_string(path).unwrap_or_else(|error| panic!("{}: {error}", path.display()))
}
