//! A copy of the script in a folder of its own, with stand-ins for rt and cargo that note their
//! calls, swallow what input they are given, and build programs that echo theirs.

use crate::checks::{done, read, Checks, Done};
use std::fs;
use std::os::unix::fs::{symlink, PermissionsExt};
use std::path::{Path, PathBuf};
use std::process::Command;

/// What the script may use beside rt and cargo.
const TOOLS: [&str; 18] = [
    "awk", "bash", "cat", "chmod", "cp", "dirname", "env", "find", "flock", "mkdir", "mv",
    "readlink", "rm", "rmdir", "sed", "sh", "sleep", "touch",
];

/// 'rt run' in a program's folder: builds out/NAME there, and runs it. While there is a program with its stamp rt does not link it
/// again, as the true one. Two at a time fail, where two true ones wait for each other.
const RT: &str = r#"#!/bin/sh
name=${PWD##*/}
echo "$PWD: $*" >>../../calls
cat >/dev/null
mkdir ../../running || { echo "rt: the library low did not build, so nothing above it was checked" >&2; exit 1; }
if [ -f ../../endless ]; then sleep 300 & echo $! >../../child; wait; fi
[ ! -f ../../slow ] || sleep 1
mkdir -p out
if [ ! -f out/stamp ] || [ ! -f "out/$name" ]; then
    : >out/stamp
    : >"out/$name"
    chmod +x "out/$name"
fi
rmdir ../../running
echo "rt: chose --jobs 2 for low" >&2
if [ -f ../../broken ]; then echo "rt: the library low did not build, so nothing above it was checked" >&2; exit 1; fi
echo "rt: chose --jobs 2 for $name" >&2
echo "fn $name::main: proved" >&2
echo "what the program prints"
"#;

const CARGO: &str = r#"#!/bin/sh
echo "cargo $*" >>../../calls
cat >/dev/null
[ ! -f ../../no-site ] || exit 101
mkdir -p "$CARGO_TARGET_DIR/release"
printf '#!/bin/sh\nshift\necho "$*"\ncat\n' >"$CARGO_TARGET_DIR/release/site"
chmod +x "$CARGO_TARGET_DIR/release/site"
"#;

const CRATES: &str =
    "# NAME: DEP DEP ..\nlow:\nverdict: low io\narchive: low io\nquote: low io\nmargins: low io\ngreatest: low io\nsentence: low io\nheard: low io\nrun: low io\nrewrite: low io\nother: low\n";

pub struct Copy {
    pub place: PathBuf,
    tools: PathBuf,
}

/// Each in a folder of its own making; 'other' is under no program.
const SOURCES: [&str; 15] = [
    "crates/low/src/lib.rt",
    "crates/low/specs/Lib.antt",
    "crates/low/proofs/f/Proof.antt",
    "crates/verdict/src/main.rt",
    "crates/archive/src/main.rt",
    "crates/quote/src/main.rt",
    "crates/margins/src/main.rt",
    "crates/greatest/src/main.rt",
    "crates/sentence/src/main.rt",
    "crates/heard/src/main.rt",
    "crates/run/src/main.rt",
    "crates/rewrite/src/main.rt",
    "crates/other/src/lib.rt",
    "tools/site/src/main.rs",
    "tools/site/Cargo.toml",
];

impl Copy {
    /// The script's folder has a blank in its name.
    pub fn new(checks: &Checks) -> Copy {
        let place = checks.room.join("a site");
        let tools = checks.room.join("tools");
        fs::create_dir_all(&tools).expect("a folder");
        for source in SOURCES {
            let source = place.join(source);
            let folder = source.parent().expect("a folder");
            fs::create_dir_all(folder).expect("a folder");
            fs::write(source, "").expect("a source");
        }
        for script in ["hulmayek", "tools/programs"] {
            fs::copy(checks.top.join(script), place.join(script)).expect("the script");
        }
        let copy = Copy { place, tools };
        copy.write("crates.txt", CRATES);
        let path = std::env::var("PATH").unwrap_or_default();
        for tool in TOOLS {
            let mut folders = path.split(':').map(|folder| Path::new(folder).join(tool));
            let found = folders.find(|path| path.is_file());
            let found = found.unwrap_or_else(|| panic!("no {tool}"));
            symlink(found, copy.tools.join(tool)).expect("a link");
        }
        copy
    }

    pub fn write(&self, file: &str, text: &str) {
        fs::write(self.place.join(file), text).expect("a file");
    }

    pub fn remove(&self, file: &str) {
        drop(fs::remove_file(self.place.join(file)));
    }

    pub fn add_tool(&self, name: &str) {
        let text = if name == "rt" { RT } else { CARGO };
        let path = self.tools.join(name);
        fs::write(&path, text).expect("a stand-in");
        fs::set_permissions(&path, fs::Permissions::from_mode(0o755)).expect("its mode");
    }

    pub fn remove_tool(&self, name: &str) {
        fs::remove_file(self.tools.join(name)).expect("a stand-in to remove");
    }

    /// What was called since the last time that this was asked.
    pub fn calls(&self) -> String {
        let calls = self.place.join("calls");
        let all = if calls.exists() {
            read(&calls)
        } else {
            String::new()
        };
        drop(fs::remove_file(calls));
        all
    }

    pub fn command(&self, words: &[&str]) -> Command {
        let mut command = Command::new(self.place.join("hulmayek"));
        command.args(words).env("PATH", &self.tools);
        command
    }

    /// The copy's command with 'given' as its input.
    pub fn call(&self, words: &[&str]) -> Done {
        done(self.command(words), b"given\n")
    }
}
