//! The first use and later ones: what is built when, by whom, and what is said meanwhile.

use crate::checks::{done, read, Checks};
use crate::standins::Copy;
use std::fs;
use std::process::{Command, Output, Stdio};
use std::thread::sleep;
use std::time::{Duration, Instant};

const ALL: &str = "about two minutes in all (first use, or a source is newer)";
const SITE: &str = "hulmayek: building tools/site, some seconds\n";
const ANSWER: &str = "verdict -\ngiven\n";

pub fn check(checks: &mut Checks) {
    let copy = Copy::new(checks);
    missing_tools(checks, &copy);
    first_use(checks, &copy);
    each_word(checks, &copy);
    newer_sources(checks, &copy);
    without_rt(checks, &copy);
    two_at_once(checks, &copy);
    interrupted(checks, &copy);
    not_proved(checks, &copy);
    not_written(checks, &copy);
}

fn progress(proved: u8) -> String {
    format!("hulmayek: {proved} of 2 crates proved, {ALL}\n")
}

/// What rt was called for: each program in the folder of its crate.
fn rt_calls(copy: &Copy, programs: &str) -> String {
    let call = |name| format!("{}/crates/{name}: run\n", copy.place.display());
    programs.split_whitespace().map(call).collect()
}

fn rt_call(copy: &Copy) -> String {
    rt_calls(copy, "verdict")
}

fn missing_tools(checks: &mut Checks, copy: &Copy) {
    let done = copy.call(&["verdict", "-"]);
    checks.tells(
        "no rt",
        &done,
        2,
        "'rt' is not on the PATH; it proves and builds the programs",
    );
    let done = copy.call(&["test"]);
    checks.tells(
        "test without rt",
        &done,
        2,
        "'rt' is not on the PATH; it proves the crates",
    );
    copy.add_tool("rt");
    let done = copy.call(&["verdict", "-"]);
    checks.tells(
        "no cargo",
        &done,
        2,
        "'cargo' is not on the PATH; it builds tools/site",
    );
    checks.same("nothing was proved for nothing", "", &copy.calls());
    copy.add_tool("cargo");
}

/// A line at the start and one at the end; the rest is in a log. The input is left to the answer.
fn first_use(checks: &mut Checks, copy: &Copy) {
    let done = copy.call(&["verdict", "-"]);
    let said = progress(0) + &progress(2) + SITE;
    checks.ends("first use", &done, 0, ANSWER, &said);
    let log = read(&copy.place.join("target/hulmayek/rt.log"));
    let said = "fn verdict::main: proved";
    checks.has_line("rt's words are in the log", &log, said);
    let calls = rt_call(copy) + "cargo build --release --offline\n";
    checks.same("each was called once", &calls, &copy.calls());
    let done = copy.call(&["verdict", "-"]);
    checks.ends("second use", &done, 0, ANSWER, "");
    checks.same("nothing was called again", "", &copy.calls());
    copy.remove("target/bin/verdict");
    let done = copy.call(&["verdict", "-"]);
    checks.same(
        "a program is gone",
        &(progress(0) + &progress(2)),
        &done.err,
    );
    checks.holds(
        "and is linked again",
        copy.place.join("target/bin/verdict").exists(),
    );
    copy.calls();
}

/// What `draw` may ask, and `explain`, which has the sentence too.
const DRAWN: &str = "verdict archive run rewrite margins greatest";
const EXPLAINED: &str = "verdict archive run rewrite margins greatest sentence";

/// A word has the programs proved that it asks, and no other; `verdict` has its own by now. What is
/// proved for one word serves the others that ask it.
const EACH_WORD: [(&str, &str); 26] = [
    ("verdict", ""),
    ("check", "archive"),
    ("archive", ""),
    ("quote", "quote"),
    ("run", "run"),
    ("trace", ""),
    ("mend", "verdict archive run rewrite"),
    ("links", "greatest"),
    ("greatest", ""),
    ("draw", DRAWN),
    ("explain", EXPLAINED),
    ("draw", ""),
    ("sentence", ""),
    ("heard", "heard"),
    ("margins", ""),
    ("with-bad", ""),
    ("plan", ""),
    ("show", ""),
    ("rewrite", ""),
    ("verdict", ""),
    ("quote", ""),
    ("margins", ""),
    ("greatest", ""),
    ("links", ""),
    ("explain", ""),
    ("heard", ""),
];

fn each_word(checks: &mut Checks, copy: &Copy) {
    for (word, programs) in EACH_WORD {
        let done = copy.call(&[word, "-"]);
        let wanted = rt_calls(copy, programs);
        checks.same(&format!("{word} has proved"), &wanted, &copy.calls());
        let answer = format!("{word} -\ngiven\n");
        checks.same(&format!("{word} answers"), &answer, &done.out);
        let silent = programs.is_empty() == done.err.is_empty();
        checks.holds(&format!("{word} speaks of a build if there is one"), silent);
    }
    several_words(checks, copy);
}

/// A word that may ask several programs has all of them, and of one that is gone each word that asks
/// it builds it again.
fn several_words(checks: &mut Checks, copy: &Copy) {
    let call = |programs: &str| rt_calls(copy, programs);
    let table = [
        ("rewrite", "archive", call("verdict archive run rewrite")),
        ("run", "archive", String::new()),
        ("check", "archive", call("archive")),
        ("check", "verdict", String::new()),
        ("verdict", "verdict", call("verdict")),
        ("verdict", "quote", String::new()),
        ("explain", "quote", String::new()),
        ("quote", "quote", call("quote")),
        ("quote", "verdict", String::new()),
        ("mend", "margins", String::new()),
        ("margins", "margins", call("margins")),
        ("margins", "verdict", String::new()),
        ("margins", "greatest", String::new()),
        ("mend", "greatest", String::new()),
        ("greatest", "greatest", call("greatest")),
        ("greatest", "archive", String::new()),
        ("links", "greatest", call("greatest")),
        ("links", "verdict", String::new()),
        ("draw", "greatest", call(DRAWN)),
        ("explain", "greatest", call(EXPLAINED)),
        ("draw", "margins", call(DRAWN)),
        ("explain", "margins", call(EXPLAINED)),
        ("draw", "sentence", String::new()),
        ("mend", "sentence", String::new()),
        ("explain", "sentence", call(EXPLAINED)),
        ("sentence", "sentence", call("sentence")),
        ("sentence", "verdict", String::new()),
        ("explain", "heard", String::new()),
        ("heard", "heard", call("heard")),
        ("heard", "sentence", String::new()),
    ];
    for (word, gone, wanted) in table {
        copy.remove(&format!("target/bin/{gone}"));
        copy.call(&[word, "-"]);
        let label = format!("{word} where {gone} is gone");
        checks.same(&label, &wanted, &copy.calls());
        copy.call(&["explain", "-"]);
        copy.calls();
    }
}

/// A source of a program or of a crate under it; a removed one too. Other crates do not count.
fn newer_sources(checks: &mut Checks, copy: &Copy) {
    let cargo = "cargo build --release --offline\n".to_string();
    let table = [
        ("crates/verdict/src/main.rt", rt_call(copy)),
        ("crates/low/src/lib.rt", rt_call(copy)),
        ("crates/low/specs/Lib.antt", rt_call(copy)),
        ("crates/low/proofs/f/Proof.antt", rt_call(copy)),
        ("crates/low/proofs/f/New.antt", rt_call(copy)),
        ("crates.txt", rt_call(copy)),
        ("tools/site/src/main.rs", cargo.clone()),
        ("tools/site/Cargo.toml", cargo),
        ("crates/quote/src/main.rt", String::new()),
        ("crates/margins/src/main.rt", String::new()),
        ("crates/greatest/src/main.rt", String::new()),
        ("crates/sentence/src/main.rt", String::new()),
        ("crates/heard/src/main.rt", String::new()),
        ("crates/other/src/lib.rt", String::new()),
        ("README.md", String::new()),
    ];
    for (file, wanted) in table {
        let old = fs::read_to_string(copy.place.join(file)).unwrap_or_default();
        copy.write(file, &(old + "# more\n"));
        let done = copy.call(&["verdict", "-"]);
        checks.same(&format!("{file} is newer: answer"), ANSWER, &done.out);
        checks.same(&format!("{file} is newer: calls"), &wanted, &copy.calls());
        copy.call(&["verdict", "-"]);
        checks.same(&format!("{file} is built: calls"), "", &copy.calls());
    }
    copy.remove("crates/low/proofs/f/New.antt");
    copy.call(&["verdict", "-"]);
    checks.same("a source is gone: calls", &rt_call(copy), &copy.calls());
    old_time(checks, copy);
}

/// A source that was put there with an old time, as by an archive.
fn old_time(checks: &mut Checks, copy: &Copy) {
    let file = copy.place.join("crates/low/src/lib.rt");
    let set = Command::new("touch")
        .args(["-d", "2001-01-01"])
        .arg(file)
        .status();
    checks.holds("an old time", set.is_ok_and(|status| status.success()));
    copy.call(&["verdict", "-"]);
    checks.same(
        "a source with an old time: calls",
        &rt_call(copy),
        &copy.calls(),
    );
}

fn without_rt(checks: &mut Checks, copy: &Copy) {
    copy.remove_tool("rt");
    let done = copy.call(&["verdict", "-"]);
    checks.ends("built, and no rt", &done, 0, ANSWER, "");
    copy.write("crates/low/src/lib.rt", "// changed\n");
    let done = copy.call(&["verdict", "-"]);
    let said = "hulmayek: sources are newer than the built programs, and 'rt' is not on the PATH to build them again\n";
    checks.ends("newer, and no rt", &done, 0, ANSWER, said);
    copy.add_tool("rt");
}

/// rt's stand-in fails where two of it are there.
fn two_at_once(checks: &mut Checks, copy: &Copy) {
    copy.write("slow", "");
    let start = || {
        let mut command = copy.command(&["verdict", "-"]);
        std::thread::spawn(move || done(command_ready(&mut command), b"given\n"))
    };
    let both = [start(), start()].map(|call| call.join().expect("a call"));
    copy.remove("slow");
    for done in &both {
        checks.same("two at once: status", "0", &done.status.to_string());
        checks.same("two at once: output", ANSWER, &done.out);
    }
    let waiting = "hulmayek: another call is building in this checkout; waiting for it\n";
    let mut said = [both[0].err.as_str(), both[1].err.as_str()];
    said.sort_unstable();
    let builds = progress(0) + &progress(2);
    checks.same("one builds", &builds, said[0]);
    checks.same("the other waits", waiting, said[1]);
    checks.same("rt was called once", &rt_call(copy), &copy.calls());
}

fn command_ready(command: &mut Command) -> Command {
    std::mem::replace(command, Command::new("true"))
}

/// The prover and what it started are gone, and the next call builds.
fn interrupted(checks: &mut Checks, copy: &Copy) {
    for (signal, status) in [("TERM", 143), ("INT", 130), ("HUP", 129)] {
        copy.write("crates/low/src/lib.rt", signal);
        copy.write("endless", "");
        let (output, prover) = stopped_by(signal, copy);
        let code = output.status.code().unwrap_or(-1);
        checks.same(
            &format!("{signal}: status"),
            &status.to_string(),
            &code.to_string(),
        );
        let said = String::from_utf8_lossy(&output.stderr).into_owned();
        let line = "hulmayek: stopped; nothing goes on in the background";
        checks.has_line(&format!("{signal}: said"), &said, line);
        checks.holds(&format!("{signal}: no prover goes on"), is_gone(&prover));
        for file in ["endless", "child"] {
            copy.remove(file);
        }
        drop(fs::remove_dir(copy.place.join("running")));
        copy.calls();
        let done = copy.call(&["verdict", "-"]);
        checks.same(&format!("{signal}: the next call"), ANSWER, &done.out);
        checks.same(
            &format!("{signal}: and it builds"),
            &rt_call(copy),
            &copy.calls(),
        );
    }
}

/// A call that is sent the signal once its prover runs; and the prover's own child.
fn stopped_by(signal: &str, copy: &Copy) -> (Output, String) {
    let mut call = copy.command(&["verdict", "-"]);
    call.stdin(Stdio::null())
        .stdout(Stdio::piped())
        .stderr(Stdio::piped());
    let call = call.spawn().expect("the command");
    let child = copy.place.join("child");
    let began = Instant::now();
    while fs::read_to_string(&child).unwrap_or_default().is_empty() {
        assert!(
            began.elapsed() < Duration::from_secs(20),
            "no prover was started"
        );
        sleep(Duration::from_millis(20));
    }
    let to = call.id().to_string();
    let sent = Command::new("kill")
        .args([&format!("-{signal}"), &to])
        .status();
    assert!(
        sent.is_ok_and(|status| status.success()),
        "the signal is sent"
    );
    let output = call.wait_with_output().expect("it ends");
    (output, read(&child).trim().to_string())
}

/// Gone, or dead and not yet collected by its parent.
fn is_gone(process: &str) -> bool {
    match fs::read_to_string(format!("/proc/{process}/stat")) {
        Err(_) => true,
        Ok(stat) => stat
            .rsplit(')')
            .next()
            .is_some_and(|rest| rest.starts_with(" Z")),
    }
}

/// One that was linked all the same is not found by the next call.
fn not_proved(checks: &mut Checks, copy: &Copy) {
    copy.write("broken", "");
    copy.write("crates/low/src/lib.rt", "wrong\n");
    for turn in ["first", "second"] {
        let done = copy.call(&["verdict", "-"]);
        let log = copy.place.join("target/hulmayek/rt.log");
        let why = format!(
            "hulmayek: not proved, so there is no program to ask: {} has what 'rt run' said\n",
            log.display()
        );
        checks.ends(
            &format!("not proved, {turn} call"),
            &done,
            2,
            "",
            &(progress(0) + &why),
        );
        let said = "rt: the library low did not build, so nothing above it was checked";
        checks.has_line("and so it does", &read(&log), said);
        let program = copy.place.join("target/bin/verdict");
        checks.holds("and there is none", !program.exists());
    }
    copy.remove("broken");
    let done = copy.call(&["verdict", "-"]);
    checks.same("proved again", ANSWER, &done.out);
    copy.write("no-site", "");
    copy.write("tools/site/src/main.rs", "wrong\n");
    let done = copy.call(&["verdict", "-"]);
    let log = copy.place.join("target/hulmayek/cargo.log");
    let why = format!(
        "{SITE}hulmayek: tools/site was not built: {} has what cargo said\n",
        log.display()
    );
    checks.ends("tools/site is wrong", &done, 2, "", &why);
    copy.remove("no-site");
}

/// A file in target's place stands for a checkout that cannot be written: it stops root too.
fn not_written(checks: &mut Checks, copy: &Copy) {
    fs::remove_dir_all(copy.place.join("target")).expect("target");
    copy.write("target", "");
    let done = copy.call(&["verdict", "-"]);
    let why = format!(
        "cannot write to {}/target, and something has to be built there",
        copy.place.display()
    );
    checks.tells("target cannot be written", &done, 2, &why);
    copy.remove("target");
}
