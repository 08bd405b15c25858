//! `commands CHECKOUT [TOPIC..]`: the tables of each topic against the checkout's ./hulmayek.

mod answers;
mod bad_sets;
mod bounded;
mod builds;
mod calls;
mod checks;
mod composer;
mod cost_pictures;
mod deaf;
mod edition_frames;
mod edition_pictures;
mod edition_texts;
mod editions;
mod greatest;
mod group_frames;
mod group_mends;
mod group_pictures;
mod group_texts;
mod groups;
mod heard;
mod margin_pictures;
mod margins;
mod mends;
mod pictures;
mod plans;
mod quote;
mod readme;
mod reasons;
mod runs;
mod sentences;
mod shared;
mod shared_frames;
mod shared_pictures;
mod shared_texts;
mod standins;
mod svg;
mod text_form;

use checks::Checks;
use std::process::ExitCode;

type Topic = (&'static str, fn(&mut Checks));

const TOPICS: [Topic; 19] = [
    ("answers", answers::check),
    ("calls", calls::check),
    ("plans", plans::check),
    ("reasons", reasons::check),
    ("text", text_form::check),
    ("runs", runs::check),
    ("deaf", deaf::check),
    ("quote", quote::check),
    ("margins", margins::check),
    ("greatest", greatest::check),
    ("sentences", sentences::check),
    ("heard", heard::check),
    ("groups", groups::check),
    ("editions", editions::check),
    ("shared", shared::check),
    ("mends", mends::check),
    ("pictures", pictures::check),
    ("readme", readme::check),
    ("builds", builds::check),
];

fn main() -> ExitCode {
    let words: Vec<String> = std::env::args().skip(1).collect();
    let Some((top, wanted)) = words.split_first() else {
        eprintln!("usage: commands CHECKOUT [TOPIC..]");
        return ExitCode::from(2);
    };
    let room = std::env::temp_dir().join(format!("hulmayek-{}", std::process::id()));
    std::fs::create_dir_all(&room).expect("a folder for the test's files");
    let mut checks = Checks::new(top, room.clone());
    // All programs are built first, so that no check sees the waiting.
    for words in [
        ["explain", "plans/a.txt"],
        ["quote", "plans/a.txt"],
        ["heard", "2"],
    ] {
        checks.call(&words);
    }
    for (name, check) in TOPICS {
        if wanted.is_empty() || wanted.iter().any(|one| one == name) {
            check(&mut checks);
        }
    }
    drop(std::fs::remove_dir_all(room));
    ExitCode::from(u8::from(!checks.finish()))
}
