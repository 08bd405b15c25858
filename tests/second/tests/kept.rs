//! Files in the old frames, and what the programs printed before editions came.

use second::faults::Fault;
use second::generate::Kind;
use second::kept::{is_old, read, Kept};
use second::output::{run_text, verdict_text};
use std::collections::{BTreeMap, BTreeSet};
use std::path::Path;

fn all() -> Vec<Kept> {
    let path = concat!(env!("CARGO_MANIFEST_DIR"), "/../old/files");
    read(Path::new(path)).expect("kept files")
}

fn text(kept: &Kept, fault: Fault) -> Vec<u8> {
    match kept.kind {
        Kind::Verdict => verdict_text(&kept.input, fault),
        Kind::Run => run_text(&kept.input, fault),
    }
}

#[test]
fn kept_files_print_what_they_printed() {
    let all = all();
    // Six of 5,000 have a line that one radio for all gave a meaning.
    assert_eq!(all.len(), 4_994);
    for kept in &all {
        assert_eq!(text(kept, Fault::None), kept.output);
    }
}

/// The files can show that something changed.
#[test]
fn kept_files_show_changes() {
    let all = all();
    for fault in [
        Fault::OldPrintedNew,
        Fault::NoticeInOldRunOrder,
        Fault::OldWordBeforeStartUnknown,
        Fault::SecondStartUnknown,
        Fault::TakenNeverTakesAgain,
        Fault::FirstWordOnly,
        Fault::UnnamedRoundsForty,
        Fault::LargestValue,
    ] {
        let differing = all.iter().filter(|kept| text(kept, fault) != kept.output);
        let unseen = [
            Fault::NoticeInOldRunOrder,
            Fault::TakenNeverTakesAgain,
            Fault::LargestValue,
        ];
        assert_eq!(differing.count() == 0, unseen.contains(&fault), "{fault:?}");
    }
}

/// None has a line that a later request gave a meaning, none is there twice, and all causes are there.
#[test]
fn kept_files_are_of_all_sorts() {
    let all = all();
    assert!(all.iter().all(|kept| is_old(&kept.input)));
    let different: BTreeSet<&[u8]> = all.iter().map(|kept| &kept.input[..]).collect();
    assert_eq!(different.len(), all.len());
    let plans = all.iter().filter(|kept| kept.kind == Kind::Verdict);
    assert_eq!(plans.count(), 499);
    let mut causes: BTreeMap<String, u32> = BTreeMap::new();
    for kept in all.iter().filter(|kept| kept.kind == Kind::Run) {
        let output = String::from_utf8(kept.output.clone()).expect("digits");
        let cause = match output.strip_prefix("ff") {
            Some(refusal) => refusal[..2].to_string(),
            None => "printed".to_string(),
        };
        *causes.entry(cause).or_insert(0) += 1;
    }
    assert!(causes["printed"] > 2_000);
    for number in (1..=11).chain([15, 17]) {
        let count = causes.get(&format!("{number:02x}")).copied().unwrap_or(0);
        assert!(count > 15, "cause {number}: {count}");
    }
}

/// Which lines have a meaning since editions came, and since one radio was for all.
#[test]
fn old_frames() {
    let old: [&[u8]; 8] = [
        b"",
        b"040007\n",
        b"04000703\n",
        b"050101030009",
        b"0400\n",
        b"\n07",
        b"09\n",
        b"0900\n09000700\n",
    ];
    assert!(old.iter().all(|text| is_old(text)));
    let new: [&[u8]; 7] = [
        b"0400030007\n",
        b"01\n040003000703",
        b"0501010300030009\n",
        b"08",
        b"\n080100040008\n",
        b"01\n090007\n",
        b"0501010009\n",
    ];
    assert!(new.iter().all(|text| !is_old(text)));
}
