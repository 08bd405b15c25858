//! A second implementation of layout notices on a terminal site.
//!
//! It is written from the specification alone and takes other data structures than the one
//! it is compared with: sets are ordered sets of terminal numbers, files are split into
//! lines, bad sets are listed by size, the closure is a work list, a row of a record is a map
//! of the places that hold something. The margins and the greatest f alone look at every set, as a
//! number. The programs `verdict` and `run` read new plans, and so do `quote`, of fewer terminals, and
//! `margins`, without groups; `archive` and `rewrite` open those on file too, in which a terminal may be
//! deaf, and so does `greatest`, without groups. `sentence` says a new plan's fail in words, which `heard`
//! turns back into sets. A plan bounds
//! the bad by a number f, or by named groups that fail together. A notice is an edition and a layout;
//! run files in the old frames have the layout alone and count as edition 1. On a site with one radio
//! for all a bad terminal says one thing to all its hearers, and the source may be bad too.

pub mod channel;
pub mod characters;
pub mod compare;
pub mod damage;
pub mod draft;
pub mod drawings;
pub mod exhaust;
pub mod exhaust_shared;
pub mod faults;
pub mod forms;
pub mod frames;
pub mod generate;
pub mod greatest;
pub mod greatest_files;
pub mod grouping;
pub mod groups;
pub mod heard;
pub mod heard_files;
pub mod issues;
pub mod kept;
pub mod lent;
pub mod margin_files;
pub mod margins;
pub mod margins_text;
pub mod notice;
pub mod office;
pub mod output;
pub mod place;
pub mod plan;
pub mod plans;
pub mod planted;
pub mod planted_greatest;
pub mod planted_heard;
pub mod planted_margins;
pub mod planted_notices;
pub mod planted_quote;
pub mod planted_sentence;
pub mod planted_shared;
pub mod quote;
pub mod quotes;
pub mod reader;
pub mod record;
pub mod record_greatest;
pub mod record_margins;
pub mod record_quote;
pub mod record_sentence;
pub mod record_shared;
pub mod records;
pub mod rng;
pub mod run;
pub mod sentence;
pub mod sentence_files;
pub mod sentence_text;
pub mod shared;
pub mod shared_calls;
pub mod shared_files;
pub mod sites;
pub mod step;
pub mod steps;
pub mod verdict;

use faults::Fault;

/// From the bytes of a plan file to the bytes that `verdict` prints.
pub fn verdict_text(text: &[u8]) -> Vec<u8> {
    output::verdict_text(text, Fault::None)
}

/// From the bytes of a plan file to the bytes that `quote` prints.
pub fn quote_text(text: &[u8]) -> Vec<u8> {
    output::quote_text(text, Fault::None)
}

/// From the bytes of a plan file to the bytes that `margins` prints.
pub fn margins_text(text: &[u8]) -> Vec<u8> {
    output::margins_text(text, Fault::None)
}

/// From the bytes of a plan file to the bytes that `greatest` prints.
pub fn greatest_text(text: &[u8]) -> Vec<u8> {
    output::greatest_text(text, Fault::None)
}

/// From the bytes of a plan file to the bytes that `sentence` prints.
pub fn sentence_text(text: &[u8]) -> Vec<u8> {
    output::sentence_text(text, Fault::None)
}

/// From the bytes of a file with n and a sentence to the bytes that `heard` prints.
pub fn heard_text(text: &[u8]) -> Vec<u8> {
    output::heard_text(text, Fault::None)
}

/// From the bytes of a plan file to the bytes that `archive` prints.
pub fn archive_text(text: &[u8]) -> Vec<u8> {
    output::archive_text(text, Fault::None)
}

/// From the bytes of a run file to the bytes that `run` prints.
pub fn run_text(text: &[u8]) -> Vec<u8> {
    output::run_text(text, Fault::None)
}
