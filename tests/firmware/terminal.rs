//! A safe wrapper of the archive for Rust, to be copied; `main` tries it on drawing C.

/// What is noted of one terminal: its highest edition, and `count` different layouts in it, in the
/// order of saying.
#[repr(C)]
#[derive(Clone, Copy, Debug, PartialEq, Eq)]
pub struct Note {
    pub edition: u16,
    pub count: u8,
    pub values: [u16; 40],
}

#[repr(C)]
#[derive(Clone, Copy, Debug, PartialEq, Eq)]
pub struct Record {
    pub taken: u8,
    pub at: u8,
    pub round: u8,
    pub notice: u32,
    pub notes: [Note; 20],
}

#[repr(C)]
struct Answer {
    number: u8,
    after: Record,
}

/// The groups of a plan that has groups in the place of f: the first `count`; the others are 0. The
/// archive is told f as a count with sixteen zeros.
#[repr(C)]
#[derive(Clone, Copy, Debug, PartialEq, Eq)]
pub struct Groups {
    pub count: usize,
    pub groups: [u32; 16],
}

// What the archive was built for.
const _: () = assert!(size_of::<Note>() == 84 && size_of::<Groups>() == 72);
const _: () = assert!(size_of::<Record>() == 1688 && size_of::<Answer>() == 1692);

extern "C" {
    fn hulmayek_start() -> Record;
    fn hulmayek_source_start(notice: u32) -> Record;
    fn hulmayek_bound_step(
        n: usize,
        source: usize,
        kind: usize,
        bound: Groups,
        own: usize,
        heard: u32,
        before: Record,
        said: *const u32,
        said_len: usize,
    ) -> Answer;
    fn hulmayek_bound_shared_step(
        n: usize,
        source: usize,
        kind: usize,
        bound: Groups,
        own: usize,
        heard: u32,
        default_layout: u16,
        before: Record,
        said: *const u16,
        said_len: usize,
    ) -> Answer;
    fn hulmayek_issue(before: Record, notice: u32) -> Answer;
    fn hulmayek_says(record: Record) -> u32;
    fn hulmayek_layout() -> u32;
}

/// What this wrapper was written for; another archive is not to be used with it.
pub const LAYOUT: u32 = 5;

/// A notice is one number; 0 in either half is silence.
pub const fn notice(edition: u16, layout: u16) -> u32 {
    edition as u32 * 65_536 + layout as u32
}

/// Who may be bad together: at most so many of those that a terminal hears, or some of one group.
#[derive(Clone, Copy)]
pub enum Bound {
    Most(usize),
    Groups(Groups),
}

impl Bound {
    /// The archive's kind, and what it is told with it.
    fn told(self) -> (usize, Groups) {
        match self {
            Bound::Most(count) => (
                0,
                Groups {
                    count,
                    groups: [0; 16],
                },
            ),
            Bound::Groups(groups) => (1, groups),
        }
    }
}

/// Where a terminal stands on its site.
#[derive(Clone, Copy)]
pub struct Place {
    pub n: usize,
    pub source: usize,
    pub bound: Bound,
    pub own: usize,
    /// Bit j: it hears terminal j.
    pub heard: u32,
}

pub fn start() -> Record {
    // SAFETY: takes nothing.
    unsafe { hulmayek_start() }
}

pub fn source_start(notice: u32) -> Record {
    // SAFETY: takes a number.
    unsafe { hulmayek_source_start(notice) }
}

/// What the terminal transmits in the round after the one that its record shows; 0 is silence.
pub fn says(record: Record) -> u32 {
    // SAFETY: takes a value, any bytes of it.
    unsafe { hulmayek_says(record) }
}

pub fn layout() -> u32 {
    // SAFETY: takes nothing.
    unsafe { hulmayek_layout() }
}

/// One round; or the number of the refusal, and the record is then still the caller's.
pub fn step(place: Place, before: Record, said: &[u32]) -> Result<Record, u8> {
    let Place {
        n,
        source,
        bound,
        own,
        heard,
    } = place;
    let (kind, bound) = bound.told();
    let (words, len) = (said.as_ptr(), said.len());
    // SAFETY: a slice's pointer and length are true, and nobody writes while it is lent.
    result(unsafe { hulmayek_bound_step(n, source, kind, bound, own, heard, before, words, len) })
}

/// The same on a shared channel, of the layouts that were said to all: who waits in its first round and
/// hears the source takes the source's, or the default if that said none.
pub fn shared_step(
    place: Place,
    default_layout: u16,
    before: Record,
    said: &[u16],
) -> Result<Record, u8> {
    let Place {
        n,
        source,
        bound,
        own,
        heard,
    } = place;
    let (kind, bound) = bound.told();
    let (words, len) = (said.as_ptr(), said.len());
    // SAFETY: a slice's pointer and length are true, and nobody writes while it is lent.
    result(unsafe {
        hulmayek_bound_shared_step(
            n,
            source,
            kind,
            bound,
            own,
            heard,
            default_layout,
            before,
            words,
            len,
        )
    })
}

/// The source's board takes a later notice of its office; or the number of the refusal.
pub fn issue(before: Record, notice: u32) -> Result<Record, u8> {
    // SAFETY: takes values, any bytes of them.
    result(unsafe { hulmayek_issue(before, notice) })
}

fn result(answer: Answer) -> Result<Record, u8> {
    match answer.number {
        0 => Ok(answer.after),
        number => Err(number),
    }
}

/// Edition 1, with layouts 7 and 9.
const SEVEN: u32 = 65_543;
const NINE: u32 = 65_545;

fn main() {
    assert_eq!((layout(), notice(1, 7)), (LAYOUT, SEVEN));
    assert_eq!((says(start()), says(source_start(SEVEN))), (0, SEVEN));
    let second = Place {
        n: 3,
        source: 0,
        bound: Bound::Most(0),
        own: 1,
        heard: 1,
    };
    let third = Place {
        own: 2,
        heard: 2,
        ..second
    };
    let one = step(second, start(), &[SEVEN, 0, 0]).expect("round 1 of terminal 1");
    assert_eq!((one.taken, one.at, one.notice), (1, 1, SEVEN));
    assert_eq!(says(one), SEVEN);
    let two = step(third, start(), &[SEVEN, 0, 0]).expect("round 1 of terminal 2");
    assert_eq!((two.taken, two.round), (0, 1));
    let two = step(third, two, &[0, SEVEN, 0]).expect("round 2 of terminal 2");
    assert_eq!((two.taken, two.at, two.notice), (1, 2, SEVEN));
    let source = Place {
        own: 0,
        heard: 0,
        ..second
    };
    assert_eq!(
        step(source, source_start(SEVEN), &[0; 3]).map(|after| after.notice),
        Ok(SEVEN)
    );
    assert_eq!(step(second, one, &[0; 2]), Err(12));
    every_value_counts();
    shared_supply();
    newer_notice(third);
    one_radio(second);
    println!("drawing C, a spoiled first word in drawing E, groups in F, a newer notice and one radio for all from Rust: as the documents have it");
}

/// Terminal 3 of drawing E hears a spoiled word of 1 first, and the good one a round later.
fn every_value_counts() {
    let fourth = Place {
        n: 4,
        source: 0,
        bound: Bound::Most(1),
        own: 3,
        heard: 6,
    };
    let spoiled = step(fourth, start(), &[0, NINE, 0, 0]).expect("round 1 of terminal 3");
    let after = step(fourth, spoiled, &[0, SEVEN, SEVEN, 0]).expect("round 2 of terminal 3");
    assert_eq!((after.taken, after.at, after.notice), (1, 2, SEVEN));
    let Note {
        edition,
        count,
        values,
    } = after.notes[1];
    assert_eq!((edition, count, &values[..3]), (1, 2, &[9, 7, 0][..]));
    let mut broken = spoiled;
    broken.notes[2].count = 2;
    assert_eq!(step(fourth, broken, &[0; 4]), Err(13));
}

/// Terminal 4 of drawing F hears 1 and 2, which share a supply, and 3.
fn shared_supply() {
    let mut groups = Groups {
        count: 2,
        groups: [0; 16],
    };
    groups.groups[0] = 6;
    groups.groups[1] = 8;
    let fifth = Place {
        n: 5,
        source: 0,
        bound: Bound::Groups(groups),
        own: 4,
        heard: 14,
    };
    let after = step(fifth, start(), &[0, SEVEN, SEVEN, 0, 0]).expect("round 1 of terminal 4");
    assert_eq!((after.taken, after.notes[1].count), (0, 1));
    let after = step(fifth, after, &[0, 0, 0, SEVEN, 0]).expect("round 2 of terminal 4");
    assert_eq!((after.taken, after.at, after.notice), (1, 2, SEVEN));
    groups.groups[2] = 8;
    let past = Place {
        bound: Bound::Groups(groups),
        ..fifth
    };
    assert_eq!(step(past, after, &[0; 5]), Err(17));
}

/// The office's later notice, those that are refused, and terminal 2 of drawing C, which takes it.
fn newer_notice(third: Place) {
    let source = source_start(SEVEN);
    let later = issue(source, notice(2, 8)).expect("a later notice");
    assert_eq!((later.taken, later.at, later.notice), (1, 0, 131_080));
    assert_eq!(says(later), 131_080);
    assert_eq!(issue(source, notice(2, 0)), Err(9));
    assert_eq!(issue(source, notice(1, 8)), Err(16));
    assert_eq!(issue(start(), notice(1, 7)), Err(13));
    let first = step(third, start(), &[0, SEVEN, 0]).expect("round 1 of terminal 2");
    let after = step(third, first, &[0, 131_080, 0]).expect("round 2 of terminal 2");
    assert_eq!((after.taken, after.at, after.notice), (1, 2, 131_080));
    assert_eq!((after.notes[1].edition, after.notes[1].values[0]), (2, 8));
}

/// Terminals 1 and 2 of drawing C, where a bad source says 9, or nothing and then 9.
fn one_radio(second: Place) {
    let spoken = shared_step(second, 5, start(), &[9, 0, 0]).expect("round 1 of terminal 1");
    assert_eq!((spoken.taken, spoken.at, spoken.notice), (1, 1, NINE));
    let silent = shared_step(second, 7, start(), &[0; 3]).expect("round 1 of terminal 1");
    assert_eq!((silent.taken, silent.at, silent.notice), (1, 1, SEVEN));
    let later = shared_step(second, 7, silent, &[9, 0, 0]).expect("round 2 of terminal 1");
    assert_eq!(
        (later.at, later.notice, later.notes[0].values[0]),
        (1, SEVEN, 9)
    );
    let third = Place {
        own: 2,
        heard: 2,
        ..second
    };
    let waits = shared_step(third, 7, start(), &[9, 0, 0]).expect("round 1 of terminal 2");
    assert_eq!((waits.taken, waits.round), (0, 1));
    let after = shared_step(third, 7, waits, &[0, 7, 0]).expect("round 2 of terminal 2");
    assert_eq!((after.taken, after.at, after.notice), (1, 2, SEVEN));
    assert_eq!(shared_step(second, 0, start(), &[0; 2]), Err(9));
    assert_eq!(shared_step(second, 7, start(), &[0; 2]), Err(12));
}
