//! The quoting desk: `quote` prints what `verdict` prints, and refuses more than 12 terminals with
//! 14, in the head's line, after 4 and before 5 (document 02, P5). Answers are worked out by hand.

use crate::bad_sets::Site;
use crate::checks::{lines, read, Checks};
use crate::plans::files_in;

pub fn check(checks: &mut Checks) {
    for chain in &CHAINS {
        twelve(checks, chain);
        thirteen(checks, chain);
    }
    other_words(checks);
    heads(checks);
    no_heads(checks);
    under_the_head(checks);
    texts(checks);
    committed_plans(checks);
}

/// The words that answer as this one where there are at most 12 terminals: a table of `verdict` is
/// one of `quote` too.
pub fn alike(word: &str) -> Vec<&str> {
    match word {
        "verdict" => vec!["verdict", "quote"],
        other => vec![other],
    }
}

const MOST: u8 = 12;
const REFUSED: &str = "ff0e0001";
const RULE: &str = "the quoting desk takes at most 12 terminals; './hulmayek verdict FILE' judges up to 20 (cause 14)";
const PASS: &str = "8100000000000000000000";

/// The source, 0, and the others in a row, each hearing the one before it.
struct Chain {
    /// The third line of the text.
    limit: &'static str,
    in_head: &'static str,
    groups: &'static [&'static str],
    /// The verdict on 12 terminals, and on 13.
    twelve: &'static str,
    thirteen: &'static str,
}

/// One voice is enough where nobody may be bad. With bound 1 it is not: 1 hears the source, and 2
/// waits. With a group of 5 alone 6 waits, since 5 may be bad.
const CHAINS: [Chain; 4] = [
    Chain {
        limit: "bound 0",
        in_head: "00",
        groups: &[],
        twelve: PASS,
        thirteen: PASS,
    },
    Chain {
        limit: "bound 1",
        in_head: "01",
        groups: &[],
        twelve: "8101000000000003000ffc",
        thirteen: "8101000000000003001ffc",
    },
    Chain {
        limit: "group none",
        in_head: "ff",
        groups: &["07000000"],
        twelve: PASS,
        thirteen: PASS,
    },
    Chain {
        limit: "group 5",
        in_head: "ff",
        groups: &["07000020"],
        twelve: "810100000000003f000fc0",
        thirteen: "810100000000003f001fc0",
    },
];

impl Chain {
    fn text(&self, terminals: u8) -> String {
        let links = (1..terminals).map(|to| format!("{} > {to}\n", to - 1));
        let head = format!("terminals {terminals}\nsource 0\n{}\n", self.limit);
        head + &links.collect::<String>()
    }

    fn frames(&self, terminals: u8) -> String {
        let links = (1..terminals).map(|to| format!("02{:02x}{to:02x}\n", to - 1));
        let head = format!("01{terminals:02x}00{}\n", self.in_head);
        head + &links.collect::<String>() + &lines(self.groups)
    }
}

/// This line printed, and nothing said.
pub fn prints(checks: &mut Checks, word: &str, input: &[u8], wanted: &str) {
    let done = checks.call_with(&[word], input);
    let status = i32::from(wanted.starts_with("ff"));
    let start = input[..input.len().min(200)].escape_ascii();
    let label = format!("{word} of {start}");
    checks.ends(&label, &done, status, &format!("{wanted}\n"), "");
}

fn twelve(checks: &mut Checks, chain: &Chain) {
    for input in [chain.text(12), chain.frames(12)] {
        for word in ["verdict", "quote"] {
            prints(checks, word, input.as_bytes(), chain.twelve);
        }
    }
}

fn thirteen(checks: &mut Checks, chain: &Chain) {
    let (text, frames) = (chain.text(13), chain.frames(13));
    for input in [&text, &frames] {
        prints(checks, "verdict", input.as_bytes(), chain.thirteen);
    }
    prints(checks, "quote", frames.as_bytes(), REFUSED);
    tells(checks, &text, &format!("line 1 (terminals 13): {RULE}"));
}

/// `quote` of a text that is refused.
fn tells(checks: &mut Checks, text: &str, why: &str) {
    let done = checks.call_with(&["quote"], text.as_bytes());
    let told = format!("refused, {why}");
    checks.tells(&format!("quote of {text:?}"), &done, 1, &told);
}

/// The planner keeps its 20.
fn other_words(checks: &mut Checks) {
    let (text, frames) = (CHAINS[0].text(13), CHAINS[0].frames(13));
    let told = lines(&[
        PASS,
        "pass: whatever a bad set says, every good terminal has the source's layout after 12 rounds (n-1)",
        "if nobody is bad, the last one has it after 12 rounds",
    ]);
    let told = told + &Site::of(&frames).told();
    let verdict = format!("{PASS}\n");
    let table: [(&str, &str); 6] = [
        ("archive", &verdict),
        ("check", "pass\n"),
        ("explain", &told),
        ("plan", &frames),
        ("rewrite", &frames),
        ("show", &text),
    ];
    for (word, wanted) in table {
        for input in [&text, &frames] {
            let done = checks.call_with(&[word], input.as_bytes());
            checks.ends(&format!("{word} of 13 terminals"), &done, 0, wanted, "");
        }
    }
    let run = format!("{frames}03000000\n04000700\n");
    let states = (1..13).map(|terminal| format!("82{terminal:02x}00000000\n"));
    let states = "820001000007\n".to_string() + &states.collect::<String>();
    let done = checks.call_with(&["run"], run.as_bytes());
    checks.ends("run of 13 terminals", &done, 0, &states, "");
}

/// A head alone, what `verdict` makes of it and what `quote` does. One that is accepted is a plan in
/// which all others than the source hear nobody, or which lists no group.
const HEADS: [(&str, &str, &str); 26] = [
    ("01000000", "ff040001", "ff040001"),
    ("01010000", "ff040001", "ff040001"),
    ("01020000", "ff0f0000", "ff0f0000"),
    ("010c0000", "ff0f0000", "ff0f0000"),
    ("010c0b0b", "ff0f0000", "ff0f0000"),
    ("010c0c00", "ff040001", "ff040001"),
    ("010c000c", "ff040001", "ff040001"),
    ("010c00ff", "ff110000", "ff110000"),
    ("010c0cff", "ff040001", "ff040001"),
    ("010d0000", "ff0f0000", REFUSED),
    ("010d0c0c", "ff0f0000", REFUSED),
    ("010d0d00", "ff040001", "ff040001"),
    ("010d000d", "ff040001", "ff040001"),
    ("010d00fe", "ff040001", "ff040001"),
    ("010d00ff", "ff110000", REFUSED),
    ("010d0cff", "ff110000", REFUSED),
    ("010d0dff", "ff040001", "ff040001"),
    ("01100000", "ff0f0000", REFUSED),
    ("01140000", "ff0f0000", REFUSED),
    ("01141313", "ff0f0000", REFUSED),
    ("01141400", "ff040001", "ff040001"),
    ("01140014", "ff040001", "ff040001"),
    ("011413ff", "ff110000", REFUSED),
    ("01150000", "ff040001", "ff040001"),
    ("011500ff", "ff040001", "ff040001"),
    ("01ffffff", "ff040001", "ff040001"),
];

fn heads(checks: &mut Checks) {
    for (head, by_verdict, by_quote) in HEADS {
        let file = lines(&[head]);
        prints(checks, "verdict", file.as_bytes(), by_verdict);
        prints(checks, "quote", file.as_bytes(), by_quote);
    }
}

/// A file that is too long, and a first line that is no head: 1 to 3 come first for both.
fn no_heads(checks: &mut Checks) {
    let full = |length: usize| {
        let mut file = b"010d0001\n".to_vec();
        file.resize(length, b'0');
        file
    };
    let table: [(&[u8], &str); 11] = [
        (b"", "ff010000"),
        (&full(24_577), "ff010000"),
        (b"010d0001", "ff010001"),
        (b"010d000\n", "ff010001"),
        (b"010D0001\n", "ff010001"),
        (b"\n010d0001\n", "ff010001"),
        (b"010d0001\r\n020001\r\n", "ff010001"),
        (b"010d00\n", "ff020001"),
        (b"010d000100\n", "ff020001"),
        (b"0d0d0001\n", "ff020001"),
        (b"020001\n010d0001\n", "ff030001"),
    ];
    for (file, wanted) in table {
        for word in ["verdict", "quote"] {
            prints(checks, word, file, wanted);
        }
    }
    prints(checks, "verdict", &full(24_576), "ff010002");
    prints(checks, "quote", &full(24_576), REFUSED);
}

/// f, the lines under a head with source 0, and what `verdict` makes of them, be it 12 terminals or
/// 13. `quote` does not come to them where there are 13.
fn under_the_head(checks: &mut Checks) {
    let seventeen = ["07000002"; 17];
    let table: [(&str, &[&str], &str); 19] = [
        ("01", &["02000"], "ff010002"),
        ("01", &[""], "ff010002"),
        ("01", &["0200"], "ff020002"),
        ("01", &["03000002"], "ff020002"),
        ("01", &["020001", "0d"], "ff020003"),
        ("01", &["02000d"], "ff050002"),
        ("01", &["020d00"], "ff050002"),
        ("01", &["020303"], "ff050002"),
        ("01", &["020001", "020001"], "ff060003"),
        ("01", &["020001"], "ff0f0000"),
        ("01", &["01020000"], "ff0f0000"),
        ("01", &["07000002"], "ff0f0000"),
        ("ff", &["020001"], "ff110000"),
        ("ff", &["07000001"], "ff110002"),
        ("ff", &["07002000"], "ff110002"),
        ("ff", &seventeen, "ff110012"),
        ("ff", &["07000002", "020001"], "ff030003"),
        ("ff", &["07000002"], "ff0f0000"),
        ("ff", &["020001", "020001"], "ff060003"),
    ];
    for (limit, under, wanted) in table {
        for (terminals, by_quote) in [("0c", wanted), ("0d", REFUSED)] {
            let head = format!("01{terminals}00{limit}");
            let file = lines(&[&[head.as_str()], under].concat());
            prints(checks, "verdict", file.as_bytes(), wanted);
            prints(checks, "quote", file.as_bytes(), by_quote);
        }
    }
    let no_line_end = b"010d0001\n020001";
    prints(checks, "verdict", no_line_end, "ff010002");
    prints(checks, "quote", no_line_end, REFUSED);
}

/// A text of `quote`, and where and why it is refused; RULE written as '..'.
const TEXTS: [(&str, &str); 13] = [
    (
        "# for a customer\n\nterminals 13   # one too many\nsource 0\nbound 1\n",
        "line 3 (terminals 13): ..",
    ),
    (
        "source 0\nbound 1\nterminals 20\n",
        "line 3 (terminals 20): ..",
    ),
    (
        "bound 1\r\nterminals 13\r\nsource 0\r\n",
        "line 2 (terminals 13): ..",
    ),
    (
        "site \"Pit\"\nsource 12\ngroup 1\nterminals 13\n12 - 1 2\n",
        "line 4 (terminals 13): ..",
    ),
    // What stands under the head does not matter, a run neither.
    (
        "terminals 13\nsource 0\nbound 1\n0 > 1 1 99\n2 > 2\n",
        "line 1 (terminals 13): ..",
    ),
    (
        "terminals 13\nsource 0\ngroup 0\n",
        "line 1 (terminals 13): ..",
    ),
    (
        "terminals 13\nsource 0\nbound 1\nbad 0\nvalue 7\n",
        "line 1 (terminals 13): ..",
    ),
    // 4 comes first.
    (
        "terminals 21\nsource 0\nbound 1\n",
        "line 1 (terminals 21): 2 to 20 terminals are allowed (cause 4)",
    ),
    (
        "terminals 300\nsource 0\nbound 1\n",
        "line 1 (terminals 300): 2 to 20 terminals are allowed (cause 4)",
    ),
    (
        "terminals 13\nsource 13\nbound 1\n",
        "line 2 (source 13): 0 to 12 are allowed for 13 terminals (cause 4)",
    ),
    (
        "terminals 13\nsource 0\nbound 13\n",
        "line 3 (bound 13): 0 to 12 are allowed for 13 terminals (cause 4)",
    ),
    // With 12 terminals the causes are those of `verdict`.
    (
        "terminals 12\nsource 0\nbound 1\n0 > 12\n",
        "line 4 (0 > 12): the terminals are 0 to 11 (cause 5)",
    ),
    (
        "terminals 12\nsource 0\nbound 1\n0 > 1 2 3 4 5 6 7 8 9 10\n",
        "the whole file: terminal 11 hears nobody; a new plan must have no such terminal, and './hulmayek archive FILE' opens a plan that is on file already (cause 15)",
    ),
];

/// What is no text form is refused before a program is asked, whoever would be.
fn texts(checks: &mut Checks) {
    for (text, why) in TEXTS {
        tells(checks, text, &why.replace("..", RULE));
    }
    let text = "terminals 13\nsource 0\nbound 1\n0 >\n";
    for word in ["verdict", "quote"] {
        let done = checks.call_with(&[word], text.as_bytes());
        let why = "line 4: expected a terminal after '>', found nothing";
        checks.tells(&format!("{word} of half a link"), &done, 1, why);
    }
}

const FOLDERS: [&str; 5] = [
    "plans",
    "plans/bench",
    "plans/bench/groups",
    "plans/runs",
    "runs",
];

/// All that are committed: with 12 terminals or fewer the two agree in what they print, say and
/// return. Those with more are frames.
fn committed_plans(checks: &mut Checks) {
    let (mut agreed, mut refused) = (0, 0);
    for file in files_in(checks, &FOLDERS) {
        let quoted = checks.call(&["quote", &file]);
        let label = format!("quote of {file}");
        if terminals_of(&read(&checks.top.join(&file))) > MOST {
            checks.ends(&label, &quoted, 1, &format!("{REFUSED}\n"), "");
            refused += 1;
        } else {
            let judged = checks.call(&["verdict", &file]);
            checks.ends(&label, &quoted, judged.status, &judged.out, &judged.err);
            agreed += 1;
        }
    }
    checks.holds("there are plans of both kinds", agreed > 0 && refused > 0);
}

/// By the line of a text, or the head of a file in frames.
pub fn terminals_of(file: &str) -> u8 {
    let mut lines = file.lines();
    let number = match lines.find_map(|line| line.strip_prefix("terminals ")) {
        Some(number) => number.trim().parse(),
        None => u8::from_str_radix(&file[2..4], 16),
    };
    number.expect("how many terminals")
}
