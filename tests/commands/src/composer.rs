//! Document 02, P9, by itself: a fail as a sentence, from the frame that `verdict` prints.

/// The members of three bytes in digits, ascending.
fn members(digits: &str) -> Vec<u8> {
    let set = u32::from_str_radix(digits, 16).expect("a set");
    (0..24).filter(|one| set & 1 << one != 0).collect()
}

/// ", " between, and " and " before the last.
fn listed(terminals: &[u8]) -> String {
    let mut text = String::new();
    for (place, terminal) in terminals.iter().enumerate() {
        text += match (place, terminals.len() - place) {
            (0, _) => "",
            (_, 1) => " and ",
            _ => ", ",
        };
        text += &terminal.to_string();
    }
    text
}

/// Of a frame 81, without line ends.
pub fn sentence_of(frame: &str) -> String {
    if frame.starts_with("8100") {
        return "pass".into();
    }
    let (silent, waiting) = (members(&frame[4..10]), members(&frame[16..22]));
    let first = match silent.len() {
        0 => "Even if all work, ".to_string(),
        1 => format!("If {} stays silent, ", silent[0]),
        _ => format!("If {} stay silent, ", listed(&silent)),
    };
    let gets = if waiting.len() == 1 { "gets" } else { "get" };
    format!("{first}{} never {gets} the notice.", listed(&waiting))
}

/// What `explain` has over this frame: the sentence of a fail, and of a pass nothing.
pub fn opening(frame: &str) -> String {
    match sentence_of(frame).as_str() {
        "pass" => String::new(),
        sentence => format!("{sentence}\n"),
    }
}
