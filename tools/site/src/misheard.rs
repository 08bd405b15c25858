//! Why a text is no sentence for so many terminals, as reason.rs says it of files: first by the numbers
//! that it names, then by its words, and where neither tells, what was expected.

const FORM: &str = r#"expected "If 1 and 3 stay silent, 5 and 6 never get the notice." or "Even if all work, 5 never gets the notice.", with the numbers of the site, ", " between them and " and " before the last"#;
pub const NO_ZERO: &str = "a number has no 0 before it";

pub fn why(sentence: &str, terminals: &str) -> String {
    if sentence.is_empty() {
        return "there is none".into();
    }
    found(sentence, value(terminals)).unwrap_or_else(|| FORM.into())
}

fn found(sentence: &str, terminals: usize) -> Option<String> {
    let (silent, waiting) = halves(sentence)?;
    let (bad, cut_off) = (named(silent), named(waiting));
    after_full_stop(sentence)
        .or_else(|| out_of_range(&bad, terminals))
        .or_else(|| out_of_range(&cut_off, terminals))
        .or_else(|| not_rising(&bad))
        .or_else(|| not_rising(&cut_off))
        .or_else(|| not_apart(&bad, &cut_off, terminals))
        .or_else(|| wrong_verb(silent, "stay", "silent", bad.len()))
        .or_else(|| wrong_verb(waiting, "get", "waiting", cut_off.len()))
        .or_else(|| no_full_stop(sentence))
}

/// What is said of the silent ones, and of the waiting ones.
fn halves(sentence: &str) -> Option<(&str, &str)> {
    match sentence.strip_prefix("Even if all work") {
        Some(waiting) => Some(("", waiting)),
        None => sentence.strip_prefix("If ")?.split_once(" silent"),
    }
}

/// The numbers as they stand there.
fn named(half: &str) -> Vec<&str> {
    let words = half.split(|one: char| !one.is_ascii_digit());
    words.filter(|word| !word.is_empty()).collect()
}

/// Digits that are too many for a number here are above all terminals too.
fn value(digits: &str) -> usize {
    digits.parse().unwrap_or(usize::MAX)
}

pub fn starts_with_zero(digits: &str) -> bool {
    digits.len() > 1 && digits.starts_with('0')
}

fn out_of_range(named: &[&str], terminals: usize) -> Option<String> {
    let above = named.iter().find(|one| value(one) >= terminals)?;
    let last = terminals.checked_sub(1)?;
    Some(format!("terminal {above}: the terminals are 0 to {last}"))
}

fn not_rising(named: &[&str]) -> Option<String> {
    if let Some(one) = named.iter().find(|one| starts_with_zero(one)) {
        return Some(format!("{one}: {NO_ZERO}"));
    }
    let falls = |pair: &&[&str]| value(pair[0]) >= value(pair[1]);
    match named.windows(2).find(falls)? {
        [one, same] if one == same => Some(format!("{one} stands there twice")),
        [one, next] => Some(format!("{one} stands before {next}: the numbers rise")),
        _ => None,
    }
}

/// Of lists that rise and are in range.
fn not_apart(bad: &[&str], cut_off: &[&str], terminals: usize) -> Option<String> {
    if let Some(both) = bad.iter().find(|one| cut_off.contains(one)) {
        return Some(format!(
            "{both} is in both lists, and who stays silent does not wait"
        ));
    }
    (bad.len() + cut_off.len() == terminals).then(|| {
        format!("all {terminals} are named, and the source, which has the notice, never is")
    })
}

fn wrong_verb(half: &str, verb: &str, who: &str, count: usize) -> Option<String> {
    let of_one = format!("{verb}s");
    let (wrong, rule) = match count {
        0 => return None,
        1 => (verb, format!("one {who} terminal takes '{of_one}'")),
        _ => (
            of_one.as_str(),
            format!("{count} {who} terminals take '{verb}'"),
        ),
    };
    half.split(' ').any(|word| word == wrong).then_some(rule)
}

/// What stands there may name numbers of its own, so this is looked at before them.
fn after_full_stop(sentence: &str) -> Option<String> {
    let (_, after) = sentence.split_once('.')?;
    (!after.is_empty()).then(|| "something stands after its full stop".into())
}

fn no_full_stop(sentence: &str) -> Option<String> {
    (!sentence.contains('.')).then(|| "there is no full stop at its end".into())
}
