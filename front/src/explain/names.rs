//! Names of which the commas are wrong.

use super::MOST_OF_SCENE;
use crate::advice::Seen;
use crate::doubts::is_suffix;
use crate::terminal::plain;
use crate::text::split_first;

/// What to do about names that are parted by commas, with `and` between them; None where it isn't seen which parts are one name.
pub(super) fn names_by_commas(error: &[u8]) -> Option<String> {
    let (_, quoted) = split_first(error.strip_prefix(b"Too many commas in name ")?, b"\"")?;
    if let Some(names) = names_by_semicolons(quoted.strip_suffix(b"\"")?) {
        return Some(Seen::NamesByCommas.with(&[&names]));
    }
    let parts: Vec<&[u8]> = quoted.strip_suffix(b"\"")?.split(|byte| *byte == b',').map(<[u8]>::trim_ascii).collect();
    let is_in_words = |part: &&[u8]| part.contains(&b' ');
    let has_other = parts.iter().any(|part| part.is_empty() || part.contains(&b'{') || part.contains(&b'}'));
    let has_and = quoted.windows(5).any(|word| word.eq_ignore_ascii_case(b" and "));
    if has_other || has_and || parts.len() < 4 || parts.len() > MOST_OF_SCENE {
        return None;
    }
    if parts.iter().any(|part| is_suffix(part) || DEGREES.contains(part)) {
        return None;
    }
    let is_one_each = parts.iter().all(is_in_words);
    let names: Vec<String> = match is_one_each {
        true => parts.iter().map(|part| plain(part)).collect(),
        // (`Hoare, Dijkstra, Dahl, Wirth` may be two names and may be four)
        false if parts.len().is_multiple_of(2) && parts.iter().any(|part| part.contains(&b'.')) => {
            parts.chunks(2).map(|pair| format!("{}, {}", plain(pair[0]), plain(pair[1]))).collect()
        }
        false => return None,
    };
    Some(Seen::NamesByCommas.with(&[&names.join(" and ")]))
}

/// Names that are parted by semicolons, with `and` between them.
fn names_by_semicolons(quoted: &[u8]) -> Option<String> {
    let names = quoted.split(|byte| *byte == b';').map(<[u8]>::trim_ascii).filter(|name| !name.is_empty());
    let is_in_braces = quoted.iter().any(|byte| matches!(byte, b'{' | b'}'));
    let names: Vec<String> = names.filter(|_| !is_in_braces).map(plain).collect();
    (names.len() > 1 && quoted.contains(&b';')).then(|| names.join(" and "))
}

/// What stands after a name and is no part of it.
const DEGREES: [&[u8]; 8] = [b"PhD", b"Ph.D.", b"Ph.D", b"MD", b"M.D.", b"MSc", b"Dr.", b"Prof."];

/// A name with what comes after it, as `Underwood, Paul, Jr., PhD`: as BibTeX has it, without its degrees.
pub(super) fn one_name(error: &[u8]) -> Option<String> {
    let (_, quoted) = split_first(error.strip_prefix(b"Too many commas in name ")?, b"\"")?;
    let parts: Vec<&[u8]> = quoted.strip_suffix(b"\"")?.split(|byte| *byte == b',').map(<[u8]>::trim_ascii).collect();
    let (suffixes, others): (Vec<&[u8]>, Vec<&[u8]>) =
        parts.into_iter().filter(|part| !DEGREES.contains(part)).partition(|part| is_suffix(part));
    let [family, given] = others[..] else { return None };
    let is_one = suffixes.len() < 2 && !quoted.windows(5).any(|word| word.eq_ignore_ascii_case(b" and "));
    let name = [&[family], &suffixes[..], &[given]].concat().join(&b", "[..]);
    is_one.then(|| Seen::CommasOfOneName.with(&[&plain(&name)]))
}
