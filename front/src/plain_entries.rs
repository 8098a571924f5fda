//! Entries that are written as most are, read in one pass with their letters: each value is one text in braces or quotes, or a number. All others are read by `database`.

use crate::letter_places::{
    Met, control_letter_brace_or_quote, control_letter_or_brace, meet, pass_ascii_letters, visit_marked,
};
use std::ops::Range;

/// A field of an entry.
#[derive(Debug, Clone, PartialEq, Eq)]
pub struct Field<'a> {
    pub name: &'a [u8],
    pub value: Range<usize>,
    /// Whether it has letters outside ASCII that count.
    pub has_letters: bool,
}

/// Whether each byte may stand in the name of a plain field.
const OF_NAME: [bool; 256] = {
    let (mut table, mut byte) = ([false; 256], 0);
    while byte < 128 {
        table[byte] = (byte as u8).is_ascii_alphanumeric() || matches!(byte as u8, b'-' | b'_' | b'.' | b':' | b'+');
        byte += 1;
    }
    table
};

/// The place after the bytes that pass a test, from this one on.
#[inline(always)]
fn pass(text: &[u8], from: usize, test: impl Fn(u8) -> bool) -> usize {
    let mut at = from;
    while at < text.len() && test(text[at]) {
        at += 1;
    }
    at
}

fn pass_white(text: &[u8], from: usize) -> usize {
    pass(text, from, |byte| matches!(byte, b' ' | b'\t' | b'\r' | b'\n'))
}

/// Reads the fields of an entry in braces from the comma after its key on, and adds the letters outside ASCII of those whose letters count; where it ends. None where it isn't plain,
/// or has a byte of a code or one that is of no letter: then nothing is added.
#[inline]
pub fn read<'a>(
    text: &'a [u8],
    comma: usize,
    counts: impl Fn(&[u8]) -> bool,
    fields: &mut Vec<Field<'a>>,
    letters: &mut Vec<Met>,
) -> Option<usize> {
    let (met, mut at) = (letters.len(), comma);
    fields.clear();
    while text.get(at) != Some(&b'}') {
        let Some(after) = read_field(text, at, &counts, fields, letters) else {
            letters.truncate(met);
            return None;
        };
        at = after;
    }
    Some(at + 1)
}

/// Reads a field from the comma before it on; the place of what follows it. A comma may stand before the end of the entry, too.
#[inline(always)]
fn read_field<'a>(
    text: &'a [u8],
    comma: usize,
    counts: &impl Fn(&[u8]) -> bool,
    fields: &mut Vec<Field<'a>>,
    letters: &mut Vec<Met>,
) -> Option<usize> {
    if text.get(comma) != Some(&b',') {
        return None;
    }
    let start = pass_white(text, comma + 1);
    let first = *text.get(start)?;
    if first == b'}' {
        return Some(start);
    }
    let end = pass(text, pass_ascii_letters(text, start), |byte| OF_NAME[usize::from(byte)]);
    if !first.is_ascii_alphabetic() {
        return None;
    }
    let (name, value, met) = (&text[start..end], pass_sign(text, end)?, letters.len());
    let after = read_value(text, value, letters)?;
    let has_letters = letters.len() > met && counts(name);
    if !has_letters {
        letters.truncate(met);
    }
    fields.push(Field { name, value: value..after, has_letters });
    Some(pass_white(text, after))
}

/// The place of the value after a `=`, before which there may be whitespace.
#[inline(always)]
fn pass_sign(text: &[u8], from: usize) -> Option<usize> {
    // (as most are written)
    if text[from..].starts_with(b" = {") {
        return Some(from + 3);
    }
    let sign = pass_white(text, from);
    (text.get(sign) == Some(&b'=')).then(|| pass_white(text, sign + 1))
}

/// Reads a value that is one text or one number; where it ends.
#[inline]
fn read_value(text: &[u8], start: usize, letters: &mut Vec<Met>) -> Option<usize> {
    match *text.get(start)? {
        b'{' => read_text(text, start, control_letter_or_brace, letters),
        b'"' => read_text(text, start, control_letter_brace_or_quote, letters),
        b'0'..=b'9' => Some(pass(text, start, |byte| byte.is_ascii_digit())),
        _ => None,
    }
}

/// Reads a text from the brace or the quote with which it begins; where it ends.
#[inline(always)]
fn read_text(text: &[u8], start: usize, marks: impl Fn(u64) -> u64, letters: &mut Vec<Met>) -> Option<usize> {
    let (mut depth, mut end, is_quoted) = (0, None, text[start] == b'"');
    visit_marked(text, start + 1, marks, |at| {
        match text[at] {
            b'{' => depth += 1,
            b'}' if depth > 0 => depth -= 1,
            b'}' => {
                end = (!is_quoted).then_some(at + 1);
                return None;
            }
            b'"' if depth == 0 && is_quoted => {
                end = Some(at + 1);
                return None;
            }
            _ => return meet(text, at, letters),
        }
        Some(at + 1)
    });
    end
}

#[cfg(test)]
mod tests {
    use super::*;
    use crate::database::{Inside, Item};
    use crate::letter_places::find_letters;

    /// What is read of an entry, of which this is the key: its fields with their values, where it ends, and its letters.
    type Seen<'a> = (Vec<(&'a [u8], Range<usize>)>, usize, Vec<Met>);

    fn plainly(text: &[u8], comma: usize) -> Option<Seen<'_>> {
        let (mut fields, mut letters) = (Vec::new(), Vec::new());
        let end = read(text, comma, |_| true, &mut fields, &mut letters);
        let has_letters = |field: &Field<'_>| !text[field.value.clone()].is_ascii();
        assert!(end.is_none() || fields.iter().all(|field| field.has_letters == has_letters(field)));
        assert!(end.is_some() || letters.is_empty());
        Some((fields.into_iter().map(|field| (field.name, field.value)).collect(), end?, letters))
    }

    /// The same by the reader of databases; None where the entry has a fault, or a byte that can't be coded.
    fn by_reader(text: &[u8]) -> Option<Seen<'_>> {
        let (mut inside, mut letters) = (Inside::default(), Vec::new());
        let item = Item::read_at(text, 0, &mut inside);
        let is_read = item.fault.is_none() && find_letters(&text[..item.end], 0, &mut letters);
        is_read.then(|| (inside.fields.into_iter().zip(inside.values).collect(), item.end, letters))
    }

    #[test]
    fn what_is_read_plainly_is_what_the_reader_reads() {
        let text =
            "@a{k,\n au-thor = {É {x}ü\"},\tTitle=\"a{\"ö}|~ß\" ,y=12\r\n,n = {a\n  b c d e f g h i}, }ö".as_bytes();
        let mut count = 0;
        for from in 4..text.len() {
            for to in from..text.len().min(from + 3) {
                for piece in ["", "}", "{", "\"", ",", "=", "#", "\u{1}", "ä", "1", " a", "\n"] {
                    let spoilt = [&text[..from], piece.as_bytes(), &text[to..]].concat();
                    let seen = Some(4).filter(|comma| spoilt[*comma] == b',').and_then(|comma| plainly(&spoilt, comma));
                    count += usize::from(seen.is_some());
                    assert!(seen.is_none() || seen == by_reader(&spoilt), "{}", String::from_utf8_lossy(&spoilt));
                }
            }
        }
        assert!(count > 1000, "{count}");
    }

    #[test]
    fn most_entries_are_plain() {
        for (entry, is_plain) in [
            ("@a{k,}", true),
            ("@a{k,a=1}", true),
            ("@a{k, a = {é}, b = \"{\"}\",\n}", true),
            ("@a{k, a = b}", false),
            ("@a{k, a = {x} # {y}}", false),
            ("@a{k, é = {x}}", false),
            ("@a{k, 1a = {x}}", false),
            ("@a{k, a {x}}", false),
            ("@a{k, a = {x}", false),
            ("@a{k, a = \"x}\"}", false),
            ("@a{k a = {x}}", false),
        ] {
            assert_eq!(plainly(entry.as_bytes(), 4).is_some(), is_plain, "{entry}");
        }
    }

    #[test]
    fn letters_of_some_fields_count() {
        let text = "@a{k, a = {ä}, b = {ö}, a = {ü},}".as_bytes();
        let (mut fields, mut letters) = (Vec::new(), Vec::new());
        read(text, 4, |name| name == b"a", &mut fields, &mut letters);
        assert_eq!(fields.iter().map(|field| field.has_letters).collect::<Vec<_>>(), [true, false, true]);
        assert_eq!(letters.iter().map(|met| met.letter).collect::<String>(), "äü");
    }
}
