//! Half letters in a list of references: bytes outside of letters of UTF-8 that a style made when it cut a text. A byte of a value that isn't UTF-8 itself stands in the list as it is, and is
//! no half letter.

use crate::aux_text::cited_keys;
use crate::database::{Folded, Inside};
use crate::entries::{Entries, Stored};
use crate::job::Files;
use memchr::memmem;
use std::collections::HashSet;
use std::iter::Peekable;
use std::vec;

/// Half a letter in a list.
#[derive(Debug, Clone, Copy, PartialEq, Eq)]
pub struct HalfLetter<'a> {
    /// Its line, counted from 1.
    pub line: usize,
    /// The key of the entry in whose part of the list it is; None where the list doesn't show that.
    pub key: Option<&'a [u8]>,
}

/// The first half letter of a list. The list of a run that was stopped may end inside a letter.
pub fn half_letter<'a>(list: &'a [u8], is_stopped: bool, files: &Files) -> Option<HalfLetter<'a>> {
    std::str::from_utf8(list).err()?;
    let entries = Entries::new(files);
    let (mut other, mut parts) = (OtherBytes::new(&entries, files), Parts::new(list));
    let (mut at, mut line) = (0, 1);
    for chunk in list.utf8_chunks() {
        line += chunk.valid().bytes().filter(|byte| *byte == b'\n').count();
        at += chunk.valid().len();
        let bytes = chunk.invalid();
        let begins_letter = || std::str::from_utf8(bytes).is_err_and(|fault| fault.error_len().is_none());
        let is_of_end = at + bytes.len() == list.len() && is_stopped && begins_letter();
        let key = if bytes.is_empty() || is_of_end { None } else { Some(parts.key_at(at)) };
        if let Some(key) = key.filter(|key| !other.has(*key, bytes)) {
            return Some(HalfLetter { line, key });
        }
        at += bytes.len();
    }
    None
}

/// Bytes from 128 on, a bit for each.
type Bytes = u128;

/// The bytes from 128 on of a text that isn't UTF-8; none of one that is.
fn other_bytes(text: &[u8]) -> Bytes {
    if std::str::from_utf8(text).is_ok() {
        return 0;
    }
    text.iter().filter_map(|byte| byte.checked_sub(128)).fold(0, |all, number| all | 1 << number)
}

/// The bytes of an item's values that aren't UTF-8. What can't be read as values counts as one.
fn other_bytes_of(stored: Stored<'_, '_>) -> Bytes {
    let (text, item) = (stored.database.text.bytes, stored.item);
    let inside = Inside::of(text, item);
    if inside.values.is_empty() || item.fault.is_some() {
        return other_bytes(&text[item.start..item.end]);
    }
    inside.values.into_iter().fold(0, |all, value| all | other_bytes(&text[value]))
}

/// The bytes that a list has from what isn't UTF-8.
struct OtherBytes<'e, 'a, 'l> {
    entries: &'e Entries<'a>,
    /// Those of keys, strings and preambles, which any part of the list may have.
    shared: Bytes,
    /// All of them.
    all: Bytes,
    /// The last key that was asked for, and those of its entry.
    last: Option<(&'l [u8], Bytes)>,
}

impl<'e, 'a, 'l> OtherBytes<'e, 'a, 'l> {
    fn new(entries: &'e Entries<'a>, files: &'a Files) -> OtherBytes<'e, 'a, 'l> {
        let (mut cited, mut has_all) = (HashSet::new(), false);
        let keys = cited_keys(files).inspect(|key| has_all |= *key == b"*").filter(|key| cited.insert(Folded(key)));
        let keys: Vec<&[u8]> = keys.collect();
        let of_keys = keys.iter().fold(0, |all, key| all | other_bytes(key));
        let shared = entries.texts().fold(of_keys, |all, stored| all | other_bytes_of(stored));
        let mut other = OtherBytes { entries, shared, all: 0, last: None };
        let of_entries = match has_all {
            true => entries.each().fold(0, |all, stored| all | other_bytes_of(stored)),
            false => keys.iter().filter_map(|key| entries.entry(key)).fold(0, |all, stored| all | other.of(stored)),
        };
        // (a style in another encoding is of a job in that one, where a value has it too)
        if shared | of_entries != 0 {
            other.shared |=
                files.with_ending(".bst").fold(0, |all, file| all | other_bytes(file.bytes.as_deref().unwrap_or(b"")));
        }
        other.all = other.shared | of_entries;
        other
    }

    /// Those of an entry and of its parents.
    fn of(&self, stored: Stored<'_, '_>) -> Bytes {
        let parents = stored.item.parents.iter().filter_map(|parent| self.entries.entry(parent.key));
        parents.fold(other_bytes_of(stored), |all, parent| all | other_bytes_of(parent))
    }

    /// Whether the list has these bytes from what isn't UTF-8, in the part of the entry of this key or in one of which no key is known.
    fn has(&mut self, key: Option<&'l [u8]>, bytes: &[u8]) -> bool {
        let of_entry = match (key, self.last) {
            (Some(key), Some((last, bytes))) if key == last => bytes,
            _ => key.and_then(|key| self.entries.entry(key)).map_or(self.all, |stored| self.of(stored)),
        };
        self.last = key.map(|key| (key, of_entry));
        let has = |byte: &u8| byte.checked_sub(128).is_some_and(|number| (self.shared | of_entry) >> number & 1 == 1);
        bytes.iter().all(has)
    }
}

/// The parts of a list, each of which begins with `\bibitem`.
struct Parts<'a> {
    list: &'a [u8],
    /// Where the next ones begin.
    next: Peekable<vec::IntoIter<usize>>,
    /// The key of the last one that was come to.
    key: Option<&'a [u8]>,
}

const ITEM: &[u8] = b"\\bibitem";

impl<'a> Parts<'a> {
    fn new(list: &'a [u8]) -> Parts<'a> {
        let is_whole = |at: &usize| !list.get(at + ITEM.len()).is_some_and(u8::is_ascii_alphabetic);
        let starts: Vec<usize> = memmem::find_iter(list, ITEM).filter(is_whole).collect();
        Parts { list, next: starts.into_iter().peekable(), key: None }
    }

    /// The key of the part that has this place. Places are asked for in their order.
    fn key_at(&mut self, place: usize) -> Option<&'a [u8]> {
        let mut start = None;
        while let Some(next) = self.next.next_if(|start| *start < place) {
            start = Some(next);
        }
        if let Some(start) = start {
            let end = self.next.peek().copied().unwrap_or(self.list.len());
            self.key = key_of_part(&self.list[start + ITEM.len()..end]);
        }
        self.key
    }
}

/// The key of a part of a list, without its `\bibitem`; None where it isn't plain.
fn key_of_part(part: &[u8]) -> Option<&[u8]> {
    let part = part.trim_ascii_start();
    let start =
        if part.starts_with(b"{") { 0 } else { memmem::find(part, b"]{").filter(|_| part.starts_with(b"["))? + 1 };
    let key = &part[start + 1..];
    Some(&key[..key.iter().position(|byte| *byte == b'}')?]).filter(|key| !key.is_empty())
}

#[cfg(test)]
mod tests {
    use super::*;
    use crate::job::File;

    fn files(aux: &[u8], database: &[u8], style: &[u8]) -> Files {
        let file = |name: &str, bytes: &[u8]| File { name: name.into(), bytes: Some(bytes.into()), path: Vec::new() };
        let all = vec![file("a.aux", aux), file("s.bst", style), file("d.bib", database)];
        Files { top: b"a.aux".to_vec(), all }
    }

    /// The line and the key of the half letter that a list has of these databases.
    fn found(list: &[u8], aux: &[u8], database: &[u8]) -> Option<(usize, Option<String>)> {
        let half = half_letter(list, false, &files(aux, database, b""))?;
        Some((half.line, half.key.map(|key| String::from_utf8_lossy(key).into_owned())))
    }

    #[test]
    fn half_letters_are_found_by_their_lines() {
        for (list, is_stopped, line) in [
            ("Émile\nZola\n".as_bytes(), false, None),
            (b"a\n\xC3\n\xC3\n", false, Some(2)),
            (b"\x89", false, Some(1)),
            (b"a\n\xC3", false, Some(2)),
            (b"a\n\xC3", true, None),
            (b"\xC3\na", true, Some(1)),
        ] {
            assert_eq!(half_letter(list, is_stopped, &files(b"", b"", b"")).map(|half| half.line), line, "{list:?}");
        }
    }

    #[test]
    fn the_entry_of_a_half_letter_is_known() {
        let key = |list: &[u8]| found(list, b"", b"").and_then(|(_, key)| key);
        assert_eq!(key(b"\\begin{thebibliography}{1}\xC3\n\\bibitem{a}\nA.\n"), None);
        assert_eq!(key(b"\\bibitem{a}\nA.\n\\bibitem[{B\xC3 \n(2000)}]{b}\nB.\n"), Some("b".into()));
        assert_eq!(key(b"\\bibitem{a}\nA.\n\\bibitemize\xC3\n"), Some("a".into()));
        assert_eq!(key(b"\\bibitem{a}\n\xC3\n\\bibitem [B]{b}\n\xC3"), Some("a".into()));
        assert_eq!(key(b"\\bibitem{a}\n\\bibitem [B]{b}\n\xC3"), Some("b".into()));
        assert_eq!(key(b"\\bibitem{a}\n\\bibitem b\n\xC3"), None);
    }

    #[test]
    fn bytes_of_values_in_another_encoding_are_no_half_letters() {
        let database =
            b"@misc{a, author = {\xC3\x89mile}}\n@misc{b, crossref = {p}, title = {\xE9}, note = {\xC3\x84}}\n@misc{p, note = {\xFC}}\n";
        let line = |list: &[u8], aux: &[u8]| found(list, aux, database).map(|(line, _)| line);
        // an entry that isn't cited explains nothing
        assert_eq!(line(b"\xC3\n\xE9\n", b"\\citation{a}\n"), Some(1));
        assert_eq!(line(b"\xE9\n", b"\\citation{a}\n"), Some(1));
        // bytes of a cited one, and of its parent; but not of another value of it
        assert_eq!(line(b"\xE9\n\xFC\n", b"\\citation{B}\n"), None);
        assert_eq!(line(b"\xE9\n\xFC\n\xC3\n", b"\\citation{b}\n"), Some(3));
        assert_eq!(line(b"\xE9\n\xC3\n", b"\\citation{*}\n"), Some(2));
        // the part of the list is that of one entry
        let both = b"\\citation{a,b}\n";
        assert_eq!(line(b"\\bibitem{b}\n\xE9\n\\bibitem{a}\n\xC3", both), Some(4));
        assert_eq!(line(b"\\bibitem{b}\n\xE9\n\\bibitem{a}\n\xE9", both), Some(4));
        assert_eq!(line(b"\\bibitem{a}\n\\bibitem{b}\n\xE9 and \xFC\xE9\n", both), None);
    }

    #[test]
    fn keys_strings_and_styles_in_another_encoding_are_no_half_letters() {
        let line = |database: &[u8], style: &[u8]| {
            half_letter(b"\\bibitem{k}\n\xE9\n", false, &files(b"\\citation{k}\n", database, style))
                .map(|half| half.line)
        };
        assert_eq!(line(b"@string{s = {\xE9}} @misc{k, title = s}", b""), None);
        assert_eq!(line(b"@preamble{{\xE9}} @misc{k}", b""), None);
        assert_eq!(line(b"@comment{\xE9} @misc{k}", b""), Some(2));
        assert_eq!(line(b"@misc{k, title = {\xE8}}", b"% \xE9"), None);
        assert_eq!(line(b"@misc{k, title = {T}}", b"% \xE9"), Some(2));
        assert_eq!(found(b"\\bibitem{k\xE9}\n", b"\\citation{k\xE9}\n", b"@misc{k}"), None);
    }
}
