//! The text of a file, by bytes and by lines.

use memchr::{memchr, memchr_iter, memrchr};
use std::collections::HashMap;
use std::io::BufRead;

/// A text, and where its lines begin.
#[derive(Debug, Clone)]
pub struct Text<'a> {
    /// All bytes.
    pub bytes: &'a [u8],
    starts: Vec<usize>,
}

impl<'a> Text<'a> {
    /// The lines of these bytes are found once.
    pub fn new(bytes: &'a [u8]) -> Text<'a> {
        let after_ends = memchr_iter(b'\n', bytes).map(|at| at + 1);
        Text { bytes, starts: std::iter::once(0).chain(after_ends).collect() }
    }

    /// Where the line of this number begins and where it ends, without its end; an empty one at the end of the text where there is no
    /// such line.
    pub fn span(&self, number: usize) -> (usize, usize) {
        let whole = self.bytes.len();
        let Some(start) = number.checked_sub(1).and_then(|index| self.starts.get(index)) else { return (whole, whole) };
        (*start, self.starts.get(number).map_or(whole, |next| next - 1))
    }

    /// The line of this number, without its end; empty where there is none.
    pub fn line(&self, number: usize) -> &'a [u8] {
        let (start, end) = self.span(number);
        &self.bytes[start..end]
    }

    /// The number of the line in which a place is.
    pub fn line_of(&self, place: usize) -> usize {
        self.starts.partition_point(|start| *start <= place)
    }
}

/// How many characters of UTF-8 begin in these bytes.
fn characters(bytes: &[u8]) -> usize {
    bytes.iter().filter(|byte| **byte & 0xc0 != 0x80).count()
}

/// Counts characters of lines. Those of a long line are counted once, however often its places are asked for.
#[derive(Debug, Default)]
pub struct Columns {
    /// By the address of each long line, how many characters begin before each piece of it, and before its end.
    long: HashMap<usize, Vec<usize>>,
}

impl Columns {
    /// How many bytes a piece has.
    const PIECE: usize = 4096;

    /// The column of a place in a line, counted from 1.
    pub fn of(&mut self, line: &[u8], place: usize) -> usize {
        if line.len() < Self::PIECE {
            return 1 + characters(&line[..place]);
        }
        let sums = self.long.entry(line.as_ptr().addr()).or_insert_with(|| {
            let add = |before: &mut usize, piece: &[u8]| Some(std::mem::replace(before, *before + characters(piece)));
            line.chunks(Self::PIECE).chain([&line[..0]]).scan(0, add).collect()
        });
        let piece = place / Self::PIECE;
        1 + sums[piece] + characters(&line[piece * Self::PIECE..place])
    }
}

/// The place of `what` in `text`: the first one.
pub fn find(text: &[u8], what: &[u8]) -> Option<usize> {
    let Some((first, rest)) = what.split_first() else { return Some(0) };
    let last_start = text.len().checked_sub(what.len())?;
    let mut from = 0;
    while let Some(at) = text[from..=last_start].iter().position(|byte| byte == first) {
        if text[from + at + 1..].starts_with(rest) {
            return Some(from + at);
        }
        from += at + 1;
        if from > last_start {
            return None;
        }
    }
    None
}

/// The first place of a byte from this place on.
pub fn find_byte(text: &[u8], from: usize, byte: u8) -> Option<usize> {
    memchr(byte, &text[from..]).map(|after| from + after)
}

/// The place of `what` in `text`: the last one.
pub fn find_last(text: &[u8], what: &[u8]) -> Option<usize> {
    let Some((first, rest)) = what.split_first() else { return Some(text.len()) };
    let mut starts = &text[..text.len().checked_sub(rest.len())?];
    loop {
        let at = memrchr(*first, starts)?;
        if text[at + 1..].starts_with(rest) {
            return Some(at);
        }
        starts = &starts[..at];
    }
}

/// The first line of a text, without its end, and the lines after it.
pub fn split_line(text: &[u8]) -> (&[u8], &[u8]) {
    let mut behind = text;
    // The standard library's reader of lines is what looks for a byte in many at a time; no reading of a slice fails.
    let taken = behind.skip_until(b'\n').unwrap_or(text.len());
    let line = &text[..taken];
    (line.strip_suffix(b"\n").unwrap_or(line), behind)
}

/// What stands before the first `what` in `text`, and what after it.
pub fn split_first<'a>(text: &'a [u8], what: &[u8]) -> Option<(&'a [u8], &'a [u8])> {
    let at = find(text, what)?;
    Some((&text[..at], &text[at + what.len()..]))
}

/// What stands before the last `what` in `text`, and what after it.
pub fn split_last<'a>(text: &'a [u8], what: &[u8]) -> Option<(&'a [u8], &'a [u8])> {
    let at = find_last(text, what)?;
    Some((&text[..at], &text[at + what.len()..]))
}

/// Whether a byte is whitespace inside a line: a space, a tab, a carriage return.
pub const fn is_white(byte: u8) -> bool {
    matches!(byte, b' ' | b'\t' | b'\r')
}

/// Rows of a test: on each line a line of a file, in which a `^` marks the place of an error, and the error. Gives the line without the mark, the error and the place.
#[cfg(test)]
pub fn marked(rows: &str) -> impl Iterator<Item = (Vec<u8>, &[u8], Option<usize>)> {
    rows.lines().map(|row| {
        let (line, error) = row.split_once(" | ").unwrap_or((row, ""));
        (line.replacen('^', "", 1).into_bytes(), error.as_bytes(), line.find('^'))
    })
}

#[cfg(test)]
mod tests {
    use super::*;

    #[test]
    fn lines_have_numbers_and_places() {
        let text = Text::new(b"ab\n\nc");
        assert_eq!(
            [text.line(1), text.line(2), text.line(3), text.line(4), text.line(0)],
            [&b"ab"[..], b"", b"c", b"", b""]
        );
        assert_eq!([0, 2, 3, 4, 5].map(|place| text.line_of(place)), [1, 1, 2, 3, 3]);
        assert_eq!(Text::new(b"").line_of(0), 1);
    }

    #[test]
    fn texts_are_found() {
        assert_eq!(find(b"abcabc", b"bc"), Some(1));
        assert_eq!(find_last(b"abcabc", b"bc"), Some(4));
        assert_eq!([find_last(b"ab", b"abc"), find_last(b"", b"a"), find_last(b"ab", b"")], [None, None, Some(2)]);
        assert_eq!(find(b"aab", b"ab"), Some(1));
        assert_eq!(find(b"ab", b"abc"), None);
        assert_eq!(find(b"ac", b"b"), None);
        assert_eq!(find(b"", b""), Some(0));
        assert_eq!(find(b"xa", b"ab"), None);
        assert_eq!(split_first(b"k=v=w", b"="), Some((&b"k"[..], &b"v=w"[..])));
        assert_eq!(split_last(b"k=v=w", b"="), Some((&b"k=v"[..], &b"w"[..])));
    }

    #[test]
    fn the_last_place_is_found_wherever_it_is() {
        for length in 0..100 {
            for place in 0..length {
                let mut text = vec![b'.'; length];
                text[place] = b'x';
                assert_eq!(find_last(&text, b"x"), Some(place));
                assert_eq!(find_last(&text, b"x."), Some(place).filter(|place| place + 1 < length));
                text[0] = b'x';
                assert_eq!(find_last(&text, b"x"), Some(place));
            }
            assert_eq!(find_last(&vec![b'.'; length], b"x"), None);
        }
        assert_eq!(find_last(&[b'x'; 80], b"xy"), None);
    }

    #[test]
    fn columns_count_characters() {
        let mut columns = Columns::default();
        assert_eq!([0, 1, 3, 4].map(|place| columns.of("aéb".as_bytes(), place)), [1, 2, 3, 4]);
        let long = "é".repeat(Columns::PIECE);
        let places = [0, 2, Columns::PIECE, Columns::PIECE + 2, long.len()];
        assert_eq!(places.map(|place| columns.of(long.as_bytes(), place)), places.map(|place| 1 + place / 2));
    }

    #[test]
    fn lines_are_split_off() {
        assert_eq!(split_line(b"a\r\n\nb"), (&b"a\r"[..], &b"\nb"[..]));
        assert_eq!(split_line(b"\nb"), (&b""[..], &b"b"[..]));
        assert_eq!(split_line(b"b"), (&b"b"[..], &b""[..]));
        assert_eq!(split_line(b""), (&b""[..], &b""[..]));
    }
}
