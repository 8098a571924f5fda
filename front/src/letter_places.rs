//! Where letters outside ASCII stand in a text, and the other bytes that matter where letters are coded. Eight bytes are looked at at once.

/// Whether a byte is one of a code, so that a file which has it can't be coded.
pub const fn is_digit(byte: u8) -> bool {
    matches!(byte, 0x01..=0x08 | 0x0E..=0x1F)
}

/// Whether a text has a byte of a code. (Piece by piece, since that takes an eighth of the time.)
pub fn has_digits(text: &[u8]) -> bool {
    text.chunks(4096).any(|piece| piece.iter().fold(false, |has, byte| has | is_digit(*byte)))
}

/// The highest bit of each of eight bytes, and eight times a small number.
const HIGH: u64 = 0x8080_8080_8080_8080;
const fn eight(byte: u8) -> u64 {
    byte as u64 * 0x0101_0101_0101_0101
}

/// Of eight bytes the highest bit of each that is a control character below the space, or none of ASCII.
#[inline(always)]
pub const fn control_or_letter(word: u64) -> u64 {
    (!((word & !HIGH) + eight(0x80 - b' ')) | word) & HIGH
}

/// The same of these and of braces, `|`, `~` and DEL.
#[inline(always)]
pub const fn control_letter_or_brace(word: u64) -> u64 {
    let low = word & !HIGH;
    (!(low + eight(0x80 - b' ')) | (low + eight(0x80 - b'{')) | word) & HIGH
}

/// The same of these and of quotes.
#[inline(always)]
pub const fn control_letter_brace_or_quote(word: u64) -> u64 {
    let other = word ^ eight(b'"');
    let is_other = ((other & !HIGH) + !HIGH) | other;
    control_letter_or_brace(word) | (!is_other & HIGH)
}

/// Eight bytes with small letters.
#[inline(always)]
pub const fn with_small_letters(word: u64) -> u64 {
    word | (!other_than_between(word, b'A', b'Z') & HIGH) >> 2
}

/// The same of those that aren't between two bytes of ASCII.
#[inline(always)]
const fn other_than_between(word: u64, first: u8, last: u8) -> u64 {
    let low = word & !HIGH;
    (!(low + eight(0x80 - first)) | (low + eight(0x7F - last)) | word) & HIGH
}

/// The same of those that are no letters of ASCII.
#[inline(always)]
const fn other_than_ascii_letter(word: u64) -> u64 {
    other_than_between(word | eight(b' '), b'a', b'z')
}

/// The first eight bytes of a text, or all of them and spaces after them; None where there is none.
#[inline(always)]
fn first_word(text: &[u8]) -> Option<u64> {
    match text.first_chunk() {
        Some(word) => Some(u64::from_le_bytes(*word)),
        None if text.is_empty() => None,
        None => Some(text.iter().rev().fold(eight(b' '), |word, byte| word << 8 | u64::from(*byte))),
    }
}

/// Visits the bytes that `marks` marks, from this place on. What `visit` answers is the place from which on bytes are visited again; None ends all. The answer is whether the end was reached.
#[inline(always)]
pub fn visit_marked(
    text: &[u8],
    from: usize,
    marks: impl Fn(u64) -> u64,
    mut visit: impl FnMut(usize) -> Option<usize>,
) -> bool {
    let mut rest = text.get(from..).unwrap_or_default();
    while let Some(word) = first_word(rest) {
        let marked = marks(word);
        if marked == 0 {
            rest = rest.get(size_of::<u64>()..).unwrap_or_default();
            continue;
        }
        let place = text.len() - rest.len() + marked.trailing_zeros() as usize / 8;
        match visit(place) {
            Some(after) => rest = text.get(after..).unwrap_or_default(),
            None => return false,
        }
    }
    true
}

/// The place after the letters of ASCII that stand from this one on.
#[inline(always)]
pub fn pass_ascii_letters(text: &[u8], from: usize) -> usize {
    let mut end = text.len();
    visit_marked(text, from, other_than_ascii_letter, |at| {
        end = at;
        None
    });
    end
}

/// A letter outside ASCII of a text, and where it begins.
#[derive(Debug, Clone, Copy, PartialEq, Eq, PartialOrd, Ord)]
pub struct Met {
    pub start: usize,
    pub letter: char,
}

/// Adds the letter outside ASCII that begins at this place; where it ends. None where the byte there is one of a code, or of no letter.
#[inline(always)]
pub fn meet(text: &[u8], start: usize, met: &mut Vec<Met>) -> Option<usize> {
    if text[start] < 0x80 {
        return Some(start + 1).filter(|_| !is_digit(text[start]));
    }
    let letter = first_letter(&text[start..])?;
    met.push(Met { start, letter });
    Some(start + letter.len_utf8())
}

/// Adds the letters outside ASCII of a text from this place on; false where it has a byte of a code, or one that is of no letter.
pub fn find_letters(text: &[u8], from: usize, met: &mut Vec<Met>) -> bool {
    visit_marked(text, from, control_or_letter, |start| meet(text, start, met))
}

/// The letters that begin at this place or after it, which is near.
pub fn from_place(letters: &[Met], place: usize) -> &[Met] {
    &letters[letters.iter().take_while(|met| met.start < place).count()..]
}

/// The letter outside ASCII with which this text begins; None where it begins with none in UTF-8.
#[inline(always)]
pub fn first_letter(text: &[u8]) -> Option<char> {
    let bits = |byte: u8, count: u32| u32::from(byte) & ((1 << count) - 1);
    match *text {
        [a @ 0xC2..=0xDF, b @ 0x80..=0xBF, ..] => char::from_u32(bits(a, 5) << 6 | bits(b, 6)),
        [a @ 0xE0..=0xEF, b @ 0x80..=0xBF, c @ 0x80..=0xBF, ..] => {
            char::from_u32(bits(a, 4) << 12 | bits(b, 6) << 6 | bits(c, 6)).filter(|letter| *letter >= '\u{800}')
        }
        [a @ 0xF0..=0xF7, b @ 0x80..=0xBF, c @ 0x80..=0xBF, d @ 0x80..=0xBF, ..] => {
            let letter = bits(a, 3) << 18 | bits(b, 6) << 12 | bits(c, 6) << 6 | bits(d, 6);
            char::from_u32(letter).filter(|letter| *letter >= '\u{10000}')
        }
        _ => None,
    }
}

#[cfg(test)]
mod tests {
    use super::*;

    #[test]
    fn letters_are_those_of_utf_8() {
        let bytes = [
            0x00, 0x7F, 0x80, 0x8F, 0x90, 0x9F, 0xA0, 0xBF, 0xC0, 0xC1, 0xC2, 0xDF, 0xE0, 0xED, 0xEF, 0xF0, 0xF4, 0xF5,
            0xFF,
        ];
        for number in 0..bytes.len().pow(4) {
            let text = [1, 19, 361, 6859].map(|place| bytes[number / place % 19]);
            let letter = (1..=4).find_map(|len| std::str::from_utf8(&text[..len]).ok()?.chars().next());
            assert_eq!(first_letter(&text), letter.filter(|letter| !letter.is_ascii()), "{text:?}");
        }
        assert_eq!(first_letter(&"ö".as_bytes()[..1]), None);
    }

    /// The places of a text's bytes that are marked, from this one on.
    fn visited(text: &[u8], from: usize, marks: impl Fn(u64) -> u64) -> Vec<usize> {
        let mut found = Vec::new();
        assert!(visit_marked(text, from, marks, |at| {
            found.push(at);
            Some(at + 1)
        }));
        found
    }

    #[test]
    fn bytes_are_found_wherever_they_are() {
        let bytes: Vec<u8> = (0..=255).flat_map(|byte| [byte, b'a', byte]).collect();
        let is_plain = |byte: u8| (b' '..0x80).contains(&byte);
        for text in [&bytes[..], b"", b"ab\ncdefghijkl\tmn", b"abcdefgh", b"\n\n\n\n\n\n\n\n\n\x80\x01", b"{\"}|~\"{a}"]
        {
            for from in 0..=text.len() {
                let wanted = |is_it: fn(u8) -> bool| -> Vec<usize> {
                    (from..text.len()).filter(|at| !is_plain(text[*at]) || is_it(text[*at])).collect()
                };
                assert_eq!(visited(text, from, control_or_letter), wanted(|_| false));
                assert_eq!(visited(text, from, control_letter_or_brace), wanted(|byte| byte >= b'{'));
                assert_eq!(
                    visited(text, from, control_letter_brace_or_quote),
                    wanted(|byte| byte >= b'{' || byte == b'"')
                );
                let has_none =
                    visit_marked(text, from, control_or_letter, |at| (!is_digit(text[at])).then_some(at + 1));
                assert_eq!(has_none, !has_digits(&text[from..]));
            }
        }
    }

    #[test]
    fn letters_of_ascii_are_known() {
        for byte in 0..=255u8 {
            let text = [b'a', b'Z', byte, b'A', b'z'];
            let after = text.iter().position(|byte| !byte.is_ascii_alphabetic()).unwrap_or(5);
            assert_eq!([0, 1, 5].map(|from| pass_ascii_letters(&text, from)), [after, after, 5]);
            let word = [byte; 8];
            assert_eq!(with_small_letters(u64::from_le_bytes(word)).to_le_bytes(), [byte.to_ascii_lowercase(); 8]);
        }
        assert_eq!(pass_ascii_letters(b"@inproceedings{", 1), 14);
    }

    #[test]
    fn bytes_of_what_was_visited_are_passed_over() {
        let mut found = Vec::new();
        visit_marked(b"ab\n\n\n\n\n\n\n\n\n\n", 1, control_or_letter, |at| {
            found.push(at);
            Some(at + 7)
        });
        assert_eq!(found, [2, 9]);
    }

    #[test]
    fn letters_are_found_with_their_places() {
        let found = |text: &[u8]| {
            let mut met = Vec::new();
            let is_whole = find_letters(text, 1, &mut met);
            (met.iter().map(|met| (met.start, met.letter)).collect::<Vec<_>>(), is_whole)
        };
        let letters = "\n\téß€\u{10000}\n ä b c d e f g h ü";
        let wanted = letters.char_indices().filter(|(_, letter)| !letter.is_ascii()).collect();
        assert_eq!(found(letters.as_bytes()), (wanted, true));
        assert_eq!(found(b"\x01abcdefgh\r\n\t\x7F"), (vec![], true));
        for odd in [b"a\xC3b", b"ab\xA9", b"ab\x01", b"ab\x1F"] {
            assert_eq!(found(odd), (vec![], false));
        }
    }
}
