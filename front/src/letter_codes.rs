//! Letters of a language as special characters, and back. A letter of a value is written as `{\xy{key}}`: `x` and `y` are control characters that say which letter it is, and the key is what
//! it sorts as. For BibTeX that is one letter: `purify$` keeps the key alone, `change.case$` changes the key's case, and names and prefixes keep it whole. In braces, where BibTeX knows no
//! special characters, `purify$` keeps the key as well. So a run over such values sorts and counts letters as the language does, and what it writes is turned back.

use crate::languages::{Language, PLACES, place_of};
use crate::letter_places::{Met, control_letter_or_brace, first_letter, from_place, is_digit, visit_marked};
use std::collections::HashMap;
use std::ops::Range;
use std::sync::Arc;

/// The control characters of a code: those that are no whitespace.
const DIGITS: [u8; 26] = [
    0x01, 0x02, 0x03, 0x04, 0x05, 0x06, 0x07, 0x08, 0x0E, 0x0F, 0x10, 0x11, 0x12, 0x13, 0x14, 0x15, 0x16, 0x17, 0x18,
    0x19, 0x1A, 0x1B, 0x1C, 0x1D, 0x1E, 0x1F,
];

/// A byte at the end of each key of a run that is made to see whether keys are printed; `purify$` keeps it.
pub const MARK: u8 = 0xFE;

/// How many letters have a code.
const MOST_LETTERS: usize = DIGITS.len() * DIGITS.len();

/// At the place of each control character of a code its number; more than there are letters at that of another byte.
const NUMBERS: [u16; 32] = {
    let (mut table, mut number) = ([MOST_LETTERS as u16; 32], 0);
    while number < DIGITS.len() {
        table[DIGITS[number] as usize] = number as u16;
        number += 1;
    }
    table
};

fn value_of(digit: u8) -> usize {
    NUMBERS.get(usize::from(digit)).map_or(MOST_LETTERS, |number| usize::from(*number))
}

/// How many bytes a short text, such as a code, has at most.
pub const SHORT: usize = 15;

/// A text of a few bytes.
#[derive(Debug, Clone, Copy, Default, PartialEq, Eq)]
struct Short {
    bytes: [u8; SHORT],
    len: u8,
}

impl Short {
    fn push(&mut self, bytes: &[u8]) {
        let len = usize::from(self.len);
        self.bytes[len..len + bytes.len()].copy_from_slice(bytes);
        self.len += bytes.len() as u8;
    }

    fn of_letters(letters: impl Iterator<Item = char>) -> Short {
        let mut short = Short::default();
        letters.for_each(|letter| short.push(letter.encode_utf8(&mut [0; 4]).as_bytes()));
        short
    }

    /// Writes it. (All its room at once, and what is too much of that is taken back: a copy of another length would be a call.)
    #[inline(always)]
    fn write(&self, out: &mut Vec<u8>) {
        out.extend_from_slice(&self.bytes);
        out.truncate(out.len() - (SHORT - usize::from(self.len)));
    }
}

/// What stands in the place of the code of a letter that wasn't met.
const NOT_MET: Short = Short { bytes: [0; SHORT], len: u8::MAX };

/// How many bytes of a text are copied at once where it is short, and in each piece of a long one.
pub const AT_ONCE: usize = 32;
const PIECE: usize = 1024;

/// Writes a part of a text, as a rule one between two letters, in the same way as a short text. (A long one in pieces: to copy many bytes at once is an instruction that is repeated for each of them.)
#[inline(always)]
pub fn write_part(text: &[u8], part: Range<usize>, out: &mut Vec<u8>) {
    match text[part.start..].first_chunk::<AT_ONCE>() {
        Some(piece) if part.len() <= AT_ONCE => {
            out.extend_from_slice(piece);
            out.truncate(out.len() - (AT_ONCE - part.len()));
        }
        _ => text[part].chunks(PIECE).for_each(|piece| out.extend_from_slice(piece)),
    }
}

/// A letter that has a code.
#[derive(Debug)]
struct Letter {
    itself: Short,
    /// It in the other case.
    other: Short,
    is_capital: bool,
}

impl Letter {
    /// A letter in a text of a language; `is_foreign` where the text has no letter outside ASCII, so that its `I` may be one of another language.
    fn new(itself: char, language: &Language, is_foreign: bool) -> Letter {
        // (also a letter of a capital and a small one, such as `ǅ`)
        let is_capital = itself.is_uppercase() || !itself.to_lowercase().eq([itself]);
        let one = |letter: char| Short::of_letters(std::iter::once(letter));
        let other = match itself {
            'I' if language.is_dotless() && !is_foreign => one('ı'),
            'i' if language.is_dotless() => one('İ'),
            'İ' => one('i'),
            _ if is_capital => Short::of_letters(itself.to_lowercase()),
            _ => Short::of_letters(itself.to_uppercase()),
        };
        Letter { itself: one(itself), other, is_capital }
    }
}

/// Where letters in braces are coded too. A style may cut a text in braces after any byte, and a code with it.
#[derive(Debug, Clone, Copy, PartialEq, Eq)]
pub enum InBraces {
    Coded,
    AsTheyAre,
}

/// A text that was turned back.
#[derive(Debug, PartialEq, Eq)]
pub struct Turned {
    /// What it is then; None where it has no code, and stays as it is.
    pub text: Option<Vec<u8>>,
    /// Whether nothing is left of a code that was cut, or of a key outside a code.
    pub is_whole: bool,
    /// Whether all of it is UTF-8.
    pub is_utf8: bool,
    /// How many braces are open at its end, and at least anywhere in it.
    pub depth: i64,
    pub least_depth: i64,
}

impl Turned {
    /// The text that it was made of, turned back.
    pub fn text_or(self, text: Vec<u8>) -> Vec<u8> {
        self.text.unwrap_or(text)
    }

    /// Notes a byte that is visited, and of no code; where the next one begins.
    #[inline(always)]
    fn pass_over(&mut self, text: &[u8], at: usize) -> usize {
        let byte = text[at];
        match byte {
            b'{' => self.depth += 1,
            b'}' => {
                self.depth -= 1;
                self.least_depth = self.least_depth.min(self.depth);
            }
            0x80.. => {
                let letter = first_letter(&text[at..]);
                self.is_whole &= byte < MARK;
                self.is_utf8 &= letter.is_some();
                return at + letter.map_or(1, char::len_utf8);
            }
            _ => self.is_whole &= !is_digit(byte),
        }
        at + 1
    }
}

/// The letters of a job that have codes.
#[derive(Debug)]
pub struct Codes {
    language: Arc<Language>,
    in_braces: InBraces,
    /// What ends each key.
    mark: &'static [u8],
    letters: Vec<Letter>,
    /// The numbers of those of ASCII, by themselves; the `I` of a foreign text is another one.
    numbers: HashMap<(char, bool), usize>,
    /// The code of each letter outside ASCII that was met, by its place; empty where it has none.
    codes: Vec<Short>,
    /// Those of letters that have no place.
    others: HashMap<char, Short>,
}

impl Codes {
    pub fn new(language: &Arc<Language>, in_braces: InBraces, are_marked: bool) -> Codes {
        let mark: &[u8] = if are_marked { &[MARK] } else { &[] };
        Codes {
            language: language.clone(),
            in_braces,
            mark,
            letters: Vec::new(),
            numbers: HashMap::new(),
            codes: vec![NOT_MET; PLACES],
            others: HashMap::new(),
        }
    }

    /// Writes a text up to the last letter of this part, which is UTF-8, that has a code, with the letters of the part coded. `letters` are those of the text outside ASCII that weren't
    /// passed yet; those of the part are passed here. The text is written up to the place `written`; up to where it is then.
    pub fn code(
        &mut self,
        text: &[u8],
        part: Range<usize>,
        letters: &mut &[Met],
        written: usize,
        out: &mut Vec<u8>,
    ) -> usize {
        if self.language.has_rules_for_ascii() {
            return self.code_all(text, part, written, out);
        }
        let (from_part, after) = (from_place(letters, part.start), from_place(letters, part.end));
        *letters = after;
        let of_part = &from_part[..from_part.len() - after.len()];
        if self.in_braces == InBraces::Coded {
            return self.code_letters(text, of_part, written, out);
        }
        let (mut depth, mut at) = (0, part.start);
        let is_coded = |met: &&Met| {
            depth += depth_of(&text[at..met.start]);
            at = met.start;
            depth <= 0
        };
        let coded: Vec<Met> = of_part.iter().filter(is_coded).copied().collect();
        self.code_letters(text, &coded, written, out)
    }

    /// Whether letters have codes by themselves, wherever they stand.
    pub fn are_of_letters_alone(&self) -> bool {
        self.in_braces == InBraces::Coded && !self.language.has_rules_for_ascii()
    }

    /// Writes a text from the place `written` on up to the last of these letters outside ASCII that has a code, with the letters coded; up to where it is written then.
    pub fn code_letters(&mut self, text: &[u8], letters: &[Met], written: usize, out: &mut Vec<u8>) -> usize {
        let mut written = written;
        for met in letters {
            let code = self.code_of_letter(met.letter);
            if code.len > 0 {
                write_part(text, written..met.start, out);
                code.write(out);
                written = met.start + met.letter.len_utf8();
            }
        }
        written
    }

    /// The same where letters of ASCII may be coded, too.
    fn code_all(&mut self, text: &[u8], part: Range<usize>, written: usize, out: &mut Vec<u8>) -> usize {
        let Ok(value) = std::str::from_utf8(&text[part.clone()]) else { return written };
        let (mut depth, mut written, is_foreign) = (0, written, value.is_ascii());
        for (at, itself) in value.char_indices() {
            depth += i64::from(itself == '{') - i64::from(itself == '}');
            if depth > 0 && self.in_braces == InBraces::AsTheyAre {
                continue;
            }
            let start = part.start + at;
            let code = match itself.is_ascii() {
                true => self.code_of_ascii(itself, &value[at..], is_foreign),
                false => *self.code_of_letter(itself),
            };
            if code.len > 0 {
                write_part(text, written..start, out);
                code.write(out);
                written = start + itself.len_utf8();
            }
        }
        written
    }

    /// The code of a letter outside ASCII; empty where it has none.
    #[inline(always)]
    fn code_of_letter(&mut self, letter: char) -> &Short {
        match place_of(u32::from(letter)) {
            Some(place) if self.codes[place].len != NOT_MET.len => &self.codes[place],
            place => self.code_of_rare(letter, place),
        }
    }

    /// The code of a letter outside ASCII that has no place, or is met there for the first time.
    #[cold]
    fn code_of_rare(&mut self, letter: char, place: Option<usize>) -> &Short {
        if let Some(place) = place {
            self.codes[place] = self.met(letter);
            return &self.codes[place];
        }
        if !self.others.contains_key(&letter) {
            let code = self.met(letter);
            self.others.insert(letter, code);
        }
        &self.others[&letter]
    }

    /// The code of a letter outside ASCII that is met for the first time.
    fn met(&mut self, letter: char) -> Short {
        let key = self.key(letter, "", false);
        let number = key.is_some().then(|| self.number_of_new(letter, false)).flatten();
        key.zip(number).map_or(Short::default(), |(key, number)| self.code_of(number, &key))
    }

    /// The code of a letter of ASCII with which `rest` begins: what it sorts as depends on those that follow.
    fn code_of_ascii(&mut self, itself: char, rest: &str, is_foreign: bool) -> Short {
        let Some(key) = self.key(itself, rest, is_foreign) else { return Short::default() };
        let number = self.number_of_ascii(itself, is_foreign && itself == 'I');
        number.map_or(Short::default(), |number| self.code_of(number, &key))
    }

    /// What a letter sorts as with which `rest` begins; None where that is itself.
    fn key(&self, itself: char, rest: &str, is_foreign: bool) -> Option<Vec<u8>> {
        let language = &self.language;
        match itself {
            'I' if language.is_dotless() => language.key('ı'),
            'i' if language.is_dotless() && !is_foreign => Some(b"i".to_vec()),
            'İ' => Some(b"i".to_vec()),
            _ if itself.is_ascii_alphabetic() => language.key_of_several(rest).map(<[u8]>::to_vec),
            _ if itself.is_ascii() => None,
            _ => language.key(itself.to_lowercase().next()?),
        }
    }

    /// The number of a letter of ASCII; None where there are too many.
    fn number_of_ascii(&mut self, letter: char, is_foreign: bool) -> Option<usize> {
        if let Some(number) = self.numbers.get(&(letter, is_foreign)) {
            return Some(*number);
        }
        let number = self.number_of_new(letter, is_foreign)?;
        self.numbers.insert((letter, is_foreign), number);
        Some(number)
    }

    /// The number of a letter that has none yet; None where there are too many.
    fn number_of_new(&mut self, letter: char, is_foreign: bool) -> Option<usize> {
        let number = Some(self.letters.len()).filter(|number| *number < MOST_LETTERS)?;
        self.letters.push(Letter::new(letter, &self.language, is_foreign));
        Some(number)
    }

    /// The code of the letter of this number, with its key.
    fn code_of(&self, number: usize, key: &[u8]) -> Short {
        let mut code = Short::default();
        code.push(&[b'{', b'\\', DIGITS[number / DIGITS.len()], DIGITS[number % DIGITS.len()], b'{']);
        code.push(key);
        if self.letters[number].is_capital {
            code.bytes[5..].make_ascii_uppercase();
        }
        code.push(self.mark);
        code.push(b"}}");
        code
    }

    /// What a run wrote, with each code turned back into its letter, in the case that the run gave it.
    pub fn turn_back(&self, text: &[u8]) -> Turned {
        let mut turned = Turned { text: None, is_whole: true, is_utf8: true, depth: 0, least_depth: 0 };
        let (mut out, mut copied) = (Vec::new(), 0);
        visit_marked(text, 0, control_letter_or_brace, |at| {
            let Some(code) = self.code_at(&text[at..]) else { return Some(turned.pass_over(text, at)) };
            if copied == 0 {
                out.reserve(text.len());
            }
            write_part(text, copied..at, &mut out);
            self.letter(&code).write(&mut out);
            copied = at + code.len;
            Some(copied)
        });
        if copied > 0 {
            write_part(text, copied..text.len(), &mut out);
            turned.text = Some(out);
        }
        turned
    }

    /// The code with which a text begins.
    #[inline(always)]
    fn code_at<'t>(&self, text: &'t [u8]) -> Option<Code<'t>> {
        let [b'{', b'\\', first, second, b'{', rest @ ..] = text else { return None };
        let number = value_of(*first) * DIGITS.len() + value_of(*second);
        let is_of_key = |byte: &u8| byte.is_ascii_alphabetic() || *byte >= MARK;
        let len = match rest {
            // (as most are)
            [one, b'}', ..] if is_of_key(one) => 1,
            _ => rest.iter().take_while(|byte| is_of_key(byte)).count(),
        };
        let is_whole = number < self.letters.len() && rest[len..].starts_with(b"}}");
        is_whole.then_some(Code { number, key: &rest[..len], len: len + 7 })
    }

    /// The letter that a code stands for: in the other case where its key has another case than it was given.
    fn letter(&self, code: &Code<'_>) -> &Short {
        let letter = &self.letters[code.number];
        match code.key.iter().find(|byte| byte.is_ascii_alphabetic()) {
            Some(byte) if byte.is_ascii_uppercase() != letter.is_capital => &letter.other,
            _ => &letter.itself,
        }
    }
}

/// How many more braces a text opens than it closes.
fn depth_of(text: &[u8]) -> i64 {
    text.iter().map(|byte| i64::from(*byte == b'{') - i64::from(*byte == b'}')).sum()
}

/// A code in a text.
struct Code<'t> {
    number: usize,
    key: &'t [u8],
    len: usize,
}

#[cfg(test)]
mod tests {
    use super::*;
    use crate::languages::AFTER;

    fn coded(codes: &mut Codes, text: &str) -> Vec<u8> {
        let mut out = Vec::new();
        let letters: Vec<Met> = text.char_indices().map(|(start, letter)| Met { start, letter }).collect();
        let letters: Vec<Met> = letters.into_iter().filter(|met| !met.letter.is_ascii()).collect();
        let written = codes.code(text.as_bytes(), 0..text.len(), &mut &letters[..], 0, &mut out);
        out.extend_from_slice(&text.as_bytes()[written..]);
        out
    }

    /// A text there and back, with the keys changed on the way.
    fn there_and_back(name: &str, text: &str, change: impl Fn(&mut [u8])) -> String {
        let language = Arc::new(Language::named(name.as_bytes()).unwrap());
        let mut codes = Codes::new(&language, InBraces::Coded, false);
        let mut list = coded(&mut codes, text);
        change(&mut list);
        let turned = codes.turn_back(&list);
        assert!(turned.is_whole, "{text}");
        String::from_utf8(turned.text_or(list)).unwrap()
    }

    #[test]
    fn a_letter_is_a_special_character_with_its_key() {
        let swedish = Arc::new(Language::named(b"sv").unwrap());
        let mut codes = Codes::new(&swedish, InBraces::Coded, false);
        assert_eq!(coded(&mut codes, "aö{É}"), b"a{\\\x01\x01{\xFFc}}{{\\\x01\x02{E}}}");
        let mut codes = Codes::new(&swedish, InBraces::AsTheyAre, true);
        assert_eq!(coded(&mut codes, "ö{É}"), "{\\\x01\x01{?c!}}{É}".bytes().map(marked).collect::<Vec<_>>());
        assert_eq!(coded(&mut codes, "Я “x” ASCII"), "Я “x” ASCII".as_bytes());
    }

    fn marked(byte: u8) -> u8 {
        match byte {
            b'?' => AFTER,
            b'!' => MARK,
            other => other,
        }
    }

    #[test]
    fn each_letter_is_itself_again() {
        let letters: String = ('\u{C0}'..='\u{24F}').chain('\u{1E00}'..='\u{1EFF}').collect();
        for name in crate::languages::names().split(", ") {
            for text in [&letters, &format!("{{{letters}}}"), "I i ch {Ch} CH aa Aa dzs"] {
                assert_eq!(&there_and_back(name, text, |_| {}), text, "{name}");
            }
        }
    }

    #[test]
    fn a_changed_case_of_a_key_is_that_of_its_letter() {
        let lower = |name, text| there_and_back(name, text, <[u8]>::make_ascii_lowercase);
        let upper = |name, text| there_and_back(name, text, <[u8]>::make_ascii_uppercase);
        assert_eq!((lower("de", "ÄßÉœ"), upper("de", "äßéœ")), ("äßéœ".into(), "ÄSSÉŒ".into()));
        assert_eq!((lower("tr", "IŞIK İnan"), upper("tr", "ışık inan")), ("ışık inan".into(), "IŞIK İNAN".into()));
        assert_eq!(lower("tr", "In it"), "in it");
        for name in crate::languages::names().split(", ") {
            let lowered = there_and_back(name, "ǅ ǈ ǋ ǲ Ǆ Ǳ", <[u8]>::make_ascii_lowercase);
            assert_eq!(lowered, "ǆ ǉ ǌ ǳ ǆ ǳ", "{name}");
        }
        assert_eq!((lower("cs", "Chvátal"), upper("cs", "chvátal")), ("chvátal".into(), "CHVÁTAL".into()));
    }

    #[test]
    fn what_is_left_of_a_code_is_seen() {
        let language = Arc::new(Language::named(b"de").unwrap());
        let mut codes = Codes::new(&language, InBraces::Coded, true);
        let list = coded(&mut codes, "ö");
        for part in [&list[..3], &list[..list.len() - 1], &list[3..], b"o\xFE", b"z\xFF", b"{\\\x01\x09{o}}"] {
            assert!(!codes.turn_back(part).is_whole, "{part:?}");
        }
        let whole = Turned { text: Some("ö".into()), is_whole: true, is_utf8: true, depth: 0, least_depth: 0 };
        assert_eq!(codes.turn_back(&list), whole);
        let has_letters = |list: &[u8]| codes.turn_back(list).is_utf8;
        assert_eq!([&b"\xC3\xA9\n"[..], b"\xC3{", b"\xA9", b"a\xE2\x82"].map(has_letters), [true, false, false, false]);
    }
}
