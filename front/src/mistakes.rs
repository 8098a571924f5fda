//! What an author did where an item of a database can't go on, as its text shows it, and what to do about that.

use crate::advice::Seen;
use crate::database::{Inside, Item, name_at};
use crate::explain::{begins_item, shown_path};
use crate::job::File;
use crate::letter_values::parts;
use crate::terminal::plain;
use crate::text::Text;
use crate::unsaid::is_list_of_names;
use std::ops::Range;

/// How many bytes of an item's line are looked at for what an author takes for a comment.
const MOST_BEFORE: usize = 200;

/// How many lines an entry may have in which a file breaks off.
const MOST_LINES: usize = 60;

/// An item of a database, and the place of its error.
struct Place<'b, 'a> {
    file: &'b File,
    text: &'b Text<'a>,
    item: &'b Item<'a>,
    place: usize,
    inside: Inside<'a>,
}

/// What to do about this error at a place of an item, where the item's text shows it.
pub fn what_to_do(file: &File, text: &Text<'_>, item: &Item<'_>, place: usize, error: &[u8]) -> Option<String> {
    let inside = Inside::of(text.bytes, item);
    let place = Place { file, text, item, place, inside };
    match error {
        b"I was expecting a , or a }" | b"I was expecting a , or a )" => place.after_part(),
        b"I was expecting an =" => place.not_closed().or_else(|| place.before_equals()),
        b"I was expecting a name" => place.not_closed().or_else(|| place.before_name()),
        b"I was expecting a }" | b"I was expecting a )" => place.after_text(),
        b"I was expecting a value" => place.before_value(),
        b"Unbalanced braces" => place.runs_on().or_else(|| place.second_quote()),
        b"Illegal end of database file" => place.at_end(),
        _ => None,
    }
}

/// What to do about the first value of an entry that has taken in what looks like the next field.
pub fn what_runs_on(file: &File, text: &Text<'_>, item: &Item<'_>) -> Option<String> {
    let inside = Inside::of(text.bytes, item);
    Place { file, text, item, place: item.end, inside }.runs_on()
}

/// What to do about an entry that was meant to be hidden.
pub fn what_hides(file: &File, text: &Text<'_>, item: &Item<'_>) -> Option<String> {
    is_hidden(text, item).then(|| Seen::NotHidden.with(&[&begins_item(file, text, item)]))
}

/// Whether an entry was meant to be hidden: its line begins with a `%` or a `@comment`.
pub fn is_hidden(text: &Text<'_>, item: &Item<'_>) -> bool {
    let (line, _) = text.span(text.line_of(item.start));
    let start = text.bytes[line..line + MOST_BEFORE.min(item.start - line)].trim_ascii_start();
    let is_comment = start.get(..8).is_some_and(|word| word.eq_ignore_ascii_case(b"@comment"));
    item.is_entry() && (start.starts_with(b"%") || is_comment)
}

/// Where the value begins that isn't closed.
pub fn begun_value(file: &File, text: &Text<'_>, item: &Item<'_>) -> Option<String> {
    let inside = Inside::of(text.bytes, item);
    let start = inside.last_value?;
    if inside.values.last().is_some_and(|value| value.start == start) {
        return None;
    }
    let at = line_of(file, text, start);
    Some(match inside.fields.last().filter(|_| item.is_entry()) {
        Some(field) => format!("in the value of `{}`, which begins at {at}", plain(field)),
        None => format!("in the value that begins at {at}"),
    })
}

/// The name of the field that stands in the place of a key: `author` of `author={Smith`.
pub fn field_for_key(key: &[u8]) -> Option<&[u8]> {
    let (name, value) = key.split_at(key.iter().position(|byte| *byte == b'=')?);
    let begins_value = matches!(value.get(1), None | Some(b'{' | b'"' | b'0'..=b'9'));
    (!name.is_empty() && name.iter().all(u8::is_ascii_alphabetic) && begins_value).then_some(name)
}

/// A number with letters that look like digits: the number, and the first such letter; None where it isn't one.
pub fn number_meant(word: &[u8]) -> Option<(String, char)> {
    let digits = word.iter().filter(|byte| byte.is_ascii_digit()).count();
    let letter = word.iter().copied().find(u8::is_ascii_alphabetic)?;
    let digit = |byte: &u8| match byte {
        b'O' | b'o' => Some('0'),
        b'l' | b'I' => Some('1'),
        _ => byte.is_ascii_digit().then_some(char::from(*byte)),
    };
    let number: String = word.iter().map(digit).collect::<Option<String>>()?;
    (digits > 1 && 2 * digits >= word.len()).then_some((number, char::from(letter)))
}

/// Whether a word is the name of a month, as styles define it.
fn is_short_month(word: &[u8]) -> bool {
    const MONTHS: [&str; 12] = ["jan", "feb", "mar", "apr", "may", "jun", "jul", "aug", "sep", "oct", "nov", "dec"];
    MONTHS.iter().any(|month| word.eq_ignore_ascii_case(month.as_bytes()))
}

/// A value without the texts in its braces and quotes.
fn hides_texts(value: &[u8]) -> Vec<u8> {
    let mut value = value.to_vec();
    for part in parts(&value.clone()) {
        value[part].fill(b' ');
    }
    value
}

/// What to do about an entry that begins with this field, and not with a key.
fn without_key(item: &Item<'_>, field: &[u8]) -> String {
    Seen::NoKey.with(&[&plain(item.kind), &plain(field)])
}

/// A line of a file, for people.
pub fn line_of(file: &File, text: &Text<'_>, place: usize) -> String {
    format!("{}:{}", plain(shown_path(file)), text.line_of(place))
}

impl<'a> Place<'_, 'a> {
    fn byte(&self) -> Option<u8> {
        self.text.bytes.get(self.place).copied()
    }

    /// The name that begins at the place, and the first byte after it that isn't whitespace.
    fn name(&self) -> (&'a [u8], Option<u8>) {
        let name = name_at(self.text.bytes, self.place);
        let after = self.text.bytes[self.place + name.len()..].iter().find(|byte| !byte.is_ascii_whitespace());
        (name, after.copied())
    }

    fn is_on_one_line(&self, other: usize) -> bool {
        self.text.line_of(other) == self.text.line_of(self.place)
    }

    fn line(&self, place: usize) -> String {
        line_of(self.file, self.text, place)
    }

    fn begins_item(&self) -> String {
        begins_item(self.file, self.text, self.item)
    }

    /// What the last value is of: a field, or the string that the item defines.
    fn owner(&self) -> Option<String> {
        let name = if self.item.is_entry() { *self.inside.fields.last()? } else { self.item.key?.name };
        Some(plain(name))
    }

    /// An entry's key or the value of a field has ended, and neither a comma nor the entry's end comes after it.
    fn after_part(&self) -> Option<String> {
        let key = self.item.key?;
        match self.inside.values.last() {
            None if self.byte() == Some(b'=') => Some(Seen::NoKey.with(&[&plain(self.item.kind), &plain(key.name)])),
            None => self
                .field_for_key(key.name)
                .or_else(|| self.not_closed())
                .or_else(|| self.other_brace())
                .or_else(|| Some(self.after_key())),
            Some(value) => self
                .quote(value)
                .or_else(|| self.runs_on())
                .or_else(|| self.not_closed())
                .or_else(|| self.other_brace())
                .or_else(|| self.after_value(value)),
        }
    }

    fn field_for_key(&self, key: &[u8]) -> Option<String> {
        field_for_key(key).map(|field| without_key(self.item, field))
    }

    fn after_key(&self) -> String {
        let key = self.item.key.map_or(&b""[..], |key| key.name);
        if let Some(key) = key.strip_suffix(b";") {
            return Seen::SemicolonForComma.with(&[&format!("key `{}`", plain(key))]);
        }
        let (word, after) = self.name();
        let is_key = self.item.key.is_some_and(|key| self.is_on_one_line(key.end)) && after == Some(b',');
        if is_key {
            Seen::KeyOfWords.with(&[&plain(&[key, word].concat())])
        } else {
            Seen::NoCommaAfterKey.with(&[&plain(key)])
        }
    }

    /// The names of a list of which each has braces or quotes of its own, with `and` between them: `{Doe, Jane} and {Roe, Max}`.
    fn names_in_one(&self, value: &Range<usize>, word: &[u8]) -> Option<String> {
        self.inside.fields.last().filter(|field| is_list_of_names(field) && word.eq_ignore_ascii_case(b"and"))?;
        let line = &self.text.bytes[value.start..self.text.span(self.text.line_of(self.place)).1];
        let all: Vec<&[u8]> = parts(line).into_iter().map(|part| &line[part]).collect();
        (all.len() > 1).then(|| plain(&all.join(&b" and "[..])))
    }

    fn after_value(&self, value: &Range<usize>) -> Option<String> {
        let (owner, first) = (self.owner()?, self.text.bytes[value.start]);
        if self.byte() == Some(b';') {
            return Some(Seen::SemicolonForComma.with(&[&format!("value of `{owner}`")]));
        }
        let (word, after) = self.name();
        if word == b"+" {
            return Some(Seen::PlusForHash.with(&[&owner]));
        }
        let is_field = !word.is_empty() && after == Some(b'=');
        if is_field || !self.is_on_one_line(value.end) {
            return Some(Seen::NoComma.with(&[&owner, &self.line(value.end.saturating_sub(1))]));
        }
        if let Some(seen) = self.letter_for_digit(value, word).or_else(|| self.part_without_hash(value, word, &owner)) {
            return Some(seen);
        }
        if let Some(seen) = self.year_with_letter(value, word, &owner) {
            return Some(seen);
        }
        if let Some(names) = self.names_in_one(value, word) {
            return Some(Seen::NamesInOneValue.with(&[&owner, &names]));
        }
        Some(match (first, self.byte()) {
            (b'"', _) => Seen::NoHash.with(&[&owner, "; a quote within quotes stands in braces"]),
            (b'{', Some(b'{' | b'"')) => Seen::NoHash.with(&[&owner, ""]),
            (b'{', _) => Seen::BraceTooMany.with(&[&owner]),
            (b'\\', _) => Seen::BareValue.with(&[&owner]),
            (_, Some(b'{' | b'"')) => Seen::NoHash.with(&[&owner, ""]),
            _ => Seen::BareValue.with(&[&owner]),
        })
    }

    /// A number that goes on with a letter that looks like a digit, as `2O12` does.
    fn letter_for_digit(&self, value: &Range<usize>, word: &[u8]) -> Option<String> {
        let is_whole = value.end == self.place && self.text.bytes[value.clone()].iter().all(u8::is_ascii_digit);
        let (number, letter) =
            number_meant(&self.text.bytes[value.start..value.end + word.len()]).filter(|_| is_whole)?;
        Some(Seen::LetterForDigit.with(&[&number, &letter.to_string()]))
    }

    /// A year of four digits with a letter after it, as `1972a`.
    fn year_with_letter(&self, value: &Range<usize>, word: &[u8], owner: &str) -> Option<String> {
        let year = &self.text.bytes[value.clone()];
        let is_year = year.len() == 4 && year.iter().all(u8::is_ascii_digit) && value.end == self.place;
        let is_letter = word.len() == 1 && word[0].is_ascii_alphabetic() && owner.eq_ignore_ascii_case("year");
        let whole = plain(&[year, word].concat());
        (is_year && is_letter).then(|| Seen::YearWithLetter.with(&[owner, &whole, &plain(year)]))
    }

    /// A part of a value before which a `#` is missing: the name of a month, or one after other parts that are joined.
    fn part_without_hash(&self, value: &Range<usize>, word: &'a [u8], owner: &str) -> Option<String> {
        let bytes = &self.text.bytes[value.clone()];
        let has_hash = hides_texts(bytes).contains(&b'#');
        let is_part = has_hash || is_short_month(word) && owner.eq_ignore_ascii_case("month");
        let is_on_its_own = value.end < self.place || !bytes.last()?.is_ascii_alphanumeric();
        let part = match self.byte()? {
            b'{' => "`{`".to_string(),
            b'"' => "the quote".to_string(),
            _ if word.is_empty() => return None,
            _ => format!("`{}`", plain(word)),
        };
        (is_part && is_on_its_own).then(|| Seen::NoHashBefore.with(&[owner, &part]))
    }

    /// A quote that ends a value earlier than it was meant: one that begins the next value, or one in the text.
    fn quote(&self, value: &Range<usize>) -> Option<String> {
        let is_quoted = value.end == self.place && self.text.bytes[value.start] == b'"';
        let owner = self.owner().filter(|_| is_quoted)?;
        let is_accent = self.place.checked_sub(2).is_some_and(|before| self.text.bytes[before] == b'\\');
        Some(match self.is_on_one_line(value.start) {
            true if is_accent => Seen::QuoteInText.with(&[&owner]),
            true => Seen::QuotesInText.with(&[&owner]),
            false => Seen::QuoteTooEarly.with(&[&owner, &self.line(value.start)]),
        })
    }

    /// A value in quotes that ends with the item, and not with a second quote.
    fn second_quote(&self) -> Option<String> {
        let start = self.inside.last_value.filter(|_| self.byte() == Some(b'}'))?;
        let (_, end) = self.text.span(self.text.line_of(self.place));
        let has_more = self.text.bytes[self.place..end].contains(&b'"');
        let is_it = self.text.bytes[start] == b'"' && !has_more;
        let is_before_comma = self.text.bytes[self.place + 1..].trim_ascii_start().starts_with(b",");
        if is_it && is_before_comma {
            return Some(Seen::BraceForQuote.with(&[&self.owner()?, &self.line(self.place)]));
        }
        is_it.then(|| Some(Seen::SecondQuote.with(&[&self.owner()?, &self.line(start)]))).flatten()
    }

    /// Another item begins in the line of the place, below the line of this one.
    fn not_closed(&self) -> Option<String> {
        let (start, _) = self.text.span(self.text.line_of(self.place));
        let begins_item = |bytes: &[u8]| bytes.trim_ascii_start().starts_with(b"@");
        let is_other = begins_item(&self.text.bytes[start..self.place]) || begins_item(&self.text.bytes[start..]);
        let is_above = self.text.line_of(self.item.start) < self.text.line_of(self.place);
        let is_it = is_other && is_above && self.item.entry_key().is_some();
        is_it.then(|| Seen::NotClosed.with(&[&self.begins_item()]))
    }

    /// An item in braces that a parenthesis is to close, or the other way round.
    fn other_brace(&self) -> Option<String> {
        let after_kind = &self.text.bytes[self.item.start + 1..].trim_ascii_start()[self.item.kind.len()..];
        let (opening, closing) = match (after_kind.trim_ascii_start().first()?, self.byte()?) {
            (b'(', b'}') => ("(", ")"),
            (b'{', b')') => ("{", "}"),
            _ => return None,
        };
        Some(Seen::OtherBrace.with(&[&self.begins_item(), closing, opening]))
    }

    /// The first value that goes on over a line that looks like another field.
    fn runs_on(&self) -> Option<String> {
        let of_fields = self.inside.fields.iter().zip(&self.inside.values);
        let of_last = self.inside.fields.last().zip(self.inside.last_value);
        let open = of_last
            .map(|(name, start)| (name, start..self.place))
            .filter(|_| self.inside.values.len() < self.inside.fields.len());
        let all = of_fields.map(|(name, value)| (name, value.clone())).chain(open).filter(|_| self.item.is_entry());
        let mut found = all.filter_map(|(name, value)| Some((name, value.start, self.field_in(&value)?)));
        let (name, start, taken) = found.next()?;
        if let Some(end) = self.ends_by_quote(start..taken) {
            return Some(Seen::QuoteForBrace.with(&[&plain(name), &self.line(end)]));
        }
        let taken_in = (plain(name_at(self.text.bytes, taken)), self.line(taken));
        Some(Seen::RunsOn.with(&[&plain(name), &self.line(start), &taken_in.0, &taken_in.1]))
    }

    /// Where a value that begins with a brace ends with a quote, before a comma or what comes next.
    fn ends_by_quote(&self, value: Range<usize>) -> Option<usize> {
        let text = self.text.bytes[value.clone()].trim_ascii_end();
        let text = text.strip_suffix(b",").unwrap_or(text).trim_ascii_end();
        let is_one =
            text.starts_with(b"{") && text.ends_with(b"\"") && text.iter().filter(|byte| **byte == b'"').count() == 1;
        is_one.then(|| value.start + text.len() - 1)
    }

    /// Where a value looks like a field, `name = {`: where one of its lines begins, or else after a comma.
    fn field_in(&self, value: &Range<usize>) -> Option<usize> {
        self.field_after(value, b'\n', true).or_else(|| self.field_after(value, b',', false))
    }

    /// Where a field seems to begin after such a byte of a value: its own value begins with a brace, a quote or, where it may be a number, a digit.
    fn field_after(&self, value: &Range<usize>, byte: u8, may_be_number: bool) -> Option<usize> {
        let bytes = &self.text.bytes[..value.end];
        let ends = bytes[value.start..].iter().enumerate().filter(|(_, found)| **found == byte);
        let begins = ends.map(|(end, _)| value.start + end + 1);
        let is_blank = |byte: &&u8| matches!(byte, b' ' | b'\t');
        begins.map(|begin| begin + bytes[begin..].iter().take_while(is_blank).count()).find(|at| {
            let name = name_at(bytes, *at);
            let after = bytes[at + name.len()..].trim_ascii_start().strip_prefix(b"=").map(<[u8]>::trim_ascii_start);
            let begins_value = |byte: &u8| matches!(byte, b'{' | b'"') || may_be_number && byte.is_ascii_digit();
            name.first().is_some_and(u8::is_ascii_alphabetic) && after.and_then(<[u8]>::first).is_some_and(begins_value)
        })
    }

    /// A name has ended, and no `=` comes after it.
    fn before_equals(&self) -> Option<String> {
        let name = if self.item.is_entry() { *self.inside.fields.last()? } else { self.item.key?.name };
        let sign = |byte: &u8| matches!(byte, b':' | b'~' | b'-' | b'>');
        if ["<<<<<<<", "=======", ">>>>>>>"].iter().any(|mark| name.starts_with(mark.as_bytes())) {
            return Some(Seen::OfConflict.with(&[]));
        }
        if let Some((last, rest)) = name.split_last().filter(|(last, _)| sign(last)) {
            return Some(Seen::OtherForEquals.with(&[&plain(rest), &plain(&[*last])]));
        }
        let (word, after) = self.name();
        Some(match word {
            [byte] if sign(byte) => Seen::OtherForEquals.with(&[&plain(name), &plain(word)]),
            _ if !word.is_empty() && after == Some(b'=') => Seen::NameOfWords.with(&[&plain(&[name, word].concat())]),
            _ if matches!(self.byte()?, b'{' | b'"') || !word.is_empty() => Seen::NoEquals.with(&[&plain(name)]),
            _ => return None,
        })
    }

    /// A name is expected: of an item's type, of a field or of a string.
    fn before_name(&self) -> Option<String> {
        let is_field = self.item.entry_key().is_some();
        match self.byte()? {
            b'{' | b'(' if self.item.kind.is_empty() => Some(Seen::NoType.with(&[])),
            b'%' if is_field => Some(self.comment().with(&[])),
            b',' if is_field => Some(Seen::CommaTwice.with(&[])),
            b'}' | b')' if is_field => self.other_brace(),
            _ => None,
        }
    }

    /// What to do about a line that begins with `%`: without that sign it is a field, or none.
    fn comment(&self) -> Seen {
        let rest = &self.text.bytes[self.place..self.text.span(self.text.line_of(self.place)).1];
        let begin = rest.iter().position(|byte| !matches!(byte, b'%' | b' ' | b'\t')).unwrap_or(rest.len());
        let name = name_at(rest, begin);
        let is_field = !name.is_empty() && rest[begin + name.len()..].trim_ascii_start().starts_with(b"=");
        if is_field { Seen::CommentSign } else { Seen::CommentLine }
    }

    /// The value of a string or a preamble has ended, and the item's end doesn't come after it.
    fn after_text(&self) -> Option<String> {
        let value = self.inside.values.last()?;
        let is_bare = !matches!(self.text.bytes[value.start], b'{' | b'"');
        let Some(owner) = self.owner() else { return is_bare.then(|| Seen::BarePreamble.with(&[])) };
        if self.byte() == Some(b',') || !self.is_on_one_line(value.end) {
            return self.other_brace();
        }
        self.other_brace().or_else(|| self.after_value(value)).filter(|_| !owner.is_empty())
    }

    fn before_value(&self) -> Option<String> {
        let owner = self.owner().filter(|_| matches!(self.byte(), Some(b',' | b'}' | b')')))?;
        (self.inside.last_value == Some(self.place)).then(|| Seen::NoValue.with(&[&owner]))
    }

    /// The file ends in an item: in a value, or after one.
    fn at_end(&self) -> Option<String> {
        self.item.entry_key()?;
        if let Some(runs_on) = self.runs_on() {
            return Some(runs_on);
        }
        let is_in_value = self.inside.last_value != self.inside.values.last().map(|value| value.start);
        let is_braced =
            self.text.bytes[self.item.start..].iter().find(|byte| matches!(byte, b'{' | b'(')) == Some(&b'{');
        let (item, closing) = (self.begins_item(), if is_braced { "}" } else { ")" });
        match is_in_value {
            true => self.is_last_item().then(|| Seen::BreaksOff.with(&[&item, closing])),
            false => Some(Seen::NotClosedAtEnd.with(&[&item, closing])),
        }
    }

    /// Whether no other item begins after this one in a line of its own, and it begins near the end of the file.
    fn is_last_item(&self) -> bool {
        let rest = &self.text.bytes[self.item.start + 1..];
        let is_near = self.text.line_of(self.text.bytes.len()) < self.text.line_of(self.item.start) + MOST_LINES;
        is_near && !rest.split(|byte| *byte == b'\n').skip(1).any(|line| line.trim_ascii_start().starts_with(b"@"))
    }
}

#[cfg(test)]
mod tests {
    use super::*;
    use crate::database::Items;

    /// What to do about the first item of a database, which can't go on at its end.
    fn advice(text: &str) -> String {
        let file = File { name: b"d.bib".to_vec(), bytes: None, path: b"./d.bib".to_vec() };
        let (text, item) = (Text::new(text.as_bytes()), Items::new(text.as_bytes()).next().unwrap());
        what_to_do(&file, &text, &item, item.end, item.fault.unwrap().as_bytes()).unwrap_or_default()
    }

    #[test]
    fn keys_are_whole_words() {
        assert_eq!(advice("@misc{author = {A}}"), "write the entry's key first: `@misc{KEY, author = ..`");
        assert_eq!(advice("@misc{author={A. B}, x = 1}"), "write the entry's key first: `@misc{KEY, author = ..`");
        assert_eq!(advice("@misc{a b, x = 1}"), "write the key without whitespace: `ab`");
        assert_eq!(advice("@misc{a x = 1}"), "put a comma after the key `a`");
        assert_eq!(advice("@misc{a\n x = 1}"), "put a comma after the key `a`");
        assert_eq!(advice("@{a, x = 1}"), "write the type after the `@`, as in `@article{KEY, ..`");
        assert_eq!(advice("@misc{a,, x = 1}"), "take out one of the two commas");
        assert_eq!(advice("@misc{a; x = 1}"), "write a comma after the key `a`, in the place of the `;`");
    }

    #[test]
    fn a_field_is_no_key() {
        let field = |key: &str| field_for_key(key.as_bytes()).map(|name| String::from_utf8_lossy(name).into_owned());
        for key in ["author={Smith", "author=\"Smith\"", "author=", "author=2000"] {
            assert_eq!(field(key).as_deref(), Some("author"), "{key}");
        }
        for key in ["smith2010", "", "=", "={", "doi:10=x", "a=b", "x1={"] {
            assert_eq!(field(key), None, "{key}");
        }
    }

    #[test]
    fn what_is_missing_after_a_value_is_named() {
        assert_eq!(advice("@misc{a,\n x = {T}\n y = 1}"), "put a comma after the value of `x`, which ends at d.bib:2");
        assert_eq!(advice("@misc{a, x = {T} y = 1}"), "put a comma after the value of `x`, which ends at d.bib:1");
        assert_eq!(advice("@misc{a, month = \"T\" jan, y = 1}"), Seen::NoHashBefore.with(&["month", "`jan`"]));
        assert_eq!(advice("@misc{a, x = {A {T}} may, y = 1}"), Seen::BraceTooMany.with(&["x"]));
        assert_eq!(
            advice("@misc{a, x = \"#\" jan, y = 1}"),
            Seen::NoHash.with(&["x", "; a quote within quotes stands in braces"])
        );
        for text in ["12 # \" \" jan", "jan # {--} jan"] {
            assert_eq!(
                advice(&format!("@misc{{a, x = {text}, y = 1}}")),
                Seen::NoHashBefore.with(&["x", "`jan`"]),
                "{text}"
            );
        }
        assert_eq!(advice("@misc{a, x = s # {T} \"U\", y = 1}"), Seen::NoHashBefore.with(&["x", "the quote"]));
        assert_eq!(advice("@misc{a, year = 2O12}"), Seen::LetterForDigit.with(&["2012", "O"]));
        assert_eq!(advice("@misc{a, year = 20l2, y = 1}"), Seen::LetterForDigit.with(&["2012", "l"]));
        assert_eq!(advice("@misc{a, x = {T} \"S\"}"), Seen::NoHash.with(&["x", ""]));
        for text in ["jan + {T}", "{T} + s", "\"T\" +\n \"U\""] {
            assert_eq!(advice(&format!("@misc{{a, x = {text}, y = 1}}")), Seen::PlusForHash.with(&["x"]), "{text}");
        }
        assert_eq!(advice("@misc{a, x = {A {T}} S}, y = 1}"), Seen::BraceTooMany.with(&["x"]));
        let names = Seen::NamesInOneValue.with(&["author", "Doe, Jane and Roe, {M.} and X"]);
        assert_eq!(advice("@misc{a, author = {Doe, Jane} and {Roe, {M.}} and \"X\",\n y = {1}}"), names);
        for bare in ["1-2", "12A", "A title", "in press"] {
            assert_eq!(advice(&format!("@misc{{a, x = {bare}, y = 1}}")), Seen::BareValue.with(&["x"]), "{bare}");
        }
        assert_eq!(advice("@misc{a, x = \\url{u}, y = 1}"), Seen::BareValue.with(&["x"]));
        for text in ["@misc{a, x = 1 ;}", "@misc{a, x = {T}; y = 1}"] {
            assert_eq!(advice(text), "write a comma after the value of `x`, in the place of the `;`", "{text}");
        }
        let quoted = "close the value of `x`, which begins at d.bib:2: the quote before this place ends it";
        assert_eq!(advice("@misc{a,\n x = \"T,\n y = \"B\", z = 1}"), quoted);
        assert_eq!(advice("@misc{a,\n x = \"G\\\"odel\"}"), Seen::QuoteInText.with(&["x"]));
        assert_eq!(advice("@misc{a,\n x = \"The \"Room\" of\"}"), Seen::QuotesInText.with(&["x"]));
    }

    #[test]
    fn what_is_not_closed_is_named() {
        let unclosed = "close @misc{a}, which begins at d.bib:1: a `}` is missing above this line";
        assert_eq!(advice("@misc{a, x = 1\n@misc{b}"), unclosed);
        assert_eq!(advice("@misc{a, x = 1,\n@misc{b}"), unclosed);
        assert_eq!(advice("@misc{a, x = {1}"), "close @misc{a}, which begins at d.bib:1: its last `}` is missing");
        assert_eq!(advice("@misc(a, x = {1}"), "close @misc{a}, which begins at d.bib:1: its last `)` is missing");
        assert_eq!(
            advice("@misc(a, x = 1}"),
            "close this item by `)`, since it is opened by `(`: @misc{a}, which begins at d.bib:1"
        );
        assert_eq!(
            advice("@misc(a, x = 1,\n}"),
            "close this item by `)`, since it is opened by `(`: @misc{a}, which begins at d.bib:1"
        );
        let second = "close the value of `x`, which begins at d.bib:2: its second quote is missing";
        assert_eq!(advice("@misc{a,\n x = \"1936,\n}\n"), second);
        assert_eq!(advice("@misc{a,\n x = \"1 } 2\"}\n"), "");
        let runs_on =
            "close the value of `x`, which begins at d.bib:2: it has taken in what looks like the field `y` (d.bib:3)";
        assert_eq!(advice("@misc{a,\n x = {T {U},\n y = 1\n}\n@misc{b}"), runs_on);
        assert_eq!(advice("@misc{a,\n x = \"T,\n y = {1}\n}\n"), runs_on);
        assert_eq!(advice("@misc{a,\n x = {T,\n y = 2\n}\n"), runs_on);
        assert_eq!(advice("@misc{a,\n x = {T\",\n y = {1}\n}\n@misc{b}"), Seen::QuoteForBrace.with(&["x", "d.bib:2"]));
        assert_eq!(advice("@misc{a,\n x = \"T},\n y = {1}\n}\n"), Seen::BraceForQuote.with(&["x", "d.bib:2"]));
        let on_one_line = |name: &str| {
            format!(
                "close the value of `{name}`, which begins at d.bib:1: it has taken in what looks like the field `zz` (d.bib:1)"
            )
        };
        assert_eq!(advice("@misc{a, x = {A}, y = {10% of {T}, zz={B}, year=2000}"), on_one_line("y"));
        assert_eq!(advice("@misc{a, x = \"T, zz={B}, year=2000}"), on_one_line("x"));
        assert_eq!(advice("@misc{a, x = {A {B}, zz = {T}}\n@misc{b, y = 1}"), on_one_line("x"));
        assert_eq!(
            advice("@misc{a, x = {for all a, b=3}"),
            "close @misc{a}, which begins at d.bib:1: its last `}` is missing"
        );
        let item = "@misc{a}, which begins at d.bib:1";
        assert_eq!(advice("@misc{a, x = {T"), Seen::BreaksOff.with(&[item, "}"]));
        assert_eq!(advice("@misc{a, x = {T\n@misc{b}\n"), "");
    }

    #[test]
    fn signs_in_the_wrong_place_are_named() {
        assert_eq!(advice("@misc{a, x {T}}"), "put an `=` after `x`");
        assert_eq!(advice("@misc{a, x 1}"), "put an `=` after `x`");
        assert_eq!(
            advice("@misc{a,\n<<<<<<< HEAD\n x = 1,\n=======\n x = 2,\n>>>>>>> other\n}"),
            Seen::OfConflict.with(&[])
        );
        assert_eq!(advice("@misc{a, x: {T}}"), "write `x = ..`, with an `=` in the place of the `:`");
        assert_eq!(advice("@misc{a, x : {T}}"), "write `x = ..`, with an `=` in the place of the `:`");
        assert_eq!(advice("@misc{a, book title = {T}}"), "write the field's name without whitespace: `booktitle = ..`");
        assert_eq!(advice("@misc{a, % x\n y = 1}"), Seen::CommentLine.with(&[]));
        assert_eq!(advice("@misc{a,\n %% x = 2\n y = 1}"), Seen::CommentSign.with(&[]));
        assert_eq!(advice("@misc{a, year = 1972a}"), Seen::YearWithLetter.with(&["year", "1972a", "1972"]));
        assert_eq!(advice("@misc{a, x = , y = 1}"), "write the value of `x` after the `=`, or take the field out");
    }

    #[test]
    fn strings_and_preambles_have_texts() {
        assert_eq!(advice("@string{s = A title}"), Seen::BareValue.with(&["s"]));
        assert_eq!(advice("@string{s {T}}"), "put an `=` after `s`");
        assert_eq!(advice("@preamble{\\newcommand{\\x}{y}}"), Seen::BarePreamble.with(&[]));
        assert_eq!(advice("@string{s = {T}, t = {U}}"), "");
    }

    #[test]
    fn comments_hide_no_entry() {
        let file = File { name: b"d.bib".to_vec(), bytes: None, path: b"./d.bib".to_vec() };
        let hides = |text: &str| {
            let item = Items::new(text.as_bytes()).find(Item::is_entry).unwrap();
            what_hides(&file, &Text::new(text.as_bytes()), &item).is_some()
        };
        assert_eq!([hides("% @misc{a}"), hides("@Comment{@misc{a}}"), hides("%\n@misc{a}")], [true, true, false]);
    }
}
