//! The items of a database, read as far as they go: where each begins, and where it can't go on. `docs/RULES.md` has their grammar, under
//! Databases.

use crate::letter_places::{pass_ascii_letters, with_small_letters};
use crate::text::{Text, find_byte};
use memchr::{memchr2, memchr3};
use std::hash::{Hash, Hasher};
use std::ops::Range;

/// A key or a name of which the case of `A-Z` doesn't matter.
#[derive(Debug, Clone, Copy)]
pub struct Folded<'a>(pub &'a [u8]);

impl PartialEq for Folded<'_> {
    fn eq(&self, other: &Self) -> bool {
        // (nearly each key is written in the same way wherever it stands)
        self.0 == other.0 || self.0.eq_ignore_ascii_case(other.0)
    }
}

impl Eq for Folded<'_> {}

impl Hash for Folded<'_> {
    fn hash<H: Hasher>(&self, state: &mut H) {
        let (words, rest) = self.0.as_chunks::<8>();
        words.iter().for_each(|word| state.write_u64(with_small_letters(u64::from_le_bytes(*word))));
        let last = rest.iter().fold(self.0.len() as u64, |last, byte| last << 8 | u64::from(byte.to_ascii_lowercase()));
        state.write_u64(last);
    }
}

/// The key of an entry, or the name of a string.
#[derive(Debug, Clone, Copy, PartialEq, Eq)]
pub struct Key<'a> {
    /// Its bytes.
    pub name: &'a [u8],
    /// Where it ends.
    pub end: usize,
}

/// A `crossref` field of an entry.
#[derive(Debug, Clone, Copy, PartialEq, Eq)]
pub struct Parent<'a> {
    /// The key that it names, as far as it stands there as such.
    pub key: &'a [u8],
    /// Where its value ends.
    pub end: usize,
}

/// An item of a database.
#[derive(Debug, Clone, PartialEq, Eq)]
pub struct Item<'a> {
    /// Where its `@` stands.
    pub start: usize,
    /// Where its reading ended.
    pub end: usize,
    /// Its type, such as `book`; empty if there is none.
    pub kind: &'a [u8],
    /// Its key, if it has come so far.
    pub key: Option<Key<'a>>,
    /// Its parents.
    pub parents: Vec<Parent<'a>>,
    /// The error that ended it early, at its end.
    pub fault: Option<&'static str>,
}

/// Whether an item of this kind is an entry: no comment, no preamble and no string.
fn is_kind_of_entries(kind: &[u8]) -> bool {
    let is = |other: &str| kind.len() == other.len() && kind.eq_ignore_ascii_case(other.as_bytes());
    !(is("comment") || is("preamble") || is("string"))
}

impl<'a> Item<'a> {
    /// An item of which nothing is read yet.
    fn new(start: usize) -> Item<'a> {
        Item { start, end: start, kind: b"", key: None, parents: Vec::new(), fault: None }
    }

    /// Whether it is an entry.
    pub fn is_entry(&self) -> bool {
        is_kind_of_entries(self.kind)
    }

    /// The key of an entry; None of any other item.
    pub fn entry_key(&self) -> Option<Key<'a>> {
        self.key.filter(|_| self.is_entry())
    }
}

/// The items of a text, from a place on.
#[derive(Debug, Clone)]
pub struct Items<'a> {
    text: &'a [u8],
    next: Option<usize>,
}

impl<'a> Items<'a> {
    /// All items of a text.
    pub fn new(text: &'a [u8]) -> Items<'a> {
        let mut items = Items { text, next: None };
        items.go_on_at(0);
        items
    }

    /// The next item that can't go on at this place, or whose key ends there and is repeated: what follows such a key isn't read. Those before it are passed over.
    pub fn up_to(&mut self, place: usize) -> Option<Item<'a>> {
        while self.next.is_some_and(|start| start < place) {
            let mut item = self.next()?;
            if item.fault.is_some() && item.end == place {
                return Some(item);
            }
            if item.entry_key().is_some_and(|key| key.end == place) {
                self.go_on_at(place);
                (item.end, item.fault) = (place, None);
                return Some(item);
            }
        }
        None
    }

    /// Goes on with the first item that begins at this place or after it.
    pub fn go_on_at(&mut self, place: usize) {
        self.next = find_byte(self.text, place, b'@');
    }
}

impl<'a> Iterator for Items<'a> {
    type Item = Item<'a>;

    fn next(&mut self) -> Option<Item<'a>> {
        let item = Reader::new(self.text, self.next?).item();
        self.go_on_at(item.end);
        Some(item)
    }
}

/// How far the beginning of an entry is read for its key.
const LONGEST_BEGINNING: usize = 1_000;

/// The key of the entry that would begin at this place, where an `@` stands in the text of another item.
pub fn key_at(text: &[u8], place: usize) -> Option<Key<'_>> {
    let mut reader = Reader::new(&text[..text.len().min(place + LONGEST_BEGINNING)], place + 1);
    let kind = reader.name().ok()?;
    reader.expect(b"{(", NO_BRACE).ok()?;
    let key = reader.key(b'}').ok()?;
    is_kind_of_entries(kind).then_some(key).filter(|key| !key.name.is_empty())
}

/// What stands in an item of a database, read once more.
#[derive(Debug, Clone, Default, PartialEq, Eq)]
pub struct Inside<'a> {
    /// The names of its fields.
    pub fields: Vec<&'a [u8]>,
    /// Where the last value begins that was begun.
    pub last_value: Option<usize>,
    /// Where each whole value stands: of the fields one after the other, or of a string.
    pub values: Vec<Range<usize>>,
}

impl<'a> Inside<'a> {
    /// What stands in an item of this text.
    pub fn of(text: &'a [u8], item: &Item<'a>) -> Inside<'a> {
        let mut reader = Reader { inside: Some(Inside::default()), ..Reader::new(text, item.start + 1) };
        // (a fault ends what can be read)
        let _ = reader.read(&mut Item::new(item.start));
        reader.inside.unwrap_or_default()
    }
}

/// The beginning of an item.
#[derive(Debug, Clone, Copy, PartialEq, Eq)]
pub struct Head<'a> {
    /// Where its `@` stands.
    pub start: usize,
    /// Its type.
    pub kind: &'a [u8],
    /// Its key, or the name of a string; None where that may go on after what was read.
    pub key: Option<&'a [u8]>,
    /// Where the comma after its key stands, if it is written as most are: `@type{key,`.
    pub comma: Option<usize>,
}

/// How far a head is read.
const LONGEST_HEAD: usize = 200;

/// The beginnings of all items of a text but comments, and of what looks like one in the text of an item.
pub fn heads(text: &[u8]) -> impl Iterator<Item = Head<'_>> {
    let mut from = 0;
    std::iter::from_fn(move || {
        loop {
            let start = find_byte(text, from, b'@')?;
            from = start + 1;
            if let Some(head) = head_at(text, start) {
                return Some(head);
            }
        }
    })
}

/// The head that begins at this `@`; None where no item can.
fn head_at(text: &[u8], start: usize) -> Option<Head<'_>> {
    let read = &text[..text.len().min(start + LONGEST_HEAD)];
    if let Some(head) = plain_head_at(read, start) {
        return Some(head);
    }
    let mut reader = Reader::new(read, start + 1);
    let mut parts = || -> Read<(&[u8], &[u8])> {
        let kind = reader.name()?;
        let closing = if reader.expect(b"{(", NO_BRACE)? == b'{' { b'}' } else { b')' };
        let is_text = !is_kind_of_entries(kind);
        reader.next_byte()?;
        Ok((
            kind,
            reader.take(|byte| {
                byte != b',' && !is_white(byte) && (closing == b')' || byte != b'}') && !(is_text && byte == b'=')
            }),
        ))
    };
    let parts = parts();
    // (what isn't whole in so many bytes may be whole in more)
    let is_cut = reader.at == read.len() && read.len() < text.len();
    match parts {
        Ok((kind, _)) if kind.eq_ignore_ascii_case(b"comment") => None,
        Ok((kind, key)) => Some(Head { start, kind, key: Some(key).filter(|_| !is_cut), comma: None }),
        Err(_) if is_cut => Some(Head { start, kind: b"", key: None, comma: None }),
        Err(_) => None,
    }
}

/// The head of an entry that is written as most are: `@type{key,`.
fn plain_head_at(text: &[u8], start: usize) -> Option<Head<'_>> {
    let kind = &text[start + 1..pass_ascii_letters(text, start + 1)];
    let after = text[start + 1 + kind.len()..].strip_prefix(b"{")?;
    let key = &after[..count_first(after, |byte| byte != b',' && byte > b' ' && byte != b'}')];
    let is_plain = !kind.is_empty() && !key.is_empty() && after.get(key.len()) == Some(&b',');
    let comma = Some(start + 1 + kind.len() + 1 + key.len());
    (is_plain && is_kind_of_entries(kind)).then_some(Head { start, kind, key: Some(key), comma })
}

impl<'a> Item<'a> {
    /// The item that begins at this place, where an `@` stands; what stands in it takes the place of what stood in another one.
    pub fn read_at(text: &'a [u8], start: usize, inside: &mut Inside<'a>) -> Item<'a> {
        let mut room = std::mem::take(inside);
        room.fields.clear();
        room.values.clear();
        let mut reader = Reader { inside: Some(Inside { last_value: None, ..room }), ..Reader::new(text, start + 1) };
        let mut item = Item::new(start);
        item.fault = reader.read(&mut item).err();
        item.end = reader.at;
        *inside = reader.inside.unwrap_or_default();
        item
    }

    /// Whether it is the definition of a string.
    pub fn is_string(&self) -> bool {
        self.kind.eq_ignore_ascii_case(b"string")
    }
}

/// What can't go on is an error, with this text.
type Read<T> = Result<T, &'static str>;

const END_OF_FILE: &str = "Illegal end of database file";
const NO_NAME: &str = "I was expecting a name";
const NO_EQUALS: &str = "I was expecting an =";
const NO_BRACE: &str = "I was expecting a { or a (";

struct Reader<'a> {
    text: &'a [u8],
    at: usize,
    /// What was met, if it is kept.
    inside: Option<Inside<'a>>,
}

fn is_white(byte: u8) -> bool {
    matches!(byte, b' ' | b'\t' | b'\r' | b'\n')
}

/// Whether each byte may stand in a name.
const OF_NAME: [bool; 256] = {
    let (mut table, mut byte) = ([false; 256], b' ' as usize + 1);
    while byte < 256 {
        table[byte] = !matches!(byte as u8, b'"' | b'#' | b'%' | b'\'' | b'(' | b')' | b',' | b'=' | b'{' | b'}');
        byte += 1;
    }
    table
};

#[inline]
fn is_of_name(byte: u8) -> bool {
    OF_NAME[usize::from(byte)]
}

/// How many bytes at the beginning of a text pass a test.
#[inline]
fn count_first(text: &[u8], test: impl Fn(u8) -> bool) -> usize {
    let mut count = 0;
    while count < text.len() && test(text[count]) {
        count += 1;
    }
    count
}

/// The longest name that is looked at where none is expected.
const LONGEST_NAME: usize = 1_000;

/// The name that begins at this place; empty where none does.
pub fn name_at(text: &[u8], place: usize) -> &[u8] {
    let rest = &text[place.min(text.len())..text.len().min(place + LONGEST_NAME)];
    &rest[..count_first(rest, is_of_name)]
}

impl<'a> Reader<'a> {
    fn new(text: &'a [u8], at: usize) -> Reader<'a> {
        Reader { text, at, inside: None }
    }

    /// The item at this place, where its `@` stands.
    fn item(mut self) -> Item<'a> {
        let mut item = Item::new(self.at);
        self.at += 1;
        item.fault = self.read(&mut item).err();
        item.end = self.at;
        item
    }

    /// Takes the longest run of bytes that pass a test.
    #[inline]
    fn take(&mut self, test: impl Fn(u8) -> bool) -> &'a [u8] {
        let rest = &self.text[self.at..];
        let taken = &rest[..count_first(rest, test)];
        self.at += taken.len();
        taken
    }

    /// The byte after whitespace, which isn't taken.
    #[inline]
    fn next_byte(&mut self) -> Read<u8> {
        while let Some(byte) = self.text.get(self.at) {
            if !is_white(*byte) {
                return Ok(*byte);
            }
            self.at += 1;
        }
        Err(END_OF_FILE)
    }

    /// Takes one of these bytes.
    #[inline]
    fn expect<const N: usize>(&mut self, wanted: &[u8; N], message: &'static str) -> Read<u8> {
        let byte = self.next_byte()?;
        if !wanted.contains(&byte) {
            return Err(message);
        }
        self.at += 1;
        Ok(byte)
    }

    #[inline]
    fn name(&mut self) -> Read<&'a [u8]> {
        if self.next_byte()?.is_ascii_digit() {
            return Err(NO_NAME);
        }
        Some(self.take(is_of_name)).filter(|name| !name.is_empty()).ok_or(NO_NAME)
    }

    fn read(&mut self, item: &mut Item<'a>) -> Read<()> {
        item.kind = self.name()?;
        if item.kind.eq_ignore_ascii_case(b"comment") {
            return Ok(());
        }
        let closing = if self.expect(b"{(", NO_BRACE)? == b'{' { b'}' } else { b')' };
        if item.is_entry() {
            return self.read_entry(item, closing);
        }
        if item.kind.eq_ignore_ascii_case(b"string") {
            item.key = Some(Key { name: self.name()?, end: self.at });
            self.expect(b"=", NO_EQUALS)?;
        }
        self.value()?;
        self.expect(&[closing], if closing == b'}' { "I was expecting a }" } else { "I was expecting a )" })?;
        Ok(())
    }

    /// Takes the key of an entry that ends with this byte.
    fn key(&mut self, closing: u8) -> Read<Key<'a>> {
        self.next_byte()?;
        let name = self.take(|byte| byte != b',' && !is_white(byte) && (closing == b')' || byte != b'}'));
        Ok(Key { name, end: self.at })
    }

    fn read_entry(&mut self, item: &mut Item<'a>, closing: u8) -> Read<()> {
        item.key = Some(self.key(closing)?);
        let message = if closing == b'}' { "I was expecting a , or a }" } else { "I was expecting a , or a )" };
        while self.expect(&[b',', closing], message)? != closing {
            if self.next_byte()? == closing {
                self.at += 1;
                return Ok(());
            }
            let (field, value) = match self.plain_field() {
                Some(field) => field,
                None => self.field()?,
            };
            if field.eq_ignore_ascii_case(b"crossref") {
                item.parents.push(Parent { key: bare(value), end: self.at });
            }
        }
        Ok(())
    }

    /// Takes a field: its name and its value.
    fn field(&mut self) -> Read<(&'a [u8], &'a [u8])> {
        let field = self.name()?;
        if let Some(inside) = &mut self.inside {
            inside.fields.push(field);
        }
        self.expect(b"=", NO_EQUALS)?;
        Ok((field, self.value()?))
    }

    /// Takes a field that is written as most are: `name = {text},` with no brace in the text. None where it isn't, and nothing is taken.
    fn plain_field(&mut self) -> Option<(&'a [u8], &'a [u8])> {
        let rest = &self.text[self.at..];
        let name = &rest[..count_first(rest, is_of_name)];
        let text = rest[name.len()..].strip_prefix(b" = {")?;
        let length = memchr2(b'{', b'}', text)?;
        if !text[length..].starts_with(b"},") || !name.first()?.is_ascii_alphabetic() {
            return None;
        }
        let start = self.at + name.len() + b" = ".len();
        self.at = start + length + b"{}".len();
        if let Some(inside) = &mut self.inside {
            inside.fields.push(name);
            inside.last_value = Some(start);
            inside.values.push(start..self.at);
        }
        Some((name, &self.text[start..self.at]))
    }

    /// Takes a value; what stands there.
    fn value(&mut self) -> Read<&'a [u8]> {
        self.next_byte()?;
        let start = self.at;
        if let Some(inside) = &mut self.inside {
            inside.last_value = Some(start);
        }
        loop {
            self.part()?;
            let end = self.at;
            self.take(is_white);
            if self.text.get(self.at) != Some(&b'#') {
                self.at = end;
                if let Some(inside) = &mut self.inside {
                    inside.values.push(start..end);
                }
                return Ok(&self.text[start..end]);
            }
            self.at += 1;
        }
    }

    /// Takes a part of a value: a text, digits, or the name of a string.
    fn part(&mut self) -> Read<()> {
        let byte = self.next_byte()?;
        if matches!(byte, b'{' | b'"') {
            return self.group(byte);
        }
        let taken = if byte.is_ascii_digit() { self.take(|byte| byte.is_ascii_digit()) } else { self.take(is_of_name) };
        if taken.is_empty() { Err("I was expecting a value") } else { Ok(()) }
    }

    /// Takes a text in braces or quotes.
    fn group(&mut self, opening: u8) -> Read<()> {
        let (mut depth, mut at) = (0, self.at + 1);
        while let Some(before) = memchr3(b'{', b'}', b'"', &self.text[at..]) {
            at += before;
            let byte = self.text[at];
            match byte {
                b'{' => depth += 1,
                b'}' if depth > 0 => depth -= 1,
                b'}' | b'"' if depth == 0 && (byte == b'}' || opening == b'"') => {
                    let is_unbalanced = opening == b'"' && byte == b'}';
                    self.at = at + usize::from(!is_unbalanced);
                    return if is_unbalanced { Err("Unbalanced braces") } else { Ok(()) };
                }
                _ => {}
            }
            at += 1;
        }
        self.at = self.text.len();
        Err(END_OF_FILE)
    }
}

/// A value without its delimiters and the whitespace round it.
pub fn bare(value: &[u8]) -> &[u8] {
    let is_bare = |byte: &u8| !b"{}\" \t\r\n".contains(byte);
    let start = value.iter().position(is_bare).unwrap_or(value.len());
    let end = value.iter().rposition(is_bare).map_or(start, |last| last + 1);
    &value[start..end]
}

/// The line of a fault: the end of the file has the number of its last line.
pub fn line_of_fault(text: &Text<'_>, place: usize) -> usize {
    text.line_of(place.min(text.bytes.len().saturating_sub(1)))
}

#[cfg(test)]
mod tests {
    use super::*;
    use std::collections::HashSet;

    fn faults(text: &[u8]) -> Vec<(&'static str, usize)> {
        Items::new(text).filter_map(|item| Some((item.fault?, item.end))).collect()
    }

    #[test]
    fn whole_items_have_no_faults() {
        let text = b"text @comment{x @misc{k, title = {A {B} \"} # zz # 12,} @string(s = \"a{\"}b\") @preamble{s} @misc(k) ) @misc{}";
        assert_eq!(faults(text), []);
        let items: Vec<_> = Items::new(text).map(|item| (item.kind, item.key.map(|key| key.name))).collect();
        let names: [(&[u8], Option<&[u8]>); 6] = [
            (b"comment", None),
            (b"misc", Some(b"k")),
            (b"string", Some(b"s")),
            (b"preamble", None),
            (b"misc", Some(b"k)")),
            (b"misc", Some(b"")),
        ];
        assert_eq!(items, names);
    }

    #[test]
    fn faults_stand_where_an_item_cannot_go_on() {
        assert_eq!(faults(b"@ {"), [(NO_NAME, 2)]);
        assert_eq!(faults(b"@misc k"), [("I was expecting a { or a (", 6)]);
        assert_eq!(faults(b"@misc{k,\n note 1}"), [(NO_EQUALS, 15)]);
        assert_eq!(faults(b"@misc{k, note = ,}"), [("I was expecting a value", 16)]);
        assert_eq!(faults(b"@misc{k, note = 12ab}"), [("I was expecting a , or a }", 18)]);
        assert_eq!(faults(b"@misc(k , note = 1 }"), [("I was expecting a , or a )", 19)]);
        assert_eq!(faults(b"@string{s = 1, }"), [("I was expecting a }", 13)]);
        assert_eq!(faults(b"@preamble{\"a}\"}"), [("Unbalanced braces", 12)]);
        assert_eq!(faults(b"@misc{k, note = {a"), [(END_OF_FILE, 18)]);
        assert_eq!(faults(b"@misc{k, 1 = 2}"), [(NO_NAME, 9)]);
        assert_eq!(faults(b"@a@b{k x}"), [("I was expecting a , or a }", 7)]);
    }

    #[test]
    fn the_inside_of_an_item_is_read_again() {
        let inside = |text: &'static [u8]| Items::new(text).next().map(|item| Inside::of(text, &item));
        let whole = Inside { fields: vec![b"a", b"B"], last_value: Some(19), values: vec![13..14, 19..22] };
        assert_eq!(inside(b"@misc{k, a = 1, B= {x}}"), Some(whole));
        let begun = inside(b"@misc{k, a = \"x} @misc{j}");
        assert_eq!(begun.map(|inside| inside.last_value), Some(Some(13)));
        assert_eq!(key_at(b"x @misc { j, }", 2).map(|key| key.name), Some(&b"j"[..]));
        assert_eq!([key_at(b"@string{j = 1}", 0), key_at(b"@misc j", 0), key_at(b"@misc{}", 0)], [None; 3]);
    }

    #[test]
    fn parents_are_named() {
        let parents: Vec<_> =
            Items::new(b"@misc{a, crossref = { P }, CrossRef=\"q\"}").flat_map(|item| item.parents).collect();
        assert_eq!(parents.iter().map(|parent| parent.key).collect::<Vec<_>>(), [b"P", b"q"]);
    }

    #[test]
    fn the_item_of_a_place_is_found() {
        let bytes = b"@misc{a, x 1} @misc{b, y 2}\n@misc{A, note = {@misc{c 1}}, z 3}\n@misc{d, z = {";
        let mut items = Items::new(bytes);
        let mut item = |place| items.up_to(place).map(|item| (item.start, item.end));
        assert_eq!([item(11), item(25), item(35)], [Some((0, 11)), Some((14, 25)), Some((28, 35))]);
        assert_eq!([item(53), item(bytes.len()), item(bytes.len())], [Some((45, 53)), Some((63, bytes.len())), None]);
        let repeated = Items::new(b"@misc{a, x 1}").up_to(7).unwrap();
        assert_eq!((repeated.end, repeated.fault), (7, None));
    }

    #[test]
    fn keys_have_no_case() {
        let set: HashSet<_> =
            [Folded(b"Knuth"), Folded(b"KNUTH"), Folded(b"knuth"), Folded(b"\xc9"), Folded(b"\xe9")].into();
        assert_eq!(set.len(), 3);
    }
}
