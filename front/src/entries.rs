//! The items of a job's databases: by their lines, and the entries by their keys.

use crate::alike::{Alike, alike};
use crate::composed::composed;
use crate::database::{Folded, Item, Items, key_at};
use crate::job::{File, Files};
use crate::missing_entry::Clue;
use crate::mistakes::field_for_key;
use crate::nearest::nearest;
use crate::text::{Text, find, split_first};
use std::cell::{Cell, OnceCell};
use std::collections::HashMap;

/// How many items of one line are looked at.
const MOST_IN_A_LINE: usize = 100;

/// How many bytes of a line are searched for a name.
const LONGEST_SEARCHED: usize = 100_000;

/// A database, with its items.
#[derive(Debug, Clone)]
pub struct Database<'a> {
    /// The file.
    pub file: &'a File,
    /// Its text.
    pub text: Text<'a>,
    items: Vec<Item<'a>>,
}

/// An item, and the database in which it stands.
#[derive(Debug, Clone, Copy)]
pub struct Stored<'b, 'a> {
    /// The database.
    pub database: &'b Database<'a>,
    /// The item.
    pub item: &'b Item<'a>,
}

impl<'a> Database<'a> {
    fn new(file: &'a File) -> Database<'a> {
        let bytes = file.bytes.as_deref().unwrap_or(b"");
        Database { file, text: Text::new(bytes), items: Items::new(bytes).collect() }
    }

    /// Whether an item is an entry that has no key: none stands there, or its first field was taken for one.
    fn is_keyless(&self, item: &Item<'a>) -> bool {
        let Some(key) = item.entry_key() else { return false };
        let bytes = self.text.bytes;
        let is_before_sign = item.fault.is_some() && bytes.get(item.end) == Some(&b'=');
        let has_nothing_between = || bytes.get(key.end..item.end).is_some_and(|text| text.trim_ascii().is_empty());
        key.name.is_empty() || field_for_key(key.name).is_some() || is_before_sign && has_nothing_between()
    }

    /// The keys of entries that stand in the text of other items, and where each begins.
    fn skipped(&self) -> impl Iterator<Item = (Folded<'a>, usize)> {
        let bytes = self.text.bytes;
        let mut items = self.items.iter().map(|item| item.start).peekable();
        let places = bytes.iter().enumerate().filter(|(_, byte)| **byte == b'@').map(|(place, _)| place);
        let inside = places.filter(move |place| {
            while items.next_if(|start| start < place).is_some() {}
            items.peek() != Some(place)
        });
        inside.filter_map(|place| Some((Folded(key_at(bytes, place)?.name), place)))
    }

    /// Where the text between items begins and ends.
    fn gaps(&self) -> impl Iterator<Item = (usize, usize)> {
        let ends = std::iter::once(0).chain(self.items.iter().map(|item| item.end));
        let begins = self.items.iter().map(|item| item.start).chain([self.text.bytes.len()]);
        ends.zip(begins).filter(|(end, begin)| end < begin)
    }

    /// The values of records of RIS in the text between items: where the record of each begins, and where the value does.
    fn in_records(&self) -> impl Iterator<Item = (Folded<'a>, (usize, usize))> {
        let bytes = self.text.bytes;
        let with_record = self.gaps().filter(|(end, begin)| find(&bytes[*end..*begin], BEGINS_RECORD).is_some());
        with_record.flat_map(move |(end, begin)| values_of_records(&bytes[end..begin], end))
    }

    /// The keys of what looks like entries in the text between items, and where each begins.
    fn unread(&self) -> impl Iterator<Item = (Folded<'a>, usize)> {
        let bytes = self.text.bytes;
        let braces =
            self.gaps().flat_map(move |(end, begin)| (end..begin).filter(move |at| matches!(bytes[*at], b'{' | b'(')));
        braces.filter_map(move |brace| Some((Folded(key_at_brace(bytes, brace)?), brace)))
    }

    /// The words before the first comma of each entry that has an error: an author may mean one of them as the key. And where each begins.
    fn unreached(&self) -> impl Iterator<Item = (Folded<'a>, usize)> {
        let bytes = self.text.bytes;
        let faulty = self.items.iter().filter(|item| item.fault.is_some() && item.is_entry());
        faulty.flat_map(move |item| {
            let (_, line_end) = self.text.span(self.text.line_of(item.start));
            let (start, end) = (item.start + 1, item.key.map_or(line_end, |key| key.end));
            let beginning = &bytes[start..end.clamp(start, start + LONGEST_UNREAD).min(bytes.len())];
            let beginning = beginning.split(|byte| *byte == b',').next().unwrap_or(b"");
            words(beginning, start).filter(|(word, _)| word.0 != item.kind)
        })
    }

    /// The items that have something in this line; of very many the first ones.
    fn in_line(&self, number: usize) -> impl Iterator<Item = &Item<'a>> {
        let (start, end) = self.text.span(number);
        let first = self.items.partition_point(|item| item.start <= start).saturating_sub(1);
        self.items[first..].iter().take(MOST_IN_A_LINE).filter(move |item| item.start <= end && item.end >= start)
    }

    /// The item that a message on this line is about; and the part of the text that the message names, if that is known.
    pub fn about(&self, number: usize, text: &[u8]) -> Option<(&Item<'a>, Option<(usize, usize)>)> {
        let key = between(text, b"entry type for \"", b"\" isn't ")
            .or_else(|| between(text, b"I'm ignoring ", b"'s extra \""));
        let with_key =
            key.and_then(|key| self.in_line(number).find(|item| item.key.is_some_and(|its| its.name == key)));
        if let Some(item) = with_key {
            return Some((item, None));
        }
        let name = between(text, b"string name \"", b"\" is ");
        let with_name =
            name.and_then(|name| self.in_line(number).find_map(|item| Some((item, self.name_in(item, number, name)?))));
        if let Some((item, part)) = with_name {
            return Some((item, Some(part)));
        }
        self.in_line(number).next().map(|item| (item, None))
    }

    /// Where a name stands in this line of an item.
    fn name_in(&self, item: &Item<'a>, number: usize, name: &[u8]) -> Option<(usize, usize)> {
        let (start, end) = self.text.span(number);
        let from = start.max(item.start);
        let to = end.min(item.end).clamp(from, from + LONGEST_SEARCHED);
        let piece = &self.text.bytes[from..to];
        let is_whole = |at: usize| {
            let is_end = |byte: Option<&u8>| byte.is_none_or(|byte| !byte.is_ascii_alphanumeric());
            is_end(at.checked_sub(1).and_then(|before| piece.get(before))) && is_end(piece.get(at + name.len()))
        };
        let at = places(piece, name).find(|at| is_whole(*at))?;
        Some((from + at, from + at + name.len()))
    }
}

/// The places at which `what` stands in a text; not inside of another such place.
fn places(text: &[u8], what: &[u8]) -> impl Iterator<Item = usize> {
    let mut from = 0;
    std::iter::from_fn(move || {
        let at = from + find(text.get(from..)?, what)?;
        from = at + what.len().max(1);
        Some(at)
    })
}

/// What stands between these two in a text that begins with the first.
fn between<'a>(text: &'a [u8], before: &[u8], behind: &[u8]) -> Option<&'a [u8]> {
    split_first(text.strip_prefix(before)?, behind).map(|(name, _)| name)
}

/// How a record of RIS begins, and what stands after the two letters of each of its lines.
const BEGINS_RECORD: &[u8] = b"TY  - ";
const AFTER_TAG: &[u8] = b"  - ";

/// The values of records of RIS in a text that begins at `from`: where the record of each begins, and where the value does.
fn values_of_records(text: &[u8], from: usize) -> Vec<(Folded<'_>, (usize, usize))> {
    let (mut found, mut record, mut at) = (Vec::new(), None, from);
    for line in text.split(|byte| *byte == b'\n') {
        if line.starts_with(BEGINS_RECORD) {
            record = Some(at);
        } else if line.starts_with(b"ER  -") {
            record = None;
        }
        let value = line.get(2..).and_then(|rest| rest.strip_prefix(AFTER_TAG)).map(<[u8]>::trim_ascii);
        let whole = value.filter(|value| !value.is_empty()).zip(record);
        found.extend(whole.map(|(value, record)| (Folded(value), (record, at))));
        at += line.len() + 1;
    }
    found
}

/// How long a key may be that is looked for between items.
const LONGEST_UNREAD: usize = 200;

/// The words of a text that may be keys, each with its place; the text begins at `from`.
fn words(text: &[u8], from: usize) -> impl Iterator<Item = (Folded<'_>, usize)> {
    const BETWEEN: &[u8] = b";={}()[]\"";
    let is_between = |byte: &u8| *byte <= b' ' || BETWEEN.contains(byte);
    let mut at = from;
    let words = text.split(is_between).map(move |word| {
        let start = at;
        at += word.len() + 1;
        (Folded(word), start)
    });
    words.filter(|(word, _)| !word.0.is_empty())
}

/// What looks like an entry's beginning in a text at a brace, as `article{key,`: the key.
fn key_at_brace(text: &[u8], brace: usize) -> Option<&[u8]> {
    let rest = &text[brace + 1..text.len().min(brace + LONGEST_UNREAD)];
    let key = &rest[..rest.iter().position(|byte| *byte == b',' || *byte <= b' ' || *byte == b'}')?];
    let has_kind = brace.checked_sub(1).is_some_and(|before| text[before].is_ascii_alphabetic());
    (has_kind && !key.is_empty() && rest[key.len()] == b',').then_some(key)
}

/// An entry that a run didn't read: its text stands in another item.
#[derive(Debug, Clone, Copy)]
pub struct Skipped<'b, 'a> {
    /// The item in which it stands.
    pub around: Stored<'b, 'a>,
    /// Where its `@` stands.
    pub start: usize,
}

/// For how many keys a key that may be meant is looked for.
const MOST_MEANT: usize = 50;

/// The databases of a job.
#[derive(Debug)]
pub struct Entries<'a> {
    databases: Vec<Database<'a>>,
    by_key: OnceCell<HashMap<Folded<'a>, Found>>,
    by_parent: OnceCell<HashMap<Folded<'a>, Found>>,
    skipped: OnceCell<HashMap<Folded<'a>, Found>>,
    unread: OnceCell<HashMap<Folded<'a>, Found>>,
    unreached: OnceCell<HashMap<Folded<'a>, Found>>,
    in_records: OnceCell<HashMap<Folded<'a>, InRecord>>,
    keyless: OnceCell<Option<Found>>,
    lost: OnceCell<Option<Clue>>,
    /// For how many more keys one that may be meant is looked for.
    left: Cell<usize>,
}

/// Which database, counted from 0, and which of its items, or which place in it.
type Found = (usize, usize);

/// The line on which a record of RIS begins, and where the key stands in its text.
type InRecord = (usize, (usize, usize));

impl<'a> Entries<'a> {
    /// Reads all databases of a job.
    pub fn new(files: &'a Files) -> Entries<'a> {
        let databases = files.with_ending(".bib").map(Database::new).collect();
        Entries {
            databases,
            by_key: OnceCell::new(),
            by_parent: OnceCell::new(),
            skipped: OnceCell::new(),
            unread: OnceCell::new(),
            unreached: OnceCell::new(),
            in_records: OnceCell::new(),
            keyless: OnceCell::new(),
            lost: OnceCell::new(),
            left: Cell::new(MOST_MEANT),
        }
    }

    /// The entries of all databases: which one, its item's number there, and the item.
    fn all(&self) -> impl Iterator<Item = (Found, &Item<'a>)> {
        let numbered = self.databases.iter().enumerate();
        numbered.flat_map(|(index, database)| {
            database.items.iter().enumerate().map(move |(number, item)| ((index, number), item))
        })
    }

    /// The entries of all databases.
    pub fn each(&self) -> impl Iterator<Item = Stored<'_, 'a>> {
        let entries = self.all().filter(|(_, item)| item.is_entry());
        entries.map(|((index, _), item)| Stored { database: &self.databases[index], item })
    }

    /// The first entry of each key.
    fn by_key(&self) -> &HashMap<Folded<'a>, Found> {
        self.by_key.get_or_init(|| {
            let mut by_key = HashMap::with_capacity(self.databases.iter().map(|database| database.items.len()).sum());
            for (found, item) in self.all() {
                item.entry_key().map(|key| *by_key.entry(Folded(key.name)).or_insert(found));
            }
            by_key
        })
    }

    /// The first entry of this key, which is the one that is read.
    pub fn entry(&self, key: &[u8]) -> Option<Stored<'_, 'a>> {
        let (index, number) = self.by_key().get(&Folded(key))?;
        let database = &self.databases[*index];
        Some(Stored { database, item: &database.items[*number] })
    }

    /// The entry whose key may be meant by this one, which no entry has. It is looked for a few times alone.
    pub fn meant(&self, key: &[u8]) -> Option<Stored<'_, 'a>> {
        self.left.set(self.left.get().checked_sub(1)?);
        let known = nearest(key, self.by_key().keys().map(|known| known.0))?;
        self.entry(known)
    }

    /// The entry whose key looks like this one, which no entry has; and whether it is this one that has other characters than those of the keyboard.
    pub fn alike(&self, key: &[u8]) -> Option<(Stored<'_, 'a>, Alike, bool)> {
        if let Some(alike) = alike(key) {
            return self.entry(&alike.name).map(|stored| (stored, alike, true));
        }
        let known = self.by_key().keys().filter(|known| self.left.get() > 0 && !known.0.is_ascii());
        let mut found = known.filter_map(|known| Some((known.0, alike(known.0)?)));
        let (known, alike) = found.find(|(_, alike)| Folded(&alike.name) == Folded(key))?;
        self.entry(known).map(|stored| (stored, alike, false))
    }

    /// The entry whose key is this one, which no entry has, with its letters in another form.
    pub fn in_other_form(&self, key: &[u8]) -> Option<Stored<'_, 'a>> {
        let whole = composed(key);
        let found = whole.as_deref().and_then(|whole| self.entry(whole));
        if found.is_some() || key.is_ascii() {
            return found;
        }
        let whole = whole.unwrap_or_else(|| key.to_vec());
        let mut known = self.by_key().keys().filter(|known| self.left.get() > 0 && !known.0.is_ascii());
        let known = known.find(|known| composed(known.0).is_some_and(|it| Folded(&it) == Folded(&whole)))?;
        self.entry(known.0)
    }

    /// The first entry of this key that stands in the text of another item.
    pub fn skipped(&self, key: &[u8]) -> Option<Skipped<'_, 'a>> {
        let skipped = self.skipped.get_or_init(|| {
            let mut skipped = HashMap::new();
            for (index, database) in self.databases.iter().enumerate() {
                database.skipped().for_each(|(key, start)| {
                    skipped.entry(key).or_insert((index, start));
                });
            }
            skipped
        });
        let (index, start) = *skipped.get(&Folded(key))?;
        let database = &self.databases[index];
        let item = database.items[..database.items.partition_point(|item| item.start < start)].last()?;
        Some(Skipped { around: Stored { database, item }, start })
    }

    /// Where the text between items has what looks like the beginning of an entry of this key.
    pub fn unread(&self, key: &[u8]) -> Option<(&Database<'a>, usize)> {
        let unread = self.unread.get_or_init(|| {
            let mut unread = HashMap::new();
            for (index, database) in self.databases.iter().enumerate() {
                database.unread().for_each(|(key, start)| {
                    unread.entry(key).or_insert((index, start));
                });
            }
            unread
        });
        unread.get(&Folded(key)).map(|(index, start)| (&self.databases[*index], *start))
    }

    /// Where this key stands in a record of RIS between items: where the record begins, and where the line with the key does.
    pub fn in_record(&self, key: &[u8]) -> Option<(&Database<'a>, (usize, usize))> {
        let found = self.in_records.get_or_init(|| {
            let mut found = HashMap::new();
            for (index, database) in self.databases.iter().enumerate() {
                database.in_records().for_each(|(key, places)| {
                    found.entry(key).or_insert((index, places));
                });
            }
            found
        });
        found.get(&Folded(key)).map(|(index, places)| (&self.databases[*index], *places))
    }

    /// Where this key stands as a word in an entry that can't be read so far.
    pub fn unreached(&self, key: &[u8]) -> Option<(&Database<'a>, usize)> {
        let unreached = self.unreached.get_or_init(|| {
            let mut unreached = HashMap::new();
            for (index, database) in self.databases.iter().enumerate() {
                database.unreached().for_each(|(key, start)| {
                    unreached.entry(key).or_insert((index, start));
                });
            }
            unreached
        });
        unreached.get(&Folded(key)).map(|(index, start)| (&self.databases[*index], *start))
    }

    /// The first entry that has no key: none stands there, or its first field was taken for one.
    pub fn keyless(&self) -> Option<Stored<'_, 'a>> {
        let is_it = |((index, _), item): &(Found, &Item<'a>)| self.databases[*index].is_keyless(item);
        let first = || self.all().find(is_it).map(|(found, _)| found);
        let (index, number) = (*self.keyless.get_or_init(first))?;
        let database = &self.databases[index];
        Some(Stored { database, item: &database.items[number] })
    }

    /// What is said of every entry that no database has: it is looked for once.
    pub fn lost(&self, find: impl FnOnce() -> Option<Clue>) -> Option<&Clue> {
        self.lost.get_or_init(find).as_ref()
    }

    /// Whether no database has an entry.
    pub fn is_empty(&self) -> bool {
        self.by_key().is_empty()
    }

    /// The definition of the string of this name; the last one.
    pub fn string(&self, name: &[u8]) -> Option<Stored<'_, 'a>> {
        let is_it = |item: &&Item<'_>| item.is_string() && item.key.is_some_and(|key| Folded(key.name) == Folded(name));
        let found =
            self.databases.iter().rev().find_map(|database| Some((database, database.items.iter().rev().find(is_it)?)));
        found.map(|(database, item)| Stored { database, item })
    }

    /// The items that are no entries and have a text: strings and preambles.
    pub fn texts(&self) -> impl Iterator<Item = Stored<'_, 'a>> {
        let texts = self.all().filter(|(_, item)| !item.is_entry() && !item.kind.eq_ignore_ascii_case(b"comment"));
        texts.map(|((index, _), item)| Stored { database: &self.databases[index], item })
    }

    /// The names of all strings that the databases define.
    pub fn strings(&self) -> impl Iterator<Item = &'a [u8]> {
        let strings = self.all().filter(|(_, item)| item.kind.eq_ignore_ascii_case(b"string"));
        strings.filter_map(|(_, item)| item.key.map(|key| key.name))
    }

    /// Where a key is named first as a parent: the database, and the end of the value.
    pub fn parent(&self, key: &[u8]) -> Option<(&Database<'a>, usize)> {
        let by_parent = self.by_parent.get_or_init(|| {
            let parents =
                self.all().flat_map(|((index, _), item)| item.parents.iter().map(move |parent| (index, parent)));
            let mut by_parent = HashMap::new();
            parents.for_each(|(index, parent)| {
                by_parent.entry(Folded(parent.key)).or_insert((index, parent.end));
            });
            by_parent
        });
        let (index, end) = by_parent.get(&Folded(key))?;
        Some((&self.databases[*index], *end))
    }

    /// The database of this name.
    pub fn database(&self, name: &[u8]) -> Option<&Database<'a>> {
        self.databases.iter().find(|database| database.file.name == name)
    }
}

#[cfg(test)]
mod tests {
    use super::*;

    fn files(text: &[u8]) -> Files {
        let file = File { name: b"d.bib".to_vec(), bytes: Some(text.to_vec()), path: b"./d.bib".to_vec() };
        Files { top: b"job.aux".to_vec(), all: vec![file] }
    }

    #[test]
    fn entries_have_no_case() {
        let files = files(b"@misc{a}\n@misc{A, crossref = {P}} @string{b = 1}");
        let entries = Entries::new(&files);
        assert_eq!(entries.entry(b"A").map(|found| found.item.start), Some(0));
        assert!(entries.entry(b"b").is_none());
        assert_eq!(entries.parent(b"p").map(|(database, end)| database.text.line_of(end)), Some(2));
    }

    #[test]
    fn skipped_entries_are_found() {
        let files = files(b"@misc{a, note = 1,\n@misc{b, note = 2}\n@misc{c, note = {@book{d}}} @string{e = 1}");
        let entries = Entries::new(&files);
        let skipped = |key| entries.skipped(key).map(|found| (found.start, found.around.item.start));
        assert_eq!([skipped(b"B"), skipped(b"d")], [Some((19, 0)), Some((55, 38))]);
        assert_eq!([skipped(b"a"), skipped(b"c"), skipped(b"e")], [None; 3]);
        assert_eq!(entries.strings().collect::<Vec<_>>(), [b"e"]);
    }

    #[test]
    fn what_looks_like_an_entry_is_found_between_items() {
        let files = files(b"misc{a, x = 1}\n@misc{b}\n@comment{C, y}\n@string{s = 1} @string{S = 2}");
        let entries = Entries::new(&files);
        let line = |key| entries.unread(key).map(|(database, start)| database.text.line_of(start));
        assert_eq!([line(b"A"), line(b"b"), line(b"c"), line(b"s")], [Some(1), None, Some(3), None]);
        assert_eq!(entries.string(b"s").map(|stored| stored.item.start), Some(54));
        assert!(!entries.is_empty());
    }

    #[test]
    fn a_key_is_found_where_its_entry_cannot_be_read() {
        let files =
            files(b"@article one,\n x = 1}\n@{two, x = 1}\n@article[three, x = 1]\n@misc{four; x = 1}\n@misc{five}");
        let entries = Entries::new(&files);
        let line = |key: &[u8]| entries.unreached(key).map(|(database, start)| database.text.line_of(start));
        assert_eq!([line(b"one"), line(b"TWO"), line(b"three"), line(b"four")], [Some(1), Some(3), Some(4), Some(5)]);
        assert_eq!([line(b"five"), line(b"x"), line(b"misc")], [None; 3]);
    }

    #[test]
    fn an_entry_without_a_key_is_found() {
        let keyless = |text: &[u8]| {
            let files = files(text);
            let entries = Entries::new(&files);
            entries.keyless().map(|stored| stored.item.start)
        };
        assert_eq!(keyless(b"@misc{k} @misc{, x = 1}"), Some(9));
        assert_eq!(keyless(b"@string{a = 1}\n@misc{\n author={A},\n x = 1}"), Some(15));
        assert_eq!(keyless(b"@string{a = 1}\n@misc{\n author = {A},\n x = 1}"), Some(15));
        assert_eq!(keyless(b"@misc{k, author = {A}}"), None);
    }

    #[test]
    fn a_key_may_be_meant_by_another() {
        let files = files(b"@misc{smith2010}");
        let entries = Entries::new(&files);
        let start = |key| entries.meant(key).map(|found| found.item.start);
        assert_eq!([start(b"smith210"), start(b"jones")], [Some(0), None]);
        assert_eq!((2..MOST_MEANT + 9).filter_map(|_| start(b"smith210")).count(), MOST_MEANT - 2);
    }

    #[test]
    fn messages_are_about_an_item() {
        let files = files(b"@misc{a, note = {zz}} @odd{b, note = zz # zzz}");
        let entries = Entries::new(&files);
        let database = entries.database(b"d.bib").unwrap();
        let about = |text: &[u8]| database.about(1, text).map(|(item, part)| (item.start, part));
        assert_eq!(about(b"entry type for \"b\" isn't style-file defined"), Some((22, None)));
        assert_eq!(about(b"I'm ignoring b's extra \"note\" field"), Some((22, None)));
        assert_eq!(about(b"string name \"zzz\" is undefined"), Some((22, Some((42, 45)))));
        assert_eq!(about(b"something else"), Some((0, None)));
    }
}
