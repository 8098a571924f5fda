//! Where an entry may be that a run didn't find: it stands there and wasn't read, it stands above its child, its database is missing, or its key
//! is spelled another way. And which fields, types and strings may be meant by names that a style or a database doesn't know.

use crate::advice::Seen;
use crate::alike::alike;
use crate::aux_text::unread_database;
use crate::beside::what_is_odd;
use crate::composed::composed;
use crate::database::{Inside, name_at};
use crate::document::Document;
use crate::entries::{Entries, Skipped, Stored};
use crate::explain::{begins_item, shown_path};
use crate::job::{File, Files};
use crate::mistakes::line_of;
use crate::nearest::nearest;
use crate::style_read::StyleNames;
use crate::terminal::plain;
use crate::unsaid::place_in;

/// What is said of something that is missing: where it may be, and what to do. What isn't known is None.
#[derive(Debug, Clone, Default, PartialEq, Eq)]
pub struct Clue {
    pub place: Option<String>,
    pub advice: Option<String>,
}

/// What is said of an entry that wasn't found.
pub fn clue(entries: &Entries<'_>, files: &Files, document: Option<&Document>, key: &[u8]) -> Clue {
    if key.is_empty() {
        let advice = "write a key in the empty `\\cite{}`, or take it out".into();
        return Clue { place: None, advice: Some(advice) };
    }
    if let Some(stored) = entries.entry(key) {
        return clue_of_known(entries, key, stored);
    }
    if let Some(skipped) = entries.skipped(key) {
        return clue_of_skipped(key, skipped);
    }
    if let Some((database, start)) = entries.unread(key) {
        let at = line_of(database.file, &database.text, start);
        let place = format!("`{}` stands at {at}, in text that isn't read", plain(key));
        return Clue { place: Some(place), advice: Some(Seen::NoAtSign.with(&[])) };
    }
    let of_text = in_record(entries, key).or_else(|| without_comma(entries, key));
    of_text.or_else(|| clue_of_unreached(entries, key)).or_else(|| lost(entries, files).cloned()).unwrap_or_else(|| {
        let unbraced = clue_of_unbraced(entries, document, key);
        let alike = unbraced.or_else(|| clue_of_form(entries, key)).or_else(|| clue_of_alike(entries, key));
        let older = || clue_of_older(entries, files, document, key);
        alike.or_else(older).unwrap_or_else(|| clue_of_nearest(entries, key))
    })
}

/// What is said of a character that LaTeX takes for a key, since a `\cite` in the document has no braces.
fn clue_of_unbraced(entries: &Entries<'_>, document: Option<&Document>, key: &[u8]) -> Option<Clue> {
    let document = document?;
    let unbraced = document.unbraced(key)?;
    let at = format!("{}:{}", plain(shown_path(&document.file)), unbraced.number);
    let meant = entries.entry(&unbraced.word).map_or("KEY".into(), |_| plain(&unbraced.word));
    let advice = Seen::NoBraceAfterCite.with(&[&plain(&unbraced.command), &meant, &at, &plain(key)]);
    Some(Clue { place: None, advice: Some(advice) })
}

/// What is said of a key that stands in a record of RIS between the items of a database.
fn in_record(entries: &Entries<'_>, key: &[u8]) -> Option<Clue> {
    let (database, (record, place)) = entries.in_record(key)?;
    let (at, from) = (line_of(database.file, &database.text, place), database.text.line_of(record));
    let place = format!("`{}` stands at {at}, in a record of RIS (from line {from}), which isn't read", plain(key));
    Some(Clue { place: Some(place), advice: Some(Seen::RecordIsRis.with(&[])) })
}

/// What is said of keys between which no comma stands: of several that are parted by semicolons at least one is an entry's, and of two with another sign or nothing between them both are.
fn without_comma(entries: &Entries<'_>, key: &[u8]) -> Option<Clue> {
    let keys: Vec<&[u8]> =
        key.split(|byte| *byte == b';').map(<[u8]>::trim_ascii).filter(|key| !key.is_empty()).collect();
    let is_it = keys.len() > 1 && keys.iter().any(|key| entries.entry(key).is_some());
    let keys = if is_it { keys } else { two_keys(entries, key)?.to_vec() };
    let advice = Seen::SemicolonInCite.with(&[&plain(&keys.join(&b","[..]))]);
    Some(Clue { place: None, advice: Some(advice) })
}

/// How long a key is that may be two, and how long each of these is where nothing stands between them.
const LONGEST_OF_TWO: usize = 200;
const LEAST_OF_TWO: usize = 4;

/// The keys of two entries that stand here one after the other, with one sign or nothing between them.
fn two_keys<'k>(entries: &Entries<'_>, key: &'k [u8]) -> Option<[&'k [u8]; 2]> {
    let pairs = (1..key.len().min(LONGEST_OF_TWO)).flat_map(|at| {
        let (left, right) = key.split_at(at);
        let is_long = left.len().min(right.len()) >= LEAST_OF_TWO;
        let after_sign = right.split_first().filter(|(sign, _)| sign.is_ascii_punctuation()).map(|(_, rest)| rest);
        [Some(right).filter(|_| is_long), after_sign].into_iter().flatten().map(move |right| [left, right])
    });
    let is_entry = |key: &[u8]| entries.entry(key).is_some();
    pairs.filter(|[left, right]| left != right).find(|[left, right]| is_entry(left) && is_entry(right))
}

/// What is said of a key that stands in an entry whose beginning can't be read.
fn clue_of_unreached(entries: &Entries<'_>, key: &[u8]) -> Option<Clue> {
    let (database, start) = entries.unreached(key)?;
    let at = line_of(database.file, &database.text, start);
    let place = format!("`{}` stands at {at}, in an entry that can't be read", plain(key));
    Some(Clue { place: Some(place), advice: Some(format!("mend the error at {at}: the entry is skipped after it")) })
}

/// What is said of a key that looks like an entry's, but for characters that aren't those of the keyboard.
fn clue_of_alike(entries: &Entries<'_>, key: &[u8]) -> Option<Clue> {
    let (stored, alike, is_cited_so) = entries.alike(key)?;
    let name = plain(stored.item.key?.name);
    let sign = alike.meant.to_string();
    let (place, seen) = if is_cited_so {
        (format!("`{}` has {}: is it `{name}`, {}?", plain(key), alike.what, begins(stored)), Seen::AlikeKey)
    } else {
        (format!("`{name}`, {}, has {}: is it that one?", begins(stored), alike.what), Seen::AlikeName)
    };
    Some(Clue { place: Some(place), advice: Some(seen.with(&[&sign, &plain(&alike.name)])) })
}

/// What is said of a key that differs from an entry's only in how letters with marks are written.
fn clue_of_form(entries: &Entries<'_>, key: &[u8]) -> Option<Clue> {
    let stored = entries.in_other_form(key)?;
    let name = plain(stored.item.key?.name);
    let (here, there) = match composed(key) {
        Some(_) => ("a mark follows its letter", "both are one character"),
        None => ("a letter and its mark are one character", "the mark follows it"),
    };
    let place = format!("`{name}`, {}, is this key in another form: here {here}, there {there}", begins(stored));
    let is_parent = entries.parent(key).is_some();
    let seen = if is_parent { Seen::NearParent } else { Seen::OtherForm };
    Some(Clue { place: Some(place), advice: Some(seen.with(&[&name])) })
}

/// What is said of a key that the document doesn't have any more, and that no entry names as its parent. A key that a macro makes needn't stand in the document.
fn clue_of_older(entries: &Entries<'_>, files: &Files, document: Option<&Document>, key: &[u8]) -> Option<Clue> {
    let document = document.filter(|document| document.lacks(key) && entries.parent(key).is_none())?;
    let top = files.with_ending(".aux").next()?;
    if document.has_macro_of_keys() || !document.is_newer_than(&top.path) {
        return None;
    }
    let advice = Seen::KeyNotInDocument.with(&[&plain(key), &plain(shown_path(&document.file))]);
    Some(Clue { place: None, advice: Some(advice) })
}

/// What is said of the entry whose key differs least, or of one that has no key.
fn clue_of_nearest(entries: &Entries<'_>, key: &[u8]) -> Clue {
    if let Some((near, stored)) = entries.meant(key).and_then(|stored| Some((stored.item.key?, stored))) {
        let bytes = stored.database.text.bytes;
        let after = bytes[near.end..].trim_ascii_start();
        let word = name_at(bytes, bytes.len() - after.len());
        if stored.item.fault.is_some() && [near.name, word].concat().eq_ignore_ascii_case(key) {
            let at = line_of(stored.database.file, &stored.database.text, stored.item.start);
            let place = format!("the entry that begins at {at} is meant to have this key");
            return Clue { place: Some(place), advice: Some(Seen::KeyOfWords.with(&[&plain(key)])) };
        }
        let (near, written) = (plain(near.name), plain(key));
        let is_parent = entries.parent(key).is_some();
        let advice = if is_parent { Seen::NearParent.with(&[&near]) } else { Seen::NearKey.with(&[&written, &near]) };
        return Clue { place: Some(format!("is it `{near}`, {}?", begins(stored))), advice: Some(advice) };
    }
    clue_of_keyless(entries, key).unwrap_or_else(|| clue_of_all(entries, key))
}

/// What is said of a key that may stand for all entries.
fn clue_of_all(entries: &Entries<'_>, key: &[u8]) -> Clue {
    let is_meant = [&b"all"[..], b"everything"].contains(&key) && entries.parent(key).is_none();
    Clue { place: None, advice: is_meant.then(|| Seen::AllEntries.with(&[])) }
}

/// What is said of an entry that has no key, which may be the one that is looked for.
fn clue_of_keyless(entries: &Entries<'_>, key: &[u8]) -> Option<Clue> {
    let stored = entries.keyless()?;
    let (kind, at) = (plain(stored.item.kind), line_of(stored.database.file, &stored.database.text, stored.item.start));
    Some(Clue {
        place: Some(format!("the @{kind} that begins at {at} has no key: is it that one?")),
        advice: Some(Seen::EntryOfNoKey.with(&[&kind, &plain(key)])),
    })
}

/// What is said of every entry that no database has, where a database isn't there or none has an entry.
pub fn lost<'b>(entries: &'b Entries<'_>, files: &Files) -> Option<&'b Clue> {
    entries.lost(|| lost_in(entries, files))
}

/// The same, looked for in the files.
fn lost_in(entries: &Entries<'_>, files: &Files) -> Option<Clue> {
    if let Some(advice) = empty_name(files) {
        return Some(Clue { place: Some("a name of a database is empty".into()), advice: Some(advice) });
    }
    if let Some(lost) = lost_database(files) {
        let name = plain(&lost.name);
        let place = format!("it may stand in {name}, which wasn't found");
        return Some(Clue { place: Some(place), advice: Some(format!("look for {name} first")) });
    }
    if let Some((name, named)) = unread_database(files) {
        let at = format!("{}:{}", plain(shown_path(named.file)), named.number);
        let place = format!("it may stand in {}, which wasn't read ({at})", plain(&name));
        return Some(Clue { place: Some(place), advice: Some(Seen::MendFirst.with(&[&at])) });
    }
    if !entries.is_empty() {
        return None;
    }
    let mut databases = files.with_ending(".bib");
    let Some(first) = databases.next() else {
        let advice = "name a database by `\\bibliography`, and run LaTeX".into();
        return Some(Clue { place: Some("no database is named".into()), advice: Some(advice) });
    };
    let place = format!("no entry stands in {}", plain(shown_path(first)));
    let place = databases.next().map_or(place, |_| "no entry stands in any of the databases".into());
    Some(Clue { place: Some(place), advice: what_is_odd(first) })
}

/// Whether nothing more can be said of an entry that wasn't found than what [`lost`] says.
pub fn is_lost(entries: &Entries<'_>, files: &Files, key: &[u8]) -> bool {
    let is_nowhere = || {
        entries.entry(key).is_none()
            && entries.skipped(key).is_none()
            && entries.unread(key).is_none()
            && entries.unreached(key).is_none()
            && entries.in_record(key).is_none()
            && without_comma(entries, key).is_none()
    };
    !key.is_empty() && is_nowhere() && lost(entries, files).is_some()
}

/// What to do about an empty name of a database.
pub fn empty_name(files: &Files) -> Option<String> {
    files.all.iter().find(|file| file.name == b".bib" && file.bytes.is_none())?;
    let stem = |file: &File| file.name.strip_suffix(b".bib").filter(|stem| !stem.is_empty()).map(<[u8]>::to_vec);
    let others: Vec<Vec<u8>> = files.with_ending(".bib").filter_map(stem).collect();
    Some(match others.is_empty() {
        true => Seen::EmptyBibliography.with(&[]),
        false => Seen::EmptyNameOfDatabase.with(&[&plain(&others.join(&b","[..]))]),
    })
}

/// A database that wasn't found, if there is one.
pub fn lost_database(files: &Files) -> Option<&File> {
    files.all.iter().find(|file| file.name.ends_with(b".bib") && file.bytes.is_none())
}

/// Where an entry begins.
fn begins(stored: Stored<'_, '_>) -> String {
    let (file, text) = (stored.database.file, &stored.database.text);
    format!("which begins at {}:{}", plain(shown_path(file)), text.line_of(stored.item.start))
}

/// What is said of an entry that is there: an entry that comes after it names it as its parent.
fn clue_of_known(entries: &Entries<'_>, key: &[u8], stored: Stored<'_, '_>) -> Clue {
    let (key, at) = (plain(key), line_of(stored.database.file, &stored.database.text, stored.item.start));
    let Some((below, end)) = entries.parent(key.as_bytes()) else {
        return Clue { place: Some(format!("`{key}` stands at {at}")), advice: None };
    };
    let child = line_of(below.file, &below.text, end.saturating_sub(1));
    Clue {
        place: Some(format!("`{key}` stands at {at}, above an entry that names it as its parent ({child})")),
        advice: Some(format!("move `{key}` below all entries that name it, or cite it")),
    }
}

/// What is said of an entry that stands in the text of another item.
fn clue_of_skipped(key: &[u8], skipped: Skipped<'_, '_>) -> Clue {
    let Stored { database, item } = skipped.around;
    let (key, at) = (plain(key), line_of(database.file, &database.text, skipped.start));
    let around = begins_item(database.file, &database.text, item);
    if item.fault.is_some() {
        return Clue {
            place: Some(format!("`{key}` stands at {at}; it was skipped with {around}")),
            advice: Some(format!("mend that item: a `}}` or a quote is missing above `{key}`")),
        };
    }
    Clue {
        place: Some(format!("`{key}` stands at {at}, in a value of {around}")),
        advice: Some("close that value above it: count its braces".into()),
    }
}

/// Names that `biblatex` has for fields, and those that styles read.
const OF_BIBLATEX: [(&str, &str); 5] = [
    ("journaltitle", "journal"),
    ("date", "year"),
    ("location", "address"),
    ("maintitle", "booktitle"),
    ("issue", "number"),
];

/// Fields that entries of one type have in the place of others.
const OF_OTHER_TYPES: [(&str, &str); 7] = [
    ("editor", "author"),
    ("journal", "booktitle"),
    ("booktitle", "journal"),
    ("institution", "school"),
    ("school", "institution"),
    ("organization", "publisher"),
    ("institution", "publisher"),
];

/// A field of an entry, and the value's text where the value is whole.
type Field<'a> = (&'a [u8], &'a [u8]);

/// The field that is meant to be another by one of these tables.
fn by_table<'a>(word: &[u8], table: &[(&str, &str)], fields: &[Field<'a>]) -> Option<Field<'a>> {
    let is_its = |(field, _): &&Field<'a>| {
        table
            .iter()
            .any(|(its, ours)| field.eq_ignore_ascii_case(its.as_bytes()) && word.eq_ignore_ascii_case(ours.as_bytes()))
    };
    fields.iter().find(is_its).copied()
}

/// A field of an entry that may be meant by one that a style's warning names: the entry doesn't have that one, and the style doesn't know this one, or takes it in entries of other types.
pub fn meant_field(style: &StyleNames<'_>, stored: Stored<'_, '_>, warning: &[u8]) -> Option<Clue> {
    let text = stored.database.text.bytes;
    let inside = Inside::of(text, stored.item);
    let value = |at: usize| inside.values.get(at).map_or(&b""[..], |value| &text[value.clone()]);
    let fields: Vec<Field<'_>> = inside.fields.iter().enumerate().map(|(at, field)| (*field, value(at))).collect();
    let words = warning
        .split(|byte| !byte.is_ascii_alphanumeric() && !b"-_.".contains(byte))
        .filter(|word| style.has_field(word));
    let mut missing = words.filter(|word| !fields.iter().any(|(field, _)| field.eq_ignore_ascii_case(word)));
    let unread: Vec<Field<'_>> = fields.iter().copied().filter(|(field, _)| !style.has_field(field)).collect();
    missing.find_map(|word| meant_by(word, stored, &fields, &unread))
}

/// Whether an entry looks like a paper in a journal, where its type wants the title of a book.
fn is_article(missed: &[u8], has: &[u8], fields: &[Field<'_>]) -> bool {
    let is_of_journal =
        |(field, _): &Field<'_>| [&b"volume"[..], b"number"].iter().any(|name| field.eq_ignore_ascii_case(name));
    missed.eq_ignore_ascii_case(b"booktitle")
        && has.eq_ignore_ascii_case(b"journal")
        && fields.iter().any(is_of_journal)
}

/// What is said of a field that a style misses, where one of these may be meant by it; the style doesn't know the last ones.
fn meant_by(word: &[u8], stored: Stored<'_, '_>, fields: &[Field<'_>], unread: &[Field<'_>]) -> Option<Clue> {
    let (file, text) = (stored.database.file, &stored.database.text);
    let at = |field: &[u8]| line_of(file, text, place_in(text.bytes, field));
    let missed = plain(word);
    let looks_so = |(field, _): &Field<'_>| {
        let alike = alike(field).filter(|alike| alike.name.eq_ignore_ascii_case(word))?;
        Some(Clue {
            place: Some(format!("the name of its field `{}` has {} ({})", plain(field), alike.what, at(field))),
            advice: Some(match alike.meant {
                ' ' => Seen::SpaceInName.with(&[&missed]),
                meant => Seen::AlikeName.with(&[&meant.to_string(), &missed]),
            }),
        })
    };
    if let Some(clue) = unread.iter().find_map(looks_so) {
        return Some(clue);
    }
    let of_biblatex = by_table(word, &OF_BIBLATEX, unread);
    let near = nearest(word, unread.iter().map(|(field, _)| *field)).map(|field| (field, &b""[..]));
    let (field, value) = near.or(of_biblatex).or_else(|| by_table(word, &OF_OTHER_TYPES, fields))?;
    let year = value.windows(4).find(|digits| digits.iter().all(u8::is_ascii_digit)).map(plain);
    let advice = match year.filter(|_| field.eq_ignore_ascii_case(b"date")) {
        Some(year) => Seen::OfBiblatexDate.with(&[&year]),
        None if near.is_none() && of_biblatex.is_some() => Seen::OfBiblatexField.with(&[&plain(field), &missed]),
        None if is_article(word, field, fields) => Seen::IsArticle.with(&[]),
        None => Seen::OtherField.with(&[&plain(field), &missed]),
    };
    let place = format!("it has `{}`: is it `{missed}`? ({})", plain(field), at(field));
    Some(Clue { place: Some(place), advice: Some(advice) })
}

/// Text after an entry's end that looks like a field of it.
pub fn lost_fields(stored: Stored<'_, '_>) -> Option<String> {
    let lost = LostField::after(stored)?;
    let at = line_of(stored.database.file, &stored.database.text, stored.item.end.saturating_sub(1));
    Some(format!("the entry ends at {at}; `{}` stands after its end", plain(lost.name)))
}

/// What looks like a field, and stands after the end of its entry.
#[derive(Debug, Clone, Copy, PartialEq, Eq)]
pub struct LostField<'a> {
    /// Its name.
    pub name: &'a [u8],
    /// Where that begins.
    pub start: usize,
}

impl<'a> LostField<'a> {
    /// The first one after an entry: between them are whitespace, commas and braces alone, and at least one of these two or the end of a line.
    pub fn after(stored: Stored<'_, 'a>) -> Option<LostField<'a>> {
        let (bytes, end) = (stored.database.text.bytes, stored.item.end);
        let between =
            bytes.get(end..)?.iter().take_while(|byte| byte.is_ascii_whitespace() || b",}".contains(byte)).count();
        let (start, is_parted) = (end + between, bytes[end..end + between].iter().any(|byte| b",}\n".contains(byte)));
        let name = name_at(bytes, start);
        let value = bytes[start + name.len()..].trim_ascii_start().strip_prefix(b"=")?.trim_ascii_start();
        let is_field = stored.item.fault.is_none() && is_parted && name.first()?.is_ascii_alphabetic();
        (is_field && value.first().is_some_and(|byte| !b"=,}".contains(byte))).then_some(LostField { name, start })
    }
}

/// The months, of which styles define the first three letters as strings.
const MONTHS: [&str; 12] = [
    "january",
    "february",
    "march",
    "april",
    "may",
    "june",
    "july",
    "august",
    "september",
    "october",
    "november",
    "december",
];

/// Whether a string is the name of a month, as styles define them.
pub fn is_month(name: &[u8]) -> bool {
    MONTHS.iter().any(|month| name.eq_ignore_ascii_case(&month.as_bytes()[..3]))
}

/// Whether a name is a month's, or more than three letters of one.
pub fn begins_month(name: &[u8]) -> bool {
    let lowered = name.to_ascii_lowercase();
    lowered.len() > 3 && MONTHS.iter().any(|month| month.as_bytes().starts_with(&lowered))
}

/// The name among these that may be meant by this one of a string, also by more letters of a month.
pub fn meant_string<'a>(name: &[u8], known: &[&'a [u8]]) -> Option<&'a [u8]> {
    let lowered = name.to_ascii_lowercase();
    let month = MONTHS.iter().find(|month| lowered.len() > 3 && month.as_bytes().starts_with(&lowered));
    let is_it = |known: &&&[u8]| month.is_some_and(|month| known.eq_ignore_ascii_case(&month.as_bytes()[..3]));
    known.iter().find(is_it).copied().or_else(|| nearest(name, known.iter().copied()))
}

#[cfg(test)]
mod tests {
    use super::*;

    fn files(text: &str) -> Files {
        let file = File { name: b"d.bib".to_vec(), bytes: Some(text.into()), path: b"./d.bib".to_vec() };
        Files { top: b"job.aux".to_vec(), all: vec![file] }
    }

    fn clue_of(text: &str, key: &str) -> (String, String) {
        let files = files(text);
        let clue = clue(&Entries::new(&files), &files, None, key.as_bytes());
        (clue.place.unwrap_or_default(), clue.advice.unwrap_or_default())
    }

    #[test]
    fn an_entry_is_found_where_it_was_skipped() {
        let (place, advice) = clue_of("@misc{one, year = 2000,\n\n@misc{two, note = 1}\n", "two");
        assert_eq!(place, "`two` stands at d.bib:3; it was skipped with @misc{one}, which begins at d.bib:1");
        assert_eq!(advice, "mend that item: a `}` or a quote is missing above `two`");
        let (place, _) = clue_of("@misc{one, note = {x\n@misc{two, note = 1}}}\n", "two");
        assert_eq!(place, "`two` stands at d.bib:2, in a value of @misc{one}, which begins at d.bib:1");
    }

    #[test]
    fn a_key_in_another_form_is_found() {
        let text = "@misc{mu\u{308}ller} @misc{\u{e9}lie, crossref = {ce\u{301}zanne}} @misc{c\u{e9}zanne}";
        let (place, advice) = clue_of(text, "m\u{fc}ller");
        let there =
            "is this key in another form: here a letter and its mark are one character, there the mark follows it";
        assert_eq!(place, format!("`mu\u{308}ller`, which begins at d.bib:1, {there}"));
        assert_eq!(advice, Seen::OtherForm.with(&["mu\u{308}ller"]));
        let (place, advice) = clue_of(text, "ce\u{301}zanne");
        assert!(place.ends_with("here a mark follows its letter, there both are one character"), "{place}");
        assert_eq!(advice, "write `crossref = {c\u{e9}zanne}`");
        assert_eq!(clue_of(text, "m\u{fa}ller").1, "");
        assert_eq!(clue_of(text, "E\u{301}lie").1, "");
    }

    #[test]
    fn two_keys_want_a_comma() {
        let keys = [
            ("lee1.ray2", "lee1,ray2"),
            ("lee1ray2", "lee1,ray2"),
            ("lee1;zz", "lee1,zz"),
            ("lee1.lee1", ""),
            ("kl", ""),
            ("ray2.3", ""),
        ];
        for (keys, meant) in keys {
            let (_, advice) = clue_of("@misc{lee1} @misc{ray2} @misc{k} @misc{l}", keys);
            let is_it = advice == Seen::SemicolonInCite.with(&[meant]);
            assert_eq!(is_it, !meant.is_empty(), "{keys}: {advice}");
        }
    }

    #[test]
    fn a_key_with_a_space_in_it_is_found() {
        let (place, advice) = clue_of("@misc{hoare 69, year = 2000}\n", "hoare69");
        assert_eq!(place, "the entry that begins at d.bib:1 is meant to have this key");
        assert_eq!(advice, Seen::KeyOfWords.with(&["hoare69"]));
    }

    #[test]
    fn an_entry_is_found_where_it_cannot_be_read() {
        for text in ["@article smith,\n x = 1}", "@{smith, x = 1}", "@article[smith, x = 1]", "@misc{smith; x = 1}"] {
            let (place, advice) = clue_of(text, "Smith");
            assert_eq!(place, "`Smith` stands at d.bib:1, in an entry that can't be read", "{text}");
            assert_eq!(advice, "mend the error at d.bib:1: the entry is skipped after it");
            let files = files(text);
            assert!(!is_lost(&Entries::new(&files), &files, b"smith"));
        }
    }

    #[test]
    fn a_parent_stands_above_its_child() {
        let (place, advice) = clue_of("@misc{p}\n@misc{a,\n crossref = {p}}\n", "p");
        assert_eq!(place, "`p` stands at d.bib:1, above an entry that names it as its parent (d.bib:3)");
        assert_eq!(advice, "move `p` below all entries that name it, or cite it");
    }

    #[test]
    fn a_key_is_spelled_another_way() {
        let (place, advice) = clue_of("\n@misc{smith2010}", "smith210");
        assert_eq!(place, "is it `smith2010`, which begins at d.bib:2?");
        assert_eq!(advice, "write `smith2010` in the place of `smith210` in the `\\cite`, and run LaTeX");
        let (place, advice) = clue_of("@misc{smith-2010}", "smith\u{2013}2010");
        assert_eq!(place, "`smith\u{2013}2010` has an en dash (U+2013): is it `smith-2010`, which begins at d.bib:1?");
        assert_eq!(advice, "write `smith-2010` in the `\\cite`, with the `-` of the keyboard, and run LaTeX");
        let (place, _) = clue_of("@misc{smith\u{2013}2010}", "smith-2010");
        assert_eq!(place, "`smith\u{2013}2010`, which begins at d.bib:1, has an en dash (U+2013): is it that one?");
        assert_eq!(clue_of("@misc{a, crossref = {pra08}} @misc{pra2008}", "pra08").1, "write `crossref = {pra2008}`");
        assert_eq!(clue_of("@misc{k}", "nothing"), (String::new(), String::new()));
        assert_eq!(clue_of("@misc{k}", "all"), (String::new(), Seen::AllEntries.with(&[])));
        assert_eq!(clue_of("@misc{k, crossref = {all}}", "all"), (String::new(), String::new()));
        assert_eq!(clue_of("@misc{k}", "").1, "write a key in the empty `\\cite{}`, or take it out");
    }

    #[test]
    fn a_database_that_is_not_there_is_named() {
        let mut files = files("@misc{k}");
        files.all.push(File { name: b"gone.bib".to_vec(), bytes: None, path: Vec::new() });
        let clue = clue(&Entries::new(&files), &files, None, b"kk");
        assert_eq!(clue.place.as_deref(), Some("it may stand in gone.bib, which wasn't found"));
    }

    #[test]
    fn an_entry_is_found_where_it_is_not_read() {
        let (place, advice) = clue_of("@misc{k}\narticle{a, x = 1}\n", "a");
        assert_eq!(
            (place, advice),
            ("`a` stands at d.bib:2, in text that isn't read".into(), Seen::NoAtSign.with(&[]))
        );
        let (place, advice) = clue_of("@misc{k}\n@misc{, x = 1}\n", "other");
        assert_eq!(place, "the @misc that begins at d.bib:2 has no key: is it that one?");
        assert_eq!(advice, "write the key into it: `@misc{other,`");
        for field in ["author={Smith}", "author = {Smith}"] {
            let (place, advice) = clue_of(&format!("@misc{{k}}\n@misc{{\n {field},\n x = 1}}\n"), "smith");
            assert_eq!(place, "the @misc that begins at d.bib:2 has no key: is it that one?");
            assert_eq!(advice, "write the key into it: `@misc{smith,`");
        }
    }

    #[test]
    fn an_entry_is_found_in_a_record_of_ris() {
        let text = "@misc{k}\n\nTY  - JOUR\nID  - weir2014\nER  - \nID  - other\n";
        let (place, advice) = clue_of(text, "Weir2014");
        assert_eq!(place, "`Weir2014` stands at d.bib:4, in a record of RIS (from line 3), which isn't read");
        assert_eq!(advice, Seen::RecordIsRis.with(&[]));
        assert_eq!(clue_of(text, "other"), (String::new(), String::new()));
        assert_eq!(clue_of("ID  - weir2014\n@misc{k}\n", "weir2014"), (String::new(), String::new()));
    }

    #[test]
    fn keys_are_parted_by_commas() {
        let advice = |key: &str| clue_of("@misc{a1} @misc{b}", key).1;
        assert_eq!(advice("a1;b"), "write `a1,b` in the `\\cite`, with a comma between two keys, and run LaTeX");
        assert_eq!([advice("no;no"), advice("a1;")].map(|advice| advice.contains("comma")), [false; 2]);
    }

    #[test]
    fn nothing_is_found_where_no_entry_is() {
        assert_eq!(clue_of("", "a"), ("no entry stands in d.bib".into(), String::new()));
        assert_eq!(clue_of("TY  - JOUR\n", "a").1, Seen::FileIsRis.with(&["d.bib"]));
        let none = Files { top: b"job.aux".to_vec(), all: Vec::new() };
        assert_eq!(clue(&Entries::new(&none), &none, None, b"a").place.as_deref(), Some("no database is named"));
        assert!(is_lost(&Entries::new(&none), &none, b"a") && !is_lost(&Entries::new(&none), &none, b""));
    }

    #[test]
    fn fields_are_meant_by_others() {
        let whole = files("@misc{white, jounral = {J}, title = {T}}, year = 2000}");
        let entries = Entries::new(&whole);
        let stored = entries.entry(b"white").unwrap();
        let meant = meant_field(&StyleNames::new(b"ENTRY {journal title year}{}{}"), stored, b"empty journal in white");
        assert_eq!(place_of(meant), Some("it has `jounral`: is it `journal`? (d.bib:1)".into()));
        assert_eq!(meant_field(&StyleNames::new(b"ENTRY {journal title}{}{}"), stored, b"empty title in white"), None);
        let of_article = files("@inproceedings{k, journal = {J}, volume = 1}");
        let of_article = Entries::new(&of_article);
        let style = StyleNames::new(b"ENTRY {booktitle journal volume}{}{}");
        let meant = meant_field(&style, of_article.entry(b"k").unwrap(), b"empty booktitle in k").unwrap();
        assert_eq!(meant.advice, Some(Seen::IsArticle.with(&[])));
        let of_biblatex = files("@misc{k, journaltitle = {J}}");
        let of_biblatex = Entries::new(&of_biblatex);
        let meant = meant_field(
            &StyleNames::new(b"ENTRY {journal}{}{}"),
            of_biblatex.entry(b"k").unwrap(),
            b"empty journal in k",
        );
        assert_eq!(place_of(meant), Some("it has `journaltitle`: is it `journal`? (d.bib:1)".into()));
        assert_eq!(lost_fields(stored).as_deref(), Some("the entry ends at d.bib:1; `year` stands after its end"));
        for text in ["@misc{k}},\n year = 2000}", "@misc{k}\n year = {2000}\n}", "@misc{k}\n,\nyear=y}"] {
            let files = files(text);
            let entries = Entries::new(&files);
            let lost = LostField::after(entries.entry(b"k").unwrap()).map(|lost| lost.name.to_vec());
            assert_eq!(lost.as_deref(), Some(&b"year"[..]), "{text}");
        }
        for text in ["@misc{k}\n% year = 2000", "@misc{k} year = 2000", "@misc{k}\nyear == x", "@misc{k} @misc{year}"] {
            let files = files(text);
            assert_eq!(LostField::after(Entries::new(&files).entry(b"k").unwrap()), None, "{text}");
        }
    }

    fn place_of(clue: Option<Clue>) -> Option<String> {
        clue.and_then(|clue| clue.place)
    }

    #[test]
    fn fields_are_meant_in_other_ways() {
        let meant = |database: &str, style: &str, warning: &str| {
            let files = files(database);
            let entries = Entries::new(&files);
            meant_field(&StyleNames::new(style.as_bytes()), entries.entry(b"k").unwrap(), warning.as_bytes()).unwrap()
        };
        let style = "ENTRY {journal booktitle year}{}{}";
        let clue = meant("@misc{k,\n journal\u{A0} = {J}}", style, "empty journal in k");
        assert_eq!(
            clue.place.as_deref(),
            Some("the name of its field `journal\u{A0}` has a no-break space (U+00A0) (d.bib:2)")
        );
        let clue = meant("@misc{k, date = {2016-01-28}}", style, "empty year in k");
        assert_eq!(clue.advice, Some(Seen::OfBiblatexDate.with(&["2016"])));
        let clue = meant("@misc{k,\n journal = {J}}", style, "empty booktitle in k");
        assert_eq!(clue.place.as_deref(), Some("it has `journal`: is it `booktitle`? (d.bib:2)"));
    }

    #[test]
    fn strings_are_meant_by_others() {
        let known: [&[u8]; 3] = [b"jan", b"sep", b"springer"];
        let meant = |name: &str| meant_string(name.as_bytes(), &known);
        assert_eq!(
            [meant("January"), meant("sept"), meant("sprnger")],
            [Some(known[0]), Some(known[1]), Some(known[2])]
        );
        assert_eq!([meant("june"), meant("xyz")], [None, None]);
    }
}
