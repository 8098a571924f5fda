//! What no run logs although an author may have meant something else: the name of a string as a text, names that aren't parted by ` and `, an organization that is read as a person, a `$` without
//! another one, what [`crate::doubts`] sees in a text, and fields that the style doesn't read. It is said of the entries that a job cites, after its messages.

use crate::advice::Seen;
use crate::aux_text::cited_keys;
use crate::cased::Cased;
use crate::database::{Folded, Inside};
use crate::document::Document;
use crate::doubts::{doubt, has_label_of_year, lost_case};
use crate::entries::{Entries, Stored};
use crate::explain::{begins_item, shown_path};
use crate::job::{File, Files};
use crate::letter_values::parts;
use crate::missing_entry::LostField;
use crate::mistakes::is_hidden;
use crate::nearest::nearest;
use crate::persons::{self, Persons};
use crate::shown_line::ShownLine;
use crate::sign_doubts::{accent, dash};
use crate::style_read::StyleNames;
use crate::terminal::{Terminal, plain};
use crate::text::find;
use std::cell::LazyCell;
use std::collections::{HashMap, HashSet};
use std::ops::Range;

/// Of how many entries that is looked for, and how much of it is shown.
const MOST_ENTRIES: usize = 5_000;
const MOST_SHOWN: usize = 8;
const MOST_FIELDS: usize = 8;

/// Fields that an author looks for in the list.
const ADDRESSES: [&str; 2] = ["url", "doi"];

/// Fields in which the name of a string is meant to be one.
const OF_STRINGS: [&str; 4] = ["journal", "month", "publisher", "series"];

/// Fields that are lists of names.
const OF_NAMES: [&str; 2] = ["author", "editor"];

/// Words that no person's name has; `python/btx/doctor.py` has the same.
#[rustfmt::skip]
const ORGANIZATIONS: [&str; 43] = [
    "academy", "alliance", "association", "bureau", "center", "centers", "centre", "centres", "collaboration", "college", "commission", "committee", "consortium", "corporation", "council", "department", "federation", "foundation", "gesellschaft", "group",
    "institut", "institute", "institution", "laboratories", "laboratory", "ministerium", "ministry", "ministère", "organisation", "organization", "society", "union", "universidad", "universidade",
    "universiteit", "universitet", "university", "università", "universität", "université", "universitat", "verband", "verein",
];

/// Fields of addresses and of other programs, which no style sets as a text of TeX.
const NO_TEXTS: [&str; 10] =
    ["abstract", "annote", "bdsk-file-1", "bdsk-url-1", "biburl", "doi", "eprint", "file", "keywords", "url"];

/// Commands of TeX whose argument is an address, in which a `$` is a sign as others are.
const OF_ADDRESSES: [&[u8]; 4] = [b"href", b"nolinkurl", b"path", b"url"];

/// Fields that programs keep for themselves: no author looks for them in a list.
const KEPT: [&str; 16] = [
    "abstract",
    "annote",
    "bibsource",
    "biburl",
    "copyright",
    "crossref",
    "date-added",
    "date-modified",
    "file",
    "groups",
    "keywords",
    "key",
    "language",
    "owner",
    "priority",
    "timestamp",
];

/// A place in an entry, in the text of a field, and what is seen there.
#[derive(Debug, Clone)]
struct Found<'b, 'a> {
    stored: Stored<'b, 'a>,
    field: &'a [u8],
    text: Range<usize>,
    place: usize,
    seen: Seen,
    /// The names for what is said; none where they are the field and its text.
    names: Vec<String>,
}

impl<'b, 'a> Found<'b, 'a> {
    /// The field, where it is said of each that the style doesn't print it.
    fn field_of_address(&self) -> Option<Folded<'a>> {
        Some(Folded(self.field)).filter(|_| self.seen == Seen::UnprintedAddress)
    }

    fn shown(&self) -> Shown<'b, 'a> {
        let text = &self.stored.database.text.bytes[self.text.clone()];
        let advice = match &self.names[..] {
            [] => self.seen.with(&[&plain(self.field), &plain(text.trim_ascii())]),
            names => self.seen.with(&names.iter().map(String::as_str).collect::<Vec<_>>()),
        };
        Shown { stored: self.stored, place: self.place, advice }
    }
}

/// What is found in the entries of a job.
#[derive(Debug, Default)]
pub struct Unsaid<'b, 'a> {
    found: Vec<Found<'b, 'a>>,
    /// For each field that the style doesn't read how many entries have it, and one of a near name that it reads.
    unread: HashMap<Folded<'a>, Unread<'b, 'a>>,
    /// The databases in which a byte was found that isn't UTF-8.
    of_bytes: HashSet<*const u8>,
}

/// A field that the style doesn't read.
#[derive(Debug)]
struct Unread<'b, 'a> {
    /// How many entries have it.
    count: usize,
    /// One of a near name that the style reads.
    near: Option<String>,
    /// Where it stands first.
    stored: Stored<'b, 'a>,
    place: usize,
}

/// What is known of a style and of the document.
struct Known<'k> {
    /// The style, which declares the fields that it reads.
    style: &'k StyleNames<'k>,
    strings: HashSet<Folded<'k>>,
    /// Whether it takes a label from the end of the year.
    has_label: bool,
    /// Whether it looks for a hyphen, by which it knows that there are several pages.
    asks_for_hyphen: bool,
    /// Whether the document is likely to be in UTF-8.
    is_utf8: bool,
    /// Of which fields the style changes the case.
    cased: Cased<'k>,
    /// The names of all persons, where they are asked for.
    persons: LazyPersons<'k>,
}

/// The names of all persons, once they were asked for.
type LazyPersons<'k> = LazyCell<Persons, Box<dyn FnOnce() -> Persons + 'k>>;

/// A place that is shown, and what to do about it.
pub struct Shown<'b, 'a> {
    stored: Stored<'b, 'a>,
    place: usize,
    pub advice: String,
}

impl Shown<'_, '_> {
    /// Its line, with a mark.
    pub fn lines(&self, terminal: &Terminal) -> Vec<String> {
        let (file, text) = (self.stored.database.file, &self.stored.database.text);
        let (name, number) = (plain(shown_path(file)), text.line_of(self.place));
        let mark = Some(self.place - text.span(number).0);
        ShownLine { name: &name, number, line: text.line(number), mark }.lines(terminal)
    }
}

impl<'b, 'a> Unsaid<'b, 'a> {
    /// What is found in the entries that a job cites. `strings` are the names of strings that it knows.
    pub fn new(
        entries: &'b Entries<'a>,
        files: &'a Files,
        style: &StyleNames<'_>,
        strings: &[&[u8]],
        document: Option<&Document>,
    ) -> Unsaid<'b, 'a> {
        let mut unsaid = Unsaid::default();
        let known = Known {
            style,
            strings: strings.iter().map(|name| Folded(name)).collect(),
            has_label: has_label_of_year(style.bytes),
            asks_for_hyphen: find(style.bytes, b"\"-\"").is_some(),
            is_utf8: is_in_utf8(files, document),
            cased: Cased::new(style.bytes),
            persons: LazyCell::new(Box::new(|| Persons::of(entries))),
        };
        for stored in cited_entries(entries, files) {
            unsaid.look_at(stored, &known);
        }
        unsaid
    }

    fn look_at(&mut self, stored: Stored<'b, 'a>, known: &Known<'_>) {
        let bytes = stored.database.text.bytes;
        let inside = Inside::of(bytes, stored.item);
        let has = |name: &[u8]| inside.fields.iter().any(|field| field.eq_ignore_ascii_case(name));
        if is_hidden(&stored.database.text, stored.item) {
            let names = vec![begins_item(stored.database.file, &stored.database.text, stored.item)];
            let place = stored.item.start;
            self.found.push(Found { stored, field: b"", text: place..place, place, seen: Seen::NotHidden, names });
        }
        for (name, value) in inside.fields.iter().zip(&inside.values) {
            let is_read = known.style.has_field(name);
            let text = whole_text(bytes, value);
            if is_read && let Some(text) = text {
                self.look_at_text(stored, name, text, known);
            } else if !is_read && known.style.fields().next().is_some() && !is_one_of(name, &KEPT) {
                let lacked = known.style.fields().filter(|known| !has(known));
                let place = place_in(bytes, name);
                let new = || Unread { count: 0, near: nearest(name, lacked).map(plain), stored, place };
                let unread = self.unread.entry(Folded(name)).or_insert_with(new);
                unread.count += 1;
                if unread.count == 1 && is_one_of(name, &ADDRESSES) {
                    let text = value.clone();
                    let names = vec![plain(name)];
                    let seen = Seen::UnprintedAddress;
                    self.found.push(Found { stored, field: name, text, place, seen, names });
                }
            }
        }
    }

    /// Looks at the text of a field that the style reads.
    fn look_at_text(&mut self, stored: Stored<'b, 'a>, field: &'a [u8], text: Range<usize>, known: &Known<'_>) {
        let bytes = stored.database.text.bytes;
        let inside = &bytes[text.clone()];
        let start = text.start;
        let mut found =
            |place, seen, names| self.found.push(Found { stored, field, text: text.clone(), place, seen, names });
        if let Some((place, seen)) = seen_in(field, bytes, &text, &known.strings) {
            found(place, seen, Vec::new());
        }
        if let Some(doubt) = doubt(field, inside, known.has_label) {
            found(start + doubt.place, doubt.seen, doubt.names);
        }
        let dash = || Some(inside).filter(|_| known.asks_for_hyphen && is_one_of(field, &["pages"])).and_then(dash);
        if let Some(doubt) = accent(inside).filter(|_| !is_one_of(field, &NO_TEXTS)).or_else(dash) {
            found(start + doubt.place, doubt.seen, doubt.names);
        }
        if let Some(doubt) = Some(inside).filter(|_| is_list_of_names(field)).and_then(|names| {
            let key = stored.item.key.map_or(&b""[..], |key| key.name);
            let is_first = |word: &[u8]| known.persons.is_first(word);
            persons::doubt(names, is_first).or_else(|| known.persons.exchanged(names, key))
        }) {
            found(start + doubt.place, doubt.seen, doubt.names);
        }
        if let Some(doubt) =
            lost_case(inside).filter(|_| stored.item.fault.is_none() && known.cased.changes(stored.item.kind, field))
        {
            found(start + doubt.place, doubt.seen, doubt.names);
        }
        if known.is_utf8
            && let Err(fault) = std::str::from_utf8(inside)
            && self.of_bytes.insert(bytes.as_ptr())
        {
            let at = fault.valid_up_to();
            let names = vec![plain(shown_path(stored.database.file)), format!("{:02X}", inside[at])];
            let place = start + at;
            self.found.push(Found { stored, field, text, place, seen: Seen::NotUtf8, names });
        }
    }

    /// The first place of each kind and then others, with what to do about each.
    pub fn shown(&self) -> Vec<Shown<'b, 'a>> {
        let mut kinds = HashSet::new();
        let (first, more): (Vec<_>, Vec<_>) =
            self.found.iter().partition(|found| kinds.insert((found.seen, found.field_of_address())));
        let (last, first): (Vec<_>, Vec<_>) = first.into_iter().partition(|found| found.seen == Seen::UnprintedAddress);
        first.into_iter().chain(more).chain(last).take(MOST_SHOWN).map(Found::shown).collect()
    }

    /// How many places aren't shown.
    pub fn more(&self) -> usize {
        self.found.len().saturating_sub(MOST_SHOWN)
    }

    /// Leaves out the fields of which a message said that the style doesn't know them.
    pub fn leave_out(&mut self, fields: &HashSet<Folded<'_>>) {
        self.unread.retain(|name, _| !fields.iter().any(|field| field.0.eq_ignore_ascii_case(name.0)));
    }

    /// The fields that the style doesn't read, those of most entries first.
    fn unread_in_order(&self) -> Vec<(&'a [u8], &Unread<'b, 'a>)> {
        let mut all: Vec<_> = self.unread.iter().map(|(name, unread)| (name.0, unread)).collect();
        all.sort_by_key(|(name, unread)| (unread.near.is_none(), usize::MAX - unread.count, *name));
        all
    }

    /// The first place of each field that may be a misspelt one, with the entry and what to do.
    pub fn misspelt(&self) -> Vec<(Shown<'b, 'a>, String)> {
        let shown = self.unread_in_order().into_iter().filter_map(|(name, unread)| {
            let advice = Seen::OtherFieldName.with(&[&plain(name), unread.near.as_ref()?]);
            let (stored, place) = (unread.stored, unread.place);
            let item = begins_item(stored.database.file, &stored.database.text, stored.item);
            Some((Shown { stored, place, advice }, format!("in {item}")))
        });
        shown.take(MOST_SHOWN).collect()
    }

    /// The fields that the style doesn't read, in words; None where there is none.
    pub fn unread(&self) -> Option<String> {
        let all = self.unread_in_order();
        let text = |(name, unread): &(&[u8], &Unread<'_, '_>)| {
            let times = if unread.count == 1 { String::new() } else { format!(" ({} times)", unread.count) };
            let near = unread.near.as_ref().map_or(String::new(), |near| format!(", is it `{near}`?"));
            format!("`{}`{times}{near}", plain(name))
        };
        let shown: Vec<String> = all.iter().take(MOST_FIELDS).map(text).collect();
        let dots = if all.len() > MOST_FIELDS { "; .." } else { "" };
        (!shown.is_empty())
            .then(|| format!("(Of the cited entries the style doesn't read: {}{dots})", shown.join("; ")))
    }
}

/// The entries that a job cites, each once: all of them with `*`.
fn cited_entries<'b, 'a>(entries: &'b Entries<'a>, files: &'a Files) -> Vec<Stored<'b, 'a>> {
    let (mut cited, mut has_all) = (HashSet::new(), false);
    let keys = cited_keys(files).inspect(|key| has_all |= *key == b"*").filter(|key| cited.insert(Folded(key)));
    let named: Vec<_> = keys.filter_map(|key| entries.entry(key)).take(MOST_ENTRIES).collect();
    if has_all { entries.each().take(MOST_ENTRIES).collect() } else { named }
}

/// The fields that stand after the end of an entry that a job cites, and how many further entries have one.
pub fn after_ends<'b, 'a>(entries: &'b Entries<'a>, files: &'a Files) -> (Vec<Shown<'b, 'a>>, usize) {
    let lost = |stored: Stored<'b, 'a>| {
        let LostField { name, start } = LostField::after(stored)?;
        let item = begins_item(stored.database.file, &stored.database.text, stored.item);
        Some(Shown { stored, place: start, advice: Seen::FieldAfterEnd.with(&[&item, &plain(name)]) })
    };
    let mut shown: Vec<Shown<'_, '_>> = cited_entries(entries, files).into_iter().filter_map(lost).collect();
    let more = shown.len().saturating_sub(MOST_SHOWN);
    shown.truncate(MOST_SHOWN);
    (shown, more)
}

/// Whether LaTeX is likely to read the list as UTF-8: neither the `.aux` files nor the document have another encoding.
fn is_in_utf8(files: &Files, document: Option<&Document>) -> bool {
    let has_other = |file: &File| {
        let bytes = file.bytes.as_deref().unwrap_or(b"");
        find(bytes, b"\\inputencoding{").is_some_and(|at| !bytes[at..].starts_with(b"\\inputencoding{utf8"))
    };
    !files.with_ending(".aux").any(has_other) && !document.is_some_and(Document::has_other_encoding)
}

/// Where a part of a text begins.
pub fn place_in(text: &[u8], part: &[u8]) -> usize {
    (part.as_ptr() as usize).saturating_sub(text.as_ptr() as usize).min(text.len())
}

fn is_one_of(name: &[u8], names: &[&str]) -> bool {
    names.iter().any(|known| name.eq_ignore_ascii_case(known.as_bytes()))
}

/// Whether a field is a list of names.
pub fn is_list_of_names(field: &[u8]) -> bool {
    is_one_of(field, &OF_NAMES)
}

/// The text of a value that is one text in braces or quotes.
fn whole_text(bytes: &[u8], value: &Range<usize>) -> Option<Range<usize>> {
    let parts = parts(&bytes[value.clone()]);
    let [part] = &parts[..] else { return None };
    (part.start == 1 && part.end + 1 == value.len()).then(|| value.start + part.start..value.start + part.end)
}

/// What is odd in the text of a field, and where.
fn seen_in(name: &[u8], bytes: &[u8], text: &Range<usize>, strings: &HashSet<Folded<'_>>) -> Option<(usize, Seen)> {
    let inside = &bytes[text.clone()];
    if is_one_of(name, &OF_STRINGS) {
        return strings.contains(&Folded(inside.trim_ascii())).then_some((text.start, Seen::StringAsText));
    }
    let is_of_names = is_list_of_names(name);
    let in_names = is_of_names.then(|| seen_in_names(inside)).flatten();
    let dollar = || odd_dollar(inside).filter(|_| !is_one_of(name, &NO_TEXTS)).map(|place| (place, Seen::OddDollars));
    in_names.or_else(dollar).map(|(place, seen)| (text.start + place, seen))
}

/// The last `$` of a text where the number of those without a backslash is odd.
fn odd_dollar(text: &[u8]) -> Option<usize> {
    let (mut at, mut is_odd, mut last) = (0, false, 0);
    let is_sign = |byte: &u8| matches!(byte, b'\\' | b'$');
    while let Some(before) = text.get(at..).and_then(|rest| rest.iter().position(is_sign)) {
        at += before;
        if text[at] == b'\\' {
            at += length_of_command(&text[at..]);
        } else {
            (is_odd, last) = (!is_odd, at);
            at += 1;
        }
    }
    is_odd.then_some(last)
}

/// How many bytes a command of TeX has that begins a text: the backslash and the byte after it, or all of an address.
fn length_of_command(text: &[u8]) -> usize {
    let argument = |command: &[u8]| text[1..].strip_prefix(command)?.trim_ascii_start().strip_prefix(b"{");
    let after = OF_ADDRESSES.iter().find_map(|command| argument(command));
    let brace =
        after.and_then(|after| after.iter().position(|byte| matches!(byte, b'{' | b'}')).map(|at| &after[at..]));
    brace.filter(|rest| rest[0] == b'}').map_or(2, |rest| text.len() - rest.len() + 1)
}

/// The words of a list of names that stand outside of braces, each with its place.
fn words(names: &[u8]) -> Vec<(usize, &[u8])> {
    let (mut words, mut depth, mut start) = (Vec::new(), 0_i64, None);
    for (at, byte) in names.iter().enumerate() {
        depth += i64::from(*byte == b'{') - i64::from(*byte == b'}');
        let is_between = depth <= 0 && (byte.is_ascii_whitespace() || matches!(byte, b'~'));
        match start {
            None if !is_between => start = Some(at),
            Some(from) if is_between => {
                words.push((from, &names[from..at]));
                start = None;
            }
            _ => {}
        }
    }
    words.extend(start.map(|from| (from, &names[from..])));
    words
}

/// What is odd in a list of names, and where.
fn seen_in_names(names: &[u8]) -> Option<(usize, Seen)> {
    let words = words(names);
    let is = |number: usize, all: &[&[u8]]| {
        words.get(number).is_some_and(|(_, word)| all.iter().any(|it| word.eq_ignore_ascii_case(it)))
    };
    let last = words.len().checked_sub(1)?;
    let at_end = [(0, Seen::AndAtBegin), (last, Seen::AndAtEnd)];
    if let Some((at, seen)) = at_end.into_iter().find(|(at, _)| is(*at, &[b"and"])) {
        return Some((words[at].0, seen));
    }
    for (number, (place, word)) in words.iter().enumerate() {
        if number > 0 && is(number, &[b"and"]) && is(number - 1, &[b"and"]) {
            return Some((*place, Seen::AndTwice));
        }
        let is_et_al = is(number, &[b"et", b"et."]) && is(number + 1, &[b"al", b"al.", b"al.,"]);
        if is_et_al {
            return Some((*place, Seen::EtAl));
        }
        let is_first = number == 0 || is(number - 1, &[b"and"]);
        if is(number, &[b"others"]) && is_first && number < last {
            return Some((*place, Seen::OthersInside));
        }
        let sign = word.ends_with(b";").then_some(place + word.len() - 1);
        if let Some(at) = sign.or_else(|| is(number, &[b"&", b"\\&"]).then_some(*place)) {
            return Some((at, Seen::NamesBySign));
        }
    }
    let names = || words.split(|(_, word)| word.eq_ignore_ascii_case(b"and"));
    names().find_map(commas_for_and).or_else(|| names().find_map(bare_organization))
}

/// A name of several words that no person's has.
fn bare_organization(name: &[(usize, &[u8])]) -> Option<(usize, Seen)> {
    let is_it = name.len() > 1 && name.iter().any(|(_, word)| is_word_of_organization(word));
    is_it.then(|| (name[0].0, Seen::BareOrganization))
}

/// Whether a word, with or without a comma after it, is one that no person's name has.
pub fn is_word_of_organization(word: &[u8]) -> bool {
    let word = word.strip_suffix(b",").unwrap_or(word);
    ORGANIZATIONS.iter().any(|known| word.eq_ignore_ascii_case(known.as_bytes()))
}

/// A name of two commas whose middle part has several words, so that each part is a name: no Jr has two words.
fn commas_for_and(name: &[(usize, &[u8])]) -> Option<(usize, Seen)> {
    let commas: Vec<usize> = (0..name.len()).filter(|number| name[*number].1.ends_with(b",")).collect();
    let [first, second] = commas[..] else { return None };
    let is_it = first > 0 && second > first + 1 && second + 2 < name.len();
    is_it.then(|| (name[0].0, Seen::CommasForAnd))
}

#[cfg(test)]
mod tests {
    use super::*;
    fn file(name: &str, bytes: &str) -> File {
        File { name: name.into(), bytes: Some(bytes.into()), path: Vec::new() }
    }

    fn with_unsaid<T>(database: &str, look: impl Fn(&Unsaid<'_, '_>) -> T) -> T {
        let top = file("a.aux", "\\citation{k,l}\n\\bibdata{d}\n\\bibstyle{s}\n");
        let files = Files { top: b"a.aux".to_vec(), all: vec![top, file("d.bib", database)] };
        let entries = Entries::new(&files);
        let style = StyleNames::new(b"ENTRY {author month pages title}{}{}");
        look(&Unsaid::new(&entries, &files, &style, &[b"jan", b"cacm"], None))
    }

    #[test]
    fn all_entries_are_looked_at_where_all_are_cited() {
        let count = |cited: &str| {
            let top = file("a.aux", &format!("\\citation{{{cited}}}\n\\bibdata{{d}}\n\\bibstyle{{s}}\n"));
            let database = file("d.bib", "@misc{k, title = {$}} @misc{l, title = {$}} @string{s = {$}}");
            let files = Files { top: b"a.aux".to_vec(), all: vec![top, database] };
            Unsaid::new(&Entries::new(&files), &files, &StyleNames::new(b"ENTRY {title}{}{}"), &[], None).found.len()
        };
        assert_eq!([count("*"), count("k,*"), count("k"), count("k,K"), count("m")], [2, 2, 1, 1, 0]);
    }

    #[test]
    fn the_name_of_a_string_is_no_text() {
        let seen = |value: &str| {
            with_unsaid(&format!("@misc{{k, month = {value}}}"), |unsaid| unsaid.found.first().map(|found| found.seen))
        };
        assert_eq!([seen("{jan}"), seen("\"Jan\"")], [Some(Seen::StringAsText); 2]);
        assert_eq!([seen("jan"), seen("{January}"), seen("{jan} # \"x\""), seen("1")], [None; 4]);
    }

    #[test]
    fn commands_of_changed_titles_are_seen() {
        let top = file("a.aux", "\\citation{k,l}\n\\bibdata{d}\n\\bibstyle{s}\n");
        let database = "@misc{k, title = {On \\TeX}}\n@book{l, title = {On \\TeX}}\n";
        let files = Files { top: b"a.aux".to_vec(), all: vec![top, file("d.bib", database)] };
        let entries = Entries::new(&files);
        let style =
            b"ENTRY {title}{}{} FUNCTION {misc} {title \"t\" change.case$ write$} FUNCTION {book} {title write$}";
        let unsaid = Unsaid::new(&entries, &files, &StyleNames::new(style), &[], None);
        let found: Vec<_> = unsaid.found.iter().map(|found| (found.place, found.seen)).collect();
        assert_eq!(found, [(21, Seen::LosesCase)]);
    }

    #[test]
    fn names_are_parted_by_and() {
        let seen = |names: &str| seen_in_names(names.as_bytes());
        assert_eq!(seen("A. B and C. D and"), Some((14, Seen::AndAtEnd)));
        assert_eq!(seen("and A. B"), Some((0, Seen::AndAtBegin)));
        assert_eq!(seen("A. B and\nAnd C. D"), Some((9, Seen::AndTwice)));
        assert_eq!(seen("A. B et al."), Some((5, Seen::EtAl)));
        assert_eq!(seen("A. B and others and C. D"), Some((9, Seen::OthersInside)));
        assert_eq!(seen("B, A.; D, C."), Some((5, Seen::NamesBySign)));
        assert_eq!(seen("A. B \\& C. D"), Some((5, Seen::NamesBySign)));
        assert_eq!(seen("John Smith, Mary Jones, Bob Lee"), Some((0, Seen::CommasForAnd)));
        for whole in [
            "A. B and others",
            "Smith, Jr, John",
            "von Last, Jr., A. B. and C. D",
            "{A and B et al.; C}",
            "{Smith \\& Sons}",
            "",
            "{and}",
            "Bob O'Hara",
        ] {
            assert_eq!(seen(whole), None, "{whole}");
        }
    }

    #[test]
    fn organizations_have_braces_of_their_own() {
        let seen = |names: &str| seen_in_names(names.as_bytes());
        assert_eq!(seen("A. B and World Health Organization"), Some((9, Seen::BareOrganization)));
        assert_eq!(seen("Institute of Physics, London"), Some((0, Seen::BareOrganization)));
        assert_eq!(seen("Université de Genève"), Some((0, Seen::BareOrganization)));
        for whole in
            ["{World Health Organization} and A. B", "UNESCO", "Committee", "Pat O'Group", "{Institute} {of} P"]
        {
            assert_eq!(seen(whole), None, "{whole}");
        }
    }

    #[test]
    fn a_dollar_sign_has_another_one() {
        let place = |text: &str| odd_dollar(text.as_bytes());
        assert_eq!(
            [place("On $n"), place("$a$ and b$"), place("a\\\\$"), place("\\urls{$}")],
            [Some(3), Some(9), Some(3), Some(6)]
        );
        assert_eq!([place("\\url {$"), place("\\url{{$}}"), place("$\\")], [Some(6), Some(6), Some(0)]);
        for whole in ["", "$n$", "\\$5", "$$n$$", "\\url{a/$b}", "\\href {a$}{$c$}", "\\\\ $a$", "a\\"] {
            assert_eq!(place(whole), None, "{whole}");
        }
        let seen = |field: &str| {
            with_unsaid(&format!("@misc{{k, {field} = {{$}}}}"), |unsaid| {
                unsaid.found.iter().map(|found| found.seen).find(|seen| *seen == Seen::OddDollars)
            })
        };
        assert_eq!([seen("title"), seen("note"), seen("url")], [Some(Seen::OddDollars), None, None]);
    }

    #[test]
    fn fields_after_an_end_are_found() {
        let top = file("a.aux", "\\citation{k,l,L,m}\n\\bibdata{d}\n\\bibstyle{s}\n");
        let database = "@misc{k, x = 1}},\n note = {N}}\n@misc{l, x = 1}\n,y=2}\n@misc{m}\n@misc{n}, z = 1}\n";
        let files = Files { top: b"a.aux".to_vec(), all: vec![top, file("d.bib", database)] };
        let entries = Entries::new(&files);
        let (shown, more) = after_ends(&entries, &files);
        assert_eq!((shown.len(), more), (2, 0));
        assert_eq!(&database[shown[0].place..shown[0].place + 4], "note");
        assert!(shown[0].advice.starts_with("take out what ends @misc{k}"), "{}", shown[0].advice);
    }

    #[test]
    fn fields_that_are_not_read_are_counted() {
        let unread = |database: &str| with_unsaid(database, |unsaid| unsaid.unread());
        let two = "@misc{k, pagse = 1, url = {u}, abstract = {x}} @misc{l, url = {v}} @misc{m, doi = {w}}";
        assert_eq!(
            unread(two).as_deref(),
            Some("(Of the cited entries the style doesn't read: `pagse`, is it `pages`?; `url` (2 times))")
        );
        assert_eq!(unread("@misc{k, title = {T}}"), None);
        let misspelt: Vec<(usize, String)> = with_unsaid(two, |unsaid| {
            unsaid.misspelt().into_iter().map(|(shown, _)| (shown.place, shown.advice)).collect()
        });
        assert_eq!(misspelt, [(9, "write `pages` for `pagse`".to_string())]);
        let found =
            with_unsaid(two, |unsaid| unsaid.found.iter().map(|found| (found.place, found.seen)).collect::<Vec<_>>());
        assert_eq!(found, [(20, Seen::UnprintedAddress)]);
    }

    #[test]
    fn bytes_that_are_not_utf8_are_seen_once_in_a_file() {
        let file = |name: &str, bytes: &[u8]| File { name: name.into(), bytes: Some(bytes.into()), path: Vec::new() };
        let found = |aux: &[u8]| {
            let database = file("d.bib", b"@misc{k, title = {Einf\xFChrung}} @misc{l, title = {\xE4}}");
            let files = Files { top: b"a.aux".to_vec(), all: vec![file("a.aux", aux), database] };
            let entries = Entries::new(&files);
            let unsaid = Unsaid::new(&entries, &files, &StyleNames::new(b"ENTRY {title}{}{}"), &[], None);
            unsaid.found.iter().map(|found| (found.place, found.seen, found.names[1].clone())).collect::<Vec<_>>()
        };
        assert_eq!(found(b"\\citation{k,l}\n"), [(22, Seen::NotUtf8, "FC".to_string())]);
        assert_eq!(found(b"\\citation{k,l}\n\\inputencoding{latin1}\n"), []);
    }
}
