//! Messages on databases: the item in which they stand, and what its author meant.

use super::{Explainer, begins_item, between, shown_path};
use crate::advice::Seen;
use crate::database::{Inside, Item};
use crate::entries::Stored;
use crate::hints::is_usual_type;
use crate::job::{File, Files};
use crate::letter_values::texts;
use crate::log::{Message, Place};
use crate::missing_entry::{begins_month, is_month, meant_string};
use crate::mistakes::{begun_value, number_meant, what_hides, what_to_do};
use crate::nearest::nearest;
use crate::repeats::Strings;
use crate::sources::Spot;
use crate::terminal::plain;
use crate::text::{Text, find, split_first};
use crate::unsaid::is_list_of_names;
use std::io::{self, Write};

/// Types of `biblatex`, and those of BibTeX's usual styles for such works.
const TYPES_OF_BIBLATEX: [(&str, &str); 22] = [
    ("artwork", "misc"),
    ("audio", "misc"),
    ("bookinbook", "inbook"),
    ("collection", "book"),
    ("dataset", "misc"),
    ("electronic", "misc"),
    ("image", "misc"),
    ("inreference", "incollection"),
    ("movie", "misc"),
    ("mvbook", "book"),
    ("mvcollection", "book"),
    ("mvproceedings", "proceedings"),
    ("online", "misc"),
    ("patent", "misc"),
    ("periodical", "misc"),
    ("reference", "book"),
    ("report", "techreport"),
    ("software", "misc"),
    ("suppbook", "inbook"),
    ("thesis", "phdthesis"),
    ("video", "misc"),
    ("www", "misc"),
];

/// What is known of the messages on databases.
#[derive(Default)]
pub(super) struct DatabaseMistakes<'a> {
    /// A database, or one line of it, whose other errors follow from one that was explained.
    odd: Option<(&'a [u8], Option<usize>)>,
    /// How many of these weren't printed yet.
    pub(super) unprinted: u64,
    pub(super) strings: Strings<'a>,
}

impl<'a, W: Write> Explainer<'a, W> {
    /// Whether an error follows from one that was explained, of its file or of its line. Then it is counted.
    pub(super) fn is_of_odd(&mut self, message: &Message<'a>) -> bool {
        let Place::Line { file, number } = message.place else { return false };
        let is_it = self.databases.odd.is_some_and(|(odd, line)| odd == file && line.is_none_or(|line| line == number));
        self.databases.unprinted += u64::from(is_it);
        is_it
    }

    /// Shows where a message of a database stands; what to do about it, where that is seen there.
    pub(super) fn in_database(
        &mut self,
        message: &Message<'a>,
        number: usize,
        name: &'a [u8],
    ) -> io::Result<Option<String>> {
        let Some(mut spot) = self.sources.spot(message) else { return Ok(None) };
        let Some(text) = self.sources.text(name) else { return Ok(None) };
        let about = if spot.item.is_some() { None } else { self.about(name, number, message.text) };
        let item = spot.item.take().or_else(|| {
            let (item, part) = about?;
            let start = text.span(number).0;
            spot.part = part.map(|(from, to)| (from - start, to - start));
            Some(item)
        });
        self.page.show_line(&spot)?;
        let Some(item) = item else { return Ok(None) };
        self.page.put_place(&format!("in {}", begins_item(spot.file, &text, &item)))?;
        if let Some(key) = item.key.filter(|_| message.text == b"Repeated entry") {
            self.show_entry("the first is", key.name)?;
        }
        if message.text == b"Unbalanced braces" || message.text == b"Illegal end of database file" {
            let begun = begun_value(spot.file, &text, &item);
            begun.map_or(Ok(()), |begun| self.page.put_place(&begun))?;
        }
        let seen = self.seen_in(message, &spot, &text, &item).or_else(|| self.misnamed_type(message.text, &item));
        let seen = seen.or_else(|| self.type_of_biblatex(message.text, &item));
        if seen.is_some() {
            return Ok(seen);
        }
        let Some(meant) = self.meant_by(message.text, text.bytes, &item) else { return Ok(None) };
        let below = self.seen_below(&meant, message.text, spot.file, &item);
        let meant = plain(&meant);
        self.page.put_place(&format!("is it `{meant}`?"))?;
        if let Some(kind) = meant.strip_prefix('@') {
            return Ok(Some(Seen::NearType.with(&[&plain(item.kind), kind])));
        }
        let string = between(message.text, b"string name \"", b"\" is undefined");
        Ok(below.or_else(|| string.map(|name| Seen::NearString.with(&[&meant, &plain(name)]))))
    }

    /// What to do about an entry of a type of `biblatex`, where the style has a type for such works.
    fn type_of_biblatex(&mut self, message: &[u8], item: &Item<'a>) -> Option<String> {
        let is_it = |(its, _): &&(&str, &str)| item.kind.eq_ignore_ascii_case(its.as_bytes());
        let (_, ours) = TYPES_OF_BIBLATEX.iter().find(is_it).filter(|_| message.starts_with(b"entry type for "))?;
        let style = self.sources.style_names();
        let has_one = style.functions_above_read().any(|name| name.eq_ignore_ascii_case(ours.as_bytes()));
        has_one.then(|| Seen::OfBiblatexType.with(&[&plain(item.kind), ours]))
    }

    /// What to do about a second field of names of an entry: one person in each isn't what a run reads.
    fn field_for_each_name(&self, message: &[u8], text: &Text<'a>, item: &Item<'a>) -> Option<String> {
        let (_, name) = split_first(message.strip_prefix(b"I'm ignoring ")?, b"'s extra \"")?;
        let name = name.strip_suffix(b"\" field").filter(|name| is_list_of_names(name))?;
        let inside = Inside::of(text.bytes, item);
        let of_name = inside.fields.iter().zip(&inside.values).filter(|(field, _)| field.eq_ignore_ascii_case(name));
        let lists: Vec<&[u8]> =
            of_name.flat_map(|(_, value)| texts(text.bytes, value)).map(|at| &text.bytes[at]).collect();
        let are_different = lists.iter().enumerate().all(|(at, list)| !lists[..at].contains(list));
        let all = plain(&lists.join(&b" and "[..]));
        (lists.len() > 1 && are_different).then(|| Seen::FieldForEachName.with(&[&plain(name), &all]))
    }

    /// What to do about a message of a database, where its text shows what was meant.
    fn seen_in(&mut self, message: &Message<'a>, spot: &Spot<'a>, text: &Text<'a>, item: &Item<'a>) -> Option<String> {
        let odd = self.odd_file(spot.file);
        if odd.is_some() {
            self.databases.odd = Some((&spot.file.name, None));
            return odd;
        }
        if let Some(name) = between(message.text, b"string name \"", b"\" is undefined") {
            return self.seen_of_string(name, spot, item);
        }
        if let Some(advice) = self.field_for_each_name(message.text, text, item) {
            return Some(advice);
        }
        let first = item.key.filter(|_| message.text == b"Repeated entry");
        let hidden = first.and_then(|key| {
            let Stored { database, item } = self.entries().entry(key.name)?;
            what_hides(database.file, &database.text, item)
        });
        let is_fault = item.fault.is_some_and(|fault| fault.as_bytes() == message.text);
        let hidden = hidden.or_else(|| what_hides(spot.file, text, item).filter(|_| is_fault || first.is_some()));
        let hidden = hidden
            .or_else(|| self.of_other_case(first?.name, text, item))
            .or_else(|| self.other_work(first?.name, text, item));
        let fault = Some(item.end).filter(|_| is_fault);
        hidden.or_else(|| what_to_do(spot.file, text, item, fault?, message.text))
    }

    /// What to do about a second entry of a key, where its title is another than that of the first.
    fn other_work(&mut self, key: &[u8], text: &Text<'a>, item: &Item<'a>) -> Option<String> {
        let Stored { database, item: first } = self.entries().entry(key)?;
        let (first, second) = (title_of(database.text.bytes, first)?, title_of(text.bytes, item)?);
        let new = self.new_key(key)?;
        (!has_one_of_both(&first, &second)).then(|| Seen::OtherWork.with(&[&plain(&new)]))
    }

    /// A key with a letter at its end that no entry has.
    fn new_key(&mut self, key: &[u8]) -> Option<Vec<u8>> {
        (b'b'..=b'z').map(|letter| [key, &[letter]].concat()).find(|new| self.entries().entry(new).is_none())
    }

    /// What to do about an entry of a usual type, where the style has a function whose name is nearly the type's, and is no usual one.
    fn misnamed_type(&mut self, message: &[u8], item: &Item<'a>) -> Option<String> {
        let is_it = message.starts_with(b"entry type for ") && is_usual_type(item.kind);
        let style = self.sources.style().filter(|_| is_it)?;
        let near = nearest(item.kind, self.sources.style_names().functions_above_read());
        let name = near.filter(|name| !is_usual_type(name))?;
        let (text, commands) = (self.sources.text(&style.name)?, self.sources.commands(&style.name));
        let command = commands.iter().find(|command| command.is("function") && command.name == Some(name))?;
        let at = format!("{}:{}", plain(shown_path(style)), text.line_of(command.start));
        Some(Seen::StyleMisnames.with(&[&plain(name), &at, &plain(&item.kind.to_ascii_lowercase())]))
    }

    /// What to do about two entries whose keys differ in their case alone. The one that isn't cited so is removed where both are one work, and else gets another key.
    fn of_other_case(&mut self, second: &'a [u8], text: &Text<'a>, item: &Item<'a>) -> Option<String> {
        let Stored { database, item: one } = self.entries().entry(second)?;
        let (first, is_one_work) = (one.key?.name, is_one_work((database.text.bytes, one), (text.bytes, item)));
        let named = self.sources.names().key(second)?;
        let spot = self.sources.spot_of_name(named, second.len())?;
        let (start, end) = spot.part?;
        let cited = spot.line.get(start..end)?;
        let other = [first, second].into_iter().find(|key| *key != cited && first != second)?;
        let names = [plain(other), plain(cited), plain(&self.new_key(other)?)];
        let [other_name, cited_name, new] = names.each_ref().map(String::as_str);
        let seen = if is_one_work { Seen::RemoveOther } else { Seen::OtherCase };
        (cited == first || cited == second).then(|| seen.with(&[other_name, cited_name, new]))
    }

    /// What to do about a string that isn't defined, where it is below, or where its name isn't one.
    fn seen_of_string(&mut self, name: &[u8], spot: &Spot<'a>, item: &Item<'a>) -> Option<String> {
        let file = spot.file;
        const QUOTES: [&str; 8] = ["\u{201C}", "\u{201D}", "\u{201E}", "\u{2018}", "\u{2019}", "\u{AB}", "\u{BB}", "`"];
        if let Some(quote) = QUOTES.iter().find(|quote| name.starts_with(quote.as_bytes())) {
            self.databases.odd = Some((&file.name, Some(spot.number)));
            return Some(Seen::NoQuote.with(&[quote]));
        }
        if name.starts_with(b"\\") {
            return Some(Seen::BareCommand.with(&[&plain(name)]));
        }
        if let Some((number, letter)) = number_meant(name) {
            return Some(Seen::LetterForDigit.with(&[&number, &letter.to_string()]));
        }
        if let Some(at) = name.iter().position(|byte| matches!(byte, b'-' | b'/')) {
            let known = self.known_strings();
            let is_known = |name: &[u8]| known.iter().any(|known| known.eq_ignore_ascii_case(name));
            let (left, right) = (&name[..at], &name[at + 1..]);
            if is_known(left) && is_known(right) {
                return Some(Seen::MonthsInOne.with(&[&plain(left), &plain(right)]));
            }
        }
        self.defined_below(name, file, item)
    }

    /// What to do about a string that is defined below its use, or in a database that is read later.
    fn defined_below(&mut self, name: &[u8], file: &File, item: &Item<'a>) -> Option<String> {
        let files = self.files;
        let Stored { database, item: defined } = self.entries().string(name)?;
        let place = |name: &[u8]| files.with_ending(".bib").position(|file| file.name == name);
        let is_below = (place(&database.file.name), defined.start) > (place(&file.name), item.start);
        if defined.fault.is_some() {
            let at = crate::mistakes::line_of(database.file, &database.text, defined.start);
            return Some(Seen::StringFailed.with(&[&plain(name), &at]));
        }
        if is_below && database.file.name != file.name {
            let first = plain(shown_path(database.file));
            return Some(Seen::DefinedInLater.with(&[&in_order(files, database.file, file), &first]));
        }
        let at = crate::mistakes::line_of(database.file, &database.text, defined.start);
        is_below.then(|| Seen::DefinedBelow.with(&[&plain(name), &at]))
    }

    /// What to do besides where a string of another name is meant that is defined below its use.
    fn seen_below(&mut self, meant: &[u8], message: &[u8], file: &File, item: &Item<'a>) -> Option<String> {
        let name = between(message, b"string name \"", b"\" is undefined")?;
        let advice = self.defined_below(meant, file, item).filter(|_| !self.is_macro(meant))?;
        Some(format!("write `{}` for `{}`, and {advice}", plain(meant), plain(name)))
    }

    /// The names of all strings that the databases and the style define.
    pub(super) fn known_strings(&mut self) -> Vec<&'a [u8]> {
        let mut known: Vec<&[u8]> = self.entries().strings().collect();
        known.extend(self.macros());
        known
    }

    /// The names of the strings that the style defines.
    fn macros(&mut self) -> Vec<&'a [u8]> {
        let style = self.sources.style().map_or(&b""[..], |file| &file.name);
        let commands = self.sources.commands(style);
        commands.iter().filter(|command| command.is("macro")).filter_map(|command| command.name).collect()
    }

    /// Whether the style defines a string of this name.
    fn is_macro(&mut self, name: &[u8]) -> bool {
        self.macros().iter().any(|known| known.eq_ignore_ascii_case(name))
    }

    /// The name that may be meant by a type or a string that isn't known. A month is meant in the field `month` alone, or by more of its letters.
    fn meant_by(&mut self, text: &[u8], bytes: &[u8], item: &Item<'a>) -> Option<Vec<u8>> {
        if text.starts_with(b"entry type for ") {
            let style = self.sources.style_names();
            return nearest(item.kind, style.functions_above_read()).map(|name| [b"@", name].concat());
        }
        let name = between(text, b"string name \"", b"\" is undefined")?;
        let mut known = self.known_strings();
        known.retain(|string| !string.eq_ignore_ascii_case(name));
        if !is_in_month(name, bytes, item) && !begins_month(name) {
            known.retain(|string| !is_month(string));
        }
        meant_string(name, &known).map(<[u8]>::to_vec)
    }

    /// The item that a message is about, and the part of the text that the message names.
    fn about(&mut self, name: &[u8], number: usize, text: &[u8]) -> Option<(Item<'a>, Option<(usize, usize)>)> {
        let (item, part) = self.entries().database(name)?.about(number, text)?;
        Some((item.clone(), part))
    }
}

/// The names of a job's databases as `\bibliography` has them, with one of them moved before another.
fn in_order(files: &Files, moved: &File, before: &File) -> String {
    let all = files.with_ending(".bib").filter(|file| file.name != moved.name);
    let all = all.flat_map(|file| if file.name == before.name { vec![moved, file] } else { vec![file] });
    let names: Vec<String> = all.map(|file| plain(file.name.strip_suffix(b".bib").unwrap_or(&file.name))).collect();
    names.join(",")
}

/// Whether a name stands in the field `month` of an entry.
fn is_in_month(name: &[u8], bytes: &[u8], item: &Item<'_>) -> bool {
    let inside = Inside::of(bytes, item);
    let months = inside.fields.iter().zip(&inside.values).filter(|(field, _)| field.eq_ignore_ascii_case(b"month"));
    months.map(|(_, value)| &bytes[value.clone()]).any(|value| find(value, name).is_some())
}

/// The letters and digits of an entry's title, in lower case.
fn title_of(bytes: &[u8], item: &Item<'_>) -> Option<Vec<u8>> {
    letters_of(bytes, item, b"title")
}

/// The letters and digits of a field of an entry, in small letters.
fn letters_of(bytes: &[u8], item: &Item<'_>, field: &[u8]) -> Option<Vec<u8>> {
    let inside = Inside::of(bytes, item);
    let found = inside.fields.iter().zip(&inside.values).find(|(name, _)| name.eq_ignore_ascii_case(field));
    let letters: Vec<u8> =
        bytes[found?.1.clone()].iter().filter(|byte| byte.is_ascii_alphanumeric()).copied().collect();
    (!letters.is_empty()).then(|| letters.to_ascii_lowercase())
}

/// Whether one of two texts stands in the other one.
fn has_one_of_both(first: &[u8], second: &[u8]) -> bool {
    find(first, second).is_some() || find(second, first).is_some()
}

/// Whether two entries have one title or one doi.
fn is_one_work(first: (&[u8], &Item<'_>), second: (&[u8], &Item<'_>)) -> bool {
    let both = |field: &[u8]| Some((letters_of(first.0, first.1, field)?, letters_of(second.0, second.1, field)?));
    both(b"title").is_some_and(|(first, second)| has_one_of_both(&first, &second))
        || both(b"doi").is_some_and(|(first, second)| first == second)
}

/// Whether advice on one entry is about all of its kind, so that it is given once.
pub(super) fn is_of_whole_job(advice: &str) -> bool {
    ["write `\\bibliography{", "call the style's function "].iter().any(|begin| advice.starts_with(begin))
}
