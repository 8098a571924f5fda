//! Which values of a job's databases may be coded: those of the entries that the list may have, and of strings. Entries that are neither cited nor the parent of one that is are passed over by
//! their keys alone, since most of a large database is of that kind.

use crate::aux_text;
use crate::database::{Folded, Head, Inside, Item, bare, heads};
use crate::job::Files;
use crate::keyed_hash::{Keyed, KeyedSet};
use crate::languages::Language;
use crate::letter_places::{Met, find_letters, from_place};
use crate::letter_run::LeftOut;
use crate::plain_entries::{self, Field};
use memchr::memchr;
use std::ops::Range;

/// Fields whose values stay as they are: the key of another entry, where something is found, and what styles print as they would sort it, or take apart byte by byte.
pub const FIXED: [&str; 10] = ["crossref", "doi", "file", "month", "number", "pages", "url", "volume", "xref", "year"];

/// A bit for each letter with which one of their names begins.
const FIRST_OF_FIXED: u32 = {
    let (mut bits, mut number) = (0, 0);
    while number < FIXED.len() {
        bits |= 1 << (FIXED[number].as_bytes()[0] % 32);
        number += 1;
    }
    bits
};

fn is_fixed(name: &[u8]) -> bool {
    let may_be = name.first().is_some_and(|first| FIRST_OF_FIXED >> (first % 32) & 1 == 1);
    may_be && FIXED.iter().any(|field| field.len() == name.len() && name.eq_ignore_ascii_case(field.as_bytes()))
}

/// What of a job may be coded.
#[derive(Debug, Default)]
pub struct Chosen<'a> {
    /// The values of each file, in their order.
    pub values: Vec<Vec<Range<usize>>>,
    /// The letters outside ASCII of the texts in these values, likewise.
    pub letters: Vec<Vec<Met>>,
    /// The types of the entries that the list may have.
    pub types: KeyedSet<Folded<'a>>,
}

/// How often the databases are looked through for parents: parents of parents are rare.
const MOST_ROUNDS: usize = 8;

/// The keys of the entries that the list may have.
struct Wanted<'a> {
    keys: KeyedSet<Folded<'a>>,
    /// A bit for each number that such a key has. Most other keys have another one.
    numbers: Vec<u64>,
    /// Whether each entry is wanted.
    are_all: bool,
}

/// How many numbers keys have.
const NUMBERS: usize = 1 << 14;

/// A number of a key, the same in any case.
fn number_of(key: &[u8]) -> usize {
    key.iter().fold(key.len(), |number, byte| number.wrapping_mul(31).wrapping_add(usize::from(byte | 0x20))) % NUMBERS
}

impl<'a> Wanted<'a> {
    fn new(files: &'a Files) -> Wanted<'a> {
        // (as many as fit: to make more room later would take as long as all else)
        let bytes: usize = files.with_ending(".aux").map(|file| file.bytes.as_deref().map_or(0, <[u8]>::len)).sum();
        let keys = KeyedSet::with_capacity_and_hasher((bytes / 12).min(1 << 16), Keyed::default());
        let mut wanted = Wanted { keys, numbers: vec![0; NUMBERS / 64], are_all: false };
        aux_text::cited_keys(files).for_each(|key| wanted.add(key));
        wanted
    }

    fn add(&mut self, key: &'a [u8]) {
        self.are_all |= key == b"*";
        let number = number_of(key);
        self.numbers[number / 64] |= 1 << (number % 64);
        self.keys.insert(Folded(key));
    }

    fn has(&self, head: &Head<'_>) -> bool {
        let Some(key) = head.key.filter(|_| !self.are_all) else { return true };
        let number = number_of(key);
        self.numbers[number / 64] >> (number % 64) & 1 == 1 && self.keys.contains(&Folded(key))
    }
}

/// The types of the entries that the list may have.
#[derive(Default)]
struct Types<'a> {
    all: KeyedSet<Folded<'a>>,
    /// Some of them, each at the place of its length and first byte: most entries have one of these.
    met: [&'a [u8]; 32],
}

impl<'a> Types<'a> {
    fn add(&mut self, kind: &'a [u8]) {
        let met = &mut self.met[(kind.len() + kind.first().map_or(0, |first| usize::from(*first))) % 32];
        if *met != kind || kind.is_empty() {
            *met = kind;
            self.all.insert(Folded(kind));
        }
    }
}

/// What is chosen in all databases of a job.
struct Choice<'a> {
    wanted: Wanted<'a>,
    types: Types<'a>,
    /// Whether values of ASCII have something to code, too.
    is_of_ascii: bool,
    /// What stands in the item that was read last, and in the plain entry.
    inside: Inside<'a>,
    fields: Vec<Field<'a>>,
}

/// A string that a database defines: its name, its value, and the letters outside ASCII of the texts in that.
struct Defined<'a> {
    name: &'a [u8],
    value: Range<usize>,
    letters: Vec<Met>,
}

/// A database while its values are chosen.
struct Database<'a> {
    text: &'a [u8],
    /// The heads of the items that weren't read yet; None before the first round.
    unread: Option<Vec<Head<'a>>>,
    /// The values of fields that may be coded, and have something to code.
    values: Vec<Range<usize>>,
    /// The letters outside ASCII of the texts in these.
    letters: Vec<Met>,
    /// The strings that it defines.
    strings: Vec<Defined<'a>>,
    /// The names of strings in fields that stay as they are.
    fixed: Vec<&'a [u8]>,
}

impl<'a> Database<'a> {
    fn new(text: &'a [u8]) -> Database<'a> {
        // (as many as fit most databases: a little room that grows is copied each time)
        let values = Vec::with_capacity((text.len() / 64).min(1 << 14));
        let letters = Vec::with_capacity((text.len() / 16).min(1 << 15));
        Database { text, unread: None, values, letters, strings: Vec::new(), fixed: Vec::new() }
    }

    /// Reads the items that are wanted and weren't read yet, and adds their parents to what is wanted.
    fn read(&mut self, choice: &mut Choice<'a>) -> Result<(), LeftOut> {
        match self.unread.take() {
            None => self.read_among(heads(self.text), choice),
            Some(unread) => self.read_among(unread.into_iter(), choice),
        }
    }

    /// Reads those of these items that are wanted.
    fn read_among(&mut self, heads: impl Iterator<Item = Head<'a>>, choice: &mut Choice<'a>) -> Result<(), LeftOut> {
        let (mut unread, mut end) = (Vec::with_capacity((self.text.len() / 256).min(1 << 14)), 0);
        for head in heads {
            if head.start < end {
                // (it stands in the text of an item)
            } else if is_text(head.kind) || choice.wanted.has(&head) {
                end = self.read_item(head, choice)?;
            } else {
                unread.push(head);
            }
        }
        self.unread = Some(unread);
        Ok(())
    }

    /// Reads an entry that is written as most are; where it ends. None where it is another item, of which nothing is read then.
    fn read_plain_entry(&mut self, head: &Head<'a>, choice: &mut Choice<'a>) -> Option<usize> {
        let comma = head.comma.filter(|_| head.key.is_some_and(<[u8]>::is_ascii))?;
        let counts = |name: &[u8]| !is_fixed(name);
        let end = plain_entries::read(self.text, comma, counts, &mut choice.fields, &mut self.letters)?;
        choice.types.add(head.kind);
        for field in &choice.fields {
            if field.name.eq_ignore_ascii_case(b"crossref") {
                choice.wanted.add(bare(&self.text[field.value.clone()]));
            } else if field.has_letters || choice.is_of_ascii && !is_fixed(field.name) {
                self.values.push(field.value.clone());
            }
        }
        Some(end)
    }

    /// Reads an item; where it ends.
    fn read_item(&mut self, head: Head<'a>, choice: &mut Choice<'a>) -> Result<usize, LeftOut> {
        if let Some(end) = self.read_plain_entry(&head, choice) {
            return Ok(end);
        }
        let item = Item::read_at(self.text, head.start, &mut choice.inside);
        let (inside, mut letters) = (&choice.inside, Vec::new());
        if !find_letters(&self.text[..item.end], item.start, &mut letters) {
            return Err(why_not(&self.text[item.start..item.end]));
        }
        if item.is_entry() {
            choice.types.add(item.kind);
            self.choose_fields(inside, &letters, choice.is_of_ascii);
        }
        for parent in &item.parents {
            choice.wanted.add(parent.key);
        }
        if item.is_string()
            && let (Some(key), Some(value)) = (item.key, inside.values.first())
        {
            let letters = of_texts(self.text, value, &letters).collect();
            self.strings.push(Defined { name: key.name, value: value.clone(), letters });
        }
        // (what a parent is that strings say isn't known here)
        let mut of_fields = inside.fields.iter().zip(&inside.values);
        let is_of_strings = |(name, value): (&&[u8], &Range<usize>)| {
            name.eq_ignore_ascii_case(b"crossref") && names_in(&self.text[value.clone()]).next().is_some()
        };
        choice.wanted.are_all |= !item.parents.is_empty() && of_fields.any(is_of_strings);
        Ok(item.end)
    }

    /// Chooses among the values of the fields of an entry that has these letters.
    fn choose_fields(&mut self, inside: &Inside<'a>, letters: &[Met], is_of_ascii: bool) {
        let (text, mut letters) = (self.text, letters);
        for (name, value) in inside.fields.iter().zip(&inside.values) {
            letters = from_place(letters, value.start);
            if is_fixed(name) {
                if !is_one_text(&text[value.clone()]) {
                    self.fixed.extend(names_in(&text[value.clone()]));
                }
            } else if is_of_ascii || letters.first().is_some_and(|met| met.start < value.end) {
                self.letters.extend(of_texts(text, value, letters));
                self.values.push(value.clone());
            }
        }
    }

    /// All its values that may be coded and have something to code, and the letters outside ASCII of their texts, in their order.
    fn chosen(mut self, fixed: &KeyedSet<Folded<'a>>, is_of_ascii: bool) -> (Vec<Range<usize>>, Vec<Met>) {
        let is_free = |string: &Defined<'_>| !fixed.contains(&Folded(string.name));
        for string in self.strings.into_iter().filter(is_free) {
            self.letters.extend(string.letters);
            if is_of_ascii || !self.text[string.value.clone()].is_ascii() {
                self.values.push(string.value);
            }
        }
        self.values.sort_unstable_by_key(|value| value.start);
        // (strings stand elsewhere, and an item may have been read before one that it stands in)
        if !self.letters.is_sorted_by(|one, next| one < next) {
            self.letters.sort();
            self.letters.dedup();
        }
        (self.values, self.letters)
    }
}

/// Why an item can't be coded that has a byte of a code, or one that is of no letter.
fn why_not(item: &[u8]) -> LeftOut {
    if std::str::from_utf8(item).is_ok() { LeftOut::ControlCharacters } else { LeftOut::NotUtf8 }
}

/// Whether an item of this kind has a text and no key.
fn is_text(kind: &[u8]) -> bool {
    kind.eq_ignore_ascii_case(b"string") || kind.eq_ignore_ascii_case(b"preamble")
}

/// The values of a job's databases that may be coded.
pub fn chosen<'a>(files: &'a Files, language: &Language) -> Result<Chosen<'a>, LeftOut> {
    let is_of_ascii = language.has_rules_for_ascii();
    let (wanted, types) = (Wanted::new(files), Types::default());
    let mut choice = Choice { wanted, types, is_of_ascii, inside: Inside::default(), fields: Vec::new() };
    let text_of =
        |name: &[u8], bytes: &'a Option<Vec<u8>>| bytes.as_deref().filter(|_| name.ends_with(b".bib")).unwrap_or(b"");
    let mut databases: Vec<Database<'_>> =
        files.all.iter().map(|file| Database::new(text_of(&file.name, &file.bytes))).collect();
    for round in 0.. {
        let before = (choice.wanted.keys.len(), choice.wanted.are_all);
        for database in &mut databases {
            database.read(&mut choice)?;
        }
        if before == (choice.wanted.keys.len(), choice.wanted.are_all) {
            break;
        }
        choice.wanted.are_all |= round == MOST_ROUNDS;
    }
    let fixed = fixed_strings(&databases);
    let (values, letters) = databases.into_iter().map(|database| database.chosen(&fixed, is_of_ascii)).unzip();
    Ok(Chosen { values, letters, types: choice.types.all })
}

/// The strings whose values stay as they are: those that a field has which stays as it is, and those in the values of these.
fn fixed_strings<'a>(databases: &[Database<'a>]) -> KeyedSet<Folded<'a>> {
    let mut open: Vec<&[u8]> = databases.iter().flat_map(|database| database.fixed.iter().copied()).collect();
    let mut fixed = KeyedSet::default();
    if open.is_empty() {
        return fixed;
    }
    let defined = databases
        .iter()
        .flat_map(|database| database.strings.iter().map(|string| (string.name, &database.text[string.value.clone()])));
    let mut values: Vec<(Folded<'_>, &[u8])> = defined.map(|(name, value)| (Folded(name), value)).collect();
    values.sort_by_cached_key(|(name, _)| name.0.to_ascii_lowercase());
    while let Some(name) = open.pop() {
        if fixed.insert(Folded(name)) {
            let small = name.to_ascii_lowercase();
            let from = values.partition_point(|(other, _)| other.0.to_ascii_lowercase() < small);
            let of_name = values[from..].iter().take_while(|(other, _)| *other == Folded(name));
            open.extend(of_name.flat_map(|(_, value)| names_in(value)));
        }
    }
    fixed
}

/// The names of strings in a value.
fn names_in(value: &[u8]) -> impl Iterator<Item = &[u8]> {
    let mut at = 0;
    let value = if is_one_text(value) { b"" } else { value };
    let texts = parts(value).into_iter().chain(std::iter::once(value.len()..value.len()));
    let between = texts.map(move |part| {
        let piece = &value[at.min(part.start)..part.start];
        at = (part.end + 1).min(value.len());
        piece
    });
    let is_of_name = |byte: u8| byte > b' ' && !b"\"#{}".contains(&byte);
    between
        .flat_map(move |piece| piece.split(move |byte| !is_of_name(*byte)))
        .filter(|name| name.first().is_some_and(|byte| !byte.is_ascii_digit()))
}

/// Whether a whole value is certainly one text in braces or quotes, as most are.
fn is_one_text(value: &[u8]) -> bool {
    matches!(value, [b'{' | b'"', .., _]) && memchr(b'#', value).is_none()
}

/// Where the texts in a value stand.
pub fn texts(text: &[u8], value: &Range<usize>) -> Vec<Range<usize>> {
    if is_one_text(&text[value.clone()]) {
        return std::iter::once(value.start + 1..value.end - 1).collect();
    }
    let parts = parts(&text[value.clone()]);
    parts.into_iter().map(|part| value.start + part.start..value.start + part.end).collect()
}

/// Those of these letters that stand in the texts of a value, which are near.
fn of_texts(text: &[u8], value: &Range<usize>, letters: &[Met]) -> impl Iterator<Item = Met> {
    let of_text = |part: Range<usize>| {
        let from_part = from_place(letters, part.start);
        from_part[..from_part.len() - from_place(from_part, part.end).len()].iter().copied()
    };
    texts(text, value).into_iter().flat_map(of_text)
}

/// The texts in a value, which stand in braces or quotes; round them stand numbers, names of strings and `#`.
pub fn parts(value: &[u8]) -> Vec<Range<usize>> {
    let (mut parts, mut at) = (Vec::new(), 0);
    while let Some(before) = value[at..].iter().position(|byte| matches!(byte, b'{' | b'"')) {
        let start = at + before + 1;
        let end = start + length(&value[start..], value[start - 1] == b'"');
        parts.push(start..end);
        at = value.len().min(end + 1);
    }
    parts
}

/// How long a text is up to the brace or the quote that ends it.
fn length(rest: &[u8], is_quoted: bool) -> usize {
    let mut depth = 0;
    for (at, byte) in rest.iter().enumerate() {
        match *byte {
            b'{' => depth += 1,
            b'}' if depth > 0 => depth -= 1,
            b'}' => return at,
            b'"' if depth == 0 && is_quoted => return at,
            _ => {}
        }
    }
    rest.len()
}

#[cfg(test)]
mod tests {
    use super::*;
    use crate::btx::{self, FIELD, STRING};
    use crate::job::File;

    fn files(aux: &str, databases: &[&str]) -> Files {
        let file = |name: String, bytes: &str| File { name: name.into(), bytes: Some(bytes.into()), path: Vec::new() };
        let mut all = vec![file("a.aux".into(), aux)];
        all.extend(databases.iter().enumerate().map(|(number, text)| file(format!("{number}.bib"), text)));
        Files { top: b"a.aux".to_vec(), all }
    }

    /// The values that are chosen in these databases, and the types.
    fn values(aux: &str, databases: &[&str], language: &str) -> Result<Vec<String>, LeftOut> {
        let files = files(aux, databases);
        let chosen = chosen(&files, &Language::named(language.as_bytes()).unwrap())?;
        let text = |(file, values): (&File, &Vec<Range<usize>>)| -> Vec<String> {
            let bytes = file.bytes.as_deref().unwrap();
            values.iter().map(|value| String::from_utf8_lossy(&bytes[value.clone()]).into_owned()).collect()
        };
        Ok(files.all.iter().zip(&chosen.values).flat_map(text).collect())
    }

    #[test]
    fn values_of_cited_entries_and_of_their_parents_are_chosen() {
        let one = "@string{s = {ö0}} @book{A, title = {ö1}, note = {o}, crossref = {B}}@misc(b, title = \"ö2\")";
        let two = "@misc{b, title = {ö3}} @misc{c, crossref = b, title = {ö4}} @misc{B , title = {ö5}, crossref = \"d\"} @misc{D, title = {ö6}} @preamble{\"ö\"}";
        let chosen = |aux| values(aux, &[one, two], "de").unwrap().concat();
        assert_eq!(chosen("\\citation{x,a}\n"), "{ö0}{ö1}\"ö2\"{ö3}{ö5}{ö6}");
        assert_eq!(chosen("\\citation{d}\n"), "{ö0}{ö6}");
        assert_eq!(chosen("\\citation{*}\n"), "{ö0}{ö1}\"ö2\"{ö3}{ö4}{ö5}{ö6}");
        assert_eq!(chosen("\\citation{c}\n"), chosen("\\citation{*}\n"));
        assert_eq!(
            values("\\citation{d}\n", &[two, "@misc{d, title = {cs}, note = 12 # x}"], "hu").unwrap().concat(),
            "{ö6}{cs}12 # x"
        );
    }

    #[test]
    fn strings_of_keys_stay_as_they_are() {
        let text = "@string{p = {Mü} # Q} @STRING(q = \"ö\") @string{r = {ä}} @misc{k, crossref = P, title = r} @misc{Müö, title = {é}}";
        assert_eq!(values("\\citation{k}\n", &[text], "de").unwrap(), ["{ä}", "{é}"]);
        let months = "@string{m = {März}} @string{n = {Äpril}} @misc{k, month = 3 # \"~\" # m, note = n}";
        assert_eq!(values("\\citation{k}\n", &[months], "de").unwrap(), ["{Äpril}"]);
    }

    #[test]
    fn only_what_may_be_listed_is_looked_at() {
        let bytes = |entry: &[u8]| {
            let mut files = files("\\citation{k}\n", &[""]);
            files.all[1].bytes = Some([entry, b"@misc{k, title = {\xC3\xB6}}"].concat());
            chosen(&files, &Language::named(b"de").unwrap()).map(|chosen| chosen.values[1].len())
        };
        assert_eq!(bytes(b"@misc{a, title = {\xE9}} @misc{b, title = {\x01}}"), Ok(1));
        assert_eq!(bytes(b"@misc{K, title = {\xE9}}"), Err(LeftOut::NotUtf8));
        assert_eq!(bytes(b"@string{K = {\x01}}"), Err(LeftOut::ControlCharacters));
    }

    #[test]
    fn what_looks_like_an_item_in_a_text_is_none() {
        let text = "@misc{a, title = {ö @misc{k, title = {ä}} é}, note = {ü}} @misc{k, title = {ß}}";
        assert_eq!(
            values("\\citation{a}\n\\citation{k}\n", &[text], "de").unwrap(),
            ["{ö @misc{k, title = {ä}} é}", "{ü}", "{ß}"]
        );
        let long = format!("@misc{{{}, title = {{ö}}}}", "k".repeat(LONGEST));
        assert_eq!(values("\\citation{a}\n", &[&long], "de").unwrap(), ["{ö}"]);
    }

    const LONGEST: usize = 300;

    /// A text with this piece in the place of some bytes; what isn't UTF-8 then is replaced.
    fn spoilt(text: &str, from: usize, to: usize, piece: &str) -> String {
        String::from_utf8_lossy(
            &[&text.as_bytes()[..from], piece.as_bytes(), &text.as_bytes()[to.min(text.len())..]].concat(),
        )
        .into_owned()
    }

    /// Where the values of fields and strings stand, by the proved reader's records.
    fn values_of_records(text: &[u8]) -> Vec<Range<usize>> {
        let records = btx::read(text).unwrap();
        let has_value = |record: &&btx::Record| {
            let name = &text[record.start..record.end.min(record.start + record.name_len)];
            record.kind == STRING
                || record.kind == FIELD && !FIXED.iter().any(|field| name.eq_ignore_ascii_case(field.as_bytes()))
        };
        let value = |record: &btx::Record| {
            let sign = text[record.start..record.end].iter().position(|byte| *byte == b'=')?;
            let start = record.start + sign + 1;
            let white = text[start..record.end].iter().position(|byte| !byte.is_ascii_whitespace())?;
            Some(start + white..record.end)
        };
        records.iter().filter(has_value).filter_map(value).collect()
    }

    #[test]
    fn the_values_are_those_of_the_proved_reader() {
        let text = "é @string{s = {ö} # \"{ä}\"}\n@misc(k, title = s # {a\"b} # 12, note=\"N{\"}ß\")\n@comment{@book{x, author = {É @a{b} ,},\n doi={1}, Author = ü }}\n@preamble{{ö}} @misc{ l}";
        let mut seen = 0;
        for from in 0..text.len() {
            for (length, piece) in
                [(0, ""), (1, ""), (0, "}"), (0, "{"), (0, "@"), (1, "\""), (2, ","), (1, "="), (0, "#"), (0, "(")]
            {
                let spoilt = spoilt(text, from, from + length, piece);
                let files = files("\\citation{*}\n", &[&spoilt]);
                let chosen = chosen(&files, &Language::named(b"hu").unwrap()).unwrap();
                let records = values_of_records(spoilt.as_bytes());
                assert_eq!(chosen.values[1], records, "{spoilt}");
                seen += records.len();
            }
        }
        assert!(seen > 5000, "{seen}");
    }
}
