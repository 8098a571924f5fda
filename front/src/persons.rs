//! Lists of names that a run reads otherwise than their author meant them: no-break spaces between words, a whole list in a second pair of braces, a last name before the first one without a comma.

use crate::advice::Seen;
use crate::database::Inside;
use crate::doubts::{Doubt, is_suffix};
use crate::entries::{Entries, Stored};
use crate::letter_values::texts;
use crate::terminal::plain;
use crate::text::find;
use crate::unsaid::is_word_of_organization;
use std::collections::{HashMap, HashSet};

/// The names of how many entries are looked through for an exchanged one.
const MOST_ENTRIES: usize = 5_000;
/// The fewest letters of a name that isn't an initial.
const LEAST_LETTERS: usize = 3;
/// The most words of a person's name.
const MOST_WORDS: usize = 5;

/// Spaces that look like that of the keyboard, and at which no words are parted.
const SPACES: [(&str, &str); 3] = [("\u{A0}", "U+00A0"), ("\u{2009}", "U+2009"), ("\u{202F}", "U+202F")];

/// Words of organizations that may be persons' names too, so that they tell nothing where no list stands in braces; `python/btx/doubts.py` has the same.
#[rustfmt::skip]
const OF_COMPANIES: [&str; 17] = [
    "administration", "agency", "authority", "board", "co", "companies", "company", "corp", "division", "inc", "limited", "ltd", "museum", "office", "press", "service", "services",
];

/// What is seen in a list of names by itself. `is_first` says whether a word is known as somebody's first name.
pub fn doubt(names: &[u8], is_first: impl Fn(&[u8]) -> bool) -> Option<Doubt> {
    other_space(names).or_else(|| list_in_braces(names, is_first))
}

/// Whether each place of a text stands outside of braces.
fn outside(text: &[u8]) -> impl Iterator<Item = bool> + '_ {
    text.iter().scan(0_i64, |depth, byte| {
        *depth += i64::from(*byte == b'{') - i64::from(*byte == b'}');
        Some(*depth <= 0)
    })
}

/// A space of another kind, at best one beside `and`.
fn other_space(names: &[u8]) -> Option<Doubt> {
    let (mut first, mut beside) = (None, None);
    for (at, is_outside) in outside(names).enumerate().filter(|(at, _)| names[*at] >= 0x80) {
        let row = SPACES.iter().find(|(space, _)| is_outside && names[at..].starts_with(space.as_bytes()));
        let Some((space, code)) = row else { continue };
        let is_and = is_before_and(&names[at + space.len()..]) || is_after_and(&names[..at]);
        beside = beside.or(is_and.then_some((at, *code)));
        first = first.or(Some((at, *code)));
    }
    let seen = if beside.is_some() { Seen::NoBreakAtAnd } else { Seen::NoBreakInName };
    beside.or(first).map(|(place, code)| Doubt { place, seen, names: vec![code.into()] })
}

/// Whether a byte begins or ends a space, of whichever kind.
fn is_space(byte: Option<&u8>) -> bool {
    byte.is_some_and(|byte| byte.is_ascii_whitespace() || *byte >= 0x80)
}

fn is_before_and(text: &[u8]) -> bool {
    text.get(..3).is_some_and(|word| word.eq_ignore_ascii_case(b"and")) && is_space(text.get(3))
}

fn is_after_and(text: &[u8]) -> bool {
    let Some(before) = text.len().checked_sub(3) else { return false };
    text[before..].eq_ignore_ascii_case(b"and") && is_space(text[..before].last())
}

/// A list of several persons that is one name, since all of it stands in braces of its own.
fn list_in_braces(names: &[u8], is_first: impl Fn(&[u8]) -> bool) -> Option<Doubt> {
    let trimmed = names.trim_ascii();
    let inside = trimmed.strip_prefix(b"{")?.strip_suffix(b"}")?;
    if outside(&trimmed[..trimmed.len() - 1]).any(|is_outside| is_outside) {
        return None;
    }
    let words: Vec<&[u8]> = words_of(inside).collect();
    let all: Vec<&[&[u8]]> = words.split(|word| word.eq_ignore_ascii_case(b"and")).collect();
    let is_list = all.len() > 1 && all.iter().all(|name| is_person(name, &is_first));
    let place = names.len() - names.trim_ascii_start().len();
    is_list.then_some(Doubt { place, seen: Seen::ListInBraces, names: Vec::new() })
}

fn words_of(names: &[u8]) -> impl Iterator<Item = &[u8]> {
    names.split(|byte| byte.is_ascii_whitespace() || *byte == b'~').filter(|word| !word.is_empty())
}

/// Whether words are a person's name: `Last, First`, or a few words that begin with capital letters, one of them an initial or the first one a known first name.
fn is_person(name: &[&[u8]], is_first: impl Fn(&[u8]) -> bool) -> bool {
    let begins_large = |word: &&[u8]| word.first().is_some_and(|byte| !byte.is_ascii_lowercase());
    let is_initial = |word: &&[u8]| matches!(word, [letter, b'.'] if letter.is_ascii_uppercase());
    let commas = name.iter().filter(|word| word.ends_with(b",")).count();
    let has_comma = commas == 1 && name.last().is_some_and(|last| !last.ends_with(b","));
    let has_size = name.len() > 1 && name.len() <= MOST_WORDS;
    let shows_first = || name.iter().any(is_initial) || name.first().is_some_and(|word| is_first(word));
    let is_one = has_comma || commas == 0 && name.iter().all(begins_large) && shows_first();
    has_size && is_one && !name.iter().any(|word| is_word_of_organization(word) || is_of_company(word))
}

/// Whether a word, with or without a comma or a point after it, is one of a company or the like.
fn is_of_company(word: &[u8]) -> bool {
    let word = word.strip_suffix(b",").unwrap_or(word);
    let word = word.strip_suffix(b".").unwrap_or(word);
    OF_COMPANIES.iter().any(|known| word.eq_ignore_ascii_case(known.as_bytes()))
}

// ---- exchanged names ----

/// How often a word is a first name, and how often a last name, of different names.
#[derive(Debug, Clone, Copy, Default)]
struct Uses {
    first: usize,
    last: usize,
}

/// The first and the last names of the persons of all databases.
#[derive(Debug, Default)]
pub struct Persons {
    uses: HashMap<Vec<u8>, Uses>,
    /// All names, in lower case, with a space between two words.
    names: HashSet<Vec<u8>>,
}

impl Persons {
    /// Looks through the entries of all databases.
    pub fn of(entries: &Entries<'_>) -> Persons {
        let mut persons = Persons::default();
        for stored in entries.each().take(MOST_ENTRIES) {
            for names in lists_of(stored) {
                for name in names.split(|word| word.eq_ignore_ascii_case(b"and")) {
                    if persons.names.insert(name.join(&b' ').to_ascii_lowercase()) {
                        persons.add(name);
                    }
                }
            }
        }
        persons
    }

    /// Counts the words of a name.
    fn add(&mut self, name: &[&[u8]]) {
        let comma = name.iter().position(|word| word.ends_with(b","));
        let (first, last) = match comma {
            Some(comma) => (name.get(comma + 1), name.get(comma)),
            None if name.len() > 1 => (name.first(), name.iter().rfind(|word| !is_suffix(word))),
            None => (None, None),
        };
        let mut uses = |word: Option<&&[u8]>, add: fn(&mut Uses)| {
            let Some(word) = word else { return };
            let word = word.strip_suffix(b",").unwrap_or(word).to_ascii_lowercase();
            add(self.uses.entry(word).or_default());
        };
        uses(first, |uses| uses.first += 1);
        uses(last, |uses| uses.last += 1);
    }

    fn uses(&self, word: &[u8]) -> Uses {
        self.uses.get(&word.to_ascii_lowercase()).copied().unwrap_or_default()
    }

    /// Whether a word is somebody's first name.
    pub fn is_first(&self, word: &[u8]) -> bool {
        self.uses(word).first > 0
    }

    /// A name of two words of which the first one is the last name, as other names and the entry's key show it.
    pub fn exchanged(&self, names: &[u8], key: &[u8]) -> Option<Doubt> {
        if names.iter().any(|byte| matches!(byte, b'{' | b',')) {
            return None;
        }
        let words: Vec<&[u8]> = words_of(names).collect();
        let mut pairs = words.split(|word| word.eq_ignore_ascii_case(b"and"));
        pairs.find_map(|name| match name {
            [family, given] if self.is_exchanged(family, given, key) => {
                let place = given.as_ptr() as usize - names.as_ptr() as usize;
                let (family, given) = (plain(family), plain(given));
                let said = vec![format!("{family}, {given}"), format!("{given} {family}"), given];
                Some(Doubt { place, seen: Seen::NamesExchanged, names: said })
            }
            _ => None,
        })
    }

    fn is_exchanged(&self, family: &[u8], given: &[u8], key: &[u8]) -> bool {
        let is_whole = |word: &[u8]| word.len() >= LEAST_LETTERS && !word.contains(&b'.');
        let (its, others) = (self.uses(family), self.uses(given));
        let key = key.to_ascii_lowercase();
        let is_of_key = key.starts_with(&family.to_ascii_lowercase());
        let names_other = find(&key, &given.to_ascii_lowercase()).is_some();
        // (the name itself counts once as well)
        let is_known = others.first > 0 && others.last == 1 && its.first == 1;
        // (of two names that stand against each other neither tells; python/btx/doubts.py has the same)
        let has_other = self.names.contains(&[given, family].join(&b' ').to_ascii_lowercase());
        let is_shown = is_known && !has_other && !names_other && (its.last > 0 || is_of_key);
        is_whole(family) && is_whole(given) && is_shown
    }
}

/// The lists of names of an entry, each as its words.
fn lists_of<'a>(stored: Stored<'_, 'a>) -> Vec<Vec<&'a [u8]>> {
    let bytes = stored.database.text.bytes;
    let inside = Inside::of(bytes, stored.item);
    let of_names = |name: &[u8]| name.eq_ignore_ascii_case(b"author") || name.eq_ignore_ascii_case(b"editor");
    let lists = inside.fields.iter().zip(&inside.values).filter(|(name, _)| of_names(name));
    let texts = lists.flat_map(|(_, value)| texts(bytes, value));
    texts.map(|text| &bytes[text]).filter(|text| !text.contains(&b'{')).map(|text| words_of(text).collect()).collect()
}

#[cfg(test)]
mod tests {
    use super::*;
    use crate::job::{File, Files};

    fn seen(names: &str) -> Option<(usize, Seen)> {
        doubt(names.as_bytes(), |word| word == b"Ann").map(|doubt| (doubt.place, doubt.seen))
    }

    #[test]
    fn no_break_spaces_part_no_words() {
        assert_eq!(seen("A. Bee\u{A0}and\u{A0}C. Dee"), Some((6, Seen::NoBreakAtAnd)));
        assert_eq!(seen("A.\u{A0}Bee and\u{202F}C. Dee"), Some((11, Seen::NoBreakAtAnd)));
        assert_eq!(seen("A.\u{A0}Bee and C. Dee"), Some((2, Seen::NoBreakInName)));
        for whole in ["Émile Zola and C. Dee", "{A.\u{A0}Bee}", "A. Bee and C. Dee", ""] {
            assert_eq!(seen(whole), None, "{whole}");
        }
    }

    #[test]
    fn a_list_in_braces_is_one_name() {
        for list in ["{Rivest, R. L. and Shamir, A.}", "{Ann Bee and C. Dee}", " {Bee, Zo{\\\"e} and C. Dee}"] {
            assert_eq!(seen(list).map(|(_, seen)| seen), Some(Seen::ListInBraces), "{list}");
        }
        for one in [
            "{Centre for Disease Prevention and Control}",
            "{Food and Drug Administration}",
            "{Smith and Sons}",
            "{Ann Bee} and {C. Dee}",
            "{Bell Laboratories and Ann Bee}",
            "{Ann Bee}",
            "{National Aeronautics and Space Administration}",
            "{U.S. Fish and Wildlife Service}",
            "{Standards Australia and Standards New Zealand}",
            "{Pantagraph Printing and Stationery Company}",
            "{Dee, Bee and Ann Company, Inc.}",
            "{A. Bee and Press Limited}",
            "{Zoe Bee and C. Dee}",
            "",
        ] {
            assert_eq!(seen(one), None, "{one}");
        }
    }

    #[test]
    fn a_last_name_before_the_first_is_seen_where_the_databases_show_it() {
        let exchanged = |others: &str, key: &str, names: &str| {
            let text = format!("@misc{{{key}, author = {{{names}}}}}\n@misc{{o, editor = {{{others}}}}}");
            let file = File { name: b"d.bib".to_vec(), bytes: Some(text.into()), path: Vec::new() };
            let files = Files { top: b"a.aux".to_vec(), all: vec![file] };
            let found = Persons::of(&Entries::new(&files)).exchanged(names.as_bytes(), key.as_bytes());
            found.map(|doubt| (doubt.place, doubt.names[0].clone()))
        };
        let found = Some((9, "McCarthy, John".to_string()));
        assert_eq!(exchanged("John D. Hobby", "mccarthy1960", "McCarthy John"), found);
        assert_eq!(exchanged("McCarthy, John", "k", "McCarthy John"), found);
        assert_eq!(exchanged("John McCarthy Hobby", "mccarthy1960", "McCarthy John"), found);
        assert_eq!(exchanged("John D. Hobby", "k", "McCarthy John"), None);
        assert_eq!(exchanged("Ann Bee", "mccarthy1960", "McCarthy John"), None);
        assert_eq!(exchanged("Gay, Ann and Walker Bee", "walker1988", "Gay Walker"), None);
        assert_eq!(exchanged("Elton John and John Dee", "mccarthy1960", "McCarthy John"), None);
        assert_eq!(exchanged("John Dee", "john1960", "John McCarthy"), None);
        assert_eq!(exchanged("McCarthy, John", "k", "John McCarthy and McCarthy John"), None);
        assert_eq!(exchanged("John~McCarthy", "mccarthy1960", "McCarthy John"), None);
        assert_eq!(exchanged("john mccarthy and McCarthy, John", "k", "McCarthy John"), None);
    }
}
