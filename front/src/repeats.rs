//! Errors of an execution that repeat, of one kind, at one place of the style, and a style's warnings that differ by the key of an entry alone. The first is explained, and the
//! others are counted.

use crate::advice::{self, Section};
use crate::log::{Message, Place, Severity};
use crate::notes::Token;
use crate::scene::{Call, Scene};
use crate::terminal::plain;
use crate::text::split_first;
use std::collections::{HashMap, HashSet};

/// For how many entries it is said that an error repeats for them.
const MOST_ENTRIES: usize = 8;

/// The errors of one kind.
#[derive(Debug, Clone)]
struct Repeated<'a> {
    /// The line of the log of the first, and its place in the style.
    first: &'a [u8],
    place: Option<&'a Call>,
    /// How many there are after the first, and for which entries.
    count: u64,
    entries: Vec<&'a [u8]>,
    /// How many errors of the same EXECUTE come after one that has no entry.
    following: u64,
}

/// The kind of an error: its row of the advice, the function that met it, and the place with its token, since a line may have several.
type Sort<'a> = (usize, &'a [u8], Option<(&'a Call, Option<Token>)>);

/// The errors of an execution so far.
#[derive(Debug, Clone, Default)]
pub struct Repeats<'a> {
    by_sort: HashMap<Sort<'a>, usize>,
    /// The commands that met an error since they have no entry, with that error.
    by_command: HashMap<&'a Call, usize>,
    all: Vec<Repeated<'a>>,
}

impl<'a> Repeats<'a> {
    /// Whether an error of a style's code was met before at the same place, or follows from one; then it is counted. Of those that a value of a database makes only the same ones are. Where the style's text
    /// `has_mistakes`, its places don't matter.
    pub fn has(&mut self, line: &'a [u8], message: &Message<'a>, has_mistakes: bool) -> bool {
        let Place::Execution { function, entry } = message.place else { return false };
        let advice = advice::find(&[Section::Execution], message.text);
        let Some(advice) = advice.filter(|advice| message.severity == Severity::Error && advice.is_of_code()) else {
            return false;
        };
        let command = message.scene.map(Scene::command).filter(|call| call.function.starts_with(b"EXECUTE "));
        if let Some(first) =
            command.and_then(|command| self.by_command.get(command)).and_then(|at| self.all.get_mut(*at))
        {
            first.following += 1;
            return true;
        }
        let (next, place) = (self.all.len(), message.scene.map(|scene| &scene.at));
        let placed = message.scene.filter(|_| !has_mistakes).map(|scene| (&scene.at, scene.token));
        let sort = (advice.number, function, placed);
        let at = *self.by_sort.entry(sort).or_insert(next);
        if let Some(known) = self.all.get_mut(at) {
            known.add(entry, place);
            return true;
        }
        // (those whose places aren't known are of a kind of their own: they may stand anywhere)
        self.all.push(Repeated { first: line, place, count: 0, entries: Vec::new(), following: 0 });
        if let Some(command) = command.filter(|_| message.text == b"You can't mess with entries here") {
            self.by_command.insert(command, next);
        }
        false
    }

    /// Whether no error of a style's code was met.
    pub fn is_empty(&self) -> bool {
        self.all.is_empty()
    }

    /// What is said of those that weren't printed, for each kind; once.
    pub fn texts(&mut self) -> Vec<String> {
        std::mem::take(&mut self.all).iter().flat_map(Repeated::texts).collect()
    }
}

/// Strings that aren't defined, in values of a database: of each name the first message is explained, and the others are counted.
#[derive(Debug, Clone, Default)]
pub struct Strings<'a> {
    /// How many messages there are of a name, and the last one's place.
    by_name: HashMap<&'a [u8], (u64, Place<'a>)>,
    /// The names in their order.
    names: Vec<&'a [u8]>,
}

impl<'a> Strings<'a> {
    /// Whether a string was said before not to be defined; then it is counted.
    pub fn has(&mut self, message: &Message<'a>) -> bool {
        if !message.text.starts_with(b"string name ") {
            return false;
        }
        let advice = advice::find(&[Section::Entries], message.text);
        let Some(name) = advice.and_then(|advice| advice.undefined_string()) else { return false };
        let known = self.by_name.entry(name).or_insert((0, message.place));
        *known = (known.0 + 1, message.place);
        if known.0 == 1 {
            self.names.push(name);
        }
        known.0 > 1
    }

    /// Whether a string of this name was said not to be defined.
    pub fn is_undefined(&self, name: &[u8]) -> bool {
        self.by_name.contains_key(name)
    }

    /// What is said of those that weren't printed, for each name; once.
    pub fn texts(&mut self) -> Vec<String> {
        let text = |name: &&[u8]| {
            let (count, place) = self.by_name[name];
            let last = match place {
                Place::Line { number, file } => format!(", the last in line {number} of {}", plain(file)),
                Place::Execution { .. } | Place::Nowhere => String::new(),
            };
            let times = if count == 2 { "once more".into() } else { format!("{} times more", count - 1) };
            (count > 1).then(|| format!("The string `{}` isn't defined {times}{last}.", plain(name)))
        };
        std::mem::take(&mut self.names).iter().filter_map(text).collect()
    }
}

/// How many equal warnings of a style are shown.
const MOST_EQUAL: u64 = 8;

/// Warnings of a style that differ by an entry's key alone: the first few are shown, and the others are counted.
#[derive(Debug, Clone, Default)]
pub struct Warnings<'a> {
    /// Which of all of them it is, for the text before the key and the one after it.
    by_text: HashMap<(&'a [u8], &'a [u8]), usize>,
    all: Vec<Equal<'a>>,
}

/// Equal warnings: the first one, how many there are, and some keys of those that aren't shown.
#[derive(Debug, Clone)]
struct Equal<'a> {
    first: &'a [u8],
    count: u64,
    keys: Vec<&'a [u8]>,
}

impl<'a> Warnings<'a> {
    /// How many texts there are.
    pub fn count(&self) -> usize {
        self.all.len()
    }

    /// Whether a warning is one of those that aren't shown, since some of this text were. Its line of the log, and the key in it.
    pub fn has(&mut self, line: &'a [u8], text: &'a [u8], key: &'a [u8]) -> bool {
        let around = text.strip_suffix(key).map(|before| (before, &b""[..]));
        let around = around.or_else(|| text.strip_prefix(key).map(|after| (&b""[..], after)));
        let Some(around) = around else { return false };
        let next = self.all.len();
        let at = *self.by_text.entry(around).or_insert(next);
        if at == next {
            self.all.push(Equal { first: line, count: 0, keys: Vec::new() });
        }
        let Some(equal) = self.all.get_mut(at) else { return false };
        equal.count += 1;
        if equal.count <= MOST_EQUAL {
            return false;
        }
        if equal.keys.len() <= MOST_ENTRIES && !equal.keys.contains(&key) {
            equal.keys.push(key);
        }
        true
    }

    /// What is said of those that weren't shown, for each text; once.
    pub fn texts(&mut self) -> Vec<String> {
        let all = std::mem::take(&mut self.all);
        self.by_text.clear();
        all.iter().filter(|equal| equal.count > MOST_EQUAL).map(Equal::text).collect()
    }
}

impl Equal<'_> {
    fn text(&self) -> String {
        let count = self.count - MOST_EQUAL;
        let warnings = if count == 1 { "1 more warning is".into() } else { format!("{count} more warnings are") };
        format!("({warnings} like `{}`; for {})", plain(self.first), in_a_row(&self.keys))
    }
}

/// Keys in a row; of many the first ones.
fn in_a_row(keys: &[&[u8]]) -> String {
    let mut names: Vec<String> = keys.iter().take(MOST_ENTRIES).map(|key| plain(key)).collect();
    if keys.len() > MOST_ENTRIES {
        names.push("..".to_string());
    }
    names.join(", ")
}

/// Errors that values of a database make in the execution of a style: of each field that an entry lacks, and of each list of names, the first is explained.
#[derive(Debug, Clone, Default)]
pub struct OfData<'a> {
    /// The fields that each entry lacks, and the command that met the last one.
    lacks: HashMap<&'a [u8], (&'a Call, Vec<String>)>,
    names: HashSet<(&'a [u8], &'a [u8])>,
    /// How many errors weren't explained since they follow from another, or since they are the same of a name; and for which entries the latter are.
    follow: u64,
    same: u64,
    keys: Vec<&'a [u8]>,
    /// How many errors weren't explained since they only ask for another name of a list that was asked for too many.
    numbers: u64,
}

impl<'a> OfData<'a> {
    /// Whether an error is about a field or a name of which one was explained, or follows from that; then it is counted. The field is the one that it shows to be `lacked`.
    pub fn has(&mut self, message: &Message<'a>, lacked: Option<String>) -> bool {
        const OF_STACK: [&[u8]; 2] = [b"You can't pop an empty literal stack", b"The literal stack isn't empty"];
        let Place::Execution { entry: Some(key), .. } = message.place else { return false };
        let Some(advice) = advice::find(&[Section::Execution], message.text) else { return false };
        if advice.is_of_name() {
            return self.has_name(key, message.text);
        }
        if advice.is_of_number_of_name() {
            return self.has_number(key, message.text);
        }
        let Some(command) = message.scene.map(Scene::command) else { return false };
        let is_known = match (self.lacks.get_mut(key), lacked) {
            (Some((_, fields)), Some(field)) if fields.contains(&field) => true,
            (Some((last, _)), None) => *last == command && OF_STACK.contains(&message.text),
            (Some((last, fields)), Some(field)) => {
                *last = command;
                fields.push(field);
                false
            }
            (None, Some(field)) => {
                self.lacks.insert(key, (command, vec![field]));
                false
            }
            (None, None) => false,
        };
        self.follow += u64::from(is_known);
        is_known
    }

    /// Whether this error of a name of an entry was explained; then it is counted.
    fn has_name(&mut self, key: &'a [u8], text: &'a [u8]) -> bool {
        let is_known = !self.names.insert((key, text));
        self.same += u64::from(is_known);
        if is_known && self.keys.len() <= MOST_ENTRIES && !self.keys.contains(&key) {
            self.keys.push(key);
        }
        is_known
    }

    /// Whether for this list of names of an entry another name that isn't there was asked for; then it is counted.
    fn has_number(&mut self, key: &'a [u8], text: &'a [u8]) -> bool {
        let names = split_first(text, b" in \"").map_or(text, |(_, names)| names);
        let is_known = !self.names.insert((key, names));
        self.numbers += u64::from(is_known);
        is_known
    }

    /// What is said of those that weren't explained since this was asked last.
    pub fn texts(&mut self) -> Vec<String> {
        let numbers = std::mem::take(&mut self.numbers);
        let (follow, same, keys) =
            (std::mem::take(&mut self.follow), std::mem::take(&mut self.same), std::mem::take(&mut self.keys));
        let errors = |count: u64, one: &str, more: &str| match count {
            0 => None,
            1 => Some(format!("(1 more error {one}")),
            count => Some(format!("({count} more errors {more}")),
        };
        let follow = errors(follow, "follows", "follow").map(|text| format!("{text} from that)"));
        let names = || format!("the same, for {}: the style takes these names more than once)", in_a_row(&keys));
        let same = errors(same, "is", "are").map(|text| format!("{text} {}", names()));
        let numbers = errors(numbers, "asks", "ask").map(|text| {
            format!("{text} for further names of that list: a loop of the style counts on past its last name)")
        });
        follow.into_iter().chain(same).chain(numbers).collect()
    }
}

impl<'a> Repeated<'a> {
    /// Counts one more, for this entry. No line is said where they aren't all at one place, or aren't known to be.
    fn add(&mut self, entry: Option<&'a [u8]>, place: Option<&'a Call>) {
        self.count += 1;
        self.place = self.place.filter(|first| Some(*first) == place);
        let is_new = |entry: &&[u8]| self.entries.len() <= MOST_ENTRIES && !self.entries.contains(entry);
        let new = entry.filter(is_new);
        self.entries.extend(new);
    }

    fn texts(&self) -> Vec<String> {
        let count = |count: u64, one: &str, more: &str| match count {
            0 => None,
            1 => Some(format!("1 more error {one}")),
            count => Some(format!("{count} more errors {more}")),
        };
        let line = self
            .place
            .filter(|call| call.line > 0)
            .map_or(String::new(), |call| format!(" in line {} of the style", call.line));
        let first = format!("`{}`{line}", plain(self.first));
        let names = in_a_row(&self.entries);
        let names = if names.is_empty() { String::new() } else { format!("; for {names}") };
        let like = count(self.count, "is", "are").map(|text| format!("({text} like {first}{names})"));
        let follows = count(self.following, "follows", "follow").map(|text| format!("({text} from {first})"));
        like.into_iter().chain(follows).collect()
    }
}

#[cfg(test)]
mod tests {
    use super::*;
    use crate::log::{Content, Log};

    #[test]
    fn warnings_are_counted_by_their_text() {
        let keys: Vec<String> = (1..=20).map(|number| format!("e{number}")).collect();
        let texts: Vec<String> = keys.iter().map(|key| format!("empty journal in {key}")).collect();
        let mut warnings = Warnings::default();
        let had = texts.iter().zip(&keys).filter(|(text, key)| warnings.has(b"first", text.as_bytes(), key.as_bytes()));
        assert_eq!(had.count(), 12);
        assert!(warnings.has(b"first", b"empty journal in e9", b"e9"));
        assert!(!warnings.has(b"other", b"empty year in e1", b"e1"));
        assert!(!warnings.has(b"other", b"nothing", b"e1"));
        let wanted = "(13 more warnings are like `first`; for e9, e10, e11, e12, e13, e14, e15, e16, ..)";
        assert_eq!(warnings.texts(), [wanted]);
        assert!(warnings.texts().is_empty());
    }

    #[test]
    fn errors_of_one_name_are_counted() {
        let log = b"Error--Too many commas in name 1 of \"x\" while executing format.name$ for entry a\n\
            Error--Too many commas in name 2 of \"x\" while executing format.name$ for entry a\n\
            Error--Too many commas in name 1 of \"x\" while executing format.name$ for entry a\n\
            Error--Too many commas in name 1 of \"x\" while executing format.name$ for entry b\n";
        let mut data = OfData::default();
        let mut had = Vec::new();
        for line in Log::new(log).lines() {
            let Content::Message(message) = line.content else { panic!() };
            had.push(data.has(&message, None));
        }
        assert_eq!(had, [false, false, true, false]);
        let wanted = "(1 more error is the same, for a: the style takes these names more than once)";
        assert_eq!(data.texts(), [wanted]);
        assert!(data.texts().is_empty());
    }

    #[test]
    fn names_that_are_not_there_are_counted() {
        let error = |number: u32, names: &str, key: &str| {
            format!(
                "Error--There is no name number {number} in \"{names}\" while executing format.name$ for entry {key}\n"
            )
        };
        let log = [error(2, "x", "a"), error(3, "x", "a"), error(4, "x", "a"), error(2, "x", "b"), error(2, "y", "a")];
        let log = log.concat();
        let mut data = OfData::default();
        let mut had = Vec::new();
        for line in Log::new(log.as_bytes()).lines() {
            let Content::Message(message) = line.content else { panic!() };
            had.push(data.has(&message, None));
        }
        assert_eq!(had, [false, true, true, false, false]);
        let wanted =
            "(2 more errors ask for further names of that list: a loop of the style counts on past its last name)";
        assert_eq!(data.texts(), [wanted]);
    }

    #[test]
    fn errors_of_one_field_are_counted() {
        let at = |line| Call { function: b"ITERATE {call.type$}".to_vec(), file: b"s.bst".to_vec(), line };
        let scenes = [1, 1, 1, 2, 1].map(|line| Scene {
            at: at(line),
            token: None,
            callers: Vec::new(),
            caller_tokens: Vec::new(),
            stack: Vec::new(),
            origins: Vec::new(),
        });
        let texts = ["missing field is not a string", "x is not a string", "You can't pop an empty literal stack"];
        let lacked = |number: usize| [Some("author"), Some("author"), None, None, None][number].map(String::from);
        let mut data = OfData::default();
        let mut has = |number: usize, text: usize| {
            let place = Place::Execution { function: b"write$", entry: Some(b"k") };
            let scene = Some(&scenes[number]);
            let (severity, text) = (Severity::Error, texts[text].as_bytes());
            data.has(&Message { severity, text, place, met: None, scene }, lacked(number))
        };
        assert_eq!([has(0, 0), has(1, 0), has(2, 2), has(3, 2), has(4, 1)], [false, true, true, false, false]);
    }

    #[test]
    fn errors_of_code_are_counted() {
        let log = b"Error--1 is not a string while executing := for entry a\nError--2 is not a string while executing := for entry b\n\
            Error--2 is not a string while executing * for entry b\nError--Too many commas in name 1 of \"x\" while executing format.name$ for entry a\n\
            Error--Too many commas in name 1 of \"x\" while executing format.name$ for entry b\nError--3 is not a string while executing := for entry b\n";
        let mut repeats = Repeats::default();
        let mut had = Vec::new();
        for line in Log::new(log).lines() {
            let Content::Message(message) = line.content else { panic!() };
            had.push(repeats.has(line.bytes, &message, false));
        }
        assert_eq!(had, [false, true, false, false, false, true]);
        let wanted = "(2 more errors are like `Error--1 is not a string while executing := for entry a`; for b)";
        assert_eq!(repeats.texts(), [wanted]);
        assert!(repeats.texts().is_empty());
    }
}
