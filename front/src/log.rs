//! The messages of a log, as the library writes it: each stands on a line of its own. `docs/RULES.md` has the forms of the lines.
//!
//! A style can write what it likes into the log (`warning$`, `top$`, even ends of lines), so a line is a message with a place only if its
//! text is one that has such a place, and a file is one that was found only where the log's beginning says so.

use crate::advice::{self, Section};
use crate::event_places::{EventPlace, LogPlaces, Placed, take_place};
use crate::notes::Token;
use crate::scene::{End, Scene, Scenes};
use crate::text::{split_first, split_last, split_line};
use std::collections::{HashMap, btree_map};
use std::iter::Peekable;
use std::ops::Range;

/// How grave a message is.
#[derive(Debug, Clone, Copy, PartialEq, Eq)]
pub enum Severity {
    /// It makes the status 2.
    Error,
    /// It doesn't.
    Warning,
}

/// Where a message stands, as far as its line says.
#[derive(Debug, Clone, Copy, PartialEq, Eq)]
pub enum Place<'a> {
    /// In a line of a file.
    Line {
        /// The line, counted from 1.
        number: usize,
        /// The file's name, as the job has it.
        file: &'a [u8],
    },
    /// In the execution of a style.
    Execution {
        /// What was executed: a built-in function, a variable or a field, or a command, in capitals.
        function: &'a [u8],
        /// The key of the current entry.
        entry: Option<&'a [u8]>,
    },
    /// Nowhere that the line says.
    Nowhere,
}

/// An error or a warning.
#[derive(Debug, Clone, Copy, PartialEq, Eq)]
pub struct Message<'a> {
    /// Which of the two it is.
    pub severity: Severity,
    /// What it says, without its place.
    pub text: &'a [u8],
    /// Where it stands, as far as its line says.
    pub place: Place<'a>,
    /// Where it was met, if the run's events have that.
    pub met: Option<&'a EventPlace>,
    /// What was called and on the stack, if somebody found that out.
    pub scene: Option<&'a Scene>,
}

/// The last line of a log: how the run ended.
#[derive(Debug, Clone, Copy, PartialEq, Eq)]
pub struct Ended<'a> {
    /// `finished`, `stopped`, `limit calls`, ..
    pub how: &'a [u8],
    /// How many warnings there are.
    pub warnings: u64,
    /// How many errors there are.
    pub errors: u64,
    /// How many steps the style took.
    pub steps: u64,
}

impl Ended<'_> {
    /// Whether the run came to its end, without a message.
    pub fn is_clean(&self) -> bool {
        self.is_finished() && self.warnings == 0 && self.errors == 0
    }

    /// Whether all commands of the style were done.
    pub fn is_finished(&self) -> bool {
        self.how == b"finished"
    }
}

/// What a line of a log is.
#[derive(Debug, Clone, Copy, PartialEq, Eq)]
pub enum Content<'a> {
    /// The file of this name was found.
    Found(&'a [u8]),
    /// A message.
    Message(Message<'a>),
    /// The end of the run.
    Ended(Ended<'a>),
    /// Anything else: a literal that is shown, or what a style writes.
    Other,
}

/// A line of a log.
#[derive(Debug, Clone, Copy, PartialEq, Eq)]
pub struct Line<'a> {
    /// Its bytes, without the end of the line.
    pub bytes: &'a [u8],
    /// How many bytes of the log come before it.
    pub at: usize,
    /// What it is.
    pub content: Content<'a>,
}

/// A log as the library wrote it.
#[derive(Debug, Clone, Copy)]
pub struct Log<'a> {
    bytes: &'a [u8],
    /// The parts that look like messages and are none, in their order.
    printed: &'a [Range<usize>],
    /// Where the messages were met, if the run's events say so.
    places: Option<&'a LogPlaces>,
    scenes: Option<&'a Scenes>,
    /// Whether a signal ended the run.
    pub is_interrupted: bool,
    /// The list that the run wrote; empty where it isn't at hand.
    pub list: &'a [u8],
}

impl<'a> Log<'a> {
    /// The log that these bytes are.
    pub fn new(bytes: &'a [u8]) -> Self {
        Log { bytes, printed: &[], places: None, scenes: None, is_interrupted: false, list: b"" }
    }

    /// The same log, in which no message begins in these parts, since a style printed them.
    pub fn with_printed(self, printed: &'a [Range<usize>]) -> Self {
        Log { printed, ..self }
    }

    /// The same log, of a run that wrote this list.
    pub fn with_list(self, list: &'a [u8]) -> Self {
        Log { list, ..self }
    }

    /// The same log, whose messages were met at these places.
    pub fn with_places(self, places: &'a LogPlaces) -> Self {
        Log { places: Some(places), ..self }
    }

    /// The same log, of a run that a signal ended or didn't: it was stopped by that, and not by the budget that was asked for.
    pub fn interrupted(self, is_interrupted: bool) -> Self {
        Log { is_interrupted, ..self }
    }

    /// The same log, with the places in the style that somebody found out.
    pub fn with_scenes(self, scenes: &'a Scenes) -> Self {
        Log { scenes: Some(scenes), ..self }
    }

    /// Whether it is known of the first errors alone where the style stood.
    pub fn has_first_places(&self) -> bool {
        self.places.is_some_and(|places| places.are_first) || self.scenes.is_some_and(|scenes| scenes.are_first)
    }

    /// Where the style stood when the run ended early, if somebody found that out.
    pub fn scene_of_end(&self) -> Option<&'a End> {
        self.scenes?.end.as_ref()
    }

    /// The lines of the log, in their order. They aren't kept: a log may have millions.
    pub fn lines(&self) -> Lines<'a> {
        let (places, errors) = (self.places.map_or(&[][..], |places| &places.known), Errors::of(self.scenes));
        Lines { rest: self.bytes, at: 0, printed: self.printed, places, part: Part::AuxFiles, errors }
    }
}

/// The parts of a log, each of which says other things.
#[derive(Debug, Clone, Copy, PartialEq, Eq)]
enum Part {
    /// The `.aux` files and their errors, then the style.
    AuxFiles,
    /// The databases.
    Databases,
    /// The run.
    Run,
}

/// The errors of a log, counted as they come, with what is known of those that are still to come.
#[derive(Debug, Clone)]
struct Errors<'a> {
    count: usize,
    scenes: Peekable<btree_map::Iter<'a, usize, Scene>>,
    by_token: Option<&'a HashMap<Token, Scene>>,
}

impl<'a> Errors<'a> {
    fn of(scenes: Option<&'a Scenes>) -> Errors<'a> {
        let first = scenes.map(|scenes| scenes.errors.iter()).unwrap_or_default().peekable();
        Errors { count: 0, scenes: first, by_token: scenes.map(|scenes| &scenes.by_token) }
    }

    /// The scene of the next error, which was met at this place.
    fn next_scene(&mut self, met: Option<&EventPlace>) -> Option<&'a Scene> {
        let number = self.count;
        self.count += 1;
        let own = self.scenes.next_if(|(of, _)| **of == number).map(|(_, scene)| scene);
        own.or_else(|| self.by_token?.get(&met?.token?))
    }
}

/// The lines of a log.
#[derive(Debug, Clone)]
pub struct Lines<'a> {
    rest: &'a [u8],
    /// How many bytes of the log come before the rest.
    at: usize,
    /// The parts without a message that don't end before that.
    printed: &'a [Range<usize>],
    /// Those of messages that don't begin before that.
    places: &'a [Placed],
    part: Part,
    errors: Errors<'a>,
}

impl<'a> Iterator for Lines<'a> {
    type Item = Line<'a>;

    fn next(&mut self) -> Option<Line<'a>> {
        if self.rest.is_empty() {
            return None;
        }
        let (bytes, rest) = split_line(self.rest);
        let (at, is_printed) = (self.at, self.is_printed());
        self.at += self.rest.len() - rest.len();
        self.rest = rest;
        Some(Line { bytes, at, content: if is_printed { Content::Other } else { self.content(bytes, at) } })
    }

    /// The last line. Those before it aren't read.
    fn last(mut self) -> Option<Line<'a>> {
        let whole = self.rest.strip_suffix(b"\n").unwrap_or(self.rest);
        let start = whole.iter().rposition(|byte| *byte == b'\n').map_or(0, |end| end + 1);
        self.at += start;
        self.rest = &self.rest[start..];
        self.next()
    }
}

impl<'a> Lines<'a> {
    /// Whether the style printed what the next line has, and it only looks like a message.
    fn is_printed(&mut self) -> bool {
        while let Some((first, others)) = self.printed.split_first()
            && first.end < self.at
        {
            self.printed = others;
        }
        self.printed.first().is_some_and(|first| first.contains(&self.at))
    }

    fn content(&mut self, line: &'a [u8], at: usize) -> Content<'a> {
        if let Some(name) = self.found(line) {
            return Content::Found(name);
        }
        if let Some(text) = line.strip_prefix(b"Error--") {
            let met = take_place(&mut self.places, at);
            return Content::Message(Message { met, scene: self.errors.next_scene(met), ..error(text) });
        }
        if let Some(text) = line.strip_prefix(b"Warning--") {
            return Content::Message(Message { met: take_place(&mut self.places, at), ..warning(text) });
        }
        let end = if self.rest.is_empty() { ended(line) } else { None };
        end.map_or(Content::Other, Content::Ended)
    }

    /// The name of the file, if this line says that one was found.
    fn found(&mut self, line: &'a [u8]) -> Option<&'a [u8]> {
        match self.part {
            Part::AuxFiles => {
                let style = line.strip_prefix(b"The style file: ");
                if style.is_some() || line.starts_with(b"Error--I couldn't open style file ") {
                    self.part = Part::Databases;
                    return style;
                }
                let found = line.strip_prefix(b"The top-level auxiliary file: ");
                let found = found.or_else(|| counted(line, b"A level-", b" auxiliary file: "));
                self.goes_on(found, line.starts_with(b"Error--"))
            }
            Part::Databases => {
                let found = counted(line, b"Database file #", b": ");
                self.goes_on(found, line.starts_with(b"Error--I couldn't open database file "))
            }
            Part::Run => None,
        }
    }

    fn goes_on(&mut self, found: Option<&'a [u8]>, is_its_error: bool) -> Option<&'a [u8]> {
        if found.is_none() && !is_its_error {
            self.part = Part::Run;
        }
        found
    }
}

/// The message that these bytes of a log are: one whose text has ends of lines in it stands on several.
pub fn message_of(bytes: &[u8]) -> Option<Message<'_>> {
    let found = bytes.strip_prefix(b"Error--").map(error);
    found.or_else(|| bytes.strip_prefix(b"Warning--").map(warning))
}

/// Whether a line looks like an error or a warning.
pub fn looks_like_message(line: &[u8]) -> bool {
    line.starts_with(b"Error--") || line.starts_with(b"Warning--")
}

/// The name in a line `BEFORE N BEHIND NAME`, without the spaces.
fn counted<'a>(line: &'a [u8], before: &[u8], behind: &[u8]) -> Option<&'a [u8]> {
    let (digits, name) = split_first(line.strip_prefix(before)?, behind)?;
    number(digits).map(|_| name)
}

/// The number that these digits are, of at most twelve.
fn number(digits: &[u8]) -> Option<u64> {
    let are_digits = (1..=12).contains(&digits.len()) && digits.iter().all(u8::is_ascii_digit);
    are_digits.then(|| digits.iter().fold(0, |number, digit| 10 * number + u64::from(digit - b'0')))
}

/// The error of this text.
fn error(text: &[u8]) -> Message<'_> {
    let placed = in_line(text).or_else(|| in_execution(text));
    let (text, place) = placed.unwrap_or((text, Place::Nowhere));
    Message { severity: Severity::Error, text, place, met: None, scene: None }
}

/// The warning of this text. A style's own warning may end as others do, but has no place.
fn warning(text: &[u8]) -> Message<'_> {
    let is_of_entries = |text| advice::find(&[Section::Entries], text).is_some();
    let is_of_execution = |text| advice::find(&[Section::Execution], text).is_some();
    let placed = if text.starts_with(b"string of ") {
        in_execution(text).filter(|(text, _)| is_of_execution(text))
    } else {
        in_line(text).filter(|(text, _)| is_of_entries(text))
    };
    let (text, place) = placed.unwrap_or((text, Place::Nowhere));
    Message { severity: Severity::Warning, text, place, met: None, scene: None }
}

/// A text that ends in `--line N of file F`, and that place.
fn in_line(text: &[u8]) -> Option<(&[u8], Place<'_>)> {
    let (before, place) = split_last(text, b"--line ")?;
    let (digits, file) = split_first(place, b" of file ")?;
    let number = usize::try_from(number(digits)?).ok()?;
    Some((before, Place::Line { number, file }))
}

/// A text that ends in ` while executing NAME`, or in that and ` for entry KEY`, and that place. Neither has whitespace in it.
fn in_execution(text: &[u8]) -> Option<(&[u8], Place<'_>)> {
    let (before, last) = split_last(text, b" ")?;
    if let Some(before) = before.strip_suffix(b" while executing") {
        return Some((before, Place::Execution { function: last, entry: None }));
    }
    let (before, function) = split_last(before.strip_suffix(b" for entry")?, b" ")?;
    let before = before.strip_suffix(b" while executing")?;
    Some((before, Place::Execution { function, entry: Some(last) }))
}

/// The end of a run that this line says.
fn ended(line: &[u8]) -> Option<Ended<'_>> {
    let (how, counts) = split_first(line.strip_prefix(b"Ended: ")?, b", warnings ")?;
    let (warnings, counts) = split_first(counts, b", errors ")?;
    let (errors, steps) = split_first(counts, b", steps ")?;
    Some(Ended { how, warnings: count(warnings)?, errors: count(errors)?, steps: count(steps)? })
}

fn count(digits: &[u8]) -> Option<u64> {
    std::str::from_utf8(digits).ok()?.parse().ok()
}

#[cfg(test)]
mod tests {
    use super::*;

    fn contents(log: &[u8]) -> Vec<Content<'_>> {
        Log::new(log).lines().map(|line| line.content).collect()
    }

    fn message(line: &[u8]) -> Message<'_> {
        match Log::new(line).lines().next().map(|line| line.content) {
            Some(Content::Message(message)) => message,
            other => panic!("no message: {other:?}"),
        }
    }

    fn at_line<'a>(number: usize, file: &'a [u8]) -> Place<'a> {
        Place::Line { number, file }
    }

    #[test]
    fn errors_have_their_place() {
        let placed = message(b"Error--I was expecting an =--line 7 of file a b.bib");
        assert_eq!((placed.severity, placed.text), (Severity::Error, &b"I was expecting an ="[..]));
        assert_eq!(placed.place, at_line(7, b"a b.bib"));
        let executed = message(b"Error--\"a while executing b\" is not an integer while executing + for entry k");
        assert_eq!(executed.text, b"\"a while executing b\" is not an integer");
        assert_eq!(executed.place, Place::Execution { function: b"+", entry: Some(b"k") });
        let of_no_key = message(b"Error--Integer overflow while executing + for entry ");
        assert_eq!(of_no_key.place, Place::Execution { function: b"+", entry: Some(b"") });
        let alone = message(b"Error--You can't mess with entries here while executing cite$");
        assert_eq!(alone.place, Place::Execution { function: b"cite$", entry: None });
        assert_eq!(message(b"Error--I found no \\bibdata command").place, Place::Nowhere);
    }

    #[test]
    fn names_may_have_any_bytes() {
        assert_eq!(message(b"Error--No \"}\"--line 1 of file \xe9\xff.aux").place, at_line(1, b"\xe9\xff.aux"));
    }

    #[test]
    fn only_the_library_s_warnings_have_a_place() {
        let placed = message(b"Warning--string name \"zz\" is undefined--line 1 of file d.bib");
        assert_eq!((placed.text, placed.place), (&b"string name \"zz\" is undefined"[..], at_line(1, b"d.bib")));
        assert_eq!(message(b"Warning--look at it--line 1 of file d.bib").place, Place::Nowhere);
        assert_eq!(message(b"Warning--to stop while executing this").place, Place::Nowhere);
        let cut = message(b"Warning--string of 900 bytes cut to 250 while executing := for entry k");
        assert_eq!(cut.place, Place::Execution { function: b":=", entry: Some(b"k") });
    }

    #[test]
    fn files_are_found_at_the_beginning_alone() {
        let log = b"The top-level auxiliary file: a.aux\nA level-1 auxiliary file: b.aux\nError--No \"}\"--line 1 of file b.aux\n\
            The style file: s.bst\nDatabase file #1: d.bib\nError--I couldn't open database file e.bib\nWarning--x\nDatabase file #2: f.bib\n";
        let found: Vec<_> = contents(log).into_iter().filter(|content| matches!(content, Content::Found(_))).collect();
        assert_eq!(found, [b"a.aux", b"b.aux", b"s.bst", b"d.bib"].map(|name| Content::Found(name)));
        assert_eq!(contents(log)[7], Content::Other);
    }

    #[test]
    fn the_last_line_says_how_the_run_ended() {
        let log = b"\"Ended: x\nEnded: finished, warnings 0, errors 0, steps 1\nEnded: limit calls, warnings 3, errors 12, steps 4096\n";
        let end = Ended { how: b"limit calls", warnings: 3, errors: 12, steps: 4096 };
        assert_eq!(contents(log), [Content::Other, Content::Other, Content::Ended(end)]);
        assert!(!end.is_clean() && !end.is_finished());
        assert_eq!(contents(b"Ended: finished, warnings"), [Content::Other]);
    }

    #[test]
    fn odd_lines_are_lines() {
        assert_eq!(contents(b""), []);
        assert_eq!(contents(b"\n\nx"), [Content::Other; 3]);
        let numbers = [&b"0"[..], b"", b"1234567890123", b"-1"].map(number);
        assert_eq!(numbers, [Some(0), None, None, None]);
    }
}
