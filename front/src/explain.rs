//! A log for its reader: each message, the line and the entry that it is about, and what to do.

mod aux_files;
mod checked;
mod databases;
mod endings;
mod executions;
mod explained;
mod missing;
mod names;
mod page;
mod styles;
#[cfg(test)]
mod tests;
mod unlogged;
mod warnings;

use self::databases::{DatabaseMistakes, is_of_whole_job};
use self::executions::Execution;
use self::explained::Explained;
use self::missing::Missing;
use self::page::Page;
use self::styles::StyleMistakes;
use self::warnings::StyleWarnings;
use crate::advice::{self, Section};
use crate::beside::what_is_odd;
use crate::code_places::{Code, DEFAULT_TYPE};
use crate::database::Item;
use crate::document::Document;
use crate::entries::{Entries, Stored};
use crate::job::{File, Files};
use crate::log::{Content, Ended, Line, Log, Message, Place, Severity};
use crate::mistakes::field_for_key;
use crate::scene::Scene;
use crate::shapes::{Part, counted, went_well, words_of_limit};
use crate::sources::Sources;
use crate::terminal::{ERROR_COLOUR, Terminal, WARNING_COLOUR, plain};
use crate::text::{Text, split_first};
use std::collections::HashSet;
use std::io::{self, BufWriter, Write};
use std::rc::Rc;

/// How many texts of a style's warnings are kinds of their own.
const MOST_TEXTS: usize = 200;
/// How many calls, and how many literals of a stack, are shown.
const MOST_OF_SCENE: usize = 8;
/// How many lines of the log that are no messages are shown in a row, such as a stack's literals.
const MOST_OTHERS: u64 = 20;

/// Writes a log with its explanations, safe for a terminal.
pub fn write(log: &Log<'_>, files: &Files, part: Part, terminal: &Terminal, out: &mut impl Write) -> io::Result<()> {
    let out = BufWriter::with_capacity(1 << 16, out);
    let mut explainer = Explainer::new(log, files, part, terminal, out);
    for line in log.lines().filter(|line| part == Part::Whole || !went_well(line)) {
        explainer.line(&line)?;
    }
    explainer.end_lines()?;
    explainer.end_repeats()?;
    // A log that has filled its room has no last line.
    if let Some(end) = explainer.execution.scene_of_end.take() {
        let _ = explainer.scene_of_end(end, None)?;
    }
    explainer.page.out.flush()
}

/// What is to be done about the lines of a log, in the words and at the lines of its explanations, for who prints none.
pub struct Adviser<'a>(Explainer<'a, io::Sink>);

impl<'a> Adviser<'a> {
    pub fn new(log: &Log<'a>, files: &'a Files) -> Adviser<'a> {
        Adviser(Explainer::new(log, files, Part::Messages, &Terminal::NONE, io::sink()))
    }

    /// What is to be done about the next line of the log that doesn't say that all went well.
    pub fn advice_on(&mut self, line: &Line<'a>) -> Vec<String> {
        self.0.page.advice = Some(Vec::new());
        // (nothing that is written to a sink fails)
        let _ = self.0.line(line);
        self.0.page.advice.take().unwrap_or_default()
    }

    /// The items of the databases.
    pub fn entries(&mut self) -> &Entries<'a> {
        self.0.entries()
    }

    /// The key of an entry at the end of a warning, or at its beginning.
    pub fn key_in(&mut self, text: &'a [u8]) -> Option<&'a [u8]> {
        self.0.key_in(text)
    }

    /// The code of the style in which a scene is.
    pub fn code_of(&mut self, scene: &Scene) -> Option<&Code<'a>> {
        self.0.code_of(scene)
    }
}

/// Explains the lines of a log. What it knows of the messages of each kind stands in the module that explains these.
struct Explainer<'a, W: Write> {
    files: &'a Files,
    /// The list that the run wrote; empty where it isn't at hand.
    list: &'a [u8],
    part: Part,
    sources: Sources<'a>,
    entries: Option<Entries<'a>>,
    /// The document beside the `.aux` file, once it was looked for.
    document: Option<Rc<Option<Document>>>,
    /// The kinds of messages of which it was said what to do.
    advised: HashSet<usize>,
    /// The files of which it was looked whether they are what their names say.
    examined: HashSet<&'a [u8]>,
    /// Which messages were explained, and how many weren't.
    explained: Explained,
    styles: StyleMistakes<'a>,
    databases: DatabaseMistakes<'a>,
    execution: Execution<'a>,
    warnings: StyleWarnings<'a>,
    missing: Missing,
    /// Whether the last error wasn't printed since it repeats: then the literals that the log lists below it aren't either.
    is_repeated: bool,
    /// How many lines that are no messages stand directly above.
    others: u64,
    page: Page<'a, W>,
}

impl<'a, W: Write> Explainer<'a, W> {
    fn new(log: &Log<'a>, files: &'a Files, part: Part, terminal: &'a Terminal, out: W) -> Self {
        Explainer {
            files,
            list: log.list,
            part,
            sources: Sources::new(files),
            entries: None,
            document: None,
            advised: HashSet::new(),
            examined: HashSet::new(),
            explained: Explained::default(),
            styles: StyleMistakes::default(),
            databases: DatabaseMistakes::default(),
            execution: Execution::new(log),
            warnings: StyleWarnings::default(),
            missing: Missing::default(),
            is_repeated: false,
            others: 0,
            page: Page::new(terminal, out),
        }
    }

    /// A line of the log, with what follows it.
    fn line(&mut self, line: &Line<'a>) -> io::Result<()> {
        let was_repeated = std::mem::take(&mut self.is_repeated);
        match &line.content {
            Content::Message(message)
                if self.follows(message)
                    || self.is_of_odd(message)
                    || self.databases.strings.has(message)
                    || self.is_lost(message) =>
            {
                Ok(())
            }
            Content::Message(message) if self.is_of_known_data(message) => {
                self.is_repeated = true;
                Ok(())
            }
            Content::Message(message)
                if self.execution.repeats.has(line.bytes, message, self.styles.first.is_some()) =>
            {
                self.is_repeated = true;
                Ok(())
            }
            Content::Message(message) if self.is_counted(line.bytes, message) => {
                self.is_repeated = true;
                Ok(())
            }
            Content::Other if was_repeated => {
                self.is_repeated = true;
                Ok(())
            }
            Content::Message(message) => self.message(line.bytes, message),
            Content::Ended(end) => self.ended(line.bytes, end),
            Content::Found(_) => self.page.put_line("", line.bytes),
            Content::Other => {
                self.others += 1;
                if self.others > MOST_OTHERS { Ok(()) } else { self.page.put_line("", line.bytes) }
            }
        }
    }

    /// The document beside the `.aux` file, if it is there.
    fn document(&mut self) -> Rc<Option<Document>> {
        let files = self.files;
        Rc::clone(self.document.get_or_insert_with(|| Rc::new(Document::of(files))))
    }

    /// What is to be said of lines that weren't printed, before the next one is.
    fn end_lines(&mut self) -> io::Result<()> {
        let others = std::mem::take(&mut self.others).saturating_sub(MOST_OTHERS);
        if others > 0 {
            self.page.put_place(&format!("({others} more lines stand in the .blg)"))?;
        }
        self.execution.data.texts().iter().try_for_each(|text| self.page.put_place(text))?;
        self.end_causes()
    }

    /// Whether a message isn't explained: it is a warning of a style that only differs from others by a key, or enough were explained, and some of its kind.
    fn is_counted(&mut self, line: &'a [u8], message: &Message<'a>) -> bool {
        let texts = self.warnings.equal.count();
        if self.is_equal(line, message) {
            return true;
        }
        let is_new = texts < MOST_TEXTS && self.warnings.equal.count() > texts;
        self.explained.is_enough(message, is_new)
    }

    /// Says how many messages weren't explained.
    fn end_explained(&mut self) -> io::Result<()> {
        match std::mem::take(&mut self.explained.left_out) {
            0 => Ok(()),
            1 => writeln!(self.page.out, "(1 more message stands in the .blg.)"),
            more => writeln!(self.page.out, "({more} more messages stand in the .blg.)"),
        }
    }

    fn ended(&mut self, line: &'a [u8], end: &Ended<'a>) -> io::Result<()> {
        self.end_lines()?;
        let has_errors = !self.execution.repeats.is_empty();
        self.end_repeats()?;
        if end.is_finished() && self.part == Part::Whole {
            self.after_ends()?;
            self.unsaid()?;
            self.empty_label()?;
            if end.errors == 0 {
                self.unsaid_of_style()?;
            }
        }
        self.page.put_line(if end.is_finished() { "" } else { ERROR_COLOUR }, line)?;
        if let Some(words) = words_of_limit(end.how) {
            self.page.put_place(&format!("that is {words}"))?;
        }
        if !end.is_finished() {
            let is_endless = match self.execution.scene_of_end.take() {
                Some(scene) => self.scene_of_end(scene, Some(end.steps))?,
                None => false,
            };
            if !self.execution.is_interrupted && !is_endless {
                let (text, _) = split_first(line, b", warnings ").unwrap_or((line, b""));
                self.advise(&[Section::Run], text)?;
            }
        }
        counted(end).map_or(Ok(()), |count| writeln!(self.page.out, "{count}"))?;
        match self.styles.first.take().filter(|_| has_errors) {
            Some(place) => self.page.put_advice(&format!(
                "mend the style's text first, {place}: errors of its execution may follow from that"
            )),
            None => Ok(()),
        }
    }

    /// Says of errors of the execution how often they repeat.
    fn end_repeats(&mut self) -> io::Result<()> {
        let texts = [
            self.texts_of_lost(),
            self.databases.strings.texts(),
            self.warnings.equal.texts(),
            self.execution.repeats.texts(),
        ]
        .concat();
        texts.iter().try_for_each(|text| writeln!(self.page.out, "{text}"))?;
        self.end_explained()
    }

    fn message(&mut self, line: &[u8], message: &Message<'a>) -> io::Result<()> {
        self.end_lines()?;
        if self.part == Part::Mistakes && self.missing_brace(line, message)? {
            return Ok(());
        }
        self.page.put_line(if message.severity == Severity::Error { ERROR_COLOUR } else { WARNING_COLOUR }, line)?;
        match message.place {
            Place::Line { file, .. } if file.ends_with(b".aux") => self.in_aux_file(message),
            Place::Line { file, .. } if file.ends_with(b".bst") => self.in_style(message, file),
            Place::Line { number, file } => match self.in_database(message, number, file)? {
                Some(advice) if is_of_whole_job(&advice) => self.page.put_advice_once(&advice),
                Some(advice) => self.page.put_advice(&advice),
                None => self.advise(&[Section::Database, Section::Entries], message.text),
            },
            Place::Execution { function, entry } => self.executed(message, function, entry),
            Place::Nowhere => match missing_key(message.text) {
                Some(key) => self.missing_entry(key, message.text),
                None if self.unplaced(message)? => Ok(()),
                None => self.advise(&[Section::Aux, Section::Run, Section::Entries], message.text),
            },
        }
    }

    /// What to do about a message; once for each kind of message.
    fn advise(&mut self, sections: &[Section], text: &[u8]) -> io::Result<()> {
        match advice::find(sections, text) {
            Some(advice) if self.advised.insert(advice.number) => {
                let is_treated = if advice.is_of_unknown_type() { self.has_default_type() } else { None };
                let text =
                    is_treated.map_or_else(|| advice.text(), |is_treated| by_default_type(is_treated).to_string());
                self.page.put_advice(&text)
            }
            _ => Ok(()),
        }
    }

    /// What a file is that isn't what its name says; once.
    fn odd_file(&mut self, file: &'a File) -> Option<String> {
        let odd = if self.examined.insert(&file.name) { what_is_odd(file) } else { None };
        odd.filter(|odd| self.page.said.insert(odd.clone()))
    }

    /// Whether the style has a function for entries whose type it doesn't know; None where the style isn't there.
    fn has_default_type(&mut self) -> Option<bool> {
        self.sources.style()?.bytes.as_deref()?;
        let style = self.sources.style_names();
        Some(style.functions_above_read().any(|name| name.eq_ignore_ascii_case(DEFAULT_TYPE)))
    }

    fn entries(&mut self) -> &Entries<'a> {
        self.entries.get_or_insert_with(|| Entries::new(self.files))
    }

    /// The first entry of this key, if there is one; whether there is.
    fn show_entry(&mut self, word: &str, key: &[u8]) -> io::Result<bool> {
        let found = self.entries().entry(key);
        let Some(Stored { database, item }) = found else { return Ok(false) };
        let item = begins_item(database.file, &database.text, item);
        self.page.put_place(&format!("{word} {item}"))?;
        Ok(true)
    }
}

/// What to do about an entry of a type that the style doesn't know, where it is known whether it has a function for these.
fn by_default_type(has_one: bool) -> &'static str {
    if has_one {
        "the style has no function of that name; it treats the entry by `default.type`"
    } else {
        "the style has no function of that name, and no `default.type` above READ: `call.type$` does nothing for the entry"
    }
}

/// The key of the message on an entry that wasn't found.
pub fn missing_key(text: &[u8]) -> Option<&[u8]> {
    text.strip_prefix(b"I didn't find a database entry for \"").and_then(|rest| rest.strip_suffix(b"\""))
}

/// What stands between these two in a text that begins with the first.
pub fn between<'a>(text: &'a [u8], before: &[u8], behind: &[u8]) -> Option<&'a [u8]> {
    split_first(text.strip_prefix(before)?, behind).map(|(name, _)| name)
}

/// An item of a database, and where it begins.
pub fn begins_item(file: &File, text: &Text<'_>, item: &Item<'_>) -> String {
    let key = item.key.filter(|key| field_for_key(key.name).is_none());
    let key = key.map(|key| format!("{{{}}}", plain(key.name))).unwrap_or_default();
    let (path, line) = (plain(shown_path(file)), text.line_of(item.start));
    format!("@{}{key}, which begins at {path}:{line}", plain(item.kind))
}

/// Where a file was found, as its user knows it.
pub fn shown_path(file: &File) -> &[u8] {
    let mut path = &file.path[..];
    while let Some(rest) = path.strip_prefix(b"./") {
        path = rest;
    }
    if path.is_empty() { &file.name } else { path }
}
