//! Where the messages of a log stand, for programs: the part of a line, the entry, and the places of the style that were executed.

use crate::code_places::Code;
use crate::explain::{Adviser, between, missing_key};
use crate::job::Files;
use crate::log::{Log, Message, Place};
use crate::notes::Token;
use crate::scene::{Call, IN_BRACES, Scene};
use crate::sources::Sources;
use crate::text::split_first;
use std::iter;

/// A line, and where a part of it begins and ends.
pub type Part<'a> = (&'a [u8], (usize, usize));

/// Where a message stands, and the key of the entry that it is about.
#[derive(Debug, Default)]
pub struct Stands<'a> {
    /// The file's name, as the job has it.
    pub file: Option<&'a [u8]>,
    /// The line, counted from 1.
    pub number: Option<usize>,
    pub part: Option<Part<'a>>,
    pub entry: Option<&'a [u8]>,
}

/// Finds where messages stand. They are to be asked for in the order of the log.
pub struct MessagePlaces<'a> {
    pub sources: Sources<'a>,
    pub adviser: Adviser<'a>,
}

impl<'a> MessagePlaces<'a> {
    pub fn new(log: &Log<'a>, files: &'a Files) -> MessagePlaces<'a> {
        MessagePlaces { sources: Sources::new(files), adviser: Adviser::new(log, files) }
    }

    /// Where a message of the run stands.
    pub fn of(&mut self, message: &Message<'a>) -> Stands<'a> {
        match message.place {
            Place::Line { number, file } => self.in_line(message, number, file),
            Place::Execution { function, entry } => Stands { entry, ..self.executed(message, function) },
            Place::Nowhere => self.unplaced(message),
        }
    }

    /// What is known of a style's own warning: the key of an entry that its text ends or begins with.
    pub fn of_style_warning(&mut self, text: &'a [u8]) -> Stands<'a> {
        Stands { entry: self.adviser.key_in(text), ..Stands::default() }
    }

    fn in_line(&mut self, message: &Message<'a>, number: usize, file: &'a [u8]) -> Stands<'a> {
        let placed = Stands { file: Some(file), number: Some(number), ..Stands::default() };
        let Some(spot) = self.sources.spot(message) else { return placed };
        let part = spot.part.map(|part| (spot.line, part));
        if let Some(item) = spot.item {
            return Stands { part, entry: item.entry_key().map(|key| key.name), ..placed };
        }
        let database = self.adviser.entries().database(file).filter(|_| file.ends_with(b".bib"));
        let about = database.and_then(|database| Some((database, database.about(number, message.text)?)));
        let Some((database, (item, named))) = about else { return Stands { part, ..placed } };
        let start = database.text.span(number).0;
        let named = named.map(|(from, to)| (spot.line, (from - start, to - start)));
        Stands { part: part.or(named), entry: item.entry_key().map(|key| key.name), ..placed }
    }

    /// Where the style stood.
    fn executed(&mut self, message: &Message<'a>, function: &[u8]) -> Stands<'a> {
        let Some(met) = message.met else { return self.at_command(message.scene, function) };
        let file = self.sources.name(met.file);
        let part = self.sources.text(file).map(|text| {
            let (start, end) = text.span(met.line);
            let in_line = |place: usize| place.clamp(start, end) - start;
            (text.line(met.line), (in_line(met.start), in_line(met.end)))
        });
        Stands { file: Some(file), number: Some(met.line), part, entry: None }
    }

    /// Where the command stands that met an error, if that is known.
    fn at_command(&mut self, scene: Option<&'a Scene>, function: &[u8]) -> Stands<'a> {
        let style = self.sources.style().map(|file| &file.name[..]);
        let Some((scene, at)) = scene.and_then(|scene| Some((scene, scene.placed()?))) else {
            return Stands { file: style, ..Stands::default() };
        };
        let code = self.adviser.code_of(scene).filter(|_| at == &scene.at);
        let part = code.and_then(|code| part_of(code, at.line, scene.token, &[function], false));
        Stands { file: Some(&at.file), number: Some(at.line), part, entry: None }
    }

    /// Where that stands which a message without a place is about: the name of a file, a key that is cited, or an entry.
    fn unplaced(&mut self, message: &Message<'a>) -> Stands<'a> {
        let key = missing_key(message.text);
        let named = key.and_then(|key| Some((self.sources.names().key(key)?, key.len())));
        let spot = match named {
            Some((named, length)) => self.sources.spot_of_name(named, length),
            None => self.sources.spot(message),
        };
        if let Some(spot) = spot {
            let part = spot.part.map(|part| (spot.line, part));
            return Stands { file: Some(&spot.file.name), number: Some(spot.number), part, entry: key };
        }
        match key {
            Some(key) => self.named_as_parent(key),
            None => self.child(message.text),
        }
    }

    /// The line in which a key is named as a parent.
    fn named_as_parent(&mut self, key: &'a [u8]) -> Stands<'a> {
        let Some((database, end)) = self.adviser.entries().parent(key) else {
            return Stands { entry: Some(key), ..Stands::default() };
        };
        let number = database.text.line_of(end.saturating_sub(1));
        Stands { file: Some(&database.file.name), number: Some(number), part: None, entry: Some(key) }
    }

    /// The beginning of the entry that has the parent which a message is about.
    fn child(&mut self, message: &'a [u8]) -> Stands<'a> {
        let keys = split_first(message, b"--entry \"").map(|(_, keys)| keys);
        let child = keys.and_then(|keys| between(keys, b"", b"\" refers to entry \""));
        let stored = child.and_then(|child| self.adviser.entries().entry(child));
        let Some((text, item, file)) = stored.map(|stored| (&stored.database.text, stored.item, stored.database.file))
        else {
            return Stands { entry: child, ..Stands::default() };
        };
        let number = text.line_of(item.start);
        let at = item.start - text.span(number).0;
        Stands { file: Some(&file.name), number: Some(number), part: Some((text.line(number), (at, at))), entry: child }
    }

    /// The places of a scene, the innermost first, each with its token where that is seen in the style's text. `function` is what was executed.
    pub fn of_calls(
        &mut self,
        scene: &'a Scene,
        function: Option<&'a [u8]>,
    ) -> impl Iterator<Item = (&'a Call, Option<Part<'a>>)> {
        let code = self.adviser.code_of(scene);
        let calls = iter::once(&scene.at).chain(&scene.callers);
        let tokens = iter::once(scene.token).chain(scene.caller_tokens.iter().copied());
        let inner = iter::once(None).chain(calls.clone().map(Some));
        calls.zip(tokens).zip(inner).map(move |((call, token), inner)| {
            let names = names_of_caller(call, inner, function);
            (call, code.and_then(|code| part_of(code, call.line, token, &names, inner.is_some())))
        })
    }
}

/// What the token at a place may be, by what it called.
fn names_of_caller<'a>(call: &'a Call, inner: Option<&'a Call>, function: Option<&'a [u8]>) -> Vec<&'a [u8]> {
    match inner {
        _ if call.is_command() => split_first(&call.function, b" ").map(|(word, _)| word).into_iter().collect(),
        Some(inner) if inner.function.starts_with(IN_BRACES) => vec![b"if$", b"while$"],
        Some(inner) => vec![inner.owner(), b"call.type$"],
        None => function.into_iter().collect(),
    }
}

/// The token in this line of a style that has one of these names. That of a caller has the number of `token` in any case.
fn part_of<'a>(
    code: &Code<'a>,
    line: usize,
    token: Option<Token>,
    names: &[&[u8]],
    is_caller: bool,
) -> Option<Part<'a>> {
    let number = token.map(|(_, number)| number);
    let is_it = |index: &usize| !is_caller || number.is_none_or(|number| code.number_of(*index) == number);
    let index = names.iter().find_map(|name| code.index(line, name, number).filter(is_it))?;
    let start = code.start(index) - code.text.span(line).0;
    Some((code.text.line(line), (start, start + code.of(index).len())))
}
