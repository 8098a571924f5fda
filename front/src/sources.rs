//! The files of a job as its messages speak of them: which line, and which place in it.

use crate::advice::{self, Section};
use crate::aux_text::{self, Named, Names, without_white_at_end};
use crate::database::{Item, Items};
use crate::event_places::EventPlace;
use crate::job::{File, Files};
use crate::log::{Message, Place};
use crate::style_read::StyleNames;
use crate::style_text::{self, Command};
use crate::text::Text;
use std::collections::HashMap;
use std::rc::Rc;

/// A file, read as far as messages ask for it.
#[derive(Debug, Clone)]
struct Source<'a> {
    file: &'a File,
    text: Rc<Text<'a>>,
    /// The items of a database that come after the last one that a message was about.
    items: Option<Items<'a>>,
    commands: Option<Rc<[Command<'a>]>>,
}

/// Where a message stands in a file.
#[derive(Debug, Clone, PartialEq, Eq)]
pub struct Spot<'a> {
    /// The file.
    pub file: &'a File,
    /// The line, counted from 1.
    pub number: usize,
    /// The line's bytes.
    pub line: &'a [u8],
    /// The part of the line that the message is about, if that is known: where it begins, and where the program stood.
    pub part: Option<(usize, usize)>,
    /// The item of a database, if it is known.
    pub item: Option<Item<'a>>,
}

/// The files of a job, for the messages of its log. Messages are to be asked for in the order of the log.
#[derive(Debug, Clone)]
pub struct Sources<'a> {
    files: &'a Files,
    by_name: HashMap<&'a [u8], &'a File>,
    read: HashMap<&'a [u8], Source<'a>>,
    /// What the job's style declares.
    style: Option<Rc<StyleNames<'a>>>,
    names: Option<Names<'a>>,
    /// The `.aux` file and the line of the last error in one, and how far that line was looked through.
    last: Option<(&'a [u8], usize, usize)>,
}

impl<'a> Sources<'a> {
    /// The files of this job.
    pub fn new(files: &'a Files) -> Sources<'a> {
        let mut by_name: HashMap<&[u8], &File> = HashMap::new();
        for file in files.all.iter().filter(|file| file.bytes.is_some()) {
            by_name.entry(&file.name).or_insert(file);
        }
        Sources { files, by_name, read: HashMap::new(), style: None, names: None, last: None }
    }

    /// The file of this name, if it was found.
    pub fn file(&self, name: &[u8]) -> Option<&'a File> {
        self.by_name.get(name).copied()
    }

    /// The name of the file of this number.
    pub fn name(&self, number: usize) -> &'a [u8] {
        self.files.all.get(number).map_or(b"", |file| &file.name)
    }

    /// The name of the job's style, if it was found.
    pub fn style(&self) -> Option<&'a File> {
        self.files.with_ending(".bst").next()
    }

    /// What the job's style declares; nothing where it wasn't found.
    pub fn style_names(&mut self) -> Rc<StyleNames<'a>> {
        let bytes = self.style().and_then(|file| file.bytes.as_deref()).unwrap_or(b"");
        Rc::clone(self.style.get_or_insert_with(|| Rc::new(StyleNames::new(bytes))))
    }

    /// The file of this name, with its lines.
    fn source(&mut self, name: &[u8]) -> Option<&mut Source<'a>> {
        let file = self.file(name)?;
        let bytes = file.bytes.as_deref()?;
        let new = || Source { file, text: Rc::new(Text::new(bytes)), items: None, commands: None };
        Some(self.read.entry(&file.name).or_insert_with(new))
    }

    /// The text of a file, if it was found.
    pub fn text(&mut self, name: &[u8]) -> Option<Rc<Text<'a>>> {
        self.source(name).map(|source| Rc::clone(&source.text))
    }

    /// The commands of a style; none where it wasn't found.
    pub fn commands(&mut self, name: &[u8]) -> Rc<[Command<'a>]> {
        self.source(name).map_or(Rc::new([]), |source| {
            let bytes = source.text.bytes;
            Rc::clone(source.commands.get_or_insert_with(|| style_text::commands(bytes).into()))
        })
    }

    /// Where the `.aux` files name things.
    pub fn names(&mut self) -> &Names<'a> {
        self.names.get_or_insert_with(|| Names::new(self.files))
    }

    /// Where a message stands that has a line, or that is about a file which an `.aux` file names.
    pub fn spot(&mut self, message: &Message<'a>) -> Option<Spot<'a>> {
        match message.place {
            Place::Line { number, file } if file.ends_with(b".aux") => self.in_aux_file(message.text, number, file),
            Place::Line { number, file } if file.ends_with(b".bst") => self.in_style(message.met, number, file),
            Place::Line { number, file } => self.in_database(message, number, file),
            Place::Nowhere => self.unfound(message.text),
            Place::Execution { .. } => None,
        }
    }

    /// Where in the style a message was met, if the run's events say so.
    pub fn spot_of_met(&mut self, message: &Message<'a>) -> Option<Spot<'a>> {
        let met = message.met?;
        let name = self.name(met.file);
        self.in_style(Some(met), met.line, name)
    }

    /// Where the `.aux` files name a file that wasn't found.
    fn unfound(&mut self, text: &[u8]) -> Option<Spot<'a>> {
        if !text.starts_with(b"I couldn't open ") {
            return None;
        }
        let name = aux_text::name_in_error(text)?;
        let named = self.names().file(name)?;
        // (`.bst` and `.bib` aren't written in the `.aux` file)
        let written = name.strip_suffix(b".bst").or(name.strip_suffix(b".bib")).unwrap_or(name);
        self.spot_of_name(named, written.len())
    }

    /// Where a name stands that ends there.
    pub fn spot_of_name(&mut self, named: Named<'a>, length: usize) -> Option<Spot<'a>> {
        let line = self.text(&named.file.name)?.line(named.number);
        let part = Some((named.end.saturating_sub(length), named.end));
        Some(Spot { file: named.file, number: named.number, line, part, item: None })
    }

    fn in_aux_file(&mut self, text: &'a [u8], number: usize, name: &[u8]) -> Option<Spot<'a>> {
        let first =
            aux_text::name_in_error(text).filter(|_| is_of_a_second_one(text)).and_then(|name| self.first_named(name));
        let from = self.looked_through(name, number);
        let source = self.source(name)?;
        let (file, line) = (source.file, source.text.line(number));
        let is_first_here = |named: &Named<'_>| named.number == number && named.file.name == file.name;
        let from = first.filter(is_first_here).map_or(from, |named| named.end.max(from));
        let place = aux_text::place_of_error(line, text, from);
        self.last = Some((&file.name, number, place.unwrap_or(from)));
        Some(Spot { file, number, line, part: place.map(|place| (place, place)), item: None })
    }

    /// How far a line was looked through for the error before: the errors of a line are logged in their order, so each of its bytes is
    /// looked at once.
    fn looked_through(&self, name: &[u8], number: usize) -> usize {
        self.last.filter(|(file, line, _)| *file == name && *line == number).map_or(0, |(.., place)| place)
    }

    /// Where a name stands that an error calls a second one.
    fn first_named(&mut self, name: &'a [u8]) -> Option<Named<'a>> {
        let names = self.names();
        if name == b"*" { names.key(name) } else { names.file(name) }
    }

    fn in_style(&mut self, met: Option<&EventPlace>, number: usize, name: &[u8]) -> Option<Spot<'a>> {
        let source = self.source(name)?;
        let part = met.map(|met| style_text::part_at(source.text.bytes, met.start, met.end));
        Some(source.spot(number, part))
    }

    fn in_database(&mut self, message: &Message<'a>, number: usize, name: &[u8]) -> Option<Spot<'a>> {
        let source = self.source(name)?;
        let is_of_item =
            message.text == b"Repeated entry" || advice::find(&[Section::Database], message.text).is_some();
        let place = message.met.filter(|_| is_of_item).map(|met| met.start);
        let item = place.and_then(|place| source.item_of(place));
        Some(Spot { item, ..source.spot(number, place.map(|place| (place, place))) })
    }
}

impl<'a> Source<'a> {
    /// A line of the file, with the part of it that stands in these bytes of the file.
    fn spot(&self, number: usize, part: Option<(usize, usize)>) -> Spot<'a> {
        let (start, end) = self.text.span(number);
        let in_line = |place: usize| place.clamp(start, end) - start;
        let part = part.map(|(from, to)| (in_line(from), in_line(to)));
        Spot { file: self.file, number, line: self.text.line(number), part, item: None }
    }

    /// The item of a database that can't go on at this place, or whose key ends there and is repeated. Each item is read once: messages are asked for in the
    /// order in which the database was read.
    fn item_of(&mut self, place: usize) -> Option<Item<'a>> {
        let bytes = self.text.bytes;
        self.items.get_or_insert_with(|| Items::new(bytes)).up_to(place)
    }
}

/// Whether an error says that something was named before.
fn is_of_a_second_one(text: &[u8]) -> bool {
    text.starts_with(b"This database file appears") || text.starts_with(b"Multiple inclusions")
}

impl Spot<'_> {
    /// What stands before the place where the program stood, and what after it, without whitespace at the line's end.
    pub fn halves(&self) -> Option<(&[u8], &[u8])> {
        let line = without_white_at_end(self.line);
        self.part.map(|(_, end)| line.split_at(end.min(line.len())))
    }
}
