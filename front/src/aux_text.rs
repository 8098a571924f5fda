//! The lines of `.aux` files: what they name, and where in a line an error was met. `docs/RULES.md` has their rules.

use crate::database::Folded;
use crate::job::{File, Files};
use crate::text::{find, is_white, split_first};
use std::collections::{HashMap, HashSet};

/// A line that counts: a command and its argument.
#[derive(Debug, Clone, Copy, PartialEq, Eq)]
struct Command<'a> {
    word: &'a [u8],
    argument: &'a [u8],
    /// Where the argument begins in the line.
    start: usize,
}

/// The commands that are read, with the ending of the names in their arguments.
const COMMANDS: [(&[u8], &[u8]); 4] =
    [(b"\\citation", b""), (b"\\bibdata", b".bib"), (b"\\bibstyle", b".bst"), (b"\\@input", b".aux")];

impl<'a> Command<'a> {
    /// The command of a line; None where the line doesn't count.
    fn new(line: &'a [u8]) -> Option<Command<'a>> {
        let line = without_white_at_end(line);
        let (word, argument) = split_first(line, b"{")?;
        let is_read = COMMANDS.iter().any(|(command, _)| *command == word);
        is_read.then_some(Command { word, argument, start: word.len() + 1 })
    }

    /// The ending that each name in the argument gets.
    fn ending(&self) -> &'static [u8] {
        COMMANDS.iter().find(|(word, _)| *word == self.word).map_or(b"", |(_, ending)| ending)
    }

    /// The pieces of the argument up to its `}`, each with the place of its end in the line; only those after the place `from`, where one ends.
    fn pieces(&self, from: usize) -> impl Iterator<Item = (&'a [u8], usize)> + use<'a> {
        let is_list = self.word == b"\\citation" || self.word == b"\\bibdata";
        let mut at = self.start.max(from + 1);
        let mut rest = self.argument.get(at - self.start..);
        std::iter::from_fn(move || {
            let text = rest?;
            let length = text.iter().position(|byte| *byte == b'}' || is_list && *byte == b',').unwrap_or(text.len());
            rest = text.get(length..).filter(|rest| rest.starts_with(b",")).map(|rest| &rest[1..]);
            at += length + 1;
            Some((&text[..length], at - 1))
        })
    }
}

/// A line without the whitespace at its end.
pub fn without_white_at_end(line: &[u8]) -> &[u8] {
    &line[..line.iter().rposition(|byte| !is_white(*byte)).map_or(0, |last| last + 1)]
}

/// A name with its ending.
fn with_ending(name: &[u8], ending: &[u8]) -> Vec<u8> {
    if name.ends_with(ending) { name.to_vec() } else { [name, ending].concat() }
}

/// Where in its line an error was met: the first byte with which the line can't go on. For a name that is its end; names up to the place
/// `from` are passed over.
pub fn place_of_error(line: &[u8], error: &[u8], from: usize) -> Option<usize> {
    let command = Command::new(line)?;
    let behind = |at: usize| command.start + at;
    match error {
        b"White space in argument" => command.argument.iter().position(|byte| is_white(*byte)).map(behind),
        b"No \"}\"" => Some(command.start + command.argument.len()),
        b"Stuff after \"}\"" => find(command.argument, b"}").map(behind),
        _ if error.starts_with(b"Illegal, another ") => Some(command.start - 1),
        _ => {
            let name = name_in_error(error)?;
            let is_it = |piece: &[u8]| piece == name || is_with_ending(name, piece, command.ending());
            command.pieces(from).find(|(piece, _)| is_it(piece)).map(|(_, end)| end)
        }
    }
}

/// Whether a name is this piece with the ending.
fn is_with_ending(name: &[u8], piece: &[u8], ending: &[u8]) -> bool {
    name.strip_prefix(piece).is_some_and(|rest| rest == ending)
}

/// The name that an error is about, as the line or the log has it.
pub fn name_in_error(error: &[u8]) -> Option<&[u8]> {
    const BEFORE_NAMES: [&[u8]; 5] = [
        b"I couldn't open style file ",
        b"I couldn't open database file ",
        b"I couldn't open auxiliary file ",
        b"Already encountered file ",
        b"This database file appears more than once: ",
    ];
    if error == b"Multiple inclusions of entire database" {
        return Some(b"*");
    }
    if let Some(keys) = error.strip_prefix(b"Case mismatch error between cite keys ") {
        return split_first(keys, b" and ").map(|(_, key)| key);
    }
    let behind = BEFORE_NAMES.iter().find_map(|before| error.strip_prefix(*before));
    behind.or_else(|| error.strip_suffix(b" has a wrong extension"))
}

/// A place in a file of a job.
#[derive(Debug, Clone, Copy, PartialEq, Eq)]
pub struct Named<'a> {
    /// The file.
    pub file: &'a File,
    /// The line, counted from 1.
    pub number: usize,
    /// Where the name ends in that line.
    pub end: usize,
}

/// Where the `.aux` files of a job name each key, style and database first.
#[derive(Debug, Clone, Default)]
pub struct Names<'a> {
    keys: HashMap<Folded<'a>, Named<'a>>,
    files: HashMap<Vec<u8>, Named<'a>>,
}

impl<'a> Names<'a> {
    /// Reads the `.aux` files of a job.
    pub fn new(files: &'a Files) -> Names<'a> {
        let mut names = Names::default();
        files.with_ending(".aux").for_each(|file| names.read(file));
        names
    }

    fn read(&mut self, file: &'a File) {
        let lines = file.bytes.as_deref().unwrap_or(b"").split(|byte| *byte == b'\n');
        for (index, line) in lines.enumerate().filter(|(_, line)| line.starts_with(b"\\")) {
            let Some(command) = Command::new(line) else { continue };
            for (piece, end) in command.pieces(0) {
                self.keep(&command, piece, Named { file, number: index + 1, end });
            }
        }
    }

    fn keep(&mut self, command: &Command<'a>, piece: &'a [u8], named: Named<'a>) {
        if command.word == b"\\citation" {
            self.keys.entry(Folded(piece)).or_insert(named);
        } else {
            self.files.entry(with_ending(piece, command.ending())).or_insert(named);
        }
    }

    /// Where a key is cited first.
    pub fn key(&self, key: &'a [u8]) -> Option<Named<'a>> {
        self.keys.get(&Folded(key)).copied()
    }

    /// Where a file is named first; its name has its ending.
    pub fn file(&self, name: &[u8]) -> Option<Named<'a>> {
        self.files.get(name).copied()
    }
}

/// A database that the `.aux` files name and that the run didn't look for, since its line has an error; its name has its ending.
pub fn unread_database(files: &Files) -> Option<(Vec<u8>, Named<'_>)> {
    let asked: HashSet<&[u8]> = files.all.iter().map(|file| &file.name[..]).collect();
    files.with_ending(".aux").find_map(|file| {
        let lines = file.bytes.as_deref().unwrap_or(b"").split(|byte| *byte == b'\n').enumerate();
        let of_data = lines.filter(|(_, line)| line.starts_with(b"\\bibdata{"));
        of_data.filter_map(|(index, line)| Some((index + 1, Command::new(line)?))).find_map(|(number, command)| {
            let named = command.pieces(0).map(|(piece, end)| (with_ending(piece.trim_ascii(), b".bib"), end));
            let mut unread = named.filter(|(name, _)| name.len() > b".bib".len() && !asked.contains(&name[..]));
            unread.next().map(|(name, end)| (name, Named { file, number, end }))
        })
    })
}

/// The names in the line of an error that aren't taken: those from the first one with whitespace on.
pub fn not_taken(line: &[u8]) -> Vec<&[u8]> {
    let Some(command) = Command::new(line) else { return Vec::new() };
    let pieces =
        command.pieces(0).map(|(piece, _)| piece).skip_while(|piece| !piece.iter().any(|byte| is_white(*byte)));
    pieces.map(<[u8]>::trim_ascii).filter(|piece| !piece.is_empty()).collect()
}

/// An `.aux` file that ends in the middle of a line, in the argument of a command.
pub fn broken_off(files: &Files) -> Option<&File> {
    files.with_ending(".aux").find(|file| {
        let bytes = file.bytes.as_deref().unwrap_or(b"");
        let last = &bytes[bytes.iter().rposition(|byte| *byte == b'\n').map_or(0, |at| at + 1)..];
        let count = |wanted: u8| last.iter().filter(|byte| **byte == wanted).count();
        last.starts_with(b"\\") && count(b'{') > count(b'}')
    })
}

/// The keys that the `.aux` files of a job cite.
pub fn cited_keys(files: &Files) -> impl Iterator<Item = &[u8]> {
    let lines =
        files.with_ending(".aux").flat_map(|file| file.bytes.as_deref().unwrap_or(b"").split(|byte| *byte == b'\n'));
    let commands = lines
        .filter(|line| line.starts_with(b"\\"))
        .filter_map(Command::new)
        .filter(|command| command.word == b"\\citation");
    commands.flat_map(|command| command.pieces(0)).map(|(key, _)| key)
}

#[cfg(test)]
mod tests {
    use super::*;
    use crate::text::marked;

    /// Each line with a `^` where its error is met, and the error.
    const PLACES: &str = r#"\citation{k,^ j} | White space in argument
\citation{k^   | No "}"
\citation{k^} x | Stuff after "}"
\bibdata^{f} | Illegal, another \bibdata command
\citation{k,K^} | Case mismatch error between cite keys k and K
\@input{nosuch.aux^} | I couldn't open auxiliary file nosuch.aux
\@input{x^} | x has a wrong extension
\bibdata{d,e^} | I couldn't open database file e.bib
\bibdata{d,e} | I couldn't open database file f.bib
\relax | No "}"
\citation {k | No "}""#;

    #[test]
    fn errors_have_a_place_in_their_line() {
        for (line, error, place) in marked(PLACES) {
            assert_eq!(place_of_error(&line, error, 0), place, "{}", line.escape_ascii());
        }
    }

    #[test]
    fn a_name_can_stand_there_again() {
        let repeated = b"This database file appears more than once: d.bib";
        assert_eq!(place_of_error(b"\\bibdata{d,d.bib,d}", repeated, 10), Some(16));
        assert_eq!(place_of_error(b"\\bibdata{d,d.bib,d}", repeated, 16), Some(18));
        assert_eq!(place_of_error(b"\\bibdata{d,d.bib,d}", repeated, 18), None);
        assert_eq!(place_of_error(b"\\citation{*,*}", b"Multiple inclusions of entire database", 11), Some(13));
    }

    #[test]
    fn what_is_not_read_is_named() {
        let unread = |aux: &str| {
            let file =
                |name: &str, bytes: &str| File { name: name.into(), bytes: Some(bytes.into()), path: Vec::new() };
            let files = Files { top: b"a.aux".to_vec(), all: vec![file("a.aux", aux), file("d.bib", "")] };
            unread_database(&files).map(|(name, named)| (name, named.number))
        };
        assert_eq!(unread("\\bibdata{d, e}"), Some((b"e.bib".to_vec(), 1)));
        assert_eq!(unread("\\bibdata{d}\n\\bibdata{f}"), Some((b"f.bib".to_vec(), 2)));
        assert_eq!(unread("\\bibdata{d}"), None);
        assert_eq!(not_taken(b"\\citation{a,b ,c}"), [b"b", b"c"]);
        assert_eq!(not_taken(b"\\relax"), Vec::<&[u8]>::new());
    }

    #[test]
    fn a_file_may_break_off() {
        let is_broken = |bytes: &str| {
            let file = File { name: b"a.aux".to_vec(), bytes: Some(bytes.into()), path: Vec::new() };
            broken_off(&Files { top: b"a.aux".to_vec(), all: vec![file] }).is_some()
        };
        assert_eq!(
            [is_broken("\\relax\n\\citation{a"), is_broken("\\citation{a}"), is_broken("\\cit\n")],
            [true, false, false]
        );
    }

    #[test]
    fn names_are_found_where_they_stand_first() {
        let aux = |name: &str, bytes: &[u8]| File { name: name.into(), bytes: Some(bytes.to_vec()), path: name.into() };
        let one = aux("a.aux", b"\\citation{x,Y}\n\\bibdata{d,e.bib}\n\\bibstyle{s}\n");
        let files = Files { top: b"a.aux".to_vec(), all: vec![one, aux("b.aux", b"\\citation{y}\n\\citation{z}\n")] };
        let names = Names::new(&files);
        let place = |named: Option<Named<'_>>| named.map(|named| (named.file.name.clone(), named.number, named.end));
        assert_eq!(place(names.key(b"y")), Some((b"a.aux".to_vec(), 1, 13)));
        assert_eq!(place(names.key(b"Z")), Some((b"b.aux".to_vec(), 2, 11)));
        assert_eq!(place(names.file(b"e.bib")), Some((b"a.aux".to_vec(), 2, 16)));
        assert_eq!(place(names.file(b"s.bst")), Some((b"a.aux".to_vec(), 3, 11)));
        assert_eq!(place(names.file(b"t.bst")), None);
    }
}
