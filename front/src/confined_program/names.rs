//! The names that an `.aux` file gives. They are at least those that the program asks for: a name is taken also where the program finds a fault
//! with its line, as whitespace in it or text after the `}`.

use super::stop::Stop;
use crate::terminal::plain;
use std::ffi::OsStr;
use std::os::unix::ffi::OsStrExt;
use std::path::Path;

/// Bytes of a file's name. No usual system has longer ones, so a longer one is of no file.
const LONGEST_NAME: usize = 255;

/// A name of a file of the job's folder: it has no `/` and no `..`, and no dot at its beginning.
#[derive(Debug, Clone, PartialEq, Eq, Hash)]
pub struct FileName(Vec<u8>);

impl FileName {
    /// Checks a name.
    pub fn check(name: &[u8]) -> Result<FileName, Stop> {
        if is_in_folder(name) {
            return Ok(FileName(name.to_vec()));
        }
        let shown = plain(&name[..name.len().min(LONGEST_NAME)]);
        Err(Stop::refused(format!("the name '{shown}' isn't one of a file of this folder")))
    }

    /// The path of the file, in the present folder.
    pub fn path(&self) -> &Path {
        Path::new(OsStr::from_bytes(&self.0))
    }

    /// The name for people.
    pub fn shown(&self) -> String {
        plain(&self.0)
    }

    /// Whether this is the name of an `.aux` file.
    pub fn is_aux(&self) -> bool {
        self.0.ends_with(b".aux")
    }

    /// Whether a file can have a name of this length.
    pub fn is_short(&self) -> bool {
        self.0.len() <= LONGEST_NAME
    }
}

/// Whether a name is one of a file of the present folder.
fn is_in_folder(name: &[u8]) -> bool {
    !name.is_empty() && !name.starts_with(b".") && !name.contains(&b'/') && !name.windows(2).any(|two| two == b"..")
}

/// A command that names files.
#[derive(Debug, Clone, Copy, PartialEq, Eq)]
enum Command {
    Input,
    Style,
    Databases,
}

impl Command {
    /// The command of this word.
    fn of(word: &[u8]) -> Option<Command> {
        match word {
            b"\\@input" => Some(Command::Input),
            b"\\bibstyle" => Some(Command::Style),
            b"\\bibdata" => Some(Command::Databases),
            _ => None,
        }
    }

    /// The name of the file that a piece of this command's argument names; none for an `\@input` of another ending.
    fn name(self, piece: &[u8]) -> Option<Vec<u8>> {
        match self {
            Command::Input => piece.ends_with(b".aux").then(|| piece.to_vec()),
            Command::Style => Some(with_ending(piece, b".bst")),
            Command::Databases => Some(with_ending(piece, b".bib")),
        }
    }
}

/// A name with this ending, unless it ends so already.
fn with_ending(name: &[u8], ending: &[u8]) -> Vec<u8> {
    if name.ends_with(ending) { name.to_vec() } else { [name, ending].concat() }
}

/// The command of a line and its argument, up to the first `}`.
fn command_of(line: &[u8]) -> Option<(Command, &[u8])> {
    let brace = line.iter().position(|&byte| byte == b'{')?;
    let command = Command::of(&line[..brace])?;
    let argument = &line[brace + 1..];
    let end = argument.iter().position(|&byte| byte == b'}').unwrap_or(argument.len());
    Some((command, &argument[..end]))
}

/// The names that the text of an `.aux` file gives, in order, with their endings.
pub fn names_in(text: &[u8]) -> impl Iterator<Item = Vec<u8>> {
    text.split(|&byte| byte == b'\n').filter_map(command_of).flat_map(|(command, argument)| {
        argument
            .split(move |&byte| byte == b',' && command == Command::Databases)
            .filter_map(move |piece| command.name(piece))
    })
}

#[cfg(test)]
mod tests {
    use super::*;

    fn named(text: &str) -> Vec<String> {
        names_in(text.as_bytes()).map(|name| String::from_utf8(name).unwrap()).collect()
    }

    #[test]
    fn each_command_names_its_files() {
        assert_eq!(
            named("\\@input{one.aux}\n\\bibdata{a,b.bib}\n\\bibstyle{s}"),
            ["one.aux", "a.bib", "b.bib", "s.bst"]
        );
        assert_eq!(named("\\bibstyle{s,t}\n"), ["s,t.bst"]);
        assert_eq!(named("\\bibdata{}\n\\bibdata{a,}\n"), [".bib", "a.bib", ".bib"]);
    }

    #[test]
    fn a_line_that_is_no_command_names_nothing() {
        assert_eq!(
            named("\\citation{a}\n \\bibdata{b}\n\\bibdata\n\\bibdata {c}\nx\\bibstyle{d}\n\\@input{e.tex}\n"),
            [""; 0]
        );
    }

    #[test]
    fn names_of_faulty_lines_count_too() {
        assert_eq!(named("\\bibdata{a b,../c"), ["a b.bib", "../c.bib"]);
        assert_eq!(named("\\bibstyle{../s}x\r\n"), ["../s.bst"]);
        assert_eq!(named("\\bibdata{a\0,/b}\n"), ["a\0.bib", "/b.bib"]);
        assert_eq!(named("\\@input{../x.aux\r\n"), [""; 0]);
        assert_eq!(named("\\bibdata{x{y},z}\n"), ["x{y.bib"]);
    }

    #[test]
    fn names_out_of_the_folder_are_refused() {
        for name in ["", ".a", "a/b", "/a", "..", "a..b", "../a"] {
            assert!(FileName::check(name.as_bytes()).is_err(), "{name}");
        }
        for name in ["a", "a.b", "-a", "a b", "*", "a.", "\n"] {
            assert!(FileName::check(name.as_bytes()).is_ok(), "{name}");
        }
    }
}
