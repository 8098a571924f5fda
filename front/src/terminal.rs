//! What is safe to print on a terminal, and how wide it is.

use crate::system::{AsFd, columns as columns_of_terminal};
use std::ffi::OsStr;
use std::io::{self, ErrorKind, IsTerminal, Write};
use std::thread;
use std::time::Duration;
use unicode_width::UnicodeWidthChar;

/// Where explanations are printed.
#[derive(Debug, Clone, Copy, PartialEq, Eq)]
pub struct Terminal {
    /// Whether it is a terminal: then no byte of a file may act on it.
    pub is_terminal: bool,
    /// Whether colours are wanted.
    pub has_colours: bool,
    /// How many columns a line has.
    pub width: usize,
}

/// The colours of an error, of a warning, and of what says where something stands, as a terminal takes them.
pub const ERROR_COLOUR: &str = "\x1b[1;31m";
pub const WARNING_COLOUR: &str = "\x1b[1;33m";
pub const PLACE_COLOUR: &str = "\x1b[2m";
/// What ends a colour.
pub const NO_COLOUR: &str = "\x1b[0m";

/// The width of a terminal that doesn't say its own.
const USUAL_WIDTH: usize = 80;

impl Terminal {
    /// A file or a pipe.
    pub const NONE: Terminal = Terminal { is_terminal: false, has_colours: false, width: USUAL_WIDTH };

    /// What standard output is; `NO_COLOR` and `TERM` say whether colours are wanted on a terminal.
    pub fn of(out: &(impl IsTerminal + AsFd)) -> Terminal {
        if !out.is_terminal() {
            return Terminal::NONE;
        }
        let (no_color, term) = (std::env::var_os("NO_COLOR"), std::env::var_os("TERM"));
        let has_colours = wants_colours(no_color.as_deref(), term.as_deref());
        let width = columns_of_terminal(out).unwrap_or(USUAL_WIDTH);
        Terminal { is_terminal: true, has_colours, width }
    }

    /// A text in a colour, where colours are wanted.
    pub fn coloured(&self, colour: &str, text: &str) -> String {
        if self.has_colours { format!("{colour}{text}{NO_COLOUR}") } else { text.to_string() }
    }
}

/// A writer that waits as long as its reader takes no more: the program at the other end may have asked that nobody waits.
pub struct Patient<W>(pub W);

/// After how much time it tries again.
const MOMENT: Duration = Duration::from_millis(5);

fn patiently<T>(mut act: impl FnMut() -> io::Result<T>) -> io::Result<T> {
    loop {
        match act() {
            Err(fault) if fault.kind() == ErrorKind::WouldBlock => thread::sleep(MOMENT),
            done => return done,
        }
    }
}

impl<W: Write> Write for Patient<W> {
    fn write(&mut self, bytes: &[u8]) -> io::Result<usize> {
        patiently(|| self.0.write(bytes))
    }

    fn flush(&mut self) -> io::Result<()> {
        patiently(|| self.0.flush())
    }
}

/// Whether a terminal is to have colours, by the values of `NO_COLOR` and `TERM`.
fn wants_colours(no_color: Option<&OsStr>, term: Option<&OsStr>) -> bool {
    no_color.is_none_or(OsStr::is_empty) && term.is_some_and(|term| !term.is_empty() && term != "dumb")
}

/// A text of a job for people, safe on a terminal: bytes that aren't UTF-8, control characters and marks of the direction of text are
/// shown as `?`, and a tab as a space.
pub fn plain(text: &[u8]) -> String {
    let mut shown = String::with_capacity(text.len());
    for chunk in text.utf8_chunks() {
        shown.extend(chunk.valid().chars().map(plain_character));
        if !chunk.invalid().is_empty() {
            shown.push('?');
        }
    }
    shown
}

fn plain_character(character: char) -> char {
    match character {
        '\t' => ' ',
        character if acts_on_a_terminal(character) => '?',
        character => character,
    }
}

/// Whether a character steers a terminal, or changes the order in which others are seen.
fn acts_on_a_terminal(character: char) -> bool {
    let turns_text =
        matches!(character, '\u{61c}' | '\u{200e}' | '\u{200f}' | '\u{2028}'..='\u{202e}' | '\u{2066}'..='\u{2069}');
    character.is_control() || turns_text
}

/// Whether a text has such a character. (Bytes that aren't UTF-8 don't count: names of files have them.)
pub fn steers_terminals(text: &[u8]) -> bool {
    text.utf8_chunks().any(|chunk| chunk.valid().chars().any(acts_on_a_terminal))
}

/// How many columns of a terminal a text takes.
pub fn columns(text: &str) -> usize {
    text.chars().map(columns_of).sum()
}

/// How many columns a character takes: combining ones none, those of East Asian scripts two. What is shown has no control character.
pub fn columns_of(character: char) -> usize {
    character.width().unwrap_or(0)
}

/// An indented text in lines of at most `most` columns, broken at spaces; those after the first begin with `indent`. A word that is longer
/// has a line of its own.
pub fn in_lines(text: &str, most: usize, indent: &str) -> Vec<String> {
    let (first, words) = text.split_at(text.len() - text.trim_start().len());
    let (mut lines, mut line) = (Vec::new(), first.to_string());
    let mut taken = None;
    for word in words.split_inclusive(' ') {
        let width = columns(word.trim_end());
        if taken.is_some_and(|taken| taken + width > most) {
            lines.push(std::mem::replace(&mut line, indent.to_string()));
            taken = Some(indent.len());
        }
        line.push_str(word);
        taken = Some(taken.unwrap_or(first.len()) + columns(word));
    }
    lines.push(line);
    lines.iter_mut().for_each(|line| line.truncate(line.trim_end().len()));
    lines
}

#[cfg(test)]
mod tests {
    use super::*;

    #[test]
    fn controls_are_shown_as_question_marks() {
        assert_eq!(plain(b"a\x1b]0;T\x07b\x7f\x00\tc"), "a?]0;T?b?? c");
        assert_eq!(plain("\u{9b}2J\u{85}".as_bytes()), "?2J?");
        assert_eq!(plain(b"\x9b2J"), "?2J");
        assert_eq!(plain("x\u{202e}y\u{2066}z\u{200f}\u{2028}".as_bytes()), "x?y?z??");
    }

    #[test]
    fn utf8_stays() {
        let text = "Müller, 田中, Øyvind, 👍, é, नी";
        assert_eq!(plain(text.as_bytes()), text);
        assert_eq!(plain(b"n\xf6te \xc3"), "n?te ?");
        assert_eq!(plain(b"\xed\xa0\x80"), "???");
    }

    #[test]
    fn colours_are_for_terminals_that_have_them() {
        let wants =
            |no_color: Option<&str>, term: Option<&str>| wants_colours(no_color.map(OsStr::new), term.map(OsStr::new));
        assert!(wants(None, Some("xterm")));
        assert!(wants(Some(""), Some("xterm")));
        assert!(!wants(Some("1"), Some("xterm")));
        assert!(!wants(None, Some("dumb")));
        assert!(!wants(None, None));
    }

    #[test]
    fn long_texts_are_broken_at_spaces() {
        assert_eq!(in_lines("    a bb ccc dddd", 9, "      "), ["    a bb", "      ccc", "      dddd"]);
        assert_eq!(in_lines("    short", 80, "      "), ["    short"]);
        assert_eq!(in_lines("averylongword", 4, "  "), ["averylongword"]);
        assert_eq!(in_lines("    averylongword b c", 4, "  "), ["    averylongword", "  b", "  c"]);
        assert_eq!(in_lines("", 4, "  "), [""]);
    }

    #[test]
    fn columns_are_those_of_a_terminal() {
        assert_eq!(columns("ab"), 2);
        assert_eq!(columns("田中"), 4);
        assert_eq!(columns("e\u{301}"), 1);
    }
}
