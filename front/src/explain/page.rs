//! What is printed of a log with its explanations, and what of that was said before.

use super::shown_path;
use crate::shown_line::{ShownLine, first_columns};
use crate::sources::Spot;
use crate::terminal::{PLACE_COLOUR, Terminal, in_lines, plain};
use std::collections::HashSet;
use std::io::{self, Write};

/// How many columns of a line of the log are shown.
pub(super) const LONGEST_LINE: usize = 2_000;
/// For how many columns at least lines are broken at spaces.
const NARROWEST: usize = 20;
const INDENT: &str = "    ";
/// How a line begins that goes on with the one above it.
const CONTINUED: &str = "      ";

/// Where explanations are written, and what was said there.
pub(super) struct Page<'a, W: Write> {
    pub(super) terminal: &'a Terminal,
    /// What was said of files, of entries that weren't found, and of parts of entries; each is said once.
    pub(super) said: HashSet<String>,
    /// All that was said to do.
    given: HashSet<String>,
    /// What was said last to do: messages that follow from one mistake may have the same advice, which is given once.
    last_advice: String,
    /// What was said to do about the line, where that is wanted apart.
    pub(super) advice: Option<Vec<String>>,
    pub(super) out: W,
}

impl<'a, W: Write> Page<'a, W> {
    pub(super) fn new(terminal: &'a Terminal, out: W) -> Page<'a, W> {
        Page { terminal, said: HashSet::new(), given: HashSet::new(), last_advice: String::new(), advice: None, out }
    }

    /// Lines that were laid out before, such as one of a file with its mark.
    pub(super) fn put_lines(&mut self, lines: &[String]) -> io::Result<()> {
        lines.iter().try_for_each(|line| self.coloured(PLACE_COLOUR, &format!("{INDENT}{line}")))
    }

    pub(super) fn coloured(&mut self, colour: &str, text: &str) -> io::Result<()> {
        writeln!(self.out, "{}", self.terminal.coloured(colour, text))
    }

    /// Indented text; on a terminal it is broken into lines that have room.
    fn indented(&self, text: &str) -> Vec<String> {
        let text = format!("{INDENT}{text}");
        let width = self.terminal.width.max(NARROWEST);
        if self.terminal.is_terminal { in_lines(&text, width, CONTINUED) } else { vec![text] }
    }

    /// A text that says where something stands.
    pub(super) fn put_place(&mut self, text: &str) -> io::Result<()> {
        self.indented(text).iter().try_for_each(|line| self.coloured(PLACE_COLOUR, line))
    }

    /// What to do about the message; nothing where that was said of the one before.
    pub(super) fn put_advice(&mut self, text: &str) -> io::Result<()> {
        if self.last_advice == text {
            return Ok(());
        }
        self.last_advice = text.to_string();
        self.given.insert(text.to_string());
        if let Some(advice) = &mut self.advice {
            advice.push(text.to_string());
        }
        self.indented(&format!("what to do: {text}")).iter().try_for_each(|line| writeln!(self.out, "{line}"))
    }

    /// Whether this was said to do, or more of it.
    pub(super) fn has_given(&self, text: &str) -> bool {
        self.given.iter().any(|given| given.starts_with(text))
    }

    /// Where something stands; once.
    pub(super) fn put_place_once(&mut self, text: &str) -> io::Result<()> {
        if self.said.insert(text.to_string()) { self.put_place(text) } else { Ok(()) }
    }

    pub(super) fn put_advice_once(&mut self, text: &str) -> io::Result<()> {
        if self.said.insert(text.to_string()) { self.put_advice(text) } else { Ok(()) }
    }

    /// A line of the log itself, cut where it is very long.
    pub(super) fn put_line(&mut self, colour: &str, line: &[u8]) -> io::Result<()> {
        let whole = plain(&line[..line.len().min(4 * LONGEST_LINE)]);
        let shown = first_columns(&whole, LONGEST_LINE);
        let dots = if shown.len() < whole.len() { ".." } else { "" };
        if colour.is_empty() {
            writeln!(self.out, "{shown}{dots}")
        } else {
            self.coloured(colour, &format!("{shown}{dots}"))
        }
    }

    /// A line of a file, and a mark below the part of it that a message is about.
    pub(super) fn show_line(&mut self, spot: &Spot<'_>) -> io::Result<()> {
        let name = plain(shown_path(spot.file));
        let mark = spot.part.map(|(start, _)| start);
        let lines = ShownLine { name: &name, number: spot.number, line: spot.line, mark }.lines(self.terminal);
        self.put_lines(&lines)
    }
}
