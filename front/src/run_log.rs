//! The log of a run as it is written and printed.

use crate::btx::{Answer, Ran};
use crate::exit::Status;
use crate::explain;
use crate::half_letters::HalfLetter;
use crate::job::Files;
use crate::letter_run::Letters;
use crate::letters::{TextMode, style_is_whole};
use crate::log::{Content, Line, Log};
use crate::run_json;
use crate::scene::{End, Scenes};
use crate::shapes::{self, Part};
use crate::system::Signal;
use crate::terminal::{Patient, Terminal, plain};
use crate::words::Words;
use std::borrow::Cow;
use std::cell::OnceCell;
use std::io::{self, Write};
use std::ops::Range;

/// The first line of a log; tools look for its beginning.
const BANNER: &[u8] = concat!("This is BibTeX, Version ", env!("CARGO_PKG_VERSION"), " (proved)\n").as_bytes();

/// How many lines of a log that has filled its room are printed.
pub const MOST_PRINTED: usize = 1000;

/// What a signal ended.
#[derive(Debug, Clone, Copy)]
pub enum Interrupted {
    /// A run: what there is is that of its beginning.
    Run(Signal),
    /// The search for where the style stood at the errors of a run that is done.
    Search(Signal),
}

/// A log as it stands in the `.blg`.
pub struct Whole {
    pub bytes: Vec<u8>,
    /// Those of each message and of the last line, where messages are printed as JSON.
    pub places: Vec<Range<usize>>,
}

/// What became of what a run gave.
pub struct Kept {
    /// The exit status; None where a signal ends the program.
    pub status: Option<Status>,
    /// Whether the list and the log are written.
    pub is_written: bool,
}

/// The log of a run.
pub struct RunLog<'a> {
    pub words: &'a Words,
    pub files: &'a Files,
    /// The log's name.
    pub name: &'a [u8],
    pub ran: &'a Ran,
    /// What a signal ended, if one came.
    pub interrupted: Option<Interrupted>,
    /// Where the style stood at its errors.
    pub scenes: Scenes,
    /// What is to be said of half a letter in the list, once it was looked for.
    pub half_letter: OnceCell<Option<String>>,
}

impl RunLog<'_> {
    /// The log as the library wrote it, with the places in the style.
    pub fn log(&self) -> Log<'_> {
        let is_interrupted = matches!(self.interrupted, Some(Interrupted::Run(_)));
        self.ran.lines_of_log().with_scenes(&self.scenes).with_list(&self.ran.list).interrupted(is_interrupted)
    }

    /// The whole log, as it stands in the `.blg`.
    pub fn whole(&self) -> Whole {
        let mut bytes = [BANNER, &self.notes()].concat();
        let mut places = Vec::new();
        let mut note = |line: &Line<'_>, place: Range<usize>| {
            if self.words.is_json && matches!(line.content, Content::Message(_) | Content::Ended(_)) {
                places.push(place);
            }
        };
        shapes::write_noting(&self.log(), self.files, Part::Whole, self.words.rooms.log, &mut bytes, &mut note);
        Whole { bytes, places }
    }

    /// What is to be said before the messages: how a run was ended, and what became of letters of UTF-8.
    pub fn notes(&self) -> Vec<u8> {
        [self.end_notes(), self.letter_notes()].concat()
    }

    /// What is to be said of the list's letters of UTF-8: that it was made by reading letters though nobody asked for that, and that it has half a letter.
    fn letter_notes(&self) -> Vec<u8> {
        let mut notes = String::new();
        if let Letters::LeftOut(why) = self.ran.letters {
            notes.push_str(&format!("The list is made without -letters: {}.\n", why.reason()));
        }
        let is_coded = matches!(self.ran.letters, Letters::Coded(_));
        let note = || self.ran.half_letter(self.files).map(|half| self.half_letter_note(half));
        let half = self.half_letter.get_or_init(note);
        // (a list that has half a letter is no better for that)
        if self.ran.utf8 && self.words.text == TextMode::Auto && !is_coded && half.is_none() {
            notes.push_str(
                "The list is made with -text=utf8: read by bytes, it would have half a letter, which LaTeX refuses.\n",
            );
        }
        if let Some(note) = half {
            notes.push_str(note);
        }
        notes.into_bytes()
    }

    /// What is to be said of half a letter in the list: why it is there, and what to do, a line each.
    fn half_letter_note(&self, half: HalfLetter<'_>) -> String {
        let (why, advice) = match (self.ran.utf8, style_is_whole(self.files)) {
            (_, false) => ("the style isn't UTF-8", String::new()),
            (false, true) => ("try -text=utf8", String::new()),
            (true, true) => {
                let entry = half.key.map_or(String::new(), |key| format!(" of the entry `{}`", plain(key)));
                let advice =
                    format!("Write the letter{entry} as a command of TeX, such as {{\\'e}}, or take another style.\n");
                ("the style cuts text by bytes", advice)
            }
        };
        let line = half.line;
        format!("Line {line} of the list has half a letter, which LaTeX refuses: {why}.\n{advice}")
    }

    /// What is to be said of a run that was ended, and where its style stood.
    fn end_notes(&self) -> Vec<u8> {
        let megabytes = |room: usize| room as f64 / f64::from(1 << 20);
        let rooms = &self.words.rooms;
        let mut notes = match (self.interrupted, self.ran.answer) {
            (Some(Interrupted::Run(signal)), Answer::Done(report)) => format!(
                "Interrupted by {}: list and log are those of the first {} steps, and begin what the run would have written.\n",
                signal.name(),
                report.steps
            ),
            (Some(Interrupted::Search(signal)), Answer::Done(_)) => format!(
                "Interrupted by {}: the run was done, and list and log are whole; where the style stood is left out.\n",
                signal.name()
            ),
            (_, Answer::LogFull) => {
                format!("Ended: the messages fill the log's room of {:.1} MB (-log-room).\n", megabytes(rooms.log))
            }
            (_, Answer::ListFull) => {
                format!("Ended: the list fills its room of {:.1} MB (-list-room).\n", megabytes(rooms.list))
            }
            _ => return Vec::new(),
        }
        .into_bytes();
        if matches!(self.ran.answer, Answer::LogFull | Answer::ListFull)
            && let Some(at) = self.scenes.end.as_ref().and_then(End::placed)
        {
            shapes::write_place(at, &mut notes);
        }
        notes
    }

    /// Prints the log: as JSON, or explained, or as it stands in the `.blg`, which is handed in, or what went wrong alone.
    pub fn print(&self, whole: &Whole, kept: &Kept) -> io::Result<()> {
        let stdout = io::stdout();
        if self.words.is_json {
            let mut out = io::BufWriter::new(Patient(stdout.lock()));
            return run_json::write(self, &whole.places, kept, &mut out).and_then(|()| out.flush());
        }
        let terminal = Terminal::of(&stdout);
        let explains = self.words.explains(terminal.is_terminal);
        let mut out = io::BufWriter::new(Patient(stdout.lock()));
        if explains {
            self.explain(&terminal, &mut out)?;
        } else {
            self.print_plainly(&whole.bytes, &terminal, &mut out)?;
        }
        out.flush()
    }

    fn part(&self) -> Part {
        if self.words.terse { Part::Messages } else { Part::Whole }
    }

    fn explain(&self, terminal: &Terminal, out: &mut impl Write) -> io::Result<()> {
        out.write_all(&shown(&self.notes(), terminal))?;
        explain::write(&self.log(), self.files, self.part(), terminal, out)
    }

    fn print_plainly(&self, whole: &[u8], terminal: &Terminal, out: &mut impl Write) -> io::Result<()> {
        let text = match self.part() {
            Part::Whole => Cow::Borrowed(whole),
            Part::Messages | Part::Mistakes => {
                let mut messages = self.notes();
                shapes::write(&self.log(), self.files, Part::Messages, self.words.rooms.log, &mut messages);
                messages.into()
            }
        };
        if self.ran.answer != Answer::LogFull {
            return out.write_all(&shown(&text, terminal));
        }
        out.write_all(&shown(first_lines(&text, MOST_PRINTED), terminal))?;
        writeln!(out, "(The rest of the log is in {}.)", plain(self.name))
    }
}

/// The first lines of a text.
fn first_lines(text: &[u8], most: usize) -> &[u8] {
    let mut ends = text.iter().enumerate().filter(|(_, byte)| **byte == b'\n');
    ends.nth(most - 1).map_or(text, |(end, _)| &text[..=end])
}

/// A text as it is printed: on a terminal, what acts on it is replaced.
fn shown<'a>(text: &'a [u8], terminal: &Terminal) -> Cow<'a, [u8]> {
    if !terminal.is_terminal {
        return text.into();
    }
    let lines = text.split_inclusive(|byte| *byte == b'\n').map(|line| match line.strip_suffix(b"\n") {
        // A line of a file may end with a carriage return as well.
        Some(line) => plain(line.strip_suffix(b"\r").unwrap_or(line)) + "\n",
        None => plain(line),
    });
    lines.collect::<String>().into_bytes().into()
}
