//! What can be said of a style before any document uses it: what is wrong in its text, whether the proved checker calls it clean, and hints.

use crate::btx::{self, Answer, MemoryRefused, Options, Rooms, Verdict};
use crate::code_places::{Code, Declared};
use crate::constants::{Constant, constants};
use crate::event_places::{LogPlaces, Placed};
use crate::exit::{Failure, words_of};
use crate::hints::{Hint, hints};
use crate::job::{File, Files};
use crate::lint_endless::{Endless, endless};
use crate::lint_ends::{Ends, ends_of};
use crate::lint_entry::{Shown, entries};
use crate::lint_types::{Types, types_of};
use crate::lint_warnings::{Warnings, read};
use crate::literals::unequal;
use crate::log::{Content, Line, Message, Place};
use crate::style_read::{StyleNames, StyleRead};
use crate::style_text::{Kind, Token, Tokens, commands};
use crate::system::trying;
use std::io;
use std::thread;

/// How many steps the commands of a style may take that is read for its messages: no entry is there.
const STEPS_OF_READING: u64 = 100_000;

/// The stack of a check: twice what the call takes at most.
const STACK: usize = 1 << 21;

/// How many steps a check may take of a style that declares at most so many names, where nothing else is said, and of any style. No style of TeX Live declares more than 424.
const STEPS: u64 = 2_000_000;
const NAMES: u64 = 500;
const LEAST_STEPS: u64 = 1000;

/// How many steps a check of this style may take, where nothing else is said. With more names a check needs more steps, and a step takes longer, since it looks through what is known of all of them:
/// so they are fewer by the square.
pub fn usual_steps(style: &StyleNames<'_>) -> u64 {
    let names = (style.count() as u64).max(NAMES);
    (STEPS * NAMES / names * NAMES / names).max(LEAST_STEPS)
}

/// The room for the log of a style's own messages.
const ROOM: usize = 1 << 24;

/// The messages on a style's text.
pub struct Messages {
    /// They, as lines of a log.
    pub log: Vec<u8>,
    /// Where each of them was met in the text.
    pub places: LogPlaces,
    /// How many there are.
    pub count: usize,
    /// Whether the text was read to its end: a long log may stand before a mistake.
    pub is_whole: bool,
}

impl Messages {
    /// Adds a line of a run's log.
    fn add(&mut self, line: &Line<'_>) {
        if let Content::Message(Message { met: Some(place), .. }) = &line.content {
            self.places.known.push(Placed { at: self.log.len(), place: **place });
        }
        self.log.extend([line.bytes, b"\n"].concat());
        self.count += 1;
    }
}

/// What was found of a style.
pub struct StyleCheck {
    /// The style and what is read beside it, for the explanations of its messages.
    pub files: Files,
    /// What is wrong in the style's text.
    pub messages: Messages,
    /// None where the style is too long.
    pub verdict: Option<Verdict>,
    /// Whether each run of it ends; None where the style is too long.
    ends: Option<Ends>,
    /// For which types of entries the verdict is, where it says anything of the whole style.
    types: Option<Types>,
    /// How many steps the check could take.
    pub steps: u64,
    /// Where it may go wrong, if it isn't clean.
    pub found: Warnings,
    /// Whether an entry shows each of the warnings that are shown, where that was asked.
    pub entries: Option<Vec<Shown>>,
    /// An entry with which a run isn't at its end after many steps, where that was asked, no bound is known, and one was found.
    pub endless: Option<Endless>,
    /// Constants that the functions after them can't take.
    pub constants: Vec<Constant>,
    pub hints: Vec<Hint>,
}

impl StyleCheck {
    /// Checks a style in at most `steps` steps of the check, or as many as are usual where none are given. Where `has_entries`, an entry is searched for that shows each warning. A failure is the machine's: nothing is said of
    /// the style then.
    pub fn new(style: File, steps: Option<u64>, has_entries: bool) -> Result<StyleCheck, Failure> {
        let style = File { name: name_in_job(&style.name), ..style };
        let bytes = style.bytes.clone().unwrap_or_default();
        // (the tokens of a long style take much room, and the check needs none of them)
        let (constants, hints, names) = {
            let style = StyleRead::new(&bytes);
            (constants(&style)?, hints(&style), style.names)
        };
        let steps = steps.unwrap_or_else(|| usual_steps(&names));
        let (verdict, ends) = check_apart(&style, steps)?;
        let found = found_of(&style, verdict.as_ref());
        let entries = if has_entries { Some(entries(&style, &found.shown())?) } else { None };
        let endless = if has_entries { endless_of(&style, ends.as_ref())? } else { None };
        let types = types_of(&style.name, &names, &verdict)?;
        let files = job_of(style);
        let messages = messages_of(&files)?;
        Ok(StyleCheck { files, messages, verdict, ends, types, steps, found, entries, endless, constants, hints })
    }

    /// For which types of entries the verdict is; None where it says nothing of the whole style.
    pub fn types(&self) -> Option<&Types> {
        self.types.as_ref().filter(|_| matches!(self.word(), "clean" | "warnings"))
    }

    /// The verdict, in a word. A style whose text has mistakes isn't called clean, whatever is said of what could be read of it.
    pub fn word(&self) -> &'static str {
        match self.verdict {
            _ if self.messages.count > 0 => "mistakes",
            _ if !self.messages.is_whole => "incomplete",
            Some(Verdict::Clean { .. }) if self.constants.is_empty() => "clean",
            Some(Verdict::Clean { .. } | Verdict::Warnings(_)) => "warnings",
            Some(Verdict::Incomplete(_)) | None => "incomplete",
        }
    }

    /// Whether each run of it ends, where that is said: not of a style whose text has mistakes, or wasn't read to its end.
    pub fn ends(&self) -> Option<&Ends> {
        self.ends.as_ref().filter(|_| self.messages.count == 0 && self.messages.is_whole)
    }

    /// Whether nothing is to be said but hints.
    pub fn is_clean(&self) -> bool {
        self.word() == "clean"
    }
}

/// An entry with which a run isn't at its end after many steps, if one is found: of a style of which no bound is known.
fn endless_of(style: &File, ends: Option<&Ends>) -> Result<Option<Endless>, MemoryRefused> {
    if ends.and_then(Ends::reason).is_some() { endless(style) } else { Ok(None) }
}

/// Where a style may go wrong by this verdict, with the unequal `if$` that its text shows, too.
fn found_of(style: &File, verdict: Option<&Verdict>) -> Warnings {
    let Some(Verdict::Warnings(notes) | Verdict::Incomplete(notes)) = verdict else { return Warnings::default() };
    let mut found = read(notes, &style.name);
    if !found.warnings.is_empty() {
        found.add_causes(unequal(&Code::new(style.bytes.as_deref().unwrap_or_default())));
    }
    found
}

/// How many steps the check of a style may take of which a run has gone wrong: some 0.1 s.
const STEPS_FOR_RUN: u64 = 400_000;

/// Where a style may go wrong, for the explanation of a run; nothing where the check takes longer than a reader would wait, or the machine fails.
pub fn warnings_for_run(style: &File) -> Warnings {
    let bytes = style.bytes.clone().unwrap_or_default();
    let steps = usual_steps(&StyleNames::new(&bytes)).min(STEPS_FOR_RUN);
    let name = style.name.clone();
    let thread =
        thread::Builder::new().stack_size(STACK).spawn(move || btx::check(&name, &bytes, steps).ok().flatten());
    let verdict = thread.ok().and_then(|thread| thread.join().ok()).flatten();
    found_of(style, verdict.as_ref())
}

/// A stack that there is room for where there is any.
const LEAST_STACK: usize = 1 << 14;

/// Why no thread could be begun to check a style. The system has one answer for a stack without room and for too many threads: where a thread with a small stack can be begun, or memory
/// is refused for the large one, it is the room.
fn unbegun(style: &File, fault: &io::Error) -> Failure {
    let mut stack: Vec<u8> = Vec::new();
    let is_small_begun = thread::Builder::new().stack_size(LEAST_STACK).spawn(|| ()).is_ok();
    if is_small_begun || trying(|| stack.try_reserve_exact(STACK)).is_err() {
        return Failure::Memory;
    }
    Failure::Device(style.path.clone(), "can't be checked, since no thread can be begun", words_of(fault))
}

/// Checks a style in a thread of its own, whose stack has room for the call. No clock says when it ends, so the verdict is the same on every machine.
fn check_apart(style: &File, steps: u64) -> Result<(Option<Verdict>, Option<Ends>), Failure> {
    let (name, bytes) = (style.name.clone(), style.bytes.clone().unwrap_or_default());
    let check = move || Ok((btx::check(&name, &bytes, steps)?, ends_of(&name, &bytes)?));
    let thread = thread::Builder::new().stack_size(STACK).spawn(check).map_err(|fault| unbegun(style, &fault))?;
    // (a thread that panicked has ended the program)
    let checked: Result<_, MemoryRefused> = thread.join().unwrap_or(Ok((None, None)));
    Ok(checked?)
}

/// A style's name as an `.aux` file can have it: whitespace, braces, commas and control bytes are `-`. The path stays, by which the style is shown.
fn name_in_job(name: &[u8]) -> Vec<u8> {
    let is_apart = |byte: &u8| *byte <= b' ' || *byte == 127 || b"{},".contains(byte);
    name.iter().map(|byte| if is_apart(byte) { b'-' } else { *byte }).collect()
}

/// A job of a style, without entries.
fn job_of(style: File) -> Files {
    let stem = style.name.strip_suffix(b".bst").unwrap_or(&style.name);
    let top = [b"\\citation{*}\n\\bibdata{none}\n\\bibstyle{", stem, b"}\n"].concat();
    let file = |name: &[u8], bytes: Vec<u8>| File { name: name.to_vec(), bytes: Some(bytes), path: name.to_vec() };
    let database = file(b"none.bib", Vec::new());
    Files { top: b"job.aux".to_vec(), all: vec![file(b"job.aux", top), style, database] }
}

/// A style's text without the functions that it executes after READ: so a run of it reads it to its end, whatever they do.
fn without_executions(text: &[u8]) -> Vec<u8> {
    let code = Code::new(text);
    let is_function =
        |name: &[u8]| name.ends_with(b"$") || matches!(code.declared(name), Some(Declared::Function { .. }));
    let mut rest = text.to_vec();
    for command in commands(text).iter().skip_while(|command| !command.is("read")) {
        let begin = command.start + command.word.len();
        let argument: Vec<Token> = Tokens::new(&text[begin..]).take(3).collect();
        let [Token { kind: Kind::Open, .. }, Token { kind: Kind::Name, .. }, close @ Token { kind: Kind::Close, .. }] =
            argument[..]
        else {
            continue;
        };
        if command.is("execute") && command.name.is_some_and(is_function) {
            let executed = &mut rest[command.start..begin + close.end];
            executed.iter_mut().filter(|byte| **byte != b'\n').for_each(|byte| *byte = b' ');
        }
    }
    rest
}

/// The messages on a style's text, by a run without an entry; where what it executes doesn't come to its end, by another run without that.
fn messages_of(files: &Files) -> Result<Messages, MemoryRefused> {
    let messages = messages_by(files)?;
    if messages.is_whole {
        return Ok(messages);
    }
    let mut files = files.clone();
    for file in files.all.iter_mut().filter(|file| file.name.ends_with(b".bst")) {
        file.bytes = file.bytes.as_deref().map(without_executions);
    }
    messages_by(&files)
}

/// The messages on a style's text by a run of this job.
fn messages_by(files: &Files) -> Result<Messages, MemoryRefused> {
    let options = Options::usual(STEPS_OF_READING);
    let ran = btx::run(&files.top, &files.all, &options, &Rooms { list: ROOM, log: ROOM });
    let is_of_text = |content: &Content<'_>| matches!(content, Content::Message(message) if matches!(message.place, Place::Line { file, .. } if file.ends_with(b".bst")));
    let log = ran.lines_of_log();
    // (of a log with very many lines it isn't known of each whether the style printed it)
    let (is_whole, errors) = match ran.answer {
        Answer::Done(report) => (report.has_finished(), usize::try_from(report.errors).unwrap_or(usize::MAX)),
        Answer::ListFull | Answer::LogFull => (false, usize::MAX),
        Answer::Memory => return Err(MemoryRefused),
    };
    let mut messages = Messages { log: Vec::new(), places: LogPlaces::default(), count: 0, is_whole };
    messages.places.are_first = ran.places.are_first;
    log.lines().filter(|line| is_of_text(&line.content)).take(errors).for_each(|line| messages.add(&line));
    Ok(messages)
}
