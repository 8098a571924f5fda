//! A log in the shapes of the original's, which editors and other tools look for.

use crate::aux_text::without_white_at_end;
use crate::code_places::Code;
use crate::job::Files;
use crate::log::{Content, Ended, Line, Log, Message, Place, Severity};
use crate::notes::Token;
use crate::origins::{IS_MISSING, with_field_named, with_field_of_scene};
use crate::scene::{Call, End};
use crate::sources::{Sources, Spot};
use crate::style_text;
use crate::text::{is_white, split_first};
use std::collections::HashMap;
use std::ops::Range;

/// Which lines are written.
#[derive(Debug, Clone, Copy, PartialEq, Eq)]
pub enum Part {
    /// The whole log, as it stands in the `.blg`.
    Whole,
    /// The messages alone, and how the run ended where it didn't finish: what the original prints with `-terse`.
    Messages,
    /// The messages on a style's text, for its designer: what a brace has to do with them is said before them.
    Mistakes,
}

/// Of how many messages at most a source line is shown, and how many bytes of it on each side of the place.
const MOST_SHOWN: usize = 10_000;
const LONGEST_SHOWN: usize = 500;

/// Writes a log in the original's shapes. The places of errors of a style's execution take at most `room` bytes; the further ones are left out, since each has the style's name
/// again.
pub fn write(log: &Log<'_>, files: &Files, part: Part, room: usize, out: &mut Vec<u8>) {
    write_noting(log, files, part, room, out, &mut |_, _| {});
}

/// Writes the same, and hands on each line with the bytes of `out` in which it stands then.
pub fn write_noting<'a>(
    log: &Log<'a>,
    files: &'a Files,
    part: Part,
    room: usize,
    out: &mut Vec<u8>,
    note: &mut dyn FnMut(&Line<'a>, Range<usize>),
) {
    let scene_of_end = log.scene_of_end();
    let (sources, top) = (Sources::new(files), &files.top[..]);
    let is_interrupted = log.is_interrupted;
    let mut shapes = Shapes {
        sources,
        top,
        part,
        shown: 0,
        unplaced: 0,
        code: None,
        named: HashMap::new(),
        room,
        scene_of_end,
        is_interrupted,
        out,
    };
    for line in log.lines().filter(|line| part == Part::Whole || !went_well(line)) {
        let start = shapes.out.len();
        shapes.line(&line);
        note(&line, start..shapes.out.len());
    }
    if log.has_first_places() && part != Part::Mistakes {
        shapes.count_unplaced();
    }
}

/// Writes pieces of a line, and its end.
fn put(out: &mut Vec<u8>, pieces: &[&[u8]]) {
    pieces.iter().for_each(|piece| out.extend_from_slice(piece));
    out.push(b'\n');
}

/// Writes where a style stood: in this line of this file.
fn put_place(line: usize, file: &[u8], out: &mut Vec<u8>) {
    put(out, &[b"while executing---line ", line.to_string().as_bytes(), b" of file ", file]);
}

/// Writes where a style stood.
pub fn write_place(at: &Call, out: &mut Vec<u8>) {
    put_place(at.line, &at.file, out);
}

/// Whether a line of a log says that all went well.
pub fn went_well(line: &Line<'_>) -> bool {
    match line.content {
        Content::Found(_) => true,
        Content::Ended(end) => end.is_clean(),
        Content::Message(_) | Content::Other => false,
    }
}

/// How many messages there were, as the original says it; None where there was none.
pub fn counted(end: &Ended<'_>) -> Option<String> {
    let (number, what) = if end.errors > 0 { (end.errors, "error message") } else { (end.warnings, "warning") };
    match number {
        0 => None,
        1 => Some(format!("(There was 1 {what})")),
        _ => Some(format!("(There were {number} {what}s)")),
    }
}

/// Writes the lines of a log.
struct Shapes<'a, 'o> {
    sources: Sources<'a>,
    top: &'a [u8],
    part: Part,
    shown: usize,
    /// Of how many errors of the style's execution the place isn't known.
    unplaced: usize,
    /// The code of the style, once a field is to be named.
    code: Option<Code<'a>>,
    /// The texts of errors at a token with the field named that is missing.
    named: HashMap<(Token, &'a [u8]), Option<Vec<u8>>>,
    /// How many bytes the places of errors of the style's execution may still take.
    room: usize,
    scene_of_end: Option<&'a End>,
    is_interrupted: bool,
    out: &'o mut Vec<u8>,
}

/// Names at the end of a message stand before a line of their own with its place, as in the original.
const BEFORE_NAMES: [&[u8]; 4] =
    [b"Case mismatch", b"I couldn't open", b"Already encountered file", b"This database file appears"];

impl<'a> Shapes<'a, '_> {
    fn put(&mut self, pieces: &[&[u8]]) {
        put(self.out, pieces);
    }

    fn line(&mut self, line: &Line<'a>) {
        match &line.content {
            Content::Message(message) if message.severity == Severity::Error => self.error(message),
            Content::Message(message) => self.warning(line.bytes, message),
            Content::Ended(end) => self.ended(line.bytes, end),
            Content::Found(_) | Content::Other => self.put(&[line.bytes]),
        }
    }

    fn warning(&mut self, line: &[u8], message: &Message<'a>) {
        if let Place::Line { number, file } = message.place {
            self.put(&[b"Warning--", message.text]);
            return self.put(&[b"--line ", number.to_string().as_bytes(), b" of file ", file]);
        }
        if message.text.starts_with(b"you've nested cross references--entry ") {
            return self.crossed(message.text, [b"Warning--", b"--"], b"\", which also refers to something");
        }
        self.put(&[line])
    }

    fn error(&mut self, message: &Message<'a>) {
        let text = message.text;
        match message.place {
            Place::Execution { function, entry } => return self.executed(message, function, entry),
            Place::Line { number, file } => {
                let is_needed = self.shown < MOST_SHOWN || file.ends_with(b".bst");
                let spot = if is_needed { self.sources.spot(message) } else { None };
                return self.placed(text, number, file, spot.as_ref());
            }
            Place::Nowhere => {}
        }
        if text.starts_with(b"I found no ") {
            return self.put(&[text, b"---while reading file ", self.top]);
        }
        if text.starts_with(b"A bad cross reference--entry ") {
            return self.crossed(text, [b"", b"---"], b"\", which doesn't exist");
        }
        match self.sources.spot(message) {
            Some(spot) => self.placed(text, spot.number, &spot.file.name, Some(&spot)),
            None => self.put(&[text]),
        }
    }

    /// An error while a style was executed.
    fn executed(&mut self, message: &Message<'a>, function: &[u8], entry: Option<&[u8]>) {
        let for_entry = if entry.is_some() { &b" for entry "[..] } else { b"" };
        let named = self.with_field_named(message, function);
        let text = named.as_deref().unwrap_or(message.text);
        self.put(&[text, b" (", function, b")", for_entry, entry.unwrap_or(b"")]);
        let Some((line, file)) = self.place_of(message) else {
            self.unplaced += 1;
            return;
        };
        let start = self.out.len();
        put_place(line, file, self.out);
        match self.room.checked_sub(self.out.len() - start) {
            Some(room) => self.room = room,
            None => self.out.truncate(start),
        }
    }

    /// Where an error of an execution stands: at its token, or at a command of the style.
    fn place_of(&self, message: &Message<'a>) -> Option<(usize, &'a [u8])> {
        if let Some(place) = message.met {
            return Some((place.line, self.sources.name(place.file)));
        }
        let at = message.scene?.placed()?;
        Some((at.line, &at.file))
    }

    /// The text of an error with the field named that is missing.
    fn with_field_named(&mut self, message: &Message<'a>, function: &[u8]) -> Option<Vec<u8>> {
        let place = message.met.filter(|_| message.text.starts_with(IS_MISSING))?;
        let bytes = self.sources.file(self.sources.name(place.file))?.bytes.as_deref()?;
        let code = self.code.get_or_insert_with(|| Code::new(bytes));
        let named = || with_field_named(code, place.start, message.text, function);
        let by_text = self.named.entry((place.token?, message.text)).or_insert_with(named).clone();
        by_text.or_else(|| with_field_of_scene(code, message.scene?, message.text, function))
    }

    /// Says of how many errors of the style's execution the place isn't known, if there are any.
    fn count_unplaced(&mut self) {
        let errors = match self.unplaced {
            0 => return,
            1 => "1 error".into(),
            more => format!("{more} errors"),
        };
        let text =
            format!("(Where the style stood isn't known of {errors}: it is looked for at the first ones alone.)");
        self.put(&[text.as_bytes()]);
    }

    /// An error in a line of a file.
    fn placed(&mut self, text: &[u8], number: usize, file: &[u8], spot: Option<&Spot<'a>>) {
        let number = number.to_string();
        let line_end: &[u8] = if BEFORE_NAMES.iter().any(|begin| text.starts_with(begin)) { b"\n" } else { b"" };
        self.put(&[text, line_end, b"---line ", number.as_bytes(), b" of file ", file]);
        if file.ends_with(b".bst") && self.costs_a_token(text, spot) {
            return;
        }
        self.source_line(spot);
        let is_entry = file.ends_with(b".bib") && spot.is_none_or(|spot| is_of_entry(text, spot));
        self.put(&[b"I'm skipping whatever remains of this ", if is_entry { b"entry" } else { b"command" }])
    }

    /// The line of a file, up to the place of an error and from there on.
    fn source_line(&mut self, spot: Option<&Spot<'a>>) {
        self.shown += 1;
        let Some(spot) = spot.filter(|_| self.shown <= MOST_SHOWN) else { return self.put(&[b" : "]) };
        let Some((before, behind)) = spot.halves() else {
            let line = without_white_at_end(spot.line);
            return self.put(&[b" : ", &line[..line.len().min(2 * LONGEST_SHOWN)]]);
        };
        let before = with_spaces(&before[before.len().saturating_sub(LONGEST_SHOWN)..]);
        let behind = with_spaces(&behind[..behind.len().min(LONGEST_SHOWN)]);
        self.put(&[b" : ", &before]);
        self.put(&[b" : ", &vec![b' '; before.len()], &behind]);
        let is_blank = before.iter().all(|byte| *byte == b' ');
        if is_blank {
            self.put(&[b"(Error may have been on previous line)"]);
        }
    }

    /// Whether the body of a function goes on after this mistake.
    fn costs_a_token(&mut self, text: &[u8], spot: Option<&Spot<'a>>) -> bool {
        let Some(spot) = spot else { return style_text::costs_a_token(text, None) };
        let name = &spot.file.name;
        let start = self.sources.text(name).map_or(0, |text| text.span(spot.number).0);
        let place = start + spot.part.map_or(0, |(start, _)| start);
        let commands = self.sources.commands(name);
        let around = commands[..commands.partition_point(|command| command.start <= place)].last();
        style_text::costs_a_token(text, around)
    }

    /// The two entries of a message about a cross-reference stand on two lines.
    fn crossed(&mut self, text: &[u8], [mark, dashes]: [&[u8]; 2], end: &[u8]) {
        let parts = split_first(text, b"--entry \"")
            .and_then(|(what, rest)| Some((what, split_first(rest, b"\" refers to entry \"")?)));
        let Some((what, (child, parent))) = parts else { return self.put(&[mark, text]) };
        let parent = split_first(parent, b"\"").map_or(parent, |(name, _)| name);
        self.put(&[mark, what, dashes, b"entry \"", child, b"\""]);
        self.put(&[b"refers to entry \"", parent, end])
    }

    /// How a run ended, and how many messages there were.
    fn ended(&mut self, line: &[u8], end: &Ended<'a>) {
        if self.part == Part::Whole {
            self.put(&[line]);
        }
        if end.how == b"stopped" && !self.is_interrupted {
            let steps = end.steps.to_string();
            self.put(&[b"Sorry---you've exceeded BibTeX's budget of ", steps.as_bytes(), b" steps"]);
        } else if end.how.starts_with(b"limit ") {
            let words = words_of_limit(end.how).map_or(String::new(), |words| format!(" ({words})"));
            self.put(&[b"Sorry---you've exceeded BibTeX's ", end.how, words.as_bytes()]);
        }
        if let Some(at) = self.scene_of_end.and_then(End::placed) {
            write_place(at, self.out);
        }
        if let Some(count) = counted(end) {
            self.put(&[count.as_bytes()]);
        }
    }
}

/// What there is more of than a run may have, by the word of its end.
pub fn words_of_limit(how: &[u8]) -> Option<&'static str> {
    Some(match how {
        b"limit string" => "a string of more than 1,000,000 bytes",
        b"limit literals" => "more than 1,000 literals on the stack",
        b"limit calls" => "more than 4,096 functions that run within one another",
        b"limit loops" => "more than 4,096 loops within one another",
        _ => return None,
    })
}

/// Whether the original calls an item of a database an entry: all but `@string` and `@preamble`, of which it has read more than the name.
fn is_of_entry(error: &[u8], spot: &Spot<'_>) -> bool {
    let is_behind_name = |(before, _): (&[u8], &[u8])| before.last().is_some_and(|byte| !is_white(*byte));
    spot.item.as_ref().is_none_or(|item| item.is_entry())
        || error == b"I was expecting a { or a (" && spot.halves().is_some_and(is_behind_name)
}

/// A text in which all whitespace is spaces.
fn with_spaces(text: &[u8]) -> Vec<u8> {
    text.iter().map(|byte| if is_white(*byte) { b' ' } else { *byte }).collect()
}

#[cfg(test)]
mod tests {
    use super::*;
    use crate::event_places::places_by_runs;
    use crate::job::File;
    use crate::scene::{Call, Scene, Scenes};

    fn file(name: &str, bytes: &str) -> File {
        File { name: name.into(), bytes: Some(bytes.into()), path: name.into() }
    }

    fn written(log: &Log<'_>, files: &Files, part: Part) -> String {
        let mut out = Vec::new();
        write(log, files, part, usize::MAX, &mut out);
        String::from_utf8(out).unwrap()
    }

    fn shapes(log: &str, files: &[(&str, &str)]) -> String {
        let all = files.iter().map(|(name, bytes)| file(name, bytes)).collect();
        let files = Files { top: b"job.aux".to_vec(), all };
        let places = places_by_runs(log.as_bytes(), &files);
        written(&Log::new(log.as_bytes()).with_places(&places), &files, Part::Whole)
    }

    #[test]
    fn warnings_have_their_place_on_a_line_of_its_own() {
        let log = "Warning--string name \"zz\" is undefined--line 1 of file d.bib\nWarning--empty title in k\n\
            Warning--you've nested cross references--entry \"a\" refers to entry \"b\"\n\
            Warning--string of 900 bytes cut to 250 while executing := for entry k\n";
        let wanted = "Warning--string name \"zz\" is undefined\n--line 1 of file d.bib\nWarning--empty title in k\n\
            Warning--you've nested cross references--entry \"a\"\nrefers to entry \"b\", which also refers to something\n\
            Warning--string of 900 bytes cut to 250 while executing := for entry k\n";
        assert_eq!(shapes(log, &[]), wanted);
    }

    #[test]
    fn errors_show_their_line_up_to_the_place() {
        let log = "Error--I was expecting an =--line 2 of file d.bib\nError--Unbalanced braces--line 3 of file d.bib\n\
            Error--I was expecting a value--line 5 of file d.bib\n";
        let database = "@misc{k,\n\tnote 1}  \n@preamble{\"a}\"}\n@misc{j, x =\n ,}";
        let wanted = "I was expecting an =---line 2 of file d.bib\n :  note \n :       1}\nI'm skipping whatever remains of this entry\n\
            Unbalanced braces---line 3 of file d.bib\n : @preamble{\"a\n :             }\"}\n\
            I'm skipping whatever remains of this command\n\
            I was expecting a value---line 5 of file d.bib\n :  \n :  ,}\n(Error may have been on previous line)\n\
            I'm skipping whatever remains of this entry\n";
        assert_eq!(shapes(log, &[("d.bib", database)]), wanted);
    }

    #[test]
    fn places_that_were_left_out_are_counted() {
        let log = "Error--E while executing f for entry k\nError--E while executing f for entry l\n";
        let shown = |scenes: &Scenes| {
            let files = Files { top: b"job.aux".to_vec(), all: Vec::new() };
            written(&Log::new(log.as_bytes()).with_scenes(scenes), &files, Part::Whole).lines().last().map(String::from)
        };
        let line = "(Where the style stood isn't known of 2 errors: it is looked for at the first ones alone.)";
        assert_eq!(shown(&Scenes { are_first: true, ..Scenes::default() }).as_deref(), Some(line));
        assert_ne!(shown(&Scenes::default()).as_deref(), Some(line));
    }

    #[test]
    fn names_stand_before_the_place() {
        let log = "Error--Case mismatch error between cite keys k and K--line 1 of file job.aux\nError--I couldn't open database file e.bib\n";
        let wanted = "Case mismatch error between cite keys k and K\n---line 1 of file job.aux\n : \\citation{k,K\n :              }\n\
            I'm skipping whatever remains of this command\n\
            I couldn't open database file e.bib\n---line 2 of file job.aux\n : \\bibdata{d,e\n :             }\n\
            I'm skipping whatever remains of this command\n";
        assert_eq!(shapes(log, &[("job.aux", "\\citation{k,K}\n\\bibdata{d,e}\n")]), wanted);
        assert_eq!(shapes("Error--I couldn't open style file x.bst\n", &[]), "I couldn't open style file x.bst\n");
    }

    #[test]
    fn a_mistake_that_costs_a_token_skips_nothing() {
        let style = "ENTRY {}{}{} FUNCTION {f} { nosuch #x }\nREAD EXECUTE {nosuch}\n";
        let log = "Error--nosuch is an unknown function--line 1 of file s.bst\nError--Illegal integer--line 1 of file s.bst\n\
            Error--nosuch is an unknown function--line 2 of file s.bst\n";
        let wanted = "nosuch is an unknown function---line 1 of file s.bst\nIllegal integer---line 1 of file s.bst\n\
            nosuch is an unknown function---line 2 of file s.bst\n : READ EXECUTE {nosuch\n :                     }\n\
            I'm skipping whatever remains of this command\n";
        assert_eq!(shapes(log, &[("s.bst", style)]), wanted);
    }

    #[test]
    fn errors_of_an_execution_have_a_line_of_the_style() {
        let style = "ENTRY {} {} {}\nFUNCTION {f} {\n#1 pop$ pop$ #2 }\nREAD\nEXECUTE {+}\nEXECUTE {f}\n";
        let log = "Error--You can't pop an empty literal stack while executing +\n\
            Error--The literal stack isn't empty while executing EXECUTE\n\
            Error--You can't pop an empty literal stack while executing pop$\nError--Nowhere in this run while executing f for entry k\n";
        let lines = "You can't pop an empty literal stack (+)\nwhile executing---line 5 of file s.bst\n\
            The literal stack isn't empty (EXECUTE)\nwhile executing---line 5 of file s.bst\n\
            You can't pop an empty literal stack (pop$)\nwhile executing---line 3 of file s.bst\nNowhere in this run (f) for entry k\n";
        assert_eq!(shapes(log, &[("s.bst", style)]), lines);
        let log = "Error--Integer overflow while executing + for entry k\n";
        let at = Call { function: b"f".to_vec(), file: b"s.bst".to_vec(), line: 77 };
        let scene = Scene { at, token: None, callers: vec![], caller_tokens: vec![], stack: vec![], origins: vec![] };
        let scenes = Scenes { errors: [(0, scene)].into(), ..Scenes::default() };
        let files = Files { top: vec![], all: vec![file("s.bst", style)] };
        let placed = written(&Log::new(log.as_bytes()).with_scenes(&scenes), &files, Part::Whole);
        assert!(placed.starts_with("Integer overflow (+) for entry k\nwhile executing---line 77 of file s.bst\n"));
    }

    #[test]
    fn ends_are_counted() {
        let end = |line: &str| shapes(line, &[]);
        let stopped = "Ended: stopped, warnings 1, errors 0, steps 7\n";
        let wanted = format!("{stopped}Sorry---you've exceeded BibTeX's budget of 7 steps\n(There was 1 warning)\n");
        assert_eq!(end(stopped), wanted);
        let limit = "Ended: limit calls, warnings 1, errors 2, steps 7\n";
        assert_eq!(
            end(limit),
            format!(
                "{limit}Sorry---you've exceeded BibTeX's limit calls (more than 4,096 functions that run within one another)\n(There were 2 error messages)\n"
            )
        );
        let clean = "Ended: finished, warnings 0, errors 0, steps 7\n";
        assert_eq!(end(clean), clean);
    }

    #[test]
    fn what_went_well_is_left_out_of_the_messages() {
        let log = "The top-level auxiliary file: job.aux\nThe style file: s.bst\nDatabase file #1: d.bib\n\"x\"\n\
            Ended: finished, warnings 0, errors 0, steps 4\n";
        assert_eq!(written(&Log::new(log.as_bytes()), &Files::default(), Part::Messages), "\"x\"\n");
    }

    #[test]
    fn very_long_lines_are_cut() {
        let database = format!("@misc{{k, {} 1{}", "x".repeat(9000), "y".repeat(9000));
        let text = shapes("Error--I was expecting an =--line 1 of file d.bib\n", &[("d.bib", &database)]);
        assert!(text.lines().all(|line| line.len() <= 3 + 2 * LONGEST_SHOWN), "{text}");
    }
}
