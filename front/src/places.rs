//! What was called and on the stack at the first errors of a run's execution, and where the run was stopped or met a limit. The library runs the job once more to find
//! that out, so it is asked only where that is to be shown. How much is looked for depends on numbers of steps alone, and on no clock, so the log of a
//! job is the same on every machine.

use crate::btx::{self, Answer, Options, Ran, Report, Rooms};
use crate::code_places::Code;
use crate::event_places::Placed;
use crate::job::Files;
use crate::letter_codes::Codes;
use crate::letter_run::Letters;
use crate::log::{Content, Line, Log, Message, Place, Severity};
use crate::notes::{self, Note, Spot, Token, What};
use crate::origins::{IS_MISSING, with_field_named};
use crate::scene::{Call, End, Held, IN_BRACES, Scene, Scenes};
use crate::style_text::{Kind, Tokens, commands};
use memchr::memmem;
use std::collections::{BTreeMap, HashMap, HashSet};

/// Of how many events that log errors the place is found at most, where a variable keeps strings as long as this: each costs a run up to its event, and the longer strings are the longer a
/// step may take. After a signal it is found of one alone, since the program is to end soon.
const MOST_EVENTS: u64 = 100;
const USUAL_LENGTH: u64 = 200_000;
const EVENTS_OF_INTERRUPTED: u64 = 1;

/// How many errors of an execution are kept: those of all events of which the place is found.
const MOST_LOGGED: usize = 1000;

/// How many steps of a run are looked at.
const MOST_STEPS: u64 = 50_000_000;

/// How many steps the runs may take together that find the places of events. One event is looked for in any case.
const STEPS_OF_ALL: u64 = 40_000_000;

/// How many steps of a run are looked at that doesn't end: where it stands then is found step by step, which takes longer.
const STEPS_OF_ENDLESS: u64 = 1_000_000;

/// A run that fills a room is looked at up to where it has filled this part of it, and this many bytes at least: in so few steps it does what it is to be blamed for. How many
/// steps are tried first; each time that this isn't enough twice as many are, `STEPS_OF_ENDLESS` at most.
const PART_OF_ROOM: usize = 128;
const LEAST_OF_ROOM: usize = 1 << 19;
const FIRST_STEPS_OF_FLOOD: u64 = 1 << 14;

/// Which part of the steps of a run that a signal ended is looked at, and how many of them at most.
const PART_OF_INTERRUPTED: u64 = 8;
const STEPS_OF_INTERRUPTED: u64 = 250_000;

/// How many steps before a limit the loop began at least that is named.
const STEPS_OF_LOOP: u64 = 500;

/// An error of the execution, in the log.
struct Logged<'a> {
    function: &'a [u8],
    entry: Option<&'a [u8]>,
    /// The lines that follow, up to the next message.
    listing: Vec<&'a [u8]>,
}

/// The errors in a log.
#[derive(Default)]
struct Errors<'a> {
    /// The first errors of the execution, by their numbers.
    of_execution: HashMap<usize, Logged<'a>>,
    /// How many errors there are.
    count: usize,
}

impl<'a> Errors<'a> {
    /// Those of a whole log.
    fn of(log: &Log<'a>) -> Errors<'a> {
        let mut errors = Errors::default();
        log.lines().for_each(|line| errors.add(&line));
        errors
    }

    /// Those of a log up to where enough errors of the execution are found.
    fn first_of(log: &Log<'a>) -> Errors<'a> {
        let mut errors = Errors::default();
        let mut lines = log.lines();
        while errors.of_execution.len() < MOST_LOGGED
            && let Some(line) = lines.next()
        {
            errors.add(&line);
        }
        errors
    }

    /// Takes the next line.
    fn add(&mut self, line: &Line<'a>) {
        match line.content {
            Content::Message(Message { severity: Severity::Error, place, .. }) => {
                if let Place::Execution { function, entry } = place
                    && self.of_execution.len() < MOST_LOGGED
                {
                    self.of_execution.insert(self.count, Logged { function, entry, listing: Vec::new() });
                }
                self.count += 1;
            }
            Content::Message(_) | Content::Ended(_) | Content::Found(_) => {}
            Content::Other => {
                if let Some(last) = self.count.checked_sub(1).and_then(|last| self.of_execution.get_mut(&last)) {
                    last.listing.push(line.bytes);
                }
            }
        }
    }
}

/// The job whose places are found.
struct Search<'a> {
    files: &'a Files,
    options: &'a Options,
    /// The style's name and its text.
    style: &'a [u8],
    text: &'a [u8],
    /// The codes of letters in what is noted, if there are any.
    codes: Option<&'a Codes>,
}

/// What was called and on the stack at the first errors of a run, where that is to be shown (`with_calls`) or tells which command met an error; and where the style stood at
/// its end where the run didn't come to an end of its own.
pub fn scenes(files: &Files, options: &Options, rooms: &Rooms, ran: &Ran, with_calls: bool) -> Scenes {
    let Some(style) = files.with_ending(".bst").next() else { return Scenes::default() };
    let (files, codes) = match &ran.letters {
        Letters::Coded(coded) => (&coded.files, Some(&coded.codes)),
        Letters::AsTheyAre | Letters::LeftOut(_) => (files, None),
    };
    let search = Search { files, options, style: &style.name, text: style.bytes.as_deref().unwrap_or(b""), codes };
    match ran.answer {
        Answer::Done(report) => search.scenes_of_run(ran, &report, with_calls),
        Answer::ListFull | Answer::LogFull => {
            let (errors, steps) = (Errors::first_of(&ran.lines_of_log()).of_execution, search.steps_of_flood(rooms));
            let events = events_within(steps, options.global_max);
            search.scenes(&errors, Looked { budget: steps, events, is_whole: false }, true)
        }
        Answer::Memory => Scenes::default(),
    }
}

/// What of a run is looked at.
struct Looked {
    /// How many steps it may take.
    budget: u64,
    /// Of how many events that log errors the place is found.
    events: u64,
    /// Whether these are all steps of the run.
    is_whole: bool,
}

/// Of how many events the place is found in a run of so many steps, where a variable keeps so many bytes of a string.
fn events_within(steps: u64, length: u32) -> u64 {
    let most = MOST_EVENTS * USUAL_LENGTH / u64::from(length).max(USUAL_LENGTH);
    (STEPS_OF_ALL / steps.max(1)).clamp(1, most)
}

impl Search<'_> {
    /// The scenes of a run that was done.
    fn scenes_of_run(&self, ran: &Ran, report: &Report, with_calls: bool) -> Scenes {
        let is_asked = report.errors > 0 && (with_calls || self.has_unnamed_field(ran));
        let errors = if is_asked { Errors::of(&ran.lines_of_log()) } else { Errors::default() };
        // Of a log with very many lines it isn't known of each whether the style printed it; then no error's number may be certain.
        let errors = if errors.count as u64 == report.errors { errors.of_execution } else { HashMap::new() };
        let mut scenes = match report.has_finished() && errors.is_empty() {
            true => Scenes::default(),
            false => self.scenes(&errors, self.looked_at(report), !report.has_finished()),
        };
        if with_calls {
            scenes.by_token = self.scenes_of_tokens(&ran.places.known, &scenes);
        }
        scenes
    }

    /// Whether the log has an error on a missing field of which the style's text doesn't show which one it is: then what was called may show it.
    fn has_unnamed_field(&self, ran: &Ran) -> bool {
        if memmem::find(&ran.log, IS_MISSING).is_none() {
            return false;
        }
        let (code, log) = (Code::new(self.text), ran.lines_of_log());
        let mut seen = HashSet::new();
        log.lines().any(|line| {
            let Content::Message(Message { text, met: Some(met), place: Place::Execution { function, .. }, .. }) =
                line.content
            else {
                return false;
            };
            let is_new = text.starts_with(IS_MISSING) && seen.insert((met.start, text));
            is_new && with_field_named(&code, met.start, text, function).is_none()
        })
    }

    /// What is looked at of a run that was done. One that was ended by a signal has another budget than the one that was asked for. It is to end soon, so only the first part of it
    /// is run again.
    fn looked_at(&self, report: &Report) -> Looked {
        let is_interrupted = report.is_stopped() && report.steps < self.options.budget;
        let (part, longest) = match report.has_finished() {
            true => (1, MOST_STEPS),
            false if is_interrupted => (PART_OF_INTERRUPTED, STEPS_OF_INTERRUPTED),
            false => (1, STEPS_OF_ENDLESS),
        };
        let steps = report.steps.div_ceil(part).min(longest);
        let is_cut = report.steps > longest || report.is_stopped();
        Looked {
            budget: if is_cut { steps } else { self.options.budget },
            events: if is_interrupted { EVENTS_OF_INTERRUPTED } else { events_within(steps, self.options.global_max) },
            is_whole: steps == report.steps,
        }
    }

    /// For the tokens at which messages were met: what is known of one that has no scene of its own.
    fn scenes_of_tokens(&self, places: &[Placed], scenes: &Scenes) -> HashMap<Token, Scene> {
        let calls = calls_at(self.text, places);
        let mut of_tokens: HashMap<Token, Scene> = calls
            .into_iter()
            .map(|(token, call)| (token, of_token(token, Call { file: self.style.to_vec(), ..call })))
            .collect();
        let known = scenes.errors.values().filter_map(|scene| Some((scene.token?, scene.at.clone())));
        of_tokens.extend(known.map(|(token, at)| (token, of_token(token, at))));
        of_tokens
    }

    /// In how many steps a run that fills one of these rooms has filled a part of it.
    fn steps_of_flood(&self, rooms: &Rooms) -> u64 {
        let part = |room: usize| (room / PART_OF_ROOM).max(room.min(LEAST_OF_ROOM));
        let parts = Rooms { list: part(rooms.list), log: part(rooms.log) };
        let most = self.options.budget.min(STEPS_OF_ENDLESS);
        let is_enough = |budget: u64| {
            let options = Options { budget, ..*self.options };
            matches!(
                btx::run(&self.files.top, &self.files.all, &options, &parts).answer,
                Answer::ListFull | Answer::LogFull
            )
        };
        let mut steps = FIRST_STEPS_OF_FLOOD;
        while steps < most && !is_enough(steps) {
            steps *= 2;
        }
        steps.min(most)
    }

    /// The notes of the first `most` events, and of the end, of a run with this budget.
    fn notes(&self, budget: u64, most: u64) -> Vec<Note> {
        let options = Options { budget, ..*self.options };
        let noted = btx::notes(&self.files.top, &self.files.all, &options, most as u32).unwrap_or_default();
        let noted = self.codes.map_or_else(|| noted.clone(), |codes| codes.turn_back(&noted).text_or(noted.clone()));
        notes::read(&noted, self.style)
    }

    /// The scenes of a run; `has_end` where the end is to be found too.
    fn scenes(&self, errors: &HashMap<usize, Logged<'_>>, looked: Looked, has_end: bool) -> Scenes {
        let most = if errors.is_empty() { 0 } else { looked.events };
        let notes = self.notes(looked.budget, most);
        let mut scenes = Scenes::default();
        for note in &notes {
            if matches!(note.what, What::Stop | What::Limit) {
                scenes.end = if has_end { self.end(note) } else { None };
                continue;
            }
            let placed = note.errors.clone().filter_map(|number| Some((number, scene_of(note, errors.get(&number)?)?)));
            scenes.errors.extend(placed);
        }
        let events = notes.iter().filter(|note| !matches!(note.what, What::Stop | What::Limit)).count() as u64;
        scenes.are_first = events == most && most > 0 || !looked.is_whole;
        scenes
    }

    /// Where a run stood at its end, and which loops it was in.
    fn end(&self, note: &Note) -> Option<End> {
        let scene = scene(note, stack_of(note))?;
        let span = if note.what == What::Stop { note.steps / 2 } else { STEPS_OF_LOOP.min(note.steps / 2) };
        // (the turns of a loop are regular, and these moments aren't)
        let moments = [span, span * 2 / 3, span * 3 / 11].map(|before| note.steps - before);
        let mut opened = opened(note);
        for moment in moments {
            let common = self.notes(moment, 0).last().map_or(0, |before| common(before, note));
            opened.drain(..opened.len() - common.min(opened.len()));
        }
        Some(End { scene, steps: note.steps, loops: self.loops(&opened) })
    }

    /// Those of these places that are a `while$`.
    fn loops(&self, places: &[&Spot]) -> Vec<Call> {
        let lines: Vec<&[u8]> = self.text.split(|byte| *byte == b'\n').collect();
        let is_loop = |spot: &&&Spot| {
            let line = spot.call.line.checked_sub(1).and_then(|index| lines.get(index)).map_or(&b""[..], |line| line);
            Tokens::new(line).any(|token| line[token.start..token.end].eq_ignore_ascii_case(b"while$"))
        };
        places.iter().filter(is_loop).map(|spot| spot.call.clone()).collect()
    }
}

/// The scene of a token of which nothing else is known.
fn of_token(token: Token, at: Call) -> Scene {
    Scene {
        at,
        token: Some(token),
        callers: Vec::new(),
        caller_tokens: Vec::new(),
        stack: Vec::new(),
        origins: Vec::new(),
    }
}

/// The tokens of a style's text at which messages were met, each with its function as it is shown and its line.
fn calls_at(text: &[u8], places: &[Placed]) -> Vec<(Token, Call)> {
    let in_style =
        places.iter().filter_map(|placed| Some((placed.place.start, (placed.place.token?, placed.place.line))));
    let mut wanted: BTreeMap<usize, (Token, usize)> = in_style.collect();
    let mut functions = commands(text).into_iter().peekable();
    let (mut name, mut depth, mut found) = (&b""[..], 0_usize, Vec::new());
    for token in Tokens::new(text) {
        if let Some(function) = functions.next_if(|command| command.start <= token.start) {
            (name, depth) = (function.name.unwrap_or(b""), 0);
        }
        match token.kind {
            Kind::Open => depth += 1,
            Kind::Close => depth = depth.saturating_sub(1),
            _ => {}
        }
        if let Some((number, line)) = wanted.remove(&token.start) {
            let braces = if depth > 1 { IN_BRACES } else { b"" };
            let function = [braces, b"FUNCTION {", &name.to_ascii_lowercase(), b"}"].concat();
            found.push((number, Call { function, file: Vec::new(), line }));
        }
    }
    found
}

/// How many places were open at both of these notes of one command and one entry, from the outermost on.
fn common(before: &Note, note: &Note) -> usize {
    if before.command != note.command || before.entry != note.entry {
        return 0;
    }
    let (early, late) = (opened(before), opened(note));
    let both = early.iter().rev().zip(late.iter().rev());
    both.take_while(|(early, late)| early.token == late.token).count()
}

/// All that was open at a note, the innermost first.
fn opened(note: &Note) -> Vec<&Spot> {
    note.at.iter().chain(&note.callers).collect()
}

/// The scene of an error, if the log's error is the one that was noted.
fn scene_of(note: &Note, logged: &Logged<'_>) -> Option<Scene> {
    if note.what == What::Left {
        return scene(note, left_of(note, logged));
    }
    let is_it = note.what == What::Test || note.next.as_deref() == Some(logged.function);
    let is_of_it = note.entry.as_deref() == logged.entry;
    if is_it && is_of_it { scene(note, stack_of(note)) } else { None }
}

/// What the stack held, with `..` where the note leaves some of it out.
fn stack_of(note: &Note) -> Vec<Held> {
    let dots = if note.depth > note.stack.len() { Some(Held { literal: b"..".to_vec(), since: None }) } else { None };
    note.stack.iter().cloned().chain(dots).collect()
}

/// The scene of a note, with what the stack held.
fn scene(note: &Note, stack: Vec<Held>) -> Option<Scene> {
    let mut spots = opened(note).into_iter().chain(&note.command);
    let Spot { token, call } = spots.next()?;
    let (callers, caller_tokens) = spots.map(|spot| (spot.call.clone(), spot.token)).unzip();
    let origins = if note.what == What::Step { note.since.clone() } else { Vec::new() };
    Some(Scene { at: call.clone(), token: *token, callers, caller_tokens, stack, origins })
}

/// The literals that a command left, which the log lists, the uppermost first; none where the list isn't clear, as a literal may have several lines.
fn left_of(note: &Note, logged: &Logged<'_>) -> Vec<Held> {
    let shown = note.since.len();
    if logged.listing.len() < shown || shown < MOST_LEFT && logged.listing.len() > shown {
        return Vec::new();
    }
    let held = |(since, literal): (&Option<Spot>, &&[u8])| {
        let since = since.as_ref().map(|spot| spot.call.clone());
        Held { literal: literal.to_vec(), since }
    };
    note.since.iter().zip(&logged.listing).map(held).collect()
}

/// Of how many literals that were left it is noted since when they have been there.
const MOST_LEFT: usize = 8;

#[cfg(test)]
mod tests {
    use super::*;
    use crate::job::File;

    const OPTIONS: Options = Options::usual(10_000);

    /// A job with this style.
    fn files(style: &str) -> Files {
        let file = |name: &str, bytes: &str| File { name: name.into(), bytes: Some(bytes.into()), path: name.into() };
        let top = file("a.aux", "\\citation{k}\n\\bibdata{b}\n\\bibstyle{s}\n");
        let style = format!("ENTRY {{title}} {{}} {{}} INTEGERS {{i}}\n{style}");
        let all = vec![top, file("s.bst", &style), file("b.bib", "@misc{k, title = {T}}\n")];
        Files { top: b"a.aux".to_vec(), all }
    }

    #[test]
    fn the_longer_a_run_is_the_fewer_events_are_looked_for() {
        assert_eq!([0, 400_000, 5_000_000, 50_000_000].map(|steps| events_within(steps, 20_000)), [100, 100, 8, 1]);
        assert_eq!([0, 400_000, 5_000_000].map(|steps| events_within(steps, 1_000_000)), [20, 20, 8]);
    }

    /// The scenes of a job with this style.
    fn found(style: &str) -> Scenes {
        let files = files(style);
        let rooms = Rooms { list: 1 << 16, log: 1 << 16 };
        let ran = btx::run(&files.top, &files.all, &OPTIONS, &rooms);
        scenes(&files, &OPTIONS, &rooms, &ran, true)
    }

    fn lines(scene: &Scene) -> Vec<usize> {
        std::iter::once(&scene.at).chain(&scene.callers).map(|call| call.line).collect()
    }

    #[test]
    fn errors_have_their_scenes() {
        let found = found("FUNCTION {f}\n{ \"x\" #1 + pop$\n }\nREAD nosuch\n\nITERATE {f}\n");
        let [(number, scene)] = found.errors.iter().collect::<Vec<_>>()[..] else { panic!("{found:?}") };
        assert_eq!((*number, lines(scene)), (1, vec![3, 7]));
        assert_eq!(scene.stack.iter().map(|held| &held.literal[..]).collect::<Vec<_>>(), [&b"1"[..], b"\"x\""]);
        assert_eq!(found.end, None);
    }

    #[test]
    fn a_run_without_an_error_of_its_execution_has_none() {
        assert_eq!(found("READ FUNCTION {f} {title write$} ITERATE {f}"), Scenes::default());
        assert_eq!(found("READ nosuch\n"), Scenes::default());
    }

    #[test]
    fn what_was_left_is_known_where_the_list_is_clear() {
        let of = |style: &str| found(style).errors.remove(&0).map(|scene| (scene.at.line, scene.stack.len()));
        assert_eq!(of("READ FUNCTION {f} {\"a\" \"b\"}\nITERATE {f}"), Some((3, 2)));
        assert_eq!(of("READ FUNCTION {f} {\"a\" #10 int.to.chr$ * \"b\" *}\nITERATE {f}"), Some((3, 0)));
    }

    #[test]
    fn the_loop_of_an_endless_run_is_named() {
        let end = found("FUNCTION {f}\n{ { #1 } { #1 'i := }\n while$ }\nREAD ITERATE {f}\n").end.unwrap();
        assert_eq!((end.steps, end.loops.iter().map(|call| call.line).collect::<Vec<_>>()), (10_000, vec![4]));
        assert_eq!(found("READ FUNCTION {f} {skip$}").end, None);
    }

    #[test]
    fn errors_of_a_style_s_own_making_are_none() {
        let style = "READ FUNCTION {f} {\"x\" #10 int.to.chr$ * \"Error--y\" * warning$ #1 write$} ITERATE {f}";
        let errors = found(style).errors;
        assert_eq!(errors.values().map(|scene| (scene.at.line, scene.stack.len())).collect::<Vec<_>>(), [(2, 1)]);
    }
}
