//! Errors while a style is executed: where in the style, for which entry, and what was on the stack.

use super::checked::Said;
use super::names::{names_by_commas, one_name};
use super::{Explainer, MOST_OF_SCENE, shown_path};
use crate::advice::{self, Advice, Section, Seen};
use crate::code_places::{Code, Declared};
use crate::database::Folded;
use crate::entries::Stored;
use crate::lint_warnings::{Fault, Warnings};
use crate::log::{Log, Message, Place, Severity};
use crate::loops::{counts_away, loop_without_end, test_of_loop};
use crate::mistakes::{line_of, what_runs_on};
use crate::operands::{TEST_LEAVES, advice_at, asked_instead, is_of_test_in};
use crate::origins::{MissingField, missing_field_of};
use crate::repeats::{OfData, Repeats};
use crate::scene::{Call, End, Scene};
use crate::shown_line::ShownLine;
use crate::sources::Spot;
use crate::terminal::plain;
use crate::text::{find, split_first};
use std::collections::HashSet;
use std::io::{self, Write};
use std::rc::Rc;

/// A command of a style that is executed for an entry, or for none: the stack is empty before it.
#[derive(Debug, Clone, Copy, PartialEq, Eq)]
struct Visit<'a> {
    entry: Option<&'a [u8]>,
    /// The command's line.
    command: usize,
}

/// How it is said that a field isn't known to be the one that is missing.
const MAY_BE: &str = "may be";

/// From what an error of names follows.
enum Follows {
    /// From an error of the entry's text, which was explained.
    FromAbove(String),
    /// From a value that no error is about: what to do.
    FromValue(String),
}

/// What is known of the errors of an execution.
pub(super) struct Execution<'a> {
    pub(super) scene_of_end: Option<&'a End>,
    /// Whether a signal ended the run: then no budget is to be raised.
    pub(super) is_interrupted: bool,
    /// The functions of which it was said what they take.
    taught: HashSet<&'a [u8]>,
    /// Where the last error of the stack or of kinds was met that was explained.
    failed: Option<Visit<'a>>,
    pub(super) repeats: Repeats<'a>,
    pub(super) data: OfData<'a>,
    /// The code of the style, once an error of its execution was met.
    code: Option<Code<'a>>,
    /// Where the style may go wrong, once it was checked.
    pub(super) checked: Option<Rc<Warnings>>,
}

/// What the log says where a function finds nothing on the stack.
const EMPTY_STACK: &[u8] = b"You can't pop an empty literal stack";

/// Whether an error says that nothing was on the stack, and doesn't follow from another one.
fn is_unfed(error: &[u8], follows: bool) -> bool {
    error == EMPTY_STACK && !follows
}

impl<'a> Execution<'a> {
    pub(super) fn new(log: &Log<'a>) -> Execution<'a> {
        Execution {
            scene_of_end: log.scene_of_end(),
            is_interrupted: log.is_interrupted,
            taught: HashSet::new(),
            failed: None,
            repeats: Repeats::default(),
            data: OfData::default(),
            code: None,
            checked: None,
        }
    }
}

impl<'a, W: Write> Explainer<'a, W> {
    /// Whether an error is about a field that an entry lacks, or a name of it, of which one was explained.
    pub(super) fn is_of_known_data(&mut self, message: &Message<'a>) -> bool {
        let Place::Execution { function, entry: Some(key) } = message.place else { return false };
        let lacked = self.lacked_field(message, function, key);
        self.execution.data.has(message, lacked)
    }

    /// The line of an entry with the names that a message of the execution is about, as it is shown; where they stand on several lines, that of the first word.
    fn line_of_names(&mut self, message: &[u8], key: &[u8]) -> Option<Vec<String>> {
        let terminal = self.page.terminal;
        advice::find(&[Section::Execution], message).filter(Advice::is_of_name)?;
        let (_, quoted) = split_first(message, b"\"")?;
        let names = &quoted[..quoted.iter().rposition(|byte| *byte == b'"')?];
        let Stored { database, item } = self.entries().entry(key)?;
        let first = &names[..names.iter().position(|byte| *byte == b' ').unwrap_or(names.len())];
        let bytes = &database.text.bytes[item.start..item.end];
        let place = item.start + find(bytes, names).or_else(|| find(bytes, first))?;
        let number = database.text.line_of(place);
        let mark = Some(place - database.text.span(number).0);
        let name = plain(shown_path(database.file));
        Some(ShownLine { name: &name, number, line: database.text.line(number), mark }.lines(terminal))
    }

    pub(super) fn executed(
        &mut self,
        message: &Message<'a>,
        function: &'a [u8],
        entry: Option<&'a [u8]>,
    ) -> io::Result<()> {
        let shown = entry.and_then(|key| self.line_of_names(message.text, key));
        let lacked = entry.and_then(|key| self.lacked_field(message, function, key));
        if shown.is_some() || lacked.is_some() {
            return self.of_data(message, function, entry, shown, lacked);
        }
        if message.severity == Severity::Warning {
            return self.cut(message, function, entry);
        }
        let follows = self.follows_in_visit(message, entry);
        let said = if follows { None } else { self.said_by_check(message, function) };
        said.as_ref().map_or(Ok(()), |said| self.put_cause(said))?;
        message.scene.map_or(Ok(()), |scene| self.scene(scene))?;
        if let Some(key) = entry {
            self.show_entry("for", key)?;
        }
        // (where numbers of literals differ, what lies where the field is taken shows little)
        let is_unequal = said.as_ref().is_some_and(Said::has_cause);
        let missing = self.missing_field(message, function).filter(|missing| !is_unequal || !missing.contains(MAY_BE));
        missing.map_or(Ok(()), |missing| self.page.put_place(&missing))?;
        if follows {
            self.put_origin()?;
        }
        self.teach(message, function)?;
        if let Some(call) =
            message.scene.and_then(|scene| self.first_call(scene)).filter(|_| is_unfed(message.text, follows))
        {
            self.page.put_place(&call)?;
        }
        let advice = self.advice_at(message, function);
        match advice.or_else(|| said.and_then(|said| said.advice)) {
            Some(advice) => self.page.put_advice(&advice),
            None if follows => Ok(()),
            None => self.advise(&[Section::Execution], message.text),
        }
    }

    /// Explains the warning of a string that was cut: where in the style, for which entry, and which variable is too short.
    fn cut(&mut self, message: &Message<'a>, function: &[u8], entry: Option<&[u8]>) -> io::Result<()> {
        let spot = self.sources.spot_of_met(message);
        let variable = spot.as_ref().and_then(|spot| self.variable_at(spot, function));
        if let Some(spot) = &spot {
            self.page.show_line(spot)?;
        }
        if let Some((owner, ..)) = &variable {
            self.page.put_place(&format!("in FUNCTION {{{owner}}}"))?;
        }
        if let Some(key) = entry {
            self.show_entry("for", key)?;
        }
        match variable {
            Some((_, name, is_of_entry)) => {
                let limit = if is_of_entry { "entry" } else { "global" };
                self.page.put_advice_once(&format!(
                    "cut the value before it is assigned, by `#1 {limit}.max$ substring$` before `'{name} :=`; or let the variable keep more by `--{limit}-max`"
                ))
            }
            None => self.advise(&[Section::Execution], message.text),
        }
    }

    /// Of an assignment at a place of the style: the function in which it stands, the variable, and whether each entry has its own.
    fn variable_at(&mut self, spot: &Spot<'a>, function: &[u8]) -> Option<(String, String, bool)> {
        let bytes = spot.file.bytes.as_deref().filter(|_| function == b":=")?;
        let code = self.execution.code.get_or_insert_with(|| Code::new(bytes));
        let place = code.text.span(spot.number).0 + spot.part?.0;
        let (owner, index) = code.executed(b":=").into_iter().find(|(_, index)| code.start(*index) == place)?;
        let name = code.of(index.checked_sub(1)?).strip_prefix(b"'")?;
        let is_of_entry = code.declared(name).map_or(name.eq_ignore_ascii_case(b"sort.key$"), Declared::is_of_entry);
        Some((plain(owner), plain(name), is_of_entry))
    }

    /// Whether an error may follow from one above: from a mistake in the text of its function; or, of the stack, from one for the same entry. A function that finds a wrong operand, or none, leaves less than it does else.
    fn follows_in_visit(&mut self, message: &Message<'a>, entry: Option<&'a [u8]>) -> bool {
        let Some(fault) = Fault::of_message(message.text) else { return false };
        let command = message.scene.map_or(0, |scene| scene.command().line);
        let visit = Visit { entry, command };
        let is_of_stack = matches!(fault, Fault::EmptyStack | Fault::LeftOver);
        let is_behind = self.execution.failed == Some(visit);
        self.execution.failed = Some(visit).filter(|_| fault != Fault::LeftOver);
        let mistake = |scene: &Scene| {
            let mut functions = self.styles.functions.iter();
            functions.any(|(of, line)| *of == Folded(scene.at.owner()) && *line <= scene.at.line)
        };
        let is_of_mistake = message.scene.is_some_and(mistake);
        is_of_mistake || is_of_stack && (is_behind || self.styles.first.is_some())
    }

    /// Says from which error above one of the stack may follow.
    fn put_origin(&mut self) -> io::Result<()> {
        match &self.styles.first {
            Some(place) => self.page.put_place(&format!("this may follow from the error above at {place}")),
            None => self.page.put_place("this may follow from the error above, for the same entry: mend that first"),
        }
    }

    /// Explains an error that a name in a database makes, or a field that an entry lacks: the entry stands first, and the style last.
    fn of_data(
        &mut self,
        message: &Message<'a>,
        function: &'a [u8],
        entry: Option<&[u8]>,
        names: Option<Vec<String>>,
        lacked: Option<String>,
    ) -> io::Result<()> {
        self.page.put_lines(names.as_deref().unwrap_or_default())?;
        if let Some(key) = entry {
            self.show_entry("for", key)?;
        }
        if let Some(missing) = self.missing_field(message, function) {
            self.page.put_place(&missing)?;
        }
        self.teach(message, function)?;
        let runs_on = entry.and_then(|key| self.runs_on(message.text, key));
        match (self.advice_at(message, function), lacked) {
            _ if runs_on.is_some() => match runs_on {
                Some(Follows::FromAbove(text)) => self.page.put_place(&text)?,
                Some(Follows::FromValue(advice)) => self.page.put_advice(&advice)?,
                None => {}
            },
            (Some(advice), _) => self.page.put_advice(&advice)?,
            (None, Some(lacked)) => {
                let advice = self.advice_on_lacked(message, &lacked);
                self.page.put_advice_once(&advice)?
            }
            (None, None) => match one_name(message.text).or_else(|| names_by_commas(message.text)) {
                Some(advice) => self.page.put_advice(&advice)?,
                None => self.advise(&[Section::Execution], message.text)?,
            },
        }
        match message.scene {
            // (the way through the style has nothing to do with a name)
            Some(scene) if names.is_some() => self.page.put_place(&format!("in {}", self.call(&scene.at))),
            Some(scene) => self.calls(scene),
            None => Ok(()),
        }
    }

    /// What to do about a field that an entry lacks: another one may be meant that the function asks for.
    fn advice_on_lacked(&mut self, message: &Message<'a>, lacked: &str) -> String {
        let asked = |scene| asked_instead(self.code_of(scene)?, scene.at.owner(), lacked.as_bytes());
        let (meant, usual) = (message.scene.and_then(asked), Seen::FieldIsMissing.with(&[lacked]));
        meant.map_or(usual.clone(), |meant| format!("{meant}; else {usual}"))
    }

    /// From which mistake of the entry a message about its names follows: their value isn't closed, so it has taken in the field that comes next.
    fn runs_on(&mut self, message: &[u8], key: &[u8]) -> Option<Follows> {
        advice::find(&[Section::Execution], message).filter(Advice::is_of_name)?;
        let (_, names) = split_first(message, b"\"")?;
        let Stored { database, item } = self.entries().entry(key)?;
        let advice = what_runs_on(database.file, &database.text, item).filter(|_| names.contains(&b'='))?;
        if item.fault.is_none() {
            return Some(Follows::FromValue(advice));
        }
        let at = line_of(database.file, &database.text, item.end);
        Some(Follows::FromAbove(format!("this follows from the error above, at {at}: mend that first")))
    }

    /// The field that an entry lacks, where a function takes one that is missing.
    fn lacked_field(&mut self, message: &Message<'a>, function: &[u8], key: &[u8]) -> Option<String> {
        let scene = message.scene?;
        let MissingField::Is(field, _) = missing_field_of(self.code_of(scene)?, scene, message.text, function)? else {
            return None;
        };
        let field = plain(field);
        self.entries().entry(key).map(|_| field)
    }

    /// Says what a function takes, or what its test leaves, where an error is about that; once for each function.
    fn teach(&mut self, message: &Message<'a>, function: &'a [u8]) -> io::Result<()> {
        let is_of_operands = message.text == EMPTY_STACK
            || advice::find(&[Section::Execution], message.text).is_some_and(|advice| advice.is_of_operands());
        let Some(operands) = advice::operands(function).filter(|_| is_of_operands) else { return Ok(()) };
        if !self.execution.taught.insert(function) {
            return Ok(());
        }
        if self.is_of_test(message, function) {
            return self.page.put_place(TEST_LEAVES);
        }
        let is_variable = function == b":=" && message.text.ends_with(b" is not a function");
        let hint = match operands.contains(' ') {
            _ if is_variable => ": is there a `'` before the variable?",
            true => ", pushed in this order",
            false => "",
        };
        self.page.put_place(&format!("`{}` takes {operands}{hint}", plain(function)))
    }

    /// Whether an error is about what the test of a `while$` leaves.
    fn is_of_test(&mut self, message: &Message<'a>, function: &[u8]) -> bool {
        let code = message.scene.and_then(|scene| Some((self.code_of(scene)?, scene)));
        code.is_some_and(|(code, scene)| is_of_test_in(code, scene, message.text, function))
    }

    /// The code of the style in which a scene is.
    pub(super) fn code_of(&mut self, scene: &Scene) -> Option<&Code<'a>> {
        let bytes = self.sources.file(&scene.at.file)?.bytes.as_deref()?;
        Some(self.execution.code.get_or_insert_with(|| Code::new(bytes)))
    }

    /// What to do about an error at its place, where the style's text shows that.
    fn advice_at(&mut self, message: &Message<'a>, function: &[u8]) -> Option<String> {
        let scene = message.scene?;
        advice_at(self.code_of(scene)?, scene, message.text, function)
    }

    /// The call in the function that a command runs, from which the others follow, if there are others.
    fn first_call(&mut self, scene: &Scene) -> Option<String> {
        let calls: Vec<&Call> = std::iter::once(&scene.at).chain(&scene.callers).collect();
        let [.., inner, outer, command] = calls[..] else { return None };
        let is_call = command.is_command() && inner.owner() != outer.owner() && outer.line > 0;
        let path = plain(last_part(self.sources.file(&scene.at.file).map_or(&scene.at.file[..], shown_path)));
        let (caller, called) = (plain(outer.owner()), plain(inner.owner()));
        is_call.then(|| {
            format!(
                "look at {path}:{} first, where `{caller}` calls `{called}`: is something pushed for it?",
                outer.line
            )
        })
    }

    /// Which field is missing where a function takes one that is, or which may be.
    fn missing_field(&mut self, message: &Message<'a>, function: &[u8]) -> Option<String> {
        let scene = message.scene?;
        let path = plain(last_part(self.sources.file(&scene.at.file).map_or(&scene.at.file[..], shown_path)));
        let found = missing_field_of(self.code_of(scene)?, scene, message.text, function)?;
        Some(match found {
            MissingField::Is(field, line) => {
                format!("the missing field is `{}`, pushed at {path}:{line}", plain(field))
            }
            MissingField::LeftBy(by, line, fields) => {
                let (by, fields) = (plain(by), fields_in_words(&fields));
                format!("the missing field {MAY_BE} what `{by}` at {path}:{line} leaves, which reads {fields}")
            }
            MissingField::ReadBy(by, fields) => {
                format!("the missing field {MAY_BE} one that `{}` reads: {}", plain(by), fields_in_words(&fields))
            }
        })
    }

    /// Where in the style something happened, and who called it; the path of the style stands once.
    fn calls(&mut self, scene: &Scene) -> io::Result<()> {
        let (at, file) = (self.call(&scene.at), &scene.at.file);
        let named = |call: &Call| if call.file == *file { self.call_in_short(call) } else { self.call(call) };
        let mut calls: Vec<String> = scene.callers.iter().map(named).collect();
        if calls.len() > MOST_OF_SCENE {
            calls.splice(MOST_OF_SCENE - 1..calls.len() - 1, ["..".to_string()]);
        }
        let called = if calls.is_empty() { String::new() } else { format!("; called from {}", calls.join("; ")) };
        let is_left = scene.stack.iter().any(|held| held.since.is_some());
        self.page.put_place(&format!("{} {at}{called}", if is_left { "left by" } else { "in" }))
    }

    /// Where in the style something happened, and what stood on the stack.
    fn scene(&mut self, scene: &Scene) -> io::Result<()> {
        self.calls(scene)?;
        // What a command left is listed in the log itself.
        let is_left = scene.stack.iter().any(|held| held.since.is_some());
        if !scene.stack.is_empty() && !is_left {
            let literals: Vec<String> =
                scene.stack.iter().take(MOST_OF_SCENE).map(|held| plain(&held.literal)).collect();
            let more = if scene.stack.len() > MOST_OF_SCENE { ", .." } else { "" };
            self.page.put_place(&format!("on the stack: {}{more}", literals.join(", ")))?;
        }
        for held in scene.stack.iter().take(MOST_OF_SCENE) {
            if let Some(since) = &held.since {
                let since = self.call(since);
                self.page.put_place(&format!("{} has been there since {since}", plain(&held.literal)))?;
            }
        }
        Ok(())
    }

    /// Where the style stood at the end of a run of `steps` steps, where their number is known; whether it was said that it stays there without end.
    pub(super) fn scene_of_end(&mut self, end: &End, steps: Option<u64>) -> io::Result<bool> {
        if steps != Some(end.steps) {
            self.page.put_place(&format!("after the first {} steps it stood", end.steps))?;
        }
        self.scene(&end.scene)?;
        let Some((innermost, others)) = end.loops.split_first() else { return Ok(false) };
        let others: String = others.iter().map(|call| format!(", or in that of {}", self.call(call))).collect();
        self.page.put_place(&format!("it stays in the loop of the `while$` in {}{others}", self.call(innermost)))?;
        let style = self.sources.file(&innermost.file).and_then(|file| file.bytes.as_deref());
        let Some(endless) = style.and_then(|style| loop_without_end(style, innermost.line)) else {
            let Some(style) = style else { return Ok(false) };
            if let Some(away) = counts_away(style, innermost.line) {
                self.page.put_place(&format!("its {}", away.what))?;
                return self.page.put_advice(&away.advice).map(|()| true);
            }
            let test = test_of_loop(style, innermost.line);
            return test.map_or(Ok(false), |test| self.page.put_advice(&of_test(test)).map(|()| true));
        };
        let (never, body) = (&endless.never, &endless.body);
        if !endless.assigned.is_empty() {
            self.page.put_place(&endless.assigned)?;
        }
        let advice = match &endless.sometimes[..] {
            "" => Seen::LoopWithoutEnd.with(&[never, body]),
            other => format!(
                "change {never} in the body of this loop ({body}): its test reads {never} and {other}, and a turn that changes neither is repeated without end"
            ),
        };
        self.page.put_advice(&advice).map(|()| true)
    }

    fn call(&self, call: &Call) -> String {
        Self::called(call, self.sources.file(&call.file).map_or(&call.file[..], shown_path))
    }

    /// The same without the folder of the style.
    fn call_in_short(&self, call: &Call) -> String {
        Self::called(call, last_part(self.sources.file(&call.file).map_or(&call.file[..], shown_path)))
    }

    fn called(call: &Call, path: &[u8]) -> String {
        let name = plain(path);
        match call.line {
            0 => format!("{}, {name}", plain(&call.function)),
            line => format!("{}, {name}:{line}", plain(&call.function)),
        }
    }
}

/// What to do about a loop in which a run stays, by its test, the line of that, and the variables that it reads.
fn of_test((test, line, read): (String, usize, String)) -> String {
    format!("look at the test of this loop, `{test}` (line {line}): no turn so far has made it 0, and it reads {read}")
}

/// Names of fields in a row; of many the first ones.
fn fields_in_words(fields: &[&[u8]]) -> String {
    let names: Vec<String> = fields.iter().take(MOST_OF_SCENE).map(|field| format!("`{}`", plain(field))).collect();
    let more = fields.len().saturating_sub(MOST_OF_SCENE);
    let rest = if more > 0 { format!(", and {more} more") } else { String::new() };
    format!("{}{rest}", names.join(", "))
}

/// The name of a file without its folder.
fn last_part(path: &[u8]) -> &[u8] {
    path.rsplit(|byte| *byte == b'/').next().unwrap_or(path)
}
