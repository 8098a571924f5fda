//! The run of one entry as the designer of a style reads it: each function that is called, with the literals that it takes and leaves, and what is written.
//!
//! The entry is run alone, with its parent. Where the style stands after each step is asked of the library: a run whose budget is the number of these steps is stopped there.

use crate::advice;
use crate::btx::{self, Answer, MemoryRefused, Options, Rooms};
use crate::database::{Folded, Item, Items};
use crate::job::{File, Files};
use crate::notes::{self, Note, Spot, What};
use crate::scene::{Held, IN_BRACES};
use crate::shown_line::first_columns;
use crate::terminal::plain;
use std::io::{self, Write};

/// How many steps of a run are traced: each costs a run up to it.
const MOST_STEPS: u64 = 10_000;

/// The room for list and log of the run.
const ROOM: usize = 1 << 24;

/// How many columns of a literal are shown.
const COLUMNS: usize = 60;

/// How far each call is indented below its caller.
const INDENT: usize = 2;

/// What was traced of an entry.
#[derive(Debug, Default)]
pub struct Trace {
    commands: Vec<Call>,
    /// How many steps are traced where the run went on after them.
    left_at: Option<u64>,
}

/// A call of a function, or a command.
#[derive(Debug, Default)]
struct Call {
    name: String,
    /// The line of the call.
    line: usize,
    before: Stack,
    after: Stack,
    /// The fewest literals that were on the stack meanwhile.
    fewest: usize,
    inside: Vec<Step>,
}

/// What happens in a call.
#[derive(Debug)]
enum Step {
    Called(Call),
    /// A token that calls no function of the style: its line, its word, and the stack before it.
    Executed(usize, Vec<u8>, Stack),
}

/// A stack: how many literals there are, and those on top, the uppermost first.
#[derive(Debug, Default, Clone, PartialEq, Eq)]
struct Stack {
    depth: usize,
    top: Vec<Held>,
}

impl Stack {
    fn of(note: &Note) -> Stack {
        Stack { depth: note.depth, top: note.stack.clone() }
    }

    /// The literals above the first `fewest`, the lowest of them first.
    fn above(&self, fewest: usize) -> Vec<String> {
        let count = self.depth.saturating_sub(fewest);
        let shown: Vec<String> = self.top.iter().take(count).rev().map(shown).collect();
        let dots = (shown.len() < count).then(|| "..".to_string());
        dots.into_iter().chain(shown).collect()
    }
}

/// A literal as it is shown.
fn shown(held: &Held) -> String {
    let whole = plain(&held.literal);
    let cut = first_columns(&whole, COLUMNS);
    if cut.len() < whole.len() { format!("{cut}..") } else { whole }
}

// ---- the job ----

/// The items of a database that an entry needs: the entry, its parents, and all that is no entry.
fn needed(text: &[u8], key: &[u8]) -> Vec<u8> {
    let items: Vec<Item<'_>> = Items::new(text).collect();
    let is = |item: &Item<'_>, key: &[u8]| item.entry_key().is_some_and(|own| Folded(own.name) == Folded(key));
    let parents: Vec<&[u8]> = items
        .iter()
        .filter(|item| is(item, key))
        .flat_map(|item| item.parents.iter().map(|parent| parent.key))
        .collect();
    let is_needed =
        |item: &&Item<'_>| !item.is_entry() || is(item, key) || parents.iter().any(|parent| is(item, parent));
    items.iter().filter(is_needed).flat_map(|item| [&text[item.start..item.end], b"\n"].concat()).collect()
}

/// The job of one entry of this job; None where it has no style.
fn job_of(files: &Files, key: &[u8]) -> Option<Files> {
    let style = files.with_ending(".bst").next()?;
    let stem = style.name.strip_suffix(b".bst")?;
    let text: Vec<u8> =
        files.with_ending(".bib").filter_map(|file| file.bytes.as_deref()).flat_map(|text| needed(text, key)).collect();
    let top = [b"\\citation{", key, b"}\n\\bibdata{trace}\n\\bibstyle{", stem, b"}\n"].concat();
    let file = |name: &[u8], bytes| File { name: name.to_vec(), bytes: Some(bytes), path: name.to_vec() };
    Some(Files {
        top: b"trace.aux".to_vec(),
        all: vec![file(b"trace.aux", top), style.clone(), file(b"trace.bib", text)],
    })
}

// ---- the steps ----

/// Where the run of a job stands after the steps that the budget of `options` allows.
fn stands(files: &Files, style: &[u8], options: &Options) -> Option<Note> {
    let noted = btx::notes(&files.top, &files.all, options, 0)?;
    notes::read(&noted, style).pop().filter(|note| note.what == What::Stop)
}

/// How many literals a built-in function takes; none of anything else.
fn operands_of(name: &[u8]) -> usize {
    advice::operands(name).map_or(0, |operands| operands.split_whitespace().count())
}

/// The functions of the style that are open at a place, the outermost first: their names, the lines of the tokens in them, and the numbers of the tokens.
fn opened(note: &Note) -> Vec<&Spot> {
    let all = note.callers.iter().rev().chain(&note.at);
    all.filter(|spot| !spot.call.function.starts_with(IN_BRACES)).collect()
}

/// The calls that are open while the steps are gone through.
struct Tracer {
    trace: Trace,
    open: Vec<Call>,
    last: Option<Note>,
}

impl Tracer {
    /// Ends the innermost calls until `count` are open.
    fn end_to(&mut self, count: usize, stack: &Stack) {
        while self.open.len() > count {
            let Some(mut call) = self.open.pop() else { return };
            call.after = stack.clone();
            match self.open.last_mut() {
                Some(caller) => caller.inside.push(Step::Called(call)),
                None => self.trace.commands.push(call),
            }
        }
    }

    /// Begins a call.
    fn begin(&mut self, name: String, line: usize, stack: &Stack) {
        self.open.push(Call { name, line, before: stack.clone(), fewest: stack.depth, ..Call::default() });
    }

    /// Goes on to where the next step begins.
    fn step(&mut self, note: Note) {
        let stack = Stack::of(&note);
        let is_same = self.last.as_ref().is_some_and(|last| last.command == note.command && last.entry == note.entry);
        if !is_same {
            self.end_to(0, &stack);
            if let Some(command) = &note.command {
                self.begin(plain(&command.call.function), command.call.line, &stack);
            }
        }
        let left = stack.depth.saturating_sub(note.next.as_deref().map_or(0, operands_of));
        let spots = opened(&note);
        self.end_to(1 + spots.len(), &stack);
        let before = self
            .last
            .as_ref()
            .filter(|_| is_same)
            .map(|last| (Stack::of(last), last.at.as_ref().map_or(0, |at| at.call.line)));
        let (before, line) = before.unwrap_or((stack.clone(), 0));
        for spot in spots.iter().skip(self.open.len().saturating_sub(1)) {
            self.begin(plain(spot.owner()), line, &before);
        }
        self.open.iter_mut().for_each(|call| call.fewest = call.fewest.min(left));
        if let (Some(next), Some(call)) = (&note.next, self.open.last_mut()) {
            call.inside.push(Step::Executed(note.at.as_ref().map_or(0, |at| at.call.line), next.clone(), stack));
        }
        self.last = Some(note);
    }
}

/// Traces the run of an entry; None where the job has no style or the entry isn't run.
pub fn trace(files: &Files, key: &[u8], options: &Options) -> Result<Option<Trace>, MemoryRefused> {
    trace_to(MOST_STEPS, files, key, options)
}

/// Traces at most `most` steps.
fn trace_to(most: u64, files: &Files, key: &[u8], options: &Options) -> Result<Option<Trace>, MemoryRefused> {
    let Some(job) = job_of(files, key) else { return Ok(None) };
    let style = job.all[1].name.clone();
    let ran = btx::run(&job.top, &job.all, &Options { budget: most, ..*options }, &Rooms { list: ROOM, log: ROOM });
    let (steps, goes_on) = match ran.answer {
        Answer::Done(report) => (report.steps.min(most), report.is_stopped()),
        Answer::Memory => return Err(MemoryRefused),
        Answer::ListFull | Answer::LogFull => (most, true),
    };
    let mut tracer =
        Tracer { trace: Trace { left_at: goes_on.then_some(most), ..Trace::default() }, open: Vec::new(), last: None };
    for at in 0..steps {
        let note = stands(&job, &style, &Options { budget: at, ..*options });
        if let Some(note) = note.filter(|note| note.entry.is_some()) {
            tracer.step(note);
        }
    }
    let last = tracer.last.as_ref().map(Stack::of).unwrap_or_default();
    tracer.end_to(0, &last);
    Ok(Some(tracer.trace).filter(|trace| !trace.commands.is_empty()))
}

// ---- what is shown ----

/// Literals in words: nothing where there are none.
fn in_words(word: &str, literals: &[String]) -> String {
    if literals.is_empty() { String::new() } else { format!(", {word} {}", literals.join("  ")) }
}

impl Call {
    /// Writes the call and what it did; each token of the functions of this name.
    fn write(&self, indent: usize, function: Option<&[u8]>, out: &mut impl Write) -> io::Result<()> {
        let (takes, leaves) = (self.before.above(self.fewest), self.after.above(self.fewest));
        let line = if self.line > 0 { format!(" (line {})", self.line) } else { String::new() };
        writeln!(out, "{:indent$}{}{line}{}{}", "", self.name, in_words("takes", &takes), in_words("leaves", &leaves))?;
        let is_whole = function.is_some_and(|function| Folded(function) == Folded(self.name.as_bytes()));
        self.inside.iter().try_for_each(|step| step.write(indent + INDENT, is_whole, function, out))
    }
}

impl Step {
    fn write(&self, indent: usize, is_whole: bool, function: Option<&[u8]>, out: &mut impl Write) -> io::Result<()> {
        match self {
            Step::Called(call) => call.write(indent, function, out),
            Step::Executed(line, next, stack) if is_whole => {
                writeln!(out, "{:indent$}{} (line {line}){}", "", plain(next), in_words("over", &stack.above(0)))
            }
            Step::Executed(_, next, stack) if next == b"write$" => {
                writeln!(out, "{:indent$}writes {}", "", stack.top.first().map(shown).unwrap_or_default())
            }
            Step::Executed(..) => Ok(()),
        }
    }
}

impl Trace {
    /// Writes what was traced, and each token of the functions of this name.
    pub fn write(&self, function: Option<&[u8]>, out: &mut impl Write) -> io::Result<()> {
        self.commands.iter().try_for_each(|command| command.write(0, function, out))?;
        self.left_at.map_or(Ok(()), |steps| writeln!(out, "(the run goes on after {steps} steps)"))
    }
}

#[cfg(test)]
mod tests {
    use super::*;

    const STYLE: &str = "ENTRY {title} {} {}\nFUNCTION {twice} { duplicate$ * }\nFUNCTION {shown} { twice write$ newline$ }\nFUNCTION {book} { title shown }\nREAD\nITERATE {call.type$}\nEXECUTE {skip$}\n";

    fn traced(style: &str, key: &str, function: Option<&str>) -> Option<String> {
        let file = |name: &str, text: &str| File { name: name.into(), bytes: Some(text.into()), path: name.into() };
        let database =
            "@string{x = \"X\"}\n@book{a, title = x}\n@book{b, title = {B}, crossref = \"c\"}\n@book{c, title = 1}";
        let files = Files {
            top: b"p.aux".to_vec(),
            all: vec![
                file("p.aux", "\\citation{a,b}\n\\bibdata{d}\n\\bibstyle{s}\n"),
                file("s.bst", style),
                file("d.bib", database),
            ],
        };
        let trace = trace_to(300, &files, key.as_bytes(), &Options::usual(0)).unwrap()?;
        let mut out = Vec::new();
        trace.write(function.map(str::as_bytes), &mut out).unwrap();
        Some(String::from_utf8(out).unwrap())
    }

    #[test]
    fn calls_have_what_they_take_and_leave() {
        let expected = "ITERATE {call.type$} (line 6)\n  book\n    shown (line 4), takes \"X\"\n      twice (line 3), takes \"X\", leaves \"XX\"\n      writes \"XX\"\n";
        assert_eq!(traced(STYLE, "A", None).as_deref(), Some(expected));
        assert_eq!(traced(STYLE, "b", None).unwrap(), expected.replace('X', "B"));
        assert_eq!(traced(STYLE, "nosuch", None), None);
    }

    #[test]
    fn each_token_of_a_function_is_shown() {
        let found = traced(STYLE, "a", Some("Twice")).unwrap();
        assert!(
            found.contains("\n        duplicate$ (line 2), over \"X\"\n        * (line 2), over \"X\"  \"X\"\n"),
            "{found}"
        );
    }

    #[test]
    fn a_run_without_an_end_is_left() {
        let style = STYLE.replace("{ title shown }", "{ {#1} {} while$ }");
        assert!(traced(&style, "a", None).unwrap().ends_with("(the run goes on after 300 steps)\n"));
    }
}
