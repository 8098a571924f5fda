//! The library's notes of where a style stands, read: the README of the crate `btx_where` says their form.

use crate::scene::{Call, Held, IN_BRACES};
use std::ops::Range;

/// What is noted.
#[derive(Debug, Clone, Copy, PartialEq, Eq)]
pub enum What {
    /// A step that logged errors.
    Step,
    /// The test of a loop that ended after a step.
    Test,
    /// The end of a command that left literals on the stack.
    Left,
    /// Where the run was stopped.
    Stop,
    /// Where it met a limit.
    Limit,
}

/// A token of the style, by the numbers of its function and of itself.
pub type Token = (usize, usize);

/// A place in the style: its token, where that is known, and what is shown of it.
#[derive(Debug, Clone, PartialEq, Eq)]
pub struct Spot {
    pub token: Option<Token>,
    pub call: Call,
}

impl Spot {
    /// The named function that holds the place.
    pub fn owner(&self) -> &[u8] {
        self.call.owner()
    }

    /// Of a command the function that it executes.
    pub fn argument(&self) -> Option<&[u8]> {
        let begin = self.call.function.iter().position(|byte| *byte == b'{')?;
        self.call.function[begin + 1..].strip_suffix(b"}")
    }
}

/// A note.
#[derive(Debug, Clone, PartialEq, Eq)]
pub struct Note {
    pub what: What,
    /// How many steps were taken, that of the note included.
    pub steps: u64,
    /// The numbers of its errors in the log, counted from 0.
    pub errors: Range<usize>,
    /// The command that was executed.
    pub command: Option<Spot>,
    /// The key of the current entry.
    pub entry: Option<Vec<u8>>,
    /// What was executed; None for a literal.
    pub next: Option<Vec<u8>>,
    /// The token that was executed; None where that was the command's own function.
    pub at: Option<Spot>,
    /// Who called, the innermost first.
    pub callers: Vec<Spot>,
    /// How many literals were on the stack.
    pub depth: usize,
    /// Those on top, the uppermost first.
    pub stack: Vec<Held>,
    /// The uppermost first: since which token each literal that was left has been there, or which one pushed a missing field that a step takes.
    pub since: Vec<Option<Spot>>,
}

/// The notes of a run, whose style has this name.
pub fn read(notes: &[u8], style: &[u8]) -> Vec<Note> {
    let mut read: Vec<Note> = Vec::new();
    for line in notes.split(|byte| *byte == b'\n') {
        let (word, rest) = word(line);
        match (word, read.last_mut()) {
            (b"event", _) => read.extend(begin(rest)),
            (_, Some(note)) => note.add(word, rest, style),
            (_, None) => {}
        }
    }
    read
}

/// The first word of a line, and what comes after the space.
pub(crate) fn word(line: &[u8]) -> (&[u8], &[u8]) {
    let end = line.iter().position(|byte| *byte == b' ').unwrap_or(line.len());
    (&line[..end], line.get(end + 1..).unwrap_or(b""))
}

/// The number that the first word is, and what comes after it.
pub(crate) fn number(line: &[u8]) -> Option<(usize, &[u8])> {
    let (digits, rest) = word(line);
    Some((std::str::from_utf8(digits).ok()?.parse().ok()?, rest))
}

/// A note that has its first line alone.
fn begin(rest: &[u8]) -> Option<Note> {
    let (word, rest) = word(rest);
    let what = match word {
        b"step" => What::Step,
        b"test" => What::Test,
        b"left" => What::Left,
        b"stop" => What::Stop,
        b"limit" => What::Limit,
        _ => return None,
    };
    let (steps, rest) = number(rest)?;
    let (first, rest) = number(rest)?;
    let (behind, _) = number(rest)?;
    Some(Note {
        what,
        steps: steps as u64,
        errors: first..behind,
        command: None,
        entry: None,
        next: None,
        at: None,
        callers: Vec::new(),
        depth: 0,
        stack: Vec::new(),
        since: Vec::new(),
    })
}

impl Note {
    /// Takes a line.
    fn add(&mut self, word: &[u8], rest: &[u8], style: &[u8]) {
        match word {
            b"item" => self.command = command(rest, style),
            b"entry" => self.entry = Some(rest.to_vec()),
            b"next" => self.next = Some(rest.to_vec()),
            b"at" => self.at = spot(rest, style, true),
            b"from" => self.callers.extend(spot(rest, style, false)),
            b"depth" => self.depth = number(rest).map_or(0, |(depth, _)| depth),
            b"literal" => self.stack.extend(literal(rest)),
            b"since" => self.since.push(spot(rest, style, true)),
            _ => {}
        }
    }
}

/// A command: `ITERATE LINE NAME`.
pub(crate) fn command(rest: &[u8], style: &[u8]) -> Option<Spot> {
    let (command, rest) = word(rest);
    let (line, name) = number(rest)?;
    let function = [command, b" {", name, b"}"].concat();
    Some(Spot { token: None, call: Call { function, file: style.to_vec(), line } })
}

/// A token: `in LINE FUNCTION TOKEN NAME`, or `of ..` where it stands in braces inside of that function.
pub(crate) fn spot(rest: &[u8], style: &[u8], is_whole: bool) -> Option<Spot> {
    let (word, rest) = word(rest);
    let (line, rest) = number(rest)?;
    let (function, rest) = number(rest)?;
    let (token, name) = number(rest)?;
    let braces: &[u8] = if word == b"of" { IN_BRACES } else { b"" };
    let shown = if is_whole { [braces, b"FUNCTION {", name, b"}"].concat() } else { [braces, name].concat() };
    Some(Spot { token: Some((function, token)), call: Call { function: shown, file: style.to_vec(), line } })
}

/// A literal: `BYTES TEXT`, where the text is cut that has more bytes.
fn literal(rest: &[u8]) -> Option<Held> {
    let (bytes, shown) = number(rest)?;
    let dots: &[u8] = if bytes > shown.len() { b".." } else { b"" };
    Some(Held { literal: [shown, dots].concat(), since: None })
}

#[cfg(test)]
mod tests {
    use super::*;

    #[test]
    fn notes_are_read() {
        let notes =
            b"event step 14 3 4\nitem ITERATE 100 call.type$\nentry k y\nnext format.name$\nat of 28 12 5 names.text\n\
            from in 36 13 7 names.text\nfrom of 0 14 1 book\nmore 3\ndepth 9\nliteral 4 \"a?\"\nliteral 900 \"b\n\
            event left 20 4 5\nitem EXECUTE 7 f\nsince in 31 2 0 leaves\nsince\nevent stop 30 5 5\n";
        let read = read(notes, b"s.bst");
        assert_eq!(read.iter().map(|note| note.what).collect::<Vec<_>>(), [What::Step, What::Left, What::Stop]);
        let call = |function: &str, line| Call { function: function.into(), file: b"s.bst".to_vec(), line };
        let first = &read[0];
        assert_eq!((first.steps, first.errors.clone(), first.next.as_deref()), (14, 3..4, Some(&b"format.name$"[..])));
        assert_eq!(first.entry.as_deref(), Some(&b"k y"[..]));
        assert_eq!(first.command.as_ref().unwrap().call, call("ITERATE {call.type$}", 100));
        let at = Spot { token: Some((12, 5)), call: call("{..} of FUNCTION {names.text}", 28) };
        assert_eq!(
            (at.owner(), first.command.as_ref().unwrap().argument()),
            (&b"names.text"[..], Some(&b"call.type$"[..]))
        );
        assert_eq!((first.callers[1].owner(), first.callers[1].argument()), (&b"book"[..], None));
        assert_eq!(first.at, Some(at));
        let callers: Vec<_> = first.callers.iter().map(|spot| spot.call.clone()).collect();
        assert_eq!(callers, [call("names.text", 36), call("{..} of book", 0)]);
        let stack: Vec<_> = first.stack.iter().map(|held| &held.literal[..]).collect();
        assert_eq!((first.depth, stack), (9, vec![&b"\"a?\""[..], b"\"b.."]));
        let since = Spot { token: Some((2, 0)), call: call("FUNCTION {leaves}", 31) };
        assert_eq!(read[1].since, [Some(since), None]);
    }

    #[test]
    fn odd_notes_are_passed_over() {
        assert_eq!(read(b"", b""), []);
        assert_eq!(read(b"at in 1 2 3 f\nevent\nevent step x\nevent x 1 2 3\n\n", b""), []);
        let note = &read(b"event step 1 0 1\nat in x\nitem ITERATE\nliteral\n", b"")[0];
        assert_eq!((&note.at, &note.command, note.stack.len()), (&None, &None, 0));
    }
}
