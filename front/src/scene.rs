//! Where in a style a message of its execution was met, as far as that is known.
//!
//! A log says which built-in function met an error, and for which entry, but not where in the style that was. Who finds that out hands it in
//! as [`Scenes`], by the numbers of the messages; without it the line of the last command that executes functions is named.

use crate::notes::{Spot, Token};
use std::collections::{BTreeMap, HashMap};

/// A place in a function of a style.
#[derive(Debug, Clone, PartialEq, Eq, Hash)]
pub struct Call {
    /// The function, or the command, as it is to be shown: `{..} of FUNCTION {format.names}`, `format.names`, `ITERATE {call.type$}`.
    pub function: Vec<u8>,
    /// The style's name, as the job has it.
    pub file: Vec<u8>,
    /// The line, counted from 1.
    pub line: usize,
}

/// What stands before the name of a function where a place is in braces inside of it.
pub const IN_BRACES: &[u8] = b"{..} of ";

impl Call {
    /// Whether it is a command, as `ITERATE {call.type$}`, and no function.
    pub fn is_command(&self) -> bool {
        ["EXECUTE {", "ITERATE {", "REVERSE {"].iter().any(|begin| self.function.starts_with(begin.as_bytes()))
    }

    /// The named function that holds the place.
    pub fn owner(&self) -> &[u8] {
        let shown = self.function.strip_prefix(IN_BRACES).unwrap_or(&self.function);
        let whole = shown.strip_prefix(b"FUNCTION {").and_then(|shown| shown.strip_suffix(b"}"));
        whole.unwrap_or(shown)
    }
}

/// A literal on the stack.
#[derive(Debug, Clone, PartialEq, Eq)]
pub struct Held {
    /// The literal, as a log shows it.
    pub literal: Vec<u8>,
    /// Since which place the stack has held it, where that is known.
    pub since: Option<Call>,
}

/// Where a message was met.
#[derive(Debug, Clone, PartialEq, Eq)]
pub struct Scene {
    /// What was executed.
    pub at: Call,
    /// Its token in the style, where that is known: a line may have several.
    pub token: Option<Token>,
    /// From where it was called, the innermost call first.
    pub callers: Vec<Call>,
    /// The token of each caller.
    pub caller_tokens: Vec<Option<Token>>,
    /// What the stack held, the uppermost literal first.
    pub stack: Vec<Held>,
    /// Of the uppermost of them, which token pushed each, if it is a missing field and that is known.
    pub origins: Vec<Option<Spot>>,
}

impl Scene {
    /// The command that is executed.
    pub fn command(&self) -> &Call {
        self.callers.last().unwrap_or(&self.at)
    }

    /// Whether it is known what called; else it is the token alone that is known.
    pub fn has_callers(&self) -> bool {
        self.token.is_none() || !self.callers.is_empty()
    }

    /// The innermost place whose line is known.
    pub fn placed(&self) -> Option<&Call> {
        std::iter::once(&self.at).chain(&self.callers).find(|call| call.line > 0)
    }
}

impl End {
    /// The place to look at: the loop in which the run stayed, or the innermost place whose line is known.
    pub fn placed(&self) -> Option<&Call> {
        self.loops.iter().find(|call| call.line > 0).or_else(|| self.scene.placed())
    }
}

/// The scenes that are known.
#[derive(Debug, Clone, Default, PartialEq, Eq)]
pub struct Scenes {
    /// Those of errors, by their numbers in the log, counted from 0.
    pub errors: BTreeMap<usize, Scene>,
    /// Whether no more errors were looked for than the first ones.
    pub are_first: bool,
    /// What is known of an error of these tokens whose own scene isn't known: the token alone.
    pub by_token: HashMap<Token, Scene>,
    /// Where the style stood when the run ended before its last command.
    pub end: Option<End>,
}

/// Where a style stood when the run ended before its last command, such as in an endless loop.
#[derive(Debug, Clone, PartialEq, Eq)]
pub struct End {
    /// What was executed.
    pub scene: Scene,
    /// After how many steps; a run that takes longer isn't looked at to its end.
    pub steps: u64,
    /// The `while$` of the loops that were open all the time, the innermost first: the run stays in one of them.
    pub loops: Vec<Call>,
}
