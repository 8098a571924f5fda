//! From which `if$` whose branches leave different numbers of literals a warning may follow: from those that can have been executed before it in
//! the same visit.

use crate::code_places::{CALLS_TYPE, Code, DEFAULT_TYPE, NamesOfFunctions};
use crate::database::Folded;
use crate::lint_warnings::{Cause, Fault, Warning};
use crate::notes::Spot;
use crate::origins::{Frame, origin};
use std::cell::Cell;
use std::collections::HashSet;

/// How many unequal `if$` are named with a warning at most.
const MOST_TIES: usize = 8;

/// How many names of functions are looked at for all warnings of a style. After these, an `if$` may be before each warning.
const MOST_NAMES: usize = 20_000_000;

/// The unequal `if$` of a style, and what its functions name.
pub struct Ties<'w, 'c, 'a> {
    code: &'c Code<'a>,
    causes: Vec<&'w Cause>,
    names: NamesOfFunctions<'a>,
    /// How many names may still be looked at.
    left: Cell<usize>,
}

/// What can have been executed before a warning in its visit.
struct Before<'a> {
    /// Functions of which all can have been.
    whole: HashSet<Folded<'a>>,
    /// Functions that are open where the warning is met, and up to which place of the text they can have been.
    open: Vec<(&'a [u8], usize)>,
}

impl<'w, 'c, 'a> Ties<'w, 'c, 'a> {
    /// The ties of a style with these unequal `if$`.
    pub fn new(code: &'c Code<'a>, causes: &'w [Cause]) -> Ties<'w, 'c, 'a> {
        let names = if causes.is_empty() { NamesOfFunctions::new() } else { code.names_of_functions() };
        let causes = causes.iter().filter(|cause| !follows_another(cause, causes)).take(MOST_TIES).collect();
        Ties { code, causes, names, left: Cell::new(MOST_NAMES) }
    }

    /// The unequal `if$` from which a warning may follow.
    pub fn of(&self, warning: &Warning) -> Vec<&'w Cause> {
        if self.causes.is_empty() || !is_of_stack(warning) || self.is_pushed_in_sight(warning) {
            return Vec::new();
        }
        match self.before(warning) {
            None => self.causes.clone(),
            Some(before) => self.causes.iter().copied().filter(|cause| self.has(&before, cause)).collect(),
        }
    }

    /// The unequal `if$` from which it may follow for further types of entries, of which the way isn't known: all that these can execute count.
    pub fn of_further_types(&self, warning: &Warning) -> Vec<&'w Cause> {
        if self.causes.is_empty() || !is_of_stack(warning) {
            return Vec::new();
        }
        let types = warning.types.iter().skip(1);
        let functions = types.map(|name| Folded(if name.is_empty() { DEFAULT_TYPE } else { name }));
        let whole = self.executed_by(functions.filter(|name| self.names.contains_key(name)).collect());
        let is_executed =
            |cause: &&Cause| whole.as_ref().is_none_or(|whole| whole.contains(&Folded(cause.spot.owner())));
        self.causes.iter().copied().filter(is_executed).collect()
    }

    /// Whether the text shows what pushed the wrong operand: then no `if$` before it is the reason.
    fn is_pushed_in_sight(&self, warning: &Warning) -> bool {
        let Some(operand) = &warning.operand else { return false };
        let frames: Vec<Frame<'_>> = warning.places.iter().map(Frame::of).collect();
        origin(self.code, &warning.next, &frames, operand.position).is_some()
    }

    /// What can have been executed before a warning; None where that isn't known.
    fn before<'b>(&'b self, warning: &'b Warning) -> Option<Before<'b>> {
        let mut todo: Vec<Folded<'b>> = Vec::new();
        let open = self.opened(warning);
        for (function, bound) in &open {
            let names = self.names.get(&Folded(function))?;
            todo.extend(names.iter().take_while(|(place, _)| place < bound).map(|(_, name)| *name));
        }
        if open.is_empty() {
            let (name, _) = self.names.get_key_value(&Folded(warning.item.as_ref()?.argument()?))?;
            todo.push(*name);
        }
        Some(Before { whole: self.executed_by(todo)?, open })
    }

    /// All that these functions can execute, themselves as well; None where that isn't known.
    fn executed_by<'b>(&'b self, mut todo: Vec<Folded<'b>>) -> Option<HashSet<Folded<'b>>> {
        let mut whole: HashSet<Folded<'b>> = HashSet::new();
        while let Some(name) = todo.pop() {
            if name == Folded(CALLS_TYPE) || self.left.get() == 0 {
                return None;
            }
            self.left.set(self.left.get() - 1);
            if whole.insert(name) {
                todo.extend(self.names.get(&name)?.iter().map(|(_, name)| *name));
            }
        }
        Some(whole)
    }

    /// The functions that are open where a warning is met, and up to which place of the text each of them can have been executed: up to the token
    /// that is executed, or up to the end of the loop in which that stands.
    fn opened<'b>(&self, warning: &'b Warning) -> Vec<(&'b [u8], usize)> {
        let mut open: Vec<(&'b [u8], usize)> = Vec::new();
        for (number, spot) in warning.places.iter().enumerate() {
            let of_loop = if number > 0 { self.code.place(spot, b"while$").map(|place| place.start()) } else { None };
            match open.last_mut() {
                Some((last, bound)) if Folded(last) == Folded(spot.owner()) => {
                    *bound = (*bound).max(of_loop.unwrap_or(0))
                }
                last => {
                    let executed = last.map_or(&warning.next[..], |(callee, _)| *callee);
                    open.push((spot.owner(), self.place_of(spot, executed).max(of_loop.unwrap_or(0))));
                }
            }
        }
        open
    }

    /// The place in the text of the token that executes a function: it is its name, or executes what is chosen. Where that isn't clear, the end of its line.
    fn place_of(&self, spot: &Spot, executed: &[u8]) -> usize {
        let tokens = [executed, CALLS_TYPE, b"if$"];
        let place = tokens.iter().find_map(|token| self.code.place(spot, token));
        place.map_or(self.code.text.span(spot.call.line).1, |place| place.start())
    }

    /// Whether an `if$` can have been executed.
    fn has(&self, before: &Before<'_>, cause: &Cause) -> bool {
        let function = Folded(cause.spot.owner());
        let start = self.code.text.span(cause.spot.call.line).0;
        let place = self.code.place(&cause.spot, b"if$").map_or(start, |place| place.start());
        let is_before = |(open, bound): &(&[u8], usize)| Folded(open) == function && place < *bound;
        before.whole.contains(&function) || before.open.iter().any(is_before)
    }
}

/// Whether literals that are missing or too many can be the reason of a warning.
fn is_of_stack(warning: &Warning) -> bool {
    matches!(warning.fault, Some(Fault::EmptyStack | Fault::LeftOver | Fault::WrongKind))
}

/// Whether numbers of literals vary in a branch: then another `if$` is the reason, where there is one.
pub fn varies(cause: &Cause) -> bool {
    cause.grows.iter().any(|(least, most)| least != most)
}

/// Whether an unequal `if$` may follow from another one of the same function.
pub fn follows_another(cause: &Cause, causes: &[Cause]) -> bool {
    let is_first = |first: &Cause| !varies(first) && first.spot.owner() == cause.spot.owner();
    varies(cause) && causes.iter().any(is_first)
}

#[cfg(test)]
mod tests {
    use super::*;
    use crate::lint_warnings::read;

    /// A style with an unequal `if$` in line 3.
    const STYLE: &str = "ENTRY {title}{}{} FUNCTION {odd}\n{ duplicate$ #1 =\n { pop$ } 'skip$ if$ }\n\
        FUNCTION {runs.odd} { odd }\nFUNCTION {shows}\n{ write$ }\n\
        FUNCTION {misc}\n{ \"a\" shows\n runs.odd\n shows\n title write$\n { #1 } { shows\n odd }\n while$\n }\n\
        READ\nITERATE {call.type$}\nEXECUTE {shows}\nEXECUTE {odd}\n";

    /// Whether a warning may follow from that `if$`.
    fn follows(warning: &str) -> bool {
        let notes = format!("{warning}cause in 3 0 5 odd\ngrows -1 -1 0 0\n");
        let found = read(notes.as_bytes(), b"s.bst");
        let code = Code::new(STYLE.as_bytes());
        !Ties::new(&code, &found.causes).of(&found.warnings[0]).is_empty()
    }

    #[test]
    fn an_if_is_a_reason_only_before_a_warning() {
        let in_shows = |line: usize, token: usize, depth: &str| {
            follows(&format!(
                "warning stack first\nnext write$\n{depth}item ITERATE 17 call.type$\nat in 6 3 0 shows\nfrom in {line} 4 {token} misc\n"
            ))
        };
        assert!(!in_shows(8, 1, ""));
        assert!(in_shows(10, 3, ""));
        let turned = "warning stack first\nnext write$\nitem ITERATE 17 call.type$\nat in 6 3 0 shows\nfrom of 12 5 0 misc\nfrom in 14 4 8 misc\n";
        assert!(follows(turned));
        let pushed =
            "warning kind first\nnext write$\noperand 0 text m\nwants text\nname field title\nat in 11 4 5 misc\n";
        assert!(!follows(pushed));
        assert!(follows(&pushed.replace("operand 0 text m", "operand 1 text m")));
        assert!(!follows(&pushed.replace("operand 0", "operand 1").replace("warning kind", "warning equal")));
    }

    #[test]
    fn what_a_function_names_may_be_unknown() {
        let style = STYLE.replace("FUNCTION {runs.odd}", "FUNCTION\n{runs.odd}").replace("shows\n odd }", "shows }");
        let notes = "warning stack first\nnext write$\nitem ITERATE 18 call.type$\nat in 7 3 0 shows\nfrom in 11 4 3 misc\n\
            cause in 3 0 5 odd\ngrows -1 -1 0 0\n";
        let (found, code) = (read(notes.as_bytes(), b"s.bst"), Code::new(style.as_bytes()));
        assert_eq!(Ties::new(&code, &found.causes).of(&found.warnings[0]).len(), 1);
    }

    #[test]
    fn further_types_have_ways_of_their_own() {
        let of = |types: &str| {
            let notes = format!(
                "warning stack first\nnext write$\nat in 6 3 0 shows\n{types}cause in 3 0 5 odd\ngrows -1 -1 0 0\n"
            );
            let found = read(notes.as_bytes(), b"s.bst");
            let code = Code::new(STYLE.as_bytes());
            Ties::new(&code, &found.causes).of_further_types(&found.warnings[0]).len()
        };
        assert_eq!((of("type misc\n"), of("type shows\ntype\n"), of("type shows\ntype misc\n")), (0, 0, 1));
    }

    #[test]
    fn literals_that_are_left_follow_from_what_the_command_runs() {
        let left = |name: &str| follows(&format!("warning left first\nnext {name}\ndepth 1\nitem EXECUTE 18 {name}\n"));
        assert!(left("odd") && left("call.type$") && !left("shows"));
    }
}
