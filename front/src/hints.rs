//! What a style's designer may want to look at although no run logs a fault by it: functions and variables without a use, integers that always have one value, and loops
//! that don't change what their test reads.

use crate::advice::operands;
use crate::code_hints::code_hints;
use crate::code_places::Code;
use crate::database::Folded;
use crate::list_hints::list_hints;
use crate::loops::{Loops, MOST_TOKENS, of_loops, spans_of};
use crate::style_read::{DeclaredName, Sort, StyleRead};
use crate::style_text::{Command, Kind, Token};
use crate::terminal::plain;
use crate::text::Text;
pub use crate::usual_types::is_usual_type;
use crate::usual_types::of_types;
use std::collections::HashMap;
use std::iter::Peekable;
use std::ops::Range;

/// A hint: the line of the name or of the loop, and what is to be said of it.
#[derive(Debug, Clone, PartialEq, Eq)]
pub struct Hint {
    pub line: usize,
    pub text: String,
    pub sort: Of,
}

/// What a hint is about.
#[derive(Debug, Clone, Copy, PartialEq, Eq)]
pub enum Of {
    /// A name or a piece of code that has no use.
    Use,
    /// A loop, of which no verdict says that it ends.
    Loop,
    /// The list, which may be another one than is meant.
    List,
    /// The list likewise, by a test that is asked twice: warnings of the same function may follow from it.
    Test,
}

/// How a name is used.
#[derive(Debug, Clone, Default)]
pub struct Uses {
    /// How often it is executed, or its value is taken.
    taken: usize,
    /// How often it comes after a quote.
    quoted: usize,
    /// The integers that are assigned to it by `#N 'NAME :=`.
    given: Vec<i64>,
}

impl Uses {
    /// Whether it is 0 wherever it is assigned, in more places than one: a name that is given a number once is a constant.
    fn is_always_0(&self) -> bool {
        self.quoted > 1 && self.given.len() == self.quoted && self.given.iter().all(|given| *given == 0)
    }
}

/// The hints for a style, in the order of its lines.
pub fn hints(style: &StyleRead<'_>) -> Vec<Hint> {
    let (text, uses) = (Text::new(style.names.bytes), uses(style));
    let of_names = style.names.declared.iter().filter_map(|declared| {
        let text_of = said_of(declared, &uses)?;
        Some(Hint { line: text.line_of(declared.start), text: text_of, sort: Of::Use })
    });
    let of_styles = of_sort(style, &text, &uses).into_iter().chain(of_unused(style, &text, &uses));
    let code = Code::new(style.names.bytes);
    let of_styles =
        of_styles.chain(of_types(style, &text, &uses)).chain(code_hints(&code)).chain(list_hints(style, &code));
    let others = of_pieces(style, &text).into_iter().chain(of_loops(style, &text)).chain(of_styles);
    let mut hints: Vec<Hint> = of_names.chain(others).collect();
    hints.sort_by_key(|hint| hint.line);
    hints
}

/// How the names of a style are used, by the names.
pub type UsesOfNames<'a> = HashMap<Folded<'a>, Uses>;

/// What is to be said of a name that a style declares.
fn said_of(declared: &DeclaredName<'_>, uses: &UsesOfNames<'_>) -> Option<String> {
    let never = match declared.sort {
        Sort::Field => return None,
        Sort::Function if declared.may_be_type => return None,
        Sort::Function => "the function",
        Sort::Integer | Sort::Text => "the variable",
    };
    let Some(uses) = uses.get(&Folded(declared.name)) else {
        return Some(format!("{never} {} is never used", plain(declared.name)));
    };
    let name = || plain(declared.name);
    match declared.sort {
        Sort::Field | Sort::Function => None,
        _ if uses.taken == 0 => Some(format!("the variable {} is assigned, and its value never used", name())),
        Sort::Integer if uses.quoted == 0 => Some(format!("the integer {} is always 0: nothing assigns to it", name())),
        Sort::Integer if uses.is_always_0() => Some(format!("the integer {} is always 0", name())),
        Sort::Integer | Sort::Text => None,
    }
}

/// The pieces of texts that are always empty: they have no byte, or start at 0, which is before the first one.
fn of_pieces(style: &StyleRead<'_>, text: &Text<'_>) -> Vec<Hint> {
    let is_integer = |token: &Token| token.kind == Kind::Integer;
    let value =
        |token: &Token| Some(token).filter(|token| is_integer(token)).and_then(|token| integer(style.of(token)));
    let said = |before: &[Token], of: &Token| {
        let (start, length) = (before.first().and_then(value), before.last().and_then(value)?);
        let (name, why) = match style.of(of).to_ascii_lowercase().as_slice() {
            b"substring$" if length < 1 => ("substring$", format!("{length} bytes")),
            b"substring$" if start == Some(0) => ("substring$", "the start 0, where the first byte is 1".to_string()),
            b"text.prefix$" if length < 1 => ("text.prefix$", format!("{length} letters")),
            _ => return None,
        };
        Some(Hint {
            line: text.line_of(of.start),
            text: format!("this `{name}` is always empty: it asks for {why}"),
            sort: Of::Use,
        })
    };
    let names = style.tokens.iter().enumerate().filter(|(_, token)| token.kind == Kind::Name);
    names.filter_map(|(at, token)| said(&style.tokens[at.saturating_sub(2)..at], token)).collect()
}

/// Constants of a kind that the built-in function after them doesn't take, in functions that nothing uses: a check of runs doesn't come to these.
fn of_unused(style: &StyleRead<'_>, text: &Text<'_>, uses: &UsesOfNames<'_>) -> Vec<Hint> {
    let is_unused = |declared: &&DeclaredName<'_>| {
        declared.sort == Sort::Function && !declared.may_be_type && !uses.contains_key(&Folded(declared.name))
    };
    let mut starts = style.names.declared.iter().filter(is_unused).map(|declared| declared.start).peekable();
    let mut spans = spans_of(style);
    spans.retain(|span| stands_in(&mut starts, style.tokens[span.start - 1].start..style.tokens[span.end - 1].end));
    let pairs = spans.into_iter().flat_map(|span| style.tokens[span].windows(2));
    pairs.filter_map(|pair| of_constant(style, text, pair)).collect()
}

/// What is said of a constant and the token after it, if that is a built-in function which takes no such constant.
fn of_constant(style: &StyleRead<'_>, text: &Text<'_>, pair: &[Token]) -> Option<Hint> {
    let [constant, function] = pair else { return None };
    let others: &[&str] = match constant.kind {
        Kind::Integer => &["TEXT", "CASE", "FORMAT", "CHARACTER", "NAMES", "FIELD"],
        Kind::Text => &["NUMBER", "LENGTH"],
        _ => return None,
    };
    let takes = operands(style.of(function)).filter(|_| function.kind == Kind::Name)?;
    let wanted = takes.rsplit(' ').next().filter(|wanted| others.contains(wanted))?;
    let (name, gets) = (plain(style.of(function)), plain(style.of(constant)));
    let said = format!(
        "`{name}` takes {takes}, pushed in this order, and gets {gets} as its {wanted}: no run shows that, since its function is never used"
    );
    Some(Hint { line: text.line_of(function.start), text: said, sort: Of::Use })
}

/// The hint on a style whose entries get keys to sort by, which nothing sorts by.
fn of_sort(style: &StyleRead<'_>, text: &Text<'_>, uses: &UsesOfNames<'_>) -> Option<Hint> {
    let key = Folded(b"sort.key$");
    let is_only_set = uses.get(&key).is_some_and(|uses| uses.quoted > 0 && uses.taken == 0);
    // (a designer may have made a comment of SORT, so that the list stays in that order)
    let is_left_out =
        |line: &[u8]| line.strip_prefix(b"%").is_some_and(|rest| rest.trim_ascii().eq_ignore_ascii_case(b"sort"));
    let has_sort = || style.names.bytes.split(|byte| *byte == b'\n').any(|line| is_left_out(line.trim_ascii()));
    let sort = style.names.commands.iter().rposition(|command| command.is("sort"));
    if !is_only_set || sort.is_none() && has_sort() {
        return None;
    }
    let (loops, mut left) = (Loops::new(style), MOST_TOKENS);
    let mut sets = |command: &Command<'_>| {
        let is_run = command.is("iterate") || command.is("reverse");
        let function = command.name.filter(|_| is_run).and_then(|name| loops.functions.get(&Folded(name)));
        function.is_some_and(|tokens| loops.may_change(tokens.clone(), key, &mut left))
    };
    let index = style.names.commands.iter().rposition(&mut sets)?;
    // (keys that are set again after the entries are sorted may be meant for something else)
    if sort.is_some_and(|sort| index < sort || style.names.commands[..sort].iter().any(sets)) {
        return None;
    }
    let command = &style.names.commands[index];
    let place = match sort {
        Some(sort) => {
            format!("below SORT in line {}: move it above that", text.line_of(style.names.commands[sort].start))
        }
        None => "and there is no SORT: put it below this line".to_string(),
    };
    let (word, name) = (plain(command.word), plain(command.name?));
    let said = format!("{word} {{{name}}} sets sort.key$, {place}, or the list stays in the order of citation");
    Some(Hint { line: text.line_of(command.start), text: said, sort: Of::List })
}

/// Whether one of these places, which only rise, stands in a part of a text that comes after those which were asked for before.
fn stands_in(places: &mut Peekable<impl Iterator<Item = usize>>, part: Range<usize>) -> bool {
    while places.next_if(|place| *place < part.start).is_some() {}
    places.peek().is_some_and(|place| *place < part.end)
}

/// How each name is used in the bodies of functions, and by EXECUTE, ITERATE and REVERSE.
pub fn uses<'a>(style: &StyleRead<'a>) -> UsesOfNames<'a> {
    let mut uses = UsesOfNames::new();
    let mut declared = style.names.declared.iter().map(|declared| declared.start).peekable();
    let mut commands = style.names.commands.iter().map(|command| command.start).peekable();
    for (index, token) in style.tokens.iter().enumerate() {
        let part = token.start..token.end;
        if token.kind == Kind::Quoted {
            add_quoted(&mut uses, style, index);
        } else if token.kind == Kind::Name && !stands_in(&mut commands, part.clone()) && !stands_in(&mut declared, part)
        {
            uses.entry(Folded(style.of(token))).or_default().taken += 1;
        }
    }
    let of_commands = style.names.commands.iter().filter_map(|command| name_that_touches(style.names.bytes, command));
    of_commands.for_each(|name| uses.entry(Folded(name)).or_default().taken += 1);
    uses
}

/// Adds the use of a name that comes after a quote, which is the token of this number.
fn add_quoted<'a>(uses: &mut UsesOfNames<'a>, style: &StyleRead<'a>, index: usize) {
    let found = uses.entry(Folded(&style.of(&style.tokens[index])[1..])).or_default();
    found.quoted += 1;
    let is_assigned = style.tokens.get(index + 1).is_some_and(|next| style.of(next) == b":=");
    let before = index.checked_sub(1).and_then(|before| style.tokens.get(before));
    let given = before.filter(|before| is_assigned && before.kind == Kind::Integer);
    found.given.extend(given.and_then(|given| integer(style.of(given))));
}

/// The function that EXECUTE, ITERATE or REVERSE names, where its brace touches the command's word, so that both are one token.
fn name_that_touches<'a>(bytes: &'a [u8], command: &Command<'a>) -> Option<&'a [u8]> {
    let is_run = ["execute", "iterate", "reverse"].iter().any(|word| command.is(word));
    command.name.filter(|_| is_run && bytes.get(command.start + command.word.len()) == Some(&b'{'))
}

/// The number that `#N` is.
pub(crate) fn integer(text: &[u8]) -> Option<i64> {
    std::str::from_utf8(text.get(1..)?).ok()?.parse().ok()
}

#[cfg(test)]
mod tests {
    use super::*;

    fn said(style: &str) -> Vec<(usize, String)> {
        hints(&StyleRead::new(style.as_bytes())).into_iter().map(|hint| (hint.line, hint.text)).collect()
    }

    #[test]
    fn what_has_no_use_is_named() {
        let style = "ENTRY {title}{}{label extra}\nINTEGERS {i\n zero one none once}\nSTRINGS {s T}\nFUNCTION {not.used} {skip$}\n\
            FUNCTION {misc} {title 's := #0 'zero := #0 'zero := #0 'once := #1 'one := #0 'one := #1 zero one + once none +\n t * label * 'LABEL := }\nREAD\nFUNCTION {late} {}\nITERATE {call.type$}\n";
        let wanted = [
            (1, "the variable extra is never used"),
            (2, "the variable i is never used"),
            (3, "the integer zero is always 0"),
            (3, "the integer none is always 0: nothing assigns to it"),
            (4, "the variable s is assigned, and its value never used"),
            (5, "the function not.used is never used"),
            (9, "the function late is never used"),
        ];
        assert_eq!(said(style), wanted.map(|(line, text)| (line, text.to_string())));
    }

    #[test]
    fn pieces_that_are_always_empty_are_named() {
        let style = "EXECUTE {f.g}\nFUNCTION {f.g} {\ns #0 #1 substring$\ns #2 #0 substring$\ns #-1 #1 substring$ #0 text.prefix$\ns i #-3 Substring$ s #1 text.prefix$\n#0 s #1 substring$ }";
        let empty = |name: &str, why: &str| format!("this `{name}` is always empty: it asks for {why}");
        let wanted = [
            (3, empty("substring$", "the start 0, where the first byte is 1")),
            (4, empty("substring$", "0 bytes")),
            (5, empty("text.prefix$", "0 letters")),
            (6, empty("substring$", "-3 bytes")),
        ];
        assert_eq!(said(style), wanted);
    }

    #[test]
    fn names_do_not_act_on_a_terminal() {
        assert_eq!(
            said("INTEGERS {v\u{1b}]0;P\u{7}\u{202e}}"),
            [(1, "the variable v?]0;P?? is never used".to_string())]
        );
    }

    #[test]
    fn constants_in_unused_functions_are_looked_at() {
        let style = |commands: &str| {
            said(&format!(
                "FUNCTION {{f.g}} {{\n\"A\" \"{{ll}}\" #1 format.name$ #1 #2 >\n\"4\" - #1 #2 + write$ newline$}}\nREAD\n{commands}"
            ))
        };
        let named = |begin: &str| format!("{begin}: no run shows that, since its function is never used");
        let wanted = [
            (1, "the function f.g is never used".to_string()),
            (2, named("`format.name$` takes NAMES NUMBER FORMAT, pushed in this order, and gets #1 as its FORMAT")),
            (3, named("`-` takes NUMBER NUMBER, pushed in this order, and gets \"4\" as its NUMBER")),
        ];
        assert_eq!(style(""), wanted);
        assert_eq!(style("EXECUTE {f.g}"), []);
    }

    #[test]
    fn keys_to_sort_by_are_sorted_by() {
        let style = |commands: &str| {
            said(&format!("READ\nFUNCTION {{a.b}} {{cite$ 'sort.key$ :=}}\nFUNCTION {{pre.sort}} {{a.b}}\n{commands}"))
        };
        let hint = "ITERATE {pre.sort} sets sort.key$, and there is no SORT: put it below this line, or the list stays in the order of citation";
        assert_eq!(style("ITERATE {pre.sort}\nITERATE {call.type$}\n"), [(4, hint.to_string())]);
        let below = "ITERATE {pre.sort} sets sort.key$, below SORT in line 4: move it above that, or the list stays in the order of citation";
        assert_eq!(style("SORT\nITERATE {pre.sort}\n"), [(5, below.to_string())]);
        assert_eq!(style("ITERATE {pre.sort}\nSORT\nITERATE {pre.sort}\n"), []);
        assert_eq!([style("ITERATE {pre.sort}\nSORT\n"), style("ITERATE {pre.sort}\n%SORT\n")], [vec![], vec![]]);
        assert_eq!(style("FUNCTION {c.d} {sort.key$ write$ newline$}\nITERATE {pre.sort}\nITERATE {c.d}\n"), []);
    }

    #[test]
    fn uses_by_quotes_and_commands_count() {
        assert_eq!(
            said("FUNCTION {a.b} {}\nFUNCTION {Default.Type} {}\nFUNCTION {c.d} {#1 'a.b 'skip$ if$}\nEXECUTE {C.D}\n"),
            []
        );
        assert_eq!(said("READ FUNCTION {f} {}\nFUNCTION {g.h} {}\nITERATE{f}\nEXECUTE{ g.h }\n"), []);
        assert_eq!(said("READ FUNCTION{f}{}\n").len(), 1);
        assert_eq!(said(""), []);
        assert_eq!(said("FUNCTION"), []);
    }
}
