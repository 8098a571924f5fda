//! Hints on code that is likely to be meant otherwise, though no check of runs finds a fault there: operands in another order, a test that is asked twice, and a key to sort by that isn't cut.

use crate::code_places::{Code, Declared};
use crate::database::Folded;
use crate::hints::{Hint, Of};
use crate::literals::Literals;
use crate::operands::in_other_order;
use crate::style_text::Kind;
use crate::terminal::plain;
use std::collections::HashMap;
use std::ops::Range;

/// How many tokens before a call are looked at for its constant.
const MOST_BACK: usize = 4;

/// In how many calls at least a function gets the label of a field first, before another order is noted.
const LEAST_CALLS: usize = 2;

/// The hints on the code of a style.
pub fn code_hints(code: &Code<'_>) -> Vec<Hint> {
    [exchanged_cases(code), of_calls(code), asked_twice(code), uncut_keys(code)].concat()
}

/// The hints on tests that an `if$` asks again in one of its own branches, as in `n #1 > { n #1 > {..} {..} if$ } 's if$`.
fn asked_twice(code: &Code<'_>) -> Vec<Hint> {
    let said = |open: usize| {
        let is_branch = |at: usize| code.kind(at) == Kind::Open;
        let first = code.operand_before(open).filter(|(first, last)| first < last).map(|(first, _)| first);
        let length = LENGTHS_OF_TESTS.into_iter().find(|length| {
            let test = |end: usize| {
                let tokens = end.checked_sub(*length)?..end;
                (end <= code.count() && is_test(code, tokens.clone()))
                    .then(|| tokens.map(|at| same_of(code.of(at))).collect::<Vec<_>>())
            };
            let inner = open + 1 + length;
            let is_inner = inner < code.count() && is_branch(inner);
            is_inner
                && test(inner).is_some_and(|asked| {
                    [Some(open), first].into_iter().flatten().any(|end| test(end).as_ref() == Some(&asked))
                })
        })?;
        let test: Vec<String> = (open + 1..open + 1 + length).map(|at| plain(code.of(at))).collect();
        let text = format!(
            "`{}` is asked here once more, inside an `if$` that asks the same: is another variable meant in one of the two?",
            test.join(" ")
        );
        Some(Hint { line: code.line(open + 1), text, sort: Of::Test })
    };
    (0..code.count()).filter(|open| code.kind(*open) == Kind::Open).filter_map(said).collect()
}

/// What equal tokens share: a name whatever its case, and a text in quotes to the byte.
fn same_of(token: &[u8]) -> Result<Folded<'_>, &[u8]> {
    if token.starts_with(b"\"") { Err(token) } else { Ok(Folded(token)) }
}

/// How many tokens a test has that is looked at: two operands and what compares them, or one and what asks for it.
const LENGTHS_OF_TESTS: [usize; 2] = [3, 2];

/// Whether these tokens are a test of variables, fields and constants.
fn is_test(code: &Code<'_>, tokens: Range<usize>) -> bool {
    let is_asking = match tokens.len() {
        3 => matches!(code.of(tokens.end - 1), b"=" | b">" | b"<"),
        _ => matches!(code.of(tokens.end - 1), b"empty$" | b"missing$"),
    };
    is_asking && (tokens.start..tokens.end - 1).all(|at| code.place_at(at + 1).value(1).is_some())
}

/// The hints on keys to sort by that are joined of several texts and then assigned without being cut.
fn uncut_keys(code: &Code<'_>) -> Vec<Hint> {
    let assigned = code.executed(b":=").into_iter();
    let is_uncut = |index: usize| {
        index >= 2 && code.of(index - 1).eq_ignore_ascii_case(b"'sort.key$") && code.of(index - 2) == b"*"
    };
    let uncut = assigned.filter(|(_, index)| is_uncut(*index));
    let said = uncut.map(|(owner, index)| {
        let text = format!(
            "in {}: sort.key$ isn't cut to what it can keep, and a longer value is cut with a warning: put `#1 entry.max$ substring$` before `'sort.key$ :=`",
            plain(owner)
        );
        Hint { line: code.line(index), text, sort: Of::Use }
    });
    said.collect()
}

/// The hints on a `change.case$` whose text and conversion are exchanged.
fn exchanged_cases(code: &Code<'_>) -> Vec<Hint> {
    let changes = code.executed(b"change.case$").into_iter();
    let changes = changes.filter_map(|(owner, index)| {
        let advice = in_other_order(code.place_at(index), b"change.case$")?;
        let text = format!("in {}: `change.case$` takes TEXT CASE: {advice}", plain(owner));
        Some(Hint { line: code.line(index), text, sort: Of::List })
    });
    changes.collect()
}

/// Where the constant of a call stands among its operands.
#[derive(Clone, Copy, PartialEq, Eq)]
enum Constant {
    First,
    Last,
}

/// The hints on calls of a function that takes two literals, in which the label of a field comes last, where it comes first in all others.
fn of_calls(code: &Code<'_>) -> Vec<Hint> {
    let mut calls: HashMap<Folded<'_>, Vec<(usize, Constant)>> = HashMap::new();
    let mut literals = Literals::new(code);
    for index in 0..code.count() {
        let is_function = matches!(code.declared(code.of(index)), Some(Declared::Function { .. }));
        let constant = if is_function && code.kind(index) == Kind::Name { constant_of(code, index) } else { None };
        if let Some(constant) = constant {
            calls.entry(Folded(code.of(index))).or_default().push((index, constant));
        }
    }
    let said = |calls: &Vec<(usize, Constant)>| -> Option<Hint> {
        let mut last = calls.iter().filter(|(_, constant)| *constant == Constant::Last);
        let (index, _) = last.next().filter(|_| calls.len() > LEAST_CALLS)?;
        let is_it = last.next().is_none() && literals.taken_by(code.of(*index)) == Some(2);
        is_it.then(|| of_call(code, *index, calls.len() - 1))
    };
    let mut hints: Vec<Hint> = calls.values().filter_map(said).collect();
    hints.sort_by_key(|hint| hint.line);
    hints
}

/// Whether the two operands of a call are a field and a constant that is its label, as `"volume" volume`, and in which order.
fn constant_of(code: &Code<'_>, index: usize) -> Option<Constant> {
    let before = |back: usize| index.checked_sub(back).map(|at| (code.kind(at), code.of(at)));
    let (kind, last) = before(1)?;
    if kind == Kind::Text {
        let field = (2..=MOST_BACK).filter_map(before).find(|(kind, name)| *kind == Kind::Name && is_label(last, name));
        return field.map(|_| Constant::Last);
    }
    let names = (1..=MOST_BACK).map_while(before).take_while(|(kind, _)| *kind == Kind::Name);
    let names: Vec<&[u8]> = names.map(|(_, name)| name).collect();
    let (kind, first) = before(names.len() + 1)?;
    (kind == Kind::Text && is_label(first, names.last()?)).then_some(Constant::First)
}

/// Whether a constant is the label of a field of this name: both begin with the same letters.
fn is_label(constant: &[u8], field: &[u8]) -> bool {
    let word: Vec<u8> = constant.iter().copied().filter(u8::is_ascii_alphabetic).take(LETTERS_OF_LABEL).collect();
    word.len() == LETTERS_OF_LABEL
        && field.get(..LETTERS_OF_LABEL).is_some_and(|begin| begin.eq_ignore_ascii_case(&word))
}

/// How many letters of a label and of its field are compared.
const LETTERS_OF_LABEL: usize = 3;

/// What is said of the one call that gets its constant last.
fn of_call(code: &Code<'_>, index: usize, others: usize) -> Hint {
    let (name, constant) = (plain(code.of(index)), plain(code.of(index - 1)));
    let text = format!(
        "`{name}` gets the constant {constant} last here, and first in {others} other calls: are its operands exchanged?"
    );
    Hint { line: code.line(index), text, sort: Of::List }
}

#[cfg(test)]
mod tests {
    use super::*;

    fn said(body: &str) -> Vec<(usize, String)> {
        let style = format!(
            "ENTRY {{pages volume}}{{}}{{}}\nFUNCTION {{dash}} {{}} FUNCTION {{tie}} {{ * }}\nFUNCTION {{f}} {{\n{body} }}\n"
        );
        code_hints(&Code::new(style.as_bytes())).into_iter().map(|hint| (hint.line, hint.text)).collect()
    }

    #[test]
    fn calls_with_another_order_are_named() {
        let others = "\"volume\" volume tie \"page\" pages dash tie\n";
        let wanted =
            "`tie` gets the constant \"pages\" last here, and first in 2 other calls: are its operands exchanged?";
        assert_eq!(said(&format!("{others}pages dash \"pages\" tie")), [(5, wanted.to_string())]);
        assert_eq!(said(&format!("{others}\"pages\" pages dash tie")), []);
        assert_eq!(said("\"volume\" volume tie pages \"pages\" tie volume \"volume\" tie"), []);
    }

    #[test]
    fn a_case_before_its_text_is_named() {
        let found = said("\"l\" volume change.case$\nvolume \"l\" change.case$ ");
        assert_eq!(found.len(), 1, "{found:?}");
        assert!(found[0].1.ends_with("are exchanged: write `volume \"l\" change.case$`"), "{found:?}");
    }
    #[test]
    fn tests_that_are_asked_twice_are_named() {
        let text = "`n #1 >` is asked here once more, inside an `if$` that asks the same: is another variable meant in one of the two?";
        let of = |body: &str| {
            let style = format!("INTEGERS {{n i}} STRINGS {{s}}\nFUNCTION {{f}} {{\n{body}\n}}\n");
            code_hints(&Code::new(style.as_bytes())).into_iter().map(|hint| (hint.line, hint.text)).collect::<Vec<_>>()
        };
        assert_eq!(of("n #1 >\n{ n #1 > { \"a\" } { \"b\" } if$ } 's if$"), [(4, text.to_string())]);
        assert_eq!(of("n #1 > { \"a\" }\n{ n #1 > { \"a\" } { \"b\" } if$ } if$"), [(4, text.to_string())]);
        let asked = |first: &str, second: &str| {
            of(&format!("s \"{first}\" = {{ \"a\" }}\n{{ {second} = {{ \"a\" }} {{ \"b\" }} if$ }} if$")).len()
        };
        assert_eq!(asked("(Author, Year)", "S \"(Author, Year)\""), 1);
        assert_eq!(asked("(AUTHOR, YEAR)", "s \"(Author, YEAR)\""), 0);
        assert_eq!(of("i #1 >\n{ n #1 > { \"a\" } { \"b\" } if$ } 's if$"), []);
        assert_eq!(of("s empty$ { s empty$ 'skip$ 'pop$ if$ } { } if$"), []);
    }

    #[test]
    fn keys_that_are_not_cut_are_named() {
        let found = said("\"a\" volume * 'sort.key$ :=");
        assert_eq!(found.len(), 1, "{found:?}");
        assert!(found[0].1.starts_with("in f: sort.key$ isn't cut"), "{found:?}");
        assert_eq!(said("\"a\" volume * #1 entry.max$ substring$ 'sort.key$ :="), []);
    }
}
