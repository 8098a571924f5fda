//! What the branches of an `if$` do to the stack, in words: which token pushes what is left, and which takes what was there before.

use crate::code_places::{CALLS_TYPE, Code, DEFAULT_TYPE, Declared};
use crate::database::Folded;
use crate::lint_warnings::{Cause, Growth};
use crate::literals::{Literals, Traced};
use crate::style_text::Kind;
use crate::terminal::plain;
use crate::usual_types::is_usual_type;

/// How many tokens of a branch are named at most.
const MOST_NAMED: usize = 3;

/// What both branches of an unequal `if$` do, each in words; None where the text doesn't show it.
pub fn branches_in_words(code: &Code<'_>, cause: &Cause) -> Option<[String; 2]> {
    let number = cause.spot.token.map(|(_, number)| number);
    let index = code.index(cause.spot.call.line, b"if$", number)?;
    let traced = Literals::new(code).of_branches(index)?;
    let is_known = traced.iter().zip(cause.grows).all(|(traced, (least, most))| least == most && grows(traced) == most);
    is_known.then(|| traced.each_ref().map(|traced| in_words(code, traced)))
}

/// What an unequal `if$` comes to, and what to do about it, in words.
pub fn difference([(least, first), (low, second)]: [Growth; 2]) -> Option<(String, String)> {
    if least != first || low != second || first == second {
        return None;
    }
    let (more, less, by) = match first > second {
        true => ("first", "second", first - second),
        false => ("second", "first", second - first),
    };
    let literals = if by == 1 { "1 literal".to_string() } else { format!("{by} literals") };
    Some((
        format!("after the {more} the stack has {literals} more than after the {less}"),
        format!(
            "let both leave the same number: let the {more} take {by} more off, by `pop$`, `write$` or `*`, or the {less} push {by} more, such as `\"\"`"
        ),
    ))
}

/// Which functions that a command runs leave literals, and which tokens of them pushed these, where the text shows it: `book leaves "." (line 9)`.
pub fn left_by(code: &Code<'_>, run: &[u8]) -> Option<String> {
    let types =
        || code.functions().into_iter().filter(|name| is_usual_type(name) || Folded(name) == Folded(DEFAULT_TYPE));
    let functions: Vec<&[u8]> = if run == CALLS_TYPE { types().collect() } else { vec![run] };
    let mut literals = Literals::new(code);
    let traced = functions.into_iter().filter_map(|name| Some((name, literals.of_body(name)?)));
    let mut leaving = traced.filter(|(_, traced)| traced.takers.is_empty() && !traced.left.is_empty());
    let said = |(name, traced): (&[u8], Traced)| format!("{} {}", plain(name), in_words(code, &traced));
    let mut all: Vec<String> = leaving.by_ref().take(MOST_NAMED).map(said).collect();
    all.extend(leaving.next().map(|_| "..".to_string()));
    (!all.is_empty()).then(|| all.join("; "))
}

/// By how many literals the stack grows.
fn grows(traced: &Traced) -> i64 {
    traced.left.len() as i64 - traced.takers.len() as i64
}

/// What some code does to the stack, in words.
pub fn in_words(code: &Code<'_>, traced: &Traced) -> String {
    let Traced { takers, left, named } = traced;
    let is_result = |token: usize| *named == Some(token) || !is_value(code, token);
    let taken = || {
        let (literals, were) = if takers.len() == 1 {
            ("1 literal".to_string(), "was")
        } else {
            (format!("{} literals", takers.len()), "were")
        };
        format!("takes {literals} off that {were} there before, by {}", tokens_in_words(code, takers, |_| false))
    };
    let leaves = || format!("leaves {}", tokens_in_words(code, left, is_result));
    match (takers.is_empty(), left.is_empty()) {
        (true, true) => "leaves the stack as it was".to_string(),
        (true, false) => leaves(),
        (false, true) => taken(),
        (false, false) => format!("{}, and {}", taken(), leaves()),
    }
}

/// Tokens in a row, each with its line; of what they leave, a function gives a result.
fn tokens_in_words(code: &Code<'_>, tokens: &[usize], is_result: impl Fn(usize) -> bool) -> String {
    let mut runs: Vec<(usize, usize)> = Vec::new();
    for token in tokens {
        match runs.last_mut() {
            Some((last, count)) if last == token => *count += 1,
            _ => runs.push((*token, 1)),
        }
    }
    let named = |(token, count): &(usize, usize)| {
        let result = match count {
            _ if !is_result(*token) => String::new(),
            1 => "the result of ".to_string(),
            _ => format!("{count} results of "),
        };
        format!("{result}{} (line {})", token_in_words(code, *token), code.line(*token))
    };
    let mut named: Vec<String> = runs.iter().take(MOST_NAMED).map(named).collect();
    if runs.len() > MOST_NAMED {
        named.push(format!("{} more", runs.len() - MOST_NAMED));
    }
    match named.split_last() {
        Some((last, rest)) if !rest.is_empty() => format!("{} and {last}", rest.join(", ")),
        _ => named.concat(),
    }
}

/// A token as it is named: what begins with a brace is a function.
fn token_in_words(code: &Code<'_>, token: usize) -> String {
    match code.kind(token) {
        Kind::Open => "a function in braces".to_string(),
        _ => format!("`{}`", plain(code.of(token).strip_prefix(b"'").unwrap_or(code.of(token)))),
    }
}

/// Whether a token is a value itself: a literal, a variable or a field.
fn is_value(code: &Code<'_>, token: usize) -> bool {
    let is_function = || matches!(code.declared(code.of(token)), None | Some(Declared::Function { .. }));
    code.kind(token) != Kind::Name || !is_function()
}

#[cfg(test)]
mod tests {
    use super::*;
    use crate::literals::unequal;

    fn said(branches: &str) -> [String; 2] {
        let style = format!(
            "ENTRY {{title}} {{}} {{}}\nFUNCTION {{two}} {{ \"a\" \"b\" }}\nFUNCTION {{misc}}\n{{ #1\n{branches}\nif$ }}\n"
        );
        let code = Code::new(style.as_bytes());
        let causes = unequal(&code);
        branches_in_words(&code, &causes[0]).unwrap_or_default()
    }

    #[test]
    fn the_tokens_of_branches_are_named() {
        let as_it_was = "leaves the stack as it was";
        assert_eq!(said("'skip$\n{ #0 }"), [as_it_was, "leaves `#0` (line 6)"]);
        assert_eq!(
            said("{ \"in \"\n title * title }\n{ title }"),
            ["leaves the result of `*` (line 6) and `title` (line 6)", "leaves `title` (line 7)"]
        );
        assert_eq!(
            said("{ title duplicate$ swap$ }\n{}")[0],
            "leaves the result of `duplicate$` (line 5) and `title` (line 5)"
        );
        assert_eq!(
            said("{ pop$ }\n{ * two { } 'skip$ #1 }"),
            [
                "takes 1 literal off that was there before, by `pop$` (line 5)",
                "takes 2 literals off that were there before, by `*` (line 6), and leaves the result of `*` (line 6), 2 results of `two` (line 6), a function in braces (line 6) and 2 more"
            ]
        );
        assert_eq!(said("'two\n'skip$"), ["leaves 2 results of `two` (line 5)", as_it_was]);
    }

    #[test]
    fn what_differs_is_said() {
        let (what, advice) = difference([(0, 0), (1, 1)]).unwrap();
        assert_eq!(what, "after the second the stack has 1 literal more than after the first");
        assert!(
            advice.contains("let the second take 1 more off") && advice.contains("or the first push 1 more"),
            "{advice}"
        );
        assert_eq!([difference([(0, 1), (2, 2)]), difference([(1, 1), (1, 1)])], [None, None]);
        assert!(difference([(2, 2), (0, 0)]).unwrap().0.contains("2 literals more than after the second"));
    }
}
