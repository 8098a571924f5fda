//! What a style's text says of a wrong operand: what a variable is declared as, what is compared, and through which function a missing field came.

use crate::advice::{self, Seen};
use crate::code_places::{Code, CodePlace, Declared, Left};
use crate::database::Folded;
use crate::lint_warnings::{Value, text_of_classes};
use crate::literals::{Literals, Traced};
use crate::scene::{Call, Scene};
use crate::terminal::plain;

/// What is wrong, and what to do about it.
pub type Said = (String, String);

/// What is said of an `if$` before which a function of the style stands unquoted: it was run, and what it left stands there.
pub fn unquoted(place: CodePlace<'_, '_>, position: usize) -> Option<Said> {
    let (name, line) = place.unquoted_branch(position == 1)?;
    let name = plain(name);
    Some((format!("what `{name}` in line {line} leaves"), format!("write a ' before it in line {line}: `'{name}`")))
}

/// What the test of a `while$` has to do.
pub const TEST_LEAVES: &str = "the test of this `while$` has to leave one integer, and nothing else";

/// What to do where the test of a `while$` doesn't leave an integer.
pub const MEND_TEST: &str = "let the test leave an integer, as `>`, `<`, `=`, `empty$` and an integer variable do";

/// What is said of a `while$` whose test leaves no integer, if the text shows what it leaves instead.
pub fn tested(place: CodePlace<'_, '_>) -> Option<Said> {
    let end = place.end_of_test()?;
    if let Some(name) = end.quoted() {
        let name = plain(name);
        return Some((format!("it leaves the name `'{name}`"), format!("take the ' before `{name}` out of the test")));
    }
    let what = match end.left_by(1)? {
        Left::Number(_) => return None,
        Left::Text(name) => format!("it leaves `{}`, a string", plain(name)),
        Left::Field(name) => format!("it leaves `{}`, a field", plain(name)),
    };
    Some((what, MEND_TEST.to_string()))
}

/// What to do about a `while$` before which the body stands first: the other function leaves the number that a test leaves.
pub fn exchanged_in_loop(code: &Code<'_>, place: CodePlace<'_, '_>) -> Option<String> {
    let index = code.token_at(place.start())?;
    let [first, second] = Literals::new(code).of_branches(index)?;
    let ends_by_number = place.ends_by_number();
    let are_exchanged = first == Traced::default() && second.takers.is_empty() && second.left.len() == 1;
    (are_exchanged && ends_by_number)
        .then(|| "these two are exchanged: write the test first, and then the body, `{TEST} {BODY} while$`".to_string())
}

/// What to do where a function that takes one operand finds one of another kind: whether the one that it wants stands below that.
pub fn exchanged(place: CodePlace<'_, '_>, is_number_wanted: bool) -> Option<String> {
    let (above, below) = (place.left_by(1)?, place.left_by(2)?);
    let (above, below) = match (above, below) {
        (Left::Text(above), Left::Number(below)) if is_number_wanted => (above, below),
        (Left::Number(above), Left::Text(below)) if !is_number_wanted => (above, below),
        _ => return None,
    };
    let (above, below) = (plain(above), plain(below));
    Some(format!("it takes what is pushed last, `{above}`, and `{below}` stands before that: are these two exchanged?"))
}

/// What to do where two operands of a built-in function are pushed the other way round: then all are of the kinds that it takes.
pub fn in_other_order(place: CodePlace<'_, '_>, function: &[u8]) -> Option<String> {
    let takes: Vec<&str> = advice::operands(function)?.split(' ').collect();
    let pushed: Vec<Left<'_>> = (1..=takes.len()).rev().map(|back| place.value(back)).collect::<Option<_>>()?;
    let fit = |pushed: &[Left<'_>]| takes.iter().zip(pushed).all(|(word, left)| fits(word, *left));
    if fit(&pushed) {
        return None;
    }
    let exchanged = (1..pushed.len()).map(|at| {
        let mut other = pushed.clone();
        other.swap(at - 1, at);
        (at, other)
    });
    let (at, other) = exchanged.into_iter().find(|(_, other)| fit(other))?;
    let text = |left: &Left<'_>| plain(left.text());
    let all: Vec<String> = other.iter().map(text).collect();
    let (first, second, function) = (text(&pushed[at - 1]), text(&pushed[at]), plain(function));
    Some(format!("`{first}` and `{second}` are exchanged: write `{} {function}`", all.join(" ")))
}

/// Whether something that stands in the code may be an operand that is called by this word.
fn fits(word: &str, left: Left<'_>) -> bool {
    match (word, left) {
        ("NUMBER" | "START" | "LENGTH", _) => matches!(left, Left::Number(_)),
        ("CASE", Left::Text(text)) => {
            ["\"t\"", "\"l\"", "\"u\""].iter().any(|case| text.eq_ignore_ascii_case(case.as_bytes()))
        }
        ("FORMAT", Left::Text(text)) => !text.starts_with(b"\"") || text.contains(&b'{'),
        ("CASE" | "FORMAT", _) => false,
        ("TEXT" | "NAMES" | "FIELD", _) => matches!(left, Left::Text(_) | Left::Field(_)),
        _ => true,
    }
}

/// What to do about an `if$` before which one function stands alone.
pub fn lone_branch(place: CodePlace<'_, '_>, function: &[u8]) -> Option<String> {
    let (first, last) = place.lone_branch().filter(|_| function == b"if$")?;
    let lines = if first == last { format!("line {first}") } else { format!("lines {first}-{last}") };
    Some(format!(
        "only one function stands before this `if$` ({lines}): write both, `'skip$` for one that does nothing"
    ))
}

/// What to do about a `:=` before which the variable and its value are exchanged, as in `'t title :=`.
pub fn assigned_backwards(place: CodePlace<'_, '_>) -> Option<String> {
    let (variable, value) = (plain(place.quoted_by(2)?), place.value(1)?);
    let (Left::Number(value) | Left::Text(value) | Left::Field(value)) = value;
    let value = plain(value);
    Some(format!("these two are exchanged: write `{value} '{variable} :=`"))
}

/// What is said of a `:=` that gets a value of another kind than its variable's; `value` is what the check knows of it.
pub fn assigned(code: &Code<'_>, place: CodePlace<'_, '_>, value: Option<&Value>) -> Option<Said> {
    let (variable, declared) = place.variable()?;
    let (name, sort) = (plain(variable), code.declaration(variable)?);
    let other = match declared {
        Declared::Text { .. } => "an integer",
        Declared::Integer { .. } => "a string",
        Declared::Field | Declared::Function { .. } => {
            let advice = "assign to a name that INTEGERS, STRINGS or ENTRY declares as a variable";
            return Some((format!("`{name}` is {sort}, and no variable"), advice.to_string()));
        }
    };
    let digits = match place.left_by(2) {
        Some(Left::Text(text)) if other == "a string" => as_integer(text),
        _ => None,
    };
    let what = match (place.left_by(2), value) {
        (Some(Left::Number(given)), _) if other == "an integer" => format!("`{}` is an integer", plain(given)),
        (Some(Left::Text(given)), _) if other == "a string" => format!("`{}` is a string", plain(given)),
        (Some(Left::Field(given)), _) if other == "a string" => format!("`{}` is a field", plain(given)),
        (_, Some(Value::Integer(..))) if other == "an integer" => "it gets an integer here".to_string(),
        (_, Some(Value::Text(classes))) if other == "a string" => format!("it gets {} here", text_of_classes(classes)),
        _ => "what it gets may be none".to_string(),
    };
    let declare = (what != "what it gets may be none" && code.gets_only(variable, place, other))
        .then(|| declare_otherwise(code, variable, declared))
        .flatten();
    let convert = match declared {
        Declared::Text { .. } => format!("write `int.to.str$` before `'{name}`: it makes a string of a number"),
        _ => "assign it to a variable that is declared as a string: no function makes a number of digits".to_string(),
    };
    let advice =
        digits.unwrap_or_else(|| declare.map_or(convert.clone(), |declare| format!("{declare}; else {convert}")));
    Some((format!("`{name}` is {sort}, and {what}"), advice))
}

/// How a variable is declared that is to be of the other kind.
fn declare_otherwise(code: &Code<'_>, variable: &[u8], declared: Declared) -> Option<String> {
    let (kind, word) = match declared {
        Declared::Text { is_of_entry: false } => ("a number", "INTEGERS"),
        Declared::Text { is_of_entry: true } => ("a number", "the second list of ENTRY"),
        Declared::Integer { is_of_entry: false } => ("a string", "STRINGS"),
        _ => ("a string", "the third list of ENTRY"),
    };
    let line = code.line_of(variable)?;
    Some(format!("if `{}` is to be {kind}, declare it in {word}, and not in line {line}", plain(variable)))
}

/// What is said of a `:=` whose variable is quoted and yet isn't there: the name wasn't known where the style was read, so it was left out.
pub fn left_out(place: CodePlace<'_, '_>) -> Option<Said> {
    let name = plain(place.quoted()?);
    Some((
        format!("`{name}` isn't known here"),
        format!("declare `{name}` above this function, in a command that is read"),
    ))
}

/// What is said of a `:=` that finds fewer than two literals: its name was left out, or no value stands below that.
fn assigned_nothing(place: CodePlace<'_, '_>, scene: &Scene) -> Option<Said> {
    let name = place.quoted()?;
    let top = scene.stack.first().and_then(|held| held.literal.strip_prefix(b"'"));
    if top.map(Folded) != Some(Folded(name)) {
        return left_out(place);
    }
    let name = plain(name);
    Some((
        format!("no value stands below `'{name}` on the stack"),
        format!("push one before `'{name}`, or before the function is run"),
    ))
}

/// What is said of a `=` that gets a string and an integer.
pub fn compared(place: CodePlace<'_, '_>) -> Option<Said> {
    const NEVER: &str = "a string and an integer are never equal";
    let (left, right) = (place.value(2)?, place.value(1)?);
    match (left, right) {
        (Left::Field(field), Left::Number(number)) | (Left::Number(number), Left::Field(field)) => {
            let (field, number) = (plain(field), plain(number));
            let what = format!("{NEVER}: `{field}` is a field, and `{number}` is a number");
            Some((what, format!("ask by `{field} empty$` whether the entry has it, or compare it with a string")))
        }
        (Left::Text(text), Left::Number(number)) | (Left::Number(number), Left::Text(text)) => {
            if let Some(advice) = as_integer(text) {
                return Some((NEVER.to_string(), advice));
            }
            let what = format!("{NEVER}: `{}` is a string, and `{}` is a number", plain(text), plain(number));
            Some((what, "compare two numbers or two strings; `int.to.str$` makes a string of a number".to_string()))
        }
        _ => None,
    }
}

/// What to do about a string of digits where an integer is taken.
fn as_integer(text: &[u8]) -> Option<String> {
    let digits = text.strip_prefix(b"\"")?.strip_suffix(b"\"")?;
    let is_number = digits.len() < 10 && !digits.is_empty() && digits.iter().all(u8::is_ascii_digit);
    let (number, text) = (format!("#{}", plain(digits)), plain(text));
    is_number.then(|| Seen::IntegerInQuotes.with(&[&number, &text]))
}

/// What to do about a function that takes an integer and gets a string of digits, which stands just before it.
pub fn integer_in_quotes(place: CodePlace<'_, '_>) -> Option<String> {
    let text = |back: usize| match place.value(back)? {
        Left::Text(text) => as_integer(text),
        _ => None,
    };
    text(1).or_else(|| text(2))
}

/// What to do where a field may be missing that a function of the style was run on just before.
pub fn let_through(place: CodePlace<'_, '_>, field: Option<&[u8]>) -> Option<String> {
    let (function, line, of) = place.function_before()?;
    let is_it = field.is_none_or(|field| Folded(field) == Folded(of));
    let (function, of) = (plain(function), plain(of));
    let leaves = format!("`{function}` (line {line}) is run on `{of}` just before: let it leave one string");
    is_it.then(|| format!("{leaves}, and nothing else, where the field is missing"))
}

/// What to do where a function takes a field that may be missing, and asks whether another one is there, by which it is named, such as `format.editors`: that one may be meant.
pub fn asked_instead(code: &Code<'_>, function: &[u8], field: &[u8]) -> Option<String> {
    let asked = code.fields_asked(function);
    let [only] = asked[..] else { return None };
    let is_named = |part: &[u8]| function.windows(part.len().max(1)).any(|window| window.eq_ignore_ascii_case(part));
    if Folded(only) == Folded(field) || !is_named(only) || is_named(field.get(..LETTERS_OF_NAME).unwrap_or(field)) {
        return None;
    }
    let (function, field, meant) = (plain(function), plain(field), plain(only));
    Some(format!(
        "write `{meant}` for `{field}`, if that is meant: {function} asks whether `{meant}` is there, and not `{field}`"
    ))
}

/// How many letters of a field's name stand for it in the name of a function, as `vol` in `format.vol`.
const LETTERS_OF_NAME: usize = 3;

/// What to do where a field may be missing that is pushed in this line.
pub fn pushed(code: &Code<'_>, field: &[u8], line: usize) -> String {
    let field = plain(field);
    let advice = format!("`{field}` is pushed in line {line}: choose there by `{field} empty$`, or `{field} missing$`");
    let usual = OR_EMPTY.iter().find(|name| matches!(code.declared(name), Some(Declared::Function { .. })));
    usual.map_or(advice.clone(), |name| format!("{advice}; or write `{field} {}`", plain(name)))
}

/// How styles call their function that makes the empty string of a missing field.
const OR_EMPTY: [&[u8]; 2] = [b"field.or.null", b"field.or.empty"];

/// The message of a function that finds too few literals.
const EMPTY_STACK: &[u8] = b"You can't pop an empty literal stack";

/// The message of a function that finds a missing field for a string.
const NO_TEXT: &[u8] = b"missing field is not a string";

/// What a message on an operand of another kind says of that operand, which it begins with.
fn value_of(message: &[u8]) -> Option<Value> {
    match message {
        [b'"', ..] => Some(Value::Text(b"ewf".to_vec())),
        [b'-' | b'0'..=b'9', ..] => Some(Value::Integer(None, None)),
        _ => message.starts_with(b"missing field ").then(|| Value::Text(b"m".to_vec())),
    }
}

/// What to do about an error of an execution, where the text at its place says more than the message.
pub fn advice_at(code: &Code<'_>, scene: &Scene, message: &[u8], function: &[u8]) -> Option<String> {
    let place = place_of(code, scene, function);
    if message == b"You can't mess with entries here" {
        let command = scene.callers.last().filter(|call| call.function.starts_with(b"EXECUTE "))?;
        let command = (&plain(&command.function)[..], command.line);
        let said = place
            .filter(|_| function == b":=")
            .and_then(|place| assigned_without_entry(code, place, &scene.at, command.0, command.1));
        let usual = || without_entry(command.0, command.1);
        return Some(said.map_or_else(usual, |(what, advice)| format!("{what}; {advice}")));
    }
    if is_of_test(place, message, function) {
        let said = place.and_then(tested);
        return Some(said.map_or(MEND_TEST.to_string(), |(what, advice)| format!("{what}; {advice}")));
    }
    let place = place?;
    if let Some(advice) = in_other_order(place, function).or_else(|| lone_branch(place, function)) {
        return Some(advice);
    }
    let said = match function {
        b":=" if message.ends_with(b" is not a function") && assigned_backwards(place).is_some() => {
            return assigned_backwards(place);
        }
        b":=" if message.ends_with(b" is not a function") => {
            let (Left::Number(name) | Left::Text(name)) = place.variable_itself()? else { return None };
            return Some(format!("write a ' before the variable: `'{}`", plain(name)));
        }
        b":=" if message == EMPTY_STACK => assigned_nothing(place, scene),
        b":=" if message == NO_TEXT => return None,
        b":=" => assigned(code, place, value_of(message).as_ref()),
        b"=" => compared(place),
        _ if message.ends_with(b" is not an integer") && integer_in_quotes(place).is_some() => {
            return integer_in_quotes(place);
        }
        _ if message == NO_TEXT => return let_through(place, None),
        _ => None,
    };
    said.map(|(what, advice)| format!("{what}; {advice}"))
}

/// The place in the code at which a function was executed in a scene.
fn place_of<'c, 'a>(code: &'c Code<'a>, scene: &Scene, function: &[u8]) -> Option<CodePlace<'c, 'a>> {
    code.place_in(scene.at.line, function, scene.token.map(|(_, number)| number))
}

/// Whether an error in a scene is about what the test of a `while$` leaves.
pub fn is_of_test_in(code: &Code<'_>, scene: &Scene, message: &[u8], function: &[u8]) -> bool {
    is_of_test(place_of(code, scene, function), message, function)
}

/// Whether an error of a `while$` is about what its test leaves: the `while$` itself takes two functions.
fn is_of_test(place: Option<CodePlace<'_, '_>>, message: &[u8], function: &[u8]) -> bool {
    let has_functions = || place.is_some_and(|place| place.is_behind_two_functions());
    function == b"while$" && (message.ends_with(b" is not an integer") || message == EMPTY_STACK && has_functions())
}

/// What is said of a variable of each entry that is assigned by a command without an entry: where it is declared, and which other one may be meant.
pub fn assigned_without_entry(
    code: &Code<'_>,
    place: CodePlace<'_, '_>,
    at: &Call,
    command: &str,
    line: usize,
) -> Option<Said> {
    let (name, sort) = place.variable().filter(|(_, sort)| sort.is_of_entry())?;
    let shared = shared_instead(code, place, name, at);
    let word = if matches!(sort, Declared::Integer { .. }) { "INTEGERS" } else { "STRINGS" };
    let shared =
        shared.and_then(|shared| Some(format!(": is it `{}`, line {}?", plain(shared), code.line_of(shared)?)));
    let advice = format!(
        "assign to a variable of {word}, which all entries share{} Else run the function by ITERATE or REVERSE, not by {command} in line {line}",
        shared.unwrap_or(".".to_string())
    );
    Some((format!("`{}` is {}", plain(name), code.declaration(name)?), advice))
}

/// The variable that all entries share and that may be meant by one of each entry: it isn't assigned in this function, and one of the names is a part of the
/// other, or it is a part of the function's.
fn shared_instead<'a>(code: &Code<'a>, place: CodePlace<'_, '_>, name: &[u8], at: &Call) -> Option<&'a [u8]> {
    let assigned = place.quoted_around();
    let has = |whole: &[u8], part: &[u8]| {
        whole.len() >= part.len() && whole.windows(part.len().max(1)).any(|window| window.eq_ignore_ascii_case(part))
    };
    let is_like = |shared: &[u8]| has(shared, name) || has(name, shared) || has(&at.function, shared);
    let is_it = |shared: &&[u8]| shared.len() > 2 && is_like(shared) && !assigned.contains(&Folded(shared));
    code.shared_like(name).into_iter().filter(is_it).max_by_key(|shared| shared.len())
}

/// What to do about a use of an entry in a command that has none.
pub fn without_entry(command: &str, line: usize) -> String {
    format!("there is no current entry: take {command} in line {line} out, or run its function by ITERATE or REVERSE")
}

#[cfg(test)]
mod tests {
    use super::*;
    use crate::scene::Held;

    const STYLE: &str = "ENTRY {year}{n}{label}\nSTRINGS {s}\nFUNCTION {f.g} {}\nFUNCTION {h}\n{ n 'label :=\n\"a\" 'n :=\n year #0 =\n s n =\n\
        year f.g \"x\" write$ *\n year f.g *\n 's 'f.g :=\n s label := }\n";

    /// Rows of a line of the style, its function, what is said, and how the advice begins.
    const SAID: &str = "\
5 | := | `label` is a string of each entry (ENTRY, line 1), and `n` is an integer | if `label` is to be a number, declare it in the second list of ENTRY
6 | := | `n` is an integer of each entry (ENTRY, line 1), and `\"a\"` is a string | if `n` is to be a string, declare it in the third list of ENTRY
7 | = | a string and an integer are never equal: `year` is a field, and `#0` is a number | ask by `year empty$`
8 | = | a string and an integer are never equal: `s` is a string, and `n` is a number | compare two
11 | := | `f.g` is a function (line 3), and no variable | assign to a name
";

    #[test]
    fn kinds_are_said() {
        let code = Code::new(STYLE.as_bytes());
        for row in SAID.lines() {
            let [line, function, wanted, begin] = row.splitn(4, " | ").collect::<Vec<_>>()[..] else { panic!("{row}") };
            let place = code.place_in(line.parse().unwrap(), function.as_bytes(), None).unwrap();
            let (what, advice) =
                if function == "=" { compared(place) } else { assigned(&code, place, None) }.unwrap_or_default();
            assert_eq!(what, wanted);
            assert!(advice.starts_with(begin), "{advice}");
        }
    }

    #[test]
    fn a_value_that_is_not_there_is_of_no_kind() {
        let code = Code::new(b"STRINGS {s}\nFUNCTION {f}\n{ 's := }\nFUNCTION {g}\n{ s := }\n");
        let said = |line, stack: &[&str]| {
            let held = |literal: &&str| Held { literal: literal.as_bytes().to_vec(), since: None };
            let at = Call { function: b"f".to_vec(), file: b"s.bst".to_vec(), line };
            let stack = stack.iter().map(held).collect();
            let scene =
                Scene { at, token: None, callers: Vec::new(), caller_tokens: Vec::new(), stack, origins: Vec::new() };
            advice_at(&code, &scene, EMPTY_STACK, b":=")
        };
        let below = "no value stands below `'s` on the stack; push one before `'s`, or before the function is run";
        assert_eq!(said(3, &["'s"]).as_deref(), Some(below));
        let unknown = "`s` isn't known here; declare `s` above this function, in a command that is read";
        assert_eq!(said(3, &["\"A\""]).as_deref(), Some(unknown));
        assert_eq!((said(3, &[]).as_deref(), said(5, &["\"\""])), (Some(unknown), None));
    }

    #[test]
    fn variables_that_all_entries_share_are_offered() {
        let style = "ENTRY {}{}{label}\nSTRINGS {s longest.label label.kept}\nFUNCTION {begin}\n{ \"\" 'label := \"\" 'label.kept := }\n";
        let code = Code::new(style.as_bytes());
        let at = Call { function: b"begin".to_vec(), file: b"s.bst".to_vec(), line: 4 };
        let place = code.place_in(4, b":=", Some(2)).unwrap();
        let (what, advice) = assigned_without_entry(&code, place, &at, "EXECUTE {begin}", 9).unwrap();
        assert_eq!(what, "`label` is a string of each entry (ENTRY, line 1)");
        let wanted =
            "assign to a variable of STRINGS, which all entries share: is it `longest.label`, line 2? Else run";
        assert!(advice.starts_with(wanted), "{advice}");
        let kept = code.place_in(4, b":=", Some(5)).unwrap();
        assert_eq!(assigned_without_entry(&code, kept, &at, "EXECUTE {begin}", 9), None);
    }

    #[test]
    fn operands_that_stand_elsewhere_are_named() {
        let style = "INTEGERS {n}\nFUNCTION {f.g} {}\nFUNCTION {field.or.null} {}\nFUNCTION {h}\n\
            { n #0 =\n f.g\n 'skip$\n if$\n n \"a\" int.to.str$\n f.g f.g if$ }\n";
        let code = Code::new(style.as_bytes());
        let at = |line, token: &str| code.place_in(line, token.as_bytes(), None).unwrap();
        let wanted = ("what `f.g` in line 6 leaves", "write a ' before it in line 6: `'f.g`");
        let said = unquoted(at(8, "if$"), 1).unwrap();
        assert_eq!((&said.0[..], &said.1[..]), wanted);
        assert_eq!((unquoted(at(8, "if$"), 0), unquoted(at(10, "if$"), 1)), (None, None));
        let wanted = "it takes what is pushed last, `\"a\"`, and `n` stands before that: are these two exchanged?";
        assert_eq!(exchanged(at(9, "int.to.str$"), true).as_deref(), Some(wanted));
        assert_eq!(exchanged(at(9, "int.to.str$"), false), None);
        assert!(
            pushed(&code, b"year", 3).ends_with(
                "in line 3: choose there by `year empty$`, or `year missing$`; or write `year field.or.null`"
            )
        );
    }

    #[test]
    fn tests_of_loops_are_said() {
        let style = "ENTRY {title}{}{}\nSTRINGS {s}\nINTEGERS {i}\nFUNCTION {f}\n{ { s } { } while$\n { title } { } while$\n\
            { 'i } { } while$\n { i #0 > } { } while$\n { \"\" if$ } { } while$\n i { } while$ }\n";
        let code = Code::new(style.as_bytes());
        let at = |line| code.place_in(line, b"while$", None);
        let said = [5, 6, 7, 8, 9].map(|line| tested(at(line).unwrap()).map(|(what, _)| what));
        let wanted = ["it leaves `s`, a string", "it leaves `title`, a field"];
        let name = "it leaves the name `'i`";
        assert_eq!(said, [Some(wanted[0].into()), Some(wanted[1].into()), Some(name.into()), None, None]);
        assert!(is_of_test(None, b"\"A\" is not an integer", b"while$"));
        assert!(is_of_test(at(5), EMPTY_STACK, b"while$") && !is_of_test(at(10), EMPTY_STACK, b"while$"));
        assert!(!is_of_test(at(5), b"0 is not a function", b"while$"));
        assert!(!is_of_test(None, b"missing field is not an integer", b"if$"));
    }

    #[test]
    fn functions_before_are_named() {
        let code = Code::new(STYLE.as_bytes());
        let at = |line| let_through(code.place_in(line, b"*", None).unwrap(), Some(b"year"));
        let wanted = "`f.g` (line 3) is run on `year` just before: let it leave one string, and nothing else, where the field is missing";
        assert_eq!((at(9), at(10).as_deref()), (None, Some(wanted)));
    }
    #[test]
    fn the_field_that_is_asked_for_may_be_meant() {
        let style = "ENTRY {author editor}{}{}\nFUNCTION {f.editors} { editor empty$ { \"\" } { author num.names$ } if$ }\nFUNCTION {editors.authors} { editor empty$ }\n";
        let code = Code::new(style.as_bytes());
        let wanted =
            "write `editor` for `author`, if that is meant: f.editors asks whether `editor` is there, and not `author`";
        assert_eq!(asked_instead(&code, b"f.editors", b"author").as_deref(), Some(wanted));
        assert_eq!(
            (asked_instead(&code, b"f.editors", b"EDITOR"), asked_instead(&code, b"editors.authors", b"author")),
            (None, None)
        );
    }

    #[test]
    fn operands_in_another_order_are_seen() {
        let style = "ENTRY {editor edition}{}{}\nFUNCTION {f}\n{ editor \"{ll}\" #1 format.name$\n\"l\" edition change.case$\n\
            edition \"t\" change.case$ \"a\" \"b\" change.case$\n edition #1 #2 substring$\n edition empty$\n { \"x\" }\n if$ }\n";
        let code = Code::new(style.as_bytes());
        let at = |line, name: &str| in_other_order(code.place_in(line, name.as_bytes(), None)?, name.as_bytes());
        let wanted = "`\"{ll}\"` and `#1` are exchanged: write `editor #1 \"{ll}\" format.name$`";
        assert_eq!(at(3, "format.name$").as_deref(), Some(wanted));
        let wanted = "`\"l\"` and `edition` are exchanged: write `edition \"l\" change.case$`";
        assert_eq!((at(4, "change.case$").as_deref(), at(6, "substring$")), (Some(wanted), None));
        let lone = lone_branch(code.place_in(9, b"if$", None).unwrap(), b"if$");
        assert!(lone.is_some_and(|advice| advice.starts_with("only one function stands before this `if$` (line 8)")));
    }
}
