//! The warnings of a style in words for its designer.

use crate::advice;
use crate::branches::{branches_in_words, difference, left_by};
use crate::code_places::{Code, CodePlace};
use crate::lint_entry::Shown;
use crate::lint_ties::{Ties, varies};
use crate::lint_warnings::{Cause, Fault, Growth, Operand, Value, Wanted, Warning, Warnings, text_of_classes};
use crate::literals::shortage;
use crate::notes::Spot;
use crate::operands::{
    MEND_TEST, Said, TEST_LEAVES, asked_instead, assigned, assigned_backwards, assigned_without_entry, compared,
    exchanged, exchanged_in_loop, in_other_order, integer_in_quotes, left_out, let_through, lone_branch, pushed,
    tested, unquoted, without_entry,
};
use crate::shown_line::ShownLine;
use crate::terminal::{Terminal, plain};
use std::io::{self, Write};

/// How many types, and how many fields, are named at most.
const MOST_TYPES: usize = 8;
const MOST_FIELDS: usize = 6;

/// Warnings with one cause, by their numbers among those that are shown: the first is the one that was met first.
pub type Group = Vec<usize>;

/// What two warnings of one cause have in common: the function, and the field or what else is wrong.
fn cause_of(warning: &Warning) -> (String, String) {
    let field = warning.missing.as_deref().or_else(|| warning.operand.as_ref().and_then(Operand::field));
    let what = match (field, warning.fault) {
        (Some(field), _) => format!("field {}", plain(field)),
        (None, Some(Fault::EmptyStack | Fault::LeftOver)) => "stack".to_string(),
        (None, fault) => format!("{} {}", fault.map_or("", Fault::word), plain(&warning.next)),
    };
    (warning.spot().map_or_else(String::new, owner), what)
}

/// The warnings that are shown, those of one cause together.
pub fn groups(shown: &[&Warning]) -> Vec<Group> {
    let mut groups: Vec<((String, String), Group)> = Vec::new();
    for (number, warning) in shown.iter().enumerate() {
        let cause = cause_of(warning);
        match groups.iter_mut().find(|(known, _)| *known == cause) {
            Some((_, group)) => group.push(number),
            None => groups.push((cause, vec![number])),
        }
    }
    groups.into_iter().map(|(_, group)| group).collect()
}

/// The named function in which a place stands.
fn owner(spot: &Spot) -> String {
    let shown = plain(&spot.call.function);
    shown.strip_prefix("{..} of ").map_or(shown.clone(), str::to_string)
}

// ---- what is wrong ----

/// A word of what a function takes, with its number where there are several of it: `TEXT`, `first NUMBER`.
fn operand_word(takes: &str, position: usize) -> Option<String> {
    let words: Vec<&str> = takes.split(' ').collect();
    let place = words.len().checked_sub(position + 1)?;
    let word = words[place].trim_matches(['{', '}', '\'']);
    let has_twin = words.iter().enumerate().any(|(other, twin)| other != place && *twin == words[place]);
    let order = if !has_twin {
        ""
    } else if place == 0 {
        "first "
    } else {
        "second "
    };
    Some(format!("{order}{word}"))
}

/// Whose value an operand is: `the field title`.
fn owner_of_value(operand: &Operand) -> Option<String> {
    let (is_field, name) = operand.owner.as_ref()?;
    Some(format!("the {} `{}`", if *is_field { "field" } else { "variable" }, plain(name)))
}

/// What a value is, in words.
fn value_text(value: &Value) -> String {
    match value {
        Value::Integer(Some(low), Some(high)) if low == high => format!("the integer {low}"),
        Value::Integer(..) => "an integer".to_string(),
        Value::Function(name) if name.is_empty() || name.starts_with(b"{") => "a function in braces".to_string(),
        Value::Function(name) => format!("the function `{}`", plain(name)),
        Value::Text(classes) => text_of_classes(classes).to_string(),
        Value::Any => "of a kind that isn't known".to_string(),
    }
}

/// Whether it may be missing, though a string or something to compare is wanted.
fn may_be_missing(operand: &Operand) -> bool {
    let is_wanted = matches!(operand.wanted, None | Some(Wanted::Text));
    is_wanted && matches!(&operand.value, Value::Text(classes) if classes.contains(&b'm'))
}

/// What is said of an operand of a function that takes `takes`.
fn operand_text(operand: &Operand, takes: &str) -> String {
    let owner = owner_of_value(operand);
    if may_be_missing(operand) {
        let may = if operand.value == Value::Text(b"m".to_vec()) { "is" } else { "may be" };
        return format!("{} {may} missing here", owner.unwrap_or_else(|| "what it gets".to_string()));
    }
    let word = operand_word(takes, operand.position).unwrap_or_else(|| "operand".to_string());
    let of = owner.map_or_else(String::new, |owner| format!(", the value of {owner}"));
    format!("its {word} is {} here{of}", value_text(&operand.value))
}

/// A number of literals, in words.
fn literals(count: usize) -> String {
    match count {
        0 => "no literal".to_string(),
        1 => "1 literal".to_string(),
        more => format!("{more} literals"),
    }
}

/// What is said of a `:=` that finds no variable though a name is quoted before it. That follows from a mistake in the style's text.
fn left_out_of(warning: &Warning, code: &Code<'_>) -> Option<Said> {
    let place = code.place(warning.places.first().filter(|_| warning.next == b":=")?, &warning.next)?;
    let is_left_out = match (&warning.operand, warning.fault) {
        (Some(operand), _) => operand.position == 0 && operand.wanted == Some(Wanted::Function),
        (None, fault) => fault == Some(Fault::EmptyStack) && place.variable().is_none(),
    };
    left_out(place).filter(|_| is_left_out)
}

/// What to do where a field may be missing that a caller pushes directly before its call.
fn pushed_of(warning: &Warning, field: &[u8], code: &Code<'_>) -> Option<String> {
    let calls = warning.places.windows(2).filter(|calls| owner(&calls[0]) != owner(&calls[1]));
    let pushing = calls.map(|calls| (owner(&calls[0]), &calls[1]));
    let is_pushed = |(callee, caller): &(String, &Spot)| {
        code.place(caller, callee.as_bytes()).is_some_and(|place| place.is_behind_field(field))
    };
    let lines: Vec<usize> = pushing.filter(is_pushed).map(|(_, caller)| caller.call.line).take(1).collect();
    lines.first().map(|line| pushed(code, field, *line))
}

/// What is said of an operand of another kind, where the text shows what leaves it.
fn operand_of(warning: &Warning, place: CodePlace<'_, '_>) -> Option<Said> {
    let operand = warning.operand.as_ref()?;
    let (what, takes) = (what_of(warning), advice::operands(&warning.next)?);
    if warning.next == b"if$" && operand.wanted == Some(Wanted::Function) {
        if let Some(advice) = lone_branch(place, &warning.next) {
            return Some((what, advice));
        }
        let (left, advice) = unquoted(place, operand.position)?;
        return Some((format!("{what}, {left}"), advice));
    }
    if let Some(advice) = in_other_order(place, &warning.next) {
        return Some((what, advice));
    }
    let is_number_wanted = match operand.wanted {
        Some(Wanted::Integer) if integer_in_quotes(place).is_some() => {
            return integer_in_quotes(place).map(|advice| (what, advice));
        }
        Some(Wanted::Integer) => true,
        Some(Wanted::Text) => false,
        _ => return None,
    };
    exchanged(place, is_number_wanted).filter(|_| !takes.contains(' ')).map(|advice| (what, advice))
}

/// What is said of a `while$` whose test may leave no integer. Of its own two functions the notes name the one that is wrong.
fn test_of(warning: &Warning, place: Option<CodePlace<'_, '_>>, code: &Code<'_>) -> Option<Said> {
    if warning.next != b"while$" || warning.operand.is_some() {
        return None;
    }
    let usual = match warning.fault {
        Some(Fault::WrongKind) => "it may leave something else here",
        Some(Fault::EmptyStack) if place?.is_behind_two_functions() => "it may leave nothing here",
        _ => return None,
    };
    let exchanged = place.and_then(|place| exchanged_in_loop(code, place)).map(|advice| (usual.to_string(), advice));
    let said = exchanged.or_else(|| place.and_then(tested));
    let said = said.unwrap_or_else(|| (usual.to_string(), MEND_TEST.to_string()));
    Some((format!("{TEST_LEAVES}: {}", said.0), said.1))
}

/// What is said of what belongs to each entry where there is none, if the text shows its declaration.
fn without_entry_of(warning: &Warning, code: &Code<'_>) -> Option<Said> {
    let (what, advice) = (what_of(warning), advice_of(warning));
    let (spot, item) = (warning.places.first()?, warning.item.as_ref()?);
    if warning.next != b":=" {
        let declared = code.declaration(&warning.next)?;
        return Some((format!("{what}: it is {declared}"), advice));
    }
    let place = code.place(spot, &warning.next)?;
    let (declared, advice) = assigned_without_entry(code, place, &spot.call, &owner(item), item.call.line)?;
    Some((format!("{what}: {declared}"), advice))
}

/// What may go wrong and what to do, in words. The style's text says of some operands more than the notes do.
pub fn said_of(warning: &Warning, code: &Code<'_>) -> (String, String) {
    let usual = || (what_of(warning), advice_of(warning));
    let place = warning.places.first().and_then(|spot| code.place(spot, &warning.next));
    if let Some(said) = test_of(warning, place, code) {
        return said;
    }
    let Some(place) = place else { return usual() };
    let next = plain(&warning.next);
    if let Some((what, advice)) = left_out_of(warning, code) {
        return (format!("`{next}` takes VALUE 'VARIABLE: {what}"), advice);
    }
    match (warning.fault, &warning.missing) {
        (Some(Fault::EmptyStack), None) if lone_branch(place, &warning.next).is_some() => {
            (what_of(warning), lone_branch(place, &warning.next).unwrap_or_default())
        }
        (Some(Fault::EmptyStack), None) => {
            let shortage = shortage(code, &warning.places, &warning.next);
            (what_of(warning), shortage.map_or_else(|| advice_of(warning), |shortage| shortage.advice()))
        }
        (Some(Fault::NotAssignable | Fault::WrongKind), None) if next == ":=" => {
            assigned(code, place, warning.operand.as_ref().map(|operand| &operand.value))
                .map(|(what, advice)| (format!("`{next}` takes VALUE 'VARIABLE: {what}"), advice))
                .or_else(|| assigned_backwards(place).map(|advice| (what_of(warning), advice)))
                .unwrap_or_else(usual)
        }
        (Some(Fault::Incomparable), None) => compared(place).map_or_else(usual, |(what, advice)| {
            (format!("`{next}` compares two strings or two numbers: {what}"), advice)
        }),
        (Some(Fault::WrongKind), None) => operand_of(warning, place).unwrap_or_else(usual),
        (Some(Fault::NoEntry), _) => without_entry_of(warning, code).unwrap_or_else(usual),
        (_, Some(field)) => {
            let advice = let_through(place, Some(field)).or_else(|| pushed_of(warning, field, code));
            let asked = warning.places.first().and_then(|spot| asked_instead(code, spot.owner(), field));
            let advice = advice.unwrap_or_else(|| advice_of(warning));
            (what_of(warning), asked.map_or(advice.clone(), |asked| format!("{asked}; else {advice}")))
        }
        _ => usual(),
    }
}

/// What may go wrong, in words.
fn what_of(warning: &Warning) -> String {
    let next = plain(&warning.next);
    let takes = advice::operands(&warning.next);
    let operand = warning.operand.as_ref().map(|operand| operand_text(operand, takes.unwrap_or("")));
    match (warning.fault, takes, operand) {
        (Some(Fault::LeftOver), _, _) => {
            let command = warning.item.as_ref().map_or(format!("a command with `{next}`"), owner);
            let first = warning.depth.map_or(String::new(), |depth| format!(": {depth} where it was met first"));
            format!("{command} may leave literals on the stack{first}")
        }
        (Some(Fault::NoEntry), _, _) => {
            let command = warning.item.as_ref().map_or("EXECUTE".to_string(), owner);
            format!("`{next}` needs a current entry, and {command} has none")
        }
        (Some(Fault::EmptyStack), Some(takes), _) => {
            let depth = warning.depth.map_or("too few literals".to_string(), literals);
            format!("`{next}` takes {takes}, and there may be {depth} on the stack here")
        }
        (Some(Fault::Incomparable), _, Some(operand)) => {
            format!("`{next}` compares two strings or two numbers, and {operand}")
        }
        (Some(Fault::NotAssignable), _, _) => {
            let what = warning.operand.as_ref().map_or("this".to_string(), |operand| value_text(&operand.value));
            format!("`{next}` assigns to a variable, and {what} is none")
        }
        (_, Some(takes), Some(operand)) => format!("`{next}` takes {takes}, and {operand}"),
        _ => what_of_place(warning, &next, takes),
    }
}

/// What may go wrong where a place alone is known.
fn what_of_place(warning: &Warning, next: &str, takes: Option<&str>) -> String {
    if warning.places.is_empty() {
        return format!("literals may be left on the stack where `{next}` is run by a command");
    }
    match (&warning.missing, takes) {
        (Some(field), Some(takes)) => {
            format!("`{next}` takes {takes}, and the field `{}` may be missing here", plain(field))
        }
        (Some(field), None) => format!("the field `{}` may be missing for `{next}`", plain(field)),
        (None, Some(takes)) if takes.split(' ').all(|operand| operand == "VALUE") => {
            format!(
                "`{next}` takes {takes}, of any kind: there may be too few literals on the stack, or more than a run may have"
            )
        }
        (None, Some(takes)) => {
            format!("`{next}` takes {takes}: one of these may be missing on the stack, or be of another kind")
        }
        (None, None) => format!("`{next}` needs a current entry, and there may be none here"),
    }
}

// ---- what to do ----

const LEAVE_THE_SAME: &str =
    "push what it takes, in this order; let both branches of each `if$` on the way leave the same number of literals";

const TAKE_OFF: &str =
    "take off what is pushed, by `write$` or `pop$`, in each function on the way and in both branches of each `if$`";

/// What to do about it.
fn advice_of(warning: &Warning) -> String {
    let takes = advice::operands(&warning.next);
    if let Some(field) = &warning.missing {
        let field = plain(field);
        return match (warning.fault, takes) {
            (Some(Fault::Incomparable), _) => {
                format!("compare only where `{field} empty$` leaves 0: a missing field can't be compared")
            }
            (_, Some(takes)) if takes.split(' ').all(|word| matches!(word, "NUMBER" | "VALUE")) => {
                LEAVE_THE_SAME.to_string()
            }
            _ => format!("choose by `{field} empty$` before it, or `{field} missing$`"),
        };
    }
    match warning.fault {
        Some(Fault::NoEntry) => match &warning.item {
            Some(item) => without_entry(&owner(item), item.call.line),
            None => "run the function by ITERATE or REVERSE, not by EXECUTE".to_string(),
        },
        Some(Fault::NotAssignable) => "assign to a name that INTEGERS, STRINGS or ENTRY declares".to_string(),
        Some(Fault::LeftOver) => TAKE_OFF.to_string(),
        None if warning.places.is_empty() => TAKE_OFF.to_string(),
        None if warning.next == b":=" => format!("{LEAVE_THE_SAME}; is there a ' before the variable?"),
        Some(Fault::WrongKind) => advice_on_kind(warning, takes.unwrap_or("")),
        None if takes.is_none() => "run the function by ITERATE or REVERSE, not by EXECUTE".to_string(),
        _ => LEAVE_THE_SAME.to_string(),
    }
}

/// What to do where a field stands for a number.
fn advice_on_field(warning: &Warning, takes: &str, field: &[u8]) -> String {
    const NEVER: &str = "a field is never a number";
    match &warning.next[..] {
        b"if$" => {
            let field = plain(field);
            format!("{NEVER}: ask by `{field} empty$`, which leaves 1 where it is missing or blank, and else 0")
        }
        _ if takes.contains(' ') => format!("{NEVER}: push {takes} in this order"),
        _ => format!("{NEVER}: push a number there"),
    }
}

/// What to do about an operand of another kind.
fn advice_on_kind(warning: &Warning, takes: &str) -> String {
    let Some(operand) = &warning.operand else { return LEAVE_THE_SAME.to_string() };
    let is_function = matches!(operand.value, Value::Function(_));
    if let (Some(field), Some(Wanted::Integer)) = (operand.field(), operand.wanted) {
        return advice_on_field(warning, takes, field);
    }
    match operand.wanted {
        Some(Wanted::Function) if warning.next == b":=" => {
            let name = operand.owner.as_ref().map_or(String::new(), |(_, name)| format!(": `'{}`", plain(name)));
            format!("write a ' before the variable{name}")
        }
        Some(Wanted::Function) => {
            "write the test and then both functions before it, each in braces or with a ' before its name; `'skip$` is one that does nothing"
                .to_string()
        }
        Some(Wanted::Integer | Wanted::Text) if is_function => {
            format!("is a ' too many, or a function not run? push {takes} in this order")
        }
        Some(Wanted::Text) if matches!(operand.value, Value::Integer(..)) => {
            format!("push {takes} in this order; `int.to.str$` makes a string of a number")
        }
        Some(Wanted::Integer) if matches!(warning.next[..], [b'<' | b'>']) => {
            "compare two integers: `chr.to.int$` makes one of a letter".to_string()
        }
        Some(Wanted::Text) if may_be_missing(operand) => "choose by `empty$` before it, or by `missing$`".to_string(),
        _ => format!("push {takes} in this order"),
    }
}

// ---- for whom, and how ----

/// For entries of which types. Literals that are left over are noted when the command ends, where the type isn't known any more.
fn types_of(group: &[&Warning]) -> Option<String> {
    let by_type = |warning: &Warning| {
        let command = warning.item.as_ref().filter(|_| warning.fault != Some(Fault::LeftOver));
        command.is_some_and(|item| owner(item).ends_with("{call.type$}"))
    };
    let mut names: Vec<String> = Vec::new();
    let mut has_unknown = false;
    for warning in group.iter().filter(|warning| by_type(warning)) {
        for name in &warning.types {
            let shown = plain(name);
            has_unknown |= name.is_empty();
            if !name.is_empty() && !names.contains(&shown) {
                names.push(shown);
            }
        }
    }
    let more = names.len().saturating_sub(MOST_TYPES);
    names.truncate(MOST_TYPES);
    names.extend(if more > 0 { Some(format!("{more} more")) } else { None });
    names.extend(if has_unknown { Some("types that the style doesn't know".to_string()) } else { None });
    (!names.is_empty()).then(|| names.join(", "))
}

/// What is known of fields there.
fn conditions_of(warning: &Warning) -> Option<String> {
    let said = |fields: &[Vec<u8>], what: &str| -> Vec<String> {
        fields.iter().take(MOST_FIELDS).map(|field| format!("{} {what}", plain(field))).collect()
    };
    let missing = warning.missing.as_ref().filter(|field| !warning.blank.contains(*field));
    let mut all: Vec<String> = missing.map(|field| format!("{} is missing", plain(field))).into_iter().collect();
    all.extend(said(&warning.given, "is given"));
    all.extend(said(&warning.blank, "is missing or blank"));
    let is_cut = warning.given.len() > MOST_FIELDS || warning.blank.len() > MOST_FIELDS;
    all.extend(if is_cut { Some("..".to_string()) } else { None });
    (!all.is_empty()).then(|| all.join(", "))
}

/// The way by which it is run: the functions, with the line in each.
fn way_of(warning: &Warning) -> Option<String> {
    let mut way: Vec<(String, usize)> = Vec::new();
    for spot in warning.item.iter().chain(warning.places.iter().rev()) {
        let (owner, line) = (owner(spot), spot.call.line);
        match way.last_mut() {
            Some(last) if last.0 == owner => last.1 = line,
            _ => way.push((owner, line)),
        }
    }
    let shown: Vec<String> = way.iter().map(|(name, line)| format!("{name} (line {line})")).collect();
    (!warning.places.is_empty()).then(|| shown.join(" > "))
}

/// By how many literals the stack grows after a function, in words.
fn growth_text((least, most): Growth) -> String {
    match (least, most) {
        _ if least != most => format!("leaves {least} to {most}"),
        (..0, _) => format!("takes {} off", least.unsigned_abs()),
        _ => format!("leaves {least}"),
    }
}

/// The lines of each function before an `if$`, in brackets; nothing where all stands in its line.
fn branch_lines(code: &Code<'_>, spot: &Spot) -> [String; 2] {
    let place = code.place(spot, b"if$");
    let Some((place, branches)) = place.and_then(|place| Some((place, place.branches()?))) else {
        return Default::default();
    };
    if branches.iter().all(|(first, _)| *first == place.line()) {
        return Default::default();
    }
    branches.map(
        |(first, last)| {
            if first == last { format!(" (line {first})") } else { format!(" (lines {first}-{last})") }
        },
    )
}

/// A style as its warnings are shown: its path, its code, and where they are printed.
pub struct Style<'s, 'a> {
    pub path: &'s str,
    pub code: &'s Code<'a>,
    pub terminal: &'s Terminal,
    /// Whether its text has mistakes, from which warnings may follow.
    pub has_mistakes: bool,
}

impl Style<'_, '_> {
    /// Writes the line of a place, with a mark below its token.
    fn write_line(&self, spot: &Spot, token: &[u8], out: &mut impl Write) -> io::Result<()> {
        let number = spot.call.line;
        let line = self.code.text.line(number);
        if line.is_empty() {
            return Ok(());
        }
        let mark = self.code.place(spot, token).map(|place| place.mark());
        let lines = ShownLine { name: self.path, number, line, mark }.lines(self.terminal);
        lines.iter().try_for_each(|line| writeln!(out, "    {line}"))
    }
}

/// What is said of an `if$` whose branches leave different numbers of literals.
pub fn cause_text(code: &Code<'_>, cause: &Cause) -> String {
    let ([yes, no], [of_yes, of_no]) = (cause.grows.map(growth_text), branch_lines(code, &cause.spot));
    format!(
        "in {}: the branches of this `if$` leave different numbers of literals: the first{of_yes} {yes}, the second{of_no} {no}",
        owner(&cause.spot)
    )
}

/// Writes where the numbers of literals differ, and in which lines of the same function they do so, too.
fn write_cause(style: &Style<'_, '_>, cause: &Cause, others: &[usize], out: &mut impl Write) -> io::Result<()> {
    writeln!(out, "{}:{}: {}", style.path, cause.spot.call.line, cause_text(style.code, cause))?;
    style.write_line(&cause.spot, b"if$", out)?;
    write_lines("and, which may follow from it,", others, out)?;
    let difference = difference(cause.grows);
    if let (Some([first, second]), Some((more, _))) = (branches_in_words(style.code, cause), &difference) {
        writeln!(out, "    the first: {first}")?;
        writeln!(out, "    the second: {second}")?;
        writeln!(out, "    so: {more}")?;
    }
    let advice = difference.map_or("let both leave the same number".to_string(), |(_, advice)| advice);
    writeln!(out, "    what to do: {advice}; warnings below may follow from this")
}

/// Writes the causes that are shown. Those that may follow from another one of the same function are named with it.
fn write_causes(style: &Style<'_, '_>, causes: &[Cause], shown: &[&Cause], out: &mut impl Write) -> io::Result<()> {
    let mut named: Vec<String> = Vec::new();
    for cause in shown {
        let function = owner(&cause.spot);
        let is_other = |other: &&Cause| varies(other) && !varies(cause) && owner(&other.spot) == function;
        let is_new = !named.contains(&function);
        let others = causes.iter().filter(is_other).filter(|_| is_new).map(|other| other.spot.call.line);
        write_cause(style, cause, &others.collect::<Vec<_>>(), out)?;
        named.push(function);
    }
    Ok(())
}

/// Writes further lines, if there are any.
fn write_lines(word: &str, lines: &[usize], out: &mut impl Write) -> io::Result<()> {
    if lines.is_empty() {
        return Ok(());
    }
    writeln!(out, "    {word} in {}", numbers_of(lines.to_vec()))
}

/// The numbers of lines, each once: `lines 3, 7`.
fn numbers_of(mut lines: Vec<usize>) -> String {
    lines.sort_unstable();
    lines.dedup();
    let plural = if lines.len() > 1 { "s" } else { "" };
    let lines: Vec<String> = lines.iter().map(usize::to_string).collect();
    format!("line{plural} {}", lines.join(", "))
}

/// The unequal `if$` from which a warning may follow, in words.
fn ties_of(causes: &[&Cause]) -> Option<String> {
    let lines: Vec<usize> = causes.iter().map(|cause| cause.spot.call.line).collect();
    (!lines.is_empty()).then(|| format!("the unequal `if$` in {}", numbers_of(lines)))
}

/// What to do about a warning that may follow from these `if$`: to mend them comes first where else each function on the way is to be looked at.
fn advice_behind(causes: &[&Cause], advice: String) -> String {
    if causes.is_empty() || advice != TAKE_OFF && advice != LEAVE_THE_SAME {
        return advice;
    }
    let first = if causes.len() == 1 { "that `if$`" } else { "these `if$`" };
    format!("mend {first} first; if the warning stays, {advice}")
}

/// What was written of a cause, for the one that comes after it.
#[derive(Default)]
struct Above {
    advice: String,
    /// The line of the command that runs it, where it is about the number of literals.
    command: Option<usize>,
}

impl Above {
    fn of(warning: &Warning, advice: &str) -> Above {
        let is_of_stack = matches!(warning.fault, Some(Fault::EmptyStack | Fault::LeftOver));
        let command = warning.item.as_ref().filter(|_| is_of_stack).map(|item| item.call.line);
        Above { advice: advice.to_string(), command }
    }

    /// What a warning may follow from that comes after these: what is missing on the stack, or left on it, shows itself once more in the same command.
    fn origin(&self, next: &Above) -> Option<String> {
        self.command
            .filter(|line| next.command == Some(*line))
            .map(|_| "the warning above; mend that first".to_string())
    }
}

/// Writes the warnings of one cause, after those of the cause `above`.
fn write_group(
    style: &Style<'_, '_>,
    group: &[&Warning],
    ties: &Ties<'_, '_, '_>,
    above: &mut Above,
    out: &mut impl Write,
) -> io::Result<()> {
    let (first, path) = (group[0], style.path);
    let (what, advice) = said_of(first, style.code);
    match (first.spot(), first.places.first()) {
        (Some(_), Some(at)) => writeln!(out, "{path}:{}: in {}: {what}", at.call.line, owner(at))?,
        (Some(item), None) => writeln!(out, "{path}:{}: {what}", item.call.line)?,
        (None, _) => writeln!(out, "{path}: {what}")?,
    }
    if let Some(spot) = first.spot() {
        style.write_line(spot, &first.next, out)?;
    }
    let lines = group[1..].iter().map(|warning| warning.line()).filter(|line| *line != first.line());
    write_lines("and", &lines.collect::<Vec<_>>(), out)?;
    let tied = ties.of(first);
    let advice = advice_behind(&tied, advice);
    let left = leaving(style.code, first).filter(|_| tied.is_empty());
    let here = Above::of(first, &advice);
    let origin = ties_of(&tied).or_else(|| above.origin(&here));
    let advice = if above.advice == advice { "as above".to_string() } else { advice };
    *above = here;
    let said = [
        ("for entries of type", types_of(group)),
        ("when", conditions_of(first)),
        ("called from", way_of(first)),
        ("left by", left),
        ("may follow from", origin),
        ("what to do", Some(advice)),
    ];
    let mut said = said.into_iter().filter_map(|(label, text)| Some((label, text?)));
    said.try_for_each(|(label, text)| writeln!(out, "    {label}: {text}"))
}

/// Which functions that a command runs leave literals, of the warning that it may leave some.
fn leaving(code: &Code<'_>, warning: &Warning) -> Option<String> {
    let item = warning.item.as_ref().filter(|_| warning.fault == Some(Fault::LeftOver))?;
    left_by(code, item.argument()?)
}

/// Writes an entry that shows a warning.
fn write_entry(entry: &Shown, out: &mut impl Write) -> io::Result<()> {
    let Shown::By { database, message, since } = entry else {
        return writeln!(out, "    possible only: no entry that was tried shows it");
    };
    let text = plain_lines(database);
    if text.is_empty() {
        writeln!(out, "    shown by any document, which logs:")?;
    } else {
        writeln!(out, "    shown by this database, which was tried:")?;
    }
    for line in text {
        writeln!(out, "        {line}")?;
    }
    writeln!(out, "    logs: {}", plain(message))?;
    for call in since {
        writeln!(out, "    left since: {}, line {}", plain(&call.function), call.line)?;
    }
    Ok(())
}

/// The lines of a text, each safe to print.
pub fn plain_lines(text: &[u8]) -> Vec<String> {
    text.split(|byte| *byte == b'\n').filter(|line| !line.is_empty()).map(plain).collect()
}

/// Says which warnings follow from mistakes in the style's text, and that the others may.
fn write_mistaken(
    style: &Style<'_, '_>,
    following: &[&Warning],
    others: usize,
    out: &mut impl Write,
) -> io::Result<()> {
    let path = style.path;
    if !following.is_empty() {
        let (noun, verb) = if following.len() == 1 { ("warning", "follows") } else { ("warnings", "follow") };
        let lines = numbers_of(following.iter().map(|warning| warning.line()).collect());
        writeln!(
            out,
            "{path}: {} {noun} {verb} from the mistakes above: `:=` to a name that isn't known, in {lines}",
            following.len()
        )?;
    }
    if others > 0 {
        writeln!(out, "{path}: these warnings may follow from the mistakes above:")?;
    }
    Ok(())
}

/// Writes all warnings of a style; `entries` says of each that is shown whether an entry shows it, where that was asked. Answers the lines of the unequal `if$` that are shown.
pub fn write(
    style: &Style<'_, '_>,
    found: &Warnings,
    entries: Option<&[Shown]>,
    out: &mut impl Write,
) -> io::Result<Vec<usize>> {
    let shown = found.shown();
    let follows = |warning: &Warning| style.has_mistakes && left_out_of(warning, style.code).is_some();
    let following: Vec<&Warning> = shown.iter().copied().filter(|warning| follows(warning)).collect();
    if style.has_mistakes {
        write_mistaken(style, &following, shown.len() - following.len(), out)?;
    }
    let ties = Ties::new(style.code, &found.causes);
    let mut groups = groups(&shown);
    groups.retain(|group| !group.iter().all(|number| follows(shown[*number])));
    let all = groups.iter().flatten().map(|number| shown[*number]);
    let tied: Vec<&Cause> =
        all.flat_map(|warning| [ties.of(warning), ties.of_further_types(warning)].concat()).collect();
    let causes: Vec<&Cause> = found.causes.iter().filter(|cause| tied.contains(cause)).collect();
    write_causes(style, &found.causes, &causes, out)?;
    let mut above = Above::default();
    let behind = if entries.is_none() { behind_cause(&groups, &shown, &ties) } else { Vec::new() };
    groups.retain(|group| !behind.contains(group));
    for group in groups {
        let warnings: Vec<&Warning> = group.iter().map(|number| shown[*number]).collect();
        let entry = entries.and_then(|entries| {
            let mut of_group = group.iter().filter_map(|number| entries.get(*number));
            of_group.clone().find(|entry| matches!(entry, Shown::By { .. })).or_else(|| of_group.next())
        });
        write_group(style, &warnings, &ties, &mut above, out)?;
        entry.map_or(Ok(()), |entry| write_entry(entry, out))?;
    }
    write_behind(style, &behind, &shown, out)?;
    Ok(causes.iter().map(|cause| cause.spot.call.line).collect())
}

/// How many warnings are shown that may follow from one unequal `if$`, where many do.
const MOST_BEHIND: usize = 2;

/// The groups that needn't be shown: they may follow from the only unequal `if$`, as others that are shown.
fn behind_cause(groups: &[Group], shown: &[&Warning], ties: &Ties<'_, '_, '_>) -> Vec<Group> {
    let is_tied = |group: &&Group| ties.of(shown[group[0]]).len() == 1;
    let tied: Vec<&Group> = groups.iter().filter(is_tied).collect();
    let more = if tied.len() > MOST_BEHIND + 1 { &tied[MOST_BEHIND..] } else { &[] };
    more.iter().map(|group| group.to_vec()).collect()
}

/// Writes in which lines further warnings are that may follow from an unequal `if$`.
fn write_behind(style: &Style<'_, '_>, behind: &[Group], shown: &[&Warning], out: &mut impl Write) -> io::Result<()> {
    if behind.is_empty() {
        return Ok(());
    }
    let lines = numbers_of(behind.iter().flatten().map(|number| shown[*number].line()).collect());
    writeln!(out, "{}: {} more warnings may follow from the `if$` above, in {lines}", style.path, behind.len())
}

/// The verdict on a style with warnings.
pub fn verdict(found: &Warnings) -> String {
    let shown = found.shown();
    let (places, causes) = (shown.len(), groups(&shown).len());
    let plural = |count: usize, word: &str| format!("{count} {word}{}", if count == 1 { "" } else { "s" });
    if places == 0 {
        return "no place of it is known: it may leave more literals than a run may have".to_string();
    }
    let counted = if causes == places {
        plural(places, "place")
    } else {
        format!("{}, {}", plural(places, "place"), plural(causes, "cause"))
    };
    let those = if places == 1 { "it" } else { "these" };
    let more = match (found.hidden(), found.is_partial) {
        (0, false) => String::new(),
        (0, true) => "; there may be more after".to_string(),
        (hidden, false) => format!("; {hidden} more after {those}"),
        (hidden, true) => format!("; {hidden} more after {those}, and there may be others"),
    };
    format!("{counted}{more}")
}

#[cfg(test)]
mod tests;
