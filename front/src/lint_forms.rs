//! What is printed of a style: for people, and as a line.

use crate::btx::Verdict;
use crate::code_places::Code;
use crate::explain;
use crate::hints::{Hint, Of};
use crate::lint_endless::Endless;
use crate::lint_ends::{Ends, Proved, Reason, grouped};
use crate::lint_text::{Style, groups, plain_lines, verdict, write};
use crate::lint_types::Types;
use crate::lint_warnings::Warning;
use crate::log::Log;
use crate::loops::counts_towards;
use crate::shapes::Part;
use crate::shown_line::ShownLine;
use crate::style_check::StyleCheck;
use crate::terminal::{Terminal, plain};
use std::io::{self, Write};

/// The path of the style, as it is to be shown.
pub fn path_of(check: &StyleCheck) -> String {
    check.files.with_ending(".bst").next().map(|file| plain(explain::shown_path(file))).unwrap_or_default()
}

/// The code of the style.
pub fn code_of(check: &StyleCheck) -> Code<'_> {
    let bytes = check.files.with_ending(".bst").next().and_then(|file| file.bytes.as_deref());
    Code::new(bytes.unwrap_or_default())
}

// ---- for people ----

/// Writes what is found of a style: what is wrong in its text, where a run may go wrong, hints, and the verdict.
pub fn write_for_people(check: &StyleCheck, terminal: &Terminal, out: &mut impl Write) -> io::Result<()> {
    let path = path_of(check);
    if check.messages.count > 0 {
        let log = Log::new(&check.messages.log).with_places(&check.messages.places);
        explain::write(&log, &check.files, Part::Mistakes, terminal, out)?;
    }
    let code = code_of(check);
    let style = Style { path: &path, code: &code, terminal, has_mistakes: check.messages.count > 0 };
    // (warnings of its function may follow from a test that is asked twice)
    for hint in check.hints.iter().filter(|hint| hint.sort == Of::Test) {
        writeln!(out, "{path}:{}: hint: {}", hint.line, hint.text)?;
    }
    let causes = write(&style, &check.found, check.entries.as_deref(), out)?;
    write_constants(&style, check, out)?;
    // (a loop that doesn't end may be why the check doesn't)
    let are_loops_first = matches!(check.verdict, Some(Verdict::Incomplete(_)));
    let (unused, others): (Vec<&Hint>, Vec<&Hint>) = check.hints.iter().partition(|hint| unused_name(hint).is_some());
    write_unused(&path, &unused, out)?;
    for hint in others.iter().filter(|hint| hint.sort != Of::Test && (hint.sort != Of::Loop || are_loops_first)) {
        writeln!(out, "{path}:{}: hint: {}", hint.line, hint.text)?;
    }
    write_verdict(&style, check, out)?;
    if let Some(uncovered) = check.types().and_then(Types::uncovered_text) {
        writeln!(out, "    not covered: {uncovered}")?;
    }
    write_ends(&path, check, out)?;
    let unsaid = if check.is_clean() { "clean says nothing of loops: " } else { "" };
    for hint in check.hints.iter().filter(|hint| hint.sort == Of::Loop && !are_loops_first) {
        writeln!(out, "{path}:{}: hint: {unsaid}{}", hint.line, hint.text)?;
    }
    above(check, causes).map_or(Ok(()), |above| writeln!(out, "{path}: above: {above}"))
}

/// The variable that a hint says to have no use.
fn unused_name(hint: &Hint) -> Option<&str> {
    hint.text.strip_prefix("the variable ")?.strip_suffix(" is never used")
}

/// How many variables without a use are named in one line, from three on.
const MOST_UNUSED: usize = 8;

/// Writes which variables have no use: many in one line, so that they don't hide the other hints.
fn write_unused(path: &str, unused: &[&Hint], out: &mut impl Write) -> io::Result<()> {
    if unused.len() < 3 {
        return unused.iter().try_for_each(|hint| writeln!(out, "{path}:{}: hint: {}", hint.line, hint.text));
    }
    let named = |hint: &&Hint| Some(format!("{} (line {})", unused_name(hint)?, hint.line));
    let mut names: Vec<String> = unused.iter().take(MOST_UNUSED).filter_map(named).collect();
    let more = unused.len().saturating_sub(MOST_UNUSED);
    names.extend(Some(format!("{more} more")).filter(|_| more > 0));
    let line = unused.first().map_or(0, |hint| hint.line);
    writeln!(out, "{path}:{line}: hint: these variables are never used: {}", names.join(", "))
}

/// How many lines are named at most in the last line.
const MOST_LINES: usize = 8;

/// What stands above the verdict that is to be looked at, with its lines; None where there is nothing.
fn above(check: &StyleCheck, causes: Vec<usize>) -> Option<String> {
    let counted = |lines: Vec<usize>, word: &str| {
        let (count, plural) = (lines.len(), if lines.len() == 1 || word.ends_with('`') { "" } else { "s" });
        let mut known: Vec<usize> = lines.into_iter().filter(|line| *line > 0).collect();
        known.sort_unstable();
        known.dedup();
        let dots = if known.len() > MOST_LINES { ", .." } else { "" };
        known.truncate(MOST_LINES);
        let of_lines = if known.len() == 1 { "line" } else { "lines" };
        let known: Vec<String> = known.iter().map(usize::to_string).collect();
        let known = if known.is_empty() { String::new() } else { format!(" ({of_lines} {}{dots})", known.join(", ")) };
        (count > 0).then(|| format!("{count} {word}{plural}{known}"))
    };
    let constants = check.constants.iter().map(|constant| constant.line);
    let warnings = check.found.shown().into_iter().map(Warning::line).chain(constants).collect();
    let hints = check.hints.iter().map(|hint| hint.line).collect();
    let messages = match check.messages.count {
        0 => None,
        1 => Some("1 message".to_string()),
        count => Some(format!("{count} messages")),
    };
    let all = [messages, counted(causes, "unequal `if$`"), counted(warnings, "warning"), counted(hints, "hint")];
    let all: Vec<String> = all.into_iter().flatten().collect();
    (!all.is_empty()).then(|| all.join(", "))
}

/// Writes the constants that functions can't take.
fn write_constants(style: &Style<'_, '_>, check: &StyleCheck, out: &mut impl Write) -> io::Result<()> {
    for constant in &check.constants {
        let (path, number) = (style.path, constant.line);
        writeln!(out, "{path}:{number}: in {}: each run of this logs: {}", constant.owner, constant.text)?;
        let line = style.code.text.line(number);
        let shown = ShownLine { name: path, number, line, mark: Some(constant.mark) }.lines(style.terminal);
        shown.iter().try_for_each(|line| writeln!(out, "    {line}"))?;
        writeln!(out, "    what to do: {}", constant.advice)?;
    }
    Ok(())
}

fn write_verdict(style: &Style<'_, '_>, check: &StyleCheck, out: &mut impl Write) -> io::Result<()> {
    let path = style.path;
    match &check.verdict {
        _ if check.messages.count > 0 => write_mistakes(path, check, out),
        _ if !check.messages.is_whole => writeln!(
            out,
            "{path}: incomplete: its text wasn't read to its end, so mistakes may stand in the rest of it"
        ),
        Some(Verdict::Clean { .. }) if !check.is_clean() => {
            writeln!(out, "{path}: warnings: {}, but no fault of the stack or of kinds", constants_in_words(check))
        }
        Some(Verdict::Clean { literals, bodies, types }) => {
            writeln!(
                out,
                "{path}: clean: no run with a budget of at most 1,500,000,000 steps logs a fault of the stack or of kinds (at most {bodies} bodies are open; {literals} literals were met)"
            )?;
            write_types(types, out)
        }
        Some(Verdict::Warnings(_)) => writeln!(out, "{path}: warnings: {}", warnings_in_words(check)),
        Some(Verdict::Incomplete(_)) => write_unended(style, check.steps, out),
        None => writeln!(out, "{path}: incomplete: the style has more than 2,147,483,647 bytes"),
    }
}

/// How many places there are where a run may go wrong, and constants.
fn warnings_in_words(check: &StyleCheck) -> String {
    match check.constants.is_empty() {
        true => verdict(&check.found),
        false => format!("{}; {}", verdict(&check.found), constants_in_words(check)),
    }
}

/// How many constants there are that functions can't take.
fn constants_in_words(check: &StyleCheck) -> String {
    match check.constants.len() {
        1 => "1 constant that the function after it can't take".to_string(),
        more => format!("{more} constants that the functions after them can't take"),
    }
}

/// How a style can be clean that isn't known to end.
const CLEAN_WITHOUT_END: &str = "it is clean all the same (status 0): a run that doesn't end is stopped at its budget, and logs no such fault before that";

/// Writes whether each run of the style ends. The types of entries are those of the verdict, where it has some.
fn write_ends(path: &str, check: &StyleCheck, out: &mut impl Write) -> io::Result<()> {
    match check.ends() {
        None => Ok(()),
        Some(Ends::Unproved(reason)) => {
            if let Some(said) = counting(check, reason) {
                writeln!(out, "{path}: no bound is known: {said}")?;
                return write_endless(check, out);
            }
            writeln!(out, "{path}: not known to end: {}", reason.in_words())?;
            write_endless(check, out)?;
            if check.is_clean() { writeln!(out, "    {CLEAN_WITHOUT_END}") } else { Ok(()) }
        }
        Some(Ends::Proved(proved)) => {
            writeln!(out, "{path}: ends: {}", proved.in_words())?;
            if !check.is_clean() {
                write_types(&proved.types, out)?;
            }
            match &proved.others {
                Some(reason) => write_others(check, proved, reason, out),
                None => Ok(()),
            }
        }
    }
}

/// Writes for which types of entries no bound is known, and why.
fn write_others(check: &StyleCheck, proved: &Proved, reason: &Reason, out: &mut impl Write) -> io::Result<()> {
    let taken = check.types().map(|types| &types.taken[..]).unwrap_or_default();
    let names: Vec<String> = taken.iter().filter(|name| !proved.types.contains(name)).map(|name| plain(name)).collect();
    let types = match &names[..] {
        [] => "its other types".to_string(),
        [name] => format!("the type {name}"),
        names => format!("the types {}", names.join(", ")),
    };
    match counting(check, reason) {
        Some(said) => writeln!(out, "    no bound is known for entries of {types}: {said}"),
        None => writeln!(out, "    not known to end for entries of {types}: {}", reason.in_words()),
    }?;
    write_endless(check, out)
}

/// Writes an entry with which a run isn't at its end, if one was found.
fn write_endless(check: &StyleCheck, out: &mut impl Write) -> io::Result<()> {
    let Some(Endless { database, steps, inside }) = &check.endless else { return Ok(()) };
    let inside = inside.as_ref().map(|call| format!(", and stays in the loop in line {}", call.line));
    let (steps, inside) = (grouped(*steps), inside.unwrap_or_default());
    writeln!(out, "    with this database, which was tried, a run isn't at its end after {steps} steps{inside}:")?;
    plain_lines(database).iter().try_for_each(|line| writeln!(out, "        {line}"))
}

/// What is said of a loop without a known bound that counts towards its end at each turn, so that nothing suggests that it doesn't come to it.
fn counting(check: &StyleCheck, reason: &Reason) -> Option<String> {
    let Reason::Token { next, spot } = reason else { return None };
    let line = spot.call.line;
    let is_suspect = check.hints.iter().any(|hint| hint.sort == Of::Loop);
    let (counter, bound) =
        counts_towards(code_of(check).text.bytes, line).filter(|_| next == b"while$" && !is_suspect)?;
    Some(format!(
        "`while$` in line {line}, in {}, counts {counter} on to {bound} at each turn; a bound is known of loops that count down, and of some others",
        plain(spot.owner())
    ))
}

/// Writes for which types of entries something is said.
fn write_types(types: &[Vec<u8>], out: &mut impl Write) -> io::Result<()> {
    let types: Vec<String> = types.iter().map(|name| plain(name)).collect();
    match types.is_empty() {
        true => writeln!(out, "    for entries of the types that it doesn't know"),
        false => writeln!(out, "    for entries of the types {}, and of all that it doesn't know", types.join(", ")),
    }
}

/// How many loops are named at most.
const MOST_LOOPS: usize = 5;

/// The verdict on a style whose check took all its steps, or was given up before: the library doesn't say which of them. The loops of the style are named.
fn write_unended(style: &Style<'_, '_>, steps: u64, out: &mut impl Write) -> io::Result<()> {
    let (path, loops) = (style.path, style.code.loops());
    let by_loop = if loops.is_empty() { "" } else { "a loop may leave more literals at each turn, " };
    writeln!(
        out,
        "{path}: incomplete: the check didn't come to its end: {by_loop}the style may go too deep, or the check may need more than {steps} steps (--steps=N)"
    )?;
    if loops.is_empty() {
        return Ok(());
    }
    let named = |(function, line): &(&[u8], usize)| format!("{} (line {line})", plain(function));
    let mut names: Vec<String> = loops.iter().take(MOST_LOOPS).map(named).collect();
    names.extend(loops.len().checked_sub(MOST_LOOPS + 1).map(|more| format!("{} more", more + 1)));
    writeln!(out, "    loops: {}", names.join(", "))?;
    writeln!(
        out,
        "    what to do: let the body of each loop leave as many literals as it finds: a string that `format.name$` leaves has to be joined by `*`, written or assigned at each turn"
    )
}

/// The verdict on a style whose text has mistakes, whatever is found of the rest.
fn write_mistakes(path: &str, check: &StyleCheck, out: &mut impl Write) -> io::Result<()> {
    let rest = match &check.verdict {
        Some(Verdict::Clean { .. }) => "no warning in what could be read of it".to_string(),
        Some(Verdict::Warnings(_)) => format!("warnings: {}, which may follow from them", verdict(&check.found)),
        _ => "the check of the rest didn't come to its end".to_string(),
    };
    let plural = if check.messages.count == 1 { "" } else { "s" };
    writeln!(out, "{path}: mistakes in its text ({} message{plural}): mend these first; {rest}", check.messages.count)
}

// ---- as a line ----

/// The first warning: its line, what is executed, the fault, and the field that may be missing.
fn first_of(warning: &Warning) -> String {
    let fault = warning.fault.map_or(String::new(), |fault| format!(" {}", fault.word()));
    let field = warning.missing.as_ref().map_or(String::new(), |field| format!(" {}", plain(field)));
    format!("first {} {}{fault}{field}", warning.line(), plain(&warning.next))
}

/// What is found of a style, on one line.
pub fn line_of(check: &StyleCheck) -> String {
    let path = path_of(check);
    let shown = check.found.shown();
    let word = check.word();
    let said = match &check.verdict {
        Some(Verdict::Clean { literals, bodies, .. }) if check.is_clean() => {
            format!("{word}, literals {literals}, bodies {bodies}")
        }
        Some(Verdict::Warnings(_)) => {
            let first = shown.first().map_or(String::new(), |first| format!("{}, ", first_of(first)));
            format!("{word}, {first}places {}, causes {}", shown.len(), groups(&shown).len())
        }
        _ => word.to_string(),
    };
    let constants = Some(check.constants.len()).filter(|count| *count > 0);
    let constants = constants.map_or_else(String::new, |count| format!(", constants {count}"));
    format!("{path}: {said}, messages {}{constants}, hints {}", check.messages.count, check.hints.len())
}

#[cfg(test)]
mod tests {
    use super::*;

    #[test]
    fn loops_are_named_where_a_check_does_not_end() {
        let unended = |bytes: &[u8]| {
            let code = Code::new(bytes);
            let style = Style { path: "s.bst", code: &code, terminal: &Terminal::NONE, has_mistakes: false };
            let mut out = Vec::new();
            write_unended(&style, 7, &mut out).unwrap();
            String::from_utf8(out).unwrap()
        };
        let rest = "the style may go too deep, or the check may need more than 7 steps (--steps=N)\n";
        let begin = "s.bst: incomplete: the check didn't come to its end: ";
        assert_eq!(unended(b"FUNCTION {f} { }\n"), [begin, rest].concat());
        let with_loops =
            [begin, "a loop may leave more literals at each turn, ", rest, "    loops: f (line 1)"].concat();
        let found = unended(b"FUNCTION {f} { {} {} while$ }\n");
        assert!(found.starts_with(&(with_loops.clone() + "\n    what to do: let the body of each loop")), "{found}");
        let loops = "{} {} while$ ".repeat(7);
        let found = unended(format!("FUNCTION {{f}} {{ {loops}}}\n").as_bytes());
        assert!(found.starts_with(&(with_loops + &", f (line 1)".repeat(4) + ", 2 more\n")), "{found}");
    }
}
