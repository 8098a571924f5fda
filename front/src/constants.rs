//! Constants of a style that the function after them can't take, such as a format of names that is illegal. The library judges each, in a run of a style that is made of
//! such calls alone.

use crate::advice::{self, Section};
use crate::btx::{self, Answer, MemoryRefused, Options, Rooms};
use crate::job::{File, Files};
use crate::log::{Content, Message, Severity};
use crate::style_read::StyleRead;
use crate::style_text::Kind;
use crate::terminal::plain;
use crate::text::Text;
use std::collections::HashMap;

/// A constant that the function after it can't take.
#[derive(Debug, Clone, PartialEq, Eq)]
pub struct Constant {
    /// The line where it stands, and its place in that line.
    pub line: usize,
    pub mark: usize,
    /// The function of the style in whose body it stands.
    pub owner: String,
    /// The built-in function.
    pub function: &'static str,
    /// What each run of that logs.
    pub text: String,
    /// What to do.
    pub advice: String,
}

/// How a constant before a function is tried: the function, the kind of the constant, and what comes before that, so that nothing but the constant can be wrong.
struct Trial {
    function: &'static str,
    kind: Kind,
    before: &'static str,
}

const TRIALS: [Trial; 4] = [
    Trial { function: "format.name$", kind: Kind::Text, before: "\"A B\" #1" },
    Trial { function: "change.case$", kind: Kind::Text, before: "\"a\"" },
    Trial { function: "chr.to.int$", kind: Kind::Text, before: "" },
    Trial { function: "int.to.chr$", kind: Kind::Integer, before: "" },
];

/// How many different calls are tried of a style, at most.
const MOST: usize = 10_000;

/// How many steps a call takes at most, with its mark.
const STEPS_OF_CALL: u64 = 20;

/// The room for the log of all calls.
const ROOM: usize = 1 << 24;

/// A function that comes directly after a constant: where the constant stands, and the words that try it.
struct Call {
    start: usize,
    words: String,
    function: &'static str,
}

/// The call of a function at this place of the tokens, if constants stand before it that can be tried.
fn call_at(style: &StyleRead<'_>, at: usize) -> Option<Call> {
    let name = style.of(&style.tokens[at]);
    let trial = TRIALS.iter().find(|trial| name.eq_ignore_ascii_case(trial.function.as_bytes()))?;
    let before = style.tokens[..at].last().filter(|token| token.kind == trial.kind)?;
    let constant = std::str::from_utf8(style.of(before)).ok()?;
    let words = format!("{} {constant} {} pop$", trial.before, trial.function);
    Some(Call { start: before.start, words, function: trial.function })
}

/// The calls of a style's functions, each with the function in whose body it stands.
fn calls<'a>(style: &StyleRead<'a>) -> Vec<(Call, &'a [u8])> {
    let owner = |place: usize| {
        let before = style.names.commands.partition_point(|command| command.start <= place);
        style.names.commands[..before].last().filter(|command| command.is("function"))?.name
    };
    let names = (0..style.tokens.len()).filter(|at| style.tokens[*at].kind == Kind::Name);
    let found = names.filter_map(|at| call_at(style, at));
    found.filter_map(|call| Some((owner(call.start)?, call))).map(|(owner, call)| (call, owner)).collect()
}

/// A job whose style makes these calls, each after a warning with its number.
fn job_of(calls: &[String]) -> Files {
    let file = |name: &str, bytes: String| File {
        name: name.as_bytes().to_vec(),
        bytes: Some(bytes.into_bytes()),
        path: name.as_bytes().to_vec(),
    };
    let functions = calls
        .iter()
        .enumerate()
        .map(|(number, call)| format!("FUNCTION{{c{number}}}{{\"{number}\" warning$ {call}}}\n"));
    let executed = (0..calls.len()).map(|number| format!("EXECUTE{{c{number}}}\n"));
    let style = functions.chain(["ENTRY{}{}{}\nREAD\n".to_string()]).chain(executed).collect();
    let top = file("calls.aux", "\\citation{*}\n\\bibdata{calls}\n\\bibstyle{calls}\n".to_string());
    Files { top: b"calls.aux".to_vec(), all: vec![top, file("calls.bst", style), file("calls.bib", String::new())] }
}

/// What a run of each of these calls logs, by their numbers; none where the run doesn't come to its end.
fn logged(calls: &[String]) -> Result<HashMap<usize, String>, MemoryRefused> {
    let files = job_of(calls);
    let options = Options::usual(STEPS_OF_CALL * (calls.len() as u64 + 1));
    let ran = btx::run(&files.top, &files.all, &options, &Rooms { list: ROOM, log: ROOM });
    match ran.answer {
        Answer::Done(report) if report.has_finished() => {}
        Answer::Memory => return Err(MemoryRefused),
        _ => return Ok(HashMap::new()),
    }
    let (mut found, mut number) = (HashMap::new(), None);
    for line in ran.lines_of_log().lines() {
        match line.content {
            Content::Message(Message { severity: Severity::Warning, text, .. }) => number = plain(text).parse().ok(),
            Content::Message(Message { severity: Severity::Error, text, .. }) => {
                found.extend(number.map(|number: usize| (number, plain(text))));
            }
            _ => {}
        }
    }
    Ok(found)
}

/// The numbers of the different calls, and their words in the order of these.
fn numbered(calls: &[(Call, &[u8])]) -> (HashMap<String, usize>, Vec<String>) {
    let (mut numbers, mut different) = (HashMap::new(), Vec::new());
    for (call, _) in calls {
        if different.len() < MOST && !numbers.contains_key(&call.words) {
            numbers.insert(call.words.clone(), different.len());
            different.push(call.words.clone());
        }
    }
    (numbers, different)
}

/// The constants of a style that the functions after them can't take, in their order.
pub fn constants(style: &StyleRead<'_>) -> Result<Vec<Constant>, MemoryRefused> {
    let calls = calls(style);
    let (numbers, different) = numbered(&calls);
    if different.is_empty() {
        return Ok(Vec::new());
    }
    let (logged, text) = (logged(&different)?, Text::new(style.names.bytes));
    let logs = |call: &Call| logged.get(numbers.get(&call.words)?);
    let found = calls.iter().filter_map(|(call, owner)| Some((call, owner, logs(call)?)));
    Ok(found.map(|(call, owner, logs)| constant_of(&text, call, owner, logs)).collect())
}

/// The constant of a call in this function of a text, of which a run logs this.
fn constant_of(text: &Text<'_>, call: &Call, owner: &[u8], logs: &str) -> Constant {
    let line = text.line_of(call.start);
    let advice = advice::find(&[Section::Execution], logs.as_bytes());
    Constant {
        line,
        mark: call.start - text.span(line).0,
        owner: plain(owner),
        function: call.function,
        text: logs.to_string(),
        advice: advice.map_or_else(String::new, |advice| advice.text()),
    }
}

#[cfg(test)]
mod tests {
    use super::*;

    fn found(style: &str) -> Vec<(usize, usize, &'static str, String)> {
        let found = constants(&StyleRead::new(style.as_bytes())).unwrap();
        found.into_iter().map(|constant| (constant.line, constant.mark, constant.function, constant.text)).collect()
    }

    #[test]
    fn constants_that_no_run_takes_are_found() {
        let style = "FUNCTION {f}\n{ author #1 \"{ff\" format.name$ s \"x\" Change.Case$\n\"ab\" chr.to.int$ #200 int.to.chr$ }\n";
        let expected = [
            (2, 12, "format.name$", "The format string \"{ff\" is illegal"),
            (2, 33, "change.case$", "\"x\" is an illegal case-conversion string"),
            (3, 0, "chr.to.int$", "\"ab\" isn't a single character"),
            (3, 17, "int.to.chr$", "200 isn't an ASCII code"),
        ];
        assert_eq!(found(style), expected.map(|(line, mark, function, text)| (line, mark, function, text.to_string())));
    }

    #[test]
    fn constants_that_a_run_takes_are_passed_over() {
        let style = "FUNCTION {f} { a #1 \"{f. }{vv }{ll}{, jj}\" format.name$ \"t\" change.case$ \"a\" chr.to.int$ #65 int.to.chr$ t format.name$ \"ab\" purify$ }\n";
        assert_eq!(found(style), []);
        assert_eq!(found("READ\nMACRO {f} {\"x\"}\n"), []);
    }

    #[test]
    fn a_constant_is_tried_once_and_told_at_each_place() {
        let style = "FUNCTION {f} { s \"x\" change.case$ }\n".repeat(3);
        let lines: Vec<usize> = found(&style).into_iter().map(|(line, ..)| line).collect();
        assert_eq!(lines, [1, 2, 3]);
    }
}
