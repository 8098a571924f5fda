//! Whole logs with their explanations.

use super::page::LONGEST_LINE;
use super::*;
use crate::event_places::{EventPlace, LogPlaces, Placed, places_by_runs};
use crate::scene::{Call, Held, Scenes};
use crate::terminal::{NO_COLOUR, PLACE_COLOUR};

fn file(name: &str, bytes: &str) -> File {
    File { name: name.into(), bytes: Some(bytes.into()), path: format!("./{name}").into() }
}

fn job(style: &str, database: &str) -> Files {
    let aux = "\\citation{k,nosuch}\n\\bibdata{d}\n\\bibstyle{s}\n";
    Files { top: b"job.aux".to_vec(), all: vec![file("job.aux", aux), file("s.bst", style), file("d.bib", database)] }
}

fn explained(log: &Log<'_>, files: &Files, terminal: &Terminal) -> String {
    let mut out = Vec::new();
    write(log, files, Part::Whole, terminal, &mut out).unwrap();
    String::from_utf8(out).unwrap()
}

fn explain(log: &str, style: &str, database: &str) -> String {
    let files = job(style, database);
    let places = places_by_runs(log.as_bytes(), &files);
    explained(&Log::new(log.as_bytes()).with_places(&places), &files, &Terminal::NONE)
}

#[test]
fn errors_of_databases_have_a_mark_and_an_item() {
    let log = "Error--I was expecting an =--line 2 of file d.bib\nError--Repeated entry--line 3 of file d.bib\n";
    let wanted = "\
Error--I was expecting an =--line 2 of file d.bib
    d.bib:2:  note 1}
                   ^
    in @misc{k}, which begins at d.bib:1
    what to do: put an `=` after `note`
Error--Repeated entry--line 3 of file d.bib
    d.bib:3: @misc{K}
                    ^
    in @misc{K}, which begins at d.bib:3
    the first is @misc{k}, which begins at d.bib:1
    what to do: give the entry `K` another key, such as `Kb`, and cite it by that: the document cites `k`, and case doesn't tell keys apart. Remove it only if it is the same work
";
    assert_eq!(explain(log, "", "@misc{k,\n note 1}\n@misc{K}\n"), wanted);
}

#[test]
fn advice_is_given_once_a_kind() {
    let error = "Error--\"A\" is not an integer while executing + for entry k\n";
    let output = explain(&(error.repeat(3) + &error.replace('+', "-")), "", "@misc{k}");
    assert_eq!(output.matches("what to do").count(), 1);
    assert_eq!(output.matches("`+` takes NUMBER NUMBER, pushed in this order\n").count(), 1);
    assert_eq!(output.matches("for @misc{k}, which begins at d.bib:1\n").count(), 2);
    assert!(output.ends_with(&format!("(2 more errors are like `{}`; for k)\n", error.trim_end())), "{output}");
    let assigned = explain("Error--0 is not a function while executing :=\n", "", "");
    assert!(assigned.contains("`:=` takes VALUE 'VARIABLE: is there a `'` before the variable?"), "{assigned}");
}

#[test]
fn a_missing_brace_is_named_once() {
    let style = "FUNCTION {article} { #1 {skip$} {skip$ if$ }\n\nINTEGERS {i}\nFUNCTION {book} {i pop$}\nREAD\n";
    let unknown = |name: &str, number| format!("Error--{name} is an unknown function--line {number} of file s.bst\n");
    let all = [("INTEGERS", 3), ("i", 3), ("FUNCTION", 4), ("book", 4), ("i", 4), ("READ", 5), ("nosuch", 5)];
    let log: String = all.iter().map(|(name, number)| unknown(name, *number)).collect();
    let output = explain(&(log + "Error--Illegal end of style file--line 5 of file s.bst\n"), style, "");
    let begin = "Error--INTEGERS is an unknown function--line 3 of file s.bst
    s.bst:3: INTEGERS {i}
             ^
    what to do: a `}` is missing in FUNCTION {article}, which begins at s.bst:1
    (5 more errors follow from that)
Error--nosuch is an unknown function--line 5 of file s.bst\n";
    assert!(output.starts_with(begin), "{output}");
    assert_eq!(output.matches("a `}` is missing").count(), 1);
}

#[test]
fn what_was_skipped_is_counted() {
    let style = "INTEGER {count}\nSTRINGS {s}\n\nFUNCTION {f} {count s count}\nFUNCTION {g} {x}\n";
    let unknown = |name: &str, number| format!("Error--{name} is an unknown function--line {number} of file s.bst\n");
    let all = [("count", 4), ("s", 4), ("x", 5), ("count", 5)];
    let log: String = all.iter().map(|(name, number)| unknown(name, *number)).collect();
    let output = explain(&("Error--INTEGER isn't a command--line 1 of file s.bst\n".to_string() + &log), style, "");
    let begin = "Error--INTEGER isn't a command--line 1 of file s.bst
    s.bst:1: INTEGER {count}
             ^
    is it INTEGERS?
    what to do: correct the word, or put `%` before a comment: the commands are ENTRY, INTEGERS, STRINGS, FUNCTION, MACRO, READ, EXECUTE, ITERATE, REVERSE and SORT
    (2 more errors follow from that)
Error--x is an unknown function--line 5 of file s.bst\n";
    assert!(output.starts_with(begin), "{output}");
    assert!(output.ends_with("    (1 more error follows from that in line 1)\n"), "{output}");
}

#[test]
fn a_type_that_is_not_known_is_treated_by_what_there_is() {
    let log = "Warning--entry type for \"k\" isn't style-file defined--line 1 of file d.bib\n";
    let said = |style: &str| explain(log, style, "@odd{k}");
    let advised = |advice: &str| format!("    what to do: {advice}\n");
    assert!(said("FUNCTION {Default.Type} {}\nREAD\n").ends_with(&advised(by_default_type(true))));
    for style in ["READ\n", "READ\nFUNCTION {default.type} {}\n"] {
        assert!(said(style).ends_with(&advised(by_default_type(false))), "{}", said(style));
    }
    let without_style = Files { top: b"job.aux".to_vec(), all: vec![file("d.bib", "@odd{k}")] };
    let general = explained(&Log::new(log.as_bytes()), &without_style, &Terminal::NONE);
    assert!(general.ends_with(&advised(&(by_default_type(true).to_string() + ", if it has that"))), "{general}");
}

#[test]
fn a_misspelt_name_of_a_command_is_named() {
    let style = "READ\nFUNCTION {begin} {}\nEXECUTE {begn}\n\nITERATE {cal.type$}\n\nREVERSE {nosuch}\n\nEXECUTE {end}\n\nFUNCTION {end} {}\n";
    let unknown = |name: &str, number| format!("Error--{name} is an unknown function--line {number} of file s.bst\n");
    let said = |name: &str, number| explain(&unknown(name, number), style, "");
    assert!(said("begn", 3).contains("    is it begin?\n"), "{}", said("begn", 3));
    assert!(said("cal.type$", 5).contains("    is it call.type$?\n"), "{}", said("cal.type$", 5));
    let of_none = said("nosuch", 7);
    assert!(!of_none.contains("is it") && !of_none.contains("the style defines it"), "{of_none}");
    let below = said("end", 9);
    let moved = "    what to do: move the function `end` above line 9: it is defined in line 11, below its use\n";
    assert!(below.ends_with(moved), "{below}");
}

#[test]
fn a_brace_too_many_is_named() {
    let output = explain("Error--I was expecting a command--line 2 of file s.bst\n", "FUNCTION {f} {}}\n} x\n", "");
    assert!(
        output.ends_with("    what to do: there is a `}` too many in FUNCTION {f}, which begins at s.bst:1\n"),
        "{output}"
    );
    let style = "FUNCTION {f}\n{ #1 { skip$ } } if$ }\nINTEGERS { n }\n\nFUNCTION {g} { n }\n";
    let log =
        "Error--if isn't a command--line 2 of file s.bst\nError--n is an unknown function--line 5 of file s.bst\n";
    let closed_early = explain(log, style, "");
    let end = "    what to do: there is a `}` too many in FUNCTION {f}, which begins at s.bst:1\n    (1 more error follows from that)\n";
    assert!(closed_early.ends_with(end), "{closed_early}");
}

#[test]
fn scenes_are_shown() {
    let at = |function: &str, line| Call { function: function.into(), file: b"s.bst".to_vec(), line };
    let callers = vec![at("book", 73), at("ITERATE {call.type$}", 100)];
    let stack = vec![Held { literal: b"\"a\x1b\"".to_vec(), since: Some(at("FUNCTION {g}", 7)) }];
    let scene = Scene {
        at: at("FUNCTION {f}", 28),
        token: None,
        callers,
        caller_tokens: vec![None; 2],
        stack,
        origins: vec![],
    };
    let scenes = Scenes { errors: [(1, scene)].into(), ..Scenes::default() };
    let log = "Error--Integer overflow while executing +\n".repeat(2);
    let output = explained(&Log::new(log.as_bytes()).with_scenes(&scenes), &job("", ""), &Terminal::NONE);
    let end = "Error--Integer overflow while executing +
    left by FUNCTION {f}, s.bst:28; called from book, s.bst:73; ITERATE {call.type$}, s.bst:100
    \"a?\" has been there since FUNCTION {g}, s.bst:7\n";
    assert!(output.ends_with(end), "{output}");
}

#[test]
fn equal_warnings_of_a_style_are_counted() {
    let log = "Warning--x in k\n".repeat(5000)
        + "Error--Integer overflow while executing + for entry k\n"
        + "Warning--y in k\n";
    let output = explain(&(log + "Ended: finished, warnings 5001, errors 1, steps 9\n"), "", "@misc{k}");
    assert_eq!(output.matches("Warning--x in k\n    for @misc{k}").count(), 8, "{output}");
    assert!(
        output.contains("Error--Integer overflow while executing + for entry k\n")
            && output.contains("Warning--y in k\n")
    );
    let end = "(4992 more warnings are like `Warning--x in k`; for k)\nEnded: finished";
    assert!(output.contains(end), "{output}");
    let hinted = explain(&"Warning--empty title in k\n".repeat(20), "ENTRY {title}{}{}", "@misc{k, tilte = {T}}");
    assert!(hinted.contains("it has `tilte`: is it `title`?") && hinted.contains("(11 more warnings are"), "{hinted}");
}

#[test]
fn messages_after_the_first_thousand_are_counted() {
    let log = "Warning--x of no entry\n".repeat(5000) + "Warning--I didn't find a database entry for \"nosuch\"\n";
    let log = log
        + "Error--Integer overflow while executing + for entry k\nEnded: finished, warnings 5000, errors 0, steps 9\n";
    let output = explain(&log, "", "@misc{k}");
    assert_eq!(output.matches("Warning--x of no entry").count(), 1000);
    assert!(output.contains("for \"nosuch\"\n") && output.contains("Error--Integer overflow"), "{output}");
    let end = "(4000 more messages stand in the .blg.)\nEnded: finished, warnings 5000, errors 0, steps 9\n";
    assert!(output.ends_with(&format!("{end}(There were 5000 warnings)\n")), "{}", &output[output.len() - 200..]);
}

#[test]
fn a_long_stack_and_long_lines_are_cut() {
    let log = "Error--The literal stack isn't empty while executing EXECUTE\n".to_string()
        + &"0\n".repeat(30)
        + &"x".repeat(9000);
    let output = explain(&(log + "\nWarning--" + &"y".repeat(9000) + "\n"), "", "");
    assert_eq!(output.matches("\n0\n0").count(), 10);
    assert!(output.contains("    (11 more lines stand in the .blg)\nWarning--yy"), "{output}");
    assert!(output.lines().all(|line| line.len() <= LONGEST_LINE + 2));
}

#[test]
fn nothing_acts_on_a_terminal() {
    let terminal = Terminal { is_terminal: true, has_colours: true, width: 20 };
    let log = b"Warning--\x1b]0;T\x07 in \xc2\x9bk\nError--I was expecting an =--line 1 of file d.bib\nx\x9b\n";
    let output = explained(&Log::new(log), &job("", "@misc{\u{202e}k, note\u{1b}[2J 1}"), &terminal);
    let colours = [ERROR_COLOUR, WARNING_COLOUR, PLACE_COLOUR, NO_COLOUR];
    let bare = colours.iter().fold(output, |output, colour| output.replace(colour, ""));
    assert!(!bare.contains(|found: char| found != '\n' && (found.is_control() || found == '\u{202e}')), "{bare:?}");
}

#[test]
fn names_may_have_any_bytes() {
    let database = File { name: b"\xe9.bib".to_vec(), bytes: Some(b"@misc{k 1}".to_vec()), path: b"\xe9.bib".to_vec() };
    let files = Files { top: b"job.aux".to_vec(), all: vec![database] };
    let place = EventPlace { file: 0, start: 8, end: 8, line: 1, token: None };
    let places = LogPlaces { known: vec![Placed { at: 0, place }], ..LogPlaces::default() };
    let log = Log::new(b"Error--I was expecting a , or a }--line 1 of file \xe9.bib\n");
    let output = explained(&log.with_places(&places), &files, &Terminal::NONE);
    assert!(output.contains("    ?.bib:1: @misc{k 1}\n                     ^\n"), "{output}");
}

#[test]
fn what_follows_from_a_style_s_mistake_is_counted() {
    let style =
        "ENTRY {title}{}{}\nFUNCTION {f}\n{ title empty$\n { skip$\nif$ }\nFUNCTION {g} {skip$}\nREAD\nEXECUTE{g}\n";
    let log = "Error--FUNCTION is an unknown function--line 6 of file s.bst\n\
        Error--EXECUTE{g is an unknown function--line 8 of file s.bst\n";
    let output = explain(log, style, "");
    assert!(output.contains("which begins at s.bst:2: close the brace of line 4 before line 5\n"), "{output}");
    assert!(output.contains("(1 more error follows from that)") && !output.contains("Error--EXECUTE{g"), "{output}");
    let log = "Error--title is an unknown function--line 3 of file s.bst\n";
    let output = explain(log, "ENTRY {titles}{}{}\nFUNCTION {f}\n{ title empty$ }\n", "");
    assert!(output.contains("put `title` into the first list of ENTRY") && !output.contains("is it"), "{output}");
}

#[test]
fn what_no_message_is_about_in_a_style_is_said_after_a_clean_run() {
    let style = "ENTRY {}{}{}\nREAD\nFUNCTION {key} { \"a\" 'sort.key$ := }\nSORT\nITERATE {key}\n";
    let ended = |errors| format!("Ended: finished, warnings 0, errors {errors}, steps 9\n");
    let (clean, wrong) = (explain(&ended(0), style, ""), explain(&ended(1), style, ""));
    let wanted = "No message is about this, but the list may be wrong by it (`bibtex-lint s.bst`):\n    s.bst:5: ITERATE {key} sets sort.key$";
    assert!(clean.contains(wanted) && !wrong.contains("sort.key$"), "{clean}");
}
