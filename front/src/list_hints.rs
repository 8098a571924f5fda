//! Hints on what a style's list lacks, or has otherwise than it is meant, by the style's text: von parts of names, a field of another name than databases have, the line end after what is written
//! last, the words for one page and for several, and a greatest value that is never found.

use crate::code_places::{CALLS_TYPE, Code, Declared};
use crate::database::Folded;
use crate::hints::{Hint, Of};
use crate::nearest::nearest;
use crate::style_read::{Sort, StyleRead};
use crate::style_text::Kind;
use crate::terminal::plain;
use crate::text::Text;
use std::cell::RefCell;
use std::collections::HashSet;
use std::ops::Range;

/// The hints on the list that a style makes, whose code this is.
pub fn list_hints(style: &StyleRead<'_>, code: &Code<'_>) -> Vec<Hint> {
    let of_code = [exchanged_pages(code), never_greater(code), unknown_fields(style)].concat();
    of_code.into_iter().chain(without_von(style, code)).chain(unended_line(style, code)).collect()
}

// ---- names ----

/// The parts of a name that a format has outside of the braces within its pieces: `ff`, `vv`, `ll`, `jj`, or one letter of these.
fn parts_of_format(format: &[u8]) -> Vec<&[u8]> {
    let (mut depth, mut parts) = (0_usize, Vec::new());
    let mut at = 0;
    while let Some(byte) = format.get(at) {
        let length = format[at..].iter().take_while(|next| *next == byte).count();
        match byte {
            b'{' => depth += 1,
            b'}' => depth = depth.saturating_sub(1),
            b'f' | b'v' | b'l' | b'j' if depth == 1 => {
                parts.push(&format[at..at + length]);
                at += length;
                continue;
            }
            _ => {}
        }
        at += 1;
    }
    parts
}

/// Whether a format prints first and last names and leaves von parts out.
fn leaves_von_out(format: &[u8]) -> bool {
    let parts = parts_of_format(format);
    let has = |letter: u8| parts.iter().any(|part| part[0] == letter);
    parts.contains(&&b"ll"[..]) && has(b'f') && !has(b'v')
}

/// The hint on formats of names without a von part, where no function that prints has a format with one. Functions that make keys to sort by may leave it out, or have it.
fn without_von(style: &StyleRead<'_>, code: &Code<'_>) -> Option<Hint> {
    let formatted = code.executed(b"format.name$").into_iter();
    let is_it = |(_, index): &(&[u8], usize)| *index > 0 && leaves_von_out(code.of(index - 1));
    let mut found: Vec<(&[u8], usize)> = formatted.filter(is_it).collect();
    if found.is_empty() {
        return None;
    }
    let of_keys = functions_of_keys(style, code);
    found.retain(|(owner, _)| !of_keys.contains(&Folded(owner)));
    let (owner, index) = *found.first()?;
    let has_von = |index: &usize| parts_of_format(code.of(*index)).iter().any(|part| part[0] == b'v');
    let formats = (0..code.count()).filter(|index| code.kind(*index) == Kind::Text).filter(has_von);
    let owner_of = |index: usize| {
        let above = style.names.commands.partition_point(|command| command.start < code.start(index));
        style.names.commands[..above].last().and_then(|command| command.name)
    };
    let mut printing = formats.filter(|index| owner_of(*index).is_none_or(|name| !of_keys.contains(&Folded(name))));
    let format = plain(code.of(index - 1));
    let text = format!(
        "in {}: the format `{}` has no `{{vv~}}`, and no other one that prints has it, so `van Rossum` is printed as `Rossum`: write `{{vv~}}` before `{{ll}}`",
        plain(owner),
        format.trim_matches('"')
    );
    printing.next().is_none().then(|| Hint { line: code.line(index), text, sort: Of::List })
}

/// The functions that ITERATE and REVERSE run before the entries are printed, and those that these name.
fn functions_of_keys<'a>(style: &StyleRead<'a>, code: &Code<'a>) -> HashSet<Folded<'a>> {
    let is_run = |name: &&[u8]| Folded(name) != Folded(CALLS_TYPE);
    let commands = style.names.commands.iter();
    let iterated = commands.filter(|command| command.is("iterate") || command.is("reverse"));
    let mut open: Vec<&[u8]> = iterated.filter_map(|command| command.name).filter(is_run).collect();
    let (named, mut seen) = (code.names_of_functions(), HashSet::new());
    while let Some(name) = open.pop() {
        if seen.insert(Folded(name)) {
            open.extend(named.get(&Folded(name)).into_iter().flatten().map(|(_, name)| name.0));
        }
    }
    seen
}

// ---- fields ----

/// The fields that the usual styles print.
const USUAL_FIELDS: [&str; 21] = [
    "address",
    "author",
    "booktitle",
    "chapter",
    "edition",
    "editor",
    "howpublished",
    "institution",
    "journal",
    "month",
    "note",
    "number",
    "organization",
    "pages",
    "publisher",
    "school",
    "series",
    "title",
    "type",
    "volume",
    "year",
];

/// How many of the usual fields a style declares at least that is made for usual databases.
const LEAST_FIELDS: usize = 6;
/// How many letters a name has at least that may be misspelt: a shorter one may well be another word.
const LEAST_LETTERS: usize = 5;
/// How many letters two names have in common at least that differ in their ending alone, and how many these endings have at most.
const LEAST_COMMON: usize = 6;
const MOST_ENDING: usize = 4;

/// The usual field of which a name has another ending, as `institute` has of `institution`.
fn of_other_ending<'a>(name: &[u8], lacked: &[&'a [u8]]) -> Option<&'a [u8]> {
    let is_it = |usual: &&&[u8]| {
        let pairs = name.iter().zip(usual.iter());
        let common = pairs.take_while(|(left, right)| left.eq_ignore_ascii_case(right)).count();
        common >= LEAST_COMMON && name.len().max(usual.len()) - common <= MOST_ENDING
    };
    lacked.iter().find(is_it).copied()
}

/// The hints on fields that are likely to be meant as usual ones, which the style doesn't declare.
fn unknown_fields(style: &StyleRead<'_>) -> Vec<Hint> {
    let names = &style.names;
    let (known, lacked): (Vec<&[u8]>, Vec<&[u8]>) =
        USUAL_FIELDS.iter().map(|name| name.as_bytes()).partition(|name| names.has_field(name));
    if known.len() < LEAST_FIELDS || lacked.is_empty() {
        return Vec::new();
    }
    let text = Text::new(names.bytes);
    let fields = names.declared.iter().filter(|declared| declared.sort == Sort::Field);
    let said = |(name, start): (&[u8], usize)| {
        let is_usual = USUAL_FIELDS.iter().any(|usual| name.eq_ignore_ascii_case(usual.as_bytes()));
        let long = lacked.iter().copied().filter(|usual| usual.len().min(name.len()) >= LEAST_LETTERS);
        let near = nearest(name, long).or_else(|| of_other_ending(name, &lacked));
        let (name, meant) = (plain(name), plain(near.filter(|_| !is_usual)?));
        let said = format!(
            "ENTRY has the field {name}, and databases have {meant}, which the style doesn't read: is it {meant}?"
        );
        Some(Hint { line: text.line_of(start), text: said, sort: Of::List })
    };
    fields.filter_map(|declared| said((declared.name, declared.start))).collect()
}

// ---- the last line ----

/// What some code writes last.
enum Last {
    /// Nothing.
    Nothing,
    /// A line end.
    Ended,
    /// This `write$`.
    Written(usize),
    /// That isn't seen.
    NotSeen,
}

/// How deep functions that call each other are followed.
const MOST_CALLS: usize = 20;

/// What of a style may write: the built-in functions that do, and the functions that name one, or another that may.
struct Writing<'c, 'a> {
    code: &'c Code<'a>,
    /// The functions that were looked through, and write nothing.
    silent: RefCell<HashSet<Folded<'a>>>,
}

impl<'a> Writing<'_, 'a> {
    /// The name of a function that a token may execute or push: the token's, without its quote.
    fn named(&self, index: usize) -> Option<&'a [u8]> {
        let name = self.code.of(index);
        matches!(self.code.kind(index), Kind::Name | Kind::Quoted).then(|| name.strip_prefix(b"'").unwrap_or(name))
    }

    /// Whether what a token names may write.
    fn may_write(&self, index: usize) -> bool {
        self.named(index).is_some_and(|name| writes(name) || self.leads_to_writing(name))
    }

    /// Whether a function of the style names one that writes, or another that does.
    fn leads_to_writing(&self, name: &'a [u8]) -> bool {
        let (mut open, mut seen) = (vec![name], HashSet::new());
        while let Some(name) = open.pop() {
            if self.silent.borrow().contains(&Folded(name)) || !seen.insert(Folded(name)) {
                continue;
            }
            let body = self.code.function(name).map(|(_, body)| body);
            for named in body.into_iter().flatten().filter_map(|index| self.named(index)) {
                if writes(named) {
                    return true;
                }
                open.push(named);
            }
        }
        self.silent.borrow_mut().extend(seen);
        false
    }
}

/// Whether this built-in function writes, or executes what may.
fn writes(name: &[u8]) -> bool {
    [&b"write$"[..], b"newline$", CALLS_TYPE].iter().any(|own| Folded(own) == Folded(name))
}

/// What these tokens write last.
fn last_of(writing: &Writing<'_, '_>, tokens: Range<usize>, calls: usize) -> Last {
    let code = writing.code;
    let mut at = tokens.end;
    while at > tokens.start {
        at -= 1;
        match code.kind(at) {
            Kind::Close => {
                let Some((open, _)) = code.operand_before(at + 1) else { return Last::NotSeen };
                if (open..at).any(|inner| writing.may_write(inner)) {
                    return Last::NotSeen;
                }
                at = open;
            }
            Kind::Name if code.of(at).eq_ignore_ascii_case(b"newline$") => return Last::Ended,
            Kind::Name if code.of(at).eq_ignore_ascii_case(b"write$") => return Last::Written(at),
            Kind::Name | Kind::Quoted if writing.may_write(at) => {
                let body = code.function(code.of(at)).filter(|_| calls > 0);
                let Some((_, body)) = body else { return Last::NotSeen };
                match last_of(writing, body.start + 1..body.end - 1, calls - 1) {
                    Last::Nothing => {}
                    last => return last,
                }
            }
            _ => {}
        }
    }
    Last::Nothing
}

/// The hint on a style whose last line isn't ended: the original loses it.
fn unended_line(style: &StyleRead<'_>, code: &Code<'_>) -> Option<Hint> {
    let commands = style.names.commands.iter().rev();
    let runs = commands.filter(|command| ["execute", "iterate", "reverse"].iter().any(|word| command.is(word)));
    let writing = Writing { code, silent: RefCell::default() };
    for command in runs {
        let name = command.name?;
        let (owner, body) = code.function(name)?;
        match last_of(&writing, body.start + 1..body.end - 1, MOST_CALLS) {
            Last::Nothing => {}
            Last::Ended | Last::NotSeen => return None,
            Last::Written(index) => {
                let text = format!(
                    "what a run writes last, in {}, has no `newline$` after it: the original BibTeX loses that line",
                    plain(owner)
                );
                return Some(Hint { line: code.line(index), text, sort: Of::Use });
            }
        }
    }
    None
}

// ---- pages ----

/// Whether a text is the word for one page, or for several.
#[derive(Debug, Clone, Copy, PartialEq, Eq)]
enum Pages {
    One,
    Several,
}

/// The words for pages at the beginning of a text in quotes.
fn pages_in(text: &[u8]) -> Option<Pages> {
    let is_sign = |byte: &u8| !byte.is_ascii_alphabetic();
    let start = text.iter().position(|byte| !is_sign(byte))?;
    let word = &text[start..start + text[start..].iter().position(is_sign)?];
    match word.to_ascii_lowercase().as_slice() {
        b"page" | b"p" | b"pg" => Some(Pages::One),
        b"pages" | b"pp" | b"pgs" => Some(Pages::Several),
        _ => None,
    }
}

/// How many tokens of a function are looked at for a word, and for what it asks.
const MOST_SEEN: usize = 200;
/// How many assignments to a variable are looked at.
const MOST_ASSIGNED: usize = 50;

/// The word for pages that a function in braces pushes first.
fn pages_pushed(code: &Code<'_>, (first, last): (usize, usize)) -> Option<Pages> {
    let text = (first..last).take(MOST_SEEN).find(|index| code.kind(*index) == Kind::Text)?;
    pages_in(code.of(text))
}

/// Whether a function leaves 1 where its text has a hyphen: after it asks for one, the first integer that it pushes is 1.
fn asks_for_range(code: &Code<'_>, name: &[u8]) -> bool {
    let Some((_, body)) = code.function(name) else { return false };
    let mut after = body.take(MOST_SEEN).skip_while(|index| code.of(*index) != b"\"-\"");
    let is_number = |index: &usize| code.kind(*index) == Kind::Integer;
    after.next().is_some() && after.find(is_number).is_some_and(|index| code.of(index) == b"#1")
}

/// The hints on an `if$` that writes the word for one page where there are several, and the other way round.
fn exchanged_pages(code: &Code<'_>) -> Vec<Hint> {
    let said = |(owner, index): (&[u8], usize)| {
        let no = code.operand_before(index)?;
        let yes = code.operand_before(no.0)?;
        let test = code.of(yes.0.checked_sub(1)?);
        let words = [pages_pushed(code, yes)?, pages_pushed(code, no)?];
        if words != [Pages::One, Pages::Several] || !asks_for_range(code, test) {
            return None;
        }
        let text = format!(
            "in {}: the branches after `{}` seem exchanged: the first has the word for one page, and it is for several",
            plain(owner),
            plain(test)
        );
        Some(Hint { line: code.line(yes.0), text, sort: Of::List })
    };
    code.executed(b"if$").into_iter().filter_map(said).collect()
}

// ---- the greatest width ----

/// The hints on a test `.. width$ WIDEST <`, where the variable begins as 0 and gets another value only after that test: it never holds.
fn never_greater(code: &Code<'_>) -> Vec<Hint> {
    let said = |(owner, index): (&[u8], usize)| {
        let (variable, measure) = (code.of(index.checked_sub(1)?), code.of(index.checked_sub(2)?));
        let is_measure = [&b"width$"[..], b"text.length$"].iter().any(|own| measure.eq_ignore_ascii_case(own));
        let is_integer = matches!(code.declared(variable), Some(Declared::Integer { .. }));
        let branch = index + 1..code.closing(index + 1).filter(|_| is_measure && is_integer)?;
        let (mut inside, mut outside) = (0_usize, 0_usize);
        let places = code.assignments_to(variable);
        if places.len() > MOST_ASSIGNED {
            return None;
        }
        for place in places {
            let is_zero = place.checked_sub(2).is_some_and(|value| code.of(value) == b"#0");
            inside += usize::from(branch.contains(place));
            outside += usize::from(!branch.contains(place) && !is_zero);
        }
        let (variable, measure) = (plain(variable), plain(measure));
        let text = format!(
            "in {}: `{measure} {variable} <` never holds: {variable} begins as 0, and nothing is less wide than that: is `>` meant?",
            plain(owner)
        );
        (inside > 0 && outside == 0).then(|| Hint { line: code.line(index), text, sort: Of::List })
    };
    code.executed(b"<").into_iter().filter_map(said).collect()
}

#[cfg(test)]
mod tests {
    use super::*;

    fn said(style: &str) -> Vec<(usize, String)> {
        list_hints(&StyleRead::new(style.as_bytes()), &Code::new(style.as_bytes()))
            .into_iter()
            .map(|hint| (hint.line, hint.text))
            .collect()
    }

    #[test]
    fn formats_without_a_von_part_are_named() {
        let formats = |printed: &str, sorted: &str| {
            let style = format!(
                "FUNCTION {{names}} {{\ns #1 \"{printed}\" format.name$ write$ newline$}}\nFUNCTION {{misc}} {{names}}\nREAD\nFUNCTION {{presort}} {{s #1 \"{sorted}\" format.name$ 'sort.key$ :=}}\nITERATE {{presort}}\nSORT\nITERATE {{call.type$}}\n"
            );
            said(&style).into_iter().map(|(line, _)| line).collect::<Vec<usize>>()
        };
        let none: [usize; 0] = [];
        let with_von = "{vv{ } }{ll{ }}{  f{ }}";
        assert_eq!(formats("{f.~}{ll}{~jj}", with_von), [2]);
        assert_eq!(formats("{ll}{, f.}", "{ll{ }}{  ff{ }}"), [2]);
        for whole in ["{f.~}{vv~}{ll}", "{ll}", "{vv~}{ll}", "{ff }", "{ll{f}}"] {
            assert_eq!(formats(whole, "{ll{ }}{  ff{ }}"), none, "{whole}");
        }
        let both =
            "FUNCTION {f} {s #1 \"{ll}{ff}\" format.name$}\nFUNCTION {g} {s #1 \"{ff~}{vv~}{ll}\" format.name$}\n";
        assert_eq!(said(both), []);
    }

    #[test]
    fn fields_with_another_name_are_named() {
        let said = |fields: &str| said(&format!("ENTRY\n{{{fields}}}{{}}{{}}\nREAD\n"));
        let most = "author editor title journal booktitle year volume number pages publisher note";
        let wanted = |name: &str, meant: &str| {
            let text = format!(
                "ENTRY has the field {name}, and databases have {meant}, which the style doesn't read: is it {meant}?"
            );
            vec![(2, text)]
        };
        assert_eq!(said(&format!("{most} institute")), wanted("institute", "institution"));
        assert_eq!(said(&format!("{most} organisation")), wanted("organisation", "organization"));
        assert_eq!(said(&format!("{most} adress")), wanted("adress", "address"));
        for whole in ["institute institution", "notex annotate", "url doi eprint schools school", "numbers isbn issn"] {
            assert_eq!(said(&format!("{most} {whole}")), [], "{whole}");
        }
        assert_eq!(said("author title institute"), []);
    }

    #[test]
    fn a_last_line_without_its_end_is_named() {
        let said = |last: &str| {
            let style = format!(
                "FUNCTION {{misc}} {{cite$ write$ newline$}}\nREAD\nITERATE {{call.type$}}\nFUNCTION {{out}} {{write$ newline$}}\nFUNCTION {{end}} {{\n{last} }}\nFUNCTION {{none}} {{ #1 pop$ }}\nEXECUTE {{end}}\nEXECUTE {{none}}\n"
            );
            said(&style)
        };
        let text = "what a run writes last, in end, has no `newline$` after it: the original BibTeX loses that line";
        let wanted = [(6, text.to_string())];
        assert_eq!([said("newline$ \"b\" write$"), said("\"b\" write$ #1 pop$ 'skip$ pop$")], [wanted.clone(), wanted]);
        for whole in [
            "\"b\" write$ newline$",
            "\"b\" out",
            "\"b\" write$ #1 {newline$} {newline$} if$",
            "\"b\" #1 'write$ 'out if$",
            "call.type$",
        ] {
            assert_eq!(said(whole), [], "{whole}");
        }
    }

    #[test]
    fn exchanged_words_for_pages_are_named() {
        let said = |test: &str, first: &str, second: &str, leaves: usize| {
            let style = format!(
                "ENTRY {{pages}}{{}}{{}}\nFUNCTION {{not}} {{ {{#0}} {{#1}} if$ }}\nFUNCTION {{many}} {{ 't := #0 'm := t #1 #1 substring$ \"-\" = {{ #{leaves} 'm := }} 'skip$ if$ m }}\nFUNCTION {{f}} {{\npages {test}\n{{ {first} pages * }}\n{{ {second} pages * }}\nif$ }}\n"
            );
            said(&style).into_iter().map(|(line, _)| line).collect::<Vec<_>>()
        };
        let none: Vec<usize> = Vec::new();
        let (one, several) = ("\"page~\"", "\"pages~\"");
        assert_eq!([said("many", one, several, 1), said("many", "\", p.~\"", "\", pp.~\"", 1)], [[6], [6]]);
        for (test, first, second, leaves) in [
            ("many", several, one, 1),
            ("many not", one, several, 1),
            ("many", one, several, 0),
            ("empty$", one, several, 1),
            ("many", "\"in \"", several, 1),
        ] {
            assert_eq!(said(test, first, second, leaves), none, "{test} {first} {second} {leaves}");
        }
    }

    #[test]
    fn a_greatest_width_that_is_never_found_is_named() {
        let said = |test: &str, others: &str| {
            let style = format!(
                "INTEGERS {{w}} STRINGS {{l}}\nFUNCTION {{f}} {{\nl width$ w {test} {{ l width$ 'w := }} 'skip$ if$ }}\nFUNCTION {{g}} {{ {others} }}\n"
            );
            said(&style).into_iter().map(|(line, _)| line).collect::<Vec<_>>()
        };
        assert_eq!(said("<", "#0 'w :="), [3]);
        let none: Vec<usize> = Vec::new();
        for (test, others) in [(">", "#0 'w :="), ("<", "#100 'w :="), ("<", "l width$ 'w :=")] {
            assert_eq!(said(test, others), none, "{test} {others}");
        }
    }
}
