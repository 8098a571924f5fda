//! For entries of which types something is said of a style: a function above READ is a type of entry to a run, and not each of them is meant as one.

use crate::btx::{self, MemoryRefused, Verdict};
use crate::database::Folded;
use crate::style_check::usual_steps;
use crate::style_read::StyleNames;
use crate::style_text::Command;
use crate::terminal::plain;
use std::collections::HashSet;

/// Which part of the usual steps a check may take of a style without a command that executes something.
const PART: u64 = 20;

/// The functions of a style that stand above READ, in its order, as the checker takes them.
#[derive(Debug, Clone, Default, PartialEq, Eq)]
pub struct Types {
    /// Those that it takes as types of entries.
    pub taken: Vec<Vec<u8>>,
    /// Those that it doesn't: nothing is said of entries of these types.
    pub uncovered: Vec<Vec<u8>>,
}

/// What the checker takes as types in a style that has this text and this verdict. None where nothing is said of the whole style.
pub fn types_of(
    name: &[u8],
    style: &StyleNames<'_>,
    verdict: &Option<Verdict>,
) -> Result<Option<Types>, MemoryRefused> {
    let taken = match verdict {
        Some(Verdict::Clean { types, .. }) => types.clone(),
        Some(Verdict::Warnings(_)) => match btx::check(name, &without_runs(style), usual_steps(style) / PART)? {
            Some(Verdict::Clean { types, .. }) => types,
            _ => return Ok(None),
        },
        _ => return Ok(None),
    };
    let known: HashSet<Folded<'_>> = taken.iter().map(|name| Folded(name)).collect();
    let uncovered = style.functions_above_read().filter(|name| !known.contains(&Folded(name)));
    let uncovered = uncovered.map(<[u8]>::to_vec).collect();
    Ok(Some(Types { taken, uncovered }))
}

/// A style's text without its commands EXECUTE, ITERATE and REVERSE. Such a style is clean, and which of its functions are taken as types doesn't
/// depend on its commands.
fn without_runs(style: &StyleNames<'_>) -> Vec<u8> {
    let (text, mut rest) = (style.bytes, style.bytes.to_vec());
    let is_run = |command: &&Command<'_>| ["execute", "iterate", "reverse"].iter().any(|word| command.is(word));
    for command in style.commands.iter().filter(is_run) {
        let close = text[command.start..].iter().position(|byte| *byte == b'}');
        let end = close.map_or(text.len(), |close| command.start + close + 1);
        rest[command.start..end].fill(b' ');
    }
    rest
}

impl Types {
    /// In words, entries of which types aren't covered.
    pub fn uncovered_text(&self) -> Option<String> {
        let which = match &self.uncovered[..] {
            [] => return None,
            [_] => "of this function, which stands above READ and isn't taken as a type",
            _ => "of one of these functions, which stand above READ and aren't taken as types",
        };
        Some(format!("entries whose type has the name {which}: {}", self.uncovered_names()))
    }

    /// The names of functions that aren't covered. Most styles have many helpers with a dot in their names, of which one is an example.
    fn uncovered_names(&self) -> String {
        let (dotted, bare): (Vec<&Vec<u8>>, Vec<&Vec<u8>>) =
            self.uncovered.iter().partition(|name| name.contains(&b'.'));
        let mut names: Vec<String> = bare.iter().map(|name| plain(name)).collect();
        match &dotted[..] {
            [] => {}
            [one] => names.push(plain(one)),
            [first, ..] => {
                names.push(format!("{} with a dot in their names, such as {}", dotted.len(), plain(first)));
            }
        }
        match names.split_last() {
            Some((last, others)) if dotted.len() > 1 && !others.is_empty() => {
                format!("{}, and {last}", others.join(", "))
            }
            _ => names.join(", "),
        }
    }
}

#[cfg(test)]
mod tests {
    use super::*;

    const STYLE: &str = "ENTRY {title} {} {}\nFUNCTION {lab} { \"l\" write$ }\nFUNCTION {a.b} { lab }\nFUNCTION {misc} { a.b title write$ }\n\
        FUNCTION {default.type} { misc }\nREAD\nFUNCTION {late} { skip$ }\nEXECUTE {late}\niterate{call.type$} ITERATE\n{late}\n";

    /// The types of a style, by the names of what is taken and of what isn't covered.
    fn types(style: &str) -> Option<Types> {
        let verdict = btx::check(b"s.bst", style.as_bytes(), 10_000).unwrap();
        types_of(b"s.bst", &StyleNames::new(style.as_bytes()), &verdict).unwrap()
    }

    #[test]
    fn what_is_not_covered_is_known_of_each_style() {
        let names = |names: &[&str]| names.iter().map(|name| name.as_bytes().to_vec()).collect::<Vec<_>>();
        let wanted = Some(Types { taken: names(&["misc"]), uncovered: names(&["lab", "a.b", "default.type"]) });
        assert_eq!(types(STYLE), wanted);
        assert_eq!(types(&STYLE.replace("title write$", "cite$ write$")), wanted);
        assert_eq!(types_of(b"s.bst", &StyleNames::new(STYLE.as_bytes()), &None), Ok(None));
    }

    #[test]
    fn what_is_not_covered_is_said() {
        let said = |names: &[&str]| {
            let uncovered = names.iter().map(|name| name.as_bytes().to_vec()).collect();
            Types { taken: Vec::new(), uncovered }.uncovered_text()
        };
        assert_eq!(said(&[]), None);
        let one = "entries whose type has the name of this function, which stands above READ and isn't taken as a type";
        assert_eq!(said(&["lab"]), Some(format!("{one}: lab")));
        assert_eq!(said(&["a.b"]), Some(format!("{one}: a.b")));
        let each = "entries whose type has the name of one of these functions, which stand above READ and aren't taken as types";
        assert_eq!(said(&["lab", "a.b", "mid"]), Some(format!("{each}: lab, mid, a.b")));
        assert_eq!(
            said(&["lab", "a.b", "mid", "c.d"]),
            Some(format!("{each}: lab, mid, and 2 with a dot in their names, such as a.b"))
        );
        assert_eq!(said(&["a.b", "c.d"]), Some(format!("{each}: 2 with a dot in their names, such as a.b")));
    }
}
