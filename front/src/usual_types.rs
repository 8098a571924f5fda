//! The types that styles usually know: which functions of a style are meant as types, and which may be misspelt.

use crate::database::Folded;
use crate::hints::{Hint, Of, UsesOfNames, uses};
use crate::nearest::nearest;
use crate::style_read::{DeclaredName, StyleRead};
use crate::terminal::plain;
use crate::text::Text;

/// Functions that may be meant as one of the usual types, which the style doesn't define: its name differs in a letter or two.
pub fn of_types(style: &StyleRead<'_>, text: &Text<'_>, uses: &UsesOfNames<'_>) -> Vec<Hint> {
    let is_declared =
        |name: &str| style.names.declared.iter().any(|declared| declared.name.eq_ignore_ascii_case(name.as_bytes()));
    let (known, lacked): (Vec<&str>, Vec<&str>) =
        USUAL_TYPES[..STANDARD_TYPES].iter().partition(|name| is_declared(name));
    if known.len() < LEAST_TYPES {
        return Vec::new();
    }
    let is_unused = |declared: &&DeclaredName<'_>| {
        declared.may_be_type && !is_usual_type(declared.name) && !uses.contains_key(&Folded(declared.name))
    };
    let said = |declared: &DeclaredName<'_>| {
        let (name, meant) =
            (plain(declared.name), plain(nearest(declared.name, lacked.iter().map(|name| name.as_bytes()))?));
        let text_of =
            format!("the style has no function for the type {meant}, and nothing uses {name}: is it {meant}?");
        Some(Hint { line: text.line_of(declared.start), text: text_of, sort: Of::Use })
    };
    style.names.declared.iter().filter(is_unused).filter_map(said).collect()
}

/// How many of the usual types the standard styles know, and how many of these a style has at least that is made for entries of all sorts.
const STANDARD_TYPES: usize = 14;
const LEAST_TYPES: usize = 5;

/// The types that styles usually know.
const USUAL_TYPES: [&str; 24] = [
    "article",
    "book",
    "booklet",
    "conference",
    "inbook",
    "incollection",
    "inproceedings",
    "manual",
    "mastersthesis",
    "misc",
    "phdthesis",
    "proceedings",
    "techreport",
    "unpublished",
    "collection",
    "patent",
    "electronic",
    "online",
    "www",
    "webpage",
    "periodical",
    "thesis",
    "report",
    "standard",
];

/// Whether styles usually know this type.
pub fn is_usual_type(name: &[u8]) -> bool {
    USUAL_TYPES.iter().any(|usual| name.eq_ignore_ascii_case(usual.as_bytes()))
}

/// The functions that are meant as types of entries, as far as can be seen: first those with the name of a usual type, then those above READ without a dot that nothing uses.
pub fn types_meant(style: &StyleRead<'_>) -> Vec<Vec<u8>> {
    let uses = uses(style);
    let functions = style.names.declared.iter().filter(|declared| declared.may_be_type).map(|declared| declared.name);
    let (usual, others): (Vec<&[u8]>, Vec<&[u8]>) = functions.partition(|name| is_usual_type(name));
    let unused = others.into_iter().filter(|name| !uses.contains_key(&Folded(name)) && !name.contains(&b'.'));
    usual.into_iter().chain(unused).map(<[u8]>::to_vec).collect()
}

#[cfg(test)]
mod tests {
    use super::*;

    fn said(style: &str) -> Vec<(usize, String)> {
        let read = StyleRead::new(style.as_bytes());
        let hints = of_types(&read, &Text::new(style.as_bytes()), &uses(&read));
        hints.into_iter().map(|hint| (hint.line, hint.text)).collect()
    }

    #[test]
    fn types_that_are_misspelt_are_named() {
        let types = ["article", "book", "misc", "manual", "booklet", "masterthesis", "own"];
        let functions: String = types.iter().map(|name| format!("FUNCTION {{{name}}} {{}}\n")).collect();
        let text =
            "the style has no function for the type mastersthesis, and nothing uses masterthesis: is it mastersthesis?";
        assert_eq!(said(&format!("{functions}READ\n")), [(6, text.to_string())]);
        assert_eq!(said(&format!("{functions}FUNCTION {{mastersthesis}} {{}}\nREAD\n")), []);
    }
}
