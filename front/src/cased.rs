//! Of which fields a style changes the case, for entries of a type: those before `"t" change.case$` in the functions that the type's function names.

use crate::code_places::{Code, DEFAULT_TYPE, Declared};
use crate::database::Folded;
use crate::style_text::Kind;
use std::cell::RefCell;
use std::collections::{HashMap, HashSet};
use std::ops::Range;

/// A style, and the fields of the types that were asked for.
#[derive(Debug)]
pub struct Cased<'a> {
    code: Code<'a>,
    by_type: RefCell<HashMap<Vec<u8>, Vec<&'a [u8]>>>,
}

impl<'a> Cased<'a> {
    pub fn new(style: &'a [u8]) -> Cased<'a> {
        Cased { code: Code::new(style), by_type: RefCell::default() }
    }

    /// Whether the style changes the case of this field in entries of this type.
    pub fn changes(&self, kind: &[u8], field: &[u8]) -> bool {
        let mut known = self.by_type.borrow_mut();
        let fields = known.entry(kind.to_ascii_lowercase()).or_insert_with(|| self.fields_of(kind));
        fields.iter().any(|changed| changed.eq_ignore_ascii_case(field))
    }

    /// The fields whose case changes for entries of this type.
    fn fields_of(&self, kind: &[u8]) -> Vec<&'a [u8]> {
        let first = self.code.function(kind).or_else(|| self.code.function(DEFAULT_TYPE));
        let (mut open, mut seen, mut fields) = (Vec::from_iter(first), HashSet::new(), Vec::new());
        while let Some((name, tokens)) = open.pop() {
            if seen.insert(Folded(name)) {
                fields.extend(self.changed_in(tokens.clone()));
                open.extend(self.named_in(tokens));
            }
        }
        fields
    }

    /// The functions of the style that these tokens name.
    fn named_in(&self, tokens: Range<usize>) -> impl Iterator<Item = (&'a [u8], Range<usize>)> {
        let name = |index: usize| self.code.of(index).strip_prefix(b"'").unwrap_or(self.code.of(index));
        let names = tokens.filter(|index| matches!(self.code.kind(*index), Kind::Name | Kind::Quoted)).map(name);
        names.filter_map(|name| self.code.function(name))
    }

    /// The fields that stand last before each `"t" change.case$` of these tokens.
    fn changed_in(&self, tokens: Range<usize>) -> Vec<&'a [u8]> {
        let (mut last, mut found) = (None, Vec::new());
        for index in tokens {
            let name = self.code.of(index);
            if self.code.kind(index) == Kind::Name && self.code.declared(name) == Some(Declared::Field) {
                last = Some(name);
            } else if name.eq_ignore_ascii_case(b"change.case$") && self.code.of(index - 1) == b"\"t\"" {
                found.extend(last);
            }
        }
        found
    }
}

#[cfg(test)]
mod tests {
    use super::*;

    #[test]
    fn fields_of_types_are_found() {
        let style = "ENTRY {title note}{}{}\nFUNCTION {f.g} {title empty$ {\"\"} {title \"t\" change.case$} if$}\nFUNCTION {h} {title \"l\" change.case$}\n\
            FUNCTION {article} {f.g write$}\nFUNCTION {book} {title 'h pop$ pop$ note write$}\nFUNCTION {default.type} {article}\n";
        let cased = Cased::new(style.as_bytes());
        let changes = |kind: &str, field: &str| cased.changes(kind.as_bytes(), field.as_bytes());
        assert!(changes("Article", "Title") && changes("other", "title"));
        assert!(!changes("article", "note") && !changes("book", "title"));
        assert!(!Cased::new(b"").changes(b"article", b"title"));
    }
}
