//! The text of a style, read once for all who look at the whole of it: its tokens, its commands, and the names that these declare.

use crate::code_places::DEFAULT_TYPE;
use crate::database::Folded;
use crate::style_text::{Command, Kind, Token, Tokens, commands_among};
use std::collections::HashSet;

/// What a style declares a name as.
#[derive(Debug, Clone, Copy, PartialEq, Eq)]
pub enum Sort {
    Field,
    Function,
    Integer,
    Text,
}

/// A name that a style declares.
#[derive(Debug, Clone, Copy, PartialEq, Eq)]
pub struct DeclaredName<'a> {
    pub name: &'a [u8],
    pub sort: Sort,
    /// Where it stands.
    pub start: usize,
    /// Whether it is a function above READ: a run takes it as a type of entry.
    pub is_type_to_a_run: bool,
    /// Whether an entry's type may be meant by it: it is such a function without a dot, or `default.type`.
    pub may_be_type: bool,
}

/// What a style declares, and its commands.
#[derive(Debug, Clone)]
pub struct StyleNames<'a> {
    pub bytes: &'a [u8],
    pub commands: Vec<Command<'a>>,
    /// In the order of the text.
    pub declared: Vec<DeclaredName<'a>>,
    fields: HashSet<Folded<'a>>,
}

/// A style's text, read once.
#[derive(Debug, Clone)]
pub struct StyleRead<'a> {
    pub names: StyleNames<'a>,
    pub tokens: Vec<Token>,
}

impl<'a> StyleRead<'a> {
    pub fn new(bytes: &'a [u8]) -> StyleRead<'a> {
        let tokens: Vec<Token> = Tokens::new(bytes).collect();
        StyleRead { names: StyleNames::among(bytes, tokens.iter().copied()), tokens }
    }

    /// A token's text.
    pub fn of(&self, token: &Token) -> &'a [u8] {
        &self.names.bytes[token.start..token.end]
    }
}

impl<'a> StyleNames<'a> {
    pub fn new(bytes: &'a [u8]) -> StyleNames<'a> {
        StyleNames::among(bytes, Tokens::new(bytes))
    }

    /// What is declared by a text of which these are all tokens.
    fn among(bytes: &'a [u8], tokens: impl Iterator<Item = Token>) -> StyleNames<'a> {
        let commands = commands_among(bytes, tokens);
        let declared = declared(bytes, &commands);
        let is_field = |declared: &&DeclaredName<'a>| declared.sort == Sort::Field;
        let fields = declared.iter().filter(is_field).map(|declared| Folded(declared.name)).collect();
        StyleNames { bytes, commands, declared, fields }
    }

    /// The fields that the style declares, in its order.
    pub fn fields(&self) -> impl Iterator<Item = &'a [u8]> + '_ {
        let fields = self.declared.iter().filter(|declared| declared.sort == Sort::Field);
        fields.map(|declared| declared.name)
    }

    /// Whether the style declares a field of this name.
    pub fn has_field(&self, name: &[u8]) -> bool {
        self.fields.contains(&Folded(name))
    }

    /// The functions of the style that stand above READ, in its order: to a run each of them is a type of entry.
    pub fn functions_above_read(&self) -> impl Iterator<Item = &'a [u8]> + '_ {
        let functions = self.declared.iter().filter(|declared| declared.is_type_to_a_run);
        functions.map(|declared| declared.name)
    }

    /// How many different names the style declares.
    pub fn count(&self) -> usize {
        self.declared.iter().map(|declared| Folded(declared.name)).collect::<HashSet<_>>().len()
    }
}

/// As what a command declares the names in its braces, from the first to the last.
fn sorts_of(command: &Command<'_>) -> &'static [Sort] {
    const SORTS: [(&str, &[Sort]); 4] = [
        ("function", &[Sort::Function]),
        ("entry", &[Sort::Field, Sort::Integer, Sort::Text]),
        ("integers", &[Sort::Integer]),
        ("strings", &[Sort::Text]),
    ];
    SORTS.iter().find(|(word, _)| command.is(word)).map_or(&[], |(_, sorts)| sorts)
}

/// The names that a style with these commands declares by FUNCTION, INTEGERS, STRINGS, and as fields and variables of entries.
fn declared<'a>(bytes: &'a [u8], commands: &[Command<'a>]) -> Vec<DeclaredName<'a>> {
    let read = commands.iter().find(|command| command.is("read")).map_or(bytes.len(), |command| command.start);
    let ends = commands.iter().skip(1).map(|next| next.start).chain([bytes.len()]);
    let mut found = Vec::new();
    for (command, end) in commands.iter().zip(ends) {
        let names = names_of(bytes, command, end).map(|(sort, token)| {
            let name = &bytes[token.start..token.end];
            let is_type_to_a_run = sort == Sort::Function && command.start < read;
            let is_meant = !name.contains(&b'.') || name.eq_ignore_ascii_case(DEFAULT_TYPE);
            let may_be_type = is_type_to_a_run && is_meant;
            DeclaredName { name, sort, start: token.start, is_type_to_a_run, may_be_type }
        });
        // (FUNCTION declares one)
        found.extend(names.take(if command.is("function") { 1 } else { usize::MAX }));
    }
    found
}

/// The names in the braces of a command that ends there, each as what it is declared.
fn names_of<'a>(bytes: &'a [u8], command: &Command<'a>, end: usize) -> impl Iterator<Item = (Sort, Token)> + 'a {
    let begin = command.start + command.word.len();
    let mut sorts = sorts_of(command);
    // (its first brace may touch its word, so that both are one token of the whole text)
    let tokens = Tokens::new(&bytes[begin..end]).map_while(move |token| {
        let sort = *sorts.first()?;
        if token.kind == Kind::Close {
            sorts = &sorts[1..];
        }
        Some((sort, token))
    });
    let names = tokens.filter(|(_, token)| token.kind == Kind::Name);
    names.map(move |(sort, token)| (sort, Token { start: begin + token.start, end: begin + token.end, ..token }))
}

#[cfg(test)]
mod tests {
    use super::*;

    const STYLE: &[u8] = b"ENTRY{title year}{n}{t}\nINTEGERS {i N}\nFUNCTION{f.g}{skip$}\nFUNCTION {misc} {}\nFUNCTION {Default.Type} {}\nREAD\nFUNCTION {h} {}\nSTRINGS {s}\nMACRO {m} {\"x\"}\n";

    #[test]
    fn names_are_declared_by_commands() {
        let style = StyleNames::new(STYLE);
        let of_sort = |sort| -> Vec<String> {
            let declared = style.declared.iter().filter(|declared| declared.sort == sort);
            declared.map(|declared| String::from_utf8_lossy(declared.name).into_owned()).collect()
        };
        assert_eq!(of_sort(Sort::Field), ["title", "year"]);
        assert_eq!(of_sort(Sort::Integer), ["n", "i", "N"]);
        assert_eq!(of_sort(Sort::Text), ["t", "s"]);
        assert_eq!(of_sort(Sort::Function), ["f.g", "misc", "Default.Type", "h"]);
        assert_eq!((style.has_field(b"Title"), style.has_field(b"n"), style.count()), (true, false, 10));
        assert!(style.declared.iter().all(|declared| STYLE[declared.start..].starts_with(declared.name)));
    }

    #[test]
    fn functions_above_read_are_types_to_a_run() {
        let style = StyleNames::new(STYLE);
        assert!(style.functions_above_read().eq([&b"f.g"[..], b"misc", b"Default.Type"]));
        let meant = style.declared.iter().filter(|declared| declared.may_be_type);
        assert!(meant.map(|declared| declared.name).eq([&b"misc"[..], b"Default.Type"]));
        assert!(StyleNames::new(b"").declared.is_empty());
        assert_eq!(StyleNames::new(b"ENTRY {a} {} FUNCTION").fields().collect::<Vec<_>>(), [b"a"]);
    }
}
