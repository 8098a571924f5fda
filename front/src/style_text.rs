//! The text of a style: its tokens, its commands, and where in a line an error of it was met. `docs/RULES.md` has its rules, under Styles.
//!
//! This is no second reader of styles: it looks for what a person would look for. A command's word at the beginning of a line begins a
//! command also where the braces above say that a body goes on, since then one of these braces is the mistake; and after an empty line it
//! always does, since there the program goes on after a mistake.

use crate::advice;
use crate::database::Folded;
use crate::nearest::{distance, nearest};
use crate::text::{Text, find_byte, is_white};
use std::collections::HashSet;
use std::ops::RangeInclusive;

/// What a token is.
#[derive(Debug, Clone, Copy, PartialEq, Eq)]
pub enum Kind {
    /// `{`
    Open,
    /// `}`
    Close,
    /// A string with its quotes.
    Text,
    /// A string without its end on its line.
    OpenText,
    /// `#` and an integer.
    Integer,
    /// `#` and something else.
    NoInteger,
    /// What stands directly after a string or an integer.
    Stuff,
    /// `'` and a name.
    Quoted,
    /// A name, or a command's word.
    Name,
}

/// A token of a style.
#[derive(Debug, Clone, Copy, PartialEq, Eq)]
pub struct Token {
    /// What it is.
    pub kind: Kind,
    /// Where it begins.
    pub start: usize,
    /// Where it ends.
    pub end: usize,
}

/// The tokens of a text. Comments and whitespace stand between them.
#[derive(Debug, Clone)]
pub struct Tokens<'a> {
    text: &'a [u8],
    at: usize,
    is_behind_literal: bool,
}

/// Whether each byte ends a name.
const ENDS_NAME: [bool; 256] = {
    let (mut table, mut byte) = ([false; 256], 0);
    while byte < 256 {
        table[byte] = is_white(byte as u8) || matches!(byte as u8, b'\n' | b'}' | b'%');
        byte += 1;
    }
    table
};

fn ends_name(byte: u8) -> bool {
    ENDS_NAME[usize::from(byte)]
}

/// Whether each byte may stand between tokens, outside of comments.
const IS_SPACE: [bool; 256] = {
    let mut table = ENDS_NAME;
    (table[b'}' as usize], table[b'%' as usize]) = (false, false);
    table
};

impl<'a> Tokens<'a> {
    /// The tokens of a text.
    pub fn new(text: &'a [u8]) -> Tokens<'a> {
        Tokens { text, at: 0, is_behind_literal: false }
    }

    /// The tokens of a text from this place on, where one begins or ended.
    fn behind(text: &'a [u8], place: usize) -> Tokens<'a> {
        Tokens { text, at: place.min(text.len()), is_behind_literal: false }
    }

    fn byte(&self) -> Option<u8> {
        self.text.get(self.at).copied()
    }

    /// Passes over bytes up to one that passes a test, or to the end.
    #[inline]
    fn pass_to(&mut self, test: impl Fn(u8) -> bool) {
        let (text, mut at) = (self.text, self.at);
        while at < text.len() && !test(text[at]) {
            at += 1;
        }
        self.at = at;
    }

    #[inline]
    fn skip_space(&mut self) {
        loop {
            self.pass_to(|byte| !IS_SPACE[usize::from(byte)]);
            if self.byte() != Some(b'%') {
                return;
            }
            self.at = find_byte(self.text, self.at, b'\n').unwrap_or(self.text.len());
        }
    }

    /// Takes a string from its quote on.
    fn take_text(&mut self) -> Kind {
        self.at += 1;
        self.pass_to(|byte| matches!(byte, b'"' | b'\n'));
        if self.byte() != Some(b'"') {
            return Kind::OpenText;
        }
        self.at += 1;
        Kind::Text
    }

    /// Takes an integer from its `#` on, or all up to the next end of a name.
    fn take_integer(&mut self) -> Kind {
        let rest = &self.text[self.at + 1..];
        let minus = usize::from(rest.first() == Some(&b'-'));
        let digits = rest[minus..].iter().take_while(|byte| byte.is_ascii_digit()).count();
        // (so few digits are one)
        if (1..10).contains(&digits) {
            self.at += 1 + minus + digits;
            return Kind::Integer;
        }
        let number = std::str::from_utf8(&rest[..minus + digits]).ok().and_then(|number| number.parse::<i32>().ok());
        if number.is_none() {
            self.pass_to(ends_name);
            return Kind::NoInteger;
        }
        self.at += 1 + minus + digits;
        Kind::Integer
    }

    #[inline(always)]
    fn take(&mut self, first: u8) -> Kind {
        if self.is_behind_literal {
            self.pass_to(ends_name);
            return Kind::Stuff;
        }
        match first {
            b'"' => return self.take_text(),
            b'#' => return self.take_integer(),
            b'{' | b'}' => {
                self.at += 1;
                return if first == b'{' { Kind::Open } else { Kind::Close };
            }
            _ => self.pass_to(ends_name),
        }
        if first == b'\'' { Kind::Quoted } else { Kind::Name }
    }
}

impl Tokens<'_> {
    /// The next token. (It is made part of the loop that asks for it, where each instruction counts.)
    #[inline(always)]
    pub fn take_token(&mut self) -> Option<Token> {
        self.is_behind_literal = self.is_behind_literal && self.byte().is_some_and(|byte| !ends_name(byte));
        if !self.is_behind_literal {
            self.skip_space();
        }
        let start = self.at;
        let kind = self.take(self.byte()?);
        self.is_behind_literal = matches!(kind, Kind::Text | Kind::Integer);
        Some(Token { kind, start, end: self.at })
    }
}

impl Iterator for Tokens<'_> {
    type Item = Token;

    fn next(&mut self) -> Option<Token> {
        self.take_token()
    }
}

/// A command of a style.
#[derive(Debug, Clone, Copy, PartialEq, Eq)]
pub struct Command<'a> {
    /// Its word, as the style spells it.
    pub word: &'a [u8],
    /// The name in its first argument, if that is one name: the function, or the macro.
    pub name: Option<&'a [u8]>,
    /// Where it begins.
    pub start: usize,
    /// How many more braces are opened in it than closed; below 0 if more are closed.
    pub balance: i64,
}

const WORDS: [&str; 10] =
    ["entry", "integers", "strings", "function", "macro", "read", "execute", "iterate", "reverse", "sort"];

/// How many letters a command's word has.
const LENGTHS: RangeInclusive<usize> = 4..=8;

/// Whether this is a command's word.
pub fn is_command(word: &[u8]) -> bool {
    LENGTHS.contains(&word.len()) && WORDS.iter().any(|command| word.eq_ignore_ascii_case(command.as_bytes()))
}

impl Command<'_> {
    /// Whether it is this command.
    pub fn is(&self, word: &str) -> bool {
        self.word.eq_ignore_ascii_case(word.as_bytes())
    }
}

/// The commands of a style, in their order.
pub fn commands(text: &[u8]) -> Vec<Command<'_>> {
    commands_among(text, Tokens::new(text))
}

/// The commands of a style of which these are all tokens, in their order.
pub fn commands_among(text: &[u8], tokens: impl Iterator<Item = Token>) -> Vec<Command<'_>> {
    let mut commands: Vec<Command<'_>> = Vec::new();
    let mut balance = 0;
    for token in tokens {
        match token.kind {
            Kind::Open => balance += 1,
            Kind::Close => balance -= 1,
            Kind::Name => {
                if let Some(command) = command_of(text, token.start, balance > 0) {
                    // (a brace that touches the word is part of its token)
                    balance = i64::from(text[token.start + command.word.len()..token.end].starts_with(b"{"));
                    commands.push(command);
                }
            }
            _ => {}
        }
        if let Some(last) = commands.last_mut() {
            last.balance = balance;
        }
    }
    commands
}

/// The command's word that differs least from this one, if it differs in two letters at most.
pub fn nearest_word(word: &[u8]) -> Option<&'static str> {
    let word = word.to_ascii_lowercase();
    let differing = WORDS.iter().map(|command| (distance(&word, command.as_bytes()), *command));
    differing.min().filter(|(distance, _)| *distance <= 2).map(|(_, command)| command)
}

/// Whether the body of a function goes on after this error, which stands in the command `around`.
pub fn costs_a_token(error: &[u8], around: Option<&Command<'_>>) -> bool {
    let is_of_command =
        || around.is_some_and(|command| ["execute", "iterate", "reverse"].iter().any(|word| command.is(word)));
    let is_of_token = error == b"Illegal integer" || error == b"Illegal text after a literal";
    is_of_token || error.ends_with(b" is an unknown function") && !is_of_command()
}

/// What is skipped after an error of this line that ends its command: up to the next empty line, or to the end.
pub fn end_of_skipped(text: &Text<'_>, number: usize) -> usize {
    let (_, mut at) = text.span(number);
    while let Some(rest) = text.bytes.get(at + 1..).filter(|rest| !rest.is_empty()) {
        let length = rest.iter().position(|byte| *byte == b'\n').unwrap_or(rest.len());
        if rest[..length].iter().all(|byte| is_white(*byte)) {
            return at + 1;
        }
        at += 1 + length;
    }
    text.bytes.len()
}

/// The last token of a part of a text.
pub fn last_token(text: &Text<'_>, from: usize, to: usize) -> Option<Token> {
    Tokens::behind(&text.bytes[..to], from).last()
}

/// In which column a place of a text stands; a tab goes on to the next eighth one.
fn column(text: &Text<'_>, place: usize) -> usize {
    let (start, _) = text.span(text.line_of(place));
    text.bytes[start..place].iter().fold(0, |column, byte| if *byte == b'\t' { column / 8 * 8 + 8 } else { column + 1 })
}

/// In a command that isn't closed the brace that is likely to be without its other one, and the token that shows it: the first one that begins a line further
/// left than an open brace that itself begins one. None where the lines aren't set in so.
pub fn unclosed(text: &Text<'_>, from: usize, to: usize) -> Option<(Token, Token)> {
    // (a brace that begins no line counts as if it stood at the margin)
    let mut open: Vec<(Token, usize)> = Vec::new();
    for token in Tokens::behind(&text.bytes[..to], from) {
        let begun = begins_line(text.bytes, token.start).then(|| column(text, token.start));
        if let (Some(begun), Some((brace, column))) = (begun, open.last())
            && begun < *column
        {
            return Some((*brace, token));
        }
        match token.kind {
            Kind::Open => open.push((token, begun.unwrap_or(0))),
            Kind::Close => drop(open.pop()),
            _ => {}
        }
    }
    None
}

/// The names that a part of a style defines.
#[derive(Debug, Clone, Default, PartialEq, Eq)]
pub struct Defined<'a> {
    names: HashSet<Folded<'a>>,
}

impl<'a> Defined<'a> {
    /// The names that the commands of a part of a style define: functions and macros, fields and variables. What EXECUTE, ITERATE and REVERSE name
    /// is no definition. Of what stands before the first of these commands all names count.
    pub fn new(text: &'a [u8], from: usize, to: usize, commands: &[Command<'a>]) -> Defined<'a> {
        let begin = commands.partition_point(|command| command.start < from);
        let inside = &commands[begin..commands.partition_point(|command| command.start < to)];
        let ends = inside.iter().skip(1).map(|next| next.start).chain([to]);
        let mut names = HashSet::new();
        let first = inside.first().map_or(to, |command| command.start);
        names.extend(names_in(&text[from.min(first)..first]));
        for (command, end) in inside.iter().zip(ends) {
            let defines_one = command.is("function") || command.is("macro");
            names.extend(command.name.filter(|_| defines_one).map(Folded));
            if ["entry", "integers", "strings"].iter().any(|word| command.is(word)) {
                names.extend(names_in(&text[command.start + command.word.len()..end]));
            }
        }
        Defined { names }
    }

    /// This name alone.
    pub fn one(name: &'a [u8]) -> Defined<'a> {
        Defined { names: [Folded(name)].into() }
    }

    /// The name among them, or of a built-in function, that differs least from this one.
    pub fn nearest(&self, name: &[u8]) -> Option<&'a [u8]> {
        let built_in = advice::built_in().map(|name| -> &'a [u8] { name });
        nearest(name, built_in.chain(self.names.iter().map(|known| -> &'a [u8] { known.0 })))
    }

    /// Whether this name is one of them.
    pub fn has(&self, name: &[u8]) -> bool {
        self.names.contains(&Folded(name))
    }
}

/// The names in a text.
fn names_in(text: &[u8]) -> impl Iterator<Item = Folded<'_>> {
    let names = Tokens::new(text).filter(|token| token.kind == Kind::Name);
    names.map(|token| Folded(&text[token.start..token.end]))
}

/// Whether only whitespace stands before this place in its line, and an empty line above.
fn is_behind_empty_line(text: &[u8], place: usize) -> bool {
    let mut ends = text[..place]
        .iter()
        .rev()
        .take_while(|byte| is_white(**byte) || **byte == b'\n')
        .filter(|byte| **byte == b'\n');
    ends.nth(1).is_some()
}

/// Whether only whitespace stands before this place in its line.
fn begins_line(text: &[u8], place: usize) -> bool {
    text[..place].iter().rev().find(|byte| !is_white(**byte)).is_none_or(|byte| *byte == b'\n')
}

/// The command whose word is the name that begins here, if it is one; `is_open` says that braces of the text above aren't closed. Most names are no words of commands, so that is looked at first.
fn command_of(text: &[u8], start: usize, is_open: bool) -> Option<Command<'_>> {
    let letters = text[start..].iter().take(LENGTHS.end() + 1).take_while(|byte| byte.is_ascii_alphabetic()).count();
    let word = &text[start..start + letters];
    if !is_command(word) {
        return None;
    }
    let is_inside = is_open && !is_behind_empty_line(text, start);
    if is_inside && !begins_line(text, start) { None } else { command_at(text, start, word, is_inside) }
}

/// The commands that have no argument.
const ALONE: [&str; 2] = ["read", "sort"];

/// The command of this word, which begins here. Inside of braces it has an argument, or stands alone in its line if it takes none: a field may have such a name, too.
fn command_at<'a>(text: &'a [u8], start: usize, word: &'a [u8], is_inside: bool) -> Option<Command<'a>> {
    let behind = &text[start + word.len()..];
    if !behind.first().is_none_or(|byte| ends_name(*byte) || *byte == b'{') {
        return None;
    }
    // (of the line no more is looked at than these need: a line may have many commands)
    let argument = &behind[behind.iter().position(|byte| !is_white(*byte)).unwrap_or(behind.len())..];
    let is_alone = matches!(argument.first(), None | Some(b'\n'));
    let takes_none = ALONE.iter().any(|command| word.eq_ignore_ascii_case(command.as_bytes()));
    let is_one = if is_alone && !takes_none { argument.trim_ascii_start() } else { argument };
    if is_inside && !(is_one.starts_with(b"{") || is_alone && (takes_none || is_one.is_empty())) {
        return None;
    }
    let name = argument.strip_prefix(b"{").and_then(|argument| {
        let name = &argument[..argument.iter().position(|byte| matches!(byte, b'{' | b'}' | b'\n'))?];
        (argument[name.len()] == b'}').then(|| name.trim_ascii())
    });
    Some(Command { word, name, start, balance: 0 })
}

/// The lines of a text in which a name stands as a token, each once, and how many tokens it is.
pub fn lines_of_name(text: &Text<'_>, name: &[u8]) -> (Vec<usize>, usize) {
    let bytes = |token: &Token| &text.bytes[token.start + usize::from(token.kind == Kind::Quoted)..token.end];
    let is_it = |token: &Token| matches!(token.kind, Kind::Name | Kind::Quoted) && Folded(bytes(token)) == Folded(name);
    let mut lines: Vec<usize> = Tokens::new(text.bytes).filter(is_it).map(|token| text.line_of(token.start)).collect();
    let count = lines.len();
    lines.dedup();
    (lines, count)
}

/// The part of a style that a message is about, by the bytes at which it was met: a word, or the one that ends there; a string without its end up to the line's.
pub fn part_at(text: &[u8], start: usize, end: usize) -> (usize, usize) {
    let at = start.min(text.len());
    let from = if start < end { at } else { begin_of_word(text, at) };
    let token = Tokens::behind(text, from).next().filter(|token| token.start == from);
    match token {
        Some(token) if token.kind == Kind::OpenText => (from, token.end),
        _ => (from, end),
    }
}

/// Where the token begins that ends at this place; this place where none does.
fn begin_of_word(text: &[u8], place: usize) -> usize {
    let line = text[..place].iter().rposition(|byte| *byte == b'\n').map_or(0, |feed| feed + 1);
    let last = Tokens::behind(&text[..place], line).last().filter(|token| token.end == place);
    last.map_or(place, |token| token.start)
}

#[cfg(test)]
mod tests {
    use super::*;

    fn kinds(text: &[u8]) -> Vec<Kind> {
        Tokens::new(text).map(|token| token.kind).collect()
    }

    #[test]
    fn an_open_brace_is_seen_by_its_column() {
        let seen = |bytes: &[u8]| {
            let text = Text::new(bytes);
            let found = unclosed(&text, 0, bytes.len());
            found.map(|(brace, token)| (text.line_of(brace.start), text.line_of(token.start)))
        };
        assert_eq!(seen(b"FUNCTION {f}\n{ a\n    'b\n    { c\n  if$\n}\n"), Some((4, 5)));
        assert_eq!(seen(b"FUNCTION {f}\n{ a\n\t{ b }\n\t{ c\n\t  d\n    e\n}\n"), Some((4, 6)));
        assert_eq!(seen(b"FUNCTION {f}\n{ a\n{ c\nif$\n}\n"), None);
        assert_eq!(seen(b""), None);
    }

    #[test]
    fn tokens_are_those_of_bodies() {
        use Kind::*;
        assert_eq!(kinds(b"{\"a}\" write$ % }\n #-1 'x}"), [Open, Text, Name, Integer, Quoted, Close]);
        assert_eq!(kinds(b"#1{skip$} \"a\"b \"c"), [Integer, Stuff, Close, Text, Stuff, OpenText]);
        assert_eq!(kinds(b"# #2147483648 #-2147483648 #+1"), [NoInteger, NoInteger, Integer, NoInteger]);
        assert_eq!(kinds(b"a{b write$\"a\""), [Name, Name]);
        assert_eq!(kinds(b"\"a\"\"b\" \"c\n d"), [Text, Stuff, OpenText, Name]);
    }

    fn shown(text: &[u8]) -> Vec<(String, Option<String>, i64)> {
        let text_of = |bytes: &[u8]| String::from_utf8_lossy(bytes).into_owned();
        commands(text)
            .iter()
            .map(|command| (text_of(command.word), command.name.map(text_of), command.balance))
            .collect()
    }

    fn command(word: &str, name: Option<&str>, balance: i64) -> (String, Option<String>, i64) {
        (word.into(), name.map(String::from), balance)
    }

    #[test]
    fn commands_stand_anywhere() {
        let text = b"ENTRY {title}{}{label}\nFUNCTION {f} {\"}\" entry.max$ }READ iterate{f} SORT % REVERSE {f}\nEXECUTE\n{g}\n";
        let wanted = [
            command("ENTRY", Some("title"), 0),
            command("FUNCTION", Some("f"), 0),
            command("READ", None, 0),
            command("iterate", Some("f"), 0),
            command("SORT", None, 0),
            command("EXECUTE", None, 0),
        ];
        assert_eq!(shown(text), wanted);
    }

    #[test]
    fn a_missing_brace_is_seen_in_its_function() {
        let text = b"FUNCTION {f} { #1 {skip$} { if$ }\n\nFUNCTION {g} {}}\n  sort.key$\nREAD\n";
        let wanted = [command("FUNCTION", Some("f"), 1), command("FUNCTION", Some("g"), -1), command("READ", None, 0)];
        assert_eq!(shown(text), wanted);
    }

    #[test]
    fn a_field_may_have_the_name_of_a_command() {
        let words = |text: &'static [u8]| commands(text).iter().map(|command| command.word).collect::<Vec<_>>();
        assert_eq!(words(b"ENTRY {\n    execute\n    title\n  }\n  {}\n  {}\nREAD\n"), [&b"ENTRY"[..], b"READ"]);
        // (a body that isn't closed hides no command)
        assert_eq!(words(b"FUNCTION {f} { skip$\nEXECUTE\n {f}\nREAD\n"), [&b"FUNCTION"[..], b"EXECUTE", b"READ"]);
    }

    #[test]
    fn names_are_defined_by_commands() {
        let text = b"FUNCTION {f} {x}\nINTEGERS { i j }\nMACRO {jan} {\"J\"}\nEXECUTE {run}\nITERATE {each}\nREVERSE {back}\nSORT";
        let all = commands(text);
        let defined = Defined::new(text, 0, text.len(), &all);
        assert!([&b"f"[..], b"I", b"j", b"jan"].iter().all(|name| defined.has(name)));
        assert!([&b"x"[..], b"run", b"each", b"back"].iter().all(|name| !defined.has(name)));
        assert!(!Defined::new(text, all[1].start, text.len(), &all).has(b"f"));
        let unknown = b"INTEGER {count} STRINGS {s}\n\nSTRINGS {t}";
        let skipped = Defined::new(unknown, 0, end_of_skipped(&Text::new(unknown), 1), &commands(unknown));
        assert!(skipped.has(b"count") && skipped.has(b"s") && !skipped.has(b"t"));
    }

    #[test]
    fn words_are_like_commands() {
        assert_eq!(nearest_word(b"INTEGER"), Some("integers"));
        assert_eq!(nearest_word(b"Funktion"), Some("function"));
        assert_eq!(nearest_word(b"nosuch"), None);
    }

    #[test]
    fn what_is_skipped_ends_at_an_empty_line() {
        let end = |text: &[u8], number| end_of_skipped(&Text::new(text), number);
        assert_eq!(end(b"x\n y\n \t\nz", 1), 5);
        assert_eq!(end(b"x\n\nz", 1), 2);
        assert_eq!(end(b"x\ny", 1), 3);
        assert_eq!(end(b"", 1), 0);
    }

    #[test]
    fn names_of_commands_in_bodies_are_names() {
        assert_eq!(shown(b"FUNCTION {f} { x\n read 'y :=\n sort.key$ }\n"), [command("FUNCTION", Some("f"), 0)]);
    }
    #[test]
    fn a_message_is_about_a_word() {
        let style = b"EXECUTE {nosuch}\n\"a\" \"b c\nMACRO % x\n{\n";
        let part = |start, end| {
            let (from, to) = part_at(style, start, end);
            String::from_utf8_lossy(&style[from..to]).into_owned()
        };
        assert_eq!([part(0, 7), part(15, 15), part(22, 22)], ["EXECUTE", "nosuch", "\"b c"]);
        assert_eq!([part(31, 31), part(35, 35)], ["MACRO", ""]);
    }
}
