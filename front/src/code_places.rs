//! What stands at a place of a style's code: the token there, those before it, and what a style declares a name as. It is read from the text, as a person would; so it may be silent.

use crate::advice;
use crate::database::Folded;
use crate::notes;
use crate::style_text::{Kind, Token, Tokens, commands};
use crate::text::Text;
use std::collections::{HashMap, HashSet};
use std::ops::Range;

/// What a style declares a name as.
#[derive(Debug, Clone, Copy, PartialEq, Eq)]
pub enum Declared {
    Field,
    /// An integer or a string; whether each entry has its own.
    Integer {
        is_of_entry: bool,
    },
    Text {
        is_of_entry: bool,
    },
    /// A function, and the line of its name.
    Function {
        line: usize,
    },
}

impl Declared {
    /// Whether each entry has a value of its own.
    pub fn is_of_entry(self) -> bool {
        matches!(self, Declared::Field | Declared::Integer { is_of_entry: true } | Declared::Text { is_of_entry: true })
    }

    /// In words, for a variable or a field.
    pub fn text(self) -> &'static str {
        match self {
            Declared::Field => "a field",
            Declared::Integer { is_of_entry: false } => "an integer (INTEGERS)",
            Declared::Integer { is_of_entry: true } => "an integer of each entry (ENTRY)",
            Declared::Text { is_of_entry: false } => "a string (STRINGS)",
            Declared::Text { is_of_entry: true } => "a string of each entry (ENTRY)",
            Declared::Function { .. } => "a function",
        }
    }
}

/// The function that executes that of the entry's type.
pub const CALLS_TYPE: &[u8] = b"call.type$";

/// The function of entries whose type the style doesn't know.
pub const DEFAULT_TYPE: &[u8] = b"default.type";

/// Of each function of a style the functions that it names, with the first place of each in the text.
pub type NamesOfFunctions<'a> = HashMap<Folded<'a>, Vec<(usize, Folded<'a>)>>;

/// A style's code.
#[derive(Debug, Clone)]
pub struct Code<'a> {
    pub text: Text<'a>,
    tokens: Vec<Token>,
    declared: HashMap<Folded<'a>, Declaration>,
    /// The tokens `:=` that come after each quoted name.
    assigned: HashMap<Folded<'a>, Vec<usize>>,
    /// Of each brace the token that is its other one, if there is one.
    others: Vec<Option<u32>>,
}

/// What a name is declared as, and where it stands there.
#[derive(Debug, Clone, Copy)]
struct Declaration {
    sort: Declared,
    start: usize,
}

/// The tokens `:=` that come after each quoted name.
fn assigned<'a>(bytes: &'a [u8], tokens: &[Token]) -> HashMap<Folded<'a>, Vec<usize>> {
    let mut found: HashMap<Folded<'a>, Vec<usize>> = HashMap::new();
    for (index, pair) in tokens.windows(2).enumerate() {
        if pair[0].kind == Kind::Quoted && bytes[pair[1].start..pair[1].end] == *b":=" {
            found.entry(Folded(&bytes[pair[0].start + 1..pair[0].end])).or_default().push(index + 1);
        }
    }
    found
}

/// Of each token, if it is a brace, the other one of its pair: styles nest them a million deep, so nobody looks for it twice.
fn other_braces(tokens: &[Token]) -> Vec<Option<u32>> {
    let (mut open, mut others) = (Vec::new(), vec![None; tokens.len()]);
    for (index, token) in tokens.iter().enumerate() {
        match token.kind {
            Kind::Open => open.push(index),
            Kind::Close => {
                if let Some(first) = open.pop() {
                    (others[first], others[index]) = (u32::try_from(index).ok(), u32::try_from(first).ok());
                }
            }
            _ => {}
        }
    }
    others
}

/// The names that commands declare, with what each of them is.
fn declared<'a>(text: &Text<'a>) -> HashMap<Folded<'a>, Declaration> {
    let commands = commands(text.bytes);
    let ends = commands.iter().skip(1).map(|next| next.start).chain([text.bytes.len()]);
    let mut found = HashMap::new();
    for (command, end) in commands.iter().zip(ends) {
        let begin = command.start + command.word.len();
        let mut closed = 0;
        for token in Tokens::new(&text.bytes[begin..end]) {
            let sort = match closed {
                _ if command.is("function") => Declared::Function { line: text.line_of(begin + token.start) },
                _ if command.is("integers") => Declared::Integer { is_of_entry: false },
                _ if command.is("strings") => Declared::Text { is_of_entry: false },
                0 if command.is("entry") => Declared::Field,
                1 if command.is("entry") => Declared::Integer { is_of_entry: true },
                2 if command.is("entry") => Declared::Text { is_of_entry: true },
                _ => break,
            };
            match token.kind {
                Kind::Close if command.is("entry") => closed += 1,
                Kind::Close => break,
                Kind::Name => {
                    let start = begin + token.start;
                    found.insert(Folded(&text.bytes[start..begin + token.end]), Declaration { sort, start });
                }
                _ => {}
            }
        }
    }
    found
}

impl<'a> Code<'a> {
    pub fn new(bytes: &'a [u8]) -> Code<'a> {
        let text = Text::new(bytes);
        let tokens: Vec<Token> = Tokens::new(bytes).collect();
        let (declared, assigned) = (declared(&text), assigned(bytes, &tokens));
        Code { declared, assigned, others: other_braces(&tokens), tokens, text }
    }

    /// What a style declares a name as.
    pub fn declared(&self, name: &[u8]) -> Option<Declared> {
        self.declared.get(&Folded(name)).map(|declaration| declaration.sort)
    }

    /// In which line it does so.
    pub fn line_of(&self, name: &[u8]) -> Option<usize> {
        self.declared.get(&Folded(name)).map(|declaration| self.text.line_of(declaration.start))
    }

    /// What a variable or a field is declared as, with the line: `a string (STRINGS, line 9)`.
    pub fn declaration(&self, name: &[u8]) -> Option<String> {
        let (sort, line) = (self.declared(name)?.text(), self.line_of(name)?);
        Some(
            sort.strip_suffix(')')
                .map_or_else(|| format!("{sort} (line {line})"), |begin| format!("{begin}, line {line})")),
        )
    }

    /// The variables that all entries share, of the same kind as this one, in the order of the text.
    pub fn shared_like(&self, name: &[u8]) -> Vec<&'a [u8]> {
        let wanted = match self.declared(name) {
            Some(Declared::Integer { .. }) => Declared::Integer { is_of_entry: false },
            Some(Declared::Text { .. }) => Declared::Text { is_of_entry: false },
            _ => return Vec::new(),
        };
        let mut found: Vec<(usize, &'a [u8])> = self
            .declared
            .iter()
            .filter(|(_, declaration)| declaration.sort == wanted)
            .map(|(name, declaration)| (declaration.start, name.0))
            .collect();
        found.sort_unstable();
        found.into_iter().map(|(_, name)| name).collect()
    }

    /// The functions of the style, in the order of the text.
    pub fn functions(&self) -> Vec<&'a [u8]> {
        let is_function = |declaration: &Declaration| matches!(declaration.sort, Declared::Function { .. });
        let all = self.declared.iter().filter(|(_, declaration)| is_function(declaration));
        let mut found: Vec<(usize, &'a [u8])> = all.map(|(name, declaration)| (declaration.start, name.0)).collect();
        found.sort_unstable();
        found.into_iter().map(|(_, name)| name).collect()
    }

    /// Whether no `:=` to this variable is seen to get a value that isn't of this kind, `a string` or `an integer`. The place is that of one that does.
    pub fn gets_only(&self, variable: &[u8], at: CodePlace<'_, '_>, kind: &str) -> bool {
        let all = self.assigned.get(&Folded(variable)).into_iter().flatten().filter(|index| **index != at.index);
        let mut left = all.map(|index| CodePlace { code: self, index: *index });
        left.all(|place| match place.left_by(2) {
            Some(Left::Number(_)) => kind == "an integer",
            Some(Left::Text(_) | Left::Field(_)) => kind == "a string",
            None => true,
        })
    }

    /// The tokens `:=` that assign to this variable.
    pub(crate) fn assignments_to<'s>(&'s self, variable: &'s [u8]) -> &'s [usize] {
        self.assigned.get(&Folded(variable)).map_or(&[], Vec::as_slice)
    }

    /// How many tokens there are.
    pub(crate) fn count(&self) -> usize {
        self.tokens.len()
    }

    /// The text of a token.
    pub(crate) fn of(&self, index: usize) -> &'a [u8] {
        &self.text.bytes[self.tokens[index].start..self.tokens[index].end]
    }

    /// Where a token begins.
    pub(crate) fn start(&self, index: usize) -> usize {
        self.tokens[index].start
    }

    /// What a token is.
    pub(crate) fn kind(&self, index: usize) -> Kind {
        self.tokens[index].kind
    }

    /// In which line a token stands.
    pub(crate) fn line(&self, index: usize) -> usize {
        self.text.line_of(self.tokens[index].start)
    }

    /// The number of a token in its braces, where a function in braces counts once.
    pub(crate) fn number_of(&self, index: usize) -> usize {
        let (mut depth, mut number) = (0, 0);
        for token in self.tokens[..index].iter().rev() {
            match token.kind {
                Kind::Close => depth += 1,
                Kind::Open if depth == 0 => break,
                Kind::Open => depth -= 1,
                _ => {}
            }
            number += usize::from(depth == 0);
        }
        number
    }

    /// The tokens of a line.
    pub(crate) fn tokens_in(&self, line: usize) -> Range<usize> {
        let (start, end) = self.text.span(line);
        let [first, behind] = [start, end].map(|place| self.tokens.partition_point(|token| token.start < place));
        first..behind
    }

    /// The token of this text in a line, where there is one alone: else the one alone that has that number in its braces.
    pub(crate) fn index(&self, line: usize, text: &[u8], number: Option<usize>) -> Option<usize> {
        let is_it = |index: &usize| Folded(self.of(*index)) == Folded(text);
        let all: Vec<usize> = self.tokens_in(line).filter(is_it).take(MOST_OF_LINE + 1).collect();
        if let [only] = all[..] {
            return Some(only);
        }
        let mut of_number = all.iter().filter(|index| Some(self.number_of(**index)) == number);
        of_number.next().filter(|_| all.len() <= MOST_OF_LINE && of_number.next().is_none()).copied()
    }

    /// The token that begins at this place.
    pub(crate) fn token_at(&self, place: usize) -> Option<usize> {
        let index = self.tokens.partition_point(|token| token.start < place);
        self.tokens.get(index).filter(|token| token.start == place).map(|_| index)
    }

    /// The brace that is open around a token.
    fn brace_around(&self, index: usize) -> Option<usize> {
        let mut depth = 0_usize;
        for before in (0..index).rev() {
            match self.tokens[before].kind {
                Kind::Close => depth += 1,
                Kind::Open if depth == 0 => return Some(before),
                Kind::Open => depth -= 1,
                _ => {}
            }
        }
        None
    }

    /// The token that calls the function in whose outermost braces this token stands, if no other one may. A command does, too, but leaves it no operand.
    pub(crate) fn only_call_of(&self, index: usize) -> Option<usize> {
        let body = self.brace_around(index)?;
        // (before the body stands the brace after the function's name)
        let declared = body.checked_sub(2)?;
        let name = Folded(self.of(declared));
        self.function(name.0).filter(|(_, tokens)| tokens.start == body)?;
        let may_call = |at: &usize| {
            let text = Folded(self.of(*at).strip_prefix(b"'").unwrap_or(self.of(*at)));
            *at != declared && (text == name || text == Folded(CALLS_TYPE)) && !self.is_argument(*at)
        };
        let mut calls = (0..self.tokens.len()).filter(may_call);
        let call = calls.next().filter(|call| Folded(self.of(*call)) == name)?;
        calls.next().is_none().then_some(call)
    }

    /// Whether a token is the argument of a command that executes it.
    fn is_argument(&self, index: usize) -> bool {
        const EXECUTING: [&[u8]; 3] = [b"execute", b"iterate", b"reverse"];
        let before = self.brace_around(index).and_then(|brace| brace.checked_sub(1));
        before.is_some_and(|word| EXECUTING.iter().any(|executing| Folded(self.of(word)) == Folded(executing)))
    }

    /// The function in braces, or the one token, that ends directly before this token: its first token and its last one.
    pub(crate) fn operand_before(&self, index: usize) -> Option<(usize, usize)> {
        let last = index.checked_sub(1)?;
        match self.tokens.get(last)?.kind {
            Kind::Close => Some((self.other_brace(last)?, last)),
            Kind::Open => None,
            _ => Some((last, last)),
        }
    }

    /// The other brace of a pair.
    fn other_brace(&self, index: usize) -> Option<usize> {
        self.others.get(index).copied().flatten().map(|other| other as usize)
    }

    /// The functions that each function of the style names, quoted or not, each where it stands first, in the order of the text.
    pub fn names_of_functions(&self) -> NamesOfFunctions<'a> {
        let commands = commands(self.text.bytes);
        let ends = commands.iter().skip(1).map(|next| next.start).chain([self.text.bytes.len()]);
        let mut found = NamesOfFunctions::new();
        for (command, end) in commands.iter().zip(ends) {
            let Some(name) = command.name.filter(|_| command.is("function")) else { continue };
            let [first, behind] =
                [command.start, end].map(|place| self.tokens.partition_point(|token| token.start < place));
            // (after the word FUNCTION, the brace, the name and the other brace)
            let tokens = (first..behind).skip(4);
            let mut seen = HashSet::new();
            let named = tokens.filter_map(|index| self.named_function(index)).filter(|(_, name)| seen.insert(*name));
            found.entry(Folded(name)).or_default().extend(named);
        }
        found
    }

    /// The function of this name, and its tokens after its name.
    pub(crate) fn function(&self, name: &[u8]) -> Option<(&'a [u8], Range<usize>)> {
        let declaration = self.declared.get(&Folded(name))?;
        let start = self.tokens.partition_point(|token| token.start < declaration.start);
        let is_function = matches!(declaration.sort, Declared::Function { .. });
        // (after its name stands the brace that closes that)
        let (first, last) = (start + 2, self.closing(start + 2)?);
        is_function.then(|| (self.of(start), first..last + 1))
    }

    /// The token that closes what this one opens.
    pub(crate) fn closing(&self, open: usize) -> Option<usize> {
        match self.tokens.get(open)?.kind {
            Kind::Open => self.other_brace(open),
            Kind::Close => None,
            _ => Some(open),
        }
    }

    /// The `while$` of the style, in the order of the text: the function in which each stands, and its line.
    pub fn loops(&self) -> Vec<(&'a [u8], usize)> {
        self.executed(b"while$").into_iter().map(|(function, index)| (function, self.line(index))).collect()
    }

    /// The tokens that execute the function `name`, in the order of the text, each after the function in which it stands.
    pub(crate) fn executed(&self, name: &[u8]) -> Vec<(&'a [u8], usize)> {
        let is_it = |index: &usize| self.kind(*index) == Kind::Name && Folded(self.of(*index)) == Folded(name);
        let found: Vec<usize> = (0..self.tokens.len()).filter(is_it).collect();
        if found.is_empty() {
            return Vec::new();
        }
        let commands = commands(self.text.bytes);
        let placed = |index: usize| {
            let above = commands.partition_point(|command| command.start < self.tokens[index].start);
            Some((commands[..above].last()?.name?, index))
        };
        found.into_iter().filter_map(placed).collect()
    }

    /// The fields of which a function asks by `empty$` or `missing$` whether they are there.
    pub(crate) fn fields_asked(&self, function: &[u8]) -> Vec<&'a [u8]> {
        let Some((_, tokens)) = self.function(function) else { return Vec::new() };
        let is_asking = |index: &usize| {
            let is_test = [&b"empty$"[..], b"missing$"].iter().any(|test| Folded(self.of(*index)) == Folded(test));
            is_test && matches!(self.declared(self.of(*index - 1)), Some(Declared::Field))
        };
        let mut asked: Vec<&'a [u8]> = tokens.skip(1).filter(is_asking).map(|index| self.of(index - 1)).collect();
        asked.sort_unstable();
        asked.dedup_by(|left, right| Folded(left) == Folded(right));
        asked
    }

    /// The fields that stand in these tokens, or in the functions that these name.
    pub(crate) fn fields_read(&self, tokens: &[Range<usize>]) -> Vec<&'a [u8]> {
        let (mut open, mut seen) = (tokens.to_vec(), HashSet::new());
        let mut fields: Vec<&'a [u8]> = Vec::new();
        while let Some(range) = open.pop() {
            for index in range {
                let name = self.of(index).strip_prefix(b"'").unwrap_or(self.of(index));
                let is_new = matches!(self.kind(index), Kind::Name | Kind::Quoted) && seen.insert(Folded(name));
                match self.declared(name).filter(|_| is_new) {
                    Some(Declared::Field) => fields.push(name),
                    Some(Declared::Function { .. }) => open.extend(self.function(name).map(|(_, tokens)| tokens)),
                    _ => {}
                }
            }
        }
        fields.sort_unstable();
        fields
    }

    /// The function that a token names, and where.
    fn named_function(&self, index: usize) -> Option<(usize, Folded<'a>)> {
        let name = Folded(self.of(index).strip_prefix(b"'").unwrap_or(self.of(index)));
        let is_function =
            matches!(self.declared(name.0), Some(Declared::Function { .. })) || name == Folded(CALLS_TYPE);
        is_function.then_some((self.tokens[index].start, name))
    }

    /// The place of a token.
    pub(crate) fn place_at(&self, index: usize) -> CodePlace<'_, 'a> {
        CodePlace { code: self, index }
    }

    /// A place of the code, as the library notes it.
    pub fn place(&self, spot: &notes::Spot, text: &[u8]) -> Option<CodePlace<'_, 'a>> {
        self.place_in(spot.call.line, text, spot.token.map(|(_, number)| number))
    }

    /// A place of the code, by its line, its token, and the number of that token in its braces.
    pub fn place_in(&self, line: usize, text: &[u8], number: Option<usize>) -> Option<CodePlace<'_, 'a>> {
        self.index(line, text, number).map(|index| CodePlace { code: self, index })
    }
}

/// Functions that nearly each style defines, and that leave a number.
const LOGICAL: [&str; 3] = ["not", "and", "or"];

/// Whether a name is one of these.
fn is_logical(name: &[u8]) -> bool {
    LOGICAL.iter().any(|logical| name.eq_ignore_ascii_case(logical.as_bytes()))
}

/// Among how many tokens of one text in a line a place is looked for at most.
const MOST_OF_LINE: usize = 50;

/// How many tokens on each side of a place are looked at for the names that its function assigns to.
const MOST_AROUND: usize = 1000;

/// How many tokens before a place are looked at for the field that is there.
const MOST_FUNCTIONS: usize = 5;

/// A token of a style's code.
#[derive(Debug, Clone, Copy)]
pub struct CodePlace<'c, 'a> {
    code: &'c Code<'a>,
    index: usize,
}

/// What leaves an operand, as far as the text shows it.
#[derive(Debug, Clone, Copy, PartialEq, Eq)]
pub enum Left<'a> {
    Number(&'a [u8]),
    Text(&'a [u8]),
    Field(&'a [u8]),
}

impl<'a> Left<'a> {
    /// The token.
    pub fn text(self) -> &'a [u8] {
        let (Left::Number(text) | Left::Text(text) | Left::Field(text)) = self;
        text
    }
}

impl<'a> CodePlace<'_, 'a> {
    /// Where it stands in the text.
    pub fn start(self) -> usize {
        self.code.tokens[self.index].start
    }

    /// Where it stands in its line.
    pub fn mark(self) -> usize {
        let start = self.code.tokens[self.index].start;
        start - self.code.text.span(self.code.text.line_of(start)).0
    }

    /// The token `back` tokens before it, in the same braces.
    fn before(self, back: usize) -> Option<(Kind, &'a [u8])> {
        let first = self.index.checked_sub(back)?;
        let is_brace = |token: &Token| matches!(token.kind, Kind::Open | Kind::Close);
        let is_apart = self.code.tokens[first..self.index].iter().any(is_brace);
        (!is_apart).then(|| (self.code.tokens[first].kind, self.code.of(first)))
    }

    /// The variable to which a `:=` here assigns, and what it is declared as.
    pub fn variable(self) -> Option<(&'a [u8], Declared)> {
        let name = self.quoted()?;
        Some((name, self.code.declared(name)?))
    }

    /// The name after the quote that stands directly before.
    pub fn quoted(self) -> Option<&'a [u8]> {
        self.quoted_by(1)
    }

    /// The name after the quote that the token `back` tokens before is.
    pub fn quoted_by(self, back: usize) -> Option<&'a [u8]> {
        self.before(back).filter(|(kind, _)| *kind == Kind::Quoted).map(|(_, name)| &name[1..])
    }

    /// The lines of the two functions that stand before an `if$` here, from the first to the last line of each.
    pub fn branches(self) -> Option<[(usize, usize); 2]> {
        let (no, last) = self.code.operand_before(self.index)?;
        let (yes, end) = self.code.operand_before(no)?;
        let line = |index: usize| self.code.text.line_of(self.code.tokens[index].start);
        Some([(line(yes), line(end)), (line(no), line(last))])
    }

    /// The lines of the function that stands alone before an `if$` here: what comes before that leaves a number, so a second function is missing.
    pub fn lone_branch(self) -> Option<(usize, usize)> {
        let (first, last) = self.code.operand_before(self.index)?;
        let before = first.checked_sub(1)?;
        let is_function = first < last || self.code.kind(first) == Kind::Quoted;
        let name = self.code.of(before);
        let is_number = self.code.kind(before) == Kind::Name && (advice::leaves_number(name) || is_logical(name));
        (is_function && is_number).then(|| (self.code.line(first), self.code.line(last)))
    }

    /// Whether both functions of a `while$` here stand directly before it, in braces or quoted.
    pub fn is_behind_two_functions(self) -> bool {
        let is_function = |(first, last): (usize, usize)| first < last || self.code.kind(first) == Kind::Quoted;
        let body = self.code.operand_before(self.index).filter(|body| is_function(*body));
        body.and_then(|(first, _)| self.code.operand_before(first)).is_some_and(is_function)
    }

    /// Whether the function in braces directly before it ends by one that leaves a number.
    pub fn ends_by_number(self) -> bool {
        let last = self.code.operand_before(self.index).filter(|(first, last)| first + 1 < *last);
        let name = last.map(|(_, last)| self.code.of(last - 1));
        name.is_some_and(|name| advice::leaves_number(name) || is_logical(name))
    }

    /// The brace that closes the test of a `while$` here.
    pub fn end_of_test(self) -> Option<Self> {
        let (body, _) = self.code.operand_before(self.index)?;
        let (test, end) = self.code.operand_before(body)?;
        (test < end).then_some(CodePlace { index: end, ..self })
    }

    /// The function of the style that stands unquoted before an `if$` here, where its first (or its second) function is to stand, and its line.
    pub fn unquoted_branch(self, is_first: bool) -> Option<(&'a [u8], usize)> {
        let (no, last) = self.code.operand_before(self.index)?;
        // (what comes after the first function leaves one literal)
        if is_first && self.code.tokens[last].kind == Kind::Name {
            return None;
        }
        let (first, last) = if is_first { self.code.operand_before(no)? } else { (no, last) };
        let name = self.code.of(last);
        let is_function = first == last && self.code.tokens[last].kind == Kind::Name;
        let is_known = matches!(self.code.declared(name), Some(Declared::Function { .. }));
        (is_function && is_known).then(|| (name, self.code.text.line_of(self.code.tokens[last].start)))
    }

    /// In which line it stands.
    pub fn line(self) -> usize {
        self.code.text.line_of(self.code.tokens[self.index].start)
    }

    /// The names after quotes around it, in the same function.
    pub fn quoted_around(self) -> HashSet<Folded<'a>> {
        let is_inside = |index: &usize| {
            let begin = self.code.of(*index).get(..8);
            begin.is_none_or(|begin| !begin.eq_ignore_ascii_case(b"function"))
        };
        let before = (0..self.index).rev().take(MOST_AROUND).take_while(is_inside);
        let behind = (self.index..self.code.tokens.len()).take(MOST_AROUND).take_while(is_inside);
        let is_quoted = |index: &usize| self.code.tokens[*index].kind == Kind::Quoted;
        before.chain(behind).filter(is_quoted).map(|index| Folded(&self.code.of(index)[1..])).collect()
    }

    /// The literal, variable or field that the token `back` tokens before is.
    pub fn value(self, back: usize) -> Option<Left<'a>> {
        let (kind, name) = self.before(back)?;
        match (kind, self.code.declared(name)) {
            (Kind::Integer, _) | (Kind::Name, Some(Declared::Integer { .. })) => Some(Left::Number(name)),
            (Kind::Text, _) | (Kind::Name, Some(Declared::Text { .. })) => Some(Left::Text(name)),
            (Kind::Name, Some(Declared::Field)) => Some(Left::Field(name)),
            _ => None,
        }
    }

    /// Whether this field stands directly before.
    pub fn is_behind_field(self, field: &[u8]) -> bool {
        matches!(self.value(1), Some(Left::Field(name)) if Folded(name) == Folded(field))
    }

    /// The variable that stands directly before without a quote.
    pub fn variable_itself(self) -> Option<Left<'a>> {
        self.value(1).filter(|_| self.before(1).is_some_and(|(kind, _)| kind == Kind::Name))
    }

    /// What the token `back` tokens before leaves.
    pub fn left_by(self, back: usize) -> Option<Left<'a>> {
        if let Some(value) = self.value(back) {
            return Some(value);
        }
        let (kind, name) = self.before(back)?;
        match (kind, self.code.declared(name)) {
            (Kind::Name, None) if advice::leaves_number(name) => Some(Left::Number(name)),
            (Kind::Name, None) if advice::leaves_text(name) => Some(Left::Text(name)),
            _ => None,
        }
    }

    /// The function of the style that is run before on a field, directly or with others of the style between: its name, its line, and the field.
    pub fn function_before(self) -> Option<(&'a [u8], usize, &'a [u8])> {
        let mut found = None;
        for back in 1..=MOST_FUNCTIONS {
            let (Kind::Name, name) = self.before(back)? else { return None };
            match (self.code.declared(name), found) {
                (Some(Declared::Function { line }), _) => found = Some((name, line)),
                (Some(Declared::Field), Some((function, line))) => return Some((function, line, name)),
                _ => return None,
            }
        }
        None
    }
}

#[cfg(test)]
mod tests {
    use super::*;

    const STYLE: &str = "ENTRY {year title}{n}{label}\nINTEGERS {i}\nSTRINGS {s}\nFUNCTION {h.i} {} FUNCTION {f.g}\n{ i 'label := { \"a\" * } pop$\n\
        year f.g h.i * title * year #0 = s 's := }\n";

    #[test]
    fn names_are_declared() {
        let code = Code::new(STYLE.as_bytes());
        assert_eq!(code.declared(b"YEAR"), Some(Declared::Field));
        assert_eq!(code.declared(b"n"), Some(Declared::Integer { is_of_entry: true }));
        assert_eq!(code.declared(b"label"), Some(Declared::Text { is_of_entry: true }));
        assert_eq!(code.declared(b"s"), Some(Declared::Text { is_of_entry: false }));
        assert_eq!(code.declared(b"f.g"), Some(Declared::Function { line: 4 }));
        assert_eq!(code.declared(b"pop$"), None);
        assert_eq!(code.declaration(b"label").as_deref(), Some("a string of each entry (ENTRY, line 1)"));
        assert_eq!((code.declaration(b"year").as_deref(), code.line_of(b"i")), (Some("a field (line 1)"), Some(2)));
        assert_eq!((code.shared_like(b"LABEL"), code.shared_like(b"year")), (vec![&b"s"[..]], vec![]));
    }

    #[test]
    fn loops_are_listed() {
        let style = b"STRINGS {s}\nFUNCTION {f}\n{ { s } { pop$ }\n while$ } % while$\nFUNCTION {g} { 'f \"while$\" {} {} While$ }\n";
        assert_eq!(Code::new(style).loops(), [(&b"f"[..], 4), (&b"g"[..], 5)]);
        assert_eq!(Code::new(STYLE.as_bytes()).loops(), []);
    }

    #[test]
    fn the_test_of_a_loop_is_seen() {
        let code =
            Code::new(b"STRINGS {s}\n{ s } { pop$ } while$\n{} 'pop$ while$\n s 'pop$ while$\n{ 'skip$ while$ }\n");
        let at = |line| code.place_in(line, b"while$", None).unwrap();
        assert_eq!([2, 3, 4, 5].map(|line| at(line).is_behind_two_functions()), [true, true, false, false]);
        assert_eq!(at(2).end_of_test().and_then(|end| end.left_by(1)), Some(Left::Text(b"s")));
        assert!(at(4).end_of_test().is_none() && at(5).end_of_test().is_none());
    }

    #[test]
    fn tokens_before_a_place_are_seen() {
        let code = Code::new(STYLE.as_bytes());
        let assigned = code.place_in(5, b":=", Some(2)).unwrap();
        assert_eq!(assigned.variable(), Some((&b"label"[..], Declared::Text { is_of_entry: true })));
        assert_eq!((assigned.left_by(2), assigned.mark()), (Some(Left::Number(b"i")), 11));
        let joined = |number| code.place_in(6, b"*", Some(number)).unwrap();
        assert_eq!(joined(8).function_before(), Some((&b"f.g"[..], 4, &b"year"[..])));
        assert_eq!((joined(8).mark(), joined(10).mark()), (13, 21));
        assert!(code.place_in(6, b"*", Some(99)).is_none() && code.place_in(6, b"*", None).is_none());
        assert_eq!(joined(10).function_before(), None);
        let compared = code.place_in(6, b"=", None).unwrap();
        assert_eq!((compared.left_by(1), compared.left_by(2)), (Some(Left::Number(b"#0")), Some(Left::Field(b"year"))));
        assert!(code.place_in(1, b"=", None).is_none());
        let around = compared.quoted_around();
        assert!(
            around.len() == 2 && around.contains(&Folded(b"label")) && around.contains(&Folded(b"S")),
            "{around:?}"
        );
    }
}
