//! The loops of a style that don't change what their test reads, or that count away from it.

use crate::database::Folded;
use crate::hints::{Hint, Of, integer};
use crate::style_read::{Sort, StyleRead};
use crate::style_text::{Kind, Token};
use crate::terminal::plain;
use crate::text::Text;
use std::collections::{HashMap, HashSet};
use std::ops::Range;

/// Built-in functions of a test that reads nothing but what stands in it: how many literals each takes, and how many it leaves.
const PURE: [(&str, usize, usize); 16] = [
    ("=", 2, 1),
    (">", 2, 1),
    ("<", 2, 1),
    ("+", 2, 1),
    ("-", 2, 1),
    ("*", 2, 1),
    ("empty$", 1, 1),
    ("text.length$", 1, 1),
    ("num.names$", 1, 1),
    ("substring$", 3, 1),
    ("chr.to.int$", 1, 1),
    ("text.prefix$", 2, 1),
    ("duplicate$", 1, 2),
    ("pop$", 1, 0),
    ("skip$", 0, 0),
    ("swap$", 2, 2),
];

/// Functions that nearly each style defines, and how many numbers each takes; it leaves one.
const LOGICAL: [(&str, usize); 3] = [("not", 1), ("and", 2), ("or", 2)];

/// How deep braces stand in each other in a test that is followed.
const MOST_NESTED: usize = 8;

/// How many tokens are looked at for all loops of a style.
pub(crate) const MOST_TOKENS: usize = 2_000_000;

/// How many variables, and how many lines of each, are named at most.
const MOST_NAMED: usize = 3;

/// The tokens of a style, as its loops need them.
pub(crate) struct Loops<'a> {
    style: &'a StyleRead<'a>,
    /// For each closing brace the opening one, by their numbers, in the order of the closing ones.
    opened: Vec<(usize, usize)>,
    variables: HashSet<Folded<'a>>,
    /// Those of INTEGERS.
    counters: HashSet<Folded<'a>>,
    /// The tokens of each function of the style, its name included, in the order of the text.
    spans: Vec<Range<usize>>,
    /// The same, by the function's name.
    pub(crate) functions: HashMap<Folded<'a>, Range<usize>>,
}

/// A loop: the numbers of the tokens in the braces of its test and of its body, and of its `while$`.
#[derive(Debug, Clone)]
struct Loop {
    test: Range<usize>,
    body: Range<usize>,
    end: usize,
}

/// The loops that don't change what their test reads: such a loop isn't entered, or doesn't end. And those in which a counter doesn't count.
pub(crate) fn of_loops<'a>(style: &'a StyleRead<'a>, text: &Text<'_>) -> Vec<Hint> {
    let ends: Vec<usize> = (0..style.tokens.len()).filter(|end| is_while(style, *end)).collect();
    if ends.is_empty() {
        return Vec::new();
    }
    let loops = Loops::new(style);
    let line = |token: usize| text.line_of(style.tokens[token].start);
    let (mut left, mut given) = (MOST_TOKENS, Given::default());
    let mut found = Vec::new();
    for of_while in ends.into_iter().filter_map(|end| loops.loop_of(end)) {
        let lines = (line(of_while.body.start - 1), line(of_while.end));
        let endless = loops.endless(&of_while, lines, &mut left, &line);
        let away = loops
            .away(&of_while, &line, &mut left)
            .map(|away| format!("does this loop end? Its {}: {}", away.what, away.advice));
        let said = endless.into_iter().chain(away).chain(loops.still(&of_while, lines, &mut given, &mut left));
        let begin = line(of_while.test.start - 1);
        found.extend(said.map(|text| Hint { line: begin, text, sort: Of::Loop }));
    }
    found
}

/// A loop that doesn't end once it is entered, or once a turn of it changes nothing.
#[derive(Debug, PartialEq, Eq)]
pub struct Endless {
    /// The variables that its test reads, and that its body never changes.
    pub never: String,
    /// Those of its test that some turns alone change.
    pub sometimes: String,
    /// The lines of its body.
    pub body: String,
    /// Where those that it never changes are assigned, and to which its body assigns.
    pub assigned: String,
}

/// A loop whose body changes what its test compares away from where it ends: what its test is and its body does, and what to write.
#[derive(Debug, PartialEq, Eq)]
pub struct Away {
    pub what: String,
    pub advice: String,
}

/// How many tokens a test has at most of which it is looked whether its loop counts away from it.
const LONGEST_TEST: usize = 4;

/// Of the loop whose `while$` is the one of this line, how its body counts away from its end.
pub fn counts_away(bytes: &[u8], line: usize) -> Option<Away> {
    let (text, style) = (Text::new(bytes), StyleRead::new(bytes));
    let line_of = |token: usize| text.line_of(style.tokens[token].start);
    let (loops, end) = (Loops::new(&style), only_while(&style, line, &line_of)?);
    loops.away(&loops.loop_of(end)?, &line_of, &mut { MOST_TOKENS })
}

/// Of the loop whose `while$` is the one of this line, the counter that each turn counts towards the loop's end, and to what.
pub fn counts_towards(bytes: &[u8], line: usize) -> Option<(String, String)> {
    let (text, style) = (Text::new(bytes), StyleRead::new(bytes));
    let line_of = |token: usize| text.line_of(style.tokens[token].start);
    let (loops, end) = (Loops::new(&style), only_while(&style, line, &line_of)?);
    let of_while = loops.loop_of(end)?;
    let test: Vec<&[u8]> = of_while.test.clone().map(|at| loops.of(at)).collect();
    let (first, second, sign, is_denied) = match test[..] {
        [first, second, sign @ (b"<" | b">")] => (first, second, sign, false),
        [first, second, sign @ (b"<" | b">"), not] if not.eq_ignore_ascii_case(b"not") => (first, second, sign, true),
        _ => return None,
    };
    let is_for_great = (sign == b">") != is_denied;
    let found = loops.counted(&of_while, [first, second], is_for_great, &mut { MOST_TOKENS })?;
    let is_it = !found.is_away && loops.is_at_each_turn(&of_while, found.at);
    is_it.then(|| (plain(found.name.0), plain(found.bound)))
}

/// The test of the loop whose `while$` is the one of this line, the line of the test, and the variables that it reads.
pub fn test_of_loop(bytes: &[u8], line: usize) -> Option<(String, usize, String)> {
    let (text, style) = (Text::new(bytes), StyleRead::new(bytes));
    let line_of = |token: usize| text.line_of(style.tokens[token].start);
    let (loops, end) = (Loops::new(&style), only_while(&style, line, &line_of)?);
    let of_while = loops.loop_of(end)?;
    let test: Vec<&[u8]> = of_while.test.clone().take(MOST_OF_TEST + 1).map(|at| loops.of(at)).collect();
    let (mut seen, names) = (HashSet::new(), test.iter().map(|name| Folded(name)));
    let read: Vec<Folded<'_>> = names.filter(|name| loops.variables.contains(name) && seen.insert(*name)).collect();
    let is_shown = test.len() <= MOST_OF_TEST && !read.is_empty();
    is_shown.then(|| (plain(&test.join(&b" "[..])), line_of(of_while.test.start), listed(&read, "and")))
}

/// How many tokens a test has at most that is shown.
const MOST_OF_TEST: usize = 20;

/// A counter that the test of a loop compares with another number: the token that assigns to it in the body, the sum that it gets, and whether that counts away from the loop's end.
struct Counted<'a> {
    name: Folded<'a>,
    at: usize,
    bound: &'a [u8],
    sum: [&'a [u8]; 3],
    is_away: bool,
}

/// The `while$` of this line, where it has one alone.
fn only_while(style: &StyleRead<'_>, line: usize, line_of: &dyn Fn(usize) -> usize) -> Option<usize> {
    let mut ends = (0..style.tokens.len()).filter(|end| is_while(style, *end) && line_of(*end) == line);
    ends.next().filter(|_| ends.next().is_none())
}

/// Of the loop whose `while$` is the one of this line, why it doesn't end, as far as the text shows that.
pub fn loop_without_end(bytes: &[u8], line: usize) -> Option<Endless> {
    let (text, style) = (Text::new(bytes), StyleRead::new(bytes));
    let line_of = |token: usize| text.line_of(style.tokens[token].start);
    let end = only_while(&style, line, &line_of)?;
    let loops = Loops::new(&style);
    let (of_while, mut left) = (loops.loop_of(end)?, MOST_TOKENS);
    let (never, sometimes) = loops.read_in_vain(&of_while, &mut left).filter(|(never, _)| !never.is_empty())?;
    let body = in_lines((line_of(of_while.body.start - 1), line_of(end)));
    let assigned = loops.assigned(&of_while, &never, &line_of, &mut left).unwrap_or_default();
    Some(Endless { never: listed(&never, "or"), sometimes: listed(&sometimes, "or"), body, assigned })
}

/// Whether the token of this number is `while$`.
fn is_while(style: &StyleRead<'_>, number: usize) -> bool {
    style.of(&style.tokens[number]).eq_ignore_ascii_case(b"while$")
}

/// The lines of a loop's body, in words.
fn in_lines((first, last): (usize, usize)) -> String {
    if first == last { format!("line {first}") } else { format!("lines {first}-{last}") }
}

/// Names in a row.
fn listed(names: &[Folded<'_>], word: &str) -> String {
    let names: Vec<String> = names.iter().map(|name| plain(name.0)).collect();
    names.join(&format!(" {word} "))
}

/// For each closing brace the opening one.
fn opened(tokens: &[Token]) -> Vec<(usize, usize)> {
    let (mut open, mut opened) = (Vec::new(), Vec::new());
    for (place, token) in tokens.iter().enumerate() {
        match token.kind {
            Kind::Open => open.push(place),
            Kind::Close => opened.extend(open.pop().map(|begin| (place, begin))),
            _ => {}
        }
    }
    opened
}

/// The tokens of each function, its name included, in the order of the text.
pub(crate) fn spans_of(style: &StyleRead<'_>) -> Vec<Range<usize>> {
    let mut at = 0;
    // (the places that are asked for only rise)
    let mut first_from = |place: usize| {
        at += style.tokens[at..].iter().take_while(|token| token.start < place).count();
        at
    };
    let ends = style.names.commands.iter().skip(1).map(|next| next.start).chain([style.names.bytes.len()]);
    let functions = style.names.commands.iter().zip(ends).filter(|(command, _)| command.is("function"));
    functions.map(|(command, end)| first_from(command.start) + 1..first_from(end)).collect()
}

/// Where the function that was looked at last assigns to its variables.
#[derive(Default)]
struct Given<'a> {
    /// The function's tokens.
    function: Range<usize>,
    /// For each name after a quote the number of its first token, and whether there is another.
    places: HashMap<Folded<'a>, (usize, bool)>,
}

impl<'a> Given<'a> {
    /// Looks at a function, if it isn't the one that was looked at last.
    fn look_at(&mut self, style: &StyleRead<'a>, function: Range<usize>) {
        if self.function == function {
            return;
        }
        self.places.clear();
        for place in function.clone().filter(|place| style.tokens[*place].kind == Kind::Quoted) {
            let name = Folded(&style.of(&style.tokens[place])[1..]);
            self.places.entry(name).and_modify(|(_, again)| *again = true).or_insert((place, false));
        }
        self.function = function;
    }

    /// Whether the function assigns once to a variable: a number, before this token.
    fn is_once(&self, style: &StyleRead<'_>, name: Folded<'_>, before: usize) -> bool {
        let is_number = |place: usize| place > 0 && style.tokens[place - 1].kind == Kind::Integer;
        self.places.get(&name).is_some_and(|(place, again)| !again && *place < before && is_number(*place))
    }
}

impl<'a> Loops<'a> {
    pub(crate) fn new(style: &'a StyleRead<'a>) -> Loops<'a> {
        let of_sort = |is_it: fn(Sort) -> bool| {
            let declared = style.names.declared.iter().filter(move |declared| is_it(declared.sort));
            declared.map(|declared| Folded(declared.name)).collect()
        };
        let spans = spans_of(style);
        let named = spans.iter().filter_map(|span| {
            let name = style.tokens.get(span.clone())?.iter().find(|token| token.kind == Kind::Name)?;
            Some((Folded(style.of(name)), span.clone()))
        });
        Loops {
            style,
            opened: opened(&style.tokens),
            variables: of_sort(|sort| matches!(sort, Sort::Integer | Sort::Text)),
            counters: of_sort(|sort| sort == Sort::Integer),
            functions: named.collect(),
            spans,
        }
    }

    /// The tokens in the braces that end directly before a token.
    fn braces_before(&self, index: usize) -> Option<Range<usize>> {
        let close = index.checked_sub(1)?;
        let found = self.opened.binary_search_by_key(&close, |(close, _)| *close).ok()?;
        Some(self.opened[found].1 + 1..close)
    }

    /// The loop whose `while$` this token is, where both of its functions stand in braces directly before it.
    fn loop_of(&self, end: usize) -> Option<Loop> {
        let body = self.braces_before(end)?;
        let test = self.braces_before(body.start - 1)?;
        Some(Loop { test, body, end })
    }

    /// The function in which a token stands.
    fn function_around(&self, token: usize) -> Option<Range<usize>> {
        let behind = self.spans.partition_point(|span| span.start <= token);
        self.spans[..behind].last().filter(|span| span.contains(&token)).cloned()
    }

    /// The variables that the test of a loop reads and that the loop never changes, and those that it changes, where a turn of it may change none.
    fn read_in_vain(&self, of_while: &Loop, left: &mut usize) -> Option<(Vec<Folded<'a>>, Vec<Folded<'a>>)> {
        let read = self.read_by(of_while.test.clone())?;
        let (sometimes, never): (Vec<_>, Vec<_>) =
            read.iter().copied().partition(|name| self.may_change(of_while.body.clone(), *name, left));
        let is_in_vain = sometimes.is_empty() || !never.is_empty() && self.may_stay(of_while, left);
        is_in_vain.then_some((never, sometimes))
    }

    /// What is said of a loop that changes nothing that its test reads, or of which a turn may change nothing.
    fn endless(
        &self,
        of_while: &Loop,
        lines: (usize, usize),
        left: &mut usize,
        line: &dyn Fn(usize) -> usize,
    ) -> Option<String> {
        let ((never, sometimes), body) = (self.read_in_vain(of_while, left)?, in_lines(lines));
        let may = if sometimes.is_empty() {
            String::new()
        } else {
            format!(", and a turn of it may change neither that nor {}", listed(&sometimes, "or"))
        };
        Some(if never.is_empty() {
            format!("does this loop end? Its test always leaves the same (body: {body})")
        } else {
            let assigned = self.assigned(of_while, &never, line, left).map(|text| format!(": {text}"));
            format!(
                "does this loop end? Its body ({body}) never changes {}, which its test reads{may}{}",
                listed(&never, "or"),
                assigned.unwrap_or_default()
            )
        })
    }

    /// The variables that these tokens assign to, and the token of each name.
    fn assignments(&self, tokens: Range<usize>) -> Vec<(Folded<'a>, usize)> {
        let is_it = |at: &usize| {
            let next = self.style.tokens.get(at + 1).is_some_and(|next| self.style.of(next) == b":=");
            self.style.tokens[*at].kind == Kind::Quoted && next
        };
        tokens.filter(is_it).map(|at| (Folded(&self.style.of(&self.style.tokens[at])[1..]), at)).collect()
    }

    /// Where these variables of a test are assigned in its function, which its body doesn't do, and to which others that assigns: `n is assigned in line 16, and the body assigns to i (line 19)`.
    fn assigned(
        &self,
        of_while: &Loop,
        never: &[Folded<'a>],
        line: &dyn Fn(usize) -> usize,
        left: &mut usize,
    ) -> Option<String> {
        let function = self.function_around(of_while.end)?;
        *left = left.checked_sub(function.len())?;
        let all = self.assignments(function);
        let lines = |name: Folded<'a>| {
            let mut lines: Vec<String> =
                all.iter().filter(|(of, _)| *of == name).map(|(_, at)| line(*at).to_string()).collect();
            lines.dedup();
            lines.truncate(MOST_NAMED);
            if lines.len() > 1 { format!("lines {}", lines.join(", ")) } else { format!("line {}", lines.concat()) }
        };
        let (given, others): (Vec<Folded<'a>>, Vec<Folded<'a>>) =
            never.iter().take(MOST_NAMED).partition(|name| all.iter().any(|(of, _)| of == *name));
        let is_given = |name: &Folded<'a>| format!("{} is assigned in {}", plain(name.0), lines(*name));
        let mut said: Vec<String> = given.iter().map(is_given).collect();
        if !others.is_empty() {
            said.push(format!("this function never assigns to {}", listed(&others, "or")));
        }
        let (mut seen, in_body) = (HashSet::new(), self.assignments(of_while.body.clone()));
        let others = in_body.iter().filter(|(name, _)| seen.insert(*name)).take(MOST_NAMED);
        let others: Vec<String> = others.map(|(name, at)| format!("{} (line {})", plain(name.0), line(*at))).collect();
        said.push(if others.is_empty() {
            "the body assigns to no variable".into()
        } else {
            format!("the body assigns to {}", others.join(", "))
        });
        Some(said.join(", and "))
    }

    /// How the body of a loop changes what its test compares away from where it ends.
    fn away(&self, of_while: &Loop, line: &dyn Fn(usize) -> usize, left: &mut usize) -> Option<Away> {
        let tokens = Some(of_while.test.clone()).filter(|test| test.len() <= LONGEST_TEST)?;
        let test: Vec<&'a [u8]> = tokens.map(|at| self.of(at)).collect();
        let (compared, is_denied) = match test.split_last()? {
            (last, rest) if last.eq_ignore_ascii_case(b"not") => (rest, true),
            _ => (&test[..], false),
        };
        let (step, advice) = match compared {
            [text, b"empty$"] if is_denied => self.keeps_first_byte(of_while, text, line, left)?,
            [first, second, sign @ (b"<" | b">")] => {
                // (whether the test holds where the first is great)
                let is_for_great = (*sign == b">") != is_denied;
                self.counts_away(of_while, [first, second], is_for_great, line, left)?
            }
            _ => return None,
        };
        let (shown, at) = (plain(&test.join(&b" "[..])), line(of_while.test.start));
        Some(Away { what: format!("test is `{shown}` (line {at}), and its body {step}"), advice })
    }

    /// A body that makes a text its own first bytes, while the test asks whether it is empty: what it does, and what to write.
    fn keeps_first_byte(
        &self,
        of_while: &Loop,
        text: &'a [u8],
        line: &dyn Fn(usize) -> usize,
        left: &mut usize,
    ) -> Option<(String, String)> {
        let (name, at) = self.only_change(of_while, text, left)?;
        let piece: Vec<&[u8]> = (at.checked_sub(4)?..at).map(|at| self.of(at)).collect();
        let is_first = matches!(piece[..], [of, b"#1", _, b"substring$"] if Folded(of) == name);
        let (shown, at) = (plain(name.0), line(at));
        is_first.then(|| {
            let step = format!("makes {shown} its own first bytes (line {at}), so it never gets empty");
            (step, format!("write `#2` for `#1` in line {at}"))
        })
    }

    /// A body that counts away from where its test ends the loop: what it does, and what to write. The test holds where the first that it compares is great, or where it is small.
    fn counts_away(
        &self,
        of_while: &Loop,
        [first, second]: [&'a [u8]; 2],
        is_for_great: bool,
        line: &dyn Fn(usize) -> usize,
        left: &mut usize,
    ) -> Option<(String, String)> {
        let Counted { name, at, sum, is_away, .. } = self.counted(of_while, [first, second], is_for_great, left)?;
        let sign = if sum[2] == b"+" { "+" } else { "-" };
        let other = if sign == "+" { "-" } else { "+" };
        is_away.then(|| {
            let (shown, change, at) = (plain(name.0), plain(&sum.join(&b" "[..])), line(at));
            let step = format!("counts {shown} away from that: `{change}` (line {at})");
            (step, format!("write `{other}` for `{sign}` in line {at}, or another test"))
        })
    }

    /// The counter of two numbers that a test compares, where the body changes it in one place, by a sum with a constant, and the other number in none. The test holds where the first is great,
    /// or where it is small.
    fn counted(
        &self,
        of_while: &Loop,
        [first, second]: [&'a [u8]; 2],
        is_for_great: bool,
        left: &mut usize,
    ) -> Option<Counted<'a>> {
        let is_counter = |name: &[u8]| self.counters.contains(&Folded(name));
        let mut is_fixed = |name: &[u8]| {
            !self.functions.contains_key(&Folded(name)) && !self.may_change(of_while.body.clone(), Folded(name), left)
        };
        let (counter, bound, is_for_great) = match (is_fixed(first), is_fixed(second)) {
            (false, true) if is_counter(first) => (first, second, is_for_great),
            (true, false) if is_counter(second) => (second, first, !is_for_great),
            _ => return None,
        };
        let (name, at) = self.only_change(of_while, counter, left)?;
        let sum = [at.checked_sub(3)?, at - 2, at - 1].map(|at| self.of(at));
        let (sign, by) = match sum {
            [its, by, sign @ (b"+" | b"-")] if Folded(its) == name => (sign, integer(by)?),
            [by, its, sign @ b"+"] if Folded(its) == name => (sign, integer(by)?),
            _ => return None,
        };
        let is_up = (sign == b"+") == (by > 0);
        (by != 0).then_some(Counted { name, at, bound, sum, is_away: is_up == is_for_great })
    }

    /// Whether a token of the body of a loop is executed at each turn: it stands in no further braces.
    fn is_at_each_turn(&self, of_while: &Loop, at: usize) -> bool {
        let before = &self.style.tokens[of_while.body.start..at];
        let count = |kind: Kind| before.iter().filter(|token| token.kind == kind).count();
        count(Kind::Open) == count(Kind::Close)
    }

    /// The text of a token.
    fn of(&self, at: usize) -> &'a [u8] {
        self.style.of(&self.style.tokens[at])
    }

    /// The one token that assigns to a variable in the body of a loop, where nothing else there may.
    fn only_change(&self, of_while: &Loop, name: &'a [u8], left: &mut usize) -> Option<(Folded<'a>, usize)> {
        let body = of_while.body.clone();
        *left = left.checked_sub(body.len())?;
        let name = Folded(name);
        let of = |at: &usize| self.style.of(&self.style.tokens[*at]);
        let mut quoted =
            body.clone().filter(|at| self.style.tokens[*at].kind == Kind::Quoted && Folded(&of(at)[1..]) == name);
        let at = quoted.next().filter(|_| quoted.next().is_none())?;
        let is_assigned = self.assignments(at..at + 1).len() == 1;
        let called = body.filter_map(|at| self.functions.get(&Folded(of(&at)))).cloned();
        let mut spans: Vec<Range<usize>> = called.collect();
        spans.dedup();
        (is_assigned && !spans.into_iter().any(|span| self.may_change(span, name, left))).then_some((name, at))
    }

    /// Whether a turn of a loop may assign to no variable that its test or its body reads.
    fn may_stay(&self, of_while: &Loop, left: &mut usize) -> bool {
        let tokens = of_while.test.clone().chain(of_while.body.clone());
        let names = tokens.filter(|at| self.style.tokens[*at].kind == Kind::Name);
        let names = names.map(|at| Folded(self.style.of(&self.style.tokens[at])));
        let read: HashSet<Folded<'_>> = names.filter(|name| self.variables.contains(name)).collect();
        self.may_pass(of_while.body.clone(), &read, MOST_NESTED, left).unwrap_or(false)
    }

    /// Whether there is a way through these tokens that assigns to none of these variables; None where that isn't seen.
    fn may_pass(
        &self,
        tokens: Range<usize>,
        read: &HashSet<Folded<'_>>,
        nested: usize,
        left: &mut usize,
    ) -> Option<bool> {
        *left = left.checked_sub(tokens.len())?;
        let (mut blocks, mut at): (Vec<Option<bool>>, usize) = (Vec::new(), tokens.start);
        while at < tokens.end {
            let (kind, name) = (self.style.tokens[at].kind, self.style.of(&self.style.tokens[at]));
            at += 1;
            match kind {
                Kind::Open => {
                    let close = self.closing(at, tokens.end)?;
                    blocks.push(self.may_pass(at..close, read, nested.checked_sub(1)?, left));
                    at = close + 1;
                }
                Kind::Quoted if self.variables.contains(&Folded(&name[1..])) && read.contains(&Folded(&name[1..])) => {
                    return Some(false);
                }
                Kind::Quoted => {
                    blocks.push(PURE.iter().any(|(pure, ..)| pure.as_bytes() == &name[1..]).then_some(true))
                }
                Kind::Name if name == b"if$" => {
                    let (no, yes) = (blocks.pop()??, blocks.pop()??);
                    if !yes && !no {
                        return Some(false);
                    }
                }
                Kind::Name if name == b":=" => drop(blocks.pop()),
                Kind::Name if self.functions.contains_key(&Folded(name)) => drop(self.logical(name)?),
                Kind::Name if name == b"while$" => return None,
                _ => {}
            }
        }
        Some(true)
    }

    /// How many literals one of the functions `not`, `and` and `or` takes, if the style defines it and it assigns nothing.
    fn logical(&self, name: &[u8]) -> Option<usize> {
        let (_, takes) = LOGICAL.iter().find(|(logical, _)| name.eq_ignore_ascii_case(logical.as_bytes()))?;
        let mut tokens = self.style.tokens[self.functions.get(&Folded(name))?.clone()].iter();
        (!tokens.any(|token| self.style.of(token) == b":=")).then_some(*takes)
    }

    /// What is said of a loop whose body uses variables that were given a number above it, and that nothing in its function changes.
    fn still(&self, of_while: &Loop, lines: (usize, usize), given: &mut Given<'a>, left: &mut usize) -> Option<String> {
        *left = left.checked_sub(of_while.body.len())?;
        given.look_at(self.style, self.function_around(of_while.end)?);
        let (mut names, mut seen): (Vec<Folded<'a>>, HashSet<Folded<'a>>) = (Vec::new(), HashSet::new());
        for token in self.style.tokens[of_while.body.clone()].iter().filter(|token| token.kind == Kind::Name) {
            let name = Folded(self.style.of(token));
            let is_given = || given.is_once(self.style, name, of_while.test.start);
            if self.counters.contains(&name) && seen.insert(name) && is_given() {
                names.push(name);
            }
        }
        names.retain(|name| !self.may_change(of_while.body.clone(), *name, left));
        let body = in_lines(lines);
        let all = listed(&names, "and");
        (!names.is_empty()).then(|| format!("does this loop count? Its body ({body}) uses {all} and never changes it"))
    }

    /// The variables that a test reads; None where it also reads the stack, a field, or what a function of the style does.
    fn read_by(&self, test: Range<usize>) -> Option<Vec<Folded<'a>>> {
        self.depth_after(test.clone(), 0, MOST_NESTED).filter(|depth| *depth == 1)?;
        let mut seen = HashSet::new();
        let names = self.style.tokens[test].iter().map(|token| Folded(self.style.of(token)));
        Some(names.filter(|name| self.variables.contains(name) && seen.insert(*name)).collect())
    }

    /// How many literals stand on the stack after these tokens, of which `depth` did before. None where they take what stood there before all of them, or where that isn't seen.
    fn depth_after(&self, tokens: Range<usize>, depth: usize, nested: usize) -> Option<usize> {
        let (mut depth, mut blocks, mut at) = (depth, Vec::new(), tokens.start);
        while at < tokens.end {
            let (kind, name) = (self.style.tokens[at].kind, self.style.of(&self.style.tokens[at]));
            at += 1;
            if kind == Kind::Open {
                let close = self.closing(at, tokens.end)?;
                blocks.push(at..close);
                at = close + 1;
            } else if name == b"if$" {
                let (no, yes, below) = (blocks.pop()?, blocks.pop()?, depth.checked_sub(1)?);
                let [yes, no] = [yes, no].map(|block| self.depth_after(block, below, nested.checked_sub(1)?));
                depth = yes.filter(|_| yes == no)?;
            } else if kind == Kind::Integer || kind == Kind::Text || self.variables.contains(&Folded(name)) {
                depth += 1;
            } else if let Some(takes) = self.logical(name).filter(|_| kind == Kind::Name) {
                depth = depth.checked_sub(takes)? + 1;
            } else {
                let (_, takes, leaves) =
                    PURE.iter().find(|(pure, ..)| kind == Kind::Name && pure.as_bytes() == name)?;
                depth = depth.checked_sub(*takes)? + leaves;
            }
            if !blocks.is_empty() && kind != Kind::Open {
                return None;
            }
        }
        blocks.is_empty().then_some(depth)
    }

    /// The token that closes the braces whose first token is `from`.
    fn closing(&self, from: usize, end: usize) -> Option<usize> {
        let mut depth = 0_usize;
        for at in from..end {
            match self.style.tokens[at].kind {
                Kind::Close if depth == 0 => return Some(at),
                Kind::Close => depth -= 1,
                Kind::Open => depth += 1,
                _ => {}
            }
        }
        None
    }

    /// Whether a variable comes after a quote in these tokens, or in the functions that they name. It may do where `left` tokens don't suffice to see.
    pub(crate) fn may_change(&self, body: Range<usize>, wanted: Folded<'a>, left: &mut usize) -> bool {
        let (mut open, mut seen) = (vec![body], HashSet::new());
        while let Some(span) = open.pop() {
            if span.len() > *left {
                return true;
            }
            *left -= span.len();
            let tokens = &self.style.tokens[span];
            for token in tokens.iter().filter(|token| matches!(token.kind, Kind::Name | Kind::Quoted)) {
                let text = self.style.of(token);
                let name = Folded(if token.kind == Kind::Quoted { &text[1..] } else { text });
                if token.kind == Kind::Quoted && name == wanted {
                    return true;
                }
                if let Some(function) = self.functions.get(&name).filter(|_| seen.insert(name)) {
                    open.push(function.clone());
                }
            }
        }
        false
    }
}

#[cfg(test)]
mod tests {
    use super::*;
    use crate::hints::hints;

    fn said(style: &str) -> Vec<(usize, String)> {
        hints(&StyleRead::new(style.as_bytes())).into_iter().map(|hint| (hint.line, hint.text)).collect()
    }

    #[test]
    fn loops_that_count_on_are_seen() {
        let style = |test: &str, body: &str| {
            format!("INTEGERS {{i n m}} FUNCTION {{f}} {{ #1 'i :=\n{{ {test} }} {{ {body} }} while$ }}\n")
        };
        let towards = |test: &str, body: &str| counts_towards(style(test, body).as_bytes(), 2);
        let wanted = Some(("i".to_string(), "n".to_string()));
        assert_eq!([towards("i n > not", "i #1 + 'i :="), towards("n i <", "i #1 - 'i :=")], [wanted.clone(), wanted]);
        assert_eq!(towards("i #9 <", "#2 i + 'i :=").map(|(_, bound)| bound).as_deref(), Some("#9"));
        for body in
            ["i #1 - 'i :=", "m { i #1 + 'i := } 'skip$ if$", "i #1 + 'i := #3 'n :=", "i #0 + 'i :=", "#1 'm :="]
        {
            assert_eq!(towards("i n > not", body), None, "{body}");
        }
        let test = |test: &str| test_of_loop(style(test, "skip$").as_bytes(), 2);
        assert_eq!(test("i n > not"), Some(("i n > not".to_string(), 2, "i and n".to_string())));
        assert_eq!(test("#1"), None);
    }

    #[test]
    fn loops_that_change_nothing_are_named() {
        let of = |body: &str| {
            said(&format!(
                "INTEGERS {{i}} STRINGS {{s}}\nFUNCTION {{c.d}} {{#1 'i := i pop$ \"\" 's := s pop$}}\nFUNCTION {{a.b}} {{\n{body}\n}}\nEXECUTE {{a.b}} EXECUTE {{c.d}}"
            ))
        };
        let changes = "does this loop end? Its body (lines 5-6) never changes i, which its test reads: this function never assigns to i, and the body assigns to no variable";
        assert_eq!(of("{i #0 >}\n{i int.to.str$ write$\n} while$"), [(4, changes.to_string())]);
        let same = "does this loop end? Its test always leaves the same (body: line 4)";
        assert_eq!(of("{#1} {skip$} while$"), [(4, same.to_string())]);
        let counts = "does this loop count? Its body (line 5) uses i and never changes it";
        assert_eq!(
            of("#1 'i := \"xx\" 's :=\n{s empty$ not} {i pop$ s #2 global.max$ substring$ 's :=} while$"),
            [(5, counts.to_string())]
        );
        for body in [
            "{i #0 >} {i #1 - 'i :=} while$",
            "{i #0 >} {c.d} while$",
            "{duplicate$ #0 >} {#1 -} while$",
            "'i {skip$} while$",
            "{i} 'c.d while$",
            "#1 'i := {s empty$} {i pop$ i #1 + 'i := \"\" 's :=} while$",
            "s num.names$ 'i := {s empty$} {i pop$ \"\" 's :=} while$",
            "{#0 >} {skip$} while$",
            "{s empty$ {#0} {#0 #1} if$} {skip$} while$",
        ] {
            assert_eq!(of(body), []);
        }
    }

    #[test]
    fn tests_with_branches_are_followed() {
        let style = "INTEGERS {n} STRINGS {s}\nFUNCTION {a.b} {\n{ s n #1 substring$ \".\" =\n n #0 > {} {pop$ #0} if$ }\n{n #1 - pop$}\nwhile$ }\nEXECUTE {a.b}";
        let line = "does this loop end? Its body (lines 5-6) never changes s or n, which its test reads: this function never assigns to s or n, and the body assigns to no variable";
        assert!(said(style).contains(&(3, line.to_string())), "{:?}", said(style));
        let found = loop_without_end(style.as_bytes(), 6);
        let assigned = line.split_once(": ").unwrap().1.to_string();
        let wanted = Endless { never: "s or n".into(), sometimes: String::new(), body: "lines 5-6".into(), assigned };
        assert_eq!(found, Some(wanted));
        assert_eq!(loop_without_end(style.as_bytes(), 5), None);
    }

    #[test]
    fn turns_that_change_nothing_are_seen() {
        let of = |turn: &str| {
            let style = format!(
                "INTEGERS {{n}} STRINGS {{s t}}\nFUNCTION {{not}} {{{{#0}} {{#1}} if$}}\nFUNCTION {{and}} {{'skip$ {{pop$ #0}} if$}}\n\
                FUNCTION {{a.b}} {{\n{{ n not t empty$ not and }}\n{{ t \"-\" = {{ #1 'n := }} {{ t #2 #9 substring$ {turn} }} if$ }}\nwhile$ }}\nEXECUTE {{a.b}}"
            );
            loop_without_end(style.as_bytes(), 7).map(|endless| (endless.never, endless.sometimes))
        };
        assert_eq!(of("'s :="), Some(("t".into(), "n".into())));
        assert_eq!([of("'t :="), of("'s := s 't :=")], [None, None]);
    }

    #[test]
    fn loops_that_count_away_are_named() {
        let of = |begin: &str, test: &str, body: &str| {
            let style = format!(
                "INTEGERS {{i n}} STRINGS {{s t}}\nFUNCTION {{not}} {{{{#0}} {{#1}} if$}}\nFUNCTION {{sets}} {{#1 'i := n 'n :=}}\nFUNCTION {{a.b}} {{ {begin}\n{{ {test} }}\n{{ i n s t pop$ pop$ pop$ pop$ {body} }}\nwhile$ }}\nEXECUTE {{a.b}} EXECUTE {{sets}}"
            );
            counts_away(style.as_bytes(), 7)
        };
        let away = |test: &str, change: &str, other: &str| {
            let what = format!("test is `{test}` (line 5), and its body counts i away from that: `{change}` (line 6)");
            let sign = if other == "+" { "-" } else { "+" };
            Some(Away { what, advice: format!("write `{other}` for `{sign}` in line 6, or another test") })
        };
        assert_eq!(of("#1 'i :=", "i #0 >", "i #1 + 'i :="), away("i #0 >", "i #1 +", "-"));
        assert_eq!(of("#1 'i :=", "i n > not", "i #1 - 'i :="), away("i n > not", "i #1 -", "+"));
        assert_eq!(of("#1 'i :=", "n i <", "#1 i + 'i :="), away("n i <", "#1 i +", "-"));
        assert_eq!(of("#1 'i :=", "i n <", "i #-1 + 'i :="), away("i n <", "i #-1 +", "-"));
        for (test, body) in [
            ("i #0 >", "i #1 - 'i :="),
            ("i n <", "i #1 + 'i :="),
            ("i n > not", "i #1 + 'i :="),
            ("i #0 >", "i #1 + 'i := #0 'i :="),
            ("i n >", "i #1 + 'i := i 'n :="),
            ("i #0 >", "i #1 + 'i := sets"),
            ("i #0 >", "i n + 'i :="),
            ("i #0 >", "i #0 + 'i :="),
            ("s empty$ not", "s #2 #9 substring$ 's :="),
            ("s empty$", "s #1 #9 substring$ 's :="),
        ] {
            assert_eq!(of("", test, body), None, "{test} {body}");
        }
        let piece = of("", "s empty$ not", "s #1 #9 substring$ 's :=").unwrap();
        assert!(piece.what.ends_with("makes s its own first bytes (line 6), so it never gets empty"), "{piece:?}");
        assert_eq!(piece.advice, "write `#2` for `#1` in line 6");
    }
}
