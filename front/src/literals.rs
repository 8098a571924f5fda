//! How many literals the code of a style takes from the stack and leaves on it, as far as its text shows that; and which call on the way to a fault finds too few.

use crate::advice;
use crate::code_places::{Code, Declared};
use crate::database::Folded;
use crate::lint_warnings::Cause;
use crate::notes::Spot;
use crate::scene::{Call, IN_BRACES};
use crate::style_text::Kind;
use crate::terminal::plain;
use std::collections::HashMap;
use std::ops::Range;

/// What some code does to the stack: how many of the literals that are there it takes, and how many it leaves in their place.
#[derive(Debug, Clone, Copy, Default, PartialEq, Eq)]
struct Change {
    takes: usize,
    leaves: usize,
}

impl Change {
    fn of(takes: usize, leaves: usize) -> Change {
        Change { takes, leaves }
    }

    /// This, and then another one.
    fn then(self, next: Change) -> Change {
        let missing = next.takes.saturating_sub(self.leaves);
        let kept = self.leaves.saturating_sub(next.takes);
        Change { takes: self.takes + missing, leaves: kept + next.leaves }
    }

    /// Either of two that come to the same number of literals; or of which one pushes a text and the other adds to one, as in a loop that puts a text together.
    fn or(self, other: Change) -> Option<Change> {
        if [self, other].contains(&PUSHES) && [self, other].contains(&ADDS) {
            return Some(PUSHES);
        }
        let (more, less) = if self.takes >= other.takes { (self, other) } else { (other, self) };
        (more.leaves + less.takes == less.leaves + more.takes).then_some(more)
    }

    /// By how many literals the stack grows.
    fn growth(self) -> (i64, i64) {
        let grows = self.leaves as i64 - self.takes as i64;
        (grows, grows)
    }
}

const PUSHES: Change = Change { takes: 0, leaves: 1 };
const ADDS: Change = Change { takes: 1, leaves: 1 };

/// What a built-in function but `if$` and `while$` does; None where its name doesn't say that.
fn change_of(name: &[u8]) -> Option<Change> {
    let takes = operands_of(name);
    let leaves = match name {
        b":=" | b"pop$" | b"top$" | b"warning$" | b"write$" | b"newline$" | b"skip$" => 0,
        b"duplicate$" | b"swap$" => 2,
        _ if advice::leaves_number(name) || advice::leaves_text(name) => 1,
        _ => return None,
    };
    Some(Change { takes, leaves })
}

/// How many literals a built-in function takes.
fn operands_of(name: &[u8]) -> usize {
    advice::operands(name).map_or(0, |operands| operands.split(' ').count())
}

/// A function that stands quoted in the code: its tokens, or its name.
#[derive(Clone)]
enum Quoted<'a> {
    InBraces(Range<usize>),
    Named(&'a [u8]),
}

/// What some code takes and leaves, token by token.
#[derive(Debug, Clone, Default, PartialEq, Eq)]
pub struct Traced {
    /// For each literal that it takes of those that were there before, the token that takes it.
    pub takers: Vec<usize>,
    /// For each literal that it leaves, the token that pushed it.
    pub left: Vec<usize>,
    /// The token that names it, where it is a function that isn't in braces.
    pub named: Option<usize>,
}

impl Traced {
    /// Adds what a token does.
    fn add(&mut self, at: usize, step: Change, token: &[u8]) {
        let of_two = self.left.len().checked_sub(2);
        match (token, of_two) {
            (b"swap$", Some(second)) => self.left.swap(second, second + 1),
            (b"duplicate$", _) if !self.left.is_empty() => self.left.push(at),
            _ => {
                let missing = step.takes.saturating_sub(self.left.len());
                self.left.truncate(self.left.len() - (step.takes - missing));
                self.takers.extend(std::iter::repeat_n(at, missing));
                self.left.extend(std::iter::repeat_n(at, step.leaves));
            }
        }
    }
}

/// How deep functions are followed into those that they name or quote, and how many tokens are looked at for one fault.
const MOST_DEPTH: usize = 200;
const MOST_TOKENS: usize = 100_000;

/// What is known of the functions of a style.
pub struct Literals<'c, 'a> {
    code: &'c Code<'a>,
    depth: usize,
    tokens_left: usize,
    /// None while a function is looked at, and where its text doesn't show what it does.
    known: HashMap<Folded<'a>, Option<Change>>,
}

impl<'c, 'a> Literals<'c, 'a> {
    pub fn new(code: &'c Code<'a>) -> Literals<'c, 'a> {
        Literals { code, depth: 0, tokens_left: MOST_TOKENS, known: HashMap::new() }
    }

    /// What a function of the style does.
    fn of_function(&mut self, name: &'a [u8]) -> Option<Change> {
        if let Some(known) = self.known.get(&Folded(name)) {
            return *known;
        }
        self.known.insert(Folded(name), None);
        let (_, tokens) = self.code.function(name)?;
        let change = self.of_tokens(tokens.start + 1..tokens.end - 1);
        self.known.insert(Folded(name), change);
        change
    }

    /// How many literals a function of the style takes, where its text shows that.
    pub fn taken_by(&mut self, name: &'a [u8]) -> Option<usize> {
        self.of_function(name).map(|change| change.takes)
    }

    /// What a name that is executed does.
    fn of_name(&mut self, name: &'a [u8]) -> Option<Change> {
        match self.code.declared(name) {
            Some(Declared::Function { .. }) => self.of_function(name),
            Some(_) => Some(Change::of(0, 1)),
            None => change_of(&name.to_ascii_lowercase()),
        }
    }

    fn of_quoted(&mut self, quoted: &Quoted<'a>) -> Option<Change> {
        match quoted {
            Quoted::InBraces(tokens) => self.of_tokens(tokens.clone()),
            Quoted::Named(name) => self.of_name(name),
        }
    }

    /// What an `if$` or a `while$` after these two functions does, with the literals that it takes.
    fn of_two(&mut self, is_loop: bool, first: &Quoted<'a>, second: &Quoted<'a>) -> Option<Change> {
        let (first, second) = (self.of_quoted(first)?, self.of_quoted(second)?);
        if !is_loop {
            return Some(Change::of(3, 0).then(first.or(second)?));
        }
        let turn = first.then(Change::of(1, 0)).then(second);
        (turn.takes == turn.leaves || turn == PUSHES).then(|| Change::of(2, 0).then(turn))
    }

    /// What these tokens of one body do, one after another.
    fn of_tokens(&mut self, tokens: Range<usize>) -> Option<Change> {
        self.depth = Some(self.depth + 1).filter(|depth| *depth < MOST_DEPTH)?;
        let change = self.one_by_one(tokens);
        self.depth -= 1;
        change
    }

    fn one_by_one(&mut self, tokens: Range<usize>) -> Option<Change> {
        let mut change = Change::default();
        self.each(tokens, |_, step| change = change.then(step))?;
        Some(change)
    }

    /// Goes over these tokens of one body: each that is executed is given with what it does.
    fn each(&mut self, tokens: Range<usize>, mut met: impl FnMut(usize, Change)) -> Option<()> {
        let (mut quoted, mut at) = (Vec::new(), tokens.start);
        while at < tokens.end {
            self.tokens_left = self.tokens_left.checked_sub(1)?;
            let (text, executed) = (self.code.of(at), at);
            let step = match self.code.kind(at) {
                Kind::Open => {
                    let close = self.code.closing(at).filter(|close| *close < tokens.end)?;
                    quoted.push(Quoted::InBraces(at + 1..close));
                    at = close;
                    Change::of(0, 1)
                }
                Kind::Quoted => {
                    quoted.push(Quoted::Named(&text[1..]));
                    Change::of(0, 1)
                }
                Kind::Text | Kind::Integer => Change::of(0, 1),
                Kind::Name if text.eq_ignore_ascii_case(b"if$") || text.eq_ignore_ascii_case(b"while$") => {
                    let second = quoted.pop()?;
                    let first = quoted.pop()?;
                    self.of_two(text.eq_ignore_ascii_case(b"while$"), &first, &second)?
                }
                Kind::Name => self.of_name(text)?,
                _ => return None,
            };
            met(executed, step);
            at += 1;
        }
        Some(())
    }

    /// What these tokens of one body take and leave, token by token.
    fn traced(&mut self, tokens: Range<usize>) -> Option<Traced> {
        let (code, mut traced) = (self.code, Traced::default());
        self.each(tokens, |at, step| traced.add(at, step, code.of(at)))?;
        Some(traced)
    }

    /// What a function that stands quoted in the code takes and leaves, token by token. One that is named counts as one token.
    fn traced_quoted(&mut self, first: usize, quoted: &Quoted<'a>) -> Option<Traced> {
        match quoted {
            Quoted::InBraces(tokens) => self.traced(tokens.clone()),
            Quoted::Named(name) => {
                let (change, mut traced) = (self.of_name(name)?, Traced { named: Some(first), ..Traced::default() });
                traced.add(first, change, name);
                Some(traced)
            }
        }
    }

    /// What both functions before the `if$` that this token is take and leave.
    pub fn of_branches(&mut self, index: usize) -> Option<[Traced; 2]> {
        let (place, second) = self.quoted_before(index)?;
        let (first, of_first) = self.quoted_before(place)?;
        Some([self.traced_quoted(first, &of_first)?, self.traced_quoted(place, &second)?])
    }

    /// What the body of a function of the style takes and leaves.
    pub fn of_body(&mut self, name: &[u8]) -> Option<Traced> {
        let (_, tokens) = self.code.function(name)?;
        self.traced(tokens.start + 1..tokens.end - 1)
    }

    /// The function that stands quoted directly before a token, and its first token.
    fn quoted_before(&self, index: usize) -> Option<(usize, Quoted<'a>)> {
        let (first, last) = self.code.operand_before(index)?;
        match self.code.kind(first) {
            Kind::Open => Some((first, Quoted::InBraces(first + 1..last))),
            Kind::Quoted => Some((first, Quoted::Named(&self.code.of(first)[1..]))),
            _ => None,
        }
    }

    /// The `if$` that this token is, which stands in a function, if its branches leave different numbers of literals.
    fn unequal_at(&mut self, function: &[u8], index: usize) -> Option<Cause> {
        let (place, second) = self.quoted_before(index)?;
        let (_, first) = self.quoted_before(place)?;
        let (first, second) = (self.of_quoted(&first)?, self.of_quoted(&second)?);
        if first.or(second).is_some() {
            return None;
        }
        let call = Call { function: function.to_vec(), file: Vec::new(), line: self.code.line(index) };
        let spot = Spot { token: Some((0, self.code.number_of(index))), call };
        Some(Cause { spot, grows: [first.growth(), second.growth()] })
    }

    /// What the body in which a token stands does before it.
    fn before(&mut self, index: usize) -> Option<Change> {
        let code = self.code;
        let mut depth = 0_usize;
        let begins = |at: &usize| {
            let kind = code.kind(*at);
            let is_begin = kind == Kind::Open && depth == 0;
            depth = match kind {
                Kind::Close => depth + 1,
                Kind::Open => depth.saturating_sub(1),
                _ => depth,
            };
            is_begin
        };
        let begin = (0..index).rev().find(begins)?;
        self.of_tokens(begin + 1..index)
    }

    /// What a body does up to a place of a way: there it calls `callee`, or it is the `if$` or the `while$` that executes that. Of the innermost place what comes before it.
    fn at(&mut self, place: &Spot, callee: &[u8], is_innermost: bool) -> Option<Change> {
        let number = place.token.map(|(_, number)| number);
        let index = |name: &[u8]| self.code.index(place.call.line, name, number);
        let named = [(callee, 0), (b"if$", 3), (b"while$", 2)];
        let mut found = named.iter().filter_map(|(name, takes)| Some((index(name)?, *takes)));
        let (index, takes) = found.next()?;
        let takes = if is_innermost { 0 } else { takes };
        Some(self.before(index)?.then(Change::of(takes, 0)))
    }
}

/// The `if$` whose branches are seen in the text to leave different numbers of literals. The check of runs notes an `if$` only where it meets both branches with the same literals: of a
/// function such as `and`, which is run on numbers that are known, it may meet one at a time.
pub fn unequal(code: &Code<'_>) -> Vec<Cause> {
    let mut literals = Literals::new(code);
    let all = code.executed(b"if$").into_iter();
    all.filter_map(|(function, index)| literals.unequal_at(function, index)).collect()
}

/// A call that finds too few literals.
#[derive(Debug, Clone, PartialEq, Eq)]
pub struct Shortage {
    /// The function that is called, and the line of the call.
    pub called: String,
    pub line: usize,
    /// How many literals it takes on this way.
    pub takes: usize,
    /// The function that calls it, and how many literals that has pushed there.
    pub caller: String,
    pub pushed: usize,
}

/// Which call finds too few literals on the way to a function that takes more than there are: the innermost one whose caller has pushed some, else the outermost one. The places
/// are those of the function and of its callers, the innermost first.
pub fn shortage(code: &Code<'_>, places: &[Spot], next: &[u8]) -> Option<Shortage> {
    let (mut literals, mut wanted) = (Literals::new(code), operands_of(next));
    let (mut inner, mut found): (Option<(Change, usize)>, Option<Shortage>) = (None, None);
    for (at, place) in places.iter().enumerate() {
        let callee = at.checked_sub(1).map_or(next, |before| places[before].owner());
        let here = literals.at(place, callee, at == 0)?;
        let (change, called_at) = inner.map_or((here, at), |(inner, first): (Change, usize)| (here.then(inner), first));
        inner = Some((change, called_at)).filter(|_| place.call.function.starts_with(IN_BRACES));
        if inner.is_some() {
            continue;
        }
        let shortage = || Shortage {
            called: plain(places[called_at - 1].owner()),
            line: places[called_at].call.line,
            takes: wanted,
            caller: plain(place.owner()),
            pushed: change.leaves.saturating_sub(change.takes),
        };
        if wanted > change.leaves && called_at > 0 && found.as_ref().is_none_or(|found| found.pushed == 0) {
            found = Some(shortage());
        }
        wanted = change.takes + wanted.saturating_sub(change.leaves);
    }
    found.filter(|_| wanted > 0)
}

impl Shortage {
    /// What to do about it.
    pub fn advice(&self) -> String {
        let Shortage { called, line, takes, caller, pushed } = self;
        let plural = if *takes == 1 { "" } else { "s" };
        let pushed = if *pushed == 0 { "none".to_string() } else { format!("only {pushed}") };
        format!(
            "`{called}` in line {line} takes {takes} literal{plural} on this way, and {caller} has pushed {pushed}: push what is missing before that call"
        )
    }
}

#[cfg(test)]
mod tests {
    use super::*;
    use crate::scene::Call;

    fn change(body: &str) -> Option<(usize, usize)> {
        let style = format!(
            "ENTRY {{title}} {{}} {{}}\nSTRINGS {{s}}\nFUNCTION {{two}} {{ * }}\nFUNCTION {{self}} {{ self }}\nFUNCTION {{f}} {{ {body} }}\n"
        );
        let code = Code::new(style.as_bytes());
        Literals::new(&code).of_function(b"f").map(|change| (change.takes, change.leaves))
    }

    #[test]
    fn changes_of_the_stack_are_read_off_the_text() {
        let rows = [
            ("", Some((0, 0))),
            ("title s \"a\" #1 'f", Some((0, 5))),
            ("pop$ pop$", Some((2, 0))),
            ("duplicate$ empty$ 'pop$ {two} if$", Some((2, 1))),
            ("duplicate$ empty$ {pop$ \"\"} 'skip$ if$", Some((1, 1))),
            ("'s := s empty$ {} {s write$} if$", Some((1, 0))),
            ("{duplicate$ empty$ #0 =} {#2 global.max$ substring$} while$", None),
            ("{duplicate$ empty$ #0 =} {#2 #3 substring$} while$", Some((1, 1))),
            ("two two", Some((3, 1))),
            ("{s empty$ not.here} {s \"\" 's := #1 {\", \" * s *} 's if$} while$", None),
            ("{s empty$} {s \"\" 's := pop$ #1 {\", \" * s *} 's if$} while$", Some((0, 1))),
            ("call.type$", None),
            ("self", None),
            ("nosuch", None),
        ];
        for (body, expected) in rows {
            assert_eq!(change(body), expected, "{body}");
        }
    }

    #[test]
    fn deep_and_long_styles_are_left() {
        let calls: String =
            (1..100_000).map(|number| format!("FUNCTION {{f{number}}} {{f{}}}\n", number - 1)).collect();
        let deep = ["#1 {".repeat(50_000), "} 'skip$ if$".repeat(50_000)].concat();
        for style in
            [format!("FUNCTION {{f0}} {{}}\n{calls}FUNCTION {{f}} {{f99999}}"), format!("FUNCTION {{f}} {{{deep}}}")]
        {
            let code = Code::new(style.as_bytes());
            assert_eq!(Literals::new(&code).of_function(b"f"), None);
        }
    }

    #[test]
    fn unequal_branches_are_seen_in_the_text() {
        let style = "ENTRY {title} {} {}\nSTRINGS {s t}\nFUNCTION {and}\n{ 'skip$\n { #0 }\n if$ }\nFUNCTION {or} { { pop$ #1 } 'skip$ if$ }\n\
            FUNCTION {names} { s empty$ { \", \" * t * }\n 't\n if$ title 'skip$ 'nosuch if$ }\n";
        let found = unequal(&Code::new(style.as_bytes()));
        let [Cause { spot, grows }] = &found[..] else { panic!("{found:?}") };
        assert_eq!((spot.owner(), spot.call.line, spot.token), (&b"and"[..], 6, Some((0, 2))));
        assert_eq!(grows, &[(0, 0), (1, 1)]);
    }

    const STYLE: &str = "ENTRY {title} {} {}\nSTRINGS {s t}\nFUNCTION {nonnull} { 's := write$ s }\nFUNCTION {check} { 't := duplicate$ empty$ 'pop$ {\nnonnull } if$ }\n\
        FUNCTION {misc} { \"\" title \"title\" check\ntitle empty$ {\n\"x\" check } 'skip$ if$ }\n";

    fn spot(function: &str, line: usize, number: usize) -> Spot {
        Spot { token: Some((0, number)), call: Call { function: function.into(), file: b"s.bst".to_vec(), line } }
    }

    #[test]
    fn the_call_that_finds_too_few_is_named() {
        let code = Code::new(STYLE.as_bytes());
        let places = [
            spot("nonnull", 3, 2),
            spot("{..} of check", 5, 0),
            spot("check", 5, 6),
            spot("{..} of misc", 8, 1),
            spot("misc", 8, 8),
        ];
        let wanted = Shortage { called: "check".into(), line: 8, takes: 3, caller: "misc".into(), pushed: 2 };
        assert_eq!(shortage(&code, &places, b"write$"), Some(wanted));
        assert_eq!(shortage(&code, &places[..1], b"write$"), None);
    }
}
