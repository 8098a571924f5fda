//! Where an operand was pushed, as far as a style's text shows it: from the place where it is taken back over the tokens before it, and on before
//! the calls that lead there.

use crate::advice;
use crate::code_places::{Code, Declared};
use crate::notes::{Spot, Token};
use crate::scene::Scene;
use crate::style_text::Kind;
use std::ops::Range;

/// A place where something is executed: its line, its token, and the function in which it stands.
#[derive(Debug, Clone, Copy)]
pub struct Frame<'f> {
    pub line: usize,
    pub token: Option<Token>,
    /// The named function that holds it.
    pub owner: &'f [u8],
}

impl<'f> Frame<'f> {
    /// A place that the library notes.
    pub fn of(spot: &'f Spot) -> Frame<'f> {
        Frame { line: spot.call.line, token: spot.token, owner: spot.call.owner() }
    }

    /// The places of a scene, the innermost first.
    pub fn of_scene(scene: &'f Scene) -> Vec<Frame<'f>> {
        let calls = std::iter::once(&scene.at).chain(&scene.callers);
        let tokens = std::iter::once(&scene.token).chain(&scene.caller_tokens);
        calls.zip(tokens).map(|(call, token)| Frame { line: call.line, token: *token, owner: call.owner() }).collect()
    }
}

/// What pushed an operand.
#[derive(Debug, Clone, Copy, PartialEq, Eq)]
pub enum Origin<'a> {
    /// This field, in this line.
    Field(&'a [u8], usize),
    /// Another token.
    Other,
}

/// What a text shows of a missing field that is taken.
#[derive(Debug, Clone, PartialEq, Eq)]
pub enum MissingField<'a> {
    /// It is this one, pushed in this line.
    Is(&'a [u8], usize),
    /// It may be what this function in this line leaves, which reads these.
    LeftBy(&'a [u8], usize, Vec<&'a [u8]>),
    /// It may be one of those that this function reads.
    ReadBy(&'a [u8], Vec<&'a [u8]>),
}

/// How far a walk back comes in the braces in which it begins.
enum Walk {
    /// To the token that pushes the operand.
    Pushed(usize),
    /// To their beginning: the operand was on the stack before, with this many literals above it.
    Begin(usize),
    /// To a token of which the text doesn't show what it leaves, with this many literals above the operand.
    Unknown(usize, usize),
}

/// How far a walk back comes over all callers: to the token that pushes the operand, or at most to one of which that isn't known.
enum Way {
    Pushed(usize),
    Unknown(Option<(usize, usize)>),
}

/// How many tokens are walked over.
const MOST_TOKENS: usize = 2_000;

/// The origin of the operand with `position` literals above it that is taken by the function `next` at the first of the places `frames`; the
/// others called it, the innermost first. None where the text doesn't show it.
pub fn origin<'a>(code: &Code<'a>, next: &[u8], frames: &[Frame<'_>], position: usize) -> Option<Origin<'a>> {
    match way_back(code, next, frames, position) {
        Way::Pushed(token) => Some(pushed_by(code, token)),
        Way::Unknown(_) => None,
    }
}

/// What the text shows of the operand, if that is a missing field.
pub fn missing_field<'a>(
    code: &Code<'a>,
    next: &[u8],
    frames: &[Frame<'_>],
    position: usize,
) -> Option<MissingField<'a>> {
    let left_by = match way_back(code, next, frames, position) {
        Way::Pushed(token) => match pushed_by(code, token) {
            Origin::Field(name, line) => return Some(MissingField::Is(name, line)),
            Origin::Other => None,
        },
        Way::Unknown(token) => token,
    };
    if let Some((name, line)) =
        left_by.filter(|(_, above)| *above == 0).and_then(|(token, _)| only_field_left(code, token))
    {
        return Some(MissingField::Is(name, line));
    }
    let left = left_by.and_then(|(token, _)| {
        let fields = code.fields_read(&operands_of(code, token));
        (!fields.is_empty()).then(|| MissingField::LeftBy(code.of(token), code.line(token), fields))
    });
    left.or_else(|| frames.iter().find_map(|frame| read_by(code, frame.owner)))
}

/// How the log begins that a function found a missing field.
pub const IS_MISSING: &[u8] = b"missing field is not ";

/// What the text shows of the missing field that a function took for an operand, where an error of its execution says that it did.
pub fn missing_field_of<'a>(code: &Code<'a>, scene: &Scene, error: &[u8], function: &[u8]) -> Option<MissingField<'a>> {
    let is_of_one = error.starts_with(IS_MISSING) || function == b"=";
    let takes = advice::operands(function).filter(|_| is_of_one)?.split(' ').count();
    let position = scene.stack.iter().take(takes).position(|held| held.literal == b"missing field")?;
    let pushed = scene.origins.get(position).and_then(|origin| field_at(code, origin.as_ref()?));
    pushed.or_else(|| missing_field(code, function, &Frame::of_scene(scene), position))
}

/// The field that a token pushes whose place is noted.
fn field_at<'a>(code: &Code<'a>, spot: &Spot) -> Option<MissingField<'a>> {
    let (line, (_, number)) = (spot.call.line, spot.token?);
    let fields = code.tokens_in(line).filter(|token| code.number_of(*token) == number);
    let mut names = fields.filter_map(|token| match pushed_by(code, token) {
        Origin::Field(name, _) => Some(name),
        Origin::Other => None,
    });
    let name = names.next()?;
    names.all(|other| other.eq_ignore_ascii_case(name)).then_some(MissingField::Is(name, line))
}

/// The text of an error at the token that begins at this place of the style, with the field named that is missing, as the original names it. None where it is about something else, or the
/// style's text doesn't show which of the function's operands it is, and which field.
pub fn with_field_named(code: &Code<'_>, place: usize, error: &[u8], function: &[u8]) -> Option<Vec<u8>> {
    let wanted = error.strip_prefix(IS_MISSING)?;
    let (token, takes) = (code.token_at(place)?, advice::operands(function)?.split(' ').count());
    let mut field = None;
    for position in 0..takes {
        match (pushed_by(code, pushed_before(code, token, position)?), field) {
            (Origin::Field(name, _), None) => field = Some(name),
            (Origin::Field(..), Some(_)) => return None,
            (Origin::Other, _) => {}
        }
    }
    Some([b"`", field?, b"' is a missing field, not ", wanted].concat())
}

/// The same, by what was called and on the stack at the error.
pub fn with_field_of_scene(code: &Code<'_>, scene: &Scene, error: &[u8], function: &[u8]) -> Option<Vec<u8>> {
    let wanted = error.strip_prefix(IS_MISSING)?;
    let MissingField::Is(field, _) = missing_field_of(code, scene, error, function)? else { return None };
    Some([b"`", field, b"' is a missing field, not ", wanted].concat())
}

/// The token that pushes the operand with `position` literals above it that is taken at this token, in its function or in the only one that calls this.
fn pushed_before(code: &Code<'_>, token: usize, position: usize) -> Option<usize> {
    let (mut token, mut above) = (token, position);
    for _ in 0..MOST_CALLERS {
        match walk(code, token, above) {
            Walk::Pushed(pushed) => return Some(pushed),
            Walk::Begin(left) => (token, above) = (code.only_call_of(token)?, left),
            Walk::Unknown(..) => return None,
        }
    }
    None
}

/// How many callers are gone through.
const MOST_CALLERS: usize = 8;

/// The fields that a function reads, if it reads some.
fn read_by<'a>(code: &Code<'a>, function: &[u8]) -> Option<MissingField<'a>> {
    let (name, tokens) = code.function(function)?;
    let fields = code.fields_read(&[tokens]);
    (!fields.is_empty()).then_some(MissingField::ReadBy(name, fields))
}

/// The tokens of what a token executes: of an `if$` the functions before it, else itself.
fn operands_of(code: &Code<'_>, token: usize) -> Vec<Range<usize>> {
    let itself = token..token + 1;
    if !code.of(token).eq_ignore_ascii_case(b"if$") {
        return vec![itself];
    }
    let no = code.operand_before(token);
    let yes = no.and_then(|(first, _)| code.operand_before(first));
    no.into_iter().chain(yes).map(|(first, last)| first..last + 1).collect()
}

/// Walks back from a place over all that called it to the token that pushes the operand with `position` literals above it.
fn way_back(code: &Code<'_>, next: &[u8], frames: &[Frame<'_>], position: usize) -> Way {
    let Some(mut index) = frames.first().and_then(|frame| index_of(code, frame, next)) else {
        return Way::Unknown(None);
    };
    let mut above = position;
    for callers in frames.windows(2).map(Some).chain([None]) {
        above = match walk(code, index, above) {
            Walk::Pushed(token) => return Way::Pushed(token),
            Walk::Begin(above) => above,
            Walk::Unknown(token, above) => return Way::Unknown(Some((token, above))),
        };
        let Some([callee, caller]) = callers else { break };
        let [called, chosen, turned] = [callee.owner, b"if$", b"while$"].map(|text| index_of(code, caller, text));
        (index, above) = match (called, chosen, turned) {
            (Some(called), None, None) => (called, above),
            // (it takes the number and the two functions before it executes one of these)
            (None, Some(chosen), None) => (chosen, above + 3),
            _ => break,
        };
    }
    Way::Unknown(None)
}

/// The token of this text at a place, if it is the one that the place has by its number.
fn index_of(code: &Code<'_>, frame: &Frame<'_>, text: &[u8]) -> Option<usize> {
    let number = frame.token.map(|(_, number)| number);
    code.index(frame.line, text, number).filter(|index| Some(code.number_of(*index)) == number)
}

/// What a token is that pushes an operand.
fn pushed_by<'a>(code: &Code<'a>, token: usize) -> Origin<'a> {
    let name = code.of(token);
    match code.declared(name) {
        Some(Declared::Field) if code.kind(token) == Kind::Name => Origin::Field(name, code.line(token)),
        _ => Origin::Other,
    }
}

/// Walks back from a token to the one that pushes the operand with `above` literals above it.
fn walk(code: &Code<'_>, mut index: usize, mut above: usize) -> Walk {
    for _ in 0..MOST_TOKENS {
        let Some((first, last)) = code.operand_before(index) else { return Walk::Begin(above) };
        index = first;
        let is_function = first < last;
        let (takes, leaves) = match effect(code, first) {
            _ if is_function => (0, 1),
            Some(effect) => effect,
            None => return Walk::Unknown(first, above),
        };
        above = match (code.of(first), above) {
            (b"duplicate$", 0 | 1) => 0,
            (b"swap$", 0 | 1) => 1 - above,
            _ if above < leaves => return Walk::Pushed(first),
            _ => above - leaves + takes,
        };
    }
    Walk::Unknown(index, above)
}

/// For how many tokens it counts to look for all fields that a function reads.
const COST_OF_FIELDS: usize = 100;

/// What is known of the literal that tokens leave on top, if that is a missing field.
#[derive(Debug, Clone, Copy, PartialEq, Eq)]
enum Left {
    /// It is one of the fields that were noted.
    Noted,
    /// It may also be a field that is pushed before these tokens.
    OrEarlier,
}

/// Looks for the fields that a function may leave where they are missing.
struct Leavers<'c, 'a> {
    code: &'c Code<'a>,
    /// The fields of which an `empty$` or `missing$` around the place says that they are there.
    present: Vec<&'a [u8]>,
    /// The fields that may be left, each with the line in which it is pushed.
    found: Vec<(&'a [u8], usize)>,
    /// How many tokens may still be looked at.
    turns: usize,
}

/// The only field that a token may leave as a missing field, and the line in which that is pushed.
fn only_field_left<'a>(code: &Code<'a>, token: usize) -> Option<(&'a [u8], usize)> {
    let mut leavers = Leavers { code, present: Vec::new(), found: Vec::new(), turns: MOST_TOKENS };
    if leavers.by_token(token)? == Left::OrEarlier {
        return None;
    }
    let (name, line) = *leavers.found.first()?;
    leavers.found.iter().all(|(other, _)| other.eq_ignore_ascii_case(name)).then_some((name, line))
}

impl<'a> Leavers<'_, 'a> {
    /// Notes the fields that a token leaves on top. None where the text doesn't show them.
    fn by_token(&mut self, token: usize) -> Option<Left> {
        self.turns = self.turns.checked_sub(1)?;
        let name = self.code.of(token);
        match self.code.declared(name) {
            Some(Declared::Function { .. }) => self.by_body(name),
            None if name.eq_ignore_ascii_case(b"if$") => self.by_choice(token),
            None if name.eq_ignore_ascii_case(b"while$") => Some(Left::OrEarlier),
            _ => None,
        }
    }

    /// The same of a function of the style.
    fn by_body(&mut self, name: &[u8]) -> Option<Left> {
        let (_, braced) = self.code.function(name)?;
        self.by_tokens(braced.start + 1..braced.end.checked_sub(1)?)
    }

    /// The same of an `if$`: in the second of its functions the field is there of which it asked.
    fn by_choice(&mut self, token: usize) -> Option<Left> {
        let no = self.code.operand_before(token)?;
        let yes = self.code.operand_before(no.0)?;
        let first = self.by_operand(yes)?;
        let asked = self.asked_before(yes.0);
        let known = self.present.len();
        self.present.extend(asked);
        let left = self.by_operand(no);
        self.present.truncate(known);
        left.map(|left| if first == Left::OrEarlier { first } else { left })
    }

    /// The field of which a token before this one asks whether it is there.
    fn asked_before(&self, token: usize) -> Option<&'a [u8]> {
        let (test, field) = (token.checked_sub(1)?, token.checked_sub(2)?);
        let is_test = [&b"empty$"[..], b"missing$"].iter().any(|name| self.code.of(test).eq_ignore_ascii_case(name));
        match pushed_by(self.code, field) {
            Origin::Field(name, _) if is_test => Some(name),
            _ => None,
        }
    }

    /// Notes the fields that a function in braces or a quoted one leaves on top.
    fn by_operand(&mut self, (first, last): (usize, usize)) -> Option<Left> {
        if first < last {
            return self.by_tokens(first + 1..last);
        }
        let name = self.code.of(first).strip_prefix(b"'")?;
        if name.eq_ignore_ascii_case(b"skip$") {
            return Some(Left::OrEarlier);
        }
        match self.code.declared(name)? {
            Declared::Function { .. } => self.by_body(name),
            Declared::Field => Some(self.note(name, self.code.line(first))),
            _ => Some(Left::Noted),
        }
    }

    /// Notes the fields that tokens leave on top. Where what is left may have been pushed before a part of them, these are all that they read.
    fn by_tokens(&mut self, tokens: Range<usize>) -> Option<Left> {
        let (left, call) = match walk(self.code, tokens.end, 0) {
            Walk::Pushed(token) => {
                return Some(match pushed_by(self.code, token) {
                    Origin::Field(name, line) => self.note(name, line),
                    Origin::Other => Left::Noted,
                });
            }
            Walk::Unknown(token, 0) => (self.by_token(token)?, Some(token)),
            Walk::Unknown(..) | Walk::Begin(_) => (Left::OrEarlier, None),
        };
        if left == Left::OrEarlier {
            self.note_all(tokens)?;
        }
        // (a function takes what stands before its call)
        let has_operand = |token: usize| !matches!(walk(self.code, token, 0), Walk::Begin(_));
        let is_call =
            |token: &usize| matches!(self.code.declared(self.code.of(*token)), Some(Declared::Function { .. }));
        let takes_own = call.filter(is_call).is_some_and(has_operand);
        Some(if takes_own { Left::Noted } else { left })
    }

    /// Notes all fields that tokens read.
    fn note_all(&mut self, tokens: Range<usize>) -> Option<()> {
        self.turns = self.turns.checked_sub(COST_OF_FIELDS)?;
        let line = self.code.line(tokens.start);
        for name in self.code.fields_read(&[tokens]) {
            self.note(name, line);
        }
        Some(())
    }

    /// Notes a field, if it isn't known to be there.
    fn note(&mut self, name: &'a [u8], line: usize) -> Left {
        if !self.present.iter().any(|there| there.eq_ignore_ascii_case(name)) {
            self.found.push((name, line));
        }
        Left::Noted
    }
}

/// How many literals a token takes and leaves; None where that isn't known.
fn effect(code: &Code<'_>, token: usize) -> Option<(usize, usize)> {
    let name = code.of(token);
    match (code.kind(token), code.declared(name)) {
        (Kind::Integer | Kind::Text | Kind::Quoted, _) => Some((0, 1)),
        (Kind::Name, Some(Declared::Function { .. })) => None,
        (Kind::Name, Some(_)) => Some((0, 1)),
        (Kind::Name, None) => effect_of_built_in(name),
        _ => None,
    }
}

/// How many literals a built-in function takes and leaves. Of those that execute others that isn't known.
fn effect_of_built_in(name: &[u8]) -> Option<(usize, usize)> {
    let takes = advice::operands(name).map_or(0, |operands| operands.split(' ').count());
    match name {
        b"duplicate$" => Some((1, 2)),
        b"swap$" => Some((2, 2)),
        b":=" | b"pop$" | b"top$" | b"warning$" | b"write$" => Some((takes, 0)),
        b"newline$" | b"skip$" => Some((0, 0)),
        _ if advice::leaves_number(name) || advice::leaves_text(name) => Some((takes, 1)),
        _ => None,
    }
}

#[cfg(test)]
mod tests {
    use super::*;
    use crate::scene::Call;

    const STYLE: &str = "ENTRY {title note}{}{}\nSTRINGS {s}\n\
        FUNCTION {out}\n{ duplicate$ empty$\n 'pop$\n 'write$\n if$ }\n\
        FUNCTION {shows}\n{ \"x\" *\n write$ }\n\
        FUNCTION {misc}\n{ title \"a\" swap$ *\n pop$ note\n shows\n note s out #1 + *\n title #1\n { \"y\" * write$ }\n 'skip$\n if$\n s shows }\n";

    /// The origin of the operand of `next` at these places, each with its line, the number of its token and its function.
    fn of<'a>(code: &Code<'a>, next: &str, places: &[(usize, usize, &str)], position: usize) -> Option<Origin<'a>> {
        let frames: Vec<Frame<'_>> = places
            .iter()
            .map(|(line, number, owner)| Frame { line: *line, token: Some((0, *number)), owner: owner.as_bytes() })
            .collect();
        origin(code, next.as_bytes(), &frames, position)
    }

    #[test]
    fn fields_are_found_where_they_are_pushed() {
        let code = Code::new(STYLE.as_bytes());
        let title = |line| Some(Origin::Field(&b"title"[..], line));
        assert_eq!(of(&code, "*", &[(12, 3, "misc")], 0), title(12));
        assert_eq!(of(&code, "*", &[(12, 3, "misc")], 1), Some(Origin::Other));
        assert_eq!(of(&code, "*", &[(15, 12, "misc")], 0), Some(Origin::Other));
        assert_eq!(of(&code, "*", &[(15, 12, "misc")], 1), None);
        assert_eq!(of(&code, "*", &[(9, 1, "shows"), (14, 6, "misc")], 1), Some(Origin::Field(b"note", 13)));
        assert_eq!(of(&code, "*", &[(9, 1, "shows"), (20, 19, "misc")], 1), Some(Origin::Other));
        assert_eq!(of(&code, "*", &[(17, 1, "misc"), (19, 17, "misc")], 1), title(16));
        assert_eq!(of(&code, "*", &[(9, 1, "shows")], 1), None);
    }

    #[test]
    fn a_missing_field_is_named_by_its_token() {
        let style = "ENTRY {title note}{}{}\nFUNCTION {out} { write$ newline$ }\nFUNCTION {twice} { write$ }\n\
            FUNCTION {misc} { \"x\" title swap$ * note out\n title note * twice #1 { title twice } 'skip$ if$ }\nITERATE {misc}\n";
        let code = Code::new(style.as_bytes());
        let named = |before: &str, function: &str| {
            let place = style.find(before).unwrap() + before.len();
            let text = with_field_named(&code, place, b"missing field is not a string", function.as_bytes());
            text.map(|text| String::from_utf8(text).unwrap())
        };
        let is_missing = |field: &str| Some(format!("`{field}' is a missing field, not a string"));
        assert_eq!(named("swap$ ", "*"), is_missing("title"));
        assert_eq!(named("{out} { ", "write$"), is_missing("note"));
        // (either of two fields, or a function that is called twice)
        assert_eq!([named("title note ", "*"), named("{twice} { ", "write$")], [None, None]);
    }

    #[test]
    fn a_missing_field_is_named_by_what_pushed_it() {
        let style = "ENTRY {title note}{}{}\nFUNCTION {misc} { title\n { note } pop$ note title * }\nITERATE {misc}\n";
        let code = Code::new(style.as_bytes());
        let at = |line, token| {
            let call = Call { function: b"FUNCTION {misc}".to_vec(), file: b"s.bst".to_vec(), line };
            field_at(&code, &Spot { token: Some((0, token)), call })
        };
        assert_eq!(at(2, 0), Some(MissingField::Is(b"title", 2)));
        assert_eq!([at(3, 3), at(3, 4)], [&b"note"[..], b"title"].map(|name| Some(MissingField::Is(name, 3))));
        // (no field, and no token)
        assert_eq!([at(3, 2), at(3, 9)], [const { None }; 2]);
    }

    #[test]
    fn the_only_field_that_a_function_may_leave_is_named() {
        let style = "ENTRY {booktitle editor key title}{}{}\nSTRINGS {s t}\n\
            FUNCTION {all} { 's := { s } { t \"x\" * } while$ }\n\
            FUNCTION {half} { title empty$ { \"\" } { booktitle } if$ }\n\
            FUNCTION {names} { editor empty$ { key missing$ { cite$ } 'key if$ } { editor all } if$ }\n\
            FUNCTION {text} { duplicate$ empty$ { pop$ \"\" } 'skip$ if$ }\n\
            FUNCTION {last} { #1 { title text } { #1 'names { editor empty$ { key } { editor text } if$ } if$ } if$ }\n\
            FUNCTION {keys} { #1 { #1 'names { editor empty$ { key } { editor text } if$ } if$ } 'names if$ }\n\
            FUNCTION {two} { #1 'names { #2 'title { \"z\" } if$ } if$ }\n\
            FUNCTION {both} { #1 'title { booktitle } if$ }\n\
            FUNCTION {below} { #1 'skip$ 'title if$ }\n";
        let code = Code::new(style.as_bytes());
        let left = |name: &str| {
            let (_, tokens) = code.function(name.as_bytes()).unwrap();
            only_field_left(&code, tokens.end - 2)
                .map(|(field, line)| (String::from_utf8_lossy(field).into_owned(), line))
        };
        assert_eq!(left("half"), Some(("booktitle".into(), 4)));
        assert_eq!(left("two"), Some(("title".into(), 9)));
        assert_eq!(left("keys"), Some(("key".into(), 8)));
        // (none, either of two, or what was pushed before)
        assert_eq!(left("last"), None);
        assert_eq!([left("names"), left("both"), left("below"), left("all")], [const { None }; 4]);
    }

    #[test]
    fn missing_fields_are_named_or_those_that_may_be() {
        let style = "ENTRY {title note year}{}{}\nFUNCTION {half} { note empty$ 'title { year } if$ }\nFUNCTION {out} { write$ }\n\
            FUNCTION {misc} { half out\n #1 { note }\n {half}\n if$ write$\n call.type$ out\n title write$ }\n";
        let code = Code::new(style.as_bytes());
        let missing = |line, token, caller: Option<(usize, usize)>| {
            let owner = |is_called: bool| if is_called { &b"out"[..] } else { b"misc" };
            let frame = |(line, number), owner| Frame { line, token: Some((0, number)), owner };
            let first = frame((line, token), owner(caller.is_some()));
            let frames: Vec<Frame<'_>> = [first].into_iter().chain(caller.map(|place| frame(place, b"misc"))).collect();
            missing_field(&code, b"write$", &frames, 0).unwrap()
        };
        let all = || vec![&b"note"[..], b"title", b"year"];
        assert_eq!(missing(9, 10, None), MissingField::Is(b"title", 9));
        assert_eq!(missing(3, 0, Some((4, 1))), MissingField::LeftBy(b"half", 4, all()));
        assert_eq!(missing(7, 6, None), MissingField::LeftBy(b"if$", 7, all()));
        assert_eq!(missing(3, 0, Some((8, 8))), MissingField::ReadBy(b"misc", all()));
        let turns =
            Code::new(b"ENTRY {note}{}{}\nFUNCTION {misc} { #1 note { #0 } { #1 {write$} {skip$} if$ } while$ }\n");
        let frame = |number| Frame { line: 2, token: Some((0, number)), owner: b"misc" };
        let frames = [frame(0), frame(4)];
        assert_eq!(missing_field(&turns, b"write$", &frames, 0), Some(MissingField::ReadBy(b"misc", vec![b"note"])));
    }
}
