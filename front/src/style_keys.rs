//! Whether a style may print what `purify$` made of letters, seen by its text alone: it is followed with what each literal and each variable may hold. What can't be followed may print it.

use crate::keyed_hash::Keyed;
use crate::letter_places::with_small_letters;
use crate::style_text::{Kind, Token, Tokens};
use std::hash::{BuildHasher, Hasher};

/// What a text may hold: bits.
type Held = u8;

/// Neither letters with codes nor what is left of them.
const PLAIN: Held = 0;
/// Whole codes of letters.
const LETTERS: Held = 1;
/// What is left of a code without its control characters: what its letter sorts as.
const KEYS: Held = 2;

/// How many tokens are followed at most, how many names a style may have, and how often it is followed until its variables hold what they may.
const MOST_STEPS: usize = 200_000;
const MOST_NAMES: usize = 5_000;
const MOST_ROUNDS: usize = 10;

/// How many variables that keep texts a style may have, and how many literals its stack.
const MOST_TEXTS: usize = 128;
const MOST_LITERALS: usize = 48;

/// How many states a function is known from.
const MOST_KNOWN: usize = 32;

/// A name of a style, of which the case of `A-Z` doesn't matter.
#[derive(Debug, Clone, Copy)]
struct Name<'a> {
    bytes: &'a [u8],
    /// Its first eight bytes and its last eight, with small letters; twice all bytes of a shorter one.
    first: u64,
    last: u64,
}

/// Eight bytes with small letters.
#[inline(always)]
fn small(bytes: [u8; 8]) -> u64 {
    // (with this bit a letter is a small one, and nearly each name has no others)
    const SMALL: u64 = 0x2020_2020_2020_2020;
    let word = u64::from_le_bytes(bytes);
    if word & SMALL == SMALL { word } else { with_small_letters(word) }
}

impl<'a> Name<'a> {
    #[inline(always)]
    fn new(bytes: &'a [u8]) -> Name<'a> {
        if let (Some(first), Some(last)) = (bytes.first_chunk(), bytes.last_chunk()) {
            return Name { bytes, first: small(*first), last: small(*last) };
        }
        let word = match (bytes.first_chunk::<4>(), bytes.last_chunk::<4>()) {
            (Some([a, b, c, d]), Some([e, f, g, h])) => [*a, *b, *c, *d, *e, *f, *g, *h],
            _ => bytes.iter().fold(0u64, |word, byte| word << 8 | u64::from(*byte)).to_le_bytes(),
        };
        Name { bytes, first: small(word), last: small(word) }
    }
}

impl PartialEq for Name<'_> {
    #[inline(always)]
    fn eq(&self, other: &Self) -> bool {
        let (len, words) = (self.bytes.len(), |name: &Self| (name.first, name.last));
        len == other.bytes.len()
            && words(self) == words(other)
            && (len <= 16 || self.bytes.eq_ignore_ascii_case(other.bytes))
    }
}

/// The names of a style with what they mean, in a table: each name is at the place that its hash says, or at the first free one after that.
#[derive(Default)]
struct Meanings<'a> {
    hash: Keyed,
    /// At each place the number of a name, counted from 1; 0 where there is none. At least half of them are free.
    places: Vec<u16>,
    all: Vec<(Name<'a>, Meaning)>,
}

impl<'a> Meanings<'a> {
    /// A table with room for this number of names.
    fn for_names(count: usize) -> Meanings<'a> {
        let places = vec![0; (2 * count).next_power_of_two()];
        Meanings { places, all: Vec::with_capacity(count), ..Meanings::default() }
    }

    /// The place of a name, or the one that it would get.
    #[inline(always)]
    fn place(&self, name: &Name<'a>) -> usize {
        let last = self.places.len() - 1;
        let mut hasher = self.hash.build_hasher();
        hasher.write_u64(name.first ^ name.bytes.len() as u64);
        hasher.write_u64(name.last);
        let mut place = hasher.finish() as usize & last;
        while let Some((other, _)) = self.at(place)
            && other != name
        {
            place = (place + 1) & last;
        }
        place
    }

    #[inline(always)]
    fn at(&self, place: usize) -> Option<&(Name<'a>, Meaning)> {
        self.all.get(usize::from(self.places[place]).wrapping_sub(1))
    }

    #[inline(always)]
    fn get(&self, name: &'a [u8]) -> Option<Meaning> {
        self.at(self.place(&Name::new(name))).map(|(_, meaning)| *meaning)
    }

    /// Gives a name this meaning; false where there are too many.
    fn define(&mut self, name: &'a [u8], meaning: Meaning) -> bool {
        let name = Name::new(name);
        let place = self.place(&name);
        if let Some(number) = usize::from(self.places[place]).checked_sub(1) {
            self.all[number].1 = meaning;
            return true;
        }
        self.all.push((name, meaning));
        self.places[place] = self.all.len() as u16;
        if 2 * self.all.len() > self.places.len() {
            self.make_room();
        }
        self.all.len() <= MOST_NAMES
    }

    /// Makes the table twice as long.
    fn make_room(&mut self) {
        self.places = vec![0; 2 * self.places.len()];
        for number in 0..self.all.len() {
            let place = self.place(&self.all[number].0);
            self.places[place] = number as u16 + 1;
        }
    }
}

/// A style that can't be followed.
struct NotFollowed;

type Followed<T> = Result<T, NotFollowed>;

/// What a name of a style means.
#[derive(Debug, Clone, Copy, PartialEq, Eq)]
enum Meaning {
    Field(Held),
    Integer,
    /// A variable that keeps a text, by its number: one of the style, and one of each entry.
    Text(u32),
    OfEntry(u32),
    /// A function, by its number.
    Function(u32),
    Builtin(Effect),
}

/// What a built-in function does with what texts hold.
#[derive(Debug, Clone, Copy, PartialEq, Eq)]
enum Effect {
    /// Pops this number of literals.
    Take(u8),
    /// Pops this number of literals, and pushes what holds no letters.
    Answer(u8),
    /// Pops this number of literals above a text, which holds what it held.
    Keep(u8),
    Concatenate,
    Assign,
    CallType,
    Preamble,
    Duplicate,
    If,
    While,
    Clear,
    Purify,
    Substring,
    Swap,
    Write,
}

/// The built-in functions, but those that are texts or integers.
const BUILTINS: [(&str, Effect); 37] = [
    ("=", Effect::Answer(2)),
    ("<", Effect::Answer(2)),
    (">", Effect::Answer(2)),
    ("+", Effect::Answer(2)),
    ("-", Effect::Answer(2)),
    ("*", Effect::Concatenate),
    (":=", Effect::Assign),
    ("add.period$", Effect::Keep(0)),
    ("call.type$", Effect::CallType),
    ("change.case$", Effect::Keep(1)),
    ("chr.to.int$", Effect::Answer(1)),
    ("cite$", Effect::Answer(0)),
    ("duplicate$", Effect::Duplicate),
    ("empty$", Effect::Answer(1)),
    ("format.name$", Effect::Keep(2)),
    ("if$", Effect::If),
    ("int.to.chr$", Effect::Answer(1)),
    ("int.to.str$", Effect::Answer(1)),
    ("missing$", Effect::Answer(1)),
    ("newline$", Effect::Take(0)),
    ("num.names$", Effect::Answer(1)),
    ("pop$", Effect::Take(1)),
    ("preamble$", Effect::Preamble),
    ("purify$", Effect::Purify),
    ("quote$", Effect::Answer(0)),
    ("skip$", Effect::Take(0)),
    ("stack$", Effect::Clear),
    ("substring$", Effect::Substring),
    ("swap$", Effect::Swap),
    ("text.length$", Effect::Answer(1)),
    ("text.prefix$", Effect::Keep(1)),
    ("top$", Effect::Take(1)),
    ("type$", Effect::Answer(0)),
    ("warning$", Effect::Take(1)),
    ("while$", Effect::While),
    ("width$", Effect::Answer(1)),
    ("write$", Effect::Write),
];

/// A token of a body.
#[derive(Debug, Clone, Copy)]
enum Step {
    /// A text or an integer of the style.
    Literal,
    /// A name, and one with `'` before it.
    Name(Meaning),
    Quoted(Meaning),
    /// A body, by the place of its last step. Its steps stand after this one; its number is the place of this one.
    Body(u32),
}

/// A literal on the stack.
#[derive(Debug, Clone, Copy, PartialEq, Eq)]
enum Literal {
    Text(Held),
    Name(Meaning),
    Body(u32),
}

impl Literal {
    fn held(self) -> Held {
        match self {
            Literal::Text(held) => held,
            Literal::Name(_) | Literal::Body(_) => PLAIN,
        }
    }
}

/// The literals on top of a stack, in room of their own, so that they are copied at once.
#[derive(Debug, Clone, Copy)]
struct Stack {
    room: [Literal; MOST_LITERALS],
    len: usize,
}

impl Stack {
    fn literals(&self) -> &[Literal] {
        &self.room[..self.len]
    }

    fn push(&mut self, literal: Literal) -> Followed<()> {
        *self.room.get_mut(self.len).ok_or(NotFollowed)? = literal;
        self.len += 1;
        Ok(())
    }

    fn pop(&mut self) -> Option<Literal> {
        self.len = self.len.checked_sub(1)?;
        Some(self.room[self.len])
    }
}

/// Where a style stands: what is on its stack, and what its variables hold. (Those of entries hold what they ever may, since a command goes through the entries.)
#[derive(Debug, Clone, Copy)]
struct State {
    stack: Stack,
    /// What any literal below them may hold, of which it isn't known how many there are: two ways may leave different numbers, and another command may have left some.
    below: Held,
    /// Which variables hold letters, and which keys: a bit for each.
    letters: u128,
    keys: u128,
}

impl PartialEq for State {
    fn eq(&self, other: &State) -> bool {
        self.held() == other.held() && self.stack.literals() == other.stack.literals()
    }
}

impl State {
    /// What it holds but for the literals on top.
    fn held(&self) -> (Held, u128, u128) {
        (self.below, self.letters, self.keys)
    }

    fn push(&mut self, held: Held) -> Followed<()> {
        self.stack.push(Literal::Text(held))
    }

    /// What a literal holds that is popped.
    fn pop(&mut self) -> Held {
        self.pop_literal().held()
    }

    fn pop_literal(&mut self) -> Literal {
        self.stack.pop().unwrap_or(Literal::Text(self.below))
    }

    /// Adds what is so after another way.
    fn join(&mut self, other: &State) -> Followed<()> {
        let (ours, theirs) = (self.stack.len, other.stack.len);
        let common = ours.min(theirs);
        let (deeper, tops) = other.stack.literals().split_at(theirs - common);
        let lost = &self.stack.room[..ours - common];
        if deeper.iter().chain(lost).any(|literal| !matches!(literal, Literal::Text(_))) {
            return Err(NotFollowed);
        }
        self.below |= other.below | held_of(deeper) | held_of(lost);
        self.stack.room.copy_within(ours - common..ours, 0);
        self.stack.len = common;
        for (one, other) in self.stack.room[..common].iter_mut().zip(tops) {
            *one = match (*one, *other) {
                (Literal::Text(held), Literal::Text(more)) => Literal::Text(held | more),
                (one, other) if one == other => one,
                _ => return Err(NotFollowed),
            };
        }
        (self.letters, self.keys) = (self.letters | other.letters, self.keys | other.keys);
        Ok(())
    }

    /// What a variable holds.
    fn text(&self, number: u32) -> Held {
        let held = |bits: u128, held: Held| if (bits >> number) & 1 == 1 { held } else { PLAIN };
        held(self.letters, LETTERS) | held(self.keys, KEYS)
    }

    fn set_text(&mut self, number: u32, held: Held) {
        self.letters = self.letters & !(1 << number) | u128::from(held & LETTERS != 0) << number;
        self.keys = self.keys & !(1 << number) | u128::from(held & KEYS != 0) << number;
    }

    /// Whether a literal may hold keys that another command may take, or is one that it may execute.
    fn leaves_more_than_letters(&self) -> bool {
        let is_odd = |literal: &Literal| !matches!(literal, Literal::Text(held) if held & KEYS == 0);
        self.below & KEYS != 0 || self.stack.literals().iter().any(is_odd)
    }

    /// Whether it is that of a command that begins, and no variable holds keys.
    fn is_first_without_keys(&self) -> bool {
        self.stack.len == 0 && self.below == LETTERS && self.keys == 0
    }
}

/// What any of these literals may hold.
fn held_of(literals: &[Literal]) -> Held {
    literals.iter().fold(PLAIN, |held, literal| held | literal.held())
}

/// What a function, or one that it names, may do that keys may come of.
#[derive(Debug, Clone, Copy, Default, PartialEq, Eq)]
struct Reach {
    /// Whether it may make some.
    makes_keys: bool,
    /// Which variables of an entry it reads: a bit for each.
    of_entries: u128,
}

impl Reach {
    fn join(&mut self, other: Reach) {
        self.makes_keys |= other.makes_keys;
        self.of_entries |= other.of_entries;
    }
}

/// A style as it is read.
#[derive(Default)]
struct Style<'a> {
    meanings: Meanings<'a>,
    /// How many variables it has, and how many each entry has.
    texts: u32,
    of_entries: u32,
    /// The steps of all bodies, in the order of the text.
    steps: Vec<Step>,
    /// The bodies of the functions.
    functions: Vec<u32>,
    /// What each of them may do.
    reaches: Vec<Reach>,
    /// What the one that is read may do, as far as it is read.
    reach: Reach,
    /// What the commands execute.
    executed: Vec<Meaning>,
    /// The bodies that aren't closed yet.
    open: Vec<u32>,
}

/// A number of something in a style.
fn number_of(count: usize) -> Followed<u32> {
    u32::try_from(count).map_err(|_| NotFollowed)
}

/// The tokens of a style that are still to be read.
struct Reading<'a> {
    text: &'a [u8],
    tokens: Tokens<'a>,
}

impl<'a> Reading<'a> {
    fn word(&self, token: &Token) -> &'a [u8] {
        &self.text[token.start..token.end]
    }

    fn expect(&mut self, kind: Kind) -> Followed<Token> {
        self.tokens.next().filter(|token| token.kind == kind).ok_or(NotFollowed)
    }

    /// Does this with each of the names between braces.
    fn names(&mut self, mut take: impl FnMut(&'a [u8]) -> Followed<()>) -> Followed<()> {
        self.expect(Kind::Open)?;
        loop {
            let token = self.tokens.next().ok_or(NotFollowed)?;
            match token.kind {
                Kind::Name => take(self.word(&token))?,
                Kind::Close => return Ok(()),
                _ => return Err(NotFollowed),
            }
        }
    }

    /// The last name between braces, where there should be one alone.
    fn name(&mut self) -> Followed<&'a [u8]> {
        let mut last = None;
        self.names(|name| {
            last = Some(name);
            Ok(())
        })?;
        last.ok_or(NotFollowed)
    }
}

impl<'a> Style<'a> {
    /// Reads a style; the values of the fields of these names have no codes.
    fn read(text: &'a [u8], fixed: &[&str]) -> Followed<Style<'a>> {
        let meanings = Meanings::for_names(text.len() / 64 + BUILTINS.len());
        let mut style = Style { meanings, steps: Vec::with_capacity(text.len() / 8), ..Style::default() };
        for (name, effect) in BUILTINS {
            style.define(name.as_bytes(), Meaning::Builtin(effect))?;
        }
        for name in ["entry.max$", "global.max$"] {
            style.define(name.as_bytes(), Meaning::Integer)?;
        }
        style.define_of_entry(b"sort.key$")?;
        style.define(b"crossref", Meaning::Field(PLAIN))?;
        let mut reading = Reading { text, tokens: Tokens::new(text) };
        while let Some(token) = reading.tokens.next() {
            if token.kind != Kind::Name {
                return Err(NotFollowed);
            }
            let word = reading.word(&token);
            style.read_command(word, &mut reading, fixed)?;
        }
        Ok(style)
    }

    fn define(&mut self, name: &'a [u8], meaning: Meaning) -> Followed<()> {
        if self.meanings.define(name, meaning) { Ok(()) } else { Err(NotFollowed) }
    }

    fn define_text(&mut self, name: &'a [u8]) -> Followed<()> {
        self.define(name, Meaning::Text(self.texts))?;
        self.texts += 1;
        if self.texts as usize > MOST_TEXTS { Err(NotFollowed) } else { Ok(()) }
    }

    fn define_of_entry(&mut self, name: &'a [u8]) -> Followed<()> {
        self.define(name, Meaning::OfEntry(self.of_entries))?;
        self.of_entries += 1;
        if self.of_entries as usize > MOST_TEXTS { Err(NotFollowed) } else { Ok(()) }
    }

    fn read_command(&mut self, word: &[u8], reading: &mut Reading<'a>, fixed: &[&str]) -> Followed<()> {
        let is = |command: &str| word.eq_ignore_ascii_case(command.as_bytes());
        if is("function") {
            let name = reading.name()?;
            reading.expect(Kind::Open)?;
            self.reach = Reach::default();
            let body = self.read_body(reading)?;
            self.define(name, Meaning::Function(number_of(self.functions.len())?))?;
            self.functions.push(body);
            self.reaches.push(self.reach);
        } else if is("macro") {
            reading.name()?;
            reading.expect(Kind::Open)?;
            reading.expect(Kind::Text)?;
            reading.expect(Kind::Close)?;
        } else if is("entry") {
            let is_fixed = |name: &[u8]| fixed.iter().any(|field| name.eq_ignore_ascii_case(field.as_bytes()));
            let held = |name: &[u8]| if is_fixed(name) { PLAIN } else { LETTERS };
            reading.names(|name| self.define(name, Meaning::Field(held(name))))?;
            reading.names(|name| self.define(name, Meaning::Integer))?;
            reading.names(|name| self.define_of_entry(name))?;
        } else if is("integers") {
            reading.names(|name| self.define(name, Meaning::Integer))?;
        } else if is("strings") {
            reading.names(|name| self.define_text(name))?;
        } else if is("execute") || is("iterate") || is("reverse") {
            let meaning = self.meaning(reading.name()?)?;
            self.executed.push(meaning);
        } else if !is("read") && !is("sort") {
            return Err(NotFollowed);
        }
        Ok(())
    }

    /// Begins a body.
    fn open_body(&mut self) -> Followed<()> {
        self.open.push(number_of(self.steps.len())?);
        self.steps.push(Step::Body(0));
        Ok(())
    }

    /// Ends the body that was begun last; its number.
    fn close_body(&mut self) -> Followed<u32> {
        let number = self.open.pop().ok_or(NotFollowed)?;
        self.steps[number as usize] = Step::Body(number_of(self.steps.len() - 1)?);
        Ok(number)
    }

    /// Reads a body after its `{`; its number. (The bodies in it are kept on a list, so that no depth is too deep.)
    fn read_body(&mut self, reading: &mut Reading<'a>) -> Followed<u32> {
        self.open_body()?;
        loop {
            let token = reading.tokens.take_token().ok_or(NotFollowed)?;
            match token.kind {
                Kind::Open => self.open_body()?,
                Kind::Close => {
                    let number = self.close_body()?;
                    if self.open.is_empty() {
                        return Ok(number);
                    }
                }
                Kind::Text | Kind::Integer => self.steps.push(Step::Literal),
                Kind::Name => {
                    let meaning = self.named(reading.word(&token))?;
                    self.steps.push(Step::Name(meaning));
                }
                Kind::Quoted => {
                    let meaning = self.named(&reading.word(&token)[1..])?;
                    self.steps.push(Step::Quoted(meaning));
                }
                Kind::OpenText | Kind::NoInteger | Kind::Stuff => return Err(NotFollowed),
            }
        }
    }

    /// The meaning of a name in a body.
    fn named(&mut self, name: &'a [u8]) -> Followed<Meaning> {
        let meaning = self.meaning(name)?;
        match meaning {
            Meaning::Function(number) => self.reach.join(self.reaches[number as usize]),
            Meaning::Builtin(Effect::Purify | Effect::Substring | Effect::CallType) => self.reach.makes_keys = true,
            Meaning::OfEntry(number) => self.reach.of_entries |= 1 << number,
            Meaning::Builtin(_) | Meaning::Field(_) | Meaning::Integer | Meaning::Text(_) => {}
        }
        Ok(meaning)
    }

    #[inline(always)]
    fn meaning(&self, name: &'a [u8]) -> Followed<Meaning> {
        self.meanings.get(name).ok_or(NotFollowed)
    }
}

/// How deep bodies are followed into one another.
const DEEPEST: usize = 200;

/// What was found of a function: from this state, in a loop or not, to that state.
struct Known {
    is_in_loop: bool,
    before: Saved,
    after: Saved,
    /// What was found of the function before.
    next: Option<u32>,
}

/// A state in as little room as it needs: its literals stand on a list of all such states.
struct Saved {
    held: (Held, u128, u128),
    start: usize,
    len: usize,
}

/// What was found of the functions.
#[derive(Default)]
struct Memory {
    /// What was found last of each function, and of how many states that is known.
    last: Vec<(Option<u32>, usize)>,
    known: Vec<Known>,
    literals: Vec<Literal>,
}

impl Memory {
    fn clear(&mut self, functions: usize) {
        self.last.clear();
        self.last.resize(functions, (None, 0));
        self.known.clear();
        self.known.reserve(4 * functions);
        self.literals.clear();
        self.literals.reserve(16 * functions);
    }

    fn save(&mut self, state: &State) -> Saved {
        let (start, literals) = (self.literals.len(), state.stack.literals());
        self.literals.extend_from_slice(literals);
        Saved { held: state.held(), start, len: literals.len() }
    }

    fn literals(&self, saved: &Saved) -> &[Literal] {
        &self.literals[saved.start..saved.start + saved.len]
    }

    /// Where a function leads from this state; false where that isn't known.
    fn follow(&self, function: usize, is_in_loop: bool, state: &mut State) -> bool {
        let mut next = self.last[function].0;
        while let Some(known) = next.map(|number| &self.known[number as usize]) {
            let is_it = known.is_in_loop == is_in_loop && known.before.held == state.held();
            if is_it && self.literals(&known.before) == state.stack.literals() {
                (state.below, state.letters, state.keys) = known.after.held;
                state.stack.len = known.after.len;
                state.stack.room[..known.after.len].copy_from_slice(self.literals(&known.after));
                return true;
            }
            next = known.next;
        }
        false
    }

    /// Keeps where a function leads from a state.
    fn keep(&mut self, function: usize, is_in_loop: bool, before: Saved, state: &State) {
        let (next, count) = self.last[function];
        if let (Ok(number), true) = (u32::try_from(self.known.len()), count < MOST_KNOWN) {
            let after = self.save(state);
            self.known.push(Known { is_in_loop, before, after, next });
            self.last[function] = (Some(number), count + 1);
        }
    }
}

/// A style that is followed.
struct Following<'s> {
    style: &'s Style<'s>,
    /// The functions of the types.
    types: &'s [Literal],
    /// What each variable of an entry may hold.
    of_entries: Vec<Held>,
    /// Whether a variable of an entry holds more than what was taken for all that it may, when it was read.
    is_early: bool,
    /// Which variables of an entry were read.
    are_read: Vec<bool>,
    /// What was found of the functions in this round.
    memory: Memory,
    steps: usize,
    loops: usize,
    depth: usize,
    prints_keys: bool,
}

impl Following<'_> {
    /// Follows all commands, until no variable holds more than before.
    fn follow_all(&mut self) -> Followed<()> {
        // (letters are taken for what any variable may hold, so that one round is enough for most styles)
        let stack = Stack { room: [Literal::Text(PLAIN); MOST_LITERALS], len: 0 };
        let mut begun = State { stack, below: LETTERS, letters: u128::MAX, keys: 0 };
        for _ in 0..MOST_ROUNDS {
            let before = begun;
            self.memory.clear(self.style.functions.len());
            self.is_early = false;
            self.are_read.fill(false);
            self.follow_commands(&mut begun)?;
            if before == begun && !self.is_early {
                return Ok(());
            }
        }
        Err(NotFollowed)
    }

    /// Follows all commands once, each from what any may leave.
    fn follow_commands(&mut self, begun: &mut State) -> Followed<()> {
        for meaning in &self.style.executed {
            let mut state = *begun;
            self.call(*meaning, &mut state)?;
            if state.leaves_more_than_letters() {
                return Err(NotFollowed);
            }
            state.stack.len = 0;
            begun.join(&state)?;
        }
        Ok(())
    }

    fn body(&mut self, number: u32, state: &mut State) -> Followed<()> {
        self.depth += 1;
        let (steps, mut at) = (&self.style.steps, number as usize);
        let Step::Body(last) = steps[at] else { return Err(NotFollowed) };
        if self.depth > DEEPEST {
            return Err(NotFollowed);
        }
        while at < last as usize {
            at += 1;
            self.steps += 1;
            if self.steps > MOST_STEPS {
                return Err(NotFollowed);
            }
            match steps[at] {
                Step::Literal => state.push(PLAIN)?,
                Step::Name(meaning) => self.call(meaning, state)?,
                Step::Quoted(meaning) => state.stack.push(Literal::Name(meaning))?,
                Step::Body(last) => {
                    state.stack.push(Literal::Body(number_of(at)?))?;
                    at = last as usize;
                }
            }
        }
        self.depth -= 1;
        Ok(())
    }

    fn function(&mut self, number: u32, state: &mut State) -> Followed<()> {
        let (place, is_in_loop) = (number as usize, self.loops > 0);
        if self.memory.follow(place, is_in_loop, state) {
            return Ok(());
        }
        let before = self.memory.save(state);
        self.body(self.style.functions[place], state)?;
        self.memory.keep(place, is_in_loop, before, state);
        Ok(())
    }

    #[inline(always)]
    fn call(&mut self, meaning: Meaning, state: &mut State) -> Followed<()> {
        match meaning {
            Meaning::Field(held) => state.push(held)?,
            Meaning::Integer => state.push(PLAIN)?,
            Meaning::Text(number) => state.push(state.text(number))?,
            Meaning::OfEntry(number) => {
                self.are_read[number as usize] = true;
                state.push(self.of_entries[number as usize])?;
            }
            Meaning::Function(number) => self.function(number, state)?,
            Meaning::Builtin(effect) => self.builtin(effect, state)?,
        }
        Ok(())
    }

    fn execute(&mut self, literal: Literal, state: &mut State) -> Followed<()> {
        match literal {
            Literal::Body(number) => self.body(number, state),
            Literal::Name(meaning) => self.call(meaning, state),
            Literal::Text(_) => Err(NotFollowed),
        }
    }

    /// Follows both of these ways into one state.
    fn either(&mut self, ways: [Literal; 2], state: &mut State) -> Followed<()> {
        let mut after = *state;
        self.execute(ways[0], &mut after)?;
        self.execute(ways[1], state)?;
        state.join(&after)
    }

    /// Passes over what needs not be followed: a function of which no keys come. What it leaves is taken for letters.
    fn pass_over(&mut self, way: Literal, state: &mut State) -> bool {
        let Literal::Name(Meaning::Function(number)) = way else { return false };
        let reach = self.style.reaches[number as usize];
        let is_read = |number: usize| reach.of_entries >> number & 1 == 1;
        let mut held = self.of_entries.iter().enumerate();
        if reach.makes_keys
            || !state.is_first_without_keys()
            || held.any(|(number, held)| is_read(number) && held & KEYS != 0)
        {
            return false;
        }
        for (number, was_read) in self.are_read.iter_mut().enumerate() {
            *was_read |= is_read(number);
        }
        state.letters = u128::MAX;
        true
    }

    /// Follows each of the types into one state.
    fn any_type(&mut self, state: &mut State) -> Followed<()> {
        let (types, before) = (self.types, *state);
        for (number, way) in types.iter().enumerate() {
            let mut after = before;
            if !self.pass_over(*way, &mut after) {
                self.execute(*way, &mut after)?;
            }
            if number > 0 {
                after.join(state)?;
            }
            *state = after;
        }
        Ok(())
    }

    /// Follows a loop until its state holds no more than before.
    fn repeat(&mut self, test: Literal, body: Literal, state: &mut State) -> Followed<()> {
        self.loops += 1;
        for _ in 0..MOST_ROUNDS {
            let mut after = *state;
            self.execute(test, &mut after)?;
            after.pop();
            let ended = after;
            self.execute(body, &mut after)?;
            after.join(state)?;
            if after == *state {
                self.loops -= 1;
                *state = ended;
                return Ok(());
            }
            *state = after;
        }
        Err(NotFollowed)
    }

    fn builtin(&mut self, effect: Effect, state: &mut State) -> Followed<()> {
        match effect {
            Effect::Take(popped) => {
                for _ in 0..popped {
                    state.pop();
                }
            }
            Effect::Answer(popped) => {
                for _ in 0..popped {
                    state.pop();
                }
                state.push(PLAIN)?;
            }
            Effect::Keep(popped) => {
                for _ in 0..popped {
                    state.pop();
                }
                let held = state.pop();
                state.push(held)?;
            }
            Effect::Concatenate => {
                let held = state.pop() | state.pop();
                state.push(held)?;
            }
            Effect::Assign => {
                let (variable, held) = (state.pop_literal(), state.pop());
                match variable {
                    Literal::Name(Meaning::Text(number)) => state.set_text(number, held),
                    Literal::Name(Meaning::OfEntry(number)) => self.keep_of_entry(number, held),
                    Literal::Name(Meaning::Integer) => {}
                    _ => return Err(NotFollowed),
                }
            }
            Effect::CallType => self.any_type(state)?,
            // (it may have strings in it)
            Effect::Preamble => state.push(LETTERS)?,
            Effect::Duplicate => {
                let literal = state.pop_literal();
                state.stack.push(literal)?;
                state.stack.push(literal)?;
            }
            Effect::If => {
                let (no, yes) = (state.pop_literal(), state.pop_literal());
                state.pop();
                self.either([yes, no], state)?;
            }
            Effect::While => {
                let (body, test) = (state.pop_literal(), state.pop_literal());
                self.repeat(test, body, state)?;
            }
            Effect::Clear => state.stack.len = 0,
            Effect::Purify => {
                let held = state.pop();
                state.push(if held == PLAIN { PLAIN } else { KEYS })?;
            }
            Effect::Substring => {
                state.pop();
                state.pop();
                let held = state.pop();
                // (a loop may leave out each byte of a code but its key; what one cut leaves of it is seen in the list)
                let left = if held & LETTERS != 0 && self.loops > 0 { KEYS } else { PLAIN };
                state.push(held | left)?;
            }
            Effect::Swap => {
                let (top, below) = (state.pop_literal(), state.pop_literal());
                state.stack.push(top)?;
                state.stack.push(below)?;
            }
            Effect::Write => self.prints_keys |= state.pop() & KEYS != 0,
        }
        Ok(())
    }

    /// Adds what a variable of an entry may hold.
    fn keep_of_entry(&mut self, number: u32, held: Held) {
        let number = number as usize;
        let more = self.of_entries[number] | held;
        self.is_early |= self.are_read[number] && more != self.of_entries[number];
        self.of_entries[number] = more;
    }
}

/// Whether a style may print what `purify$` made of letters, in a job whose entries have these types; the values of the fields of these names have no codes.
pub fn may_print_keys<'t>(text: &'t [u8], types: &[&'t [u8]], fixed: &[&str]) -> bool {
    let follow = || {
        let style = Style::read(text, fixed)?;
        let default = style.meaning(b"default.type").ok();
        let mut functions: Vec<Meaning> = default.into_iter().collect();
        for kind in types {
            let function =
                style.meaning(kind).ok().filter(|meaning| matches!(meaning, Meaning::Function(_))).or(default);
            functions.extend(function.filter(|function| !functions.contains(function)));
        }
        let types: Vec<Literal> = functions.into_iter().map(Literal::Name).collect();
        let mut following = Following {
            style: &style,
            types: &types,
            of_entries: vec![LETTERS; style.of_entries as usize],
            is_early: false,
            are_read: vec![false; style.of_entries as usize],
            memory: Memory::default(),
            steps: 0,
            loops: 0,
            depth: 0,
            prints_keys: false,
        };
        following.follow_all()?;
        Ok::<bool, NotFollowed>(following.prints_keys)
    };
    follow().unwrap_or(true)
}

#[cfg(test)]
mod tests {
    use super::*;

    /// Whether a style with this body may print keys of the field `t`.
    fn may_print(body: &str) -> bool {
        let style = format!(
            "ENTRY {{t year}} {{}} {{label}} STRINGS {{s}} INTEGERS {{n}}\nFUNCTION {{key}} {{purify$ \"l\" change.case$}}\nFUNCTION {{misc}} {{ {body} }}\nREAD\nITERATE {{call.type$}}\n"
        );
        may_print_keys(style.as_bytes(), &[b"Misc"], &["year"])
    }

    #[test]
    fn what_is_made_for_sorting_alone_is_not_printed() {
        for body in [
            "t write$",
            "t key 'sort.key$ := t write$",
            "#1 {t} 'skip$ if$ write$",
            "{#1} {t} while$",
            "year purify$ #-1 #2 substring$ 's := t s * write$",
            "t empty$ {\"\"} {t key} if$ pop$ t write$",
            "{n #0 >} {t #1 \"{ll}\" format.name$ write$ n #1 - 'n :=} while$",
            "t #4 #999 substring$ write$",
            "t key label = 'skip$ {t write$} if$",
            "t key duplicate$ pop$ pop$ t write$",
            "t 's := {n #0 >} {n #1 > {\", \" * s *} 's if$ n #1 - 'n :=} while$ write$ s key 'sort.key$ :=",
        ] {
            assert!(!may_print(body), "{body}");
        }
    }

    #[test]
    fn what_may_be_printed_is_seen() {
        for body in [
            "t purify$ write$",
            "t key write$",
            "t key 's := s write$",
            "s write$ t key 's :=",
            "t key 'label := label #1 #3 substring$ write$",
            "t empty$ 'skip$ {\"\" t key * write$} if$",
            "t key \"x\" swap$ write$ pop$",
            "t \"{x}\" * purify$ add.period$ write$",
            "{n #0 >} {s write$ t purify$ 's :=} while$",
            "{n #0 >} {t n #1 substring$ s * 's :=} while$ s write$",
            "t purify$",
            "t key {n #0 >} {n #1 > {\", \" * t *} 't if$ n #1 - 'n :=} while$ write$",
            "sort.key$ write$ t purify$ 'sort.key$ :=",
        ] {
            assert!(may_print(body), "{body}");
        }
    }

    #[test]
    fn a_type_without_keys_is_passed_over() {
        let may_print = |first: &str, body: &str| {
            let style = format!(
                "ENTRY {{t}} {{}} {{label}} STRINGS {{s}}\nFUNCTION {{first}} {{ {first} }}\nFUNCTION {{misc}} {{ {body} }}\nFUNCTION {{book}} {{t purify$ pop$}}\nREAD\nITERATE {{first}}\nITERATE {{call.type$}}\n"
            );
            may_print_keys(style.as_bytes(), &[b"misc", b"book"], &[])
        };
        let key = "t purify$ 'sort.key$ :=";
        assert!(!may_print(key, "#1 t 't if$") && !may_print(key, "label write$"));
        assert!(may_print(key, "sort.key$ write$") && may_print("t purify$ 'label :=", "label write$"));
        assert!(may_print("t purify$ 's :=", "s write$") && may_print("t purify$", "write$"));
        assert!(may_print("'purify$", "t swap$ #1 swap$ 'skip$ if$ write$"));
    }

    #[test]
    fn what_cannot_be_followed_may_print() {
        for body in ["t 'n write$ if$", "unknown", "t \"", "t 'misc :=", "#1 't 'n if$ if$", "n {'t} 'skip$ if$", "'t"]
        {
            assert!(may_print(&format!("t purify$ pop$ {body}")), "{body}");
        }
        let deep = format!("t purify$ pop$ {}t write${}", "#1 { ".repeat(300), " } 'skip$ if$".repeat(300));
        assert!(may_print(&deep));
        assert!(may_print_keys(b"x", &[], &[]) && !may_print_keys(b"", &[], &[]));
    }
}
