"""Whether a style may print what `purify$` made of letters, seen by its text alone: it is followed with what each literal and each variable may hold. What can't be followed may print it.
It follows styles as the front end does (front/src/style_keys.rs), so that both leave out the letters of the same lists, for the same reasons."""

from __future__ import annotations

import re
from typing import Any, Callable, Dict, Iterable, Iterator, List, NamedTuple, NoReturn, Optional, Set, Tuple, Union

from .languages import BUILTINS, FIXED, OF_STYLES

__all__ = ["may_print_keys"]

# What a text may hold: neither letters with codes nor what is left of them, whole codes of letters, and what is left of a code without its control characters, which is what its letter sorts as.
PLAIN, LETTERS, KEYS = 0, 1, 2

# The tokens of a style: what follows a literal is a space, a line end, a brace or a comment.
SPACE = re.compile(rb"(?:[ \t\r\n]+|%[^\n]*)*")
TEXT = re.compile(rb'"[^"\n]*"')
INTEGER = re.compile(rb"#(?=-?[0-9])(-?)0*([0-9]*)")
WORD = re.compile(rb"[^ \t\r\n}%]*")
ENDS_NAME = b" \t\r\n}%"


class NotFollowed(Exception):
    """A style that can't be followed."""


def refuse() -> NoReturn:
    raise NotFollowed


class Meaning(NamedTuple):
    """What a name of a style means. kind: `field`, `integer`, `text`, `entry` (a variable of an entry), `function`, or a built-in function's effect. number: what the field holds, the variable's or the
    function's number, or how many literals the built-in function pops."""

    kind: str
    number: int


class Called(NamedTuple):
    """A step that executes a name."""

    meaning: Meaning


class Quoted(NamedTuple):
    """A step that pushes a name, and what is pushed."""

    meaning: Meaning


class Body(NamedTuple):
    """A step that pushes a body, and what is pushed."""

    number: int


# What a step is; a number is a literal, by how much of a letter it holds.
Step = Union[int, Called, Quoted, Body]
# What stands on a stack: what a text may hold, or what can be executed.
Literal = Union[int, Quoted, Body]
# What is still to be followed: an iterator over such iterators, so that no style is nested deeper than Python's calls may be.
Walk = Iterator[Any]


class Tokens:
    """The tokens of a style, each its kind and its word; comments and whitespace stand between them. A token that is none can't be followed."""

    def __init__(self, style: bytes) -> None:
        self.style = style
        self.at = 0
        self.is_after_literal = False

    def next(self) -> Optional[Tuple[str, bytes]]:
        """The next token; None at the end."""
        if self.is_after_literal and self.at < len(self.style) and self.style[self.at] not in ENDS_NAME:
            refuse()
        space = SPACE.match(self.style, self.at)
        self.at = space.end() if space else self.at
        first = self.style[self.at : self.at + 1]
        if not first:
            return None
        kind, word = self.token(first)
        self.at += len(word)
        self.is_after_literal = kind in ("text", "integer")
        return kind, word

    def token(self, first: bytes) -> Tuple[str, bytes]:
        if first in (b"{", b"}"):
            return "open" if first == b"{" else "close", first
        pattern = {b'"': TEXT, b"#": INTEGER}.get(first, WORD)
        found = pattern.match(self.style, self.at) or refuse()
        if first == b"#" and (len(found[2]) > 10 or not -(2**31) <= int(found[1] + (found[2] or b"0")) < 2**31):
            refuse()
        return {b'"': "text", b"#": "integer", b"'": "quoted"}.get(first, "name"), found[0]

    def expect(self, kind: str) -> bytes:
        """The word of the next token, which has to be of this kind."""
        token = self.next()
        if token is None or token[0] != kind:
            refuse()
        return token[1]

    def names(self) -> List[bytes]:
        """The names between braces."""
        self.expect("open")
        names: List[bytes] = []
        while True:
            kind, word = self.next() or refuse()
            if kind == "close":
                return names
            if kind != "name":
                refuse()
            names.append(word.lower())

    def name(self) -> bytes:
        """The one name between braces."""
        names = self.names()
        return names[-1] if names else refuse()


class Style:
    """A style as it is read: what its names mean, its bodies, each its steps, those of the functions by their numbers, and what the commands execute."""

    def __init__(self, style: bytes) -> None:
        self.meanings: Dict[bytes, Meaning] = {}
        self.texts = self.of_entries = 0
        self.bodies: List[List[Step]] = []
        self.functions: List[int] = []
        self.executed: List[Meaning] = []
        for name, effect, popped in BUILTINS:
            self.define(name.encode("ascii"), Meaning(effect, popped))
        for integer in (b"entry.max$", b"global.max$"):
            self.define(integer, Meaning("integer", 0))
        self.define_of_entry(b"sort.key$")
        self.define(b"crossref", Meaning("field", PLAIN))
        tokens = Tokens(style)
        token = tokens.next()
        while token is not None:
            if token[0] != "name":
                refuse()
            self.read_command(token[1].lower(), tokens)
            token = tokens.next()

    def define(self, name: bytes, meaning: Meaning) -> None:
        self.meanings[name] = meaning
        if len(self.meanings) > OF_STYLES["MOST_NAMES"]:
            refuse()

    def define_text(self, name: bytes) -> None:
        self.define(name, Meaning("text", self.texts))
        self.texts += 1
        if self.texts > OF_STYLES["MOST_TEXTS"]:
            refuse()

    def define_of_entry(self, name: bytes) -> None:
        self.define(name, Meaning("entry", self.of_entries))
        self.of_entries += 1

    def define_integers(self, names: Iterable[bytes]) -> None:
        for name in names:
            self.define(name, Meaning("integer", 0))

    def read_command(self, word: bytes, tokens: Tokens) -> None:
        if word == b"entry":
            for name in tokens.names():
                self.define(name, Meaning("field", PLAIN if name.decode("latin1") in FIXED else LETTERS))
            self.define_integers(tokens.names())
            for name in tokens.names():
                self.define_of_entry(name)
        elif word == b"integers":
            self.define_integers(tokens.names())
        elif word == b"strings":
            for name in tokens.names():
                self.define_text(name)
        elif word == b"macro":
            tokens.name()
            for kind in ("open", "text", "close"):
                tokens.expect(kind)
        elif word == b"function":
            self.read_function(tokens)
        elif word in (b"execute", b"iterate", b"reverse"):
            self.executed.append(self.meaning(tokens.name()))
        elif word not in (b"read", b"sort"):
            refuse()

    def read_function(self, tokens: Tokens) -> None:
        name = tokens.name()
        tokens.expect("open")
        body = self.read_body(tokens)
        self.define(name, Meaning("function", len(self.functions)))
        self.functions.append(body)

    def read_body(self, tokens: Tokens) -> int:
        """Reads a body after its `{`; its number."""
        unfinished: List[List[Step]] = [[]]
        while True:
            kind, word = tokens.next() or refuse()
            if kind == "open":
                unfinished.append([])
                continue
            step: Step = PLAIN
            if kind == "name":
                step = Called(self.meaning(word.lower()))
            elif kind == "quoted":
                step = Quoted(self.meaning(word[1:].lower()))
            elif kind == "close":
                step = Body(len(self.bodies))
                self.bodies.append(unfinished.pop())
                if not unfinished:
                    return step.number
            unfinished[-1].append(step)

    def meaning(self, name: bytes) -> Meaning:
        """What a name means."""
        return self.meanings.get(name) or refuse()


def held_by(literal: Literal) -> int:
    """What a literal holds: a name or a body holds neither letters nor keys."""
    return literal if isinstance(literal, int) else PLAIN


class State:
    """Where a style stands: what is on its stack, and what its variables hold. Those of entries hold what they ever may, since a command goes through the entries.

    below: what any literal below those of the stack may hold, of which it isn't known how many there are: two ways may leave different numbers, and another command may have left some."""

    def __init__(self, stack: List[Literal], below: int, texts: List[int]) -> None:
        self.stack, self.below, self.texts = stack, below, texts

    def copy(self) -> State:
        return State([*self.stack], self.below, [*self.texts])

    def key(self) -> Tuple[int, Tuple[int, ...], Tuple[Literal, ...]]:
        """What two states share where they are the same."""
        return self.below, tuple(self.texts), tuple(self.stack)

    def take_from(self, other: State) -> None:
        self.stack, self.below, self.texts = [*other.stack], other.below, [*other.texts]

    def pop_literal(self) -> Literal:
        return self.stack.pop() if self.stack else self.below

    def pop(self) -> int:
        """What a literal holds that is popped."""
        return held_by(self.pop_literal())

    def pop_all(self, count: int) -> None:
        for _ in range(count):
            self.pop_literal()

    def join(self, other: State) -> State:
        """What is so after either of two ways."""
        common = min(len(self.stack), len(other.stack))
        cuts = [len(state.stack) - common for state in (self, other)]
        stack = [joined(one, two) for one, two in zip(self.stack[cuts[0] :], other.stack[cuts[1] :])]
        below = self.below | other.below
        for literal in [*self.stack[: cuts[0]], *other.stack[: cuts[1]]]:
            below |= held_by(literal)
        return State(stack, below, [one | two for one, two in zip(self.texts, other.texts)])

    def leaves_keys(self) -> bool:
        """Whether a literal may hold keys that another command may take."""
        return any(held_by(literal) & KEYS for literal in [self.below, *self.stack])


def joined(one: Literal, two: Literal) -> Literal:
    """What a literal is after either of two ways."""
    if isinstance(one, int) and isinstance(two, int):
        return one | two
    return one if one == two and type(one) is type(two) else refuse()


class Following:
    """A style that is followed. types: what the functions of the entries' types are."""

    def __init__(self, style: Style, types: List[Meaning]) -> None:
        self.style, self.types = style, types
        self.prints_keys = False
        # Whether a variable of an entry holds more than what was taken for all that it may, when it was read.
        self.is_early = False
        # What was found of a function in this round: from a state, in a loop or not, to a state.
        self.known: Dict[Tuple[Any, ...], State] = {}
        self.were_read: Set[int] = set()
        self.steps = self.loops = self.depth = 0
        self.of_entries = [LETTERS] * style.of_entries

    def follow_all(self) -> None:
        """Follows all commands, until no variable holds more than before."""
        # (letters are taken for what any variable may hold, so that one round is enough for most styles)
        begun = State([], LETTERS, [LETTERS] * self.style.texts)
        for _ in range(OF_STYLES["MOST_ROUNDS"]):
            before = begun.key()
            self.known.clear()
            self.is_early = False
            self.were_read.clear()
            for meaning in self.style.executed:
                state = begun.copy()
                walk_all(self.call(meaning, state))
                if state.leaves_keys():
                    refuse()
                state.stack = []
                begun = begun.join(state)
            if before == begun.key() and not self.is_early:
                return
        refuse()

    def body(self, number: int, state: State) -> Walk:
        self.depth += 1
        if self.depth > OF_STYLES["DEEPEST"]:
            refuse()
        for step in self.style.bodies[number]:
            self.steps += 1
            if self.steps > OF_STYLES["MOST_STEPS"]:
                refuse()
            if isinstance(step, Called):
                yield self.call(step.meaning, state)
            else:
                state.stack.append(step)
        self.depth -= 1

    def function(self, number: int, state: State) -> Walk:
        before = number, self.loops > 0, state.key()
        known = self.known.get(before)
        if known:
            state.take_from(known)
            return
        yield self.body(self.style.functions[number], state)
        self.known[before] = state.copy()

    def call(self, meaning: Meaning, state: State) -> Optional[Walk]:
        """Follows a name that is executed; what is still to be followed."""
        kind, number = meaning
        if kind == "field":
            state.stack.append(number)
        elif kind == "integer":
            state.stack.append(PLAIN)
        elif kind == "text":
            state.stack.append(state.texts[number])
        elif kind == "entry":
            self.were_read.add(number)
            state.stack.append(self.of_entries[number])
        elif kind == "function":
            return self.function(number, state)
        else:
            return EFFECTS.get(kind, not_followed)(self, state, number)
        return None

    def execute(self, literal: Literal, state: State) -> Optional[Walk]:
        """Follows a literal that is executed."""
        if isinstance(literal, int):
            refuse()
        return self.body(literal.number, state) if isinstance(literal, Body) else self.call(literal.meaning, state)

    def any_of(self, ways: Iterable[Literal], state: State) -> Walk:
        """Follows each of these ways into one state."""
        joined_state: Optional[State] = None
        for way in ways:
            after = state.copy()
            yield self.execute(way, after)
            joined_state = joined_state.join(after) if joined_state else after
        if joined_state:
            state.take_from(joined_state)

    def repeat(self, test: Literal, body: Literal, state: State) -> Walk:
        """Follows a loop until its state holds no more than before."""
        self.loops += 1
        for _ in range(OF_STYLES["MOST_ROUNDS"]):
            after = state.copy()
            yield self.execute(test, after)
            after.pop()
            ended = after.copy()
            yield self.execute(body, after)
            both = state.join(after)
            if both.key() == state.key():
                self.loops -= 1
                state.take_from(ended)
                return
            state.take_from(both)
        refuse()

    def assign(self, variable: Literal, held: int, state: State) -> None:
        if not isinstance(variable, Quoted):
            refuse()
        kind, number = variable.meaning
        if kind == "text":
            state.texts[number] = held
        elif kind == "entry":
            self.keep_of_entry(number, held)
        elif kind != "integer":
            refuse()

    def keep_of_entry(self, number: int, held: int) -> None:
        """Adds what a variable of an entry may hold."""
        more = self.of_entries[number] | held
        self.is_early = self.is_early or (number in self.were_read and more != self.of_entries[number])
        self.of_entries[number] = more


def walk_all(walk: Optional[Walk]) -> None:
    """Follows all that is still to be followed."""
    open_walks = [] if walk is None else [walk]
    while open_walks:
        try:
            inner = next(open_walks[-1])
        except StopIteration:
            open_walks.pop()
            continue
        if inner is not None:
            open_walks.append(inner)


# ---- what each built-in function does with what texts hold; `popped` is how many literals it pops for that


def not_followed(following: Following, state: State, popped: int) -> Optional[Walk]:
    refuse()


def take(following: Following, state: State, popped: int) -> None:
    state.pop_all(popped)


def answer(following: Following, state: State, popped: int) -> None:
    state.pop_all(popped)
    state.stack.append(PLAIN)


def keep(following: Following, state: State, popped: int) -> None:
    """It pops those above a text, which holds what it held."""
    state.pop_all(popped)
    state.stack.append(state.pop())


def concatenate(following: Following, state: State, popped: int) -> None:
    state.stack.append(state.pop() | state.pop())


def assign(following: Following, state: State, popped: int) -> None:
    variable, held = state.pop_literal(), state.pop()
    following.assign(variable, held, state)


def call_type(following: Following, state: State, popped: int) -> Walk:
    return following.any_of(map(Quoted, following.types), state)


def preamble(following: Following, state: State, popped: int) -> None:
    """It may have strings in it."""
    state.stack.append(LETTERS)


def duplicate(following: Following, state: State, popped: int) -> None:
    literal = state.pop_literal()
    state.stack += [literal, literal]


def choose(following: Following, state: State, popped: int) -> Walk:
    no, yes = state.pop_literal(), state.pop_literal()
    state.pop()
    return following.any_of([yes, no], state)


def loop(following: Following, state: State, popped: int) -> Walk:
    body, test = state.pop_literal(), state.pop_literal()
    return following.repeat(test, body, state)


def clear(following: Following, state: State, popped: int) -> None:
    state.stack = []


def purify(following: Following, state: State, popped: int) -> None:
    state.stack.append(PLAIN if state.pop() == PLAIN else KEYS)


def substring(following: Following, state: State, popped: int) -> None:
    """A loop may leave out each byte of a code but its key; what one cut leaves of it is seen in the list."""
    state.pop_all(2)
    held = state.pop()
    state.stack.append(held | (KEYS if held & LETTERS and following.loops > 0 else PLAIN))


def swap(following: Following, state: State, popped: int) -> None:
    top, below = state.pop_literal(), state.pop_literal()
    state.stack += [top, below]


def write(following: Following, state: State, popped: int) -> None:
    following.prints_keys = bool(state.pop() & KEYS) or following.prints_keys


EFFECTS: Dict[str, Callable[[Following, State, int], Optional[Walk]]] = {
    "Take": take, "Answer": answer, "Keep": keep, "Concatenate": concatenate, "Assign": assign, "CallType": call_type, "Preamble": preamble, "Duplicate": duplicate, "If": choose, "While": loop,
    "Clear": clear, "Purify": purify, "Substring": substring, "Swap": swap, "Write": write,
}


def functions_of(style: Style, types: Iterable[bytes]) -> List[Meaning]:
    """What the function of each type is: its own, or that of `default.type`; each once."""
    standard = style.meanings.get(b"default.type")
    found: List[Optional[Meaning]] = [standard]
    for name in types:
        meaning = style.meanings.get(name)
        found.append(meaning if meaning and meaning.kind == "function" else standard)
    return list(dict.fromkeys(meaning for meaning in found if meaning is not None))


def may_print_keys(text: bytes, types: Iterable[bytes]) -> bool:
    """Whether a style may print what `purify$` made of letters, in a job whose entries have these types."""
    try:
        style = Style(text)
        following = Following(style, functions_of(style, types))
        following.follow_all()
    except NotFollowed:
        return True
    return following.prints_keys
