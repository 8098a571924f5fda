// Whether a style may print what `purify$` made of letters, seen by its text alone: it is followed with what each literal and each variable may hold. What can't be followed may print it.
// It follows styles as the front end does (front/src/style_keys.rs), so that both leave out the letters of the same lists, for the same reasons.
import { BUILTINS, FIXED, OF_STYLES } from './languages.js';
import { folded } from './letter_values.js';

// What a text may hold: neither letters with codes nor what is left of them, whole codes of letters, and what is left of a code without its control characters, which is what its letter sorts as.
const [PLAIN, LETTERS, KEYS] = [0, 1, 2];

const [TAB, LINE_FEED, RETURN, SPACE, QUOTE, HASH, PERCENT, APOSTROPHE, MINUS, OPEN, CLOSE] = [...'\t\n\r "#%\'-{}'].map((sign) => sign.charCodeAt(0));
const isWhite = (byte) => byte === SPACE || byte === TAB || byte === RETURN;
const isDecimal = (byte) => byte >= 0x30 && byte <= 0x39;
const endsName = (byte) => isWhite(byte) || byte === LINE_FEED || byte === CLOSE || byte === PERCENT;

// A style that can't be followed.
class NotFollowed extends Error {}

function refuse() {
  throw new NotFollowed();
}

// The tokens of a style, each its kind and its word; comments and whitespace stand between them. A token that is none can't be followed.
class Tokens {
  #bytes;
  #at = 0;
  #isAfterLiteral = false;

  constructor(bytes) {
    this.#bytes = bytes;
  }

  // Passes over bytes up to one that passes a test, or to the end.
  #passTo(test) {
    while (this.#at < this.#bytes.length && !test(this.#bytes[this.#at])) this.#at++;
  }

  #skipSpace() {
    for (;;) {
      this.#passTo((byte) => !isWhite(byte) && byte !== LINE_FEED);
      if (this.#bytes[this.#at] !== PERCENT) return;
      this.#passTo((byte) => byte === LINE_FEED);
    }
  }

  // The next token; undefined at the end.
  next() {
    if (this.#isAfterLiteral && this.#at < this.#bytes.length && !endsName(this.#bytes[this.#at])) refuse();
    this.#skipSpace();
    const start = this.#at;
    if (start >= this.#bytes.length) return undefined;
    const kind = this.#take(this.#bytes[start]);
    this.#isAfterLiteral = kind === 'text' || kind === 'integer';
    return { kind, word: this.#bytes.subarray(start, this.#at) };
  }

  #take(first) {
    if (first === QUOTE) return this.#takeText();
    if (first === HASH) return this.#takeInteger();
    if (first === OPEN || first === CLOSE) {
      this.#at++;
      return first === OPEN ? 'open' : 'close';
    }
    this.#passTo(endsName);
    return first === APOSTROPHE ? 'quoted' : 'name';
  }

  #takeText() {
    this.#at++;
    this.#passTo((byte) => byte === QUOTE || byte === LINE_FEED);
    if (this.#bytes[this.#at] !== QUOTE) refuse();
    this.#at++;
    return 'text';
  }

  #takeInteger() {
    const start = ++this.#at;
    if (this.#bytes[start] === MINUS) this.#at++;
    this.#passTo((byte) => !isDecimal(byte));
    const number = Number(folded(this.#bytes.subarray(start, this.#at)) || NaN);
    if (!(number >= -(2 ** 31) && number < 2 ** 31)) refuse();
    return 'integer';
  }

  expect(kind) {
    const token = this.next();
    if (token?.kind !== kind) refuse();
    return token;
  }

  // The names between braces.
  names() {
    this.expect('open');
    for (const names = []; ;) {
      const token = this.next();
      if (token?.kind === 'close') return names;
      if (token?.kind !== 'name') refuse();
      names.push(folded(token.word));
    }
  }

  // The one name between braces.
  name() {
    return this.names().pop() ?? refuse();
  }
}

// A style as it is read. What a name means is a text: `field` and what it holds, `integer`, `text` or `ofEntry` and the variable's number, `function` and its number, or a built-in function's
// effect and how many literals it pops. Names that mean the same have the same text.
class Style {
  meanings = new Map();
  texts = 0;
  ofEntries = 0;
  // The bodies, each its steps, and those of the functions, by their numbers.
  bodies = [];
  functions = [];
  // What the commands execute.
  executed = [];

  constructor(bytes) {
    for (const [name, effect, popped] of BUILTINS) this.#define(name, `${effect} ${popped}`);
    for (const name of ['entry.max$', 'global.max$']) this.#define(name, 'integer');
    this.#defineOfEntry('sort.key$');
    this.#define('crossref', `field ${PLAIN}`);
    const tokens = new Tokens(bytes);
    for (let token = tokens.next(); token; token = tokens.next()) {
      if (token.kind !== 'name') refuse();
      this.#readCommand(folded(token.word), tokens);
    }
  }

  #define(name, meaning) {
    this.meanings.set(name, meaning);
    if (this.meanings.size > OF_STYLES.MOST_NAMES) refuse();
  }

  #defineText(name) {
    this.#define(name, `text ${this.texts++}`);
    if (this.texts > OF_STYLES.MOST_TEXTS) refuse();
  }

  #defineOfEntry(name) {
    this.#define(name, `ofEntry ${this.ofEntries++}`);
  }

  #readCommand(word, tokens) {
    switch (word) {
      case 'entry':
        for (const name of tokens.names()) this.#define(name, `field ${FIXED.includes(name) ? PLAIN : LETTERS}`);
        for (const name of tokens.names()) this.#define(name, 'integer');
        for (const name of tokens.names()) this.#defineOfEntry(name);
        break;
      case 'integers':
        for (const name of tokens.names()) this.#define(name, 'integer');
        break;
      case 'strings':
        for (const name of tokens.names()) this.#defineText(name);
        break;
      case 'macro':
        tokens.name();
        for (const kind of ['open', 'text', 'close']) tokens.expect(kind);
        break;
      case 'function': {
        const name = tokens.name();
        tokens.expect('open');
        const body = this.#readBody(tokens);
        this.#define(name, `function ${this.functions.length}`);
        this.functions.push(body);
        break;
      }
      case 'execute': case 'iterate': case 'reverse':
        this.executed.push(this.meaning(tokens.name()));
        break;
      case 'read': case 'sort':
        break;
      default:
        refuse();
    }
  }

  // Reads a body after its `{`; its number. Its steps are: a literal; a name, quoted or not, with its meaning; a body in a body, with its number.
  #readBody(tokens) {
    for (const open = [[]]; ;) {
      const { kind, word } = tokens.next() ?? refuse();
      if (kind === 'open') {
        open.push([]);
        continue;
      }
      let step = ['literal'];
      if (kind === 'name') step = ['name', this.meaning(folded(word))];
      else if (kind === 'quoted') step = ['quoted', this.meaning(folded(word.subarray(1)))];
      else if (kind === 'close') {
        step = ['body', this.bodies.push(open.pop()) - 1];
        if (open.length === 0) return step[1];
      }
      open[open.length - 1].push(step);
    }
  }

  // What a name means.
  meaning(name) {
    return this.meanings.get(name) ?? refuse();
  }
}

// What a literal holds: a number for a text, and a text for a name or a body, which holds neither letters nor keys.
const heldBy = (literal) => (typeof literal === 'number' ? literal : PLAIN);

// Where a style stands: what is on its stack, and what its variables hold. Those of entries hold what they ever may, since a command goes through the entries.
class State {
  // `below` is what any literal below those of `stack` may hold, of which it isn't known how many there are: two ways may leave different numbers, and another command may have left some.
  constructor(stack, below, texts) {
    Object.assign(this, { stack, below, texts });
  }

  get copy() {
    return new State([...this.stack], this.below, [...this.texts]);
  }

  // A text that two states share where they are the same.
  get key() {
    return `${this.below} ${this.texts.join('')} ${this.stack.join(',')}`;
  }

  takeFrom({ stack, below, texts }) {
    Object.assign(this, { stack: [...stack], below, texts: [...texts] });
  }

  push(literal) {
    this.stack.push(literal);
  }

  popLiteral() {
    return this.stack.pop() ?? this.below;
  }

  // What a literal holds that is popped.
  pop() {
    return heldBy(this.popLiteral());
  }

  popAll(count) {
    for (let popped = 0; popped < count; popped++) this.popLiteral();
  }

  // What is so after either of two ways.
  join(other) {
    const common = Math.min(this.stack.length, other.stack.length);
    const [tops, others] = [this, other].map(({ stack }) => stack.slice(stack.length - common));
    const stack = tops.map((one, place) => {
      const two = others[place];
      if (typeof one === 'number' && typeof two === 'number') return one | two;
      return one === two ? one : refuse();
    });
    const deeper = [this, other].flatMap((state) => state.stack.slice(0, state.stack.length - common));
    const below = deeper.reduce((held, literal) => held | heldBy(literal), this.below | other.below);
    return new State(stack, below, this.texts.map((held, number) => held | other.texts[number]));
  }

  // Whether a literal may hold keys that another command may take.
  get leavesKeys() {
    return [this.below, ...this.stack].some((literal) => (heldBy(literal) & KEYS) !== 0);
  }
}

// A style that is followed.
class Following {
  printsKeys = false;
  // Whether a variable of an entry holds more than what was taken for all that it may, when it was read.
  #isEarly = false;
  // What was found of a function in this round: from a state, in a loop or not, to a state.
  #known = new Map();
  #wereRead = new Set();
  #steps = 0;
  #loops = 0;
  #depth = 0;
  #ofEntries;

  // `types` is what the functions of the entries' types are.
  constructor(style, types) {
    Object.assign(this, { style, types });
    this.#ofEntries = Array(style.ofEntries).fill(LETTERS);
  }

  // Follows all commands, until no variable holds more than before.
  followAll() {
    // (letters are taken for what any variable may hold, so that one round is enough for most styles)
    let begun = new State([], LETTERS, Array(this.style.texts).fill(LETTERS));
    for (let round = 0; round < OF_STYLES.MOST_ROUNDS; round++) {
      const before = begun.key;
      this.#known.clear();
      this.#isEarly = false;
      this.#wereRead.clear();
      for (const meaning of this.style.executed) {
        const state = begun.copy;
        this.#call(meaning, state);
        if (state.leavesKeys) refuse();
        state.stack = [];
        begun = begun.join(state);
      }
      if (before === begun.key && !this.#isEarly) return;
    }
    refuse();
  }

  #body(number, state) {
    if (++this.#depth > OF_STYLES.DEEPEST) refuse();
    for (const [kind, meant] of this.style.bodies[number]) {
      if (++this.#steps > OF_STYLES.MOST_STEPS) refuse();
      if (kind === 'literal') state.push(PLAIN);
      else if (kind === 'name') this.#call(meant, state);
      else state.push(`${kind} ${meant}`);
    }
    this.#depth--;
  }

  #function(number, state) {
    const before = `${number} ${this.#loops > 0} ${state.key}`;
    const known = this.#known.get(before);
    if (known) {
      state.takeFrom(known);
      return;
    }
    this.#body(this.style.functions[number], state);
    this.#known.set(before, state.copy);
  }

  #call(meaning, state) {
    const [kind, word] = meaning.split(' ');
    const number = Number(word);
    if (kind === 'field') state.push(number);
    else if (kind === 'integer') state.push(PLAIN);
    else if (kind === 'text') state.push(state.texts[number]);
    else if (kind === 'ofEntry') {
      this.#wereRead.add(number);
      state.push(this.#ofEntries[number]);
    } else if (kind === 'function') this.#function(number, state);
    else (EFFECTS[kind] ?? refuse).call(this.#calls, state, number);
  }

  // Follows a literal that is executed.
  #execute(literal, state) {
    if (typeof literal === 'number') refuse();
    const space = literal.indexOf(' ');
    const [kind, meant] = [literal.slice(0, space), literal.slice(space + 1)];
    if (kind === 'body') this.#body(Number(meant), state);
    else this.#call(meant, state);
  }

  // Follows each of these ways into one state.
  #anyOf(ways, state) {
    let joined;
    for (const way of ways) {
      const after = state.copy;
      this.#execute(way, after);
      joined = joined ? joined.join(after) : after;
    }
    if (joined) state.takeFrom(joined);
  }

  // Follows a loop until its state holds no more than before.
  #repeat(test, body, state) {
    this.#loops++;
    for (let round = 0; round < OF_STYLES.MOST_ROUNDS; round++) {
      const after = state.copy;
      this.#execute(test, after);
      after.pop();
      const ended = after.copy;
      this.#execute(body, after);
      const joined = state.join(after);
      if (joined.key === state.key) {
        this.#loops--;
        state.takeFrom(ended);
        return;
      }
      state.takeFrom(joined);
    }
    refuse();
  }

  #assign(literal, held, state) {
    const [how, kind, word] = typeof literal === 'string' ? literal.split(' ') : [];
    const number = Number(word);
    if (how !== 'quoted') refuse();
    if (kind === 'text') state.texts[number] = held;
    else if (kind === 'ofEntry') this.#keepOfEntry(number, held);
    else if (kind !== 'integer') refuse();
  }

  // Adds what a variable of an entry may hold.
  #keepOfEntry(number, held) {
    const more = this.#ofEntries[number] | held;
    this.#isEarly ||= this.#wereRead.has(number) && more !== this.#ofEntries[number];
    this.#ofEntries[number] = more;
  }

  // What effects call that need more than the state.
  #calls = {
    anyOf: (ways, state) => this.#anyOf(ways, state), repeat: (test, body, state) => this.#repeat(test, body, state),
    assign: (literal, held, state) => this.#assign(literal, held, state), types: () => this.types.map((meaning) => `quoted ${meaning}`),
    isInLoop: () => this.#loops > 0, print: (held) => { this.printsKeys ||= (held & KEYS) !== 0; },
  };
}

// What each built-in function does with what texts hold, by the names of effects in the front end's table; `popped` is how many literals it pops.
const EFFECTS = {
  Take(state, popped) { state.popAll(popped); },
  Answer(state, popped) {
    state.popAll(popped);
    state.push(PLAIN);
  },
  // (it pops those above a text, which holds what it held)
  Keep(state, popped) {
    state.popAll(popped);
    state.push(state.pop());
  },
  Concatenate(state) { state.push(state.pop() | state.pop()); },
  Assign(state) {
    const [variable, held] = [state.popLiteral(), state.pop()];
    this.assign(variable, held, state);
  },
  CallType(state) { this.anyOf(this.types(), state); },
  // (it may have strings in it)
  Preamble(state) { state.push(LETTERS); },
  Duplicate(state) {
    const literal = state.popLiteral();
    state.push(literal);
    state.push(literal);
  },
  If(state) {
    const [no, yes] = [state.popLiteral(), state.popLiteral()];
    state.pop();
    this.anyOf([yes, no], state);
  },
  While(state) {
    const [body, test] = [state.popLiteral(), state.popLiteral()];
    this.repeat(test, body, state);
  },
  Clear(state) { state.stack = []; },
  Purify(state) { state.push(state.pop() === PLAIN ? PLAIN : KEYS); },
  Substring(state) {
    state.popAll(2);
    const held = state.pop();
    // (a loop may leave out each byte of a code but its key; what one cut leaves of it is seen in the list)
    state.push(held | ((held & LETTERS) !== 0 && this.isInLoop() ? KEYS : PLAIN));
  },
  Swap(state) {
    const [top, below] = [state.popLiteral(), state.popLiteral()];
    state.push(top);
    state.push(below);
  },
  Write(state) { this.print(state.pop()); },
};

// What the function of each type is: its own, or that of `default.type`.
function functionsOf(style, types) {
  const standard = style.meanings.get('default.type');
  const own = [...types].map((type) => style.meanings.get(type)).map((meaning) => (meaning?.startsWith('function ') ? meaning : standard));
  return [...new Set([standard, ...own])].filter((meaning) => meaning !== undefined);
}

/** Whether a style may print what `purify$` made of letters, in a job whose entries have these types. */
export function mayPrintKeys(bytes, types) {
  try {
    const style = new Style(bytes);
    const following = new Following(style, functionsOf(style, types));
    following.followAll();
    return following.printsKeys;
  } catch (error) {
    if (error instanceof NotFollowed) return true;
    throw error;
  }
}
