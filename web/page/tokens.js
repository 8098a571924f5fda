// The tokens of a style, and the one at a place that the library names by its line.

// A literal, what stands directly after one, a brace, or a name. Comments and whitespace stand between them.
const TOKEN = /"[^"\n]*"?|#-?[0-9]+|[{}]|[^ \t\r\n}%]+/y;
const BETWEEN = /(?:[ \t\r\n]+|%[^\n]*)*/y;
// Among how many tokens of one text in a line a place is looked for at most.
const MOST_OF_LINE = 50;

function* tokensOf(text) {
  for (let at = 0; ;) {
    BETWEEN.lastIndex = at;
    BETWEEN.exec(text);
    TOKEN.lastIndex = BETWEEN.lastIndex;
    const found = TOKEN.exec(text);
    if (!found) return;
    at = TOKEN.lastIndex;
    yield { word: found[0], from: found.index, to: at };
  }
}

// The number of a token in its braces, where a function in braces counts once.
function numberOf(tokens, index) {
  let [depth, number] = [0, 0];
  for (let place = index - 1; place >= 0; place--) {
    const { word } = tokens[place];
    if (word === '}') depth++;
    else if (word === '{' && depth === 0) break;
    else if (word === '{') depth--;
    if (depth === 0) number++;
  }
  return number;
}

/** From a line of a style, a word and its number in its braces to where it stands: the word where the line has one alone, else the one alone that has the number; undefined where that isn't known. */
function tokenFinder(text) {
  const tokens = [...tokensOf(text)];
  const placeAt = placer(text);
  const byLine = new Map();
  tokens.forEach(({ from }, index) => {
    const { line } = placeAt(from);
    if (!byLine.has(line)) byLine.set(line, []);
    byLine.get(line).push(index);
  });
  const placed = ({ word, from }) => ({ ...placeAt(from), words: word });
  return (line, word, number) => {
    const all = (byLine.get(line) ?? []).filter((index) => tokens[index].word.toLowerCase() === word.toLowerCase());
    const ones = all.length === 1 || all.length > MOST_OF_LINE ? all : all.filter((index) => numberOf(tokens, index) === number);
    return ones.length === 1 ? placed(tokens[ones[0]]) : undefined;
  };
}
