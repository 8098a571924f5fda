// Runs the jobs and reads the databases of standard input, each a line of JSON, and writes what comes of each: for compare.py and letters_check.py.
import { createInterface } from 'node:readline';
import { library } from './npm/index.js';
import { runWithLetters } from './npm/letters.js';

const coded = (bytes) => Buffer.from(bytes).toString('base64');
const decoded = (text) => Buffer.from(text, 'base64');

function ran({ files, options }) {
  const known = new Map(files.map(([name, text]) => [name, decoded(text)]));
  const find = (_name, bytes) => known.get(coded(bytes));
  const { list, log, events, report } = library().run('job', find, { ...options, budget: BigInt(options.budget) });
  return { list: coded(list), log: coded(log), ...report, events: events.map(({ at, length, entry, kind, met }) => [at, length, entry, kind, met]) };
}

// A job with the letters of a language.
function ranWithLetters({ files, letters, text, budget }) {
  const known = new Map(files.map(([name, content]) => [name, decoded(content)]));
  const { list, log, events, report, notes } = runWithLetters(library(), 'job', known, { letters, budget, text: text ?? 'auto' });
  if (events.some(({ at, length }, number) => at + length + 1 !== (events[number + 1]?.at ?? log.length))) throw new Error("the events aren't the lines of the log");
  return { list: coded(list), log: coded(log), status: report.status, notes };
}

function read({ database, strings }) {
  const records = library().records(decoded(database), { file: 'd.bib', strings });
  return { records: records.map(({ kind, isWhole, start, end, line, name, text }) => [kind, isWhole, start, end, line, coded(name), coded(text)]) };
}

for await (const line of createInterface({ input: process.stdin })) {
  const asked = JSON.parse(line);
  const answer = asked.letters ? ranWithLetters : asked.files ? ran : read;
  console.log(JSON.stringify(answer(asked)));
}
