#!/usr/bin/env node
// Makes the list of references of a job in the present folder: reads JOB.aux, its style and its databases, and writes JOB.bbl and JOB.blg.
import { writeFileSync } from 'node:fs';
import { parseArgs } from 'node:util';
import { LETTERS, MemoryRefused, OptionRefused, OutputTooLong, library, proof, textOf } from '../index.js';
import { runWithLetters } from '../letters.js';
import { dataOf, isStrictlyWrong, lineOf } from '../messages.js';
import { finderIn } from '../search.js';

const USAGE = `btx [OPTION].. JOB

Reads JOB.aux, and writes the list of references to JOB.bbl and the log to JOB.blg. The style and the databases are looked for in this
folder, along BSTINPUTS and BIBINPUTS, and by kpsewhich where TeX Live is installed.

  --terse             don't print the log
  --json              print each warning and error as a line of JSON, and the report, and not the log
  --strict            end with status 2 where a cited entry is missing, too; a missing file and a repeated entry are errors in any case
  --min-crossrefs N   list a parent that isn't cited if N entries refer to it (2)
  --text MODE         read text as bytes, as utf8, or as auto: as utf8 where bytes would leave half a letter in the list (auto)
  --letters LANG      sort letters outside ASCII as a language does, and change their case: ${LETTERS.slice(0, 4).join(', ')}, .. (no)
  --line N            the greatest length of a line of the list, 20 to 1000 (79)
  --entry-max N       how many bytes of a string a variable of an entry keeps (500)
  --global-max N      how many bytes of a string a global variable keeps (200000)
  --budget N          the greatest number of steps of the style (1000000000)
  --help, --version

Exit status: 0 no error messages, 1 wrong arguments, 2 error messages, 3 a limit or no top file, 4 stopped by the budget, 5 memory, 6 a file
can't be read or written. An option may have one hyphen or two.`;
const VERSION = '1.0.0';
const STATUS = { refused: 1, wrong: 2, memory: 5, device: 6 };

function fail(text, status) {
  console.error(`btx: ${text}`);
  process.exit(status);
}

function words() {
  const text = { type: 'string' };
  const flag = { type: 'boolean', default: false };
  const options = {
    terse: flag, json: flag, strict: flag, help: flag, version: flag, 'min-crossrefs': text, text, letters: text, line: text, 'entry-max': text, 'global-max': text, budget: text,
  };
  try {
    const given = process.argv.slice(2);
    const end = given.includes('--') ? given.indexOf('--') : given.length;
    const args = given.map((word, place) => (place < end && /^-[a-z]/.test(word) ? `-${word}` : word));
    return parseArgs({ args, options, allowPositionals: true });
  } catch (error) {
    return fail(error.message, STATUS.refused);
  }
}

const NUMBERS = { 'min-crossrefs': 'minCrossrefs', line: 'line', 'entry-max': 'entryMax', 'global-max': 'globalMax', budget: 'budget' };

// A number is digits alone. The budget may be more than a number of JavaScript can have.
function numberOf(word, digits) {
  if (!/^\d+$/.test(digits)) fail(`--${word} needs a whole number, not '${digits}'`, STATUS.refused);
  return word === 'budget' ? BigInt(digits) : Number(digits);
}

// The options of the library that the words name.
function optionsOf(values) {
  const given = Object.entries(NUMBERS).filter(([word]) => values[word] !== undefined);
  return { ...Object.fromEntries(given.map(([word, name]) => [name, numberOf(word, values[word])])), text: values.text ?? 'auto', letters: values.letters };
}

// The words for an option that the library refuses, by the option's name here.
function refusalOf(error) {
  const [word] = Object.entries(NUMBERS).find(([, name]) => name === error.option) ?? [error.option];
  return error.message.replace(error.option, `--${word}`);
}

function write(file, bytes) {
  try {
    writeFileSync(file, bytes);
  } catch (error) {
    fail(`I couldn't write ${file}: ${error.message}`, STATUS.device);
  }
}

// Prints what a run said: its log, or its notes, messages and report as JSON.
function print({ log, report, notes }, data, { json, terse }) {
  const noted = notes.map((text) => ({ severity: 'note', kind: 'letters', text }));
  if (json) process.stdout.write([...noted, ...data, { kind: 'report', ...report }].map(lineOf).join(''));
  else if (!terse) process.stdout.write(textOf(log).replace(/[\x00-\x09\x0b-\x1f\x7f-\x9f]/g, '?'));
}

// The result of the job; ends the command where there is none.
function resultOf(job, values) {
  try {
    const made = runWithLetters(library(), job, finderIn('.'), optionsOf(values));
    // (what is to be said of the letters stands before the log)
    return { ...made, log: Buffer.concat([Buffer.from(made.notes.map((note) => `${note}\n`).join('')), made.log]) };
  } catch (error) {
    if (error instanceof OptionRefused) fail(refusalOf(error), STATUS.refused);
    if (error instanceof MemoryRefused || error instanceof OutputTooLong) fail(error.message, STATUS.memory);
    if (error.code) fail(error.message, STATUS.device);
    throw error;
  }
}

function main() {
  // (who reads no further, as `head`, gets no more: the list and the log are written by then)
  process.stdout.on('error', (error) => { if (error.code !== 'EPIPE') throw error; });
  const { values, positionals } = words();
  if (values.help) return console.log(USAGE);
  if (values.version) return console.log(`btx ${VERSION}, of a library of which the prover said:\n${proof()}`);
  if (positionals.length !== 1) fail('name one job: the document without .tex', STATUS.refused);
  const job = positionals[0].replace(/\.aux$/, '');
  if (job === '' || job.includes('\n')) fail("a job's name can't be empty or have a line end", STATUS.refused);
  const made = resultOf(job, values);
  if (made.report.end === 'no top file') console.error(`btx: there is no ${JSON.stringify(job).slice(1, -1)}.aux: run LaTeX first, and name the job as that file, without an ending`);
  else write(`${job}.bbl`, made.list);
  write(`${job}.blg`, made.log);
  const data = dataOf(made.messages);
  const status = values.strict && made.report.status === 0 && isStrictlyWrong(data) ? STATUS.wrong : made.report.status;
  print({ ...made, report: { ...made.report, status } }, data, values);
  process.exitCode = status;
  return undefined;
}

main();
