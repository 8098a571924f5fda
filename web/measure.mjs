// Runs one job again and again by the module: for measure. Each line of standard input is a number of turns, and each line of standard output has the milliseconds of a
// processor of the quickest one; `memory PLACES` tries as many limits of memory instead.
import { readFileSync } from 'node:fs';
import path from 'node:path';
import { createInterface } from 'node:readline';
import { MemoryRefused, TEX_LIVE, library } from './npm/index.js';

const folder = process.argv[2];
const known = new Map();

function find(name) {
  if (!known.has(name)) known.set(name, readFileSync(path.join(folder, name)));
  return known.get(name);
}

const run = () => library().run('job', find, TEX_LIVE);

function quickest(turns) {
  let least = Infinity;
  for (let turn = 0; turn < turns; turn++) {
    const began = process.cpuUsage();
    run();
    const { user, system } = process.cpuUsage(began);
    least = Math.min(least, (user + system) / 1000);
  }
  return least;
}

// The least limit of memory, in bytes, with which the job is done.
function leastMemory() {
  let [least, most] = [0, 2 ** 32];
  while (most - least > 65536) {
    const middle = Math.floor((least + most) / 2);
    if (isDone(middle)) most = middle;
    else least = middle;
  }
  return most;
}

function isDone(limit) {
  library().limitMemory(limit);
  try {
    return Boolean(run());
  } catch (error) {
    if (error instanceof MemoryRefused) return false;
    throw error;
  }
}

// The job with this many limits below what it needs: how many were refused, and after how many of these the job was done again.
function tryMemory(places) {
  const need = leastMemory();
  const [wanted, answers] = [Buffer.from(run().list), []];
  for (let place = 0; place < places; place++) {
    const isRefused = !isDone(Math.floor((need * place) / places));
    library().limitMemory(2 ** 40);
    answers.push([isRefused, wanted.equals(Buffer.from(run().list))]);
  }
  return { need, refused: answers.filter(([it]) => it).length, again: answers.filter(([, it]) => it).length };
}

for await (const line of createInterface({ input: process.stdin })) {
  const [word, number] = line.split(' ');
  console.log(word === 'memory' ? JSON.stringify(tryMemory(Number(number))) : quickest(Number(word)));
}
