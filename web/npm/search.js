// Where the files of a job are found: in its folder, along BIBINPUTS and BSTINPUTS, and by TeX's own kpsewhich where that is on the path.
import { spawnSync } from 'node:child_process';
import { readFileSync, readdirSync } from 'node:fs';
import nodePath from 'node:path';

const VARIABLES = { '.bib': 'BIBINPUTS', '.bst': 'BSTINPUTS' };
const MOST_FOLDERS = 10_000;

/** The folders of a search path, in order: `a:b//:` is a, b with all folders below it, and null, which stands for TeX's own path. */
export function foldersOf(searchPath, path = nodePath) {
  return searchPath.split(path.delimiter).map((part) => {
    if (part === '') return null;
    const isDeep = part.endsWith('//') || (path.sep === '\\' && part.endsWith('\\\\'));
    return { folder: isDeep ? part.slice(0, -2) || path.sep : part, isDeep };
  });
}

function content(file) {
  try {
    return readFileSync(file);
  } catch (error) {
    if (['ENOENT', 'ENOTDIR', 'EISDIR', 'ENAMETOOLONG'].includes(error.code)) return undefined;
    throw error;
  }
}

function foldersIn(folder) {
  try {
    return readdirSync(folder, { withFileTypes: true }).filter((entry) => entry.isDirectory()).map((entry) => entry.name);
  } catch {
    return [];
  }
}

// What TeX Live finds by the name, where there is one.
function placeOfTeX(name) {
  const asked = spawnSync('kpsewhich', ['--', name], { encoding: 'utf8', windowsHide: true });
  return asked.status === 0 ? asked.stdout.trim() : '';
}

/** What a finder asks of the system: its rules of paths, a file's bytes, the folders in a folder, and where TeX finds a name. Tests give it another one. */
export const SYSTEM = Object.freeze({ path: nodePath, content, foldersIn, placeOfTeX });

// A folder and all below it, each before what is below it.
function* below(folder, { path, foldersIn: inside }) {
  const waiting = [folder];
  for (let count = 0; waiting.length > 0 && count < MOST_FOLDERS; count++) {
    const here = waiting.shift();
    yield here;
    waiting.push(...inside(here).map((name) => path.join(here, name)).sort());
  }
}

function contentBelow({ folder, isDeep }, name, system) {
  for (const here of isDeep ? below(folder, system) : [folder]) {
    const found = system.content(system.path.join(here, name));
    if (found) return found;
  }
  return undefined;
}

function contentOfTeX(name, system) {
  const file = system.placeOfTeX(name);
  return file ? system.content(file) : undefined;
}

/** The finder of a job in a folder: from a file's name to its bytes, or nothing. */
export function finderIn(folder, environment = process.env, system = SYSTEM) {
  const { path } = system;
  return (name) => {
    // (no system has a file of such a name)
    if (name.includes('\0')) return undefined;
    const here = system.content(path.resolve(folder, name));
    if (here || path.isAbsolute(name)) return here;
    const variable = VARIABLES[path.extname(name)];
    if (!variable) return undefined;
    for (const part of foldersOf(environment[variable] ?? '', path)) {
      const found = part ? contentBelow({ ...part, folder: path.resolve(folder, part.folder) }, name, system) : contentOfTeX(name, system);
      if (found) return found;
    }
    return undefined;
  };
}
