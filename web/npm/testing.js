// Folders for tests, which go when the test ends, and the command in them.
import { spawnSync } from 'node:child_process';
import { mkdtempSync, rmSync, writeFileSync } from 'node:fs';
import { tmpdir } from 'node:os';
import path from 'node:path';
import { fileURLToPath } from 'node:url';

export const PACKAGE = path.dirname(fileURLToPath(import.meta.url));
export const COMMAND = path.join(PACKAGE, 'bin/btx.js');

/** Does some work in a folder that has these files. */
export function inRoom(files, work) {
  const room = mkdtempSync(path.join(tmpdir(), 'btx-'));
  try {
    for (const [name, text] of Object.entries(files)) writeFileSync(path.join(room, name), text);
    return work(room);
  } finally {
    rmSync(room, { recursive: true });
  }
}

/** What the command does with these words. */
export const btx = (room, ...words) => spawnSync(process.execPath, [COMMAND, ...words], { cwd: room, encoding: 'utf8' });
