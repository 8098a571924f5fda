// The package as npm makes it, without a network: installed in a folder of its own, and run there.
import assert from 'node:assert/strict';
import { spawnSync } from 'node:child_process';
import { cpSync, readFileSync, readdirSync, writeFileSync } from 'node:fs';
import path from 'node:path';
import test from 'node:test';
import { proof } from '../index.js';
import { PACKAGE, inRoom } from '../testing.js';

const isThere = spawnSync('npm', ['--version'], { shell: process.platform === 'win32' }).status === 0;
const JOB = {
  'a.aux': '\\citation{k}\n\\bibdata{d}\n\\bibstyle{s}\n', 'd.bib': '@misc{k, title = {Packed}}\n',
  's.bst': 'ENTRY {title}{}{}\nFUNCTION {misc} {title write$ newline$}\nREAD\nITERATE {call.type$}\n', 'package.json': '{ "private": true }',
};

// npm in a folder, which may ask for nothing: it is offline, and its registry answers nowhere.
function npm(room, environment, ...words) {
  const own = { npm_config_offline: 'true', npm_config_registry: 'http://127.0.0.1:9/', npm_config_cache: path.join(room, 'cache'), npm_config_update_notifier: 'false', npm_config_audit: 'false', npm_config_fund: 'false' };
  return spawnSync('npm', words, { cwd: room, encoding: 'utf8', env: { ...process.env, ...own, ...environment }, shell: process.platform === 'win32' });
}

test('npm packs it, installs it and runs it without a network', { skip: !isThere && 'there is no npm' }, () => inRoom(JOB, (room) => {
  const packed = npm(room, { BTX_UNPROVED: '1' }, 'pack', PACKAGE, '--json');
  assert.equal(packed.status, 0, packed.stderr);
  const [{ filename, files, size }] = JSON.parse(packed.stdout);
  const names = files.map(({ path: name }) => name).sort();
  assert.deepEqual(names, ['README.md', 'bin/btx.js', 'btx.wasm', 'half_letters.js', 'index.d.ts', 'index.js', 'languages.js', 'letter_values.js', 'letters.d.ts', 'letters.js', 'library.d.ts', 'library.js', 'messages.d.ts', 'messages.js', 'package.json', 'search.js', 'style_keys.js']);
  assert.ok(size < 400_000, `${size} bytes`);
  const installed = npm(room, {}, 'install', `./${filename}`);
  assert.equal(installed.status, 0, installed.stderr);
  assert.deepEqual(readdirSync(path.join(room, 'node_modules')).filter((name) => !name.startsWith('.')), ['btx']);
  const ran = spawnSync('npx', ['--no', 'btx', 'a'], { cwd: room, encoding: 'utf8', shell: process.platform === 'win32' });
  assert.equal(ran.status, 0, ran.stderr);
  assert.equal(readFileSync(path.join(room, 'a.bbl'), 'utf8'), 'Packed\n');
  const script = "import { run, check, proof } from 'btx'; import { dataOf } from 'btx/messages'; import { TEX_LIVE } from 'btx/library'; console.log(typeof run, typeof check, typeof dataOf, TEX_LIVE.line, proof().split(/[ :]/)[0]);";
  const asked = spawnSync(process.execPath, ['--input-type=module', '-e', script], { cwd: room, encoding: 'utf8' });
  assert.equal(asked.stdout, `function function function 79 ${proof().split(/[ :]/)[0]}\n`, asked.stderr);
}));

test('a module without a proof is not packed', { skip: !isThere && 'there is no npm' }, () => inRoom({}, (room) => {
  cpSync(PACKAGE, path.join(room, 'copy'), { recursive: true });
  // (the least module that there is says nothing of a proof)
  writeFileSync(path.join(room, 'copy/btx.wasm'), Uint8Array.of(0, 97, 115, 109, 1, 0, 0, 0));
  const packed = npm(room, { BTX_UNPROVED: '' }, 'pack', './copy');
  assert.notEqual(packed.status, 0);
  assert.match(packed.stderr, /nothing is proved of this btx\.wasm/);
  assert.ok(!readdirSync(room).some((name) => name.endsWith('.tgz')));
}));
