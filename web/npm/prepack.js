// Lets a package be made only with the module of the proved library in it, or where BTX_UNPROVED says that it is for trying.
import { proof } from './index.js';

let said;
try {
  said = proof();
} catch {
  console.error('there is no btx.wasm: run web/build first');
  process.exit(1);
}
if (!said.startsWith('logic=proved ') && !process.env.BTX_UNPROVED) {
  console.error('nothing is proved of this btx.wasm: run web/build, or set BTX_UNPROVED to try');
  process.exit(1);
}
