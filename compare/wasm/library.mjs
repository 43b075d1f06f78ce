// The library as WebAssembly, which `./library wasm` makes, for node: the page's own way to lend memory and to call.
import { execFileSync } from 'node:child_process';
import { readFileSync } from 'node:fs';
import { dirname, join } from 'node:path';
import { fileURLToPath } from 'node:url';
import { start } from '../../web/src/library.mjs';

export { call, copy, lend, meanwhile } from '../../web/src/library.mjs';
export const ROOT = join(dirname(fileURLToPath(import.meta.url)), '../..');
export const [CELLS, ROWS, MARKS] = [36, 4608, 3];

await start(readFileSync(execFileSync(join(ROOT, 'library'), ['wasm'], { encoding: 'utf8' }).trimEnd()));
