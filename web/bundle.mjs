// bundle.mjs WASM OUT: the page as one file, the library in it. Modules become functions that are called one after the other,
// so that each keeps its own names; what they import are constants and functions, never a variable that changes. The policy
// that the file begins with allows these very bytes of script and style, WebAssembly, and no request to anywhere.
import { createHash } from 'node:crypto';
import { readFileSync, writeFileSync } from 'node:fs';
import { dirname, join, normalize } from 'node:path';
import { fileURLToPath } from 'node:url';

const HERE = dirname(fileURLToPath(import.meta.url));
const IMPORT = /^import \{([^}]*)\} from '(\.[^']+)';\n/gm;
const EXPORT = /^export (async function\*? |function |class |const )([\w$]+|\[[^\]]*\])/gm;

/** A name of a module as a name in the file. */
const key = path => JSON.stringify(path.replace(/\.mjs$/, ''));
/** `a as b` is `a: b` in a pattern. */
const pattern = names => names.replace(/(\w+) as (\w+)/g, '$1: $2');

function bundled(path, done = new Map()) {
    if (done.has(path)) return done;
    const source = readFileSync(join(HERE, 'src', path), 'utf8');
    const needs = [];
    const inner = source.replace(IMPORT, (_, names, from) => {
        const needed = normalize(join(dirname(path), from));
        needs.push(needed);
        return `const {${pattern(names)}} = modules[${key(needed)}];\n`;
    });
    const exported = [];
    const body = inner.replace(EXPORT, (_, word, name) => {
        exported.push(...name.match(/[\w$]+/g));
        return word + name;
    });
    if (/^(import|export)\b/m.test(body)) throw new Error(`${path}: an import or export of a form that is not known here`);
    for (const needed of needs) bundled(needed, done);
    done.set(path, `modules[${key(path)}] = await (async () => {\n${body}\nreturn { ${exported.join(', ')} };\n})();\n`);
    return done;
}

const hash = text => `'sha256-${createHash('sha256').update(text).digest('base64')}'`;

const [wasm, out] = process.argv.slice(2);
const library = readFileSync(wasm).toString('base64');
const script = `const modules = {};\n${[...bundled('main.mjs').values()].join('')}`;
const style = readFileSync(join(HERE, 'style.css'), 'utf8');
const policy = `default-src 'none'; script-src ${hash(script)} 'wasm-unsafe-eval'; style-src ${hash(style)}; base-uri 'none'; form-action 'none'`;
const parts = { policy, style, library, script };
writeFileSync(out, readFileSync(join(HERE, 'page.html'), 'utf8').replace(/\{\{(\w+)\}\}/g, (_, part) => parts[part]));
