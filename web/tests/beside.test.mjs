// Files at random, beside plume: what is written of each in every format is byte for byte the same, what is said of its list too,
// and what is wrong with it is told in the same words. $BESIDE says how many files.
import assert from 'node:assert/strict';
import { spawnSync } from 'node:child_process';
import { existsSync, mkdirSync, mkdtempSync, readFileSync, rmSync, writeFileSync } from 'node:fs';
import { tmpdir } from 'node:os';
import { join } from 'node:path';
import { test } from 'node:test';
import { ROOT } from '../../compare/wasm/library.mjs';
import { Editor } from '../src/editor.mjs';
import { Fault } from '../src/fault.mjs';
import { readFile } from '../src/read/read.mjs';
import { saved } from '../src/saving.mjs';
import { FORMATS } from '../src/write/write.mjs';
import { Files } from './random_files.mjs';

const PLUME = process.env.PLUME ?? join(ROOT, 'target/bindings/debug/plume');
const COUNT = Number(process.env.BESIDE ?? 200);

/** What the page makes of a file: what is said of it, and its texts or why there is none. */
function made(name, bytes) {
    const editor = new Editor();
    let source;
    try {
        source = readFile(name, bytes);
        editor.open(source);
        if (editor.sheet.listRefusal) return { fault: editor.said().line };
    } catch (error) {
        if (!(error instanceof Fault)) throw error;
        return { fault: error.message };
    }
    const texts = Object.keys(FORMATS).map(format => {
        try {
            return [format, saved(editor, format).text];
        } catch (error) {
            if (!(error instanceof Fault)) throw error;
            return [format, error];
        }
    });
    return { line: editor.said().line, texts: new Map(texts), isEdited: /\nedit\t/.test(bytes), onHues: source.notes.filter(isOnHues) };
}

/** What plume says of each file, as it says it of all at once, by the name. */
function saidBy(folder, names, format, out) {
    const options = { cwd: folder, encoding: 'utf8', maxBuffer: 1 << 28 };
    const { stderr, error } = spawnSync(PLUME, ['flatten', ...names, '--to', format, '-o', `${out}/`], options);
    assert.equal(error, undefined);
    const said = new Map(names.map(name => [name, []]));
    for (const line of stderr.split('\n')) {
        const [, name, words] = /^plume: (r\d+\.txt)(:.*)$/.exec(line) ?? [];
        said.get(name)?.push(words.replace('--hold', 'hold'));
    }
    return said;
}

// other notes name a word of the command line, or a box to tick
const isOnHues = note => note.includes('coloured by hue');

// a list that is refused is told by plume as a refusal, and here as the state of the sheet
const refusedList = words => /^The list is refused, (\d+): (.*)\. The ramp stands/.exec(words);

function check(name, ours, said, format, file) {
    const has = words => assert.ok(said.some(line => line.includes(words)), `${name}, ${format}: '${words}' is not in\n${said.join('\n')}`);
    const refused = ours.fault && refusedList(ours.fault);
    if (refused) return has(`refused ${refused[1]}: ${refused[2]}`);
    if (ours.fault) return has(ours.fault.replace(/^r\d+\.txt/, ''));
    const text = ours.texts.get(format);
    if (text instanceof Fault) return has(text.message.replace(/^r\d+: /, ''));
    has(ours.line);
    assert.deepEqual(said.filter(isOnHues), ours.onHues.map(note => note.replace(/^r\d+\.txt/, '')), name);
    // after the edit of a file plume tells the evaluations of the last call, and the page those of a fresh flattening
    const compared = text => (format === 'bits' && ours.isEdited ? text.replace(/evaluations\t\d+/, '') : text);
    return assert.equal(compared(text), compared(readFileSync(file, 'utf8')), `${name}, ${format}`);
}

test(`${COUNT} files at random`, { skip: !existsSync(PLUME) && `plume is not at hand: ${PLUME}` }, () => {
    const folder = mkdtempSync(join(tmpdir(), 'guineaplume-'));
    try {
        const files = new Files(20261117);
        const all = Array.from({ length: COUNT }, (_, i) => [`r${i}`, Buffer.from(files.next())]);
        for (const [name, bytes] of all) writeFileSync(join(folder, `${name}.txt`), bytes);
        const ours = new Map(all.map(([name, bytes]) => [name, made(`${name}.txt`, bytes)]));
        for (const [format, { ending }] of Object.entries(FORMATS)) {
            const out = join(folder, format);
            mkdirSync(out);
            const theirs = saidBy(folder, all.map(([name]) => `${name}.txt`), format, out);
            for (const [name] of all) check(name, ours.get(name), theirs.get(`${name}.txt`), format, join(out, `${name}.${ending}`));
        }
        const read = [...ours.values()].filter(one => one.texts).length;
        const warned = [...ours.values()].filter(one => one.onHues?.length).length;
        console.log(`${COUNT} files, ${read} read, ${warned} told of hues: each in ${Object.keys(FORMATS).length} formats as plume has it`);
    } finally {
        rmSync(folder, { recursive: true });
    }
});
