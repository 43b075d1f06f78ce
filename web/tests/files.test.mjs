// Every format, held to plume's golden files, and what is wrong with a file told in plume's words.
import assert from 'node:assert/strict';
import { readFileSync } from 'node:fs';
import { join } from 'node:path';
import { test } from 'node:test';
import { ROOT } from '../../compare/wasm/library.mjs';
import { Editor } from '../src/editor.mjs';
import { readFile } from '../src/read/read.mjs';
import { saved } from '../src/saving.mjs';
import { FORMATS } from '../src/write/write.mjs';

const RAMPS = ['examples/shelf.tsv', 'examples/golden/in/sea.ggr', 'examples/golden/in/land.cpt', 'examples/golden/in/tints.csv'];

function opened(path) {
    const name = path.split('/').at(-1);
    const editor = new Editor();
    editor.open(readFile(name, readFileSync(join(ROOT, path))));
    return editor;
}

for (const path of RAMPS) {
    for (const [format, { ending }] of Object.entries(FORMATS)) {
        test(`${path} as ${format}`, () => {
            const editor = opened(path);
            const stored = readFileSync(join(ROOT, `examples/golden/${editor.name}.${ending}`), 'utf8');
            assert.equal(saved(editor, format).text, stored);
        });
    }
}

test('a file that is too long for the library is refused, and not lent', () => {
    const long = first => Buffer.from(first + '0'.repeat(4 << 20)).subarray(0, 4 << 20);
    assert.throws(() => readFile('long.ggr', long('GIMP Gradient\nName: long\n1\n')), /long\.ggr(:\d+)?: refused 10: /);
    assert.throws(() => readFile('long.tsv', long('kind\tlinear\nstop\t')), /long\.tsv:2: expected 'stop' and 5 numbers/);
});

/** What is said of a GIMP gradient of one segment: colours, blending and colouring. */
const saidOf = segment => readFile('sky.ggr', Buffer.from(`GIMP Gradient\nName: sky\n1\n0 0.5 1 ${segment}\n`)).notes;
const BETWEEN = 'sky.ggr:4: coloured by hue between colours of nearly one hue: GIMP 2.10';
const [GREY, WOOD] = ['0.819999 0.82 0.82 1', '0.78 0.4914 0.2028 1 0.903086 0.568944 0.234802 1'];

test('what GIMP paints otherwise is told', () => {
    const grey = 'coloured by hue, and one end is nearly grey: GIMP 2.10 takes that end for a grey, and paints other colours here';
    assert.deepEqual(saidOf(`${GREY} 1 0 0 1 0 1`), [`sky.ggr:4: ${grey}`]);
    assert.deepEqual(saidOf(`${WOOD} 4 1`), [`${BETWEEN} hardly turns here, and this ramp goes once round`]);
    const brushed = '0.49807 0.508364 0.477482 1 0.529458 0.539017 0.51034 1 0 1';
    assert.deepEqual(saidOf(brushed), [`${BETWEEN} goes once round here, and this ramp hardly turns`]);
    const outside = 'coloured by hue, with a channel outside 0..1: GIMP 2.10 keeps it, and this ramp is clamped';
    assert.deepEqual(saidOf('0 0 0 1 1.5 0 0.2 1 5 2'), [`sky.ggr:4: ${outside}`]);
    const [left, right] = [`0 0.25 0.5 ${GREY} 1 0 0 1 0 1`, `0.5 0.75 1 1 0 0 1 ${GREY} 0 2`];
    const two = readFile('sky.ggr', Buffer.from(`GIMP Gradient\nName: sky\n2\n${left}\n${right}\n`));
    assert.deepEqual(two.notes, [`sky.ggr:4: ${grey} (and 1 segment more)`]);
});

test('what GIMP paints alike is not told', () => {
    const foreground = `${GREY} 1 0 0.5 1 0 1 1 0`;
    const equal = '0.5 0.25 0 1 0.5 0.25 0 1 0 1';
    const inRgb = [`${GREY} 1 0 0 1 0 0`, '0 0 0 1 1.5 0 0.2 1 0 0'];
    for (const quiet of [equal, ...inRgb, `${GREY} 1 0 0 1 5 1`, `${GREY} ${GREY} 0 2`, foreground]) {
        assert.deepEqual(saidOf(quiet), [], quiet);
    }
});

for (const name of ['depths', 'depths-edited', 'lost-band', 'shelf']) {
    test(`the published bits of ${name} are the tool's`, () => {
        const editor = opened(`examples/${name}.tsv`);
        editor.set({ isPublished: true }, 'published');
        assert.equal(saved(editor, 'bits').text, readFileSync(join(ROOT, `examples/printed/${name}.txt`), 'utf8'));
    });
}
