// The page in a real browser: open, drag, type, undo, refuse, save.
import assert from 'node:assert/strict';
import { execFileSync } from 'node:child_process';
import { existsSync, readFileSync, writeFileSync } from 'node:fs';
import { join } from 'node:path';
import { after, before, test } from 'node:test';
import { FORMATS } from '../src/write/write.mjs';
import { KEYS } from './driver.mjs';
import { Opened, ROOT } from './opened.mjs';
import { Files } from './random_files.mjs';

const DEPTHS = 'examples/depths.tsv';
const RAMPS = ['examples/shelf.tsv', 'examples/golden/in/sea.ggr', 'examples/golden/in/land.cpt', 'examples/golden/in/tints.csv'];
const PLUME = process.env.PLUME ?? join(ROOT, 'target/bindings/debug/plume');

let page;
let browser;
before(async () => {
    page = await Opened.start();
    browser = page.browser;
});
after(() => page.stop());

test('it asks for nothing, and can ask for nothing', async () => {
    await page.load();
    const asked = await browser.runAsync(async () => {
        const tried = await fetch('http://127.0.0.1:9/').then(() => 'answered', error => error.name);
        return [performance.getEntriesByType('resource').length, tried];
    });
    assert.deepEqual(asked, [0, 'TypeError']);
    const policy = await browser.run(() => document.querySelector('meta[http-equiv]').content);
    const hash = /'sha256-[^ ]+'/g;
    assert.equal(policy.replace(hash, 'HASH'), "default-src 'none'; script-src HASH 'wasm-unsafe-eval'; style-src HASH; base-uri 'none'; form-action 'none'");
});

for (const path of RAMPS) {
    test(`${path} is saved in every format as plume writes it`, async () => {
        await page.load(path);
        const name = await browser.text('#title');
        for (const [format, { ending }] of Object.entries(FORMATS)) {
            const saved = await page.save(format, ending);
            assert.deepEqual(saved, readFileSync(join(ROOT, `examples/golden/${name}.${ending}`)), `${name}.${ending}`);
        }
    });
}

test('a stop is dragged by the mouse; all of the drag is one step back', async () => {
    await page.load(DEPTHS);
    const { width } = await page.place(6);
    await page.drag(6, 50);
    const moved = Number(await page.position(6));
    assert.ok(Math.abs(moved - (0.5 + 50 / width)) < 2 / width, `moved to ${moved}`);
    assert.match(await page.status(), /^Stop 6 moved to 0\.\d+\. List of \d+ stops\./);
    assert.match(await browser.text('#cells-words'), /the last edit redid \d+ of 36 cells/);
    await browser.press('z', KEYS.control);
    assert.equal(await page.position(6), '0.5');
    assert.match(await page.status(), /^Undone: stop 6 moved/);
    await browser.press('z', KEYS.control + KEYS.shift);
    assert.equal(Number(await page.position(6)), moved);
});

test('a stop that is dragged stops at its neighbour; Escape takes the drag back', async () => {
    await page.load(DEPTHS);
    await page.drag(3, 700);
    assert.equal(await page.position(3), '0.3333');
    await browser.click('#undo');
    const { x, y } = await page.place(3);
    const moves = [20, 30].map(by => ({ type: 'pointerMove', x: x + by, y }));
    await browser.mouse({ type: 'pointerMove', x, y }, { type: 'pointerDown', button: 0 }, ...moves);
    assert.notEqual(await page.position(3), '0.25');
    await browser.press(KEYS.escape);
    assert.equal(await page.position(3), '0.25');
    await browser.mouse({ type: 'pointerUp', button: 0 });
    assert.equal(await page.position(3), '0.25');
});

test('an end that is dragged is refused in words, and stays', async () => {
    await page.load(DEPTHS);
    await page.drag(0, 60);
    assert.match(await page.alert(), /^Refused 6: .*; the first stop and the last hold the ends of the ramp$/);
    assert.equal(await page.position(0), '0');
});

test('keys move, choose, add and remove', async () => {
    await page.load(DEPTHS);
    await browser.run(() => document.getElementById('handle').focus());
    await browser.press('nnn');
    assert.equal(await browser.value('#stop'), '3');
    await browser.press(KEYS.right);
    assert.equal(await page.position(3), '0.26');
    await browser.press(KEYS.left, KEYS.shift);
    assert.equal(await page.position(3), '0.259');
    await browser.press(KEYS.insert);
    assert.equal(await page.position(4), '0.29615');
    assert.match(await browser.text('#said'), /^13 stops in/);
    await browser.press(KEYS.delete);
    assert.match(await browser.text('#said'), /^12 stops in/);
    await browser.press('p' + KEYS.home + KEYS.left);
    assert.match(await page.alert(), /^Refused 6/);
});

test('cells of the table are typed; what is refused stays marked, and the ramp stays', async () => {
    await page.load(DEPTHS);
    const cell = (stop, name) => `[data-stop="${stop}"] [aria-label$="${name}"]`;
    await browser.enter(cell(2, 'position'), '0.2');
    assert.equal(await page.position(2), '0.2');
    await browser.enter(cell(2, 'colour'), '#336699');
    assert.equal(await browser.value(cell(2, 'red')), '0.2');
    await browser.enter(cell(2, 'alpha'), '0.5');
    assert.equal(await browser.value(cell(2, 'colour')), '#33669980');
    await browser.enter(cell(2, 'position'), '0.9');
    assert.equal(await page.alert(), "Refused 3: a stop's position is below that of the stop before it; here that is from 0.0833 to 0.25");
    assert.equal(await browser.run(s => document.querySelector(s).getAttribute('aria-invalid'), cell(2, 'position')), 'true');
    await browser.type(cell(2, 'position'), KEYS.escape);
    assert.equal(await page.position(2), '0.2');
    await browser.enter(cell(2, 'position'), '0,21');
    assert.match(await page.alert(), /^A position wants a number, with a point, not a comma; found '0,21'$/);
    await browser.type(cell(2, 'position'), KEYS.escape + KEYS.down);
    assert.equal(await browser.run(() => document.activeElement.getAttribute('aria-label')), 'Stop 3, position');
    for (let i = 0; i < 3; i++) await browser.press('z', KEYS.control);
    assert.deepEqual([await page.position(2), await browser.value(cell(2, 'colour'))], ['0.1667', '#0a1c4d']);
});

test('files are dropped; one that cannot be read is told by its line, and the ramp stays', async () => {
    await page.load(DEPTHS);
    const drop = (name, text) => browser.run((name, text) => {
        const dropped = new DataTransfer();
        dropped.items.add(new File([text], name));
        document.dispatchEvent(new DragEvent('drop', { dataTransfer: dropped, bubbles: true, cancelable: true }));
    }, name, text);
    await drop('bad.tsv', 'kind\tlinear\nstop\t0\t0\t0\t0\t1\nstop\t0,5\t1\t1\t1\t1\n');
    await browser.until(() => document.getElementById('alert').textContent);
    assert.equal(await page.alert(), "bad.tsv:3: expected 'stop' and 5 numbers parted by tabs; a number has a point, not a comma: found '0,5'");
    assert.equal(await browser.text('#title'), 'depths');
    await drop('two.csv', 'depth,color\n0,#000000\n50,#ffffff\n');
    await browser.until(() => document.getElementById('title').textContent === 'two');
    assert.match(await browser.text('#said'), /^2 stops in, 2 out/);
    await browser.press('z', KEYS.control);
    assert.equal(await browser.text('#title'), 'depths');
    await drop('sky.ggr', 'GIMP Gradient\nName: sky\n1\n0 0.5 1 0.819999 0.82 0.82 1 1 0 0 1 0 1\n');
    await browser.until(() => /sky\.ggr:4: coloured by hue, and one end is nearly grey/.test(document.getElementById('status').textContent));
});

test('depths that became one are told in words', async () => {
    await page.load('examples/lost-band.tsv');
    assert.match(await browser.text('#said'), /each of your stops is shown in its own colour\. Judged: yes\./);
    await page.choose('sort', 'published');
    assert.match(await browser.text('#said'), /2 pairs of depths became one: 0\.389 and 0\.3891, 0\.4026 and 0\.4027\. Judged: yes\.$/);
    assert.match(await page.status(), /2 pairs of depths became one/);
    await browser.click('#depths-named');
    await browser.run(() => (document.getElementById('names').value = ''));
    await browser.type('#names', '0.389 slope\n0.3891 red band\n0.7 shelf');
    await browser.run(() => document.getElementById('names').dispatchEvent(new Event('change')));
    const rows = await browser.run(() => [...document.querySelectorAll('#depths-table tbody tr')].map(row => row.textContent));
    assert.equal(rows.length, 3);
    assert.match(rows[1], /red band.*Became one with slope: the ramp tells them apart, the list does not\.$/);
    assert.match(rows[2], /shelf.*Told from red band\.$/);
    await browser.enter('#step', '-1');
    assert.match(await page.alert(), /^Refused 24/);
});

test('while a stop is moved it is said at once that depths become one, and that they are told apart again', async () => {
    await page.load('examples/lost-band.tsv');
    await page.choose('sort', 'published');
    await browser.run(() => document.getElementById('handle').focus());
    await browser.press('n' + KEYS.left);
    assert.equal(await page.status(), 'All depths are told apart again.');
    await browser.press(KEYS.right);
    assert.match(await page.status(), /^2 pairs of depths became one: /);
});

test('kinds, thresholds and holds are steps of their own; a GIMP ramp can be taken as a linear one', async () => {
    await page.load(DEPTHS);
    await page.choose('kind', '3');
    assert.match(await browser.text('#ramp-label'), /basis, 12 stops/);
    await browser.enter('#threshold', '0.5');
    assert.match(await browser.text('#threshold-said'), /0\.5 is taken as 0\.035\.$/);
    await browser.press('z', KEYS.control);
    await browser.press('z', KEYS.control);
    assert.match(await browser.text('#ramp-label'), /linear, 12 stops/);
    await page.load('examples/golden/in/sea.ggr');
    assert.match(await browser.text('#kind-hint'), /^A GIMP ramp has no edits/);
    await browser.click('#linear');
    assert.match(await browser.text('#ramp-label'), /^Ramp: linear, \d+ stops$/);
});

test('the profile is listened to; what is not saved is told', async () => {
    await page.load(DEPTHS);
    const isPlaying = () => browser.run(() => document.getElementById('listen').getAttribute('aria-pressed'));
    await browser.click('#listen');
    assert.equal(await isPlaying(), 'true');
    await browser.click('#listen');
    assert.equal(await isPlaying(), 'false');
    assert.equal(await browser.text('#changed'), '');
    await browser.enter('#hex', '#101010');
    assert.equal(await browser.text('#changed'), 'not saved yet');
    await page.save('json', 'json');
    assert.equal(await browser.text('#changed'), '');
});

test('whatever is dropped and pressed, nothing goes wrong unsaid', async () => {
    await page.load();
    const files = new Files(45);
    const texts = Array.from({ length: 40 }, () => files.next());
    const errors = await browser.runAsync(async texts => {
        const wrong = [];
        addEventListener('error', event => wrong.push(event.message));
        addEventListener('unhandledrejection', event => wrong.push(String(event.reason)));
        const [handle, ...said] = ['handle', 'status', 'alert'].map(id => document.getElementById(id));
        const press = key => handle.dispatchEvent(new KeyboardEvent('keydown', { key, bubbles: true, ctrlKey: key === 'z' }));
        for (const [i, text] of texts.entries()) {
            const dropped = new DataTransfer();
            dropped.items.add(new File([text], `r${i}.txt`));
            for (const element of said) element.textContent = '';
            document.dispatchEvent(new DragEvent('drop', { dataTransfer: dropped, bubbles: true, cancelable: true }));
            // it is read some time after it was dropped
            while (said.every(element => !element.textContent)) await new Promise(done => setTimeout(done));
            for (const key of ['n', 'ArrowRight', 'Insert', 'PageUp', 'Delete', 'End', 'ArrowLeft', 'z', 'z']) press(key);
            document.getElementById('sort').value = i % 2 ? 'published' : 'within';
            document.getElementById('sort').dispatchEvent(new Event('change'));
        }
        while (document.getElementById('undo').ariaDisabled !== 'true') press('z');
        return wrong;
    }, texts);
    assert.deepEqual(errors, []);
    assert.equal(await browser.text('#title'), 'ramp');
});

const skip = !existsSync(PLUME) && `plume is not at hand: ${PLUME}`;
test('after edits every format is byte for byte what plume writes of the ramp, flattened anew', { skip }, async () => {
    await page.load('examples/shelf.tsv');
    await page.drag(1, 120);
    await browser.enter('[data-stop="1"] [aria-label$="colour"]', '#1a6fa8');
    await browser.enter('#stop', '1');
    await browser.click('#add');
    await browser.click('#what-ramp');
    // another ending, since the browser saves to this folder too; plume looks at the bytes
    const ramp = join(page.folder, 'shelf.ramp');
    writeFileSync(ramp, await page.save('text', 'tsv'));
    await browser.click('#what-list');
    for (const [format, { ending }] of Object.entries(FORMATS)) {
        const written = execFileSync(PLUME, ['flatten', ramp, '-t', '0.01', '--to', format], { stdio: ['ignore', 'pipe', 'ignore'] });
        assert.deepEqual(await page.save(format, ending), written, format);
    }
});
