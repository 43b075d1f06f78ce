// measure.mjs [STOPS [EDITS]]: how long an edit with its drawing takes in the browser, of ramps of so many stops, 2,048 where none
// are named. A stop is dragged by a pointer event a frame. Told are the time from the event until all is drawn in the page,
// and all that the browser's main thread did for it, its layout and painting among it.
import { writeFileSync } from 'node:fs';
import { join } from 'node:path';
import { Opened } from './opened.mjs';

const [stops = 2048, edits = 120] = process.argv.slice(2).map(Number);

/** Colours that no mix hides, from the same numbers each time. */
function ramp(kind) {
    let seed = 7;
    const random = () => (seed = (seed * 48271) % 2147483647) / 2147483647;
    const color = () => [random(), random(), random()].map(x => x.toFixed(4)).join('\t');
    const lines = Array.from({ length: stops }, (_, i) => `stop\t${(i / (stops - 1)).toFixed(7)}\t${color()}\t1\n`);
    return `kind\t${kind}\n${lines.join('')}`;
}

/** In the page: drags the chosen stop to and fro, an event a frame, and gives the milliseconds of each frame's work. */
async function dragged(edits) {
    const [track, handle] = [document.getElementById('track'), document.getElementById('handle')];
    const { left, width, top } = track.getBoundingClientRect();
    const [min, max, now] = ['min', 'max', 'now'].map(name => Number(handle.getAttribute(`aria-value${name}`)));
    const x = left + (width * (now - min)) / (max - min);
    const common = { clientY: top + 9, button: 0, pointerId: 1, bubbles: true, cancelable: true };
    const send = (type, clientX) => track.dispatchEvent(new PointerEvent(type, { ...common, clientX }));
    track.setPointerCapture = () => {};
    const frame = () => new Promise(done => requestAnimationFrame(done));
    send('pointerdown', x);
    const spent = [];
    const before = performance.now();
    for (let i = 0; i < edits; i++) {
        send('pointermove', x + (i % 2 ? 4 : -4) + (i % 7) / 10);
        const start = performance.now();
        // the page's own frame comes first: it was asked for before
        await frame();
        spent.push(performance.now() - start);
    }
    const all = performance.now() - before;
    send('pointerup', x);
    return { spent, all };
}

/** In the page: the same edits one after the other, each from the event to the end of its drawing by the page. */
async function typed(edits) {
    const handle = document.getElementById('handle');
    const spent = [];
    for (let i = 0; i < edits; i++) {
        const start = performance.now();
        handle.dispatchEvent(new KeyboardEvent('keydown', { key: i % 2 ? 'ArrowLeft' : 'ArrowRight', shiftKey: true, bubbles: true }));
        document.body.offsetHeight;
        spent.push(performance.now() - start);
        await new Promise(done => requestAnimationFrame(done));
    }
    return spent;
}

const sorted = times => [...times].sort((x, y) => x - y);
const told = times => `median ${sorted(times)[times.length >> 1].toFixed(1)} ms, greatest ${Math.max(...times).toFixed(1)} ms`;

async function measure(opened, kind) {
    const { browser } = opened;
    const file = join(opened.folder, `${kind}.tsv`);
    writeFileSync(file, ramp(kind));
    await opened.load();
    await opened.open(file);
    await browser.enter('#stop', String(stops >> 1));
    await browser.cdp('Performance.disable');
    // the processor's time, so that what runs beside it does not count
    await browser.cdp('Performance.enable', { timeDomain: 'threadTicks' });
    const metric = async () => {
        const { metrics } = await browser.cdp('Performance.getMetrics');
        return Object.fromEntries(metrics.map(({ name, value }) => [name, 1000 * value]));
    };
    await browser.runAsync(typed, 10);
    const spent = await browser.runAsync(typed, edits);
    const before = await metric();
    await browser.runAsync(dragged, edits);
    const after = await metric();
    const each = (...names) => (names.reduce((sum, name) => sum + after[name] - before[name], 0) / edits).toFixed(1);
    console.log(`${kind}, ${stops} stops, ${edits} edits: an edit with its drawing by the page ${told(spent)}; ` +
        `all of the main thread, per edit of a drag, ${each('TaskDuration')} ms, of it script ${each('ScriptDuration')}, ` +
        `layout and style ${each('LayoutDuration', 'RecalcStyleDuration')}`);
}

const opened = await Opened.start();
try {
    for (const kind of ['linear', 'smoothstep']) await measure(opened, kind);
} finally {
    await opened.stop();
}
