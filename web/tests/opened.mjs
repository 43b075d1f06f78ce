// The built page in a browser, for the tests.
import assert from 'node:assert/strict';
import { existsSync, mkdtempSync, readdirSync, readFileSync, rmSync } from 'node:fs';
import { tmpdir } from 'node:os';
import { dirname, join } from 'node:path';
import { setTimeout as pause } from 'node:timers/promises';
import { fileURLToPath } from 'node:url';
import { Browser, TRIES } from './driver.mjs';

export const ROOT = join(dirname(fileURLToPath(import.meta.url)), '../..');
const PAGE = join(ROOT, 'target/web/guineaplume.html');

/** A page with what a person does to it. */
export class Opened {
    static async start(options = {}) {
        const opened = new Opened();
        opened.folder = mkdtempSync(join(tmpdir(), 'guineaplume-'));
        opened.browser = await Browser.start({ downloads: opened.folder, ...options });
        return opened;
    }

    async stop() {
        await this.browser.stop();
        rmSync(this.folder, { recursive: true, force: true });
    }

    /** The page anew, with a file of the repository opened where one is named. */
    async load(path = '') {
        await this.browser.open(`file://${PAGE}`);
        await this.browser.until(() => document.getElementById('said').textContent);
        if (path) await this.open(join(ROOT, path));
    }

    async open(file) {
        await this.browser.run(() => (document.getElementById('status').textContent = ''));
        await this.browser.type('#file', file);
        return this.browser.until(() => document.getElementById('status').textContent || document.getElementById('alert').textContent);
    }

    /** Another choice of a list of choices. */
    choose(id, value) {
        return this.browser.run((id, value) => {
            const select = document.getElementById(id);
            select.value = value;
            select.dispatchEvent(new Event('change', { bubbles: true }));
        }, id, value);
    }

    /** Presses Save, and gives the bytes of the file that came of it. */
    async save(format, ending) {
        await this.choose('format', format);
        await this.browser.click('#save');
        const name = `${await this.browser.text('#title')}.${ending}`;
        assert.match(await this.status(), new RegExp(`^Saved as ${name}`));
        const file = join(this.folder, name);
        for (let tries = 0; tries < TRIES; tries++) {
            if (existsSync(file) && !readdirSync(this.folder).some(one => one.endsWith('.crdownload'))) break;
            await pause(20);
        }
        const bytes = readFileSync(file);
        rmSync(file);
        return bytes;
    }

    status() {
        return this.browser.text('#status');
    }

    alert() {
        return this.browser.text('#alert');
    }

    /** The position of a stop, as the table has it. */
    position(stop) {
        return this.browser.run(stop => document.querySelector(`[data-stop="${stop}"] [aria-label$="position"]`).value, stop);
    }

    /** Where a stop stands on the screen. */
    place(stop) {
        return this.browser.run(stop => {
            const track = document.getElementById('track').getBoundingClientRect();
            const [min, max] = ['aria-valuemin', 'aria-valuemax'].map(name => Number(document.getElementById('handle').getAttribute(name)));
            const position = Number(document.querySelector(`[data-stop="${stop}"] [aria-label$="position"]`).value);
            return { x: Math.round(track.left + track.width * (position - min) / (max - min)), y: Math.round(track.bottom - 10), width: track.width };
        }, stop);
    }

    /** Drags a stop by so many pixels, in a few steps. */
    async drag(stop, by) {
        const { x, y } = await this.place(stop);
        const steps = [0.25, 0.5, 0.75, 1].map(share => ({ type: 'pointerMove', x: Math.round(x + by * share), y }));
        await this.browser.mouse({ type: 'pointerMove', x, y }, { type: 'pointerDown', button: 0 }, ...steps, { type: 'pointerUp', button: 0 });
    }
}
