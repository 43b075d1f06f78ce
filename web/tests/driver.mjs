// A browser driven by the WebDriver protocol: Debian's chromium and its driver, headless, with nothing in between.
import { spawn } from 'node:child_process';
import { once } from 'node:events';
import { mkdtempSync, rmSync } from 'node:fs';
import { createServer } from 'node:net';
import { tmpdir } from 'node:os';
import { join } from 'node:path';
import { setTimeout as pause } from 'node:timers/promises';

/** A machine may have much else to do. */
export const TRIES = 600;
const ELEMENT = 'element-6066-11e4-a52e-4f735466cecf';
export const KEYS = {
    enter: '\ue007', escape: '\ue00c', tab: '\ue004', delete: '\ue017', insert: '\ue016', home: '\ue011', end: '\ue010',
    right: '\ue014', left: '\ue012', up: '\ue013', down: '\ue015', shift: '\ue008', control: '\ue009',
};

async function freePort() {
    const server = createServer().listen(0, '127.0.0.1');
    await once(server, 'listening');
    const { port } = server.address();
    server.close();
    await once(server, 'close');
    return port;
}

export class Browser {
    /** Starts the driver and a browser; `downloads` is the folder that files are saved to. */
    static async start({ width = 1280, height = 1000, downloads = null } = {}) {
        const browser = new Browser();
        const port = await freePort();
        browser.base = `http://127.0.0.1:${port}`;
        // all that a browser leaves behind goes with it
        browser.home = mkdtempSync(join(tmpdir(), 'guineaplume-browser-'));
        browser.driver = spawn('chromedriver', [`--port=${port}`], { stdio: 'ignore', env: { ...process.env, TMPDIR: browser.home } });
        try {
            await browser.ready();
            await browser.begin(width, height, downloads);
        } catch (error) {
            await browser.stop();
            throw error;
        }
        return browser;
    }

    async ready() {
        for (let tries = 0; tries < TRIES; tries++) {
            const answer = await fetch(`${this.base}/status`).then(said => said.json(), () => null);
            if (answer?.value.ready) return;
            await pause(50);
        }
        throw new Error('chromedriver does not answer');
    }

    async begin(width, height, downloads) {
        // a container has no sandbox of its own for root, and a small /dev/shm
        const args = ['--headless=new', '--no-sandbox', '--disable-dev-shm-usage', '--force-color-profile=srgb', `--window-size=${width},${height}`];
        const prefs = downloads ? { 'download.default_directory': downloads, 'download.prompt_for_download': false } : {};
        const wanted = { alwaysMatch: { browserName: 'chrome', 'goog:chromeOptions': { args, prefs } } };
        const { sessionId } = await this.send('POST', '/session', { capabilities: wanted });
        this.session = `/session/${sessionId}`;
    }

    async send(method, path, body) {
        const answer = await fetch(this.base + path, { method, body: body && JSON.stringify(body) });
        const { value } = await answer.json();
        if (!answer.ok) throw new Error(`${path}: ${value.error}: ${value.message}`);
        return value;
    }

    ask(method, path, body) {
        return this.send(method, this.session + path, body);
    }

    open(url) {
        return this.ask('POST', '/url', { url });
    }

    /** Runs a function in the page, with values that JSON knows. */
    run(f, ...args) {
        return this.ask('POST', '/execute/sync', { script: `return (${f}).apply(null, arguments)`, args });
    }

    /** The same, of a function that gives a promise. */
    runAsync(f, ...args) {
        const script = `const done = arguments[arguments.length - 1]; (${f}).apply(null, arguments).then(done, e => done(String(e)))`;
        return this.ask('POST', '/execute/async', { script, args });
    }

    async element(selector) {
        const found = await this.ask('POST', '/element', { using: 'css selector', value: selector });
        return found[ELEMENT];
    }

    async type(selector, text) {
        return this.ask('POST', `/element/${await this.element(selector)}/value`, { text });
    }

    /** Writes something over what stands in a field, and takes it. */
    async enter(selector, text) {
        await this.run(s => document.querySelector(s).select(), selector);
        return this.type(selector, text + KEYS.enter);
    }

    async click(selector) {
        // messages stand over the page's lower edge
        await this.run(s => document.querySelector(s).scrollIntoView({ block: 'center', behavior: 'instant' }), selector);
        return this.ask('POST', `/element/${await this.element(selector)}/click`, {});
    }

    text(selector) {
        return this.run(s => document.querySelector(s).textContent, selector);
    }

    value(selector) {
        return this.run(s => document.querySelector(s).value, selector);
    }

    /** Moves of a mouse: each { type, x, y } as the protocol has them. */
    mouse(...actions) {
        const all = actions.map(action => ({ duration: 20, ...action }));
        return this.ask('POST', '/actions', { actions: [{ type: 'pointer', id: 'mouse', parameters: { pointerType: 'mouse' }, actions: all }] });
    }

    /** Keys pressed where the focus is; `held` stays down meanwhile. */
    press(keys, held = '') {
        const step = type => value => ({ type, value });
        const pressed = [...keys].flatMap(key => [step('keyDown')(key), step('keyUp')(key)]);
        const actions = [...[...held].map(step('keyDown')), ...pressed, ...[...held].map(step('keyUp'))];
        return this.ask('POST', '/actions', { actions: [{ type: 'key', id: 'keys', actions }] });
    }

    /** A command of the browser's own. */
    cdp(cmd, params = {}) {
        return this.ask('POST', '/goog/cdp/execute', { cmd, params });
    }

    /** What a condition in the page gives, once it holds. */
    async until(f, ...args) {
        for (let tries = 0; tries < TRIES; tries++) {
            const value = await this.run(f, ...args);
            if (value) return value;
            await pause(30);
        }
        throw new Error(`it never came: ${f}`);
    }

    async stop() {
        const ended = once(this.driver, 'exit');
        if (this.session) await this.ask('DELETE', '').catch(() => {});
        this.driver.kill();
        await ended;
        rmSync(this.home, { recursive: true, force: true, maxRetries: 20 });
    }
}
