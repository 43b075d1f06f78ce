// pictures.mjs FOLDER [SCENE ..]: pictures of the built page, by name; all of them where none is named.
import { writeFileSync } from 'node:fs';
import { join } from 'node:path';
import { Opened } from './opened.mjs';

const published = opened => opened.choose('sort', 'published');

async function edited({ browser }) {
    await browser.enter('#stop', '6');
    await browser.enter('#hex', '#2a6f9e');
}

async function refused({ browser }) {
    await browser.enter('#stop', '6');
    await browser.enter('#position', '0.9');
}

async function named({ browser }) {
    await browser.click('#depths-named');
    await browser.run(() => (document.getElementById('names').value = ''));
    await browser.type('#names', '0 deep sea\n0.1667 slope\n0.25 shelf edge\n0.3333 shelf\n0.9167 shoal\n1 shore');
    await browser.run(() => document.getElementById('names').dispatchEvent(new Event('change')));
}

const SCENES = {
    page: { width: 1280, height: 1000, scheme: 'light', file: 'examples/lost-band.tsv', act: published },
    'page-dark': { width: 1280, height: 1000, scheme: 'dark', file: 'examples/depths.tsv', act: edited },
    'page-long': { width: 1280, height: 2300, scheme: 'light', file: 'examples/depths.tsv', act: named },
    'page-narrow': { width: 320, height: 2600, scheme: 'light', file: 'examples/depths.tsv', act: refused },
    'page-narrow-dark': { width: 320, height: 1400, scheme: 'dark', file: 'examples/golden/in/sea.ggr', act: published },
};

async function take(opened, { width, height, scheme, file, act }) {
    const { browser } = opened;
    await browser.cdp('Emulation.setDeviceMetricsOverride', { width, height, deviceScaleFactor: 1, mobile: false });
    await browser.cdp('Emulation.setEmulatedMedia', { features: [{ name: 'prefers-color-scheme', value: scheme }] });
    await browser.cdp('Emulation.setScrollbarsHidden', { hidden: true });
    await opened.load(file);
    await act(opened);
    await browser.run(() => window.scrollTo({ top: 0, behavior: 'instant' }));
    const { data } = await browser.cdp('Page.captureScreenshot', { format: 'png' });
    return Buffer.from(data, 'base64');
}

const [folder, ...names] = process.argv.slice(2);
const opened = await Opened.start();
try {
    for (const name of names.length ? names : Object.keys(SCENES)) writeFileSync(join(folder, `${name}.png`), await take(opened, SCENES[name]));
} finally {
    await opened.stop();
}
