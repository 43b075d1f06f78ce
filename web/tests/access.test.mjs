// Whether the page can be used by ear, by touch and by keys: roles and names as the browser hands them to a screen reader,
// contrast, sizes, zoom, and a walk through all of it by Tab.
import assert from 'node:assert/strict';
import { after, before, test } from 'node:test';
import { lowContrast } from './contrast.mjs';
import { KEYS } from './driver.mjs';
import { Opened } from './opened.mjs';

const RAMP = 'examples/lost-band.tsv';
const CONTROLS = 'a[href], button, input, select, textarea, summary, [tabindex="0"]';
const ROLES = ['button', 'textbox', 'slider', 'combobox', 'radio', 'checkbox', 'spinbutton', 'link', 'ColorWell', 'DisclosureTriangle',
    'option', 'region'];
const HEADINGS = ['Guineaplume', 'Ramp and list', 'Swell profile', 'Stops', 'Channels', 'Depths to tell apart', 'How the list is made',
    'Save and open', 'What is proved here'];

let page;
let browser;
before(async () => {
    page = await Opened.start();
    browser = page.browser;
    await page.load(RAMP);
    await page.choose('sort', 'published');
});
after(() => page.stop());

const size = (width, height = 900) => browser.cdp('Emulation.setDeviceMetricsOverride', { width, height, deviceScaleFactor: 1, mobile: false });

test('whatever takes the focus or shows something has a role and a name', async () => {
    const { nodes } = await browser.cdp('Accessibility.getFullAXTree');
    const said = nodes.filter(node => !node.ignored).map(({ role, name, properties = [] }) => ({
        role: role?.value, name: name?.value ?? '', isFocusable: properties.some(one => one.name === 'focusable' && one.value.value),
    }));
    const focusable = said.filter(node => node.isFocusable && node.role !== 'RootWebArea' && !(node.role === 'region' && node.name));
    assert.ok(focusable.length > 60, `${focusable.length} can take the focus`);
    assert.deepEqual(focusable.filter(node => !node.name.trim() || !ROLES.includes(node.role)), []);
    assert.deepEqual(said.filter(node => ['img', 'image', 'table', 'group', 'region'].includes(node.role) && !node.name.trim()), []);
    const headings = said.filter(node => node.role === 'heading').map(node => node.name);
    assert.deepEqual(headings, HEADINGS);
    assert.equal(said.filter(node => node.role === 'status').length, 1);
    assert.equal(said.filter(node => node.role === 'alert').length, 1);
    assert.equal(said.filter(node => node.role === 'columnheader').length, 13);
});

test('the document has a language, a title, one main part, and every name that is pointed at is there once', async () => {
    const faults = await browser.run(() => {
        const ids = [...document.querySelectorAll('[id]')].map(element => element.id);
        const twice = ids.filter((id, i) => ids.indexOf(id) !== i);
        const pointed = [...document.querySelectorAll('[aria-labelledby], [aria-describedby], [for]')]
            .flatMap(element => ['aria-labelledby', 'aria-describedby', 'for'].flatMap(name => (element.getAttribute(name) ?? '').split(' ')));
        const lost = pointed.filter(id => id && !ids.includes(id));
        const parts = ['main', 'h1'].map(name => document.querySelectorAll(name).length);
        return [document.documentElement.lang, document.title, ...parts, twice, lost];
    });
    assert.deepEqual(faults, ['en', 'lost-band – Guineaplume', 1, 1, [], []]);
});

for (const scheme of ['light', 'dark']) {
    test(`contrast is enough, ${scheme}, with a refusal shown`, async () => {
        await browser.cdp('Emulation.setEmulatedMedia', { features: [{ name: 'prefers-color-scheme', value: scheme }] });
        await browser.enter('#position', '9');
        assert.match(await page.alert(), /^Refused/);
        assert.deepEqual(await lowContrast(browser), []);
        await browser.type('#position', KEYS.escape);
    });
}

test('a text that is too pale is found', async () => {
    await browser.run(() => document.getElementById('said').style.setProperty('color', '#777'));
    assert.equal((await lowContrast(browser)).length, 1);
    await browser.run(() => document.getElementById('said').removeAttribute('style'));
});

test('whatever is pressed is 24 pixels large or more', async () => {
    const small = await browser.run(controls => [...document.querySelectorAll(controls)]
        .filter(element => element.checkVisibility() && !element.matches('.skip, .scroll'))
        .map(element => [element.id || element.ariaLabel, element.getBoundingClientRect()])
        .filter(([, { width, height }]) => Math.min(width, height) < (23.9))
        .map(([name, { width, height }]) => `${name}: ${width} by ${height}`), CONTROLS);
    // a box to tick is 20 pixels wide, and its label with it is pressed as well
    assert.deepEqual(small.filter(words => !/^(invert|depths-own|depths-named|what-list|what-ramp|bytes):/.test(words)), []);
});

test('nothing is cut off at 320 pixels, at 200 % zoom, and with letters twice as large', async () => {
    const overflow = () => browser.run(() => document.documentElement.scrollWidth - document.documentElement.clientWidth);
    for (const width of [320, 640, 1280]) {
        await size(width);
        assert.equal(await overflow(), 0, `${width} pixels wide`);
    }
    await size(640);
    await browser.run(() => (document.documentElement.style.fontSize = '200%'));
    assert.equal(await overflow(), 0, 'letters twice as large');
    await browser.run(() => (document.documentElement.style.fontSize = ''));
    await browser.cdp('Emulation.clearDeviceMetricsOverride');
});

test('Tab reaches every control in the order of the page, and shows where it is', async () => {
    const wanted = await browser.run(controls => {
        let n = 0;
        document.querySelector('.skip').focus();
        return [...document.querySelectorAll(controls)].filter(element => {
            // of radio buttons the one that is set is reached, the others by the arrow keys
            const isReached = element.checkVisibility() && !element.disabled && (element.type !== 'radio' || element.checked);
            if (isReached) element.dataset.order = n++;
            return isReached;
        }).length;
    }, CONTROLS);
    const order = [0];
    while (order.length < wanted) {
        await browser.press(KEYS.tab);
        order.push(await browser.run(() => {
            const { activeElement } = document;
            const shown = activeElement.matches('.file input') ? activeElement.parentElement : activeElement;
            return getComputedStyle(shown).outlineStyle === 'none' ? `${activeElement.id}: no outline` : Number(activeElement.dataset.order);
        }));
    }
    assert.deepEqual(order, Array.from({ length: wanted }, (_, i) => i));
});

test('a stop is moved, told and taken back by keys alone', async () => {
    await page.load(RAMP);
    await page.choose('sort', 'published');
    await browser.run(() => document.getElementById('handle').focus());
    await browser.press('nnn');
    const words = () => browser.run(() => document.getElementById('handle').getAttribute('aria-valuetext'));
    assert.equal(await words(), '0.4026, stop 3 of 6, #ff0000');
    await browser.press(KEYS.left);
    assert.equal(await words(), '0.3926, stop 3 of 6, #ff0000');
    await browser.press('z', KEYS.control);
    assert.equal(await words(), '0.4026, stop 3 of 6, #ff0000');
    assert.match(await page.status(), /^Undone: stop 3 moved to 0\.3926\./);
});

test('the swell profile is read in words, and inverted', async () => {
    await page.load('examples/depths.tsv');
    const words = () => browser.text('#profile-words');
    assert.equal(await words(), 'Height of 100, where the dark rises: starts at 95, falls to 6.7 at 1. The list has the same heights.');
    await browser.click('#invert');
    assert.equal(await words(), 'Height of 100, where the light rises: starts at 4.6, rises to 93 at 1. The list has the same heights.');
    await browser.run(() => document.getElementById('reader').focus());
    await browser.press(KEYS.home);
    const read = await browser.run(() => document.getElementById('reader').getAttribute('aria-valuetext'));
    assert.equal(read, '0: ramp #080d2b, list #080d2b, 0 off; height 5');
});
