// The stops as a table, each cell a field, a page of them at a time.
import { height, hexWithAlpha } from '../color.mjs';
import { byte, short } from '../numbers.mjs';
import { COLOUR, REMOVE } from '../sheet.mjs';
import { move, paint } from './chosen.mjs';
import { $, children, make, setAttributes, setText } from './dom.mjs';
import { field, showIn } from './field.mjs';
import { Pager } from './pager.mjs';

const FIELDS = ['position', 'colour', 'red', 'green', 'blue', 'alpha'];

export function table(page) {
    const body = $('table').tBodies[0];
    const pager = new Pager($('stops-pager'), 'stop', () => page.redraw());
    let shown = -1;
    body.addEventListener('keydown', event => walk(page, pager, body, event));
    page.parts.push(() => {
        // the page goes where the chosen stop goes, but only then: else it could not be turned
        if (shown !== page.chosen) pager.show(page.chosen);
        shown = page.chosen;
        const stops = pager.indices(page.count);
        const rows = children(body, stops.length, () => row(page));
        rows.forEach((one, i) => drawRow(page, one, stops[i]));
    });
}

function row(page) {
    const made = make('tr', {}, make('th', { scope: 'row' }));
    const stop = () => Number(made.dataset.stop);
    const choose = () => {
        if (page.chosen === stop()) return;
        page.chooseAndDraw(stop());
    };
    FIELDS.forEach((name, column) => {
        const input = make('input', { type: 'text', autocomplete: 'off', spellcheck: 'false' });
        if (name !== 'colour') input.inputMode = 'decimal';
        field(input, text => page.attempt(() => change(page, stop(), column, text)));
        input.addEventListener('focus', choose);
        const swatch = name === 'colour' ? [make('span', { class: 'swatch', 'aria-hidden': 'true' }), ' '] : [];
        made.append(make('td', name === 'colour' ? { class: 'colour' } : {}, ...swatch, input));
    });
    const button = make('button', { type: 'button' }, 'Remove');
    button.addEventListener('click', () => page.attempt(() => page.editor.edit({ sort: REMOVE, stop: stop() })));
    made.append(make('td'), make('td', {}, button));
    return made;
}

function change(page, stop, column, text) {
    if (column === 0) return move(page, stop, text);
    if (column === 1) return paint(page, stop, text);
    const { color } = page.stop(stop);
    color[column - 2] = page.number(text, FIELDS[column]);
    return page.editor.edit({ sort: COLOUR, stop, color });
}

function drawRow(page, made, stop) {
    const { position, color } = page.stop(stop);
    const isChosen = stop === page.chosen;
    setAttributes(made, { 'data-stop': stop, class: isChosen ? 'chosen' : null, 'aria-current': isChosen ? 'true' : null });
    setText(made.cells[0], String(stop));
    const texts = [short(position), hexWithAlpha(color), ...color.map(short)];
    const inputs = made.querySelectorAll('input');
    inputs.forEach((input, i) => {
        setAttributes(input, { 'aria-label': `Stop ${stop}, ${FIELDS[i]}` });
        input.readOnly = page.isGimp;
        showIn(input, texts[i]);
    });
    made.querySelector('.swatch').style.backgroundColor = `rgb(${color.slice(0, 3).map(byte).join(' ')})`;
    setText(made.cells[FIELDS.length + 1], String(Math.round(height(color, page.isInverted))));
    const button = made.querySelector('button');
    setAttributes(button, { 'aria-label': `Remove stop ${stop}` });
    button.hidden = page.isGimp;
}

/** Up and down from stop to stop, over the ends of pages too. */
function walk(page, pager, body, event) {
    const by = { ArrowUp: -1, ArrowDown: 1 }[event.key];
    const cell = event.target.closest('td');
    if (!by || !cell) return;
    const to = Number(cell.parentElement.dataset.stop) + by;
    if (to < 0 || to >= page.count) return;
    event.preventDefault();
    pager.show(to);
    page.chooseAndDraw(to);
    body.querySelector(`[data-stop="${to}"]`).cells[cell.cellIndex].querySelector('input, button').focus();
}
