// The chosen stop: which one, where it stands, its colour; a stop more and a stop less.
import { hex, hexWithAlpha, ofHex } from '../color.mjs';
import { Fault } from '../fault.mjs';
import { short } from '../numbers.mjs';
import { KINDS, MOST_STOPS } from '../ramp.mjs';
import { ADD, COLOUR, MOVE, REMOVE } from '../sheet.mjs';
import { $, enable, isEnabled, setAttributes, setText } from './dom.mjs';
import { field, showIn } from './field.mjs';

export function chosen(page) {
    field($('position'), text => page.attempt(() => move(page, page.chosen, text)));
    field($('hex'), text => page.attempt(() => paint(page, page.chosen, text)));
    field($('stop'), text => choose(page, text));
    let picks = 0;
    $('picker').addEventListener('focus', () => picks++);
    // what is picked keeps its alpha; all of one picking is taken back at once
    $('picker').addEventListener('input', event => {
        const color = [...ofHex(event.target.value).slice(0, 3), page.stop(page.chosen).color[3]];
        page.attempt(() => page.editor.edit({ sort: COLOUR, stop: page.chosen, color }, `pick ${picks}`), { isQuiet: true });
    });
    $('picker').addEventListener('change', () => {
        picks++;
        page.tell();
    });
    $('add').addEventListener('click', () => isEnabled($('add')) && addAfter(page));
    $('remove').addEventListener('click', () => isEnabled($('remove')) && page.attempt(() => page.editor.edit({ sort: REMOVE, stop: page.chosen })));
    $('linear').addEventListener('click', () => page.attempt(() => page.editor.makeLinear()) && $('stop').focus());
    page.parts.push(() => draw(page));
}

/** Changes of a stop by what was typed, for the table too. */
export const move = (page, stop, text) => page.editor.edit({ sort: MOVE, stop, position: page.number(text, 'a position') });

export function paint(page, stop, text) {
    const color = ofHex(text.trim());
    if (!color) throw new Fault('', 0, `a colour is written as #rrggbb or #rrggbbaa; found '${text}'`);
    // six digits leave alpha as it is
    if (text.trim().length === 7) color[3] = page.stop(stop).color[3];
    page.editor.edit({ sort: COLOUR, stop, color });
}

/** A stop more, half-way to the next one, in the ramp's colour there. */
export function addAfter(page) {
    const before = Math.min(page.chosen, page.count - 2);
    const middle = (page.stop(before).position + page.stop(before + 1).position) / 2;
    const addition = page.editor.addition(Math.fround(middle));
    const isMade = page.attempt(() => page.editor.edit({ ...addition, stop: before + 1 }));
    if (!isMade) return;
    page.chooseAndDraw(before + 1);
}

function choose(page, text) {
    const stop = /^\d+$/.test(text) ? Number(text) : -1;
    if (stop < 0 || stop >= page.count) {
        page.refuse(`There is no stop '${text}': they are counted from 0 to ${page.count - 1}.`);
        return false;
    }
    page.chooseAndDraw(stop);
    return true;
}

function draw(page) {
    const { position, color } = page.stop(page.chosen);
    const { allowed } = page.sheet;
    const isInner = page.chosen > 0 && page.chosen < page.count - 1;
    showIn($('stop'), String(page.chosen));
    setAttributes($('stop'), { max: page.count - 1 });
    setText($('stop-of'), `of ${page.count}, from 0`);
    showIn($('position'), short(position));
    showIn($('hex'), hexWithAlpha(color));
    if ($('picker').value !== hex(color)) $('picker').value = hex(color);
    enable($('add'), allowed.has(ADD) && page.count < MOST_STOPS);
    enable($('remove'), allowed.has(ADD) && isInner);
    for (const id of ['position', 'hex']) $(id).readOnly = page.isGimp;
    $('picker').disabled = page.isGimp;
    $('linear').hidden = allowed.has(ADD);
    setText($('kind-hint'), hint(page, allowed, isInner));
}

function hint(page, allowed, isInner) {
    const kind = KINDS[page.sheet.kind];
    if (!allowed.has(COLOUR)) {
        return `A ${kind} ramp has no edits. Take it as a linear ramp to change it: it gets the stops of its list, or its own ` +
            'where it is mixed straight already.';
    }
    if (!allowed.has(ADD)) return `Of a ${kind} ramp colours can be changed, and stops keep their places. Another kind lets them move.`;
    return isInner ? '' : 'The first stop and the last hold the ends: their colours can be changed, their places not.';
}
