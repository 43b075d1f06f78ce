// How the list is made: the kind of ramp, the sort of list, threshold and hold.
import { call } from '../library.mjs';
import { short } from '../numbers.mjs';
import { hasSegments, KINDS } from '../ramp.mjs';
import { $, make, setText } from './dom.mjs';
import { field, showIn } from './field.mjs';

export function making(page) {
    const kinds = KINDS.map((name, value) => make('option', { value }, name));
    $('kind').append(...kinds);
    $('kind').addEventListener('change', event => {
        const kind = Number(event.target.value);
        page.attempt(() => page.editor.set({ kind }, `kind ${KINDS[kind]}`)) || page.redraw();
    });
    $('sort').addEventListener('change', event => {
        const isPublished = event.target.value === 'published';
        page.attempt(() => page.editor.set({ isPublished }, isPublished ? 'the published list' : 'a list that keeps its word'));
    });
    field($('threshold'), text => page.attempt(() => {
        const threshold = page.number(text, 'the threshold');
        page.editor.set({ threshold }, `threshold ${short(threshold)}`);
    }));
    field($('hold'), text => page.attempt(() => {
        const hold = page.number(text, 'the hold');
        page.editor.set({ hold }, `hold ${short(hold)}`);
    }));
    page.parts.push(() => draw(page, kinds));
}

function draw(page, kinds) {
    const { threshold, hold, isPublished } = page.sheet.settings;
    $('kind').value = String(page.sheet.kind);
    // segments are not stops: a GIMP ramp stays one, and none becomes one
    kinds.forEach((option, kind) => (option.hidden = option.disabled = hasSegments(kind) ? kind !== page.sheet.kind : page.isGimp));
    $('sort').value = isPublished ? 'published' : 'within';
    showIn($('threshold'), short(threshold));
    showIn($('hold'), short(hold));
    $('hold').readOnly = isPublished;
    const inForce = call('threshold', threshold);
    const taken = inForce === threshold ? '' : ` ${short(threshold)} is taken as ${short(inForce)}.`;
    setText($('threshold-said'), `Threshold: how far a mix may be off before a stop is needed, 0.001 to 0.035.${taken}`);
    setText($('hold-said'), isPublished ? 'A published list has no hold, and it can leave a thin band out.' : holdWords(threshold, hold));
}

function holdWords(threshold, hold) {
    const inForce = call('hold', hold, threshold);
    const taken = inForce === hold ? '' : ` ${short(hold)} is taken as ${short(inForce)}.`;
    return `Hold: how far the list may be off at the ramp's own stops, from 0.001 to the threshold. A greater one gives fewer stops.${taken}`;
}
