// What is saved of a ramp and its list, byte for byte as plume writes it.
import { call, copy, lend, meanwhile } from './library.mjs';
import { asList, hasSegments, LINEAR, stopsOf } from './ramp.mjs';
import { listRoom, recordRoom } from './sheet.mjs';
import { written } from './write/write.mjs';

const MOST_PRINTED = 50029;

/** The text of a file, and what is to be said of it: of the list as `plume flatten` writes it; or, where the ramp is asked for,
 * of its own stops as `plume convert` does, if it is mixed linearly or the format keeps its kind. */
export function saved(editor, format, { isRamp = false, domain = null } = {}) {
    const { name, sheet: { ramp } } = editor;
    const keepsKind = format === 'text' && !hasSegments(ramp.kind);
    const own = keepsKind ? stopsOf(ramp.positions, ramp.channels) : asList(ramp);
    if (isRamp && own) return written({ name, kind: keepsKind ? ramp.kind : LINEAR, stops: own, evaluations: 0, domain }, format);
    const text = format === 'bits' && !domain && printed(editor);
    if (text) return { text, notes: [] };
    const evaluations = format === 'bits' ? evaluationsOf(editor.sheet) : 0;
    return written({ name, kind: LINEAR, stops: editor.listStops(), evaluations, domain }, format);
}

/** How many colours a fresh flattening of the ramp asks for: a file does not tell by which edits a list came about. */
const evaluationsOf = sheet => meanwhile(() => {
    const { threshold, hold, isPublished } = sheet.settings;
    const told = lend(BigUint64Array, 2);
    const room = [...recordRoom(), ...listRoom(), told];
    if (isPublished) call('flatten_told', ...sheet.lentRamp(), threshold, ...room);
    else call('flatten_within_told', ...sheet.lentRamp(), threshold, hold, ...room);
    return Number(told[1]);
});

/** What the tool prints of a file that nobody changed, where the same is asked of it. */
function printed({ text, sheet }) {
    if (!text || !sheet.settings.isPublished) return null;
    return meanwhile(() => {
        const out = lend(Uint8Array, MOST_PRINTED);
        const length = Number(call('desk', copy(Uint8Array, text), out));
        const printed = new TextDecoder().decode(out.slice(0, length));
        return printed.startsWith('stops\t') ? printed : null;
    });
}
