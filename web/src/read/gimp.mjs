// GIMP gradients, as GIMP itself saves them too, read by the library.
import { Refused } from '../fault.mjs';
import { call, copy, lend, meanwhile } from '../library.mjs';
import { GIMP, GIMP_SAVED } from '../ramp.mjs';
import { notesOnHues } from './hues.mjs';

const [MOST_SEGMENTS, MOST_TEXT, CURVED] = [256, 131072, 1];
/** What a segment names in place of a colour of its own is GIMP's own first choice: black before white. */
const [FOREGROUND, BACKGROUND] = [[0, 0, 0, 1], [1, 1, 1, 1]];

export const readGimp = file => meanwhile(() => {
    const positions = lend(Float32Array, 3 * MOST_SEGMENTS);
    const channels = lend(Float32Array, 8 * MOST_SEGMENTS);
    const codes = lend(Uint8Array, 2 * MOST_SEGMENTS);
    const told = lend(BigUint64Array, 2);
    // a byte too many is refused as any number of them is
    const text = copy(Uint8Array, file.bytes.subarray(0, MOST_TEXT + 1));
    const refusal = call('read_saved_told', text, ...FOREGROUND, ...BACKGROUND, positions, channels, codes, told);
    const [line, n] = Array.from(told, Number);
    if (refusal) throw new Refused(refusal, { file: file.name, line });
    const ramp = { positions: positions.slice(0, 3 * n), channels: channels.slice(0, 8 * n), codes: codes.slice(0, 2 * n) };
    return { ramp: { kind: kindOf(ramp.codes), ...ramp }, notes: notesOnHues(file, ramp) };
});

/** Codes are of blending and colouring, in turn; a curved segment is carried by the one kind alone. */
const kindOf = codes => (codes.some((code, i) => i % 2 === 0 && code === CURVED) ? GIMP_SAVED : GIMP);
