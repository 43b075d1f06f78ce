// GIMP gradients, by the library's proved writer.
import { Refused } from '../fault.mjs';
import { call, copy, lend, meanwhile } from '../library.mjs';

const [MISSHAPEN, MOST_WRITTEN] = [1, 257];
/** The least number that the writer takes, zero aside. */
const LEAST = Math.fround(1e-6);
const roomFor = stops => 34 + 213 * (stops - 1);

/** Channels are clamped, since Inkscape refuses 1.00000012. What is below a millionth, position or channel, is 0: the library's
 * writer has nine digits from there on, and no display shows it. A half-way point below the least is not written either, so
 * twice that is where positions start. */
export const ggr = ({ name, stops }) => meanwhile(() => {
    const positions = copy(Float32Array, stops.map(({ position }) => (position < Math.fround(2 * LEAST) ? 0 : position)));
    const channels = copy(Float32Array, stops.flatMap(({ color }) => color.map(x => (x < LEAST ? 0 : Math.min(x, 1)))));
    const text = lend(Uint8Array, roomFor(Math.min(stops.length, MOST_WRITTEN)));
    const told = lend(BigUint64Array, 1);
    const refusal = call('write_ggr_told', positions, channels, text, told);
    const many = `; it has ${stops.length} stops, and a GIMP gradient at most ${MOST_WRITTEN}: a greater hold gives fewer`;
    if (refusal) throw new Refused(refusal, { file: name, more: refusal === MISSHAPEN ? many : '' });
    // a function, since a name may have a $
    return new TextDecoder().decode(text.slice(0, Number(told[0]))).replace('Name: flattened\n', () => `Name: ${name}\n`);
});
