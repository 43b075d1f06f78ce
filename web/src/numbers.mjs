// Numbers: read by the library's proved reader, and written. All are f32.
import { call, copy, lend, meanwhile } from './library.mjs';

const MOST_NUMERAL = 18;
/** A sign, a point and 18 digits; a longer text need not be lent. */
const MOST_TOKEN = 20;
const encoder = new TextEncoder();
const decoder = new TextDecoder();
const { fround } = Math;

/** The number that a text is by the library's rule, or null: a sign or none, 1 to 18 digits, a point or none. */
export function read(text) {
    if (text.length > MOST_TOKEN) return null;
    return meanwhile(() => {
        const value = lend(Float32Array, 1);
        return call('token_told', copy(Uint8Array, encoder.encode(text)), value) === 1 ? value[0] : null;
    });
}

/** Nine significant digits by the library's proved writer. A number that it does not write, one below 1e-6 or above 1e6 in
 * size, is written with as many digits as it needs. */
export const nineDigits = x => meanwhile(() => {
    const room = lend(Uint8Array, MOST_NUMERAL);
    const length = Number(call('numeral', x, room));
    return length ? decoder.decode(room.slice(0, length)) : short(x);
});

/** The fewest digits that are read back as the same number, the first of them, and its power of ten. */
function shortest(x) {
    for (let n = 0; n < 9; n++) {
        const [mantissa, power] = x.toExponential(n).split('e');
        const digits = mantissa.replace('.', '');
        // just below a power of two numbers lie closer: there the next text above may be read back where the nearest is not
        for (const tried of [digits, String(Number(digits) + 1)]) {
            const at = Number(power) + tried.length - digits.length;
            if (fround(Number(`${tried}e${at - tried.length + 1}`)) === x) return [tried.replace(/0+$/, ''), at];
        }
    }
    throw new Error(`no digits for ${x}`);
}

const notFinite = x => (Number.isNaN(x) ? 'NaN' : x > 0 ? 'inf' : '-inf');

// a page shows the same numbers again and again
const known = new Map();
const MOST_KNOWN = 4096;

/** The fewest digits that are read back as the same number, with no exponent. */
export function short(x) {
    const before = known.get(x);
    if (before !== undefined) return before;
    if (known.size >= MOST_KNOWN) known.clear();
    const digits = plain(x);
    known.set(x, digits);
    return digits;
}

function plain(x) {
    // -0 is 0 to every reader
    x = fround(x) + 0;
    if (!Number.isFinite(x)) return notFinite(x);
    if (x === 0) return '0';
    const [digits, power] = shortest(Math.abs(x));
    const whole = power < 0 ? '0' : digits.slice(0, power + 1).padEnd(power + 1, '0');
    const rest = power < 0 ? '0'.repeat(-power - 1) + digits : digits.slice(power + 1);
    return (x < 0 ? '-' : '') + whole + (rest && `.${rest}`);
}

/** The same digits, with an exponent. */
export function withExponent(x) {
    const [digits, power] = shortest(Math.abs(x));
    return `${x < 0 ? '-' : ''}${digits[0]}${digits.length > 1 ? `.${digits.slice(1)}` : ''}e${power}`;
}

/** Two significant digits, for people. */
export function about(x) {
    if (x === 0 || !Number.isFinite(x)) return short(x);
    return x.toFixed(Math.min(9, Math.max(0, 1 - Math.floor(fround(Math.log10(Math.abs(x)))))));
}

/** Taken into 0..1; not-a-number is 0. */
export const clamped = channel => (channel > 0 ? Math.min(channel, 1) : 0);

/** How a channel becomes a byte, everywhere: clamped to 0..1, times 255, to the nearest whole number, ties to even. */
export function byte(channel) {
    // exact: 24 bits times 8
    const scaled = clamped(channel) * 255;
    const below = Math.floor(scaled);
    const rest = scaled - below;
    return below + (rest === 0.5 ? below % 2 : Number(rest > 0.5));
}

/** How a byte, or a number of 0..255 with decimals, becomes a channel. */
export const channel = byte => fround(byte / 255);

const bitsOf = new DataView(new ArrayBuffer(4));

export function toBits(x) {
    bitsOf.setFloat32(0, x);
    return bitsOf.getUint32(0);
}

export function fromBits(bits) {
    bitsOf.setUint32(0, bits);
    return bitsOf.getFloat32(0);
}

/** The next f32. */
export function above(x) {
    if (x === 0) return fromBits(1);
    return fromBits(x > 0 ? toBits(x) + 1 : toBits(x) - 1);
}

/** '1 stop', '12 stops', '2,048 stops'. */
export const plural = (count, what) => `${count} ${what}${count === 1 ? '' : 's'}`;
