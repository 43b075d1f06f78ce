// Colours as people write them, how far apart two are, and how high swell paper rises for one. A colour is four channels.
import { call } from './library.mjs';
import { byte, channel, clamped } from './numbers.mjs';

const { fround } = Math;
const twoDigits = n => n.toString(16).padStart(2, '0');

/** Of '#rrggbb' or '#rrggbbaa', or null. */
export function ofHex(text) {
    if (!/^#([0-9a-f]{6}|[0-9a-f]{8})$/i.test(text)) return null;
    const [r, g, b, a = 1] = text.slice(1).match(/../g).map(digits => channel(parseInt(digits, 16)));
    return [r, g, b, a];
}

/** Its four channels as bytes. */
export const bytes = color => Array.from(color, byte);

/** '#rrggbb', without alpha. */
export const hex = color => `#${bytes(color).slice(0, 3).map(twoDigits).join('')}`;

/** The same, with alpha where something shines through. */
export const hexWithAlpha = color => hex(color) + (byte(color[3]) === 255 ? '' : twoDigits(byte(color[3])));

/** How far apart two colours are, by the library's measure: half the root of the sum of the squared differences of clamped
 * channels. What is told by it is for people; what is decided is asked of the library. */
export const distance = (x, y) => distanceAt(x, y, 0);

/** The same of the colours that start at an index of channels. */
export function distanceAt(x, y, from) {
    let sum = 0;
    for (let i = from; i < from + 4; i++) {
        const gap = fround(clamped(x[i]) - clamped(y[i]));
        sum = fround(sum + fround(gap * gap));
    }
    return fround(call('root', sum) / 2);
}

/** The lightness L* of a colour, 0 to 100, alpha aside: sRGB, D65. */
function lightness([r, g, b]) {
    const linear = channel => {
        const c = clamped(channel);
        return c <= 0.04045 ? c / 12.92 : ((c + 0.055) / 1.055) ** 2.4;
    };
    const y = 0.2126 * linear(r) + 0.7152 * linear(g) + 0.0722 * linear(b);
    return y <= 216 / 24389 ? (y * 24389) / 27 : 116 * Math.cbrt(y) - 16;
}

/** How high swell paper rises, 0 to 100: ink takes the heat, so the dark rises, unless it is inverted. */
export const height = (color, isInverted) => (isInverted ? lightness(color) : 100 - lightness(color));
