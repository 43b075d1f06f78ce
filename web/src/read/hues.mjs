// Segments of a GIMP gradient that GIMP itself paints otherwise: some of those coloured by hue. GIMP works in doubles, the
// library in f32, as the published Rust; and GIMP takes near-greys for greys (docs/HSV.md). Nothing said here changes a colour.
import { lines, words } from './lines.mjs';

/** A difference of channels that is not told of. */
const SEEN = 0.0001;
/** The blending that shows the ends alone, and the colouring by which hues rise. */
const [STEP, RISING] = [5, 1];
/** The line of the first segment. */
const FIRST = 4;
const EPSILON = 2 ** -23;
const { abs, fround, max, min } = Math;

/** How GIMP's colours differ. */
const OUTSIDE = 'coloured by hue, with a channel outside 0..1: GIMP 2.10 keeps it, and this ramp is clamped';
const NEARLY_GREY = 'coloured by hue, and one end is nearly grey: GIMP 2.10 takes that end for a grey, and paints other colours here';
const NEARLY_ONE = 'coloured by hue between colours of nearly one hue: GIMP 2.10';
const ROUND = `${NEARLY_ONE} hardly turns here, and this ramp goes once round`;
const STILL = `${NEARLY_ONE} goes once round here, and this ramp hardly turns`;

/** What is to be said of the segments of a file that was read: for each sort the line of the first, and how many more. */
export function notesOnHues(file, { channels, codes }) {
    const segments = lines(file.text).slice(FIRST - 1, FIRST - 1 + codes.length / 2);
    const found = segments.map(({ line, said }, i) => [line, sortOf(said, channels.slice(8 * i, 8 * i + 8), ...codes.slice(2 * i, 2 * i + 2))]);
    return [OUTSIDE, NEARLY_GREY, ROUND, STILL].flatMap(sort => {
        const [first, ...others] = found.filter(([, one]) => one === sort);
        const more = others.length ? ` (and ${others.length} segment${others.length === 1 ? '' : 's'} more)` : '';
        return first ? [`${file.name}:${first[0]}: ${sort}${more}`] : [];
    });
}

/** Of one segment: its line, and its channels as they were read. */
function sortOf(said, channels, blending, coloring) {
    if (coloring === 0) return null;
    const ours = ends(channels, OURS);
    const bright = max(...ours.map(end => end.value));
    const isSeen = saturation => saturation * bright > SEEN;
    if (ours.some(end => past(end.value) > SEEN || past(end.alpha) > SEEN || isSeen(past(end.saturation)))) return OUTSIDE;
    if (blending === STEP || !ours.some(end => isSeen(end.saturation))) return null;
    const gimps = ends(doubles(said, channels), GIMPS);
    const greys = ours.filter((our, i) => our.saturation !== 0 && gimps[i].saturation === 0);
    if (greys.some(our => isSeen(our.saturation) || our.hue !== 0)) return NEARLY_GREY;
    const more = way(ours, coloring) - way(gimps, coloring);
    if (more > 0.5) return ROUND;
    return more < -0.5 ? STILL : null;
}

/** How far a number lies outside 0..1. */
const past = x => abs(x - min(max(x, 0), 1));

/** The channels as GIMP has them, in doubles. An end that names the foreground or the background has another colour than its
 * numbers. */
function doubles(said, channels) {
    const numbers = words(said).slice(3).map(Number);
    return Array.from(channels, (channel, i) => (abs(numbers[i] - channel) <= abs(channel) * EPSILON ? numbers[i] : channel));
}

/** How hues are worked out: to what each step is rounded, the greatest spread of a grey, and a hue, in turns, of sixths of one.
 * The library has degrees in f32; of two f32 each of the four operations, in doubles and rounded so, is the f32 one. */
const OURS = { rounded: fround, grey: 0, hue: sixths => fround(sixths * 60) / 360 };
/** GIMP has turns in doubles. */
const GIMPS = { rounded: x => x, grey: 0.0001, hue: sixths => sixths / 6 };

const ends = (channels, rule) => [there(channels.slice(0, 4), rule), there(channels.slice(4), rule)];

/** The steps 'There' of docs/HSV.md. */
function there([r, g, b, alpha], { rounded, grey, hue }) {
    const value = max(r, g, b);
    const spread = rounded(value - min(r, g, b));
    if (spread <= grey) return { hue: 0, saturation: 0, value, alpha };
    const part = (x, y) => rounded(rounded(x - y) / spread);
    const sixths = () => {
        if (r === value) return part(g, b) < 0 ? rounded(part(g, b) + 6) : part(g, b);
        return g === value ? rounded(2 + part(b, r)) : rounded(4 + part(r, g));
    };
    return { hue: hue(sixths()), saturation: rounded(spread / value), value, alpha };
}

/** How much of a turn lies between the two hues. Equal hues are a whole turn apart. */
function way([left, right], coloring) {
    const [from, to] = coloring === RISING ? [left.hue, right.hue] : [right.hue, left.hue];
    return from < to ? to - from : 1 - (from - to);
}
