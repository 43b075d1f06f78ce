// A ramp of any kind: { kind, positions, channels, codes }, as the library takes it; and stops that are mixed linearly, each
// { position, color }.
import { call, copy, meanwhile } from './library.mjs';
import { above, plural } from './numbers.mjs';

/** The kinds by their numbers; those of stops have names in files. GIMP's segments are of the last where one is curved. */
export const KINDS = ['linear', 'smoothstep', 'sharp', 'basis', 'catmull-rom', 'GIMP', 'GIMP'];
export const [LINEAR, GIMP, GIMP_SAVED] = [0, 5, 6];
/** Whether a kind has segments, and no stops. */
export const hasSegments = kind => kind === GIMP || kind === GIMP_SAVED;
export const MOST_STOPS = 2048;

export const ofStops = (kind, stops) => ({
    kind,
    positions: Float32Array.from(stops, stop => stop.position),
    channels: Float32Array.from(stops.flatMap(stop => stop.color)),
    codes: new Uint8Array(),
});

/** A ramp as the library is lent it, for the time of a call. */
const lent = ({ kind, positions, channels, codes }) =>
    [kind, copy(Float32Array, positions), copy(Float32Array, channels), copy(Uint8Array, codes)];

/** 0, or the refusal. */
export const check = ramp => meanwhile(() => call('check', ...lent(ramp)));

/** The colour of four channels at an index. */
export const colorAt = (channels, i) => [channels[4 * i], channels[4 * i + 1], channels[4 * i + 2], channels[4 * i + 3]];

export const stopsOf = (positions, channels) =>
    Array.from(positions, (position, i) => ({ position, color: colorAt(channels, i) }));

/** How many stops or segments it has, in words. */
export const counted = ({ kind, positions }) =>
    hasSegments(kind) ? plural(positions.length / 3, 'segment') : plural(positions.length, 'stop');

/** Its own positions; of GIMP segments their ends. */
export function depthsOf({ kind, positions }) {
    return hasSegments(kind) ? positions.filter((_, i) => i === 0 || i % 3 === 2) : positions;
}

/** Its stops where it is mixed linearly, so that it is a list already; else null. */
export function asList(ramp) {
    if (ramp.kind === LINEAR) return stopsOf(ramp.positions, ramp.channels);
    return hasSegments(ramp.kind) ? joined(ramp) : null;
}

/** GIMP segments are mixed linearly where each is plain, RGB, and has its middle half-way; where two do not meet in one
 * colour, the position comes twice. */
function joined({ positions, channels, codes }) {
    const gap = i => Math.fround(positions[i + 1] - positions[i]);
    const isCentred = i => Math.abs(Math.fround(gap(i) - gap(i + 1))) <= Math.fround(1e-6);
    const starts = Array.from({ length: positions.length / 3 }, (_, i) => 3 * i);
    if (codes.some(code => code !== 0) || !starts.every(isCentred)) return null;
    const stops = [];
    const add = (position, color) => {
        const last = stops.at(-1);
        const isSame = last && last.position === position && last.color.every((x, i) => x === color[i]);
        if (!isSame) stops.push({ position, color });
    };
    for (const i of starts.keys()) {
        add(positions[3 * i], colorAt(channels, 2 * i));
        add(positions[3 * i + 2], colorAt(channels, 2 * i + 1));
    }
    return stops;
}

/** Stops taken from their own domain to another, in double precision and rounded once. Two that stood apart stay apart, if
 * only by one f32: a hard edge stays one. Null, where all stand at one position. */
export function stretched(stops, [min, max]) {
    const [first, last] = [stops[0].position, stops.at(-1).position];
    if (first === last) return null;
    const place = x => {
        const share = (x - first) / (last - first);
        return Math.fround(min * (1 - share) + max * share);
    };
    const taken = [];
    for (const [i, { position, color }] of stops.entries()) {
        let at = place(position);
        if (i > 0) {
            const before = taken[i - 1].position;
            const stoodApart = stops[i - 1].position < position;
            at = Math.max(at, stoodApart ? Math.min(above(before), max) : before);
        }
        taken.push({ position: at, color });
    }
    return taken;
}

/** A list shows a hard edge by a stop at the next f32: with the position written twice the same colours are seen, and tables
 * have no slices of no width. */
export function withEdges(stops) {
    const edges = stops.map(stop => ({ ...stop }));
    for (let i = 1; i < stops.length; i++) {
        if (stops[i].position === above(stops[i - 1].position)) edges[i].position = edges[i - 1].position;
    }
    return edges;
}
