// What is asked of the library about a ramp and its list: colours, a verdict, and which depths became one.
import { distanceAt } from './color.mjs';
import { Refused } from './fault.mjs';
import { call, copy, lend, meanwhile } from './library.mjs';

export const [YES, TOO_FAR] = [1, 6];
const [MOVED, CLOSE, MERGED] = [1, 2, 4];

/** The ramp's colours at many points, four channels each. */
export const painted = (sheet, ts) => meanwhile(() => {
    const out = lend(Float32Array, 4 * ts.length);
    const refusal = call('paint', ...sheet.lentRamp(), copy(Float32Array, ts), out);
    if (refusal) throw new Refused(refusal);
    return out.slice();
});

/** The colours of a list at many points, for people: a list may have more stops than a ramp, so the library does not paint it.
 * As the linear rule does, the left one of equal positions counts. */
export function mixed({ places, colours }, ts) {
    const out = new Float32Array(4 * ts.length);
    const last = places.length - 1;
    for (let i = 0; i < ts.length; i++) {
        const right = Math.min(Math.max(firstFrom(places, ts[i]), 1), last);
        const from = places[right - 1];
        const to = places[right];
        const share = ts[i] >= to ? 1 : ts[i] <= from ? 0 : (ts[i] - from) / (to - from);
        for (let k = 0; k < 4; k++) {
            const a = colours[4 * right - 4 + k];
            const b = colours[4 * right + k];
            out[4 * i + k] = share === 1 ? b : a + (b - a) * share;
        }
    }
    return out;
}

/** The first index of a place that is not below t. */
export function firstFrom(places, t) {
    let [low, high] = [0, places.length];
    while (low < high) {
        const middle = (low + high) >> 1;
        if (places[middle] < t) low = middle + 1;
        else high = middle;
    }
    return low;
}

/** What the judge says of the sheet's list: its verdict by number, and where the first point lies that is too far. */
export const judged = sheet => meanwhile(() => {
    const [told, t] = [lend(BigUint64Array, 4), lend(Float32Array, 1)];
    const { places, colours } = sheet.list;
    const refusal = call('judge_told', ...sheet.lentRamp(), sheet.settings.threshold, places, colours, told, t);
    if (refusal) throw new Refused(refusal);
    return { verdict: Number(told[0]), t: t[0] };
});

/** What is to be said of each depth, by the threshold and the step: how far off the list is there, for people, and the library's
 * bytes, which `isMoved`, `isClose` and `isMerged` read. */
export function apart(sheet, step, depths) {
    const faults = faultsOf(sheet, step, depths);
    const [shown, listed] = [painted(sheet, depths), mixed(sheet.list, depths)];
    const distances = new Float32Array(depths.length);
    for (let i = 0; i < depths.length; i++) distances[i] = distanceAt(shown, listed, 4 * i);
    return { positions: depths.slice(), distances, faults, threshold: call('threshold', sheet.settings.threshold), step };
}

export const isMoved = ({ faults }, i) => (faults[i] & MOVED) !== 0;
export const isClose = ({ faults }, i) => (faults[i] & CLOSE) !== 0;
export const isMerged = ({ faults }, i) => (faults[i] & MERGED) !== 0;

/** The depths of which something holds, by their indices. */
export function depthsThat(holds, apart) {
    const found = [];
    for (let i = 0; i < apart.faults.length; i++) if (holds(apart, i)) found.push(i);
    return found;
}

const faultsOf = (sheet, step, depths) => meanwhile(() => {
    const faults = lend(Uint8Array, depths.length);
    const { places, colours } = sheet.list;
    const { threshold } = sheet.settings;
    const told = lend(BigUint64Array, 4);
    const refusal = call('apart_told', ...sheet.lentRamp(), threshold, step, copy(Float32Array, depths), places, colours, faults, told);
    if (refusal) throw new Refused(refusal);
    return faults.slice();
});
