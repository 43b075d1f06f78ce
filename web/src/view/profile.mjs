// The swell profile in words: where it rises, falls and stays level, as a finger would find it.
import { brief } from './page.mjs';

/** Less than this, of 100, no finger feels. */
const FELT = 2;
const MOST_TURNS = 8;

/** The points at which the way turns, with what came before each. */
function turnsOf(ts, heights) {
    const turns = [];
    let [from, best] = [0, 0];
    let way = 0;
    for (let i = 1; i < heights.length; i++) {
        const step = heights[i] - heights[best];
        if (way === 0 && Math.abs(heights[i] - heights[from]) >= FELT) way = Math.sign(heights[i] - heights[from]);
        if (way === 0) continue;
        if (Math.sign(step) === way || step === 0) best = i;
        else if (Math.abs(step) >= FELT) {
            turns.push({ way, at: ts[best], height: heights[best] });
            [from, best, way] = [best, i, -way];
        }
    }
    const last = heights.length - 1;
    if (way !== 0) turns.push({ way, at: ts[best], height: heights[best] });
    if (way === 0 || best < last) turns.push({ way: 0, at: ts[last], height: heights[last] });
    return turns;
}

/** Below 10 with a tenth. */
const rounded = height => String(height < 10 ? Math.round(10 * height) / 10 : Math.round(height));
const VERBS = { 1: 'rises to', '-1': 'falls to', 0: 'stays at' };

export function profileWords(ts, heights, isInverted) {
    const turns = turnsOf(ts, heights);
    const said = turns.slice(0, MOST_TURNS).map(({ way, at, height }) => `${VERBS[way]} ${rounded(height)} at ${brief(at)}`);
    const more = turns.length > MOST_TURNS ? `, and turns ${turns.length - MOST_TURNS} times more` : '';
    const which = isInverted ? 'the light rises' : 'the dark rises';
    return `Height of 100, where ${which}: starts at ${rounded(heights[0])}, ${said.join(', ')}${more}.`;
}

/** How far the list's heights are from the ramp's. */
export function gapWords(ts, ramp, list) {
    const gaps = ramp.map((height, i) => Math.abs(height - list[i]));
    const most = gaps.reduce((far, gap, i) => (gap > gaps[far] ? i : far), 0);
    if (gaps[most] < 0.5) return 'The list has the same heights.';
    return `The list is off by ${rounded(gaps[most])} at most, at ${brief(ts[most])}.`;
}
