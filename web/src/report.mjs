// What is said of a list, in words: plume's.
import { depthsThat, isMerged, isMoved, isClose } from './asked.mjs';
import { about, plural, short } from './numbers.mjs';

/** So many depths are named one by one; of more, the first ones. */
const NAMED = 6;

/** The line after a flattening: stops in and out, the farthest depth, what `apart` and the judge say. */
export function line(count, out, apart, isYes) {
    const pairs = merged(apart);
    return `${count} in, ${out} out; ${off(apart)}${pairs && `; ${pairs}`}. Judged: ${isYes ? 'yes' : 'no'}.`;
}

function farthest({ distances }) {
    let far = 0;
    for (let i = 1; i < distances.length; i++) if (distances[i] >= distances[far]) far = i;
    return far;
}

/** A position, and how far off the list is there. */
const farOff = ({ positions, distances }, i) => `${short(positions[i])} (${about(distances[i])})`;

function off(apart) {
    const [threshold, far, most] = [short(apart.threshold), depthsThat(isMoved, apart), farthest(apart)];
    if (!far.length && apart.distances[most] > 0) {
        const one = `the farthest, ${short(apart.positions[most])}, is ${about(apart.distances[most])} off`;
        return `none of your stops is farther off than ${threshold}; ${one}`;
    }
    if (!far.length) return 'each of your stops is shown in its own colour';
    const more = far.length > NAMED ? ` and ${far.length - NAMED} more, the farthest ${farOff(apart, most)}` : '';
    const verb = far.length === 1 ? 'is' : 'are';
    const named = far.slice(0, NAMED).map(i => farOff(apart, i)).join(', ');
    return `${far.length} of your stops ${verb} farther off than ${threshold}: ${named}${more}`;
}

/** The pairs that became one, or nothing. */
export function merged(apart) {
    const pairs = depthsThat(isMerged, apart);
    if (!pairs.length) return '';
    const words = pairs.length === 1 ? 'pair of depths became' : 'pairs of depths became';
    const more = pairs.length > NAMED ? ` and ${pairs.length - NAMED} more` : '';
    const named = pairs.slice(0, NAMED).map(i => `${short(apart.positions[i - 1])} and ${short(apart.positions[i])}`).join(', ');
    return `${pairs.length} ${words} one: ${named}${more}`;
}

/** How many of each. */
export function counted(apart) {
    const many = holds => depthsThat(holds, apart).length;
    return `${plural(apart.positions.length, 'depth')}: ${many(isMoved)} moved by more than ${short(apart.threshold)}, ` +
        `${many(isClose)} close, ${many(isMerged)} merged, at a step of ${short(apart.step)}`;
}
