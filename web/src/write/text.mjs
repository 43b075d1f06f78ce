// The tool's lines: with nine digits, to be read again; or as bits.
import { Refused } from '../fault.mjs';
import { nineDigits, read, toBits, withExponent } from '../numbers.mjs';
import { KINDS, withEdges } from '../ramp.mjs';

const UNWRITABLE = 19;
const SEEN = Math.fround(1e-6);

/** Whether it is read back as it is. */
const isWritten = x => read(nineDigits(x)) === x;

/** A channel of so many digits that the tool would not read it, and so small that nobody sees it, is 0. */
const seen = channel => (Math.abs(channel) < SEEN && !isWritten(channel) ? 0 : channel);

export function text({ name, kind, stops }) {
    const edges = withEdges(stops);
    const lines = stops.map(({ position, color }, i) => {
        // the f32 just above 0 has 45 digits: such an edge is the position twice
        const numbers = [isWritten(position) ? position : edges[i].position, ...color.map(seen)];
        const wrong = numbers.find(x => !isWritten(x));
        if (wrong !== undefined) {
            throw new Refused(UNWRITABLE, { file: name, more: `; stop ${i}, counted from 0, has ${withExponent(wrong)}` });
        }
        return `stop\t${numbers.map(nineDigits).join('\t')}\n`;
    });
    return `kind\t${KINDS[kind]}\n${lines.join('')}`;
}

const bitsOf = x => toBits(x).toString(16).padStart(8, '0');

/** As `flatten` prints it. */
export function bits({ stops, evaluations }) {
    const line = ({ position, color }) => `stop\t${[position, ...color].map(bitsOf).join('\t')}\n`;
    return `stops\t${stops.length}\tevaluations\t${evaluations}\n${stops.map(line).join('')}`;
}
