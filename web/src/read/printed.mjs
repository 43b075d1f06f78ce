// What the tool `flatten` prints: stops as the bits of their numbers. It is a list, so it is mixed linearly.
import { fromBits } from '../numbers.mjs';
import { LINEAR } from '../ramp.mjs';
import { lines } from './lines.mjs';
import { quoted } from './stumble.mjs';

const STOP = /^stop(\t[0-9a-f]{8}){5}$/i;

export function readPrinted(file) {
    const rows = lines(file.text).slice(1).map(({ line, said }) => {
        if (!STOP.test(said)) {
            const expected = "expected 'stop' and 5 times 8 hexadecimal digits parted by tabs";
            throw file.unread(line, `${expected}; found ${quoted(said)}`);
        }
        const [position, ...color] = said.split('\t').slice(1).map(bits => fromBits(parseInt(bits, 16)));
        return { line, position, color };
    });
    return { ramp: file.checked(LINEAR, rows), notes: [] };
}
