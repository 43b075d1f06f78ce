// Files in: what they are is told by their first bytes, as plume tells it.
import { Fault } from '../fault.mjs';
import { readCpt } from './cpt.mjs';
import { readCsv } from './csv.mjs';
import { readGimp } from './gimp.mjs';
import { File, trimmed, withoutMark } from './lines.mjs';
import { readPrinted } from './printed.mjs';
import { unknown } from './stumble.mjs';
import { readText } from './text.mjs';

/** No ramp is longer; a file of another sort should not fill the memory. */
const MOST = 4 << 20;

/** Gives { file, name, ramp, threshold, edit, text, notes }, or throws a fault with its line. */
export function readFile(name, bytes, isBytes = false) {
    if (bytes.length > MOST) throw new Fault(name, 0, 'longer than 4 MiB: this is no ramp');
    const file = new File(name, bytes, isBytes);
    const read = readerOf(file.text);
    if (!read) throw unknown(file);
    return { file: name, name: stem(name), ...read(file) };
}

function readerOf(marked) {
    const text = withoutMark(marked);
    if (text.startsWith('GIMP')) return readGimp;
    const found = text.split('\n').find(line => /[^ \t\n\f\r]/.test(line) && !line.startsWith('#')) ?? '';
    const first = found.toLowerCase();
    const [word] = first.split(/[\p{White_Space},;]/u);
    if (word === 'stops' && first.includes('evaluations')) return readPrinted;
    if (['kind', 'threshold', 'edit'].includes(word) || (word === 'stop' && /\p{N}/u.test(first))) return readText;
    if (['b', 'f', 'n'].includes(word) && trimmed(first).length > 1 && !first.includes(',')) return readCpt;
    if (/^[0-9+\-.]/.test(word) && !/[,;]/.test(first)) return readCpt;
    return /[,;\t]/.test(first) ? readCsv : null;
}

/** A name for what is written, of what somebody wrote. */
export const plainName = text => trimmed(text.replace(/\p{Cc}/gu, '')) || 'ramp';

/** That of a file, without its ending. */
function stem(name) {
    const at = name.lastIndexOf('.');
    return plainName(at > 0 ? name.slice(0, at) : name);
}
