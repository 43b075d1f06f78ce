// What people stumble over, each in its own words.
import { read as readNumber } from '../numbers.mjs';
import { MARK, trimmed, words } from './lines.mjs';

const MOST_QUOTED = 40;
const FORMS = "expected a GIMP gradient, the tool's text (its first line is 'kind'), a GMT colour table, or CSV with a header";

/** A line of the tool's text that is not read; `expected` has words, the first field, and how many numbers come after it. */
export const ofLine = (file, line, said, expected) =>
    file.unread(line, `expected ${expected.words}; ${hint(file, line, said, expected)}`);

function hint(file, line, said, expected) {
    const [first, ...numbers] = said.split('\t');
    const found = numbers.find(field => readNumber(field) === null);
    if (line === 1 && file.text.startsWith(MARK)) return 'a byte-order mark stands before it: save the file as UTF-8 without one';
    if (/^\p{White_Space}*[#;%]|^\/\//u.test(said)) return `comments are not read: found ${quoted(said)}`;
    if (trimmed(said) === '') return 'found an empty line';
    if (said.endsWith('\r')) return 'found a carriage return at its end with no line feed after it: end every line alike';
    if (numbers.length === 0 && words(said).length > 1) return `found spaces where tabs belong: ${quoted(said)}`;
    if (first !== expected.first) return `found ${quoted(said)}`;
    if (expected.numbers === 5 && numbers.length === 4 && found === undefined) {
        return 'found 4: the alpha is missing, 1 where nothing shines through';
    }
    return found === undefined ? `found ${numbers.length}` : ofNumber(found);
}

/** Why a field is not a number. */
export function ofNumber(field) {
    const shown = quoted(field);
    const inner = trimmed(field);
    if (inner === '') return 'found an empty field';
    if (inner.includes(',') && readNumber(inner.replace(',', '.')) !== null) return `a number has a point, not a comma: found ${shown}`;
    if (inner !== field && readNumber(inner) !== null) return `found spaces around a number: ${shown}`;
    if (inner.endsWith('%')) return `a channel runs from 0 to 1, without a percent sign: found ${shown}`;
    if (inner.replace(/[^0-9]/g, '').length > 18) return `a number has at most 18 digits: found ${shown}`;
    if (/^[+-]?(\d+\.?\d*|\.\d+)e[+-]?\d+$/i.test(inner)) return `a number has no exponent: found ${shown}`;
    return `found ${shown}`;
}

/** A file that is none of those that are read. */
export function unknown(file) {
    const [first, second] = file.bytes;
    if (file.bytes.length === 0) return file.unread(0, `${FORMS}; the file is empty`);
    if ((first === 0xff && second === 0xfe) || (first === 0xfe && second === 0xff)) {
        return file.unread(0, `${FORMS}; this is UTF-16: save it as UTF-8`);
    }
    return file.unread(1, `${FORMS}; found ${quoted(file.text.split(/\r?\n/)[0])}`);
}

/** What was found, cut where it is long, with tabs shown. */
export function quoted(found) {
    const all = Array.from(found);
    const shown = all.slice(0, MOST_QUOTED).map(c => {
        if (c === '\t') return '\\t';
        if (c === '\r') return '\\r';
        return /[\p{Cc}\ufffd]/u.test(c) ? '?' : c;
    });
    return `'${shown.join('')}${all.length > MOST_QUOTED ? '..' : ''}'`;
}
