// CSV with a header: a position, and red, green, blue, perhaps alpha, or one column of #rrggbb. Parted by commas, semicolons
// or tabs, as the header is.
import { ofHex } from '../color.mjs';
import { read as readNumber } from '../numbers.mjs';
import { LINEAR } from '../ramp.mjs';
import { lines, trimmed, withoutMark } from './lines.mjs';
import { ofNumber, quoted } from './stumble.mjs';

const EXPECTED = 'expected a header that names a position and r, g, b, perhaps a, or a color';
const POSITIONS = ['position', 'pos', 't', 'x', 'z', 'value', 'depth', 'elevation', 'offset'];
const HEXES = ['color', 'colour', 'hex', 'rgb', 'rgba'];
/** The last two forms say that the channel is a byte. */
const CHANNELS = [
    ['r', 'red', 'r255', 'red255'],
    ['g', 'green', 'g255', 'green255'],
    ['b', 'blue', 'b255', 'blue255'],
    ['a', 'alpha', 'a255', 'alpha255'],
];

export function readCsv(file) {
    // programs for tables put a mark first and end lines with CR LF: both are usual here
    const [first, ...rest] = lines(withoutMark(file.text));
    const header = headerOf(file, first.line, first.said);
    const rows = [];
    for (const { line, said } of rest) {
        if (trimmed(said) === '') continue;
        if (said.startsWith('#') && header.hex !== 0) throw file.unread(line, `comments are not read: found ${quoted(said)}`);
        rows.push(rowOf(file, line, said, header));
    }
    const notes = header.hex === undefined ? file.scaled(rows, header.isBytes) : [];
    return { ramp: file.checked(LINEAR, rows), notes };
}

/** Which column has what: the position, and a colour as one field or as channels. */
function headerOf(file, line, said) {
    const counts = [',', ';', '\t'].map(parted => [said.split(parted).length, parted]);
    const [, parted] = counts.reduce((most, one) => (one[0] > most[0] ? one : most));
    const names = said.split(parted).map(name => bare(name).toLowerCase());
    const find = known => {
        const at = names.findIndex(name => known.includes(name));
        return at < 0 ? undefined : at;
    };
    const [position, hex, channels] = [find(POSITIONS), find(HEXES), CHANNELS.map(find)];
    const rgb = channels.slice(0, 3);
    if (hex === undefined && rgb.includes(undefined)) throw file.unread(line, `${EXPECTED}; found ${quoted(said)}`);
    if (position === undefined) throw file.unread(line, `${EXPECTED}; found no position in ${quoted(said)}`);
    const isBytes = hex === undefined && rgb.every(column => names[column].endsWith('255'));
    return { parted, columns: names.length, position, hex, channels, isBytes };
}

function rowOf(file, line, said, header) {
    const fields = said.split(header.parted).map(bare);
    if (fields.length !== header.columns) {
        const comma = header.parted === ',' && fields.length > header.columns ? ': a number has a point, not a comma' : '';
        throw file.unread(line, `expected ${header.columns} fields, as in the header; found ${fields.length}${comma}`);
    }
    const at = column => {
        const number = readNumber(fields[column]);
        if (number === null) throw file.unread(line, `expected a number; ${ofNumber(fields[column])}`);
        return number;
    };
    const color = header.hex === undefined ? channelsOf(file, header, at) : hexOf(file, line, fields[header.hex]);
    return { line, position: at(header.position), color };
}

function hexOf(file, line, field) {
    const color = ofHex(field);
    if (!color) throw file.unread(line, `expected '#rrggbb' or '#rrggbbaa'; found ${quoted(field)}`);
    return color;
}

function channelsOf(file, { channels, isBytes }, at) {
    const opaque = isBytes || file.isBytes ? 255 : 1;
    return channels.map(column => (column === undefined ? opaque : at(column)));
}

/** Without spaces and quotes around it. */
function bare(field) {
    const inner = trimmed(field);
    return inner.length > 1 && inner.startsWith('"') && inner.endsWith('"') ? inner.slice(1, -1) : inner;
}
