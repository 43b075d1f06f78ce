// GMT colour tables: slices of two values with a colour each, RGB from 0 to 255, with slashes or spaces, or a name of those
// that GMT's own tables use.
import { read as readNumber, short } from '../numbers.mjs';
import { LINEAR } from '../ramp.mjs';
import { lines, trimmed, withoutMark, words } from './lines.mjs';
import { ofNumber, quoted } from './stumble.mjs';

const EXPECTED = "expected 'z r g b z r g b' or 'z r/g/b z r/g/b'";

/** X11's, of which green is the full one and gray is 190. */
const NAMES = {
    black: [0, 0, 0], white: [255, 255, 255], red: [255, 0, 0], green: [0, 255, 0], blue: [0, 0, 255], cyan: [0, 255, 255],
    magenta: [255, 0, 255], yellow: [255, 255, 0], gray: [190, 190, 190], bisque2: [238, 213, 183], burlywood: [222, 184, 135],
    darkorange1: [255, 127, 0], darkorange3: [205, 102, 0], ivory2: [238, 238, 224], mediumaquamarine: [102, 205, 170],
    mediumseagreen: [60, 179, 113], saddlebrown: [139, 69, 19], snow: [255, 250, 250],
};

export function readCpt(file) {
    const rows = [];
    for (const { line, said } of lines(withoutMark(file.text))) {
        // what comes after ; is a label
        const [before] = said.split(';');
        if (before.startsWith('#')) {
            checkModel(file, line, before.slice(1));
            continue;
        }
        const fields = words(before);
        if (fields.length && !['B', 'F', 'N'].includes(fields[0])) add(file, rows, line, slice(file, line, fields));
    }
    if (!rows.length) throw file.unread(0, `${EXPECTED}; the table has no slice`);
    file.scaled(rows, true);
    return { ramp: file.checked(LINEAR, rows), notes: [] };
}

/** A line `# COLOR_MODEL = ..` says which numbers the colours are. */
function checkModel(file, line, comment) {
    const at = comment.indexOf('=');
    const value = trimmed(comment.slice(at + 1)).replace(/^\++/, '');
    if (at >= 0 && trimmed(comment.slice(0, at)) === 'COLOR_MODEL' && value.toLowerCase() !== 'rgb') {
        throw file.unread(line, `expected colours of the model RGB; found ${quoted(value)}`);
    }
}

/** Its two ends. */
function slice(file, line, all) {
    // a last field L, U or B says which end is labelled
    const fields = ['L', 'U', 'B'].includes(all.at(-1)) ? all.slice(0, -1) : all;
    if (fields.length === 8) return [fields.slice(0, 4), fields.slice(4)].map(half => end(file, line, half));
    if (fields.length === 4) return [slashed(...fields.slice(0, 2)), slashed(...fields.slice(2))].map(half => end(file, line, half));
    throw file.unread(line, `${EXPECTED}; ${odd(fields)}`);
}

function odd(fields) {
    const field = fields.find(field => readNumber(field) === null && !field.includes('/'));
    if (field !== undefined) return `found ${quoted(field)}`;
    if (fields.length === 5) return "found 5 numbers: a stop of the tool's text has 'stop' before it, and CSV has a header";
    return `found ${fields.length} fields`;
}

/** A value and its colour in one field. */
const slashed = (value, color) => [value, ...(named(color)?.map(String) ?? color.split('/'))];

/** A colour by its name; gray0 to gray100 are hundredths. */
function named(name) {
    const [, hundredths] = /^gray\+?(\d+)$/.exec(name) ?? [];
    // so X11 rounds: gray50 is 127, gray10 is 26
    if (hundredths !== undefined && Number(hundredths) <= 100) return Array(3).fill(Math.floor(Number(hundredths) * 2.55 + 0.5));
    return Object.hasOwn(NAMES, name) ? NAMES[name] : undefined;
}

function end(file, line, half) {
    if (half.length !== 4) {
        const found = half.slice(1).join('/');
        const names = /\p{Alphabetic}/u.test(found) ? ', and no such name of a colour is known' : '';
        throw file.unread(line, `${EXPECTED}; found ${quoted(found)}${names}`);
    }
    const [position, ...rgb] = half.map(field => {
        const number = readNumber(field);
        if (number === null) throw file.unread(line, `${EXPECTED}; ${ofNumber(field)}`);
        return number;
    });
    const wrong = rgb.find(channel => !(channel >= 0 && channel <= 255));
    if (wrong !== undefined) throw file.unread(line, `expected channels from 0 to 255; found ${short(wrong)}`);
    return { position, color: [...rgb, 255] };
}

/** A slice starts where the one before it ends. Where it starts in another colour, the value comes twice. */
function add(file, rows, line, [from, to]) {
    const before = rows.at(-1);
    if (before && before.position !== from.position) {
        const ends = `expected a slice from ${short(before.position)} on, where the one before it ends`;
        throw file.unread(line, `${ends}; found ${short(from.position)}`);
    }
    if (!before || before.color.some((x, i) => x !== from.color[i])) rows.push({ line, ...from });
    rows.push({ line, ...to });
}
