// The tool's text: `kind`, perhaps `threshold`, `stop` after `stop`, perhaps `edit`, with tabs between.
import { COLOUR } from '../sheet.mjs';
import { read as readNumber } from '../numbers.mjs';
import { GIMP, KINDS } from '../ramp.mjs';
import { lines } from './lines.mjs';
import { ofLine } from './stumble.mjs';

const NAMES = KINDS.slice(0, GIMP);
const KIND = { words: `'kind', a tab and one of ${NAMES.join(', ')}`, first: 'kind', numbers: 0 };
const STOP = { words: "'stop' and 5 numbers parted by tabs", first: 'stop', numbers: 5 };
const EDIT = { words: "'edit', the stop's number and 4 numbers parted by tabs", first: 'edit', numbers: 5 };
const THRESHOLD = { words: "'threshold', a tab and a number", first: 'threshold', numbers: 1 };

export function readText(file) {
    let kind, threshold, edit;
    const rows = [];
    for (const { line, said } of lines(file.text)) {
        const first = said.split('\t')[0];
        if (kind === undefined) kind = kindOf(file, line, said);
        else if (edit) throw file.unread(line, "expected nothing after 'edit'");
        else if (first === 'threshold' && !rows.length && threshold === undefined) {
            [threshold] = numbers(file, line, said, THRESHOLD);
        } else if (first === 'edit' && rows.length) edit = editOf(file, line, said);
        else {
            const [position, ...color] = numbers(file, line, said, STOP);
            rows.push({ line, position, color });
        }
    }
    const notes = file.scaled(rows, false);
    // the tool reads the file itself where channels are not bytes
    return { ramp: file.checked(kind, rows), threshold, edit, notes, text: file.isBytes ? null : file.bytes };
}

function kindOf(file, line, said) {
    const kind = NAMES.findIndex(name => said === `kind\t${name}`);
    if (kind < 0) throw ofLine(file, line, said, KIND);
    return kind;
}

function numbers(file, line, said, expected) {
    const [first, ...fields] = said.split('\t');
    const read = fields.map(readNumber);
    const isFine = first === expected.first && read.length === expected.numbers && !read.includes(null);
    if (!isFine) throw ofLine(file, line, said, expected);
    return read;
}

function editOf(file, line, said) {
    const [, ...color] = numbers(file, line, said, EDIT);
    const stop = said.split('\t')[1];
    if (!/^\d{1,18}$/.test(stop)) throw ofLine(file, line, said, EDIT);
    const rows = [{ line, position: 0, color }];
    file.scaled(rows, false);
    return { sort: COLOUR, stop: Number(stop), color: rows[0].color, line };
}
