#!/usr/bin/env node
// tool.mjs [FILE ..]: the library as WebAssembly beside the tool, on inputs of the tool; examples/*.tsv where none is named.
// Of each file three texts are compared, byte for byte: what ./flatten prints; what colorgrad_desk answers; and, where the
// input is read, the same text put together here of tokens, a sampling, an edit and a list.
import { spawnSync } from 'node:child_process';
import { readdirSync, readFileSync } from 'node:fs';
import { join } from 'node:path';
import { call, CELLS, copy, lend, MARKS, meanwhile, ROOT, ROWS } from './library.mjs';

const [ROOM, MOST_PRINTED, THRESHOLD] = [1000, 50029, 0.007];

function desk(input) {
    const out = lend(Uint8Array, MOST_PRINTED);
    return Buffer.from(out.subarray(0, Number(call('desk', copy(Uint8Array, input), out)))).toString();
}

function number(text) {
    const value = lend(Float32Array, 1);
    if (call('token_told', copy(Uint8Array, Buffer.from(text)), value) !== 1) throw new Error(`no number: ${text}`);
    return value[0];
}

/** The ramp, the threshold and the edit of an input that can be read. */
function entries(input) {
    const lines = input.toString().trimEnd().split('\n').map(line => line.split('\t'));
    const of = word => lines.filter(([first]) => first === word).map(([, ...fields]) => fields);
    const stops = of('stop').map(fields => fields.map(number));
    const ramp = [
        ['linear', 'smoothstep'].indexOf(of('kind')[0][0]),
        copy(Float32Array, stops.map(([position]) => position)),
        copy(Float32Array, stops.flatMap(([, ...colour]) => colour)),
        lend(Uint8Array, 0),
    ];
    return { ramp, threshold: of('threshold').length ? number(of('threshold')[0][0]) : THRESHOLD, edit: of('edit')[0] };
}

/** The refusal, the stops and the evaluations, put into the three slices. */
function listed({ ramp, threshold, edit }, places, colours, told) {
    const record = [lend(Float32Array, ROWS), lend(Uint8Array, CELLS), lend(Uint32Array, MARKS)];
    if (!edit) return call('flatten_told', ...ramp, threshold, ...record, places, colours, told);
    const [stop, ...colour] = edit;
    const sampled = lend(BigUint64Array, 1);
    const sort = 0, position = 0;
    const refusal = call('sample_told', ...ramp, threshold, ...record, sampled) ||
        call('edit_list_told', ...ramp, sort, BigInt(stop), position, ...colour.map(number), threshold, ...record, places, colours, told);
    told[1] += refusal ? 0n : sampled[0];
    return refusal;
}

function bits(x) {
    const view = new DataView(new ArrayBuffer(4));
    view.setFloat32(0, x);
    return view.getUint32(0).toString(16).padStart(8, '0');
}

function putTogether(input) {
    const [places, colours, told] = [lend(Float32Array, ROOM), lend(Float32Array, 4 * ROOM), lend(BigUint64Array, 2)];
    const refusal = listed(entries(input), places, colours, told);
    if (refusal) return `refused\t${refusal}\n`;
    const stops = Array.from(places.subarray(0, Number(told[0])), (place, i) => [place, ...colours.subarray(4 * i, 4 * i + 4)]);
    return `stops\t${told[0]}\tevaluations\t${told[1]}\n` + stops.map(stop => `stop\t${stop.map(bits).join('\t')}\n`).join('');
}

function differs(file) {
    const input = readFileSync(file);
    // what is refused or unread ends with a status of its own
    const printed = spawnSync(join(ROOT, 'flatten'), [file], { encoding: 'utf8' }).stdout;
    const answers = printed.startsWith('unread') ? [desk] : [desk, putTogether];
    const texts = answers.map(answer => [answer.name, meanwhile(() => answer(input))]);
    const wrong = texts.filter(([, text]) => text !== printed);
    for (const [name, text] of wrong) console.log(`${file}: ${name}\n${text}./flatten\n${printed}`);
    return wrong.length > 0;
}

const examples = join(ROOT, 'examples');
const named = process.argv.slice(2);
const files = named.length ? named : readdirSync(examples).filter(name => name.endsWith('.tsv')).map(name => join(examples, name));
const wrong = files.filter(differs).length;
console.log(`${files.length} inputs, ${wrong} differences`);
process.exit(wrong ? 1 : 0);
