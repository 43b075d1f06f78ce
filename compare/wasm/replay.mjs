#!/usr/bin/env node
// replay.mjs: the stored answers of the published Rust, the lists that keep their word and the sheets, as ../README.md has their
// form, asked of the library as WebAssembly. It prints what the program `replay` prints of these, and its status is 1 where that is not
// how crates/replay/stdout begins.
import { readFileSync } from 'node:fs';
import { join } from 'node:path';
import { call, CELLS, copy, lend, MARKS, meanwhile, ROOT, ROWS } from './library.mjs';

const FOLDER = join(ROOT, 'crates/replay');
const [RUBBISH, NAN, MOST_SEGMENTS, MOST_COLOURS] = [7.5, 0x7fc00000, 256, 256];
const [SHORT_RECORD, SMALL_ROOM] = [1, 2];
const [FACTOR, PRIME] = [1000003, 4294967291];
const OF_LISTS = [7, 8, 9, 21];

const stored = readFileSync(join(FOLDER, 'stdin'), 'latin1').trimEnd().split('\n').map(word => parseInt(word, 16));
let next = 0;

const word = () => stored[next++];
const words = n => stored.slice(next, (next += n));
const counted = () => words(word());
/** Numbers whose bits are these. */
const floats = bits => new Float32Array(Uint32Array.from(bits).buffer);
const float = () => floats([word()])[0];
const bitsOf = numbers => Array.from(new Uint32Array(Float32Array.from(numbers).buffer), (bits, i) => (Number.isNaN(numbers[i]) ? NAN : bits));

const same = (xs, ys) => xs.length === ys.length && xs.every((x, i) => x === ys[i]);
/** Whether the first items are those that are stored next, after how many they are. */
const startsAs = (numbers, expected = counted()) => same(bitsOf(numbers.slice(0, expected.length)), expected);
const startsAsBytes = (bytes, expected = counted()) => same(Array.from(bytes.slice(0, expected.length)), expected);
const numbersOf = told => Array.from(told, Number);

function ramp() {
    const kind = word();
    const [p, c, k] = words(3);
    return [kind, copy(Float32Array, floats(words(p))), copy(Float32Array, floats(words(c))), copy(Uint8Array, words(k))];
}

function colours() {
    const of = ramp();
    const [refusal, n] = words(2);
    const equal = [call('check', ...of) === refusal];
    const colour = lend(Float32Array, 4);
    for (let i = 0; i < n; i++) {
        const told = call('at_told', ...of, float(), colour);
        equal.push(startsAs(colour, words(4)) && told === refusal);
    }
    return equal;
}

/** A record and outputs as they are lent before a call, with what stands in them. */
function room(sort, rubbish = RUBBISH) {
    return {
        record: [lend(Float32Array, sort === SHORT_RECORD ? 2 : ROWS, rubbish), lend(Uint8Array, CELLS), lend(Uint32Array, MARKS)],
        outputs: [lend(Float32Array, sort === SMALL_ROOM ? 2 : ROWS + 1, RUBBISH), lend(Float32Array, 4 * (ROWS + 1), RUBBISH)],
        told: lend(BigUint64Array, 2),
    };
}

const listed = (refusal, { outputs, told }) =>
    [same([refusal, ...numbersOf(told)], words(3)), ...outputs.map(output => startsAs(output))];

function lists() {
    const [of, threshold, lent] = [ramp(), float(), room(word())];
    return listed(call('flatten_told', ...of, threshold, ...lent.record, ...lent.outputs, lent.told), lent);
}

/** The stored points, counts and words of a record. */
function store([rows, counts, marks]) {
    for (let left = word(); left > 0; left--) rows[word()] = float();
    counts.set(words(CELLS));
    marks.set(words(MARKS));
}

function thinned() {
    const [of, threshold, lent] = [ramp(), float(), room(0, 0)];
    store(lent.record);
    return listed(call('thin_told', ...of, threshold, ...lent.record, ...lent.outputs, lent.told), lent);
}

function refreshed() {
    const [of, threshold, lent] = [ramp(), float(), room(word())];
    const edit = [word(), BigInt(word()), float(), float(), float(), float(), float()];
    call('sample_told', ...of, threshold, ...lent.record, lend(BigUint64Array, 1));
    return listed(call('edit_list_told', ...of, ...edit, threshold, ...lent.record, ...lent.outputs, lent.told), lent);
}

function texts() {
    const text = copy(Uint8Array, counted());
    const outputs = [lend(Float32Array, 3 * MOST_SEGMENTS), lend(Float32Array, 8 * MOST_SEGMENTS), lend(Uint8Array, 2 * MOST_SEGMENTS)];
    const told = lend(BigUint64Array, 2);
    const [positions, channels, codes] = outputs;
    const refusal = call('read_told', text, ...floats(words(8)), ...outputs, told);
    const equal = [same([refusal, ...numbersOf(told)], words(3)), startsAs(positions), startsAs(channels), startsAsBytes(codes)];
    const name = lend(Uint8Array, text.length);
    const length = Number(call('name', text, name));
    const expected = counted();
    return [...equal, length === expected.length, startsAsBytes(name, expected)];
}

function sharp() {
    const of = copy(Float32Array, floats(counted()));
    const outputs = [lend(Float32Array, 2 * MOST_COLOURS), lend(Float32Array, 8 * MOST_COLOURS)];
    const told = lend(BigUint64Array, 1);
    const refusal = call('sharp_told', of, float(), float(), float(), ...outputs, told);
    return [same([refusal, ...numbersOf(told)], words(2)), ...outputs.map(output => startsAs(output))];
}

function within() {
    const [of, threshold, hold, lent] = [ramp(), float(), float(), room(0)];
    return listed(call('flatten_within_told', ...of, threshold, hold, ...lent.record, ...lent.outputs, lent.told), lent);
}

function stale() {
    const [of, lent, threshold, hold] = [ramp(), room(word(), 0), float(), float()];
    store(lent.record);
    return listed(call('thin_within_told', ...of, threshold, hold, ...lent.record, ...lent.outputs, lent.told), lent);
}

/** What slices hold as one word: a polynomial in their bits, modulo a prime. */
function sum(...slices) {
    const items = slice => (slice instanceof Float32Array ? bitsOf(slice) : slice);
    return slices.reduce((before, slice) => items(slice).reduce((sum, bits) => (sum * FACTOR + bits) % PRIME, before), 1);
}

/** A sheet opened, then edited so often as is stored: of each turn the answer, and what the ramp, the record and the list hold. */
function sheets() {
    const [kind, positions, channels, codes] = ramp();
    const [rows, places] = words(2);
    const record = [lend(Float32Array, rows, RUBBISH), lend(Uint8Array, CELLS), lend(Uint32Array, MARKS)];
    const outputs = [lend(Float32Array, places, RUBBISH), lend(Float32Array, 4 * (ROWS + 1), RUBBISH)];
    const told = lend(BigUint64Array, 3);
    const lent = () => [kind, positions, channels, codes, BigInt(word())];
    const turned = refusal => {
        const [which, ...numbers] = words(5);
        const due = refusal === 0 ? 0 : OF_LISTS.includes(refusal) ? 1 : 2;
        const sums = [sum(positions, channels), sum(...record), sum(...outputs)];
        return [which === due && same([refusal, ...numbersOf(told)], numbers), ...words(3).map((word, i) => word === sums[i])];
    };
    const [list, of, threshold] = [[word(), float()], lent(), float()];
    const equal = turned(call('sheet_open_told', ...of, threshold, ...list, ...record, ...outputs, told));
    for (let left = word(); left > 0; left--) {
        const [of, threshold] = [lent(), float()];
        const edit = [word(), BigInt(word()), float(), float(), float(), float(), float()];
        equal.push(...turned(call('sheet_edit_told', ...of, ...edit, threshold, ...list, ...record, ...outputs, told)));
    }
    return equal;
}

/** As many records of one sort as the next word says. */
function replayed(sort) {
    const equal = [];
    for (let left = word(); left > 0; left--) equal.push(...meanwhile(sort));
    return `${sort.name} ${equal.length} equal ${equal.filter(Boolean).length}\n`;
}

const printed = [colours, lists, thinned, refreshed, texts, sharp, within, stale, sheets].map(replayed).join('');
process.stdout.write(printed);
process.exit(readFileSync(join(FOLDER, 'stdout'), 'latin1').startsWith(printed) ? 0 : 1);
