// A ramp with its record and its list, which move together: the library's sheet, opened once and changed by edits only.
import { Refused } from './fault.mjs';
import { call, lend, meanwhile } from './library.mjs';
import { colorAt, hasSegments, MOST_STOPS } from './ramp.mjs';

/** The sorts of edit by their numbers. An edit is { sort, stop, position, color }. */
export const [COLOUR, MOVE, ADD, REMOVE] = [0, 1, 2, 3];
export const CELLS = 36;
const [ROWS, MARKS, MOST_POINTS, MOST_CODES] = [4608, 3, 4609, 512];
const [MISSHAPEN, BAD_EDIT, LIST_REFUSALS] = [1, 6, [7, 8, 9, 21]];
const [PUBLISHED, WITHIN] = [0, 1];
const CLEAR = [0, 0, 0, 0];
// a number that no sampling of a ramp gives
const STRANGE = Math.fround(-7.25e30);

/** Rows, counts and marks; places and colours. */
export const recordRoom = () => [lend(Float32Array, ROWS), lend(Uint8Array, CELLS), lend(Uint32Array, MARKS)];
export const listRoom = () => [lend(Float32Array, MOST_POINTS), lend(Float32Array, 4 * MOST_POINTS)];

const room = () => ({
    positions: lend(Float32Array, MOST_STOPS),
    channels: lend(Float32Array, 4 * MOST_STOPS),
    codes: lend(Uint8Array, MOST_CODES),
    record: recordRoom(),
    list: listRoom(),
    told: lend(BigUint64Array, 3),
});

// Two, so that a ramp that is refused leaves the one that is open as it is.
let rooms = null;
let strange = null;

/** What an edit is lent as. */
const lentEdit = ({ sort, stop, position = 0, color = CLEAR }) => [sort, BigInt(stop), position, ...color];

export class Sheet {
    /** Opens a ramp in the room that the sheet before it does not have. Settings are { threshold, hold, isPublished }. */
    static open(ramp, settings, before = null) {
        rooms ??= [room(), room()];
        strange ??= recordRoom();
        return new Sheet(rooms.find(one => one !== before?.room), ramp, settings);
    }

    constructor(room, { kind, positions, channels, codes }, settings) {
        if (positions.length > room.positions.length) throw new Refused(MISSHAPEN);
        Object.assign(this, { room, kind, settings, redone: Array(CELLS).fill(false) });
        room.positions.set(positions);
        room.channels.set(channels);
        room.codes.set(codes);
        this.stops = hasSegments(kind) ? codes.length / 2 : positions.length;
        this.ask('sheet_open_told');
    }

    /** Asks for the sheet to be opened or edited, and keeps what it answers. Where all of it is refused nothing is changed;
     * where the list alone is, it has no stops, and `listRefusal` says why. */
    ask(name, ...edit) {
        const { positions, channels, record, list, told } = this.room;
        const { threshold, hold, isPublished } = this.settings;
        const sort = isPublished ? PUBLISHED : WITHIN;
        const refusal = call(name, this.kind, positions, channels, this.codes, BigInt(this.stops), ...edit, threshold, sort, hold, ...record, ...list, told);
        if (refusal && !LIST_REFUSALS.includes(refusal)) throw new Refused(refusal);
        this.listRefusal = refusal;
        [this.stops, this.listed] = Array.from(told, Number);
    }

    get codes() {
        return this.room.codes.subarray(0, hasSegments(this.kind) ? 2 * this.stops : 0);
    }

    /** The ramp: views of the library's memory, which the next edit changes. */
    get ramp() {
        const { kind, codes, stops, room: { positions, channels } } = this;
        const [p, c] = hasSegments(kind) ? [3, 8] : [1, 4];
        return { kind, positions: positions.subarray(0, p * stops), channels: channels.subarray(0, c * stops), codes };
    }

    /** As the library's other calls take a ramp. */
    lentRamp() {
        const { kind, positions, channels, codes } = this.ramp;
        return [kind, positions, channels, codes];
    }

    /** The list: views as well. */
    get list() {
        const [places, colours] = this.room.list;
        return { places: places.subarray(0, this.listed), colours: colours.subarray(0, 4 * this.listed) };
    }

    /** Makes an edit, and gives the one that takes it back. Refused edits change nothing. */
    edit(edit) {
        if (!Number.isSafeInteger(edit.stop) || edit.stop < 0) throw new Refused(BAD_EDIT);
        const back = this.inverse(edit);
        const redone = this.cellsRedone(edit);
        this.ask('sheet_edit_told', ...lentEdit(edit));
        this.redone = redone;
        return back;
    }

    inverse({ sort, stop }) {
        const { positions, channels } = this.room;
        return { sort: { [ADD]: REMOVE, [REMOVE]: ADD }[sort] ?? sort, stop, position: positions[stop], color: colorAt(channels, stop) };
    }

    /** What the library answers to an edit of a record of nothing but one strange number: the ramp and its record stay. */
    tried(edit) {
        const [rows, counts, marks] = strange;
        rows.fill(STRANGE);
        counts.set(this.room.record[1]);
        marks.set(this.room.record[2]);
        const { threshold } = this.settings;
        return meanwhile(() => call('edit_told', ...this.lentRamp(), ...lentEdit(edit), threshold, ...strange, lend(BigUint64Array, 1)));
    }

    /** Which sorts of edit the ramp's kind has: those that would leave it as it is are tried. */
    get allowed() {
        const { position, color } = this.inverse({ sort: COLOUR, stop: 0 });
        const edits = [{ sort: COLOUR, stop: 0, color }, { sort: ADD, stop: 1, position, color }];
        return new Set(edits.filter(edit => this.tried(edit) !== BAD_EDIT).map(edit => edit.sort));
    }

    /** Which cells an edit redoes is not worked out a second time: those rows lose the strange number that are redone. */
    cellsRedone(edit) {
        this.tried(edit);
        const [rows] = strange;
        const row = ROWS / CELLS;
        return Array.from({ length: CELLS }, (_, i) => rows.subarray(row * i, row * (i + 1)).some(x => x !== STRANGE));
    }
}
