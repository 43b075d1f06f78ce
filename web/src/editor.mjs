// What an editor works on: a sheet with its name and settings, what was done to it, and the depths to be told apart. Nothing
// here knows of the page. Every change goes through `edit` or `reopen`; where one is refused it throws, and all stays as it was.
import { apart, firstFrom, judged, painted, TOO_FAR, YES } from './asked.mjs';
import { message, Refused, verdictMessage } from './fault.mjs';
import { History } from './history.mjs';
import { plural, short } from './numbers.mjs';
import { asList, counted, depthsOf, LINEAR, ofStops, stopsOf } from './ramp.mjs';
import { plainName } from './read/read.mjs';
import { line } from './report.mjs';
import { ADD, COLOUR, MOVE, REMOVE, Sheet } from './sheet.mjs';

/** plume's, where nothing is named. */
const DEFAULTS = { threshold: Math.fround(0.007), hold: Math.fround(0.001), isPublished: false };
const STEP = Math.fround(0.02);
const [BLACK, WHITE] = [[0, 0, 0, 1], [1, 1, 1, 1]];
const [FALLING, BAD_EDIT] = [3, 6];

/** The edit of a file; where it is refused, its line is told. */
function editOfFile(sheet, file, edit) {
    try {
        sheet.edit(edit);
    } catch (error) {
        throw error instanceof Refused ? new Refused(error.refusal, { file, line: edit.line }) : error;
    }
}

export class Editor {
    history = new History();
    step = STEP;
    /** Depths of the editor's own, each { position, name }; null where the ramp's own positions serve. */
    named = null;
    /** What was done last, in words. */
    words = '';

    /** A new ramp: black to white. */
    static fresh() {
        const stops = [{ position: 0, color: BLACK }, { position: 1, color: WHITE }];
        return { name: 'ramp', ramp: ofStops(LINEAR, stops), notes: [] };
    }

    /** Opens what a file gave, the file's own edit made. */
    open({ file, name, ramp, threshold = DEFAULTS.threshold, edit, text = null }) {
        const settings = { ...DEFAULTS, ...this.sheet?.settings, threshold };
        this.reopen({ file, name, ramp, settings, text, edit }, `${name} opened`);
    }

    /** All that is needed to come back here: numbers are copied, since the sheet's change. */
    get snapshot() {
        if (!this.sheet) return null;
        const { kind, positions, channels, codes } = this.sheet.ramp;
        const ramp = { kind, positions: positions.slice(), channels: channels.slice(), codes: codes.slice() };
        return { name: this.name, ramp, settings: this.sheet.settings, text: this.text };
    }

    /** Opens a ramp or other settings, as one step. */
    reopen(forth, words) {
        const back = this.snapshot;
        this.show(forth);
        if (back) this.history.add({ words, back, forth });
        this.words = words;
    }

    show({ file, name, ramp, settings, text, edit }) {
        const sheet = Sheet.open(ramp, settings, this.sheet);
        if (edit) editOfFile(sheet, file, edit);
        Object.assign(this, { name, text, sheet });
    }

    /** Another name, kind, threshold, hold or sort of list, of the ramp as it is. */
    set(changes, words) {
        const now = this.snapshot;
        const { kind = now.ramp.kind, name = now.name, ...settings } = changes;
        // the tool would read another ramp or threshold in the file
        const text = kind === now.ramp.kind && !('threshold' in changes) ? now.text : null;
        this.reopen({ ...now, name: plainName(name), ramp: { ...now.ramp, kind }, settings: { ...now.settings, ...settings }, text }, words);
    }

    /** One edit. Those with the same key, such as the steps of a drag, are taken back as one. */
    edit(edit, key = '') {
        const words = this.describe(edit);
        const back = this.tried(edit);
        this.text = null;
        this.history.add({ words, back, forth: edit, key });
        this.words = words;
    }

    /** The edit that takes it back; where it is refused, what helps is said too. */
    tried(edit) {
        try {
            return this.sheet.edit(edit);
        } catch (error) {
            throw error instanceof Refused ? new Refused(error.refusal, { more: this.advice(edit, error.refusal) }) : error;
        }
    }

    advice({ sort, stop }, refusal) {
        const { positions } = this.sheet.ramp;
        const isEnd = stop === 0 || stop === positions.length - 1;
        if (refusal === BAD_EDIT && isEnd && (sort === MOVE || sort === REMOVE)) return '; the first stop and the last hold the ends of the ramp';
        if (refusal !== FALLING) return '';
        const [low, high] = [positions[stop - 1], positions[sort === ADD ? stop : stop + 1]];
        return `; here that is from ${short(low)} to ${short(high)}`;
    }

    describe({ sort, stop, position }) {
        if (sort === COLOUR) return `colour of stop ${stop}`;
        if (sort === MOVE) return `stop ${stop} moved to ${short(position)}`;
        if (sort === ADD) return `stop ${stop} added at ${short(position)}`;
        return `stop ${stop} removed`;
    }

    /** A stop more where none is named otherwise: after those that stand before it or where it stands, in the ramp's colour. */
    addition(position, color) {
        const { positions } = this.sheet.ramp;
        const first = firstFrom(positions, position);
        const after = positions.subarray(first).findIndex(p => p > position);
        const stop = after < 0 ? positions.length : first + after;
        return { sort: ADD, stop, position, color: color ?? Array.from(painted(this.sheet, [position])) };
    }

    undo() {
        const step = this.history.before;
        if (!step) return false;
        this.take(step.back);
        this.history.stepBack();
        this.words = `undone: ${step.words}`;
        return true;
    }

    redo() {
        const step = this.history.after;
        if (!step) return false;
        this.take(step.forth);
        this.history.stepForth();
        this.words = `done again: ${step.words}`;
        return true;
    }

    take(change) {
        if (change.ramp) {
            this.show(change);
            return;
        }
        this.sheet.edit(change);
        this.text = null;
    }

    /** Turns a ramp that has no edits into one that has: its own stops where it is mixed linearly, else those of its list. */
    makeLinear() {
        const stops = asList(this.sheet.ramp) ?? this.listStops();
        this.reopen({ ...this.snapshot, ramp: ofStops(LINEAR, stops), text: null }, `taken as a linear ramp of ${plural(stops.length, 'stop')}`);
    }

    listStops() {
        const { places, colours } = this.sheet.list;
        return stopsOf(places, colours);
    }

    get depths() {
        return this.named ? Float32Array.from(this.named, depth => depth.position) : depthsOf(this.sheet.ramp);
    }

    /** What is said of the list: the line that plume says, what `apart` says at the depths, and why the judge says no; of a list
     * that is refused, why. */
    said() {
        const { sheet } = this;
        if (sheet.listRefusal) {
            const words = `The list is refused, ${sheet.listRefusal}: ${message(sheet.listRefusal)}. The ramp stands as it is shown.`;
            return { line: words, apart: null, isYes: false, why: '' };
        }
        const { verdict, t } = judged(sheet);
        const isYes = verdict === YES;
        const why = isYes ? '' : verdictMessage(verdict) + (verdict === TOO_FAR ? `, at ${short(t)}` : '');
        const own = apart(sheet, this.step, depthsOf(sheet.ramp));
        return {
            line: line(counted(sheet.ramp), sheet.listed, own, isYes),
            apart: this.named ? apart(sheet, this.step, this.depths) : own,
            isYes,
            why,
        };
    }
}
