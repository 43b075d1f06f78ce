// What every part of the page shares: the editor, which stop is chosen, and how a change is tried, told and drawn.
import { mixed, painted } from '../asked.mjs';
import { Editor } from '../editor.mjs';
import { Fault } from '../fault.mjs';
import { read, short } from '../numbers.mjs';
import { colorAt, hasSegments } from '../ramp.mjs';
import { merged } from '../report.mjs';
import { $, setText } from './dom.mjs';

export class Page {
    editor = new Editor();
    chosen = 0;
    isInverted = false;
    /** Lengths of the picture in pixels: asked for when they change, since each asking makes the browser lay out the page. */
    width = 0;
    trackHeight = 0;
    /** The last step that a file has. */
    kept = undefined;
    /** Drawn one after the other at each change. */
    parts = [];
    #ends = null;

    get sheet() {
        return this.editor.sheet;
    }

    get isGimp() {
        return hasSegments(this.sheet.kind);
    }

    /** How many stops can be chosen: those of a GIMP ramp are the ends of its segments, which are looked at only. */
    get count() {
        const { channels } = this.sheet.ramp;
        return channels.length / 4;
    }

    /** Position and colour of a stop. */
    stop(i) {
        const { positions, channels } = this.sheet.ramp;
        const position = this.isGimp ? positions[3 * (i >> 1) + 2 * (i & 1)] : positions[i];
        return { position, color: colorAt(channels, i) };
    }

    /** Min and max, looked up once for each drawing: thousands of points ask for them. */
    get ends() {
        if (this.#ends) return this.#ends;
        const { positions } = this.sheet.ramp;
        return (this.#ends = [positions[0], positions[positions.length - 1]]);
    }

    /** Where a position stands, 0 to 1. */
    share(position) {
        const [min, max] = this.ends;
        return max > min ? Math.min(1, Math.max(0, (position - min) / (max - min))) : 0;
    }

    /** The position at a share of the width. */
    at(share) {
        const [min, max] = this.ends;
        return Math.fround(min * (1 - share) + max * share);
    }

    /** Tries a change. Where it is refused, that is said, and all stays as it was. A quiet one, such as a step of a drag, is told
     * only where depths become one by it, or are told apart again. */
    attempt(act, { isQuiet = false } = {}) {
        const before = this.said && this.faults();
        try {
            act();
        } catch (error) {
            if (!(error instanceof Fault)) throw error;
            this.refuse(error.message);
            return false;
        }
        setText($('alert'), '');
        this.redraw();
        if (!isQuiet) this.tell();
        else if (this.faults() !== before) this.say(this.faults() || 'All depths are told apart again.');
        return true;
    }

    /** A number that somebody typed, taken as the library reads it. */
    number(text, what) {
        const number = read(text.trim());
        if (number !== null) return number;
        const comma = text.includes(',') ? ', with a point, not a comma' : '';
        throw new Fault('', 0, `${what} wants a number${comma}; found '${text}'`);
    }

    /** What is wrong with the list, or nothing. */
    faults() {
        const { isYes, why, apart, line } = this.said;
        return apart ? [merged(apart), isYes ? '' : `Judged: no: ${why}`].filter(Boolean).map(words => `${words}.`).join(' ') : line;
    }

    /** Says what was done and what came of it. */
    tell() {
        const { words } = this.editor;
        const list = this.sheet.listRefusal ? '' : ` List of ${this.sheet.listed} stops.`;
        this.say(`${words.charAt(0).toUpperCase()}${words.slice(1)}.${list} ${this.faults()}`.trim());
    }

    say(words) {
        setText($('status'), words);
    }

    refuse(words) {
        // the same words twice are news twice
        $('alert').textContent = '';
        setText($('alert'), words);
        setText($('status'), '');
    }

    choose(stop) {
        this.chosen = Math.min(Math.max(stop, 0), this.count - 1);
    }

    chooseAndDraw(stop) {
        this.choose(stop);
        this.redraw();
    }

    /** Ramp and list at many points, four channels each; the list's are null where it is refused. */
    colours(ts) {
        return [painted(this.sheet, ts), this.sheet.listRefusal ? null : mixed(this.sheet.list, ts)];
    }

    /** What is said of the list. Depths that somebody named need not lie on the ramp that an undoing brings back. */
    asked() {
        try {
            return this.editor.said();
        } catch (error) {
            if (!(error instanceof Fault && this.editor.named)) throw error;
            this.forgetDepths();
            return this.editor.said();
        }
    }

    /** From now on the ramp's own stops are the depths. */
    forgetDepths() {
        this.editor.named = null;
        $('depths-own').checked = true;
        $('naming').hidden = true;
    }

    measure() {
        this.width = $('drawn').clientWidth;
        this.trackHeight = $('track').clientHeight;
    }

    redraw() {
        this.#ends = null;
        this.choose(this.chosen);
        this.said = this.asked();
        for (const draw of this.parts) draw();
    }
}

/** '0.25', cut where a number has many digits: for places where there is little room. */
export const brief = x => short(Number(x.toPrecision(4)));
