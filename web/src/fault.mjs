// What went wrong, in words.
import { call, lend, meanwhile } from './library.mjs';

const MOST_MESSAGE = 512;

/** Of a file, a line of it, or an edit. */
export class Fault extends Error {
    constructor(file, line, words) {
        super(file ? `${file}${line ? `:${line}` : ''}: ${words}` : words.charAt(0).toUpperCase() + words.slice(1));
    }
}

/** A refusal of the library's, with its number and its words. */
export class Refused extends Fault {
    constructor(refusal, { file = '', line = 0, more = '' } = {}) {
        super(file, line, `refused ${refusal}: ${message(refusal)}${more}`);
        this.refusal = refusal;
    }
}

const said = (name, number) => meanwhile(() => {
    const room = lend(Uint8Array, MOST_MESSAGE);
    return new TextDecoder().decode(room.slice(0, Number(call(name, number, room))));
});

/** The library's own words. */
export const message = refusal => said('message_told', refusal);
export const verdictMessage = verdict => said('verdict_message_told', verdict);
