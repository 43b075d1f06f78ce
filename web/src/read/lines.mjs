// What the readers are given: a file's text, the words for what is wrong with it, and what every reader does at the end.
import { Fault, Refused } from '../fault.mjs';
import { channel, short } from '../numbers.mjs';
import { check, ofStops } from '../ramp.mjs';

const [MISSHAPEN, FALLING] = [1, 3];
export const MARK = '\ufeff';

/** The lines of a text, counted from 1, as the tool takes them: they end at LF, and a CR just before it goes too. */
export function lines(text) {
    const isWhole = text.endsWith('\n');
    const parts = (isWhole ? text.slice(0, -1) : text).split('\n');
    return parts.map((part, i) => {
        const hasEnd = i + 1 < parts.length || isWhole;
        return { line: i + 1, said: hasEnd && part.endsWith('\r') ? part.slice(0, -1) : part };
    });
}

export const withoutMark = text => (text.startsWith(MARK) ? text.slice(1) : text);

/** White space is Unicode's, as Rust has it: a byte-order mark is none, though JavaScript takes it for some. */
export const trimmed = said => said.replace(/^\p{White_Space}+|\p{White_Space}+$/gu, '');
/** The fields between white space. */
export const words = said => said.split(/\p{White_Space}+/u).filter(Boolean);

export class File {
    /** `isBytes`: channels run to 255. */
    constructor(name, bytes, isBytes) {
        Object.assign(this, { name, bytes, isBytes });
        this.text = new TextDecoder('utf-8', { ignoreBOM: true }).decode(bytes);
    }

    unread(line, words) {
        return new Fault(this.name, line, words);
    }

    /** A ramp of rows, each { line, position, color }; names the line of the first that is refused. */
    checked(kind, rows) {
        const ramp = ofStops(kind, rows);
        const refusal = check(ramp);
        if (refusal) throw new Refused(refusal, { file: this.name, ...blamed(rows, refusal) });
        return ramp;
    }

    /** Takes channels of 0..255 to 0..1 where that is said, and says it where it may have been meant. */
    scaled(rows, saysBytes) {
        if (!saysBytes && !this.isBytes) return this.tooBright(rows);
        // alpha is often left at 1 where the colours run to 255
        const hasByteAlpha = rows.some(row => row.color[3] > 1);
        for (const row of rows) row.color = row.color.map((x, i) => (i < 3 || hasByteAlpha ? channel(x) : x));
        const hasAlpha = rows.some(row => row.color[3] > 0);
        const isToBeSaid = this.isBytes && !saysBytes && hasAlpha && !hasByteAlpha;
        return isToBeSaid ? [`${this.name}: no alpha is above 1, so alpha is taken as 0..1, the colours as 0..255`] : [];
    }

    tooBright(rows) {
        const isBright = x => x > Math.fround(1.001);
        const row = rows.find(row => row.color.some(isBright));
        if (!row) return [];
        const found = short(row.color.find(isBright));
        const advice = 'if channels run to 255, tick that, and open the file again';
        return [`${this.name}:${row.line}: a channel is ${found}, and counts as 1: ${advice}`];
    }
}

/** What a reader of the refusal may want to know. */
function blamed(rows, refusal) {
    if (refusal === MISSHAPEN) return { more: `; the file has ${rows.length}, and 2 to 2,048 are allowed` };
    if (refusal !== FALLING) return {};
    const i = rows.findIndex((row, i) => i > 0 && row.position < rows[i - 1].position);
    return { line: rows[i].line, more: `; ${short(rows[i].position)} comes after ${short(rows[i - 1].position)}` };
}
