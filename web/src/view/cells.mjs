// The 36 cells into which the ramp is cut for the work, and which of them the last edit redid.
import { CELLS } from '../sheet.mjs';
import { $, children, make, setText } from './dom.mjs';
import { brief } from './page.mjs';

export function cells(page) {
    page.parts.push(() => {
        const { redone } = page.sheet;
        const all = children($('cells'), CELLS, () => make('span'));
        all.forEach((box, i) => box.classList.toggle('redone', redone[i]));
        setText($('cells-words'), words(page, redone));
    });
}

function words(page, redone) {
    const cells = redone.flatMap((isRedone, i) => (isRedone ? [i] : []));
    if (!cells.length) return 'The ramp is cut into 36 cells. Nothing was edited since it was opened or its settings were changed.';
    const [first, last] = [cells[0], cells.at(-1)];
    const [from, to] = [first, last + 1].map(cell => brief(page.at(cell / CELLS)));
    const which = cells.length === 1 ? `cell ${first}` : `cells ${first} to ${last}`;
    return `Hatched: the last edit redid ${cells.length} of 36 cells, ${which} counted from 0, from ${from} to ${to}. ` +
        'All others were left as they were.';
}
