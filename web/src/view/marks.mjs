// What `apart` finds, below the bands: a mark with the numbers of the stops or the names of the depths, hatched once where they moved and crosswise
// where they became one. The same stands in words in the table of depths.
import { depthsThat, isMerged, isMoved } from '../asked.mjs';
import { $, makeSvg } from './dom.mjs';
import { brief } from './page.mjs';

const [MARK, GAP, NEAR, LETTER] = [18, 4, 44, 8];

/** Patterns, so that nothing is told by colour alone. */
function pattern(id, d) {
    const attributes = { id, class: 'hatch', width: 6, height: 6, patternUnits: 'userSpaceOnUse', patternTransform: 'rotate(45)' };
    return makeSvg('pattern', attributes, makeSvg('rect', { width: 6, height: 6 }), makeSvg('path', { d }));
}

export function marks(page) {
    const svg = $('marks');
    const drawn = makeSvg('g');
    svg.append(makeSvg('defs', {}, pattern('moved', 'M0 0V6'), pattern('merged', 'M0 0V6M0 0H6')), drawn);
    page.parts.push(() => {
        const { width, said: { apart } } = page;
        const rows = apart ? [['moved', runs(page, apart, isMoved, 0)], ['merged', runs(page, apart, isMerged, 1)]] : [];
        const all = rows.flatMap(([name, found], row) => {
            const y = GAP + row * (MARK + 2);
            return found.flatMap(run => mark(label(page, name, run), name, run, y, width));
        });
        drawn.replaceChildren(...(all.length ? all : [makeSvg('text', { class: 'none', x: 0, y: MARK + GAP }, 'None moved, none merged.')]));
        svg.setAttribute('viewBox', `0 0 ${width} ${2 * MARK + 8}`);
    });
}

/** Faults in runs; one stands from so many depths before to its own, and those that stand near each other are one. */
function runs(page, apart, holds, before) {
    const found = [];
    for (const last of depthsThat(holds, apart)) {
        const first = last - before;
        const [from, to] = [first, last].map(i => page.share(apart.positions[i]) * page.width);
        const run = found.at(-1);
        if (run && from - run.to < NEAR) Object.assign(run, { last, to });
        else found.push({ first, last, from, to });
    }
    return found;
}

function label(page, name, { first, last }) {
    // the ends of GIMP segments are counted otherwise than depths
    const called = i => page.editor.named?.[i].name || (page.isGimp ? brief(page.editor.depths[i]) : i);
    return `${name} ${called(first)}${first === last ? '' : `–${called(last)}`}`;
}

function mark(label, name, { from, to }, y, whole) {
    const words = LETTER * label.length + 6;
    const width = Math.min(whole, Math.max(to - from + 12, words + 16));
    const middle = Math.min(Math.max((from + to) / 2, width / 2), whole - width / 2);
    const text = makeSvg('text', { x: middle, y: y + 13, 'text-anchor': 'middle' }, label);
    return [
        makeSvg('rect', { class: 'mark', x: middle - width / 2, y, width, height: MARK, fill: `url(#${name})` }),
        makeSvg('rect', { class: 'words', x: middle - words / 2, y: y + 2, width: words, height: MARK - 4 }),
        text,
    ];
}
