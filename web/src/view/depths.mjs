// Which depths a reader can tell apart, in words: the ramp's own stops, or depths that the editor names.
import { isClose, isMerged, isMoved } from '../asked.mjs';
import { Fault } from '../fault.mjs';
import { about, short } from '../numbers.mjs';
import { counted } from '../report.mjs';
import { $, children, make, setText } from './dom.mjs';
import { field, showIn } from './field.mjs';
import { Pager } from './pager.mjs';

export function depths(page) {
    const pager = new Pager($('depths-pager'), 'depth', () => page.redraw());
    const isNamed = () => $('depths-named').checked;
    const take = text => page.attempt(() => {
        const named = isNamed() ? parsed(page, text) : null;
        tryOut(page, () => (page.editor.named = named));
    }, { isQuiet: true }) && told(page);
    for (const id of ['depths-own', 'depths-named']) {
        $(id).addEventListener('change', () => {
            $('naming').hidden = !isNamed();
            if (isNamed() && !$('names').value) showIn($('names'), ownLines(page));
            take($('names').value);
        });
    }
    field($('names'), take);
    field($('step'), text => page.attempt(() => {
        const step = page.number(text, 'the step');
        tryOut(page, () => (page.editor.step = step));
    }, { isQuiet: true }) && told(page));
    page.parts.push(() => draw(page, pager));
}

/** Changes what is asked; where the library refuses it, the change is taken back. */
function tryOut(page, change) {
    const { named, step } = page.editor;
    change();
    try {
        page.editor.said();
    } catch (error) {
        Object.assign(page.editor, { named, step });
        throw error;
    }
}

function told(page) {
    page.say($('depths-words').textContent);
    return true;
}

const ownLines = page => Array.from(page.editor.depths, (depth, i) => `${short(depth)} stop ${i}`).slice(0, 100).join('\n');

/** A depth to a line, sorted: pairs are those that follow each other. */
function parsed(page, text) {
    const lines = text.split('\n').map((said, i) => ({ said: said.trim(), line: i + 1 })).filter(({ said }) => said);
    if (!lines.length) throw new Fault('', 0, 'name a depth: a number, a space, and what it is called');
    const all = lines.map(({ said, line }) => {
        const [first, ...name] = said.split(/\s+/);
        return { position: page.number(first, `line ${line} of the depths`), name: name.join(' ') };
    });
    return all.sort((x, y) => x.position - y.position);
}

function draw(page, pager) {
    const { apart } = page.said;
    const { named, step } = page.editor;
    showIn($('step'), short(step));
    setText($('depths-words'), apart ? `${counted(apart)}.` : 'There is no list to hold them against.');
    const own = page.isGimp ? 'edge' : 'stop';
    const nameOf = i => named?.[i].name || (named ? short(named[i].position) : `${own} ${i}`);
    const rows = apart ? pager.indices(apart.positions.length) : [];
    children($('depths-table').tBodies[0], rows.length, () => make('tr', {}, make('th', { scope: 'row' }), make('td'), make('td'), make('td')))
        .forEach((row, i) => {
            const at = rows[i];
            const said = words(apart, at, at ? nameOf(at - 1) : null);
            const texts = [short(apart.positions[at]), nameOf(at), about(apart.distances[at]), said];
            texts.forEach((text, column) => setText(row.cells[column], text));
            row.cells[3].classList.toggle('fault', isMoved(apart, at) || isMerged(apart, at));
        });
}

/** What is said of a depth and the one before it, which the first has not. */
function words(apart, at, before) {
    const said = [];
    if (isMoved(apart, at)) said.push(`Moved: farther off than ${short(apart.threshold)}.`);
    if (isMerged(apart, at)) said.push(`Became one with ${before}: the ramp tells them apart, the list does not.`);
    else if (isClose(apart, at)) said.push(`The ramp itself does not tell it from ${before}.`);
    else if (before !== null) said.push(`Told from ${before}.`);
    return said.join(' ') || 'As the ramp has it.';
}
