// The chosen stop as a slider, which keys move.
import { hexWithAlpha } from '../color.mjs';
import { short } from '../numbers.mjs';
import { MOVE, REMOVE } from '../sheet.mjs';
import { addAfter } from './chosen.mjs';
import { $, setAttributes } from './dom.mjs';

const STEP = 0.01;
const FACTORS = { ArrowLeft: -1, ArrowDown: -1, ArrowRight: 1, ArrowUp: 1, PageDown: -10, PageUp: 10 };

export function handle(page) {
    $('handle').addEventListener('keydown', event => press(page, event));
    page.parts.push(() => draw(page, $('handle')));
}

function press(page, event) {
    const key = event.key.length === 1 ? event.key.toLowerCase() : event.key;
    const { chosen } = page;
    const actions = {
        n: () => page.chooseAndDraw(chosen + 1),
        p: () => page.chooseAndDraw(chosen - 1),
        Home: () => page.chooseAndDraw(0),
        End: () => page.chooseAndDraw(page.count - 1),
        Delete: () => page.attempt(() => page.editor.edit({ sort: REMOVE, stop: chosen })),
        Insert: () => addAfter(page),
    };
    if (event.ctrlKey || event.metaKey || event.altKey) return;
    if (FACTORS[key]) push(page, FACTORS[key] * (event.shiftKey ? STEP / 10 : STEP));
    else if (actions[key]) actions[key]();
    else return;
    event.preventDefault();
}

/** A stop that is dragged or pushed stays between its neighbours. */
export function between(page, position) {
    const { chosen, count } = page;
    const low = chosen > 0 ? page.stop(chosen - 1).position : -Infinity;
    const high = chosen < count - 1 ? page.stop(chosen + 1).position : Infinity;
    return Math.min(high, Math.max(low, position));
}

/** Moves the chosen stop by a share of the domain; the slider's own words say where it is. */
function push(page, by) {
    const { position } = page.stop(page.chosen);
    const to = between(page, page.at(Math.min(1, Math.max(0, page.share(position) + by))));
    if (to === position && page.chosen > 0 && page.chosen < page.count - 1) {
        page.say(`Stop ${page.chosen} stands where its neighbour does.`);
        return;
    }
    page.attempt(() => page.editor.edit({ sort: MOVE, stop: page.chosen, position: to }), { isQuiet: true });
}

function draw(page, slider) {
    const { position, color } = page.stop(page.chosen);
    const [min, max] = page.ends;
    slider.style.left = `${100 * page.share(position)}%`;
    setAttributes(slider, {
        'aria-valuemin': min,
        'aria-valuemax': max,
        'aria-valuenow': position,
        'aria-valuetext': `${short(position)}, stop ${page.chosen} of ${page.count}, ${hexWithAlpha(color)}`,
    });
}
