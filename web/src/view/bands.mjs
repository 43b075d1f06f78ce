// The ramp above its list, with a mark at each stop. A band is one row of pixels, which the browser makes as high as it is.
import { byte, plural } from '../numbers.mjs';
import { counted, KINDS } from '../ramp.mjs';
import { $, children, make, setAttributes, setText } from './dom.mjs';
import { brief } from './page.mjs';

const MOST_COLUMNS = 2000;
/** From so many stops on a mark is a line, and its number is left out. */
const [MOST_MARKS, LEAST_GAP, MARK] = [96, 22, 7];
/** Marks stand out at the ends by this much. */
const OUT = 12;
/** Pixels of a line that stands for a stop. */
const TICK = 10;

export function bands(page) {
    let ink = inkOf();
    matchMedia('(prefers-color-scheme: dark)').addEventListener('change', () => {
        ink = inkOf();
        page.redraw();
    });
    new ResizeObserver(() => {
        page.measure();
        if (page.sheet) page.redraw();
    }).observe($('drawn'));
    page.measure();
    page.parts.push(() => {
        const columns = Math.max(1, Math.min(MOST_COLUMNS, Math.round(page.width * devicePixelRatio)));
        const middles = new Float32Array(columns);
        for (let i = 0; i < columns; i++) middles[i] = page.at((i + 0.5) / columns);
        const [shown, listed] = page.colours(middles);
        fill($('ramp-band'), shown.map(byte), columns);
        fill($('list-band'), listed ? listed.map(byte) : new Float32Array(4 * columns), columns);
        fill($('list-ticks'), ticks(page, page.sheet.list.places, columns, ink), columns);
        drawMarks(page, $('ticks'), ink);
        label(page);
    });
}

const inkOf = () => getComputedStyle(document.documentElement).getPropertyValue('--ink');

/** A row of pixels, by their bytes. */
function fill(canvas, bytes, width) {
    if (canvas.width !== width) Object.assign(canvas, { width, height: 1 });
    const context = canvas.getContext('2d');
    const image = context.createImageData(width, 1);
    image.data.set(bytes);
    context.putImageData(image, 0, 0);
}

/** A pixel in ink for each position, as bytes. */
function ticks(page, positions, width, ink) {
    const color = [...ink.match(/[0-9a-f]{2}/g).map(digits => parseInt(digits, 16)), 255];
    const bytes = new Uint8Array(4 * width);
    for (const position of positions) bytes.set(color, 4 * Math.min(width - 1, Math.round(page.share(position) * width)));
    return bytes;
}

/** A mark for each stop: pointed, or of many stops a line. */
function drawMarks(page, canvas, ink) {
    const [width, height] = [page.width + 2 * OUT, page.trackHeight];
    const pixels = [width, height].map(length => Math.max(1, Math.round(length * devicePixelRatio)));
    // a new size takes new memory, so it is not set where it stays
    if (canvas.width !== pixels[0] || canvas.height !== pixels[1]) [canvas.width, canvas.height] = pixels;
    const context = canvas.getContext('2d');
    context.resetTransform();
    context.clearRect(0, 0, ...pixels);
    context.scale(pixels[0] / width, pixels[1] / height);
    context.translate(OUT, 0);
    Object.assign(context, { strokeStyle: ink, fillStyle: ink, lineWidth: 1.5, font: '600 11px system-ui, sans-serif', textAlign: 'center' });
    if (page.count > MOST_MARKS) drawLines(page, context, height);
    else drawPoints(page, context, page.width, height, ink);
}

/** A line for each stop, one for those that fall on the same pixel. */
function drawLines(page, context, bottom) {
    const columns = new Set();
    for (const position of page.sheet.ramp.positions) columns.add(Math.round(page.share(position) * page.width));
    for (const x of columns) context.fillRect(x - 0.5, bottom - TICK, 1, TICK);
}

/** In its colour, with its number where there is room. */
function drawPoints(page, context, width, height, ink) {
    let last = -LEAST_GAP;
    for (let i = 0; i < page.count; i++) {
        const { position, color } = page.stop(i);
        const x = page.share(position) * width;
        context.beginPath();
        context.moveTo(x, height);
        context.lineTo(x - MARK, height - MARK);
        context.lineTo(x - MARK, height - 20);
        context.lineTo(x + MARK, height - 20);
        context.lineTo(x + MARK, height - MARK);
        context.closePath();
        context.fillStyle = `rgb(${color.slice(0, 3).map(byte).join(' ')})`;
        context.fill();
        context.stroke();
        if (x - last < LEAST_GAP) continue;
        context.fillStyle = ink;
        context.fillText(i, x, 12);
        last = x;
    }
}

function label(page) {
    const { ramp, listRefusal, listed } = page.sheet;
    const count = listRefusal ? 'refused' : plural(listed, 'stop');
    setText($('said'), page.said.line);
    setText($('ramp-label'), `Ramp: ${KINDS[ramp.kind]}, ${counted(ramp)}`);
    setText($('list-label'), `List: ${count}`);
    const [min, max] = page.ends.map(brief);
    const words = `The ramp, ${KINDS[ramp.kind]}, ${counted(ramp)}, from ${min} to ${max}. The table of stops has its colours.`;
    setAttributes($('ramp-band'), { 'aria-label': words });
    setAttributes($('list-band'), { 'aria-label': `Its list, ${count}.` });
    const marks = children($('axis'), 5, () => make('span'));
    marks.forEach((mark, i) => setText(mark, brief(page.at(i / 4))));
}
