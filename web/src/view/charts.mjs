// Lines over the domain, ramp and list over each other: the height of swell paper, each channel, and how far off the list is.
import { distanceAt, height } from '../color.mjs';
import { about, short } from '../numbers.mjs';
import { colorAt, depthsOf } from '../ramp.mjs';
import { $, make, makeSvg, setAttributes, setText } from './dom.mjs';
import { gapWords, profileWords } from './profile.mjs';

const [WIDTH, HEIGHT, GRID] = [1000, 100, 400];
/** Of more stops the grid shows as much as there are pixels. */
const MOST_ADDED = 128;
/** How many thresholds high the line of what is off is drawn: a hard edge that lies one f32 aside is cut. */
const MOST_OFF = 8;

/** Points of a chart's width: a grid, and the stops with what lies just beside them. */
function points(page) {
    const grid = Array.from({ length: GRID + 1 }, (_, i) => page.at(i / GRID));
    const own = [...depthsOf(page.sheet.ramp)];
    const stops = own.length + page.sheet.listed > MOST_ADDED ? [] : [...own, ...page.sheet.list.places];
    const [min, max] = page.ends;
    const beside = (max - min) * 1e-4;
    const added = stops.flatMap(t => [t - beside, t, t + beside].map(x => Math.fround(Math.min(max, Math.max(min, x)))));
    return Float32Array.from(new Set([...grid, ...added])).sort();
}

export function charts(page) {
    const parts = {
        height: chart('height', 'Height'),
        channels: ['Red', 'Green', 'Blue', 'Alpha'].map((name, i) => chart(i, name)),
        off: chart('off', 'How far off the list is'),
    };
    watch(page, [parts.height, ...parts.channels, parts.off]);
    $('invert').addEventListener('change', event => {
        page.isInverted = event.target.checked;
        page.redraw();
        page.say(page.isInverted ? 'Inverted: the light rises.' : 'The dark rises.');
    });
    page.parts.push(() => {
        const ts = points(page);
        const colours = page.colours(ts);
        drawHeight(page, parts.height, ts, colours);
        parts.channels.forEach((part, k) => drawChannel(page, part, ts, colours, k));
        drawOff(page, parts.off, ts, colours);
    });
}

function chart(id, name) {
    const lines = { rule: 'rule', ramp: 'ramp-line', list: 'list-line', reader: 'reader-mark' };
    const paths = Object.fromEntries(Object.entries(lines).map(([key, name]) => [key, makeSvg('path', { class: name })]));
    const svg = makeSvg('svg', { viewBox: `0 0 ${WIDTH} ${HEIGHT}`, preserveAspectRatio: 'none', role: 'img' }, ...Object.values(paths));
    const words = [make('span'), make('span')];
    const whole = $(`chart-${id}`);
    whole.append(make('p', { class: 'label' }, ...words), svg);
    return { name, whole, svg, words, isSeen: false, ...paths };
}

/** Lines are drawn where they are seen, and anew when they come into sight; words always. */
function watch(page, parts) {
    const seen = new IntersectionObserver(entries => {
        for (const { target, isIntersecting } of entries) parts.find(part => part.svg === target).isSeen = isIntersecting;
        if (page.sheet) page.redraw();
    });
    for (const part of parts) seen.observe(part.svg);
}

/** A line through values between low and high. */
function line(page, ts, values, [low, high]) {
    let d = '';
    for (let i = 0; i < ts.length; i++) {
        const y = HEIGHT * (1 - (Math.min(high, Math.max(low, values[i])) - low) / (high - low));
        d += `${i ? 'L' : 'M'}${Math.round(page.share(ts[i]) * 10 * WIDTH) / 10} ${Math.round(10 * y) / 10}`;
    }
    return d;
}

/** Least and greatest, and at least these. */
function widened(values, [low, high]) {
    for (const x of values) {
        if (x < low) low = x;
        if (x > high) high = x;
    }
    return [low, high];
}

/** One channel of all. */
function every4th(channels, k) {
    const values = new Float32Array(channels.length / 4);
    for (let i = 0; i < values.length; i++) values[i] = channels[4 * i + k];
    return values;
}

/** Draws a chart of the values of ramp and list; those of a list that is refused are null. */
function draw(page, part, ts, [ramp, list], least) {
    const ends = widened(list ?? [], widened(ramp, least));
    if (part.isSeen) {
        part.ramp.setAttribute('d', line(page, ts, ramp, ends));
        part.list.setAttribute('d', list ? line(page, ts, list, ends) : '');
    }
    setText(part.words[0], part.name);
    setText(part.words[1], `${short(ends[0])} below, ${short(ends[1])} above`);
}

function drawHeight(page, part, ts, colours) {
    const [ramp, list] = colours.map(channels => channels && Array.from(ts, (_, i) => height(colorAt(channels, i), page.isInverted)));
    draw(page, part, ts, [ramp, list], [0, 100]);
    part.rule.setAttribute('d', `M0 ${HEIGHT / 2}H${WIDTH}`);
    const words = profileWords(ts, ramp, page.isInverted);
    setText($('profile-words'), list ? `${words} ${gapWords(ts, ramp, list)}` : words);
    setAttributes(part.svg, { 'aria-label': words });
}

function drawChannel(page, part, ts, colours, k) {
    const [ramp, list] = colours.map(channels => channels && every4th(channels, k));
    const isUsed = k < 3 || ramp.some(x => x !== 1) || list?.some(x => x !== 1);
    part.whole.hidden = !isUsed;
    if (!isUsed) return;
    draw(page, part, ts, [ramp, list], [0, 1]);
    const [low, high] = widened(ramp, [ramp[0], ramp[0]]).map(about);
    setAttributes(part.svg, { 'aria-label': `${part.name}: from ${low} to ${high}; the table of stops has its numbers` });
}

function drawOff(page, part, ts, [ramp, list]) {
    part.whole.hidden = !list;
    if (!list) return;
    const { threshold } = page.said.apart;
    const far = Array.from(ts, (_, i) => distanceAt(ramp, list, 4 * i));
    const [, farthest] = widened(far, [0, 0]);
    const high = Math.min(MOST_OFF * threshold, Math.max(1.25 * threshold, farthest));
    if (part.isSeen) part.ramp.setAttribute('d', line(page, ts, far, [0, high]));
    part.rule.setAttribute('d', `M0 ${HEIGHT * (1 - threshold / high)}H${WIDTH}`);
    const cut = farthest > high ? `, cut at ${about(high)}` : '';
    setText(part.words[0], `${part.name}${cut}; dotted: the threshold, ${short(threshold)}`);
    const words = `${part.name}: at most ${about(farthest)} at the points that are drawn; the threshold is ${short(threshold)}`;
    setAttributes(part.svg, { 'aria-label': words });
}
