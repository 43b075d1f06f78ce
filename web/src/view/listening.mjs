// The swell profile as a tone: high where the paper is high, from the first stop to the last, with a knock at each depth. It is
// the list's, which the heater gets.
import { height } from '../color.mjs';
import { colorAt } from '../ramp.mjs';
import { $, enable, isEnabled, setAttributes, setText } from './dom.mjs';

const [SECONDS, POINTS, MOST_KNOCKS] = [3, 300, 64];
/** In hertz; two octaves and a half lie between the lowest and the highest. */
const [LOWEST, OCTAVES, KNOCK, LOUD] = [160, 2.5, 1800, 0.2];

export function listening(page) {
    let playing = null;
    const show = () => {
        setAttributes($('listen'), { 'aria-pressed': String(playing !== null) });
        setText($('listen'), playing ? 'Stop' : 'Listen');
    };
    const end = () => {
        playing?.close();
        playing = null;
        show();
    };
    $('listen').addEventListener('click', () => {
        if (playing) return end();
        if (isEnabled($('listen'))) playing = play(page, end);
        return show();
    });
    page.parts.push(() => enable($('listen'), !page.sheet.listRefusal));
}

function play(page, end) {
    const context = new AudioContext();
    const start = context.currentTime + 0.1;
    const ts = Float32Array.from({ length: POINTS }, (_, i) => page.at(i / (POINTS - 1)));
    const [, list] = page.colours(ts);
    const tone = Float32Array.from(ts, (_, i) => LOWEST * 2 ** ((OCTAVES * height(colorAt(list, i), page.isInverted)) / 100));
    const [oscillator, gain] = sounding(context, LOUD);
    oscillator.frequency.setValueCurveAtTime(tone, start, SECONDS);
    oscillator.start(start);
    oscillator.stop(start + SECONDS);
    gain.gain.setTargetAtTime(0, start + SECONDS - 0.05, 0.01);
    for (const depth of page.editor.depths.slice(0, MOST_KNOCKS)) knock(context, start + page.share(depth) * SECONDS);
    oscillator.onended = end;
    return context;
}

function sounding(context, loud) {
    const [oscillator, gain] = [context.createOscillator(), context.createGain()];
    gain.gain.value = loud;
    oscillator.connect(gain).connect(context.destination);
    return [oscillator, gain];
}

function knock(context, at) {
    const [oscillator, gain] = sounding(context, 0);
    oscillator.frequency.value = KNOCK;
    gain.gain.setValueAtTime(LOUD, at);
    gain.gain.exponentialRampToValueAtTime(0.001, at + 0.04);
    oscillator.start(at);
    oscillator.stop(at + 0.05);
}
