// A point along the ramp at which it is read: by the slider, by its keys, or where the mouse is.
import { distance, height, hexWithAlpha } from '../color.mjs';
import { about } from '../numbers.mjs';
import { $, setAttributes, setText } from './dom.mjs';
import { brief } from './page.mjs';

export function reading(page) {
    const reader = $('reader');
    reader.addEventListener('input', () => draw(page));
    for (const id of ['ramp-band', 'list-band']) {
        $(id).addEventListener('pointermove', event => {
            const { left, width } = $('drawn').getBoundingClientRect();
            reader.value = String(Math.round((1000 * (event.clientX - left)) / width));
            draw(page);
        });
    }
    page.parts.push(() => draw(page));
}

function draw(page) {
    const share = Number($('reader').value) / 1000;
    const t = page.at(share);
    const [[...ramp], listed] = page.colours([t]);
    const list = listed && [...listed];
    const off = list ? `list ${hexWithAlpha(list)}, ${about(distance(ramp, list))} off` : 'no list';
    const words = `${brief(t)}: ramp ${hexWithAlpha(ramp)}, ${off}; height ${Math.round(height(ramp, page.isInverted))}`;
    setText($('reading'), words);
    setAttributes($('reader'), { 'aria-valuetext': words });
    $('reader-line').style.left = `${100 * share}%`;
    for (const mark of document.querySelectorAll('.reader-mark')) mark.setAttribute('d', `M${1000 * share} 0V100`);
}
