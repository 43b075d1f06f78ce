// For browsers and programs of one's own: SVG, CSS, JSON.
import { bytes, hex } from '../color.mjs';
import { channel, short, withExponent } from '../numbers.mjs';
import { KINDS } from '../ramp.mjs';

const ESCAPES = { '&': '&amp;', '<': '&lt;', '>': '&gt;', '"': '&quot;' };
const escaped = text => text.replace(/[&<>"]/g, c => ESCAPES[c]);

/** A linear gradient, with a band that shows it. */
export function svg({ name, stops }) {
    const lines = stops.map(({ position, color }) => {
        const alpha = bytes(color)[3];
        const opacity = alpha === 255 ? '' : ` stop-opacity="${channel(alpha).toFixed(4)}"`;
        return `<stop offset="${short(position)}" stop-color="${hex(color)}"${opacity}/>\n`;
    });
    return `<svg xmlns="http://www.w3.org/2000/svg" viewBox="0 0 512 64" role="img" aria-labelledby="title">
<title id="title">${escaped(name)}</title>
<defs>
<linearGradient id="ramp">
${lines.join('')}</linearGradient>
</defs>
<rect width="512" height="64" fill="url(#ramp)"/>
</svg>
`;
}

/** A gradient as a property of the ramp's name. */
export function css({ name, stops }) {
    const lines = stops.map(({ position, color }) => {
        const alpha = bytes(color)[3];
        const shining = alpha === 255 ? '' : alpha.toString(16).padStart(2, '0');
        return `${hex(color)}${shining} ${short(Math.fround(position * 100))}%`;
    });
    const property = Array.from(name, c => (/[A-Za-z0-9_-]/.test(c) ? c : '-')).join('');
    return `:root {\n  --${property}: linear-gradient(to right,\n    ${lines.join(',\n    ')});\n}\n`;
}

/** The fewest digits, with an exponent where there would be many zeros. */
function digits(x) {
    const size = Math.abs(x);
    return x !== 0 && !(size >= Math.fround(1e-6) && size < Math.fround(1e16)) ? withExponent(x) : short(x);
}

const quoted = text =>
    `"${text.replace(/["\\]/g, '\\$&').replace(/\p{Cc}/gu, c => `\\u${c.charCodeAt(0).toString(16).padStart(4, '0')}`)}"`;

export function json({ name, kind, stops }) {
    const lines = stops.map(({ position, color }) =>
        `    {"position": ${digits(position)}, "color": [${color.map(digits).join(', ')}], "hex": "${hex(color)}"}`);
    const domain = [stops[0], stops.at(-1)].map(stop => digits(stop.position)).join(', ');
    const head = `{\n  "name": ${quoted(name)},\n  "kind": "${KINDS[kind]}",\n  "domain": [${domain}],\n  "stops": [\n`;
    return `${head}${lines.join(',\n')}\n  ]\n}\n`;
}
