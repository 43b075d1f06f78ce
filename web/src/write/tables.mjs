// Colour tables: GMT's, which gdaldem reads too, gdaldem's own and QGIS's. Colours are whole numbers of 0 to 255.
import { bytes } from '../color.mjs';
import { Fault } from '../fault.mjs';
import { short } from '../numbers.mjs';

/** Spaces and no slashes, and no `B F N`: so gdaldem reads it as GMT does. A slice of no length is left out, since GMT
 * refuses it; the jump stays. */
export function cpt({ name, stops }) {
    const slices = [];
    for (let i = 1; i < stops.length; i++) {
        const [from, to] = [short(stops[i - 1].position), short(stops[i].position)];
        const [first, last] = [bytes(stops[i - 1].color), bytes(stops[i].color)].map(color => color.slice(0, 3).join(' '));
        if (from !== to) slices.push(`${from} ${first} ${to} ${last}\n`);
    }
    if (!slices.length) throw new Fault(name, 0, 'all stops stand at one position: there is no slice to write');
    return `# ${name}\n# COLOR_MODEL = RGB\n${slices.join('')}`;
}

export const gdal = ({ stops }) =>
    stops.map(({ position, color }) => `${short(position)} ${bytes(color).join(' ')}\n`).join('');

export function qgis({ stops }) {
    const line = ({ position, color }) => `${short(position)},${bytes(color).join(',')},${short(position)}\n`;
    return `# QGIS Generated Color Map Export File\nINTERPOLATION:INTERPOLATED\n${stops.map(line).join('')}`;
}
