// Lists out, in the formats of plume and by its rules.
import { Fault } from '../fault.mjs';
import { stretched, withEdges } from '../ramp.mjs';
import { ggr } from './ggr.mjs';
import { cpt, gdal, qgis } from './tables.mjs';
import { bits, text } from './text.mjs';
import { css, json, svg } from './web.mjs';

/** By their names: the ending of their files, who reads them, and what they do with positions and alpha. */
export const FORMATS = {
    text: { write: text, ending: 'tsv', reader: 'plume and this page', isExact: true },
    bits: { write: bits, ending: 'bits', reader: 'programs: the bits of each number', isExact: true },
    ggr: { write: ggr, ending: 'ggr', reader: 'GIMP, Inkscape, Krita', isUnit: true },
    cpt: { write: cpt, ending: 'cpt', reader: 'GMT, gdaldem', hasNoAlpha: true },
    qgis: { write: qgis, ending: 'qgis.txt', reader: 'QGIS' },
    gdal: { write: gdal, ending: 'gdal.txt', reader: 'gdaldem' },
    svg: { write: svg, ending: 'svg', reader: 'browsers, drawing programs', isUnit: true },
    css: { write: css, ending: 'css', reader: 'browsers', isUnit: true },
    json: { write: json, ending: 'json', reader: 'programs of your own', isExact: true },
};

/** The text of a piece, { name, kind, stops, evaluations, domain }, and what is to be said of it. */
export function written(piece, named) {
    const format = FORMATS[named];
    const notes = notesOn(piece, named);
    let { stops } = piece;
    if (!format.isExact) stops = withEdges(stops);
    const domain = format.isUnit ? [0, 1] : piece.domain;
    if (domain) stops = stretched(stops, domain);
    if (!stops) throw new Fault(piece.name, 0, 'all stops stand at one position: it has no domain');
    return { text: format.write({ ...piece, stops }), notes };
}

function notesOn({ stops, domain }, named) {
    const { hasNoAlpha, isUnit } = FORMATS[named];
    const isClear = stops.some(({ color }) => color[3] < 1);
    const notes = [];
    if (isClear && hasNoAlpha) notes.push('a colour table has no alpha: it is left out');
    if (isClear && named === 'css') notes.push('browsers mix css colours after multiplying by alpha: svg shows it as it is');
    if (domain && isUnit) notes.push('the domain is not used: this format runs from 0 to 1');
    return notes;
}
