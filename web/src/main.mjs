// The page: starts the library, then each part.
import { Editor } from './editor.mjs';
import { call, start } from './library.mjs';
import { bands } from './view/bands.mjs';
import { cells } from './view/cells.mjs';
import { charts } from './view/charts.mjs';
import { chosen } from './view/chosen.mjs';
import { depths } from './view/depths.mjs';
import { $, setText } from './view/dom.mjs';
import { dragging } from './view/dragging.mjs';
import { files } from './view/files.mjs';
import { handle } from './view/handle.mjs';
import { keys } from './view/keys.mjs';
import { listening } from './view/listening.mjs';
import { making } from './view/making.mjs';
import { marks } from './view/marks.mjs';
import { Page } from './view/page.mjs';
import { reading } from './view/reading.mjs';
import { table } from './view/table.mjs';

function version() {
    const number = call('version');
    return ` ${Math.floor(number / 1e6)}.${Math.floor(number / 1000) % 1000}.${number % 1000}`;
}

const page = new Page();
try {
    await start(Uint8Array.from(atob($('library').textContent), c => c.charCodeAt(0)));
} catch (error) {
    page.refuse('This browser does not run WebAssembly: nothing can be worked out here.');
    throw error;
}
for (const part of [bands, marks, charts, cells, dragging, handle, chosen, table, depths, making, files, keys, reading, listening]) part(page);
setText($('version'), version());
page.editor.open(Editor.fresh());
page.redraw();
page.say('A new ramp from black to white. Open a file, or drop one here.');
