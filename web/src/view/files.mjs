// Files opened, dropped and saved.
import { Editor } from '../editor.mjs';
import { Fault } from '../fault.mjs';
import { readFile } from '../read/read.mjs';
import { saved } from '../saving.mjs';
import { FORMATS } from '../write/write.mjs';
import { $, make, setText } from './dom.mjs';
import { field, showIn } from './field.mjs';

/** A preview is made when nothing happens for so many milliseconds. */
const PAUSE = 200;

export function files(page) {
    $('format').append(...Object.entries(FORMATS).map(([name, { reader }]) => make('option', { value: name }, `${name}: ${reader}`)));
    $('new').addEventListener('click', () => openSource(page, Editor.fresh()));
    $('file').addEventListener('change', event => {
        openFile(page, event.target.files[0]);
        // the same file may be chosen again
        event.target.value = '';
    });
    $('save').addEventListener('click', () => save(page));
    dropping(page);
    field($('name'), text => page.attempt(() => page.editor.set({ name: text }, 'another name')));
    for (const id of ['format', 'what-list', 'what-ramp', 'domain-min', 'domain-max', 'preview']) {
        $(id).addEventListener(id === 'preview' ? 'toggle' : 'change', () => preview(page));
    }
    addEventListener('beforeunload', event => isChanged(page) && event.preventDefault());
    let pause = 0;
    page.parts.push(() => {
        showIn($('name'), page.editor.name);
        setText($('title'), page.editor.name);
        document.title = `${page.editor.name} – Guineaplume`;
        setText($('changed'), isChanged(page) ? 'not saved yet' : '');
        clearTimeout(pause);
        pause = setTimeout(() => preview(page), PAUSE);
    });
}

/** Whether something was done since it was opened or saved. */
const isChanged = page => page.editor.history.before !== page.kept;

async function openFile(page, file) {
    if (!file) return;
    const bytes = new Uint8Array(await file.arrayBuffer());
    try {
        openSource(page, readFile(file.name, bytes, $('bytes').checked));
    } catch (error) {
        if (!(error instanceof Fault)) throw error;
        page.refuse(error.message);
    }
}

function openSource(page, source) {
    const isOpened = page.attempt(() => {
        page.editor.open(source);
        // depths of another ramp mean nothing here
        page.forgetDepths();
        page.chosen = 0;
    });
    if (!isOpened) return;
    page.kept = page.editor.history.before;
    page.redraw();
    if (source.notes.length) page.say(`${$('status').textContent} ${source.notes.join('. ')}`);
}

function dropping(page) {
    const over = isOver => event => {
        event.preventDefault();
        document.body.classList.toggle('dropping', isOver);
    };
    document.addEventListener('dragover', over(true));
    document.addEventListener('dragleave', over(false));
    document.addEventListener('drop', event => {
        over(false)(event);
        openFile(page, event.dataTransfer.files[0]);
    });
}

/** The text of the file as it would be saved now. */
function made(page) {
    const [min, max] = ['domain-min', 'domain-max'].map(id => $(id).value.trim());
    const domain = min || max ? [page.number(min, 'the domain'), page.number(max, 'the domain')] : null;
    if (domain && domain[0] >= domain[1]) throw new Fault('', 0, 'the domain wants the lesser number first, and two that differ');
    if (page.sheet.listRefusal && !$('what-ramp').checked) throw new Fault('', 0, page.said.line);
    return saved(page.editor, $('format').value, { isRamp: $('what-ramp').checked, domain });
}

function preview(page) {
    const isSeen = $('preview').open;
    try {
        const { text, notes } = isSeen ? made(page) : { text: '', notes: [] };
        $('preview-text').value = text;
        setText($('save-words'), notes.join('. '));
    } catch (error) {
        if (!(error instanceof Fault)) throw error;
        $('preview-text').value = '';
        setText($('save-words'), error.message);
    }
}

export function save(page) {
    try {
        const { text, notes } = made(page);
        const file = `${page.editor.name}.${FORMATS[$('format').value].ending}`;
        const url = URL.createObjectURL(new Blob([text]));
        make('a', { href: url, download: file }).click();
        URL.revokeObjectURL(url);
        const faults = page.said.isYes ? '' : ' Judged: no.';
        page.kept = page.editor.history.before;
        page.redraw();
        page.say([`Saved as ${file}.${faults}`, ...notes].join(' '));
    } catch (error) {
        if (!(error instanceof Fault)) throw error;
        page.refuse(`Not saved: ${error.message}`);
    }
}
