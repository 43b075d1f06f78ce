// Undo, redo and save, by buttons and by keys.
import { $, enable, isEnabled, setAttributes } from './dom.mjs';
import { isTyped } from './field.mjs';
import { save } from './files.mjs';

export function keys(page) {
    const undo = () => isEnabled($('undo')) && page.attempt(() => page.editor.undo());
    const redo = () => isEnabled($('redo')) && page.attempt(() => page.editor.redo());
    $('undo').addEventListener('click', undo);
    $('redo').addEventListener('click', redo);
    document.addEventListener('keydown', event => {
        if (!(event.ctrlKey || event.metaKey) || event.altKey) return;
        const key = event.key.toLowerCase();
        // what is being typed is the field's own to undo
        const isField = event.target.matches?.('input, textarea') && isTyped(event.target);
        const act = { z: event.shiftKey ? redo : undo, y: redo, s: () => save(page) }[key];
        if (!act || (isField && key !== 's')) return;
        event.preventDefault();
        act();
    });
    page.parts.push(() => {
        const { before, after } = page.editor.history;
        enable($('undo'), before);
        enable($('redo'), after);
        setAttributes($('undo'), { 'aria-label': before ? `Undo: ${before.words}` : 'Undo' });
        setAttributes($('redo'), { 'aria-label': after ? `Redo: ${after.words}` : 'Redo' });
    });
}
