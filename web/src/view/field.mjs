// Fields of text. What is typed is taken with Enter or when the field is left; Escape brings back what stood there. What is
// refused stays, marked, so that it can be mended.
import { setAttributes } from './dom.mjs';

/** Whether somebody has typed something in it that was not taken. */
export const isTyped = input => input.dataset.shown !== undefined && input.value !== input.dataset.shown;

/** `take` gives true where the text is taken. */
export function field(input, take) {
    input.addEventListener('change', () => {
        const before = input.dataset.shown;
        input.dataset.shown = input.value;
        if (take(input.value)) return;
        input.dataset.shown = before;
        setAttributes(input, { 'aria-invalid': 'true', 'aria-errormessage': 'alert' });
    });
    input.addEventListener('keydown', event => {
        if (event.key !== 'Escape' || !isTyped(input)) return;
        event.stopPropagation();
        restore(input);
    });
}

function restore(input) {
    input.value = input.dataset.shown ?? '';
    setAttributes(input, { 'aria-invalid': null, 'aria-errormessage': null });
}

/** Shows a value, unless somebody is typing. */
export function showIn(input, value) {
    if (document.activeElement === input && isTyped(input)) return;
    if (input.value === value && input.dataset.shown === value) return;
    input.dataset.shown = value;
    restore(input);
}
