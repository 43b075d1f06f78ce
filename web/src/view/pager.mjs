// A long table a page at a time.
import { enable, isEnabled, make, setText } from './dom.mjs';

const ROWS = 24;

export class Pager {
    #first = 0;

    constructor(element, what, turned) {
        Object.assign(this, { element, what });
        this.words = make('span', { 'aria-live': 'polite' });
        this.back = this.button('Earlier', -ROWS, turned);
        this.forth = this.button('Later', ROWS, turned);
    }

    button(words, by, turned) {
        const button = make('button', { type: 'button', 'aria-label': `${words} ${this.what}s` }, words);
        button.addEventListener('click', () => {
            if (!isEnabled(button)) return;
            this.#first += by;
            turned();
        });
        return button;
    }

    /** Turns to the page of an item. */
    show(index) {
        this.#first = index - (index % ROWS);
    }

    /** The items of the page at hand, and draws the buttons where there are more. */
    indices(count) {
        this.#first = Math.max(0, Math.min(this.#first, count - 1 - ((count - 1) % ROWS)));
        const first = this.#first;
        const end = Math.min(count, first + ROWS);
        if (count <= ROWS) this.element.replaceChildren();
        else {
            setText(this.words, `${first} to ${end - 1} of ${count}, counted from 0`);
            enable(this.back, first > 0);
            enable(this.forth, end < count);
            if (!this.element.children.length) this.element.append(this.back, this.forth, this.words);
        }
        return Array.from({ length: end - first }, (_, i) => first + i);
    }
}
