// Stops moved by mouse or finger. While one is dragged each frame is one edit; all of a drag is taken back at once.
import { MOVE } from '../sheet.mjs';
import { $ } from './dom.mjs';
import { between } from './handle.mjs';

const [NEAR, LEAST_DRAG] = [24, 3];

export function dragging(page) {
    const track = $('track');
    const drag = new Drag(page, track);
    track.addEventListener('pointerdown', event => drag.begin(event));
    track.addEventListener('pointermove', event => drag.follow(event));
    track.addEventListener('pointerup', () => drag.end(true));
    track.addEventListener('pointercancel', () => drag.end(false));
    document.addEventListener('keydown', event => event.key === 'Escape' && drag.end(false));
    $('ramp-band').addEventListener('dblclick', event => {
        const addition = page.editor.addition(page.at(shareAt(track, event)));
        if (page.attempt(() => page.editor.edit(addition))) page.chooseAndDraw(addition.stop);
    });
}

/** How far along the ramp a pointer is, 0 to 1. */
function shareAt(track, event) {
    const { left, width } = track.getBoundingClientRect();
    return Math.min(1, Math.max(0, (event.clientX - left) / width));
}

class Drag {
    #drags = 0;
    /** Of the drag at hand: its key among the steps, where it began, what came of it. */
    #now = null;

    constructor(page, track) {
        Object.assign(this, { page, track });
    }

    begin(event) {
        const stop = nearest(this.page, shareAt(this.track, event), NEAR / this.track.clientWidth);
        if (stop < 0 || event.button !== 0) return;
        event.preventDefault();
        this.track.setPointerCapture(event.pointerId);
        this.#now = { key: `drag ${++this.#drags}`, x: event.clientX, isMoved: false, isMade: false, isRefused: false, frame: 0 };
        this.page.chooseAndDraw(stop);
        $('handle').focus({ preventScroll: true });
    }

    follow(event) {
        const now = this.#now;
        if (!now) return;
        now.isMoved ||= Math.abs(event.clientX - now.x) >= LEAST_DRAG;
        if (!now.isMoved) return;
        now.share = shareAt(this.track, event);
        now.frame ||= requestAnimationFrame(() => this.step());
    }

    step() {
        const { page } = this;
        const now = this.#now;
        now.frame = 0;
        const position = between(page, page.at(now.share));
        // one refusal a drag is enough
        if (now.isRefused || position === page.stop(page.chosen).position) return;
        now.isRefused = !page.attempt(() => page.editor.edit({ sort: MOVE, stop: page.chosen, position }, now.key), { isQuiet: true });
        now.isMade ||= !now.isRefused;
    }

    end(isKept) {
        const now = this.#now;
        if (!now) return;
        if (now.frame) {
            cancelAnimationFrame(now.frame);
            this.step();
        }
        this.#now = null;
        if (now.isMade && !isKept) this.page.attempt(() => this.page.editor.undo());
        else if (now.isMade) this.page.tell();
    }
}

/** The stop that stands nearest, or -1. Of those at one place the left one is taken from the left, the right one from the right. */
function nearest(page, share, near) {
    const { count } = page;
    let [best, least] = [-1, near];
    for (let i = 0; i < count; i++) {
        const gap = share - page.share(page.stop(i).position);
        if (Math.abs(gap) < least || (Math.abs(gap) === least && gap > 0)) [best, least] = [i, Math.abs(gap)];
    }
    return best;
}
