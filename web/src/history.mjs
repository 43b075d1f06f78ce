// What was done, so that it can be taken back. A step is { words, back, forth, key }: how it is taken back, how it is done
// again, and which steps that follow it belong to it, such as those of one drag.
export class History {
    #steps = [];
    #done = 0;

    /** Adds a step that was done; what was taken back before is forgotten. */
    add(step) {
        this.#steps.length = this.#done;
        const last = this.#steps.at(-1);
        if (last && step.key && last.key === step.key) {
            Object.assign(last, { forth: step.forth, words: step.words });
            return;
        }
        this.#steps.push(step);
        this.#done++;
    }

    /** The step that would be taken back next, and the one that would be done again. */
    get before() {
        return this.#steps[this.#done - 1];
    }

    get after() {
        return this.#steps[this.#done];
    }

    stepBack() {
        this.#done--;
    }

    stepForth() {
        this.#done++;
    }
}
