// Files of ramps at random, from the same numbers each time: of every form that is read, most of them sound, many damaged in one
// place, and some that never were a ramp.
const KINDS = ['linear', 'smoothstep', 'sharp', 'basis', 'catmull-rom'];
const DAMAGE = ['\t', ' ', ',', ';', '#', '/', '%', 'e', '-', '+', '.', '\r', '\n', '"', 'x', '0', '9', 'é', '\u00a0', '\ufeff', ''];

function bitsOf(x) {
    const view = new DataView(new ArrayBuffer(4));
    view.setFloat32(0, x);
    return view.getUint32(0).toString(16).padStart(8, '0');
}

export class Files {
    #seed;

    constructor(seed) {
        this.#seed = seed;
    }

    random() {
        return (this.#seed = (this.#seed * 48271) % 2147483647) / 2147483647;
    }

    below(n) {
        return Math.floor(this.random() * n);
    }

    one(items) {
        return items[this.below(items.length)];
    }

    isRare() {
        return this.below(12) === 0;
    }

    channel() {
        return this.one([() => this.random().toFixed(this.below(6)), () => String(this.below(2)), () => (this.random() / 1e6).toFixed(12)])();
    }

    stops(most = 12) {
        const count = this.isRare() ? this.one([1, 2, 300]) : 2 + this.below(most);
        const scale = this.one([1, 1, 1, 100, -6000]);
        const at = Array.from({ length: count }, () => Math.round(this.random() * 1000) / 1000).sort((x, y) => x - y);
        if (!this.isRare()) [at[0], at[count - 1]] = [0, 1];
        const places = at.map(x => x * scale);
        if (scale > 0 !== this.isRare()) return places.map(x => String(Math.round(x * 1e4) / 1e4));
        return places.reverse().map(x => String(Math.round(x * 1e4) / 1e4));
    }

    text() {
        const color = () => [this.channel(), this.channel(), this.channel(), this.one(['1', '1', this.channel()])];
        const lines = this.stops().map(x => `stop\t${[x, ...color()].join('\t')}`);
        const threshold = this.one([[], [], [`threshold\t${this.random().toFixed(3)}`]]);
        const edit = this.one([[], [], [`edit\t${this.below(14)}\t0.1\t0.2\t0.3\t1`]]);
        return [`kind\t${this.one(KINDS)}`, ...threshold, ...lines, ...edit, ''].join(this.one(['\n', '\n', '\r\n']));
    }

    csv() {
        const parted = this.one([',', ';', '\t']);
        const [name, isHex, isBytes] = [this.one(['position', 'Depth', 'z', 'other']), this.below(2), this.below(2)];
        const header = isHex ? [name, 'Color'] : [name, ...(isBytes ? ['r255', 'g255', 'b255'] : ['red', 'g', 'Blue']), ...this.one([[], ['a']])];
        const hex = () => `#${this.below(1 << 24).toString(16).padStart(6, '0')}${this.one(['', '', '80'])}`;
        const fields = () => (isHex ? [hex()] : header.slice(1).map(() => (isBytes ? String(this.below(256)) : this.channel())));
        return [header, ...this.stops().map(x => [x, ...fields()])].map(row => row.join(parted)).concat('').join('\n');
    }

    cpt() {
        const slashed = () => [this.below(256), this.below(256), this.below(256)].join('/');
        const color = () => this.one([slashed, () => this.one(['white', 'gray', 'gray37', 'snow', 'mauve'])])();
        const places = this.stops();
        const lines = places.slice(1).map((x, i) => `${places[i]}\t${color()}\t${x}\t${color()}${this.one(['', '', '\tL', ' ; shelf'])}`);
        return ['# table', '# COLOR_MODEL = RGB', ...lines, 'B black', ''].join('\n');
    }

    /** Two colours: any; with a channel outside 0..1; one of them nearly grey; of nearly one hue, with six digits or with all. */
    pair() {
        const any = () => [this.random(), this.random() * this.one([1, 1, 1, 1, 2]), this.random(), this.random()];
        const left = this.one([any, () => [0.5, 0.5 + this.random() / 5000, 0.5, 1]])();
        const factor = this.one([0.5, 0.3, 1 + this.random() / 1e9]);
        const right = this.one([any, any, () => left.map(x => Number(x.toFixed(6)) * factor)])();
        const digits = this.one([x => x.toFixed(6), x => x.toFixed(6), x => x.toPrecision(17)]);
        return [...left, ...right].map(digits);
    }

    ggr() {
        const count = 1 + this.below(4);
        const at = Array.from({ length: count + 1 }, (_, i) => i / count);
        const segment = (x, i) => {
            const ends = [x, (x + at[i + 1]) / 2 + this.one([0, 0, 0.01]), at[i + 1]].map(t => t.toFixed(6));
            return [...ends, ...this.pair(), this.one([0, 0, 2, 3, 4, 5]), this.one([0, 0, 1, 2])].join(' ');
        };
        return ['GIMP Gradient', 'Name: random', count, ...at.slice(0, -1).map(segment), ''].join('\n');
    }

    printed() {
        const lines = this.stops().map(x => `stop\t${[x, this.random(), this.random(), this.random(), 1].map(Number).map(bitsOf).join('\t')}`);
        return [`stops\t${lines.length}\tevaluations\t7`, ...lines, ''].join('\n');
    }

    /** A list with any numbers at all, powers of two among them, below which numbers lie closer than above. */
    wild() {
        const sorts = [() => 2 ** (this.below(270) - 149), () => this.random() * 10 ** (this.below(80) - 44), () => -this.random() * 1e4];
        const number = () => this.one(sorts)();
        const places = Array.from({ length: 2 + this.below(5) }, number).sort((x, y) => x - y);
        const lines = places.map(x => `stop\t${[x, number(), number(), this.random(), 1].map(bitsOf).join('\t')}`);
        return [`stops\t${lines.length}\tevaluations\t7`, ...lines, ''].join('\n');
    }

    none() {
        return this.one(['', 'hello\n', '\u0000\u0001\u0002', 'a,b\n1,2\n', 'kind linear\n', 'B\n', 'GIMP', '1 2 3\n']);
    }

    damaged(text) {
        const at = this.below(text.length + 1);
        return text.slice(0, at) + this.one(DAMAGE) + text.slice(at + this.below(2));
    }

    /** The next one. */
    next() {
        const form = this.one(['text', 'text', 'csv', 'cpt', 'ggr', 'printed', 'wild']);
        const text = this.isRare() ? this.none() : this[form]();
        return this.below(4) ? text : this.damaged(text);
    }
}
