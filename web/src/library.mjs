// The library as WebAssembly, which `./library wasm` makes: memory to lend, and its calls.

// taken at once: memory that grows later would leave every view of it empty
const PAGES = 64;

let exports;
let top;

/** Takes the library's bytes; nothing else may be asked before. */
export async function start(bytes) {
    const { instance } = await WebAssembly.instantiate(bytes);
    exports = instance.exports;
    exports.memory.grow(PAGES);
    top = exports.__heap_base.value;
}

/** Memory of the library's, with each item the same. */
export function lend(Type, length, item = 0) {
    const view = new Type(exports.memory.buffer, top, length);
    top += (view.byteLength + 7) & ~7;
    return view.fill(Type === BigUint64Array ? BigInt(item) : item);
}

export function copy(Type, items) {
    const view = lend(Type, items.length);
    view.set(items);
    return view;
}

/** Does something, and takes back all that was lent meanwhile. */
export function meanwhile(act) {
    const before = top;
    try {
        return act();
    } finally {
        top = before;
    }
}

/** A slice goes over as its address and its length, which has 64 bits. */
export function call(name, ...given) {
    const words = given.flatMap(x => (ArrayBuffer.isView(x) ? [x.byteOffset, BigInt(x.length)] : [x]));
    return exports[`colorgrad_${name}`](...words);
}
