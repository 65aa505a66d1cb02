// Solve, in JavaScript over the WebAssembly, for a browser or for node. The library imports nothing. What it is lent lies in its own memory, from
// __heap_base on.
const MAX_CHANNELS = 512, SET_WORDS = 9;

export async function solver(bytes) {
    const { instance } = await WebAssembly.instantiate(bytes);
    const { memory, __heap_base: base, analyser_solve: solve } = instance.exports;
    // Gives the settings, or the nodes of the set that proves that there are none, or the number of the refusal.
    return (sheet, headgate, outfall, delivery) => {
        const at = (base.value + 7) & ~7, settings = at + 8 * SET_WORDS, answers = settings + 4 * MAX_CHANNELS, lent = answers + 8;
        const missing = Math.ceil((lent + sheet.length - memory.buffer.byteLength) / 65536);
        if (missing > 0) memory.grow(missing);
        const view = new DataView(memory.buffer);
        for (let e = 0; e < MAX_CHANNELS; e++) view.setInt32(settings + 4 * e, 0x7fffffff, true); // no setting is as great
        new Uint8Array(memory.buffer).set(sheet, lent);
        // a length is 64 bits wide, which is a BigInt here
        const refused = solve(lent, BigInt(sheet.length), headgate, outfall, delivery, settings, BigInt(MAX_CHANNELS), at, BigInt(SET_WORDS),
            answers, answers + 2, answers + 4);
        if (refused) return { refused };
        const written = Array.from({ length: MAX_CHANNELS }, (_, e) => view.getInt32(settings + 4 * e, true));
        const holds = (node) => view.getBigUint64(at + 8 * (node >> 6), true) >> BigInt(node & 63) & 1n;
        return view.getUint8(answers) ? { settings: written.filter((setting) => setting < 0x7fffffff) }
            : { set: Array.from({ length: 64 * SET_WORDS }, (_, node) => node).filter(holds) };
    };
}
