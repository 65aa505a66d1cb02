// Asks a corpus of libanalyser.wasm in node, as tests/machines.c does on other machines: machines.mjs LIBRARY SIGNATURES CORPUS. compare/src/corpus.rs has the
// corpus' form, `tools/bindings json` makes the signatures. A pointer is a number in wasm32, and 64 bits in wasm64.
import fs from "node:fs";

const [library, signatures, corpus] = process.argv.slice(2);
const compiled = new WebAssembly.Module(fs.readFileSync(library));
const functions = JSON.parse(fs.readFileSync(signatures, "utf8"));
const file = fs.openSync(corpus, "r");

function fail(call, name, what) {
    console.log(`call ${call}, ${name}: ${what}`);
    process.exit(1);
}
if (WebAssembly.Module.imports(compiled).length > 0) fail(0, "the library", "imports something");

const { exports } = new WebAssembly.Instance(compiled);
const base = exports.__heap_base.value; // lent memory begins here: below are the library's stack and data
const pointer = typeof base === "bigint" ? BigInt : Number;
const start = (Number(base) + 7) & ~7;

// Some engines count the pages of wasm64 by a plain number.
function grow(pages) {
    try {
        exports.memory.grow(pointer(pages));
    } catch (error) {
        if (!(error instanceof TypeError)) throw error;
        exports.memory.grow(pages);
    }
}

// The library's memory, with room for so many bytes from the start on.
function memory(count) {
    const missing = Math.ceil((start + count - exports.memory.buffer.byteLength) / 65536);
    if (missing > 0) grow(missing);
    return Buffer.from(exports.memory.buffer);
}

// Whether there were so many bytes; none is the end.
function take(bytes) {
    const count = fs.readSync(file, bytes);
    if (count > 0 && count < bytes.length) fail(calls, "the file", "no record of a call");
    return count > 0;
}

// What the function is handed: its numbers, and its areas as addresses, slices with their lengths behind.
function* handed(kinds, numbers, areas) {
    for (const kind of kinds) {
        if (kind === "long") yield numbers.next().value;
        else if (kind === "number") yield Number(BigInt.asIntN(32, numbers.next().value));
        else {
            const [at, length] = areas.next().value;
            yield pointer(at);
            if (kind === "slice") yield BigInt(length);
        }
    }
}

function change(image, changes) {
    for (let at = 0; at < changes.length;) {
        const offset = changes.readUInt32LE(at), length = changes.readUInt32LE(at + 4);
        changes.copy(image, offset, at + 8, at + 8 + length);
        at += 8 + Math.ceil(length / 8) * 8;
    }
}

let calls = 0;
const head = Buffer.alloc(16);
if (!take(head) || head.toString("latin1") !== "analyser corpus\n") fail(0, "the file", "no corpus");
for (; take(head); calls++) {
    const rest = head.readUInt32LE(0), [index, result, count, lent] = head.subarray(4, 8), length = head.readUInt32LE(8);
    const record = memory(rest).subarray(start, start + rest);
    take(record);
    const image = record.subarray(8 * (count + lent), 8 * (count + lent) + length), from = start + 8 * (count + lent);
    const numbers = Array.from({ length: count }, (_, k) => record.readBigUInt64LE(8 * k));
    const areas = Array.from({ length: lent }, (_, k) => [from + record.readUInt32LE(8 * (count + k)), record.readUInt32LE(8 * (count + k) + 4)]);
    const due = Buffer.from(image);
    change(due, record.subarray(8 * (count + lent) + length));
    const [name, kinds] = functions[index];
    const told = exports[name](...handed(kinds, numbers.values(), areas.values())) ?? 0;
    if (told !== result) fail(calls, name, "another result");
    if (!due.equals(image)) fail(calls, name, "other bytes");
}
console.log(`${calls} calls, every byte equal`);
