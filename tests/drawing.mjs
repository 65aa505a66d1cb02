// Lays out and draws sheets by drawing.wasm, for tests/drawing: drawing.mjs MODULE RECORDS. A record is a struct drawing_sheet and a struct drawing_shown; of
// each the SHA-256 of the places and the text is printed.
import crypto from "node:crypto";
import fs from "node:fs";

const [library, records] = process.argv.slice(2);
const compiled = new WebAssembly.Module(fs.readFileSync(library));
if (WebAssembly.Module.imports(compiled).length > 0) throw new Error("the module imports something");
const { exports } = new WebAssembly.Instance(compiled);
const SHEET = 8200, PLACES = 71184, SHOWN = 10736, WORK = 8 << 20, TEXT = 4 << 20;
const sheet = (exports.__heap_base.value + 7) & ~7, places = sheet + SHEET, shown = places + PLACES, size = shown + SHOWN, work = size + 8, text = work + WORK;
exports.memory.grow(Math.ceil((text + TEXT - exports.memory.buffer.byteLength) / 65536));
const memory = Buffer.from(exports.memory.buffer), data = fs.readFileSync(records);
for (let at = 0; at < data.length; at += SHEET + SHOWN) {
    data.copy(memory, sheet, at, at + SHEET);
    data.copy(memory, shown, at + SHEET, at + SHEET + SHOWN);
    if (exports.drawing_places(sheet, places, work) !== 0) throw new Error("a sheet is not flat");
    const count = exports.drawing_svg(sheet, places, shown, work, text, TEXT, size);
    console.log(crypto.createHash("sha256").update(memory.subarray(places, places + PLACES)).update(memory.subarray(text, text + count)).digest("hex"));
}
