"use strict";
// Places and pictures by drawing/ (C, compiled to WebAssembly): the same code as behind `tools/unit --picture`, so the same layout and the same look. It is no part
// of the unit and nothing of it is proved. The fields lie where drawing/drawing.h says, which tools/pictures.py reads.

const PENS = JSON.parse($("drawing-about").textContent); // the constants of drawing/drawing.h, and where the fields of its structs lie
const NOT_NAMED = -1;
let pens = null, rooms = null; // what drawing/ exports, and where what it is lent lies

async function beginPens() {
  pens = (await WebAssembly.instantiate(bytesOf("drawing-wasm"))).instance.exports;
  let at = pens.__heap_base.value + 15 & ~15;
  const room = size => { const first = at; at += size + 15 & ~15; return first; }, { sizes, WORK, TEXT } = PENS;
  rooms = { sheet: room(sizes.sheet), places: room(sizes.places), shown: room(sizes.shown), size: room(8), work: room(WORK), text: room(TEXT) };
  const missing = Math.ceil((at - pens.memory.buffer.byteLength) / 65536);
  if (missing > 0) pens.memory.grow(missing);
}

function part(struct, name, count) {
  const [offset, kind] = PENS.fields[struct][name];
  return new globalThis[kind](pens.memory.buffer, rooms[struct] + offset, count);
}
const put = (struct, name, values) => part(struct, name, values.length).set(values);
const taken = (struct, name, count) => Array.from(part(struct, name, count));

function putSheet({ nodes, outer, channels }, limits) {
  const column = i => channels.flatMap(row => row.slice(i, i + 2));
  put("sheet", "nodes", [nodes]);
  put("sheet", "channels", [channels.length]);
  put("sheet", "outer", [outer === null ? NOT_NAMED : outer]);
  put("sheet", "tails", column(0));
  put("sheet", "turns", column(2));
  put("sheet", "limits", limits ? limits.flat() : column(4));
}

const fitsPens = sheet => sheet.nodes <= PENS.NODES && sheet.channels.length <= PENS.CHANNELS;

layoutOf = sheet => {
  if (!fitsPens(sheet)) return placesOf(sheet);
  putSheet(sheet);
  if (pens.drawing_places(rooms.sheet, rooms.places, rooms.work)) return placesOf(sheet); // not flat: the page's own way, which crosses
  const m = sheet.channels.length, [x, y] = ["x", "y"].map(name => taken("places", name, sheet.nodes)), first = taken("places", "first", m + 1);
  const [u, v] = ["bend_x", "bend_y"].map(name => taken("places", name, first[m])), point = (a, b) => [a / PENS.UNIT, b / PENS.UNIT];
  return { nodes: x.map((a, i) => point(a, y[i])), bends: taken("places", "sharp", m).map((corner, e) =>
    [u.slice(first[e], first[e + 1]).map((a, i) => point(a, v[first[e] + i])), corner === 1]) };
};

function putPlaces() { // as drawn, in the hundredths in which the text is saved
  const { routes } = shapeNow(), hundredths = z => Math.round(PENS.UNIT * +z.toFixed(2)), first = [0], bends = [];
  for (const route of routes) { bends.push(...route.slice(1, -1)); first.push(bends.length); }
  if (bends.length > PENS.BENDS) throw new Fault("There is no picture of so many bends.");
  put("places", "x", drawing.nodes.map(p => hundredths(p[0])));
  put("places", "y", drawing.nodes.map(p => hundredths(p[1])));
  put("places", "first", first);
  put("places", "sharp", drawing.channels.map(c => c.sharp ? 1 : 0));
  put("places", "bend_x", bends.map(p => hundredths(p[0])));
  put("places", "bend_y", bends.map(p => hundredths(p[1])));
}

function bits(nodes, words) {
  const made = new BigUint64Array(words);
  for (const v of nodes) made[v >> 6] |= 1n << BigInt(v & 63);
  return made;
}

// The picture of what is shown (in the form of `shownNow`), as SVG text and its size.
function pictureOf(shown, { title, caption, bare = false, paper = false, lines = 0 }) {
  const sheet = sheetOf(drawing), { source, sink, nodes } = drawing, words = (text, most) => [...new TextEncoder().encode(text).slice(0, most - 1), 0];
  if (!fitsPens(sheet)) throw new Fault(`There is no picture of more than ${PENS.NODES} nodes or ${PENS.CHANNELS} channels.`);
  const end = v => !bare && v !== null && v < nodes.length ? v : NOT_NAMED, { settings, inside, subtotals, levels, fault } = shown || {};
  putSheet(sheet, shown && shown.limits);
  putPlaces();
  new Uint8Array(pens.memory.buffer, rooms.shown, PENS.sizes.shown).fill(0);
  put("shown", "style", [paper ? 1 : 0]);
  put("shown", "lines", [lines]);
  put("shown", "headgate", [end(source)]);
  put("shown", "outfall", [end(sink)]);
  if (settings) { put("shown", "has_settings", [1]); put("shown", "settings", settings); }
  if (inside) { put("shown", "has_set", [1]); put("shown", "set", bits(inside, 9)); }
  if (inside && subtotals) { put("shown", "has_subtotals", [1]); put("shown", "subtotals", nodes.map((_, v) => subtotals.get(v) || 0)); }
  if (levels) { put("shown", "has_levels", [1]); put("shown", "levels", levels); }
  if (fault && fault.channels.size + fault.nodes.size) {
    put("shown", "has_wrong", [1]);
    put("shown", "wrong_channels", bits(fault.channels, 8));
    put("shown", "wrong_nodes", bits(fault.nodes, 9));
  }
  put("shown", "title", words(title, 256));
  put("shown", "caption", words(caption, 2048));
  const length = pens.drawing_svg(rooms.sheet, rooms.places, rooms.shown, rooms.work, rooms.text, PENS.TEXT, rooms.size);
  if (!length || length > PENS.TEXT) throw new Fault("There is no picture of this drawing: it is not flat, or a place lies too far away.");
  const text = new TextDecoder().decode(new Uint8Array(pens.memory.buffer, rooms.text, length).slice());
  return { text, size: [...new Uint32Array(pens.memory.buffer, rooms.size, 2)] };
}

// ---- Title and caption, word for word as tools/unit has them -----------------------------------------------

const delivers = (from, value, to) => `node ${from} delivers ${value} to node ${to}`;

function against(set, total, delivery) { // what the set of an impossible delivery says
  const { source, sink } = drawing, due = delivery * (set.includes(source) - set.includes(sink));
  return due > 0 ? `the set lets out at most ${total}, ${due} is asked`
    : `the set lets out at most ${total}: it takes in at least ${-total}, and ${-due + 0} is asked`;
}

const NAMED = {
  key: ({ key, found }) => {
    const { source, sink, value } = drawing;
    if (!found) return null;
    return found.settings ? [`can ${value}`, delivers(source, value, sink)] : [`cannot ${value}`, against([...found.inside], key.totals.total, value)];
  },
  least: ({ range }) => extremeNamed("least", range, range && range.belowTotals, total => `takes in at least ${-total + 0}`),
  largest: ({ range }) => extremeNamed("largest", range, range && range.aboveTotals, total => `lets out at most ${total}`),
  raised: ({ raise, given }) => !raise || raise.refused ? null
    : raise.none ? [`no limit on channel ${raise.channel} will do`, against(raise.set, raise.totals.total, given.delivery)]
      : [`limit ${raise.limit} on channel ${raise.channel}`, delivers(given.source, given.delivery, given.sink)],
  candidate: ({ mark, given }) => !mark ? null : mark.refused ? ["settings", refusalWords(mark)]
    : [`value ${mark.value}`, delivers(given.source, mark.value, given.sink)],
  set: ({ totals, given }) => totals && !totals.refused ? [`total ${totals.total}`, `the outward total of a set of ${given.set.length} nodes`] : null,
  levels: ({ levels }) => levels && !levels.refused ? ["levels from settings", "the setting of a channel is the level left of it less the level right of it"] : null,
  table: () => {
    const held = sessionFits(), asked = held && held.last ? held.last.words : null, { value, source, sink } = held && held.last || {};
    if (!asked) return held ? ["limits left", held.log.join("; ")] : null;
    return held.last.settings ? [`${asked}: can ${value}`, `on the limits left ${delivers(source, value, sink)}`]
      : [`${asked}: cannot ${value}`, `on the limits left a set of size ${held.last.set.length} proves it: ${held.last.set.join(" ")}`];
  },
  capture: () => after && !after.refused ? [after.none ? "none" : `largest ${after.largest}`, `after record ${drawing.work.record ?? 0}`] : null,
};

function extremeNamed(name, range, totals, proof) {
  const { source, sink } = drawing;
  if (!range || range.refused) return null;
  if (range.none) return ["none", against(range.set, range.totals.total, 0)];
  return [`${name} ${range[name]}`, `${delivers(source, range[name], sink)}, and the set ${proof(totals.total)}`];
}

function named() {
  const now = answered(), found = now && NAMED[mode()] && NAMED[mode()](now), { nodes, channels, outer } = drawing;
  const [title, caption] = found || ["drawing", `${nodes.length} nodes, ${channels.length} channels, outer dart ${outer ?? 0}`];
  return { title: minus(title), caption: minus(caption), bare: Boolean(found) && mode() === "levels" };
}

const currentPicture = () => pictureOf(shownNow(), named());

button("save-svg", () => save(currentPicture().text, `${fileName}.svg`, `Saved ${fileName}.svg.`));
button("save-png", () => {
  const { text, size } = currentPicture(), image = new Image();
  image.onload = () => {
    const made = document.createElement("canvas");
    [made.width, made.height] = size.map(z => 2 * z);
    made.getContext("2d").drawImage(image, 0, 0, made.width, made.height);
    made.toBlob(blob => save(blob, `${fileName}.png`, `Saved ${fileName}.png.`), "image/png");
  };
  image.src = URL.createObjectURL(new Blob([text], { type: "image/svg+xml" }));
});

// ---- Paper: the exam page, and the key page ---------------------------------------------------------------

const asks = () => drawing.source !== null && drawing.sink !== null;

function examPicture() { // as `tools/unit solve .. --style exam` draws it
  const { source, sink, value } = drawing, caption = asks() ? minus(`${value} from node ${source} to node ${sink}`) : "";
  return pictureOf(null, { title: minus(fileName), caption, paper: true, lines: asks() ? 8 : 0 });
}

function paperPages() {
  const { source, sink, value } = drawing, now = answered(), section = ({ text }, words = "") => {
    const made = document.createElement("section");
    made.innerHTML = text;
    if (words) made.prepend(paragraph(words));
    return made;
  };
  const question = `Can ${value} be delivered from node ${source} to node ${sink}? `
    + "If it can, give the setting of each channel. If it cannot, give a set of nodes that proves it, with its outward total.";
  const pages = [section(examPicture(), asks() ? question : "")], key = now && NAMED.key(now);
  if (key) pages.push(section(pictureOf(now.found, { title: minus(key[0]), caption: minus(key[1]) }), `Key: ${fileName}`));
  return pages;
}

function preparePaper() {
  attempt(() => $("paper").replaceChildren(...paperPages()));
}
addEventListener("beforeprint", preparePaper);
button("print", () => print());

ready = Promise.all([begun, beginPens()]).then(() => { redraw(); });
