"use strict";
// The proved unit, in a worker of its own: so the hand does not wait for an answer. It is handed the WebAssembly and the list of functions that tools/bindings
// makes, and then one operation after another, { id, operation, given }; it gives back { id, answer }. Nothing here decides: an operation lends memory, calls
// the unit, and hands on what the unit said. A refusal is { refused: its number, place }.
const CHANNELS = 512, DARTS = 1024, FACES = 1024, WORDS = 9, KEY_TEXT = 6671, PRACTICE = 8165, DIMACS = 18463;
let unit = null, kinds = null;

// Calls a function. What it is lent are typed arrays: copied into the unit's memory, and back when it has written.
function call(name, ...given) {
  const { memory, __heap_base: base } = unit, words = [], lent = [];
  let at = base.value;
  given.forEach((value, i) => {
    const kind = kinds.get(name)[i];
    if (kind === "number") return words.push(value);
    if (kind === "long") return words.push(BigInt(value));
    at = at + 7 & ~7;
    lent.push([new Uint8Array(value.buffer, value.byteOffset, value.byteLength), at]);
    words.push(at, ...(kind === "slice" ? [BigInt(value.length)] : []));
    at += value.byteLength;
  });
  const missing = Math.ceil((at + 8 - memory.buffer.byteLength) / 65536);
  if (missing > 0) memory.grow(missing);
  for (const [bytes, where] of lent) new Uint8Array(memory.buffer).set(bytes, where);
  const result = unit[name](...words);
  for (const [bytes, where] of lent) bytes.set(new Uint8Array(memory.buffer, where, bytes.length));
  return result;
}

const nodesOf = (words, first = 0, count = WORDS) => {
  const nodes = [];
  for (let v = 0; v < 64 * count; v++) if (words[first + (v >> 6)] >> BigInt(v & 63) & 1n) nodes.push(v);
  return nodes;
};

function wordsOf(nodes, count = WORDS) {
  const words = new BigUint64Array(count);
  for (const v of nodes) if (v < 64 * count) words[v >> 6] |= 1n << BigInt(v & 63);
  return words;
}

const text = (bytes, length) => new TextDecoder().decode(bytes.subarray(0, Number(length[0])));
const settingsFor = count => new Int32Array(Math.max(CHANNELS, count));

// What every operation on a sheet is given: its bytes, its counts of nodes and channels as drawn, the ends and the delivery of the question.
const OPERATIONS = {
  key({ question }) {
    const said = new Uint8Array(KEY_TEXT), length = new BigUint64Array(1), place = new Uint16Array(1);
    const refused = call("analyser_key_text", question, said, length, place);
    return refused ? { refused, place: place[0] } : { text: text(said, length) };
  },

  read({ sheet }) {
    const half = () => new Uint16Array(DARTS), counts = [0, 1, 2].map(() => new Uint16Array(1)), place = new Uint16Array(1);
    const refused = call("analyser_read", sheet, half(), half(), new Int32Array(DARTS), ...counts, place);
    return refused ? { refused, place: place[0] } : { nodes: counts[0][0], channels: counts[1][0], outer: counts[2][0] };
  },

  range({ sheet, channels, source, sink }) {
    const low = settingsFor(channels), high = settingsFor(channels), below = new BigUint64Array(WORDS), above = new BigUint64Array(WORDS);
    const found = new Uint8Array(1), least = new Int32Array(1), largest = new Int32Array(1), place = new Uint16Array(1);
    const refused = call("analyser_least_and_largest", sheet, source, sink, low, below, high, above, found, least, largest, place);
    if (refused) return { refused, place: place[0] };
    if (!found[0]) return { none: true, set: nodesOf(below) };
    return { least: least[0], largest: largest[0], low: [...low.subarray(0, channels)], high: [...high.subarray(0, channels)],
      below: nodesOf(below), above: nodesOf(above) };
  },

  raise({ sheet, channels, source, sink, delivery, channel }) {
    const settings = settingsFor(channels), set = new BigUint64Array(WORDS), found = new Uint8Array(1), limit = new Int32Array(1), place = new Uint16Array(1);
    const refused = call("analyser_raise_limit", sheet, source, sink, delivery, channel, settings, set, found, limit, place);
    if (refused) return { refused, place: place[0] };
    if (found[0]) return { channel, limit: limit[0], settings: [...settings.subarray(0, channels)] };
    const nodes = nodesOf(set), raised = sheet.slice(), head = sheet[0] === 4 ? 7 : 5; // the set proves it for this limit, so its totals are of this sheet
    new DataView(raised.buffer).setInt32(head + 17 * channel + 9, 1000000, true);
    return { channel, none: true, set: nodes, totals: OPERATIONS.totals({ sheet: raised, set: nodes }) };
  },

  mark({ sheet, source, sink, candidate }) {
    const value = new Int32Array(1), place = new Uint16Array(1), refused = call("analyser_mark", sheet, source, sink, Int32Array.from(candidate), value, place);
    return refused ? { refused, place: place[0] } : { value: value[0] };
  },

  levels({ sheet, candidate }) {
    const levels = new Int32Array(FACES), place = new Uint16Array(1), faces = FACES;
    levels.fill(0x7fffffff); // no level is as great: what is left was not written
    const refused = call("analyser_levels_from_settings", sheet, Int32Array.from(candidate), levels, place);
    return refused ? { refused, place: place[0] } : { levels: [...levels.subarray(0, faces)].filter(z => z !== 0x7fffffff) };
  },

  settings({ sheet, channels, levels }) {
    const settings = settingsFor(channels), place = new Uint16Array(1);
    const refused = call("analyser_settings_from_levels", sheet, Int32Array.from(levels), settings, place);
    return refused ? { refused, place: place[0] } : { settings: [...settings.subarray(0, channels)] };
  },

  totals({ sheet, set }) {
    const subtotals = new Int32Array(Math.max(1, set.length)), total = new Int32Array(1), place = new Uint16Array(1);
    const refused = call("analyser_totals", sheet, wordsOf(set), subtotals, total, place);
    return refused ? { refused, place: place[0] } : { subtotals: [...subtotals.subarray(0, set.length)], total: total[0] };
  },

  practice({ rows, columns, seed }) {
    const sheet = new Uint8Array(PRACTICE), length = new BigUint64Array(1), place = new Uint16Array(1);
    const refused = call("analyser_practice_sheet", rows, columns, seed, sheet, length, place);
    return refused ? { refused, place: place[0] } : { sheet: sheet.slice(0, Number(length[0])) };
  },

  dimacs({ sheet, source, sink }) {
    const said = new Uint8Array(DIMACS), length = new BigUint64Array(1), place = new Uint16Array(1);
    const refused = call("analyser_write_dimacs", sheet, source, sink, said, length, place);
    return refused ? { refused, place: place[0] } : { text: text(said, length) };
  },

  // A page of up to 64 questions, [headgate, outfall, delivery] each. More are the unit's to refuse.
  page({ sheet, nodes, channels, questions }) {
    const count = questions.length, room = Math.max(64, count), words = Math.ceil(nodes / 64), column = (kind, i) => {
      const made = new kind(room);
      questions.forEach((row, k) => { made[k] = row[i]; });
      return made;
    };
    const settings = new Int32Array(Math.max(1, Math.min(count, 64) * channels)), sets = new BigUint64Array(Math.max(1, Math.min(count, 64) * words));
    const answers = new Uint8Array(room), sizes = new Uint16Array(room), place = new Uint16Array(1);
    const refused = call("analyser_page", sheet, count, column(Uint16Array, 0), column(Uint16Array, 1), column(Int32Array, 2), settings, sets, answers,
      sizes, place);
    if (refused) return { refused, place: place[0] };
    return { answers: questions.map((_, k) => answers[k] === 1 ? { settings: [...settings.subarray(k * channels, (k + 1) * channels)] }
      : answers[k] === 0 ? { set: nodesOf(sets, k * words, words) } : { refused: answers[k] }) };
  },

  // A class. Papers: { settings, claim: a number or null for none, set }. The points of all; then those of the settings alone, of the claim alone, of the set alone
  // and of claim and set, each by Examine too: on a paper whose other parts are replaced by ones that earn nothing whatever the sheet is (a setting beyond every
  // limit, a claim beyond every delivery, the empty set).
  examine({ sheet, nodes, channels, source, sink, delivery, papers }) {
    const words = Math.ceil(nodes / 64), beyond = new Array(channels).fill(0x7fffffff), wrong = { claim: 0x7fffffff, set: [] };
    const marked = list => {
      const claims = new Int32Array(list.length), kinds = new Uint8Array(list.length), settings = new Int32Array(list.length * channels);
      const sets = new BigUint64Array(list.length * words), points = new Uint8Array(list.length), figures = [new Uint16Array(1), new Uint16Array(1),
        new Uint8Array(1), new Uint8Array(1)], place = new Uint16Array(1);
      list.forEach((paper, q) => {
        claims[q] = paper.claim === null ? 0 : paper.claim;
        kinds[q] = paper.claim === null ? 1 : 0;
        settings.set(paper.settings, q * channels);
        sets.set(wordsOf(paper.set, words), q * words);
      });
      const refused = call("analyser_examine", sheet, source, sink, delivery, claims, kinds, settings, sets, points, ...figures, place);
      return refused ? { refused, place: place[0] } : { points: [...points], figures: figures.map(one => one[0]) };
    };
    const all = marked(papers);
    if (all.refused) return all;
    const only = keep => marked(papers.map(paper => ({ settings: beyond, ...wrong, ...keep(paper) }))).points;
    const apart = { settings: only(({ settings }) => ({ settings })), claims: only(({ claim }) => ({ claim })), sets: only(({ set }) => ({ set })),
      both: only(({ claim, set }) => ({ claim, set })) };
    const [number, sum, least, greatest] = all.figures;
    return { points: all.points, ...apart, number, sum, least, greatest };
  },

  // A session is the fields of the C struct, as plain arrays. Each call gives a new one, so that what was can be gone back to.
  start({ sheet }) {
    const session = { nodes: new Uint16Array(1), channels: new Uint16Array(1), outer: new Uint16Array(1), tails: new Uint16Array(DARTS),
      turns: new Uint16Array(DARTS), limits: new Int32Array(DARTS), left: new Int32Array(DARTS), standing: new Uint8Array(2),
      offers: [new Int32Array(CHANNELS), new Int32Array(CHANNELS)] }, place = new Uint16Array(1), s = session;
    const refused = call("analyser_session_start", sheet, s.nodes, s.channels, s.outer, s.tails, s.turns, s.limits, s.left, s.standing, ...s.offers, place);
    return refused ? { refused, place: place[0] } : { session: plainSession(session) };
  },

  ask({ session, party, source, sink, delivery }) {
    const s = typedSession(session), settings = new Int32Array(CHANNELS), set = new BigUint64Array(WORDS), can = new Uint8Array(1), size = new Uint16Array(1);
    const place = new Uint16Array(1), refused = call("analyser_session_ask", party, s.nodes[0], s.channels[0], s.outer[0], s.tails, s.turns, s.limits, s.left,
      s.standing, ...s.offers, source, sink, delivery, settings, set, can, size, place), now = { session: plainSession(s) };
    if (refused) return { ...now, refused, place: place[0] };
    return can[0] ? { ...now, settings: [...settings.subarray(0, s.channels[0])] } : { ...now, set: nodesOf(set) };
  },

  commit({ session, party }) {
    const s = typedSession(session), place = new Uint16Array(1), refused = call("analyser_session_commit", party, s.nodes[0], s.channels[0], s.outer[0],
      s.tails, s.turns, s.limits, s.left, s.standing, ...s.offers, place), now = { session: plainSession(s) };
    return refused ? { ...now, refused, place: place[0] } : now;
  },

  clear({ session }) {
    const s = typedSession(session);
    call("analyser_session_clear", s.nodes[0], s.channels[0], s.outer[0], s.tails, s.turns, s.limits, s.left, s.standing, ...s.offers);
    return { session: plainSession(s) };
  },

  after({ sheet, channels, source, sink, capture, window, record }) {
    const limits = settingsFor(channels), settings = settingsFor(channels), set = new BigUint64Array(WORDS), found = new Uint8Array(1);
    const value = new Int32Array(1), place = new Uint16Array(1);
    const refused = call("analyser_largest_after", sheet, capture, window, record, source, sink, limits, settings, set, found, value, place);
    if (refused) return { refused, place: place[0] };
    const now = { limits: [...limits.subarray(0, channels)], set: nodesOf(set) };
    return found[0] ? { ...now, largest: value[0], settings: [...settings.subarray(0, channels)] } : { ...now, none: true };
  },

  // All that is asked of the present drawing at once, by name: one message there, one back. A set that the key or the range names comes with its totals.
  all({ wanted, ...given }) {
    const said = Object.fromEntries(wanted.map(name => [name, OPERATIONS[name](given)])), { key, range } = said, total = set => OPERATIONS.totals({ ...given, set });
    if (key && key.text.startsWith("cannot")) key.totals = total(key.text.trim().split("\n").slice(1).map(Number));
    if (range && range.none) range.totals = total(range.set);
    if (range && range.low) Object.assign(range, { belowTotals: total(range.below), aboveTotals: total(range.above) });
    return said;
  },
};

const FIELDS = ["nodes", "channels", "outer", "tails", "turns", "limits", "left", "standing"];
const KINDS = { nodes: Uint16Array, channels: Uint16Array, outer: Uint16Array, tails: Uint16Array, turns: Uint16Array, limits: Int32Array, left: Int32Array,
  standing: Uint8Array };
const plainSession = s => ({ ...Object.fromEntries(FIELDS.map(name => [name, [...s[name]]])), offers: s.offers.map(one => [...one]) });
const typedSession = s => ({ ...Object.fromEntries(FIELDS.map(name => [name, KINDS[name].from(s[name])])), offers: s.offers.map(one => Int32Array.from(one)) });

let begun = null;

async function begin({ wasm, functions }) {
  unit = (await WebAssembly.instantiate(wasm)).instance.exports;
  kinds = new Map(functions);
  return true;
}

onmessage = async ({ data: { id, operation, given } }) => {
  try {
    if (operation === "begin") begun = begin(given);
    await begun;
    postMessage({ id, answer: operation === "begin" ? true : OPERATIONS[operation](given) });
  } catch (fault) { postMessage({ id, stopped: String(fault) }); }
};
