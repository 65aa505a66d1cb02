"use strict";
// The unit's answers to the present drawing and question, as it changes. The page asks the worker, one question at a time; what changed meanwhile is asked next,
// and an answer to what is no longer asked is dropped. What is shown is what the unit said of exactly these bytes.

const UNIT = JSON.parse($("unit-about").textContent); // { version, module, functions, refusals, clang }
const bytesOf = id => Uint8Array.from(atob($(id).textContent.trim()), letter => letter.charCodeAt(0));
const worker = new Worker(URL.createObjectURL(new Blob([$("unit-worker").textContent], { type: "text/javascript" })));
const waitingFor = new Map();
let asked = 0;

worker.onmessage = ({ data: { id, answer, stopped } }) => {
  if (stopped) say(`The unit stopped: ${stopped}. Save your work and load the page again.`, true);
  else waitingFor.get(id)(answer);
  waitingFor.delete(id);
};

function askUnit(operation, given) {
  const id = ++asked;
  return new Promise(done => { waitingFor.set(id, done); worker.postMessage({ id, operation, given }); });
}

const begun = askUnit("begin", { wasm: bytesOf("unit-wasm"), functions: UNIT.functions });

const sentence = number => UNIT.refusals[number] || "there is no such refusal";

function refusalWords({ refused, place }) {
  const where = refused === 17 ? ` at channel ${place}` : refused === 18 ? ` at node ${place}` : "";
  return `refused ${refused}${where}: ${sentence(refused)}`;
}

// ---- The present question, and what is asked of it ------------------------------------------------

let present = null, live = null, busy = false, later = false;

function presentNow() {
  const sheet = sheetOf(drawing), { source, sink, value, work } = drawing, [channel] = chosen.channels, settings = candidateNow();
  const given = { sheet: pack({ ...sheet, question: null }), question: sheet.question ? pack(sheet) : null, nodes: sheet.nodes, channels: sheet.channels.length,
    source, sink, delivery: value, channel, candidate: settings, set: work.set || [], wanted: ["read"] };
  if (sheet.question) given.wanted.push("key", "range", ...(chosen.channels.size === 1 ? ["raise"] : []), ...(settings ? ["mark"] : []));
  if (settings && mode() === "levels") given.wanted.push("levels");
  if (given.set.length) given.wanted.push("totals");
  return given;
}

const sameGiven = (p, q) => p && q && sameBytes(p.sheet, q.sheet) && ["source", "sink", "delivery", "channel"].every(name => p[name] === q[name])
  && String(p.wanted) === String(q.wanted) && String(p.candidate) === String(q.candidate) && String(p.set) === String(q.set);

// Whether something changed since the last look: the parts of the state are compared by identity, and only then the bytes. While the hand drags something only
// places change, so that the turns tell.
let lastLook = [], lastTurns = null;

function notice() {
  const { source, sink, value, work } = drawing, now = shapeNow(), look = [source, sink, value, work, [...chosen.channels].join(), mode(), now];
  const same = i => look[i] === lastLook[i];
  if (look.every((_, i) => same(i))) return;
  const dragged = hand && look.every((_, i) => i === 6 || same(i)) && lastTurns && now.turns.every((turn, dart) => turn === lastTurns[dart]);
  [lastLook, lastTurns] = [look, now.turns];
  if (dragged) return;
  const given = presentNow();
  if (sameGiven(given, present)) { if (answered()) followUp(); return; }
  present = given;
  ask();
}

async function ask() {
  if (busy) { later = true; return; }
  busy = true;
  do {
    later = false;
    const given = present, answers = await askUnit("all", given);
    if (given === present) { live = { given, ...answers }; tellLive(); redraw(); }
  } while (later);
  busy = false;
}

const answered = () => live && live.given === present ? live : null;

// For tests/page: whether the present question is answered; and the key's text once it is.
examiner.live = () => { notice(); return answered(); };
examiner.answer = async () => { while (!examiner.live()) await new Promise(done => setTimeout(done, 0)); return live.key ? live.key.text : ""; };

// ---- What is shown over the drawing ----------------------------------------------------------------

const mode = () => $("mode").value;
const biggest = settings => Math.max(1, ...settings.map(Math.abs));
const withSettings = (settings, more = {}) => ({ settings, most: biggest(settings), ...more });

function withSet(nodes, more = {}) {
  const inside = new Set(nodes), counted = new Map(), limits = more.limits || drawing.channels.map(c => [c.forward, c.back]);
  drawing.channels.forEach((c, e) => {
    if (inside.has(c.tail) !== inside.has(c.head)) { const side = inside.has(c.tail) ? 0 : 1; counted.set(e, { dart: 2 * e + side, limit: limits[e][side] }); }
  });
  return { inside, counted, ...more };
}

// A set with what the unit says that each of its nodes has of the outward total.
const marked = (nodes, { subtotals }) => ({ inside: new Set(nodes), subtotals: new Map(nodes.map((v, i) => [v, subtotals[i]])) });
const shownNone = range => range && range.none ? withSet(range.set, marked(range.set, range.totals)) : null;
const faultAt = (nodes, channels) => ({ nodes: new Set(nodes), channels: new Set(channels) });

function shownFault(said) {
  return { fault: said.refused === 17 ? faultAt([], [said.place]) : said.refused === 18 ? faultAt([said.place], []) : faultAt([], []) };
}

const SHOWN = {
  plain: () => null,
  key: ({ found, where }) => found ? found : where ? { fault: faultAt(where.nodes, where.channels) } : null,
  least: ({ range }) => range && range.low ? withSettings(range.low, marked(range.below, range.belowTotals)) : shownNone(range),
  largest: ({ range }) => range && range.high ? withSettings(range.high, marked(range.above, range.aboveTotals)) : shownNone(range),
  raised: ({ raise }) => {
    if (!raise || raise.refused) return null;
    const limits = drawing.channels.map((c, e) => [e === raise.channel ? raise.limit ?? 1000000 : c.forward, c.back]);
    return raise.none ? withSet(raise.set, { limits, ...marked(raise.set, raise.totals) }) : withSettings(raise.settings, { limits });
  },
  candidate: ({ mark, given }) => given.candidate ? withSettings(given.candidate, mark ? shownFault(mark) : {}) : null,
  set: ({ totals, given }) => withSet(given.set, totals && !totals.refused ? marked(given.set, totals) : {}),
  levels: ({ levels, given }) => given.candidate ? withSettings(given.candidate, levels ? levels.refused ? shownFault(levels) : { levels: levels.levels } : {}) : null,
};

shownNow = () => {
  notice();
  if (key) return key;
  const now = answered();
  return now ? (SHOWN[mode()] || SHOWN.plain)(now) : null;
};

function setMode(name) {
  $("mode").value = name;
  redraw();
}
$("mode").addEventListener("change", redraw);

// ---- In words -------------------------------------------------------------------------------------

const paragraph = (words, name = "") => Object.assign(document.createElement("p"), { textContent: minus(words), className: name });
const listed = nodes => nodes.join(", ") || "no node";

function tellRange({ range }) {
  const box = $("range");
  box.classList.toggle("bad", Boolean(range && range.none));
  if (!range || range.refused) box.textContent = "";
  else if (range.none) box.textContent = minus(`nothing can be delivered: the set of ${listed(range.set)} has the outward total ${range.totals.total}`);
  else box.textContent = minus(range.least === range.largest ? `only ${range.least} can be delivered` : `${range.least} to ${range.largest} can be delivered`);
}

function tellRaise({ raise, given }) {
  const box = $("raised");
  if (!raise || raise.refused && raise.refused !== 15) { box.textContent = ""; return; }
  const now = drawing.channels[raise.channel ?? 0].forward, must = `For a delivery of ${given.delivery}`;
  box.textContent = minus(raise.refused ? refusalWords(raise)
    : raise.none ? `${must} no forward limit up to 1,000,000 is enough: the set of ${listed(raise.set)} proves it.`
      : raise.limit === now ? `${must} its forward limit is enough as it is.` : `${must} its forward limit must be raised to ${raise.limit}.`);
}

function tellLive() {
  const now = live, box = $("live"), sheet = sheetOf(drawing);
  now.where = now.found = null;
  box.replaceChildren();
  const refused = now.key ? /^refused (\d+)/.exec(now.key.text) : now.read.refused && drawing.nodes.length ? [0, now.read.refused] : null;
  if (refused) {
    const number = +refused[1];
    now.where = whereOf(number, sheet);
    box.append(paragraph(`refused ${number}: ${sentence(number)}`, "bad"));
    if (now.where.words) box.append(paragraph(`Hint, by a look that proves nothing: ${now.where.words}.`));
  } else if (now.key) {
    try {
      now.found = keyForm(readKey(now.key.text, drawing));
      if (now.found.leaving) Object.assign(now.found, { total: now.key.totals.total }, marked([...now.found.inside], now.key.totals));
      tellKey(now.found, box);
    } catch (fault) {
      if (!(fault instanceof Fault)) throw fault;
      box.append(paragraph(`The page cannot show what the unit said. ${fault.message}`, "bad"));
    }
  } else if (drawing.nodes.length) box.append(paragraph("The sheet is accepted. Name headgate and outfall, and the answer stands here.", "soft"));
  for (const id of ["source", "sink", "value", "outer"]) $(id).setAttribute("aria-invalid", Boolean(now.where && now.where.field === id));
  const verdict = now.key ? now.key.text.split("\n")[0].split(" ").slice(0, 2).join(" ") : "";
  $("verdict").textContent = minus(verdict);
  $("verdict").className = verdict.startsWith("can ") ? "" : "bad";
  tellRange(now);
  tellRaise(now);
  tellCandidate(now);
  tellSet(now);
  tellLevels(now);
  followUp();
}

$("version").textContent = `The unit ${UNIT.version}, proved for every input (module ${UNIT.module.slice(0, 16)}), in this page as WebAssembly. The compiler's `
  + "WebAssembly back end is tested, not proved; so is this page, which shows what the unit answers.";
