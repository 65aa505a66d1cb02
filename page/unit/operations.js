"use strict";
// The other operations, each with its section of the panel: what is typed goes into `drawing.work`, so that undo goes over it and the browser keeps it; what the
// unit says of it is shown there and over the drawing.

const worked = (name, value) => change(d => { d.work = { ...d.work, [name]: value }; });

function soften(fault) { // a fault that came later than `attempt` could see it
  if (!(fault instanceof Fault)) throw fault;
  say(fault.message, true);
}

const button = (id, work) => $(id).addEventListener("click", () => { const done = attempt(work); if (done instanceof Promise) done.catch(soften); });

// The words of a text as whole numbers; a comma may stand between them.
function numbersOf(words, what, range = LONG) {
  return words.replaceAll("\u2212", "-").split(/[\s,;]+/).filter(Boolean).map(word => wholeNumber(word, what, range));
}

function onText(id, read) { // a text area: taken when it is left, or after a pause
  $(id).addEventListener("change", () => attempt(() => { read($(id).value); say(""); }));
}

function asking() {
  if (drawing.source === null || drawing.sink === null) throw new Fault("Name headgate and outfall first.");
}

const sections = [...document.querySelectorAll("aside details")];
const SECTION_MODES = { "at-candidate": "candidate", "at-set": "set", "at-levels": "levels", "at-table": "table", "at-capture": "capture" };
for (const one of sections) one.addEventListener("toggle", () => { if (one.open && SECTION_MODES[one.id]) setMode(SECTION_MODES[one.id]); });

// Texts that are in the state are put back into their fields after undo, a reload or a new file.
function putBack() {
  const { work } = drawing, put = (id, words) => { if (document.activeElement !== $(id) && $(id).value !== words) $(id).value = words; };
  put("candidate", work.candidate ? work.candidate.map(x => x ?? "?").join(" ") : "");
  put("set", (work.set || []).join(" "));
  put("questions", work.questions || "");
  put("papers", work.papers || "");
  put("window", String(work.window ?? 16));
  put("record", work.capture ? String(work.record ?? 0) : "");
}

// ---- A candidate's settings, typed on the channels ---------------------------------------------------

const candidateNow = () => drawing.work.candidate ? drawing.channels.map((_, e) => drawing.work.candidate[e] ?? 0) : null;

function setCandidate(list) {
  worked("candidate", list);
  if (mode() !== "levels") setMode("candidate");
}

function typeOn(e) { // a field on the channel itself
  if (e >= drawing.channels.length) return;
  const old = $("typed"), field = old || Object.assign(document.createElement("input"), { type: "text", id: "typed" });
  const [x, y] = middleOf(shapeNow().lines[e]);
  Object.assign(field.style, { left: `${(x - view.x) * view.zoom}px`, top: `${(y - view.y) * view.zoom}px` });
  field.setAttribute("aria-label", `setting of channel ${e}`);
  field.inputMode = "numeric";
  const list = drawing.work.candidate || [];
  field.value = list[e] ?? "";
  field.dataset.channel = e;
  if (!old) {
    document.querySelector("main").append(field);
    field.addEventListener("keydown", event => {
      if (event.key === "Escape") { field.value = ""; canvas.focus(); event.stopPropagation(); }
      if (event.key === "Enter" || event.key === "Tab") { event.preventDefault(); if (takeTyped(field)) typeOn(+field.dataset.channel + (event.shiftKey ? -1 : 1)); }
    });
    field.addEventListener("blur", () => { if (field.isConnected) { takeTyped(field); field.remove(); } });
  }
  choose([], [e]);
  field.focus();
  field.select();
}

function takeTyped(field) {
  const e = +field.dataset.channel, word = field.value.trim().replace("\u2212", "-"), old = drawing.work.candidate || [];
  if (!word || String(old[e]) === word) return true;
  return attempt(() => {
    const value = wholeNumber(word, `setting of channel ${e}`, LONG), last = +field.dataset.channel === drawing.channels.length - 1;
    setCandidate(drawing.channels.map((_, i) => i === e ? value : old[i] ?? null));
    if (last) { canvas.focus(); return false; }
    return true;
  });
}

addTool(["mark", "M", "Mark", "Click a channel and type the candidate's setting; Enter goes on to the next channel."], p => {
  const e = channelAt(p);
  if (e === null) return say("Click a channel.", true);
  setMode("candidate");
  $("at-candidate").open = true;
  setTimeout(() => typeOn(e)); // after the press, which takes the focus
});
onText("candidate", words => {
  const list = words.trim() ? numbersOf(words.replaceAll("?", "0"), "setting") : null;
  const due = drawing.channels.length;
  if (list && list.length !== due) throw new Fault(`Here are ${list.length} settings, and the sheet has ${due} channels.`);
  setCandidate(list);
});
button("candidate-key", () => {
  const now = answered();
  if (!now || !now.found || !now.found.settings) throw new Fault("The key has no settings.");
  setCandidate(now.found.settings.slice());
});
button("candidate-none", () => worked("candidate", null));

function tellCandidate({ mark, given }) {
  const box = $("marked");
  box.className = mark && mark.refused ? "bad" : "";
  box.textContent = !given.candidate ? "" : !mark ? "Name headgate and outfall to have it marked."
    : minus(mark.refused ? refusalWords(mark) : `The settings are right: they carry ${mark.value}.`);
  putBack();
}

// ---- A set, chosen by clicks ------------------------------------------------------------------------

const rising = nodes => [...new Set(nodes)].sort((u, v) => u - v);

function setSet(nodes) {
  worked("set", rising(nodes));
  setMode("set");
}

addTool(["set", "T", "Set", "Click nodes: each goes into the set, or out of it again."], p => {
  const v = nodeAt(p), now = drawing.work.set || [];
  if (v === null) return say("Click a node.", true);
  $("at-set").open = true;
  setSet(now.includes(v) ? now.filter(u => u !== v) : [...now, v]);
});
onText("set", words => {
  const nodes = numbersOf(words, "node", SHORT), none = nodes.find(v => v >= drawing.nodes.length);
  if (none !== undefined) throw new Fault(`There is no node ${none}.`);
  setSet(nodes);
});
button("set-key", () => {
  const now = answered();
  if (!now || !now.found || !now.found.inside) throw new Fault("The key has no set.");
  setSet(now.found.inside);
});
button("set-none", () => setSet([]));

function tellSet({ totals, given }) {
  const box = $("totals");
  if (!given.set.length || !totals) return box.replaceChildren();
  if (totals.refused) return box.replaceChildren(paragraph(refusalWords(totals), "bad"));
  box.replaceChildren(scrolled(table(["node", "of the outward total"], given.set.map((v, i) => [`node ${v}`, totals.subtotals[i]]), ["outward total", totals.total])));
}

// ---- Levels -------------------------------------------------------------------------------------------

button("less-key", () => {
  const now = answered(), own = candidateNow();
  if (!own || !now || !now.found || !now.found.settings) throw new Fault("This needs a candidate's settings and a key that can.");
  setMode("levels");
  setCandidate(own.map((x, e) => x - now.found.settings[e]));
});
button("from-levels", async () => {
  const said = await askUnit("settings", { ...presentNow(), levels: numbersOf($("levels").value, "level") });
  if (said.refused) return say(refusalWords(said), true);
  setMode("levels");
  setCandidate(said.settings);
});

function tellLevels({ levels, given }) {
  const box = $("levelled");
  if (!levels || !given.candidate) return box.replaceChildren();
  if (levels.refused) return box.replaceChildren(paragraph(refusalWords(levels), "bad"));
  const faces = facesOf(shapeNow().turns);
  const rows = levels.levels.map((level, i) => [`${i}: left of dart ${faces[i] ? faces[i][0] : "?"}`, level]);
  box.replaceChildren(scrolled(table(["face", "level"], rows)));
  if (document.activeElement !== $("levels")) $("levels").value = levels.levels.join(" ");
}

// ---- A page of questions ------------------------------------------------------------------------------

function questionsOf(text) {
  return textLines(text).map(([line, words]) => {
    if (words[0] === "question") words.shift();
    if (words[2] && words[2].endsWith(":")) words.splice(2, words.length, words[2].slice(0, -1)); // an answered page: its answers are passed over
    if (words.length !== 3) throw new Fault(`questions, line ${line}: a question has 3 numbers (headgate, outfall, delivery), here are ${words.length}`);
    return words.map((word, i) => wholeNumber(word, `questions, line ${line}: ${QUESTION.short[i] || "delivery"}`, i < 2 ? SHORT : LONG));
  });
}

async function answerPage() {
  const text = drawing.work.questions || "", given = presentNow();
  if (!text.trim()) { $("page-answers").textContent = ""; return ""; }
  const questions = questionsOf(text), said = await askUnit("page", { ...given, questions });
  const words = said.refused ? refusalWords(said) + "\n" : said.answers.map((answer, i) => `question ${questions[i].join(" ")}: `
    + (answer.settings ? `can ${answer.settings.join(" ")}` : answer.set ? `cannot ${answer.set.join(" ")}`.trim() : `refused ${answer.refused}`) + "\n").join("");
  $("page-answers").textContent = words;
  return words;
}
onText("questions", words => { questionsOf(words); worked("questions", words); });
button("add-question", () => {
  asking();
  const line = `question ${drawing.source} ${drawing.sink} ${drawing.value}\n`, old = drawing.work.questions || "";
  worked("questions", old + (old && !old.endsWith("\n") ? "\n" : "") + line);
});
button("save-page", async () => save(await answerPage(), `${fileName}.page`, `Saved ${fileName}.page: the questions with their answers.`));

// ---- A class of papers --------------------------------------------------------------------------------

// CSV as spreadsheets write it, and as tools/unit reads it: cells between commas, semicolons or tabs, perhaps in quotes, in which a quote is doubled and a line
// may end. The first line is the head: one of its cells is `name`.
function markOf(text) {
  const head = text.split("\n")[0], named = mark => head.split(mark).some(cell => cell.trim().replaceAll('"', "").toLowerCase() === "name");
  return [",", ";", "\t"].find(mark => head.includes(mark) && named(mark));
}

function rowsOf(text, mark) { // [line, cells] of each row that has something in a cell
  const rows = [], form = new RegExp(`\\s*"((?:[^"]|"")*)"[^${mark}\n]*|([^${mark}\n]*)`, "y");
  for (let at = 0, line = 1; at <= text.length;) {
    const cells = [], begins = line;
    for (;;) {
      form.lastIndex = at;
      const [all, quoted, bare] = form.exec(text);
      cells.push(quoted === undefined ? bare.replace(/\r$/, "") : quoted.replaceAll('""', '"'));
      line += all.split("\n").length - 1;
      at += all.length + 1;
      if (text[at - 1] !== mark) break;
    }
    line++;
    if (cells.some(cell => cell.trim())) rows.push([begins, cells]);
  }
  return rows;
}

// A paper's three parts. A part that cannot be read, or that no sheet could have, earns nothing, and a note says why; the others are marked.
function paperOf(line, name, parts, notes, channels, nodes) {
  const part = (what, words, wrong, read) => {
    try { if (words === undefined) throw new Fault(`${what}: the part is missing`); return read(words); } catch (fault) { notes.push(fault.message); return wrong; }
  };
  const settings = part("settings", parts[0], new Array(channels).fill(0x7fffffff), words => {
    const list = numbersOf(words, "setting");
    if (list.length !== channels) throw new Fault(`settings: here are ${list.length}, and the sheet has ${channels} channels`);
    return list;
  });
  const claim = part("claim", parts[1], 0x7fffffff, words => {
    const [word, more] = words.trim().split(/\s+/);
    if (!word || more) throw new Fault(`claim: ${word ? "more than one word" : "there is none"}; it is a number or 'none'`);
    return word.toLowerCase() === "none" ? null : wholeNumber(word, "claim", LONG);
  });
  const set = part("set", parts[2], [], words => {
    const list = numbersOf(words, "node", SHORT), none = list.find(v => v >= nodes);
    if (none !== undefined) throw new Fault(`set: there is no node ${none}, the last is ${nodes - 1}`);
    return list;
  });
  const file = drawing.work.papersName || "papers", named = name || `line ${line}`;
  return { name: named, settings, claim, set, notes: notes.map(what => `${file}:${line}: ${named}: ${what}`) };
}

const PAPER = "'NAME: SETTING .. | CLAIM | NODE ..'", COLUMNS = ["name", "settings", "claim", "set"];

function papersOf(text, channels, nodes) {
  const mark = markOf(text);
  if (mark) {
    const [[line, head], ...rows] = rowsOf(text, mark), places = COLUMNS.map(name => head.findIndex(cell => cell.trim().toLowerCase() === name));
    const missing = places.indexOf(-1);
    if (missing >= 0) throw new Fault(`line ${line}: no column '${COLUMNS[missing]}', so no class: it has ${COLUMNS.join(", ")}`);
    return rows.map(([at, cells]) => {
      const [name = "", ...parts] = places.map(place => cells[place]);
      return paperOf(at, name.trim(), parts, name.trim() ? [] : ["no name"], channels, nodes);
    });
  }
  const lines = text.split("\n").map((line, i) => [i + 1, line.split("#")[0].trim()]).filter(([, line]) => line);
  if (lines.length && !lines.some(([, line]) => /[:|]/.test(line))) throw new Fault(`line ${lines[0][0]}: not ${PAPER}, so no class`);
  return lines.map(([at, line]) => {
    const colon = line.indexOf(":"), name = line.slice(0, Math.max(0, colon)).trim(), parts = line.slice(colon + 1).split("|"), notes = [];
    if (!name) notes.push(`no name: not ${PAPER}`);
    if (parts.length > 3) notes.push("what stands behind the third part is passed over");
    return paperOf(at, name, parts, notes, channels, nodes);
  });
}

const looksLikeClass = text => Boolean(markOf(text)) || textLines(text).some(([, words]) => words.join(" ").includes("|"));

function cellOf(word) { // a spreadsheet takes what begins with one of four signs for a formula: a quote before it says that it is none
  const plain = /^[=+@-]/.test(word) ? `'${word}` : String(word);
  return /[,"\n\r]/.test(plain) ? `"${plain.replaceAll('"', '""')}"` : plain;
}

// The points by part, each by the unit. Where nothing can be delivered claim and set earn 6 together, which are shown as 3 each, as tools/unit does.
async function markClass() {
  const box = $("points"), text = drawing.work.papers || "", given = presentNow();
  if (!text.trim()) { box.replaceChildren(); return ""; }
  asking();
  const papers = papersOf(text, given.channels, given.nodes), said = await askUnit("examine", { ...given, papers: papers.map(({ notes, name, ...paper }) => paper) });
  if (said.refused) { box.replaceChildren(paragraph(refusalWords(said), "bad")); return ""; }
  const rows = papers.map((paper, q) => {
    const together = (said.both[q] - said.claims[q] - said.sets[q]) / 2;
    return [paper.name, said.points[q], said.settings[q], said.claims[q] + together, said.sets[q] + together, paper.notes.join("; ")];
  });
  const figures = [["papers", said.number], ["sum", said.sum],
    ...(said.number ? [["least", said.least], ["greatest", said.greatest], ["mean", `${said.sum}/${said.number}`]] : [])];
  const notes = papers.flatMap(paper => paper.notes).map(note => paragraph(note, "soft"));
  const heads = [["paper", "points", "settings", "claim", "set"], ["of", 10, 4, 3, 3]];
  box.replaceChildren(scrolled(table(heads[0], [heads[1], ...rows.map(row => row.slice(0, 5))])), ...notes, table(["the class", ""], figures));
  return [["name", "points", "settings", "claim", "set", "notes"], ...rows].map(row => row.map(cellOf).join(",") + "\n").join("");
}
onText("papers", words => change(d => { d.work = { ...d.work, papers: words, papersName: null }; }));
button("open-class", () => $("file").click());
button("save-class", async () => {
  const csv = await markClass();
  if (csv) save(csv, `${fileName}.csv`, `Saved ${fileName}.csv: the points by part, and the figures.`);
});

// ---- Two demonstrators ----------------------------------------------------------------------------------

const STANDINGS = ["no offer", "an offer", "a stale offer", "committed"];

async function sessionNow() {
  const { sheet } = presentNow(), held = drawing.work.session;
  if (held && sameBytes(held.sheet, [...sheet])) return held;
  const said = await askUnit("start", { sheet });
  if (said.refused) throw new Fault(refusalWords(said));
  return { sheet: [...sheet], state: said.session, log: [], last: null };
}

async function callSession(operation, given, words) {
  const held = await sessionNow(), said = await askUnit(operation, { ...given, session: held.state });
  const told = said.refused ? refusalWords(said) : said.settings ? `can ${said.settings.join(" ")}` : said.set ? `cannot ${said.set.join(" ")}` : "done";
  const last = said.refused ? held.last : operation === "ask" ? { words, value: given.delivery, source: given.source,
    sink: given.sink, settings: said.settings, set: said.set, left: held.state.left } : null;
  worked("session", { ...held, state: said.session, log: [...held.log, `${words}: ${told}`], last });
  setMode("table");
}

for (const party of [0, 1]) {
  const asks = () => {
    asking();
    const { source, sink } = drawing, delivery = wholeNumber($(`ask-${party}`).value.trim().replace("\u2212", "-"), "delivery", LONG);
    return callSession("ask", { party, source, sink, delivery }, `${party} ask ${source} ${sink} ${delivery}`);
  };
  button(`asks-${party}`, asks);
  $(`ask-${party}`).addEventListener("keydown", event => { if (event.key === "Enter") $(`asks-${party}`).click(); });
  button(`commit-${party}`, () => callSession("commit", { party }, `${party} commit`));
}
button("table-clear", () => callSession("clear", {}, "clear"));
button("table-end", () => worked("session", null));

const leftOf = left => drawing.channels.map((_, e) => [left[2 * e], left[2 * e + 1]]);
const sessionFits = () => { const held = drawing.work.session; return held && present && sameBytes(held.sheet, [...present.sheet]) ? held : null; };

SHOWN.table = () => {
  const held = sessionFits();
  if (!held) return null;
  const { last } = held, limits = leftOf(last ? last.left : held.state.left); // an answer is shown on the limits that it was asked on
  return last && last.settings ? withSettings(last.settings, { limits }) : last && last.set ? withSet(last.set, { limits }) : { limits };
};

function tellTable() {
  const held = drawing.work.session, fits = sessionFits();
  const state = held ? held.state.standing.map((one, party) => `party ${party}: ${STANDINGS[one]}`).join("; ") : "";
  $("calls").textContent = !held ? "" : fits ? [...held.log, state].join("\n") : "The drawing is another one now: the next call begins a new session.";
}

// ---- Limits from a capture --------------------------------------------------------------------------------

const RECORD = 11;

function captureOf(text) {
  const rows = textLines(text).map(([line, words]) => {
    if (words.length !== 3) throw new Fault(`line ${line}: a record has 3 numbers (tick, channel, forward limit), here are ${words.length}`);
    return words.map((word, i) => wholeNumber(word, `line ${line}: ${["tick", "channel", "forward limit"][i]}`, [[0, 2 ** 32 - 1], SHORT, LONG][i]));
  });
  const bytes = new Uint8Array(RECORD * rows.length), view = new DataView(bytes.buffer);
  rows.forEach(([tick, channel, limit], i) => {
    view.setUint8(RECORD * i, 5);
    view.setUint32(RECORD * i + 1, tick, true);
    view.setUint16(RECORD * i + 5, channel, true);
    view.setInt32(RECORD * i + 7, limit, true);
  });
  return bytes;
}

let after = null;

async function stepCapture() {
  const { capture, window: size = 16, record = 0 } = drawing.work, box = $("after");
  if (!capture) { after = null; box.textContent = ""; return; }
  if (drawing.source === null || drawing.sink === null) { box.textContent = "Name headgate and outfall."; return; }
  const given = presentNow(), bytes = Uint8Array.from(capture), count = Math.floor(bytes.length / RECORD);
  const said = await askUnit("after", { ...given, capture: bytes, window: size, record });
  after = { given, work: drawing.work, ...said };
  const view = new DataView(bytes.buffer), at = RECORD * record;
  const words = record < count ? `tick ${view.getUint32(at + 1, true)}, channel ${view.getUint16(at + 5, true)}, limit ${view.getInt32(at + 7, true)}` : "no record";
  const told = said.refused ? refusalWords(said) : said.none ? `nothing can be delivered: the set of ${listed(said.set)} proves it` : `largest ${said.largest}`;
  box.replaceChildren(paragraph(`Record ${record} of ${count}: ${words}.`), paragraph(told, said.refused ? "bad" : ""));
  redraw();
}

SHOWN.capture = () => {
  if (!after || after.refused || after.work !== drawing.work || !sameBytes(after.given.sheet, present.sheet)) return null;
  const limits = drawing.channels.map((c, e) => [after.limits[e], c.back]);
  return after.none ? withSet(after.set, { limits }) : withSettings(after.settings, { limits, inside: new Set(after.set) });
};

function moveRecord(by) {
  const { capture, record = 0 } = drawing.work, count = capture ? Math.floor(capture.length / RECORD) : 0;
  if (!count) throw new Fault("Open a capture first.");
  worked("record", Math.min(count - 1, Math.max(0, record + by)));
}
button("open-capture", () => $("file").click());
button("record-back", () => moveRecord(-1));
button("record-on", () => moveRecord(1));
for (const [id, what] of [["window", "window"], ["record", "record"]]) {
  $(id).addEventListener("change", () => attempt(() => worked(id, wholeNumber($(id).value.trim(), what, [0, id === "window" ? 65535 : 2 ** 31 - 1]))));
}

// ---- Practice sheets, DIMACS text, the key's text ---------------------------------------------------------

button("practise", async () => {
  const [rows, columns, seed] = [["rows", SHORT], ["columns", SHORT], ["seed", [0, 2 ** 32 - 1]]].map(([id, range]) => wholeNumber($(id).value.trim(), id, range));
  const said = await askUnit("practice", { rows, columns, seed });
  if (said.refused) return say(refusalWords(said), true);
  const sheet = unpack(said.sheet), places = { nodes: [], bends: sheet.channels.map(() => [[], false]) };
  for (let v = 0; v < rows * columns; v++) places.nodes.push([110 * (v % columns), 100 * Math.floor(v / columns)]);
  const [d] = drawnFrom(sheet, places);
  change(() => { hideKey(); drawing = { ...d, source: 0, sink: rows * columns - 1, value: 0 }; choose(); });
  fileName = `practice-${rows}-${columns}-${seed}`;
  setMode("key");
  fit();
  say(`Practice sheet of ${rows} rows and ${columns} columns, seed ${seed}. Undo brings the other drawing back.`);
});

button("dimacs", async () => {
  asking();
  const said = await askUnit("dimacs", presentNow());
  if (said.refused) {
    const { words } = whereOf(said.refused, sheetOf(drawing));
    return say(refusalWords(said) + (words ? ` Hint: ${words}.` : ""), true);
  }
  save(said.text, `${fileName}.max`, `Saved ${fileName}.max: the DIMACS text; its nodes count from 1.`);
});

button("save-key", async () => {
  asking();
  const said = await askUnit("key", presentNow());
  save(said.text, `${fileName}.key`, `Saved ${fileName}.key: byte for byte what target/bin/key prints.`);
});

// ---- Files of these, and what is asked anew when the drawing changes -----------------------------------------

readers.push((name, bytes, text) => {
  const taken = (field, value, id, more = {}) => {
    change(d => { d.work = { ...d.work, [field]: value, ...more }; });
    $(id).open = true;
    $(id).scrollIntoView({ block: "nearest" });
    return true;
  };
  if (text === null) {
    if (bytes[0] !== 5) return false;
    say(`${name}: a capture of ${Math.floor(bytes.length / RECORD)} records.`);
    return taken("capture", [...bytes], "at-capture", { record: 0 });
  }
  const lines = textLines(text);
  if (looksLikeClass(text)) {
    papersOf(text, drawing.channels.length, drawing.nodes.length);
    say(`${name}: a class of papers.`);
    return taken("papers", text, "at-class", { papersName: name });
  }
  if (lines.length && lines.every(([, words]) => words[0] === "question" || words[0] === "sheet")) {
    const own = lines.filter(([, words]) => words[0] === "question").map(([, words]) => words.slice(0, 4).join(" ").replace(/:$/, "") + "\n").join("");
    questionsOf(own);
    say(`${name}: a page of questions.`);
    return taken("questions", own, "at-page");
  }
  if (lines.length && lines.every(([, words]) => words.length === 3 && words.every(word => /^-?\d+$/.test(word)))) {
    const bytesOfIt = captureOf(text);
    say(`${name}: a capture of ${lines.length} records.`);
    return taken("capture", [...bytesOfIt], "at-capture", { record: 0 });
  }
  return false;
});

let lastAnswered = null, lastWork = null;

function followUp() { // the questions, the class, the table and the capture of the present drawing
  putBack();
  const { work } = drawing, same = lastAnswered && present && sameGiven({ ...lastAnswered, channel: 0, wanted: 0 }, { ...present, channel: 0, wanted: 0 });
  if (same && work === lastWork) return;
  [lastAnswered, lastWork] = [present, work];
  const quietly = work => work().catch(fault => { if (!(fault instanceof Fault)) throw fault; });
  quietly(answerPage);
  quietly(markClass).then(() => { if (work.papers && (drawing.source === null || drawing.sink === null)) $("points").textContent = "Name headgate and outfall."; });
  quietly(stepCapture);
  tellTable();
}


