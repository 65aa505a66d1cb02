"use strict";
// Where a refusal lies: a look by the page, which proves nothing and says so. The number is the unit's. { words, nodes, channels, field }

function whereOf(number, sheet) {
  const { nodes, outer, question, channels } = sheet, count = 2 * channels.length, tails = channels.flatMap(row => row.slice(0, 2));
  const turns = channels.flatMap(row => row.slice(2, 4)), found = (words, more = {}) => ({ words, nodes: [], channels: [], ...more });
  const channelWhere = (holds, words) => {
    const e = channels.findIndex(holds);
    return e < 0 ? found("") : found(`channel ${e}: ${words(channels[e])}`, { channels: [e] });
  };
  const dartName = d => `dart ${d} (channel ${d >> 1}${d % 2 ? ", back" : ""}, node ${tails[d]})`;
  const looks = {
    3: () => found(`here are ${nodes} nodes and ${channels.length} channels`),
    5: () => channelWhere(row => Math.max(row[2], row[3]) >= count, row => `its turns are ${row[2]} and ${row[3]}, and there are ${count} darts`),
    6: () => channelWhere(row => Math.max(Math.abs(row[4]), Math.abs(row[5])) > 1000000, row => `its limits are ${row[4]} and ${row[5]}`),
    7: () => channelWhere(row => row[4] + row[5] < 0, row => `${row[4]} + ${row[5]} is less than 0`),
    9: () => {
      const d = turns.findIndex((turn, i) => tails[turn] !== tails[i] || turns.indexOf(turn) < i);
      const why = tails[turns[d]] === tails[d] ? `turns to dart ${turns[d]}, as dart ${turns.indexOf(turns[d])} does` : `turns to ${dartName(turns[d])}`;
      return d < 0 ? found("") : found(`${dartName(d)} ${why}`, { nodes: [tails[d]], channels: [d >> 1] });
    },
    10: () => {
      const reached = v => { const first = tails.indexOf(v); let d = first, n = 0; do { d = turns[d]; n++; } while (d !== first && n <= count); return n; };
      for (let v = 0; v < nodes; v++) {
        const own = tails.filter(tail => tail === v).length;
        if (!own) return found(`node ${v} has no channel`, { nodes: [v] });
        if (reached(v) !== own) return found(`the turns at node ${v} are more than one round`, { nodes: [v] });
      }
      return found("");
    },
    12: () => notFlat(sheet, tails, turns, found),
    13: () => {
      const wrong = question && [0, 1].find(i => question[i] >= nodes);
      return found(wrong === 0 ? `headgate ${question[0]} is no node` : wrong === 1 ? `outfall ${question[1]} is no node` : "", { field: ["source", "sink"][wrong] });
    },
    14: () => found(`node ${question ? question[0] : ""} is both`, { nodes: question ? [question[0]] : [], field: "sink" }),
    15: () => found(`the delivery ${question ? question[2] : ""}`, { field: "value" }),
    22: () => channelWhere(row => row[4] < 0 || row[5] < 0, row => `its limits are ${row[4]} and ${row[5]}`),
    24: () => found(`outer dart ${outer} of ${count} darts`, { field: "outer" }),
  };
  return looks[number] ? looks[number]() : found("");
}

// The first part that is not flat; of it the channels that cross as drawn, if any do, else all its nodes.
function notFlat(sheet, tails, turns, found) {
  for (const part of partsOf(sheet.nodes, tails)) {
    const inside = new Set(part), faces = facesOf(turns).filter(face => inside.has(tails[face[0]])).length;
    const own = sheet.channels.map((_, e) => e).filter(e => inside.has(tails[2 * e]));
    if (part.length + faces === own.length + 2) continue;
    const pairs = shapeNow().crossings.filter(({ a, b }) => inside.has(tails[2 * a]) && inside.has(tails[2 * b]));
    const words = `${part.length} nodes + ${faces} faces is not ${own.length} channels + 2 in the part of node ${part[0]}`;
    if (!pairs.length) return found(words, { nodes: part });
    const [{ a, b }] = pairs;
    return found(`${words}; as drawn, channels ${Math.min(a, b)} and ${Math.max(a, b)} cross`, { channels: [...new Set(pairs.flatMap(one => [one.a, one.b]))] });
  }
  return found("");
}
