// Asks the question of a file, in node: ask.mjs LIBRARY FILE, the library being target/library/wasm32/libanalyser.wasm.
import fs from "node:fs";
import { solver } from "./solver.mjs";

const QUESTION = 9;
const [library, file] = process.argv.slice(2);
const solve = await solver(fs.readFileSync(library));
const question = fs.readFileSync(file), delivery = question.readInt32LE(5);
const answer = solve(question.subarray(QUESTION), question.readUInt16LE(1), question.readUInt16LE(3), delivery);
if (answer.refused) console.log(`refused ${answer.refused}`);
else if (answer.settings) console.log([`can ${delivery}`, ...answer.settings.map((setting, channel) => `${channel} ${setting}`)].join("\n"));
else console.log([`cannot ${delivery} ${answer.set.length}`, ...answer.set].join("\n"));
process.exitCode = answer.refused ? 1 : 0;
