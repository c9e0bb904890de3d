// Executes the text that `compile` wrote.
//
//     node host/execute.mjs SCRIPT INPUT           prints the answer on the input as JSON
//     node host/execute.mjs SCRIPT INPUT --times   prints the microseconds of the execution alone, the least of three
//
// Status 6 and the line `Range`: an integer left 64 bits. Status 7 and the line `Stuck`: an argument was of another
// kind than its function takes, which no text of `compile` comes to on an input of its schema. Status 1: another error.
import { readFileSync } from "node:fs";
import { Range, Stuck, functionOf, rt } from "./runtime.mjs";
import { readJson, writeJson } from "./json.mjs";

// The microseconds that a call takes.
function microseconds(call) {
  const start = process.hrtime.bigint();
  call();
  return (process.hrtime.bigint() - start) / 1000n;
}

// What is printed of the execution.
function told(script, input, isTimed) {
  const query = functionOf(readFileSync(script, "utf8"));
  const world = readJson(readFileSync(input));
  if (!isTimed) {
    return writeJson(query(world, rt));
  }
  const took = [1, 2, 3].map(() => microseconds(() => query(world, rt)));
  return String(took.reduce((a, b) => (b < a ? b : a)));
}

// Tells a halt by its name and status.
function halts(error) {
  const status = error instanceof Range ? 6 : error instanceof Stuck ? 7 : 0;
  if (status === 0) {
    throw error;
  }
  console.error(status === 6 ? "Range" : "Stuck");
  process.exitCode = status;
}

function main(words) {
  const isTimed = words[2] === "--times";
  if (words.length !== (isTimed ? 3 : 2)) {
    console.error("usage: node host/execute.mjs SCRIPT INPUT [--times]");
    process.exitCode = 2;
    return;
  }
  try {
    console.log(told(words[0], words[1], isTimed));
  } catch (error) {
    halts(error);
  }
}

main(process.argv.slice(2));
