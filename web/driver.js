// Runs the module: a fresh instance for each run, since a run leaves memory unfreed, and since nothing may be called
// again after a trap.
"use strict";

const COMMANDS = {
  "check": { call: "nidzaru_check", words: [], program: "fsr" },
  "order": { call: "nidzaru_order", words: [0], program: "fsr" },
  "order --order": { call: "nidzaru_order", words: [1], program: "fsr" },
  "order --small": { call: "nidzaru_order", words: [2], program: "fsr" },
  "play": { call: "nidzaru_play", words: [], program: "fsr" },
  "picture": { call: "nidzaru_picture", words: [], program: "picture" },
};
const OUT_OF_MEMORY = 4;
// the longest document that isn't in lines
const LONGEST = 1048576;

// The bytes that an answer may have at first, before it is asked for again with a buffer that is large enough.
function firstRoom(command, length) {
  if (command === "picture") return 65536 + 16 * Math.min(length, LONGEST);
  return command === "order --order" ? 65536 + length : 65536;
}

// What a command prints of a document, and its status. The text is what the program prints on standard output where
// the status is 0 or 1, else its line on standard error. No more than `bound` bytes of memory are taken.
function run(module, command, document, bound, room = firstRoom(command, document.length)) {
  const { call, words, program } = COMMANDS[command];
  const exports = new WebAssembly.Instance(module, {}).exports;
  const told = (status, text) => ({ status, text, memory: Number(exports.reach()) });
  const noMemory = () => told(OUT_OF_MEMORY, new TextEncoder().encode(program + ": out of memory\n"));
  exports.set_bound(BigInt(bound));
  const input = exports.room(BigInt(document.length)), size = exports.room(8n), buffer = exports.room(BigInt(room));
  if (!input || !size || !buffer) return noMemory();
  new Uint8Array(exports.memory.buffer, Number(input), document.length).set(document);
  const status = exports[call](...words, input, BigInt(document.length), buffer, BigInt(room), size);
  // (the memory may have grown, so the views are made only now)
  const length = Number(new DataView(exports.memory.buffer).getBigUint64(Number(size), true));
  if (length > room) return run(module, command, document, bound, length);
  return told(status, new Uint8Array(exports.memory.buffer, Number(buffer), length).slice());
}
