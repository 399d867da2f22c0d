"use strict";
// Runs in the worker. Each run has its own instance of the module, so its memory is freed with it. Addresses and lengths have 64 bits, so
// they are BigInts.
const EXPORTS = { script: "browser_script", schedule: "browser_replay", race: "browser_race" };
const FAULT = -1;
let compiled;

// Creates an instance for an input, with a buffer for the answer.
function prepared(input, room, most) {
  const { exports } = new WebAssembly.Instance(compiled, {});
  const place = (size) => {
    const at = Number(exports.room(BigInt(size)));
    if (at === 0) throw new RangeError("this device has no memory for the page");
    return at;
  };
  const places = { input: place(input.length || 1), room: place(room), numbers: place(16) };
  new Uint8Array(exports.memory.buffer, places.input, input.length).set(input);
  exports.bound(BigInt(exports.memory.buffer.byteLength + most));
  return { exports, places };
}

// Returns the status, the answer's bytes and the line of a fault. Runs again with a larger buffer if the answer didn't fit.
function run({ kind, input, most, room }) {
  const { exports, places } = prepared(input, room, most);
  const words = [places.input, input.length, places.room, room, places.numbers, places.numbers + 8].map(BigInt);
  const status = exports[EXPORTS[kind]](...words);
  const numbers = new DataView(exports.memory.buffer, places.numbers);
  const size = Number(numbers.getBigUint64(0, true));
  if (size > room) return run({ kind, input, most, room: size });
  return { status, line: numbers.getUint32(8, true), answer: exports.memory.buffer.slice(places.room, places.room + size) };
}

onmessage = ({ data }) => {
  if (data.module) {
    compiled = new WebAssembly.Module(data.module);
    return;
  }
  const began = performance.now();
  try {
    const answered = run(data);
    postMessage({ ...answered, milliseconds: performance.now() - began }, [answered.answer]);
  } catch (fault) {
    postMessage({ status: FAULT, line: 0, fault: String(fault), milliseconds: performance.now() - began });
  }
};
