// What the built page has within it: the examples, the worker's source, and the module. Not proved.
import { Caller } from "./caller.js";

const within = name => document.getElementById(name)?.textContent ?? "";

export const examples = JSON.parse(within("examples-data") || "[]");

function bytesOf(letters) {
  const text = atob(letters), bytes = new Uint8Array(text.length);
  for (let at = 0; at < text.length; at++) bytes[at] = text.charCodeAt(at);
  return bytes;
}

// The worker with the module. If the browser doesn't run it, the page's note says so.
export function startCaller() {
  const caller = new Caller(within("worker-source"), bytesOf(within("module-data").trim()));
  caller.ready.then(({ failed }) => {
    if (failed) document.getElementById("note").textContent = `This browser doesn't run the module: ${failed}. It needs WebAssembly, with BigInt for numbers of 64 bits.`;
  });
  return caller;
}
