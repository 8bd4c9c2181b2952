// What the module answers, for tests/run --only web: node web/module/answers.js MODULE.wasm [PAGES]
//
// Each line of standard input is a list: a text in base64, and calls by name with their numbers. Each answer is a line of JSON: status, length and
// SHA-256 of the bytes, and the numbers. With PAGES the memory can't grow beyond so many pages of 64 KiB. Not proved.
import { createHash } from "node:crypto";
import fs from "node:fs";
import readline from "node:readline";
import { Engine } from "../page/engine.js";

const [file, pages] = process.argv.slice(2);

// The module with a limit for its memory: the section of that number is written anew.
function limited(bytes, most) {
  const number = at => {
    let value = 0, shift = 0, byte;
    do {
      byte = bytes[at++];
      value += (byte & 127) * 2 ** shift;
      shift += 7;
    } while (byte & 128);
    return [value, at];
  };
  const written = value => (value < 128 ? [value] : [(value & 127) | 128, ...written(value >> 7)]);
  for (let at = 8; at < bytes.length; ) {
    const [size, begin] = number(at + 1);
    if (bytes[at] === 5) {
      const [least] = number(begin + 2), section = [1, 1, ...written(least), ...written(most)];
      return Buffer.concat([bytes.subarray(0, at), Buffer.from([5, ...written(section.length), ...section]), bytes.subarray(begin + size)]);
    }
    at = begin + size;
  }
  throw new Error("no memory section");
}

const whole = fs.readFileSync(file);
const engine = await Engine.of(pages ? limited(whole, Number(pages)) : whole);
for await (const line of readline.createInterface({ input: process.stdin })) {
  const [text, calls] = JSON.parse(line);
  for (const [name, ...rest] of calls) {
    const { status, bytes = Buffer.alloc(0), state, numbers } = name === "version" ? { status: engine.version() } : engine.call(name, Buffer.from(text, "base64"), ...rest);
    console.log(JSON.stringify([status, bytes.length, createHash("sha256").update(bytes).digest("hex"), state ? Object.values(state) : numbers ?? null]));
  }
}
