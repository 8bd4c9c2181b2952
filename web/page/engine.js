// The module, called as include/inet.h says. Not proved: tests/run --only web compares its answers with the library's.
import { STATUS } from "./status.js";

// Memory never shrinks, so the module begins anew beyond this many bytes.
const MOST_MEMORY = 2 ** 29;

// Steps of the export as numbers, with the list of a graft apart.
const KINDS = { empty: 0, link: 1, given: 2, graft: 3, cut: 4, mix: 5 };

export class Engine {
  static async of(bytes) {
    const engine = new Engine();
    engine.module = await WebAssembly.compile(bytes);
    await engine.begin();
    return engine;
  }

  async begin() {
    this.exports = (await WebAssembly.instantiate(this.module, {})).exports;
    this.lent = [];
    this.size = 1 << 16;
    this.room = this.exports.room(BigInt(this.size));
    this.length = this.exports.room(8n);
    this.numbers = this.exports.room(64n);
  }

  view(place, count) {
    return new DataView(this.exports.memory.buffer, Number(place), count);
  }

  bytesAt(place, count) {
    return new Uint8Array(this.exports.memory.buffer, Number(place), count);
  }

  // Bytes in the module's memory, up to the end of a call; a place, even for no bytes. Nothing where there is no memory.
  lend(bytes) {
    const place = this.exports.room(BigInt(bytes.length));
    if (!place) return null;
    this.lent.push(place);
    this.bytesAt(place, bytes.length).set(bytes);
    return [place, BigInt(bytes.length)];
  }

  // Of a call whose answer has no bytes, the status: of the 32 bits that come, a status is the lowest 8.
  status(name, ...words) {
    return this.exports[name](...words) & 255;
  }

  // Status and bytes of a call that takes room.
  answer(name, ...words) {
    for (;;) {
      const status = this.status(name, ...words, this.room, BigInt(this.size), this.length);
      const length = Number(this.view(this.length, 8).getBigUint64(0, true));
      if (length <= this.size) return { status, bytes: this.bytesAt(this.room, length).slice() };
      this.exports.leave(this.room);
      const size = 2 ** Math.ceil(Math.log2(length)), room = this.exports.room(BigInt(size));
      this.size = room ? size : 1 << 16;
      this.room = room || this.exports.room(BigInt(this.size));
      if (!room) return { status: STATUS.MEMORY, bytes: new Uint8Array() };
    }
  }

  // The calls, by the names of include/inet.h without `inet_`, on a text's bytes.
  call(name, text, ...rest) {
    const lent = this.lend(text);
    if (!lent) return { status: STATUS.MEMORY, bytes: new Uint8Array() };
    try {
      return this[name] ? this[name](lent, ...rest) : this.answer(`inet_${name}`, ...lent);
    } finally {
      for (const place of this.lent.splice(0)) this.exports.leave(place);
    }
  }

  run(text, limit, cells) {
    return this.answer("inet_run", ...text, BigInt(limit), cells);
  }

  run_by(text, choices, limit, cells) {
    const list = this.lend(new Uint8Array(Uint32Array.from(choices).buffer));
    if (!list) return { status: STATUS.MEMORY, bytes: new Uint8Array(), state: {} };
    const said = this.answer("inet_run_by", ...text, list[0], BigInt(choices.length), BigInt(limit), cells, this.numbers);
    const state = this.view(this.numbers, 24);
    const [chosen, further] = [0, 8].map(place => Number(state.getBigUint64(place, true)));
    return { ...said, state: { chosen, further, pairs: state.getUint32(16, true), agents: state.getUint32(20, true) } };
  }

  refusal(text) {
    const status = this.status("inet_refusal", ...text, this.numbers), fault = this.view(this.numbers, 48);
    return { status, numbers: [0, 4, 8].map(place => fault.getUint32(place, true)).concat([16, 24, 32, 40].map(place => Number(fault.getBigUint64(place, true)))) };
  }

  verify(text, number, steps) {
    const parts = [], words = [];
    for (const [kind, ...rest] of steps) {
      const numbers = kind === "graft" ? [rest[0], parts.length, rest[1].length] : rest;
      if (kind === "graft") parts.push(...rest[1]);
      words.push(KINDS[kind], ...[0, 1, 2].map(place => numbers[place] ?? 0));
    }
    const [list, classes] = [words, parts].map(numbers => this.lend(new Uint8Array(Uint32Array.from(numbers).buffer)));
    if (!list || !classes) return { status: STATUS.MEMORY };
    return { status: this.status("inet_verify", ...text, number, list[0], BigInt(steps.length), classes[0], BigInt(parts.length)) };
  }

  version() {
    return this.exports.inet_version();
  }

  // The same from text to text. After a trap, which no text is known to cause, the module begins anew.
  async ask(name, text, ...rest) {
    try {
      if (this.exports.memory.buffer.byteLength > MOST_MEMORY) await this.begin();
      const said = this.call(name, new TextEncoder().encode(text), ...rest);
      return { ...said, text: new TextDecoder().decode(said.bytes) };
    } catch (trap) {
      await this.begin();
      return { status: STATUS.BROKEN, bytes: new Uint8Array(), text: String(trap), state: {} };
    }
  }
}
