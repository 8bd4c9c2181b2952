// The worker: it makes all calls of the module, so that typing never waits. Not proved.
// A message has the number that its answer has; the first one brings the module.
import { Engine } from "./engine.js";
import { STATUS } from "./status.js";

// As many interactions and cells as the page allows.
const MOST_INTERACTIONS = 100_000, CELLS = 65_536;
// A random order, and a story of several workers, are followed so far.
const MOST_TRIED = 2_000;
// So many interactions are chosen at a time, before the number of pairs is asked for again.
const CHOSEN_AT_ONCE = 8;

// The engine, and what has to end before it can be asked.
let engine, begun;

// The last message that brought another text. What takes several calls breathes in between, and ends where such a message came since: then
// nobody needs it.
let newest = 0, breathed = 0;
const BREATH = 50;

async function isOvertaken(id) {
  if (performance.now() - breathed > BREATH) {
    await new Promise(done => setTimeout(done));
    breathed = performance.now();
  }
  return newest > id;
}

const run = (text, choices, further) => engine.ask("run_by", text, choices, further, CELLS);
const shown = ({ status, text, state }) => ({ status, text, state });

// A random order: choices are made blindly where the number of pairs isn't known, and the last is made again where it names no pair.
async function randomOrder(id, text) {
  const choices = [];
  for (;;) {
    if (await isOvertaken(id)) return { overtaken: true };
    const said = await run(text, choices, 0), { chosen = 0, pairs = 0 } = said.state;
    choices.length = chosen;
    if ((said.status !== STATUS.LIMIT && said.status !== STATUS.WRONG_NUMBERS) || choices.length >= MOST_TRIED) return { ...shown(said), choices: choices.length };
    // Where none is left, the same choices are asked for again, without one that names no pair.
    for (let next = 0; pairs && next < CHOSEN_AT_ONCE; next++) choices.push(Math.floor(Math.random() * pairs));
  }
}

// Rounds of several workers, each of whom takes one of the pairs at the front of the queue.
async function rounds(id, text, workers) {
  const choices = [], made = [];
  for (;;) {
    if (await isOvertaken(id)) return { overtaken: true };
    const said = await run(text, choices, 0);
    const taken = Math.min(workers, said.state.pairs ?? 0);
    if (said.status !== STATUS.LIMIT || !taken || choices.length + taken > MOST_TRIED) return { status: said.status, rounds: made, count: choices.length };
    made.push(said.text.split("\n").filter(line => line.includes(" ~ ")).slice(0, taken));
    for (let worker = 0; worker < taken; worker++) choices.push(0);
  }
}

const calls = {
  // What the page shows of a text: its diagnosis, or its export and its end.
  async look({ text }) {
    const check = await engine.ask("check", text);
    if (check.status === STATUS.REFUSED) {
      const [data, diagnosis] = [await engine.ask("diagnose_data", text), await engine.ask("diagnose", text)];
      return { check: shown(check), data: data.text, diagnosis: diagnosis.text };
    }
    if (check.status !== STATUS.OK) return { check: shown(check) };
    return { check: shown(check), exported: (await engine.ask("export", text)).text, end: shown(await run(text, [], MOST_INTERACTIONS)) };
  },
  net: async ({ text, choices, further = MOST_INTERACTIONS }) => shown(await run(text, choices, further)),
  order: ({ id, text }) => randomOrder(id, text),
  rounds: ({ id, text, workers }) => rounds(id, text, workers),
  verify: ({ text, number, steps }) => engine.ask("verify", text, number, steps),
  call: ({ name, text, rest }) => engine.ask(name, text, ...rest),
};

self.onmessage = async ({ data }) => {
  let said;
  if (data.what === "look") newest = data.id;
  try {
    if (data.module) begun = Engine.of(data.module).then(made => (engine = made));
    await begun;
    said = data.module ? {} : await calls[data.what](data);
  } catch (error) {
    said = { failed: String(error) };
  }
  self.postMessage({ id: data.id, said });
};
