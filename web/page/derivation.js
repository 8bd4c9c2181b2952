// The derivation: the steps that build each right member and the net, each with a picture of what it builds. Not proved; that the steps build it is
// asked of the proved verifier.
import { buttons, refusedNote } from "./parts.js";
import { layOut } from "./layout.js";
import { itemNet, ruleText } from "./nets.js";
import { draw, escaped, wireOf } from "./picture.js";
import { STATUS } from "./status.js";

const DRAWN = 400;

// For each step the nodes and wires that it and the steps it names have built; and which of these it adds.
function builtBy(steps) {
  const all = [];
  for (const [kind, ...rest] of steps) {
    const parts = kind === "graft" ? rest[1] : kind === "cut" ? rest.slice(1) : kind === "mix" ? rest : [];
    const nodes = kind === "given" || kind === "graft" ? [rest[0]] : [], wires = kind === "link" || kind === "cut" ? [rest[0]] : [];
    all.push({ kind, parts, own: { nodes, wires }, nodes: new Set([...nodes, ...parts.flatMap(it => [...all[it].nodes])]), wires: new Set([...wires, ...parts.flatMap(it => [...all[it].wires])]) });
  }
  return all;
}

export class DerivationPanel {
  constructor(place, bench) {
    this.bench = bench;
    place.innerHTML = `<p>How each right member, and the net, is built. What is built by such steps has no vicious circle.</p>
<div class="controls"><select aria-label="rule or net"></select>${buttons([["back", "◀ back", "one step back"], ["next", "next ▶", "the next step"]])}<span class="verified" role="status"></span></div>
<div class="picture" role="img" aria-label="what the step builds"></div>
<p class="legend dim">Red: what the step adds. Blue, green: the steps that it joins. Dashed: wires that are open. Pale: what is built later. Boxes: ports of the heads.</p>
<p class="step" role="status"></p>
<ol class="steps" start="0"></ol>`;
    [this.items, this.verified, this.picture, this.words, this.list] = ["select", ".verified", ".picture", ".step", ".steps"].map(it => place.querySelector(it));
    this.place = place;
    this.items.addEventListener("change", () => this.choose(Number(this.items.value)));
    place.querySelector("[data-do=back]").addEventListener("click", () => this.go(this.at - 1));
    place.querySelector("[data-do=next]").addEventListener("click", () => this.go(this.at + 1));
    this.list.addEventListener("click", event => event.target.dataset.step && this.go(Number(event.target.dataset.step)));
  }

  begin(text) {
    this.text = text;
    this.program = this.bench.program;
    this.isNew = true;
    if (this.bench.shown === "derivation") this.appear();
  }

  // It is made where it is looked at.
  appear() {
    if (!this.isNew) return;
    this.isNew = false;
    this.place.classList.toggle("idle", !this.program);
    for (const it of this.place.querySelectorAll("select, button")) it.disabled = !this.program;
    this.items.innerHTML = this.list.innerHTML = this.words.textContent = this.verified.textContent = "";
    if (!this.program) return void (this.picture.innerHTML = refusedNote);
    const heads = ({ constructor, destructor }) => [constructor, destructor].map(it => this.program.symbols[it].name).join(" >< ");
    this.items.innerHTML = `<option value="${this.program.rules.length}">the net</option>${this.program.rules.map((rule, number) => `<option value="${number}">rule ${escaped(heads(rule))}</option>`).join("")}`;
    this.choose(this.program.rules.length);
  }

  async choose(number) {
    const { text, program } = this;
    this.number = number;
    this.items.value = number;
    this.item = program.rules[number] ?? program.net;
    this.net = itemNet(program, this.item);
    this.layout = this.net.agents.size <= DRAWN ? layOut(this.net) : null;
    this.built = builtBy(this.item.steps);
    this.list.innerHTML = this.built.map((_, step) => `<li><button data-step="${step}">${escaped(this.wordsOf(step))}</button></li>`).join("");
    this.go(0);
    const { status } = await this.bench.caller.ask("verify", { text, number, steps: this.item.steps });
    if (text === this.text && number === this.number) this.verified.textContent = status === STATUS.OK ? "✓ The verifier says that these steps build it." : "✗ The verifier says no.";
  }

  wordsOf(step) {
    const { kind, parts, own } = this.built[step], { name, head, places = [] } = own.nodes.length ? this.net.symbol(own.nodes[0]) : {};
    const named = parts.map(it => `step ${it}`).join(" and ");
    const given = places.length === 1 ? `port ${places[0]} of the head ${head}` : `ports ${places.join(", ")} of the head ${head}, which one net outside has`;
    const graft = parts.length ? `an agent ${name} over ${named}` : `an agent ${name}`;
    return { empty: "nothing", link: "a wire by itself", given, graft, cut: `${named}, joined by one wire`, mix: `${named}, side by side` }[kind];
  }

  go(step) {
    this.at = Math.max(0, Math.min(this.built.length - 1, step));
    const { parts, own, nodes, wires } = this.built[this.at];
    const [back, next] = ["back", "next"].map(it => this.place.querySelector(`[data-do=${it}]`));
    back.disabled = this.at === 0;
    next.disabled = this.at === this.built.length - 1;
    this.words.textContent = `Step ${this.at}: ${this.wordsOf(this.at)}${this.item === this.program.net ? "" : `, of ${ruleText(this.program, this.item)}`}`;
    for (const button of this.list.querySelectorAll("button")) button.setAttribute("aria-current", Number(button.dataset.step) === this.at ? "step" : "false");
    if (!this.layout) return void (this.picture.innerHTML = `<p class="dim">${this.net.agents.size} agents are too many for a picture.</p>`);
    const numbers = new Map(this.net.wires.map(([one, other], number) => [wireOf(one, other), number]));
    const classOf = it => {
      const [all, mine, of] = typeof it === "number" ? [nodes, own.nodes, "nodes"] : [wires, own.wires, "wires"], number = typeof it === "number" ? it : numbers.get(it);
      if (mine.includes(number)) return "new";
      // A wire that leads to a node of this step is open there, or joined by it.
      const within = parts.findIndex(part => this.built[part][of].has(number));
      if (within >= 0) return `part${within % 3}`;
      if (of === "wires") {
        const ends = it.split(" ").filter(point => !point.startsWith("=") && nodes.has(Number(point.split(".")[0])));
        if (ends.length) return ends.length === 2 ? "joined" : "open";
      }
      return all.has(number) ? "" : "later";
    };
    this.picture.innerHTML = draw(this.net, this.layout, { classOf });
  }
}
