// Any order: random orders and how many ends they have, and the rounds of several workers. Not proved.
import { buttons, refusedNote } from "./parts.js";
import { escaped } from "./picture.js";
import { STATUS } from "./status.js";

const ORDERS = 100, WORKERS = [1, 2, 4, 8, 64], ROUNDS = 200;

export class OrdersPanel {
  constructor(place, bench) {
    this.bench = bench;
    place.innerHTML = `<p>All orders of interactions that end have the same net at the end, and the same count: that is proved of each accepted program. Here some are tried.</p>
<div class="controls">${buttons([["try", `try ${ORDERS} random orders`, "each takes one active pair after another, by chance"]])}<span class="progress" role="status"></span></div><div class="ends"></div>
<p>Several workers take pairs at once. Here each round gives each worker one pair, from the front of the queue.</p>
<div class="controls">${buttons(WORKERS.map(count => [`workers${count}`, `${count} worker${count > 1 ? "s" : ""}`, `the rounds of ${count}`]))}<span class="rounds-count" role="status"></span></div><div class="rounds"></div>`;
    [this.progress, this.ends, this.roundsCount, this.rounds] = [".progress", ".ends", ".rounds-count", ".rounds"].map(it => place.querySelector(it));
    place.querySelector("[data-do=try]").addEventListener("click", () => this.try());
    for (const count of WORKERS) place.querySelector(`[data-do=workers${count}]`).addEventListener("click", () => this.story(count));
  }

  begin(text) {
    this.text = text;
    for (const it of [this.progress, this.ends, this.roundsCount, this.rounds]) it.textContent = "";
    if (!this.bench.program) this.ends.innerHTML = refusedNote;
  }

  async try() {
    const { text } = this, ends = new Map();
    if (!this.bench.program) return;
    for (let tried = 1; tried <= ORDERS; tried++) {
      const said = await this.bench.caller.ask("order", { text });
      if (said.overtaken || text !== this.text) return;
      const end = said.status === STATUS.LIMIT ? `not ended after ${said.choices} interactions` : `${said.text}interactions: ${said.choices}`;
      ends.set(end, (ends.get(end) ?? 0) + 1);
      this.progress.textContent = `${tried} order${tried > 1 ? "s" : ""}: ${ends.size === 1 ? "one end" : `${ends.size} ends`}`;
      if (said.status === STATUS.LIMIT) break;
    }
    this.ends.innerHTML = [...ends].map(([end, times]) => `<p>${times} order${times > 1 ? "s" : ""} ended with</p><pre class="box">${escaped(end)}</pre>`).join("");
  }

  async story(workers) {
    const { text } = this;
    if (!this.bench.program) return;
    const { overtaken, rounds, count, status } = await this.bench.caller.ask("rounds", { text, workers });
    if (overtaken || text !== this.text) return;
    const shown = rounds.slice(0, ROUNDS), most = Math.max(1, ...shown.map(it => it.length));
    this.roundsCount.textContent = `${count} interaction${count === 1 ? "" : "s"} in ${rounds.length} round${rounds.length === 1 ? "" : "s"}${status === STATUS.LIMIT ? ", and it goes on" : ""}`;
    const heads = line => line.split(" ~ ").map(term => escaped(term.split("(")[0])).join(" &gt;&lt; ");
    const titles = Array.from({ length: most }, (_, it) => `<th scope="col">worker ${it + 1}</th>`).join("");
    const rows = shown.map((pairs, number) => `<tr><th scope="row">${number + 1}</th>${pairs.map(line => `<td>${heads(line)}</td>`).join("")}</tr>`).join("");
    const further = rounds.length > ROUNDS ? `<p class="dim">and ${rounds.length - ROUNDS} rounds more</p>` : "";
    this.rounds.innerHTML = `<table><thead><tr><th scope="col">round</th>${titles}</tr></thead><tbody>${rows}</tbody></table>${further}`;
  }
}
