// A workbench: an editor with verdict and diagnosis, and beside it the run, its orders, the derivation and the data of the program. A page may
// have several over one worker. Not proved.
import { Newest } from "./caller.js";
import { Editor } from "./editor.js";
import { Program } from "./nets.js";
import { Diagnosis } from "./diagnosis.js";
import { RunPanel } from "./run.js";
import { OrdersPanel } from "./orders.js";
import { DerivationPanel } from "./derivation.js";
import { DataPanel } from "./data.js";

// After the last key, in milliseconds.
const PAUSE = 120;
const PANELS = { run: ["Run", RunPanel], orders: ["Any order", OrdersPanel], derivation: ["Derivation", DerivationPanel], data: ["Data", DataPanel] };

let benches = 0;

export class Bench {
  // `panels` are names of these; `looked` is called with each answer on the newest text.
  constructor(place, caller, { panels = Object.keys(PANELS), label = "the program", looked = () => {} } = {}) {
    this.caller = caller;
    this.looked = looked;
    this.program = null;
    this.name = `bench${++benches}`;
    place.classList.add("bench");
    const tab = it => `<button role="tab" id="${this.name}-${it}-tab" data-tab="${it}" aria-controls="${this.name}-${it}">${PANELS[it][0]}</button>`;
    const isTabbed = panels.length > 1, role = it => (isTabbed ? ` role="tabpanel" aria-labelledby="${this.name}-${it}-tab"` : "");
    place.innerHTML = `<section class="left" aria-label="program">
<div class="editor"></div>
<div class="verdict" role="status" id="${this.name}-verdict"></div>
<div class="diagnosis" hidden></div>
</section>
<section class="right" aria-label="what it does">
${isTabbed ? `<div class="tabs" role="tablist">${panels.map(tab).join("")}</div>` : ""}
${panels.map(it => `<div class="panel" id="${this.name}-${it}" data-panel="${it}"${role(it)}></div>`).join("")}
</section>`;
    this.place = place;
    this.editor = new Editor(place.querySelector(".editor"), label, () => this.changed());
    this.verdict = place.querySelector(".verdict");
    this.editor.area.setAttribute("aria-describedby", this.verdict.id);
    this.diagnosis = new Diagnosis(place.querySelector(".diagnosis"), this.editor);
    this.panels = Object.fromEntries(panels.map(it => [it, new PANELS[it][1](place.querySelector(`[data-panel=${it}]`), this)]));
    this.newest = new Newest(text => this.look(text));
    this.tabs = [...place.querySelectorAll("[role=tab]")];
    for (const tab of this.tabs) tab.addEventListener("click", () => this.show(tab.dataset.tab));
    place.querySelector("[role=tablist]")?.addEventListener("keydown", event => this.moveTab(event));
    this.show(panels[0]);
  }

  get text() {
    return this.editor.text;
  }

  // Another text, and the answer on it.
  async load(text) {
    clearTimeout(this.timer);
    this.editor.text = text;
    await this.newest.want(text);
  }

  changed() {
    this.verdict.classList.add("old");
    clearTimeout(this.timer);
    this.timer = setTimeout(() => this.newest.want(this.text), PAUSE);
  }

  async look(text) {
    const said = await this.caller.ask("look", { text });
    // What was typed since is asked for next.
    if (text !== this.text) return;
    this.said = said;
    this.program = said.exported ? new Program(JSON.parse(said.exported)) : null;
    this.verdict.textContent = said.check?.text.split("\n")[0] ?? `The module broke off: ${said.failed}`;
    this.verdict.className = `verdict ${this.program ? "good" : "bad"}`;
    this.editor.area.setAttribute("aria-invalid", !this.program);
    this.diagnosis.show(text, said.data);
    for (const panel of Object.values(this.panels)) panel.begin(text, said);
    this.looked(text, said);
  }

  show(name) {
    for (const tab of this.tabs) {
      tab.setAttribute("aria-selected", tab.dataset.tab === name);
      tab.tabIndex = tab.dataset.tab === name ? 0 : -1;
    }
    for (const panel of this.place.querySelectorAll("[data-panel]")) panel.hidden = panel.dataset.panel !== name;
    this.shown = name;
    this.panels[name].appear?.();
  }

  moveTab({ key }) {
    const at = this.tabs.findIndex(tab => tab.dataset.tab === this.shown);
    const to = { ArrowLeft: at - 1, ArrowRight: at + 1, Home: 0, End: -1 }[key];
    if (to === undefined) return;
    const tab = this.tabs.at(to % this.tabs.length);
    this.show(tab.dataset.tab);
    tab.focus();
  }
}
