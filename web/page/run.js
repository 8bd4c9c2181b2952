// The run, step by step: forward and back, any pair next, to the end. Each net is the runner's, for a list of chosen pairs. Not proved.
import { Newest } from "./caller.js";
import { buttons, refusedNote } from "./parts.js";
import { between, layOut } from "./layout.js";
import { follow, readNet, ruleText } from "./nets.js";
import { draw, escaped } from "./picture.js";
import { STATUS } from "./status.js";

// Larger nets have no picture, or don't move.
const DRAWN = 400, MOVED = 150;
// In milliseconds: how long agents move, and how long a step is seen.
const MOVING = 350, SEEN = 900;
const LISTED = 60;
const NAMED_KEYS = { ArrowLeft: "back", ArrowRight: "next", Home: "start", End: "end" };

export class RunPanel {
  constructor(place, bench) {
    this.bench = bench;
    this.place = place;
    place.innerHTML = `<div class="controls">${buttons([
      ["start", "start", "to the start (Home)"], ["back", "◀ back", "one interaction back (arrow left)"], ["next", "next ▶", "the first pair of the queue, as inet run takes it (arrow right)"],
      ["any", "any pair", "one of the active pairs, by chance"], ["play", "play", "one interaction after another"], ["end", "end", "to the end (End)"],
    ])}<input type="range" min="0" max="0" value="0" aria-label="how many interactions are done"><span class="count" role="status"></span></div>
<div class="picture" role="img"></div>
<p class="legend dim">Blue: constructors. Yellow: destructors. Red: active pairs; click one, and it interacts.</p>
<div class="pairs" role="group" aria-label="active pairs: choose one to interact"></div>
<p class="rule"></p>
<pre class="net box" tabindex="0" aria-label="the net as text"></pre>`;
    const find = it => place.querySelector(it);
    [this.picture, this.pairs, this.rule, this.lines, this.count, this.slider] = [".picture", ".pairs", ".rule", ".net", ".count", "input"].map(find);
    this.buttons = Object.fromEntries([...place.querySelectorAll("[data-do]")].map(it => [it.dataset.do, it]));
    for (const [name, button] of Object.entries(this.buttons)) button.addEventListener("click", () => this.do(name));
    const slid = new Newest(number => this.go(() => number));
    this.slider.addEventListener("input", () => (this.stop(), slid.want(Number(this.slider.value))));
    for (const it of [this.picture, this.pairs]) {
      const chosen = event => event.target.closest("[data-pair]")?.dataset.pair;
      it.addEventListener("click", event => chosen(event) !== undefined && (this.stop(), this.take(Number(chosen(event)))));
      for (const kind of ["mouseover", "focusin"]) it.addEventListener(kind, event => chosen(event) !== undefined && this.showRule(Number(chosen(event))));
    }
    place.addEventListener("keydown", event => {
      const name = NAMED_KEYS[event.key];
      if (!name || event.target === this.slider || event.target === this.lines || event.altKey || event.ctrlKey || event.metaKey) return;
      event.preventDefault();
      this.do(name);
    });
    this.choices = [];
    this.nets = new Map();
    this.work = Promise.resolve();
  }

  do(name) {
    if (name !== "play") this.stop();
    if (this.buttons[name].disabled) return;
    const any = () => this.take(Math.floor(Math.random() * this.state.pairs));
    const places = { start: () => 0, back: () => this.at - 1, next: () => this.at + 1, end: () => this.total };
    return places[name] ? this.go(places[name]) : { any, play: () => this.play() }[name]();
  }

  // A new text: the start of its run, whose end is known.
  begin(text, said) {
    this.stop();
    this.text = text;
    this.program = this.bench.program;
    this.nets.clear();
    this.choices = [];
    this.at = -1;
    this.place.classList.toggle("idle", !this.program);
    if (!this.program) {
      this.state = null;
      this.enable();
      this.picture.innerHTML = refusedNote;
      this.pairs.textContent = this.rule.textContent = this.lines.textContent = this.count.textContent = "";
      return;
    }
    this.finish(said.end);
    return this.go(() => 0);
  }

  // How far the run goes with these choices.
  finish({ status, state: { chosen = 0, further = 0 } }) {
    this.total = chosen + further;
    this.ended = status;
  }

  // The net after so many interactions: those that were chosen, and then the first pair each time.
  async netAt(number) {
    const { text, choices } = this;
    const known = this.nets.get(number);
    if (known) return known;
    const said = await this.bench.caller.ask("net", { text, choices: choices.slice(0, number), further: Math.max(0, number - choices.length) });
    if (text !== this.text || choices !== this.choices) return null;
    const found = { said, state: said.state, net: null };
    if (said.state.agents <= DRAWN && this.program.isReadable) {
      const read = readNet(this.program, said.text), before = this.nets.get(number - 1)?.net;
      found.net = before ? follow(this.program, before, choices[number - 1] ?? 0, read) : read;
      found.layout = layOut(found.net);
    }
    this.nets.set(number, found);
    return found;
  }

  // Goes to a place that is asked for after all that was begun before.
  go(place) {
    this.work = this.work.then(() => this.moveTo(Math.max(0, Math.min(this.total, place())))).catch(error => console.error(error));
    return this.work;
  }

  async moveTo(number) {
    const from = this.at === number - 1 || this.at === number + 1 ? this.nets.get(this.at) : null, before = this.at;
    const found = await this.netAt(number);
    if (!found) return;
    this.at = number;
    this.state = found.state;
    this.show(found, from, before);
  }

  // This pair next, whatever was chosen before to come after here.
  take(pair) {
    this.work = this.work.then(async () => {
      if (!this.program || pair >= this.state.pairs) return;
      const choices = Array.from({ length: this.at }, (_, number) => this.choices[number] ?? 0);
      this.choices = [...choices, pair];
      for (const number of [...this.nets.keys()]) if (number > this.at) this.nets.delete(number);
      const { text } = this, end = await this.bench.caller.ask("net", { text, choices: this.choices });
      if (text !== this.text) return;
      this.finish(end);
      await this.moveTo(this.at + 1);
    }).catch(error => console.error(error));
    return this.work;
  }

  play() {
    if (this.playing) return this.stop();
    this.buttons.play.textContent = "pause";
    const step = async () => {
      await this.go(() => this.at + 1);
      if (!this.playing) return;
      if (this.at >= this.total) return this.stop();
      this.playing = setTimeout(step, SEEN);
    };
    this.playing = setTimeout(step, 0);
  }

  stop() {
    clearTimeout(this.playing);
    this.playing = null;
    this.buttons.play.textContent = "play";
  }

  enable() {
    const isOpen = this.state !== null, isMore = isOpen && this.state.pairs > 0 && this.at < this.total;
    for (const [names, on] of [[["start", "back"], isOpen && this.at > 0], [["next", "play", "end"], isMore], [["any"], isMore]]) for (const name of names) this.buttons[name].disabled = !on;
    this.slider.disabled = !isOpen || !this.total;
  }

  show(found, from, before) {
    const { said, net, layout } = found;
    this.slider.max = this.total;
    this.slider.value = this.at;
    this.enable();
    const further = this.ended === STATUS.LIMIT ? `of more than ${this.total}` : this.ended === STATUS.FULL ? `of ${this.total}, then the cells are full` : `of ${this.total}`;
    this.count.textContent = `${this.at} ${further} interaction${this.total === 1 ? "" : "s"}`;
    this.lines.textContent = said.text;
    const pairs = said.text.split("\n").filter(line => line.includes(" ~ ")).slice(0, LISTED).map(line => line.split(" ~ ").map(term => term.split("(")[0]));
    const hadFocus = this.pairs.contains(document.activeElement);
    const more = this.state.pairs > LISTED ? ` and ${this.state.pairs - LISTED} more` : "";
    this.pairs.innerHTML = pairs.map((names, number) => `<button data-pair="${number}"${number ? "" : ' class="next"'}>${names.map(escaped).join(" &gt;&lt; ")}</button>`).join("") + more;
    // Who chooses pairs by keys goes on at the first one.
    if (hadFocus) (this.pairs.querySelector("button") ?? this.lines).focus();
    this.titles = pairs.map(names => ruleText(this.program, this.program.rules[this.program.byHeads.get(names.join(" "))]));
    this.rule.textContent = this.titles[0] ?? "No active pair is left: this is the end.";
    if (!net) {
      cancelAnimationFrame(this.frame);
      const why = said.state.agents > DRAWN ? `A net of ${said.state.agents} agents is too large for a picture.` : "A symbol has the name of a variable, v and a number: the picture can't tell them apart.";
      this.picture.innerHTML = `<p class="dim">${why}</p>`;
      return;
    }
    this.picture.setAttribute("aria-label", `${said.state.agents} agents, ${said.state.pairs} active pairs`);
    this.move(net, layout, from, before);
  }

  showRule(number) {
    if (this.titles[number]) this.rule.textContent = this.titles[number];
  }

  // The picture; from the one before agents move to their new places, and new ones come from the pair.
  move(net, layout, from, before) {
    cancelAnimationFrame(this.frame);
    const options = { titles: this.titles };
    const paint = places => (this.picture.innerHTML = draw(net, places, options));
    if (!from?.net || net.agents.size > MOVED || matchMedia("(prefers-reduced-motion: reduce)").matches) return paint(layout);
    const pair = before < this.at ? from.net.queue[this.choices[before] ?? 0] : null;
    const [a, b] = pair ? pair.map(agent => from.layout.agents.get(agent)) : [];
    const origin = pair ? { x: (a.x + b.x) / 2, y: (a.y + b.y) / 2 } : null;
    const begun = performance.now();
    const frame = now => {
      const share = Math.min(1, Math.max(0, (now - begun) / MOVING));
      paint(share < 1 ? between(from.layout, layout, share * share * (3 - 2 * share), origin) : layout);
      if (share < 1) this.frame = requestAnimationFrame(frame);
    };
    frame(begun);
  }
}
