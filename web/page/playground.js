// The playground: one workbench, the examples, and a program in the address. Not proved.
import { Bench } from "./bench.js";
import { addressOf, named } from "./address.js";
import { escaped } from "./picture.js";
import { examples, startCaller } from "./within.js";

const find = id => document.getElementById(id);
const list = find("examples"), note = find("note");
const FIRST = "sum";

const textOf = name => examples.find(it => it.name === name)?.text;

// The reader's own text, which is there again after another program was looked at, or the page was loaded anew; a browser may refuse to keep it.
const own = {
  text: "",
  keep(text) {
    this.text = text;
    try {
      sessionStorage.setItem("own", text);
    } catch {
      // It is kept as long as the page is.
    }
  },
  kept() {
    try {
      return sessionStorage.getItem("own");
    } catch {
      return null;
    }
  },
};

function looked(text) {
  performance.mark("looked");
  if (!list.value) own.keep(text);
}

const bench = new Bench(find("bench"), startCaller(), { looked });

function load(text, name = "") {
  list.value = name;
  return bench.load(text);
}

// What the address names; else the reader's own text, else an example.
async function loadAddress() {
  const found = await named(location.hash), example = textOf(found?.example);
  note.textContent = found?.wrong ?? (found?.example && example === undefined ? `There is no example ${found.example}.` : "");
  if (found?.text !== undefined) return load(found.text);
  if (example !== undefined) return load(example, found.example);
  const kept = own.kept();
  return kept && !found ? load(kept) : load(textOf(FIRST), FIRST);
}

function begin() {
  const group = kind => `<optgroup label="${kind}">${examples.filter(it => it.kind === kind).map(it => `<option value="${it.name}">${escaped(it.name.replaceAll("_", " "))}</option>`).join("")}</optgroup>`;
  list.innerHTML = `<option value="">your own</option>${group("accepted")}${group("refused")}`;
  const setAddress = hash => history.replaceState(null, "", hash || location.pathname + location.search);
  list.addEventListener("change", () => {
    setAddress(list.value && `#example=${list.value}`);
    load(list.value ? textOf(list.value) : own.text, list.value);
  });
  bench.editor.area.addEventListener("input", () => {
    if (list.value || location.hash) setAddress("");
    list.value = note.textContent = "";
  });
  find("link").addEventListener("click", async () => {
    setAddress(list.value ? `#example=${list.value}` : await addressOf(bench.text));
    const copied = await navigator.clipboard?.writeText(location.href).then(() => true, () => false);
    note.textContent = `The program is in the address of this page${copied ? ", which is copied" : ""}.`;
  });
  addEventListener("hashchange", loadAddress);
  // Arrow keys belong to the run where nothing else has them.
  document.addEventListener("keydown", event => {
    if (event.target === document.body && bench.shown === "run") bench.panels.run.place.dispatchEvent(new KeyboardEvent("keydown", event));
  });
  // For the browser's console, and the tests.
  window.bench = bench;
  loadAddress();
}

begin();
