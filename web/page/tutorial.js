// The lessons: one section is seen at a time, its programs can be changed and run, and its exercises check what is typed. Not proved.
import { addressOf } from "./address.js";
import { Bench } from "./bench.js";
import { checked, EXERCISES } from "./exercises.js";
import { examples, startCaller } from "./within.js";
import { buttons } from "./parts.js";
import { escaped } from "./picture.js";

const LIMIT = 100_000, CELLS = 65_536;
// An editor is as high as its text, up to so many lines.
const MOST_LINES = 26;
const caller = startCaller();
const sections = [...document.querySelectorAll("main > section")];
const exampleOf = name => examples.find(it => it.name === name).text;
const solutionOf = ({ solution }) => examples.find(it => it.name === solution)?.text ?? solution;

// A workbench for the run alone, as high as its text, with a way to the playground.
function program(place, text, looked) {
  const bench = new Bench(place, caller, { panels: ["run"], looked });
  const fit = () => (place.querySelector(".editor").style.height = `${Math.min(MOST_LINES, bench.text.split("\n").length + 1) * 20 + 16}px`);
  bench.editor.area.addEventListener("input", fit);
  const link = document.createElement("a");
  link.textContent = "more of this program";
  link.href = "index.html";
  link.addEventListener("click", async event => {
    event.preventDefault();
    location.href = `index.html${await addressOf(bench.text)}`;
  });
  place.querySelector(".left").append(link);
  bench.load(text);
  fit();
  return bench;
}

function exercise(place) {
  const own = EXERCISES[Number(place.dataset.exercise)];
  place.innerHTML = `<h3>Exercise: ${escaped(own.title)}</h3>
<p>${escaped(own.task)}</p>
<div class="work"></div>
<div class="controls">${buttons([["again", "begin again", "the text of the start"], ["solution", "show a solution", "in the place of the text"]])}<span class="result" role="status"></span></div>
<ul class="checks"></ul>`;
  const [result, list] = [".result", ".checks"].map(it => place.querySelector(it));
  const run = async text => (await caller.ask("call", { name: "run", text, rest: [LIMIT, CELLS] })).text;
  const bench = program(place.querySelector(".work"), own.start, async text => {
    const passed = await checked(own, text, run);
    if (text !== bench.text) return;
    const good = passed.filter(Boolean).length;
    result.textContent = good === passed.length ? "✓ Solved." : `${good} of ${passed.length} checks passed`;
    result.className = `result ${good === passed.length ? "good" : ""}`;
    list.innerHTML = own.checks.map(({ says }, number) => `<li>${passed[number] ? "✓" : "✗"} ${escaped(says)}</li>`).join("");
  });
  const change = words => bench.editor.change([{ from: 0, to: bench.text.length, words }]);
  place.querySelector("[data-do=again]").addEventListener("click", () => change(own.start));
  place.querySelector("[data-do=solution]").addEventListener("click", () => change(solutionOf(own)));
  return bench;
}

// Workbenches are made when they are seen first.
function make(place) {
  if (place.bench) return;
  place.bench = place.dataset.exercise === undefined ? program(place, exampleOf(place.dataset.example)) : exercise(place);
}

function show() {
  const named = sections.find(it => `#${it.dataset.name}` === location.hash) ?? sections[0];
  for (const section of sections) section.hidden = section !== named;
  for (const link of document.querySelectorAll("nav a")) link.setAttribute("aria-current", link.hash === `#${named.dataset.name}` ? "page" : "false");
  for (const place of named.querySelectorAll(":scope > .program, :scope > .exercise")) make(place);
  scrollTo(0, 0);
}

for (const details of document.querySelectorAll("details")) details.addEventListener("toggle", () => details.open && make(details.querySelector(".program")));
addEventListener("hashchange", show);
show();
