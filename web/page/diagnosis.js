// The diagnosis of a refused text, from its data (docs/use/LIBRARY.md): each part goes to its place, and remedies are applied by a click. Not
// proved.
import { escaped } from "./picture.js";

const FORMAT = 1;
const KINDS = { errors: "error", notes: "note", helps: "help" };

// From characters to units of 16 bits: `offset(n)` is where the character of number n begins, asked for in any order.
export function offsets(text) {
  const wide = [];
  let characters = 0;
  for (let at = 0; at < text.length; at++, characters++) {
    if (text.codePointAt(at) > 0xffff) {
      wide.push(characters);
      at++;
    }
  }
  return character => character + wide.filter(it => it < character).length;
}

export class Diagnosis {
  constructor(place, editor) {
    this.place = place;
    this.editor = editor;
    place.addEventListener("click", event => {
      const { part, remedy } = event.target.closest("button")?.dataset ?? {};
      if (part !== undefined) this.editor.select(...this.placeOf(this.parts[part]));
      if (remedy !== undefined) this.apply(this.parts[remedy].remedy);
    });
  }

  placeOf({ place }) {
    return place.characters.map(this.offset);
  }

  apply({ changes }) {
    this.editor.change(changes.map(({ characters, words }) => ({ from: this.offset(characters[0]), to: this.offset(characters[1]), words })));
  }

  // Shows this data; an accepted text has none.
  show(text, line) {
    const data = line ? JSON.parse(line) : null;
    this.place.hidden = !data;
    this.parts = [];
    if (!data || data.format !== FORMAT) {
      this.place.textContent = data ? "This page doesn't know the form of the diagnosis." : "";
      this.editor.mark([]);
      return;
    }
    this.offset = offsets(text);
    this.parts = Object.entries(KINDS).flatMap(([list, kind]) => data[list].map(part => ({ ...part, kind })));
    this.place.innerHTML = `<ul>${this.parts.map((part, number) => this.written(part, number)).join("")}</ul>`;
    this.editor.mark(this.parts.filter(part => part.place).map(part => {
      const [from, to] = this.placeOf(part);
      return { from, to, kind: part.kind };
    }));
  }

  written({ kind, message, place, remedy }, number) {
    const where = place ? `<button data-part="${number}" title="go there">${place.line}:${place.column}</button> ` : "";
    const words = remedy?.changes.map(change => change.words.trim()).filter(Boolean).join(" … ");
    const apply = remedy ? ` <button data-remedy="${number}" class="remedy" title="${escaped(words || "remove it")}">apply${remedy.accepted ? ", and it is accepted" : ""}</button>` : "";
    return `<li class="${kind}"><span class="kind">${kind}</span> ${where}${escaped(message).replace(/`([^`]+)`/g, "<code>$1</code>")}${apply}</li>`;
  }
}
