// What panels share. Not proved.
import { escaped } from "./picture.js";

export const refusedNote = `<p class="dim">The program has to be accepted first.</p>`;
export const buttons = all => all.map(([name, label, title]) => `<button data-do="${name}" title="${escaped(title)}">${label}</button>`).join("");
