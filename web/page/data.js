// The accepted program as data (docs/use/EXPORT.md). Not proved.
import { buttons, refusedNote } from "./parts.js";

const SHOWN = 100_000;

export class DataPanel {
  constructor(place, bench) {
    this.bench = bench;
    place.innerHTML = `<p>The accepted program as one line of JSON, as <code>inet_export</code> writes it.</p>
<div class="controls">${buttons([["copy", "copy", "to the clipboard"]])}<span role="status"></span></div>
<pre class="box data" tabindex="0" aria-label="the program as data"></pre>`;
    [this.line, this.done] = ["pre", "span"].map(it => place.querySelector(it));
    place.querySelector("button").addEventListener("click", async () => {
      await navigator.clipboard?.writeText(this.exported).then(() => (this.done.textContent = "copied"), () => (this.done.textContent = "the browser doesn't allow that"));
    });
  }

  begin(text, { exported = "" }) {
    this.exported = exported;
    this.done.textContent = "";
    if (!exported) this.line.innerHTML = refusedNote;
    else this.line.textContent = exported.length > SHOWN ? `${exported.slice(0, SHOWN)} …` : exported;
  }
}
