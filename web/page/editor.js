// An editor: a textarea over its coloured text, of which only the lines that are seen are painted. Not proved. Offsets are those of a string's
// units, which have 16 bits.
import { LongText } from "./long_text.js";
import { escaped } from "./picture.js";

const KINDS = /(#[^\n]*)|([\p{XID_Start}_]\p{XID_Continue}*)|(><|[~+\-;:,{}()[\]])/gu;
const DECLARED = /\bsymbol\s+([\p{XID_Start}_]\p{XID_Continue}*)/gu;
const WORDS = new Set(["type", "symbol", "rule", "net", "with"]);
const LINE = 20, PADDING = 8;
// Above these lengths a text's symbols aren't looked for, and a line isn't coloured.
const LONG_TEXT = 100_000, LONG_LINE = 600;

function kindOf([all, comment, name], symbols) {
  if (comment) return "comment";
  return name ? (WORDS.has(all) ? "word" : symbols.has(all) ? "symbol" : "") : "sign";
}

// A line's pieces as HTML: kinds of tokens, cut where a mark begins or ends.
function paintedLine(line, from, marks, symbols) {
  const cuts = [...line.matchAll(KINDS)].map(found => ({ from: found.index, to: found.index + found[0].length, kind: kindOf(found, symbols) }));
  const here = marks.filter(mark => mark.from <= from + line.length && mark.to >= from).map(mark => ({ from: Math.max(0, mark.from - from), to: Math.min(line.length, mark.to - from), kind: mark.kind }));
  const ends = new Set([0, line.length, ...[...cuts, ...here].flatMap(it => [it.from, it.to])]);
  const places = [...ends].sort((a, b) => a - b);
  const pieces = places.slice(1).map((end, number) => {
    const begin = places[number], token = cuts.find(it => it.from <= begin && end <= it.to), mark = here.find(it => it.from <= begin && end <= it.to);
    const text = escaped(line.slice(begin, end)), inner = token?.kind ? `<span class="${token.kind}">${text}</span>` : text;
    return mark ? `<mark class="${mark.kind}">${inner}</mark>` : inner;
  });
  // A mark behind the last character, or of none.
  const empty = here.find(it => it.from === it.to);
  return pieces.join("") + (empty ? `<mark class="${empty.kind}"> </mark>` : "");
}

export class Editor {
  constructor(place, label, changed) {
    place.innerHTML = `<pre class="numbers" aria-hidden="true"></pre>
<div class="layers"><pre class="shown" aria-hidden="true"></pre><textarea spellcheck="false" autocapitalize="off" autocomplete="off" autocorrect="off" wrap="off" aria-label="${escaped(label)}"></textarea></div>`;
    [this.numbers, this.shown, this.area] = [".numbers", ".shown", "textarea"].map(it => place.querySelector(it));
    this.whole = new LongText(this.area, LINE, () => this.refresh());
    this.marks = [];
    this.refresh();
    this.area.addEventListener("input", () => {
      // Marks behind the place of the change move with the text.
      const more = this.whole.length - this.length, caret = this.whole.caret - Math.max(0, more);
      this.marks = this.marks.map(mark => (mark.from >= caret ? { ...mark, from: mark.from + more, to: mark.to + more } : mark));
      this.length += more;
      changed();
      // Several keys are painted at once.
      this.frame ??= requestAnimationFrame(() => this.refresh());
    });
    this.area.addEventListener("scroll", () => this.paint());
    new ResizeObserver(() => this.paint()).observe(place);
  }

  get text() {
    return this.whole.text;
  }

  set text(text) {
    this.marks = [];
    this.whole.text = text;
    this.area.scrollTop = this.area.scrollLeft = 0;
    this.refresh();
  }

  mark(marks) {
    this.marks = marks;
    this.paint();
  }

  // Goes to a part of the text, and selects it.
  select(from, to) {
    this.area.focus();
    this.whole.select(from, to);
    this.refresh();
    const line = this.starts.findLastIndex(start => start <= from - this.whole.offset);
    this.area.scrollTop = Math.max(0, line * LINE - this.area.clientHeight / 2);
  }

  // Makes changes, from the last to the first, in a way that the browser can undo.
  change(changes) {
    this.area.focus();
    for (const { from, to, words } of [...changes].reverse()) {
      this.whole.select(from, to);
      const done = words ? document.execCommand("insertText", false, words) : document.execCommand("delete");
      if (!done) {
        this.area.setRangeText(words, this.area.selectionStart, this.area.selectionEnd, "end");
        this.area.dispatchEvent(new Event("input"));
      }
    }
  }

  // After a change: where the lines of the textarea begin, and its symbols.
  refresh() {
    this.frame = null;
    const text = this.area.value;
    this.length = this.whole.length;
    this.starts = [0];
    for (let at = text.indexOf("\n"); at >= 0; at = text.indexOf("\n", at + 1)) this.starts.push(at + 1);
    this.symbols = new Set(text.length > LONG_TEXT ? [] : [...text.matchAll(DECLARED)].map(it => it[1]));
    this.paint();
  }

  paint() {
    const { scrollTop, scrollLeft, clientHeight, value: text } = this.area, { offset, firstLine } = this.whole;
    const first = Math.max(0, Math.floor((scrollTop - PADDING) / LINE)), last = Math.min(this.starts.length, first + Math.ceil(clientHeight / LINE) + 1);
    const lines = [];
    for (let number = first; number < last; number++) lines.push([this.starts[number], (this.starts[number + 1] ?? text.length + 1) - 1]);
    // Where a line is long, the textarea's own text is seen, without colours.
    const isLong = lines.some(([from, to]) => to - from > LONG_LINE);
    this.area.classList.toggle("plain", isLong);
    const marks = this.marks.map(mark => ({ ...mark, from: mark.from - offset, to: mark.to - offset }));
    this.shown.innerHTML = isLong ? "" : lines.map(([from, to]) => paintedLine(text.slice(from, to), from, marks, this.symbols)).join("\n");
    this.shown.style.transform = `translate(${-scrollLeft}px, ${first * LINE - scrollTop}px)`;
    this.numbers.textContent = lines.map((_, number) => firstLine + first + number + 1).join("\n");
    this.numbers.style.transform = `translateY(${first * LINE - scrollTop}px)`;
  }
}
