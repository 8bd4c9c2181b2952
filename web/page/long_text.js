// A textarea that holds a part of a long text: browsers take a third of a second for a key in a textarea of a megabyte. The part moves along as one
// scrolls. Not proved.

// A longer text is held in part, and this is how much of it.
const LONG = 200_000, PART = 60_000;

const linesIn = text => {
  let count = 0;
  for (let at = text.indexOf("\n"); at >= 0; at = text.indexOf("\n", at + 1)) count++;
  return count;
};

export class LongText {
  // `moved` is called when another part is held.
  constructor(area, lineHeight, moved) {
    Object.assign(this, { area, lineHeight, moved, before: "", after: "", firstLine: 0, isAll: false });
    area.addEventListener("scroll", () => this.follow());
    area.addEventListener("mousedown", () => (this.isAll = false));
    area.addEventListener("keydown", event => {
      const isCommand = event.ctrlKey || event.metaKey;
      // Where all is selected, that is all of the text; and its ends are those of the text.
      if (isCommand && event.key.toLowerCase() === "a") this.isAll = this.isPart;
      else if (/^(Arrow|Home|End|Page)/.test(event.key)) this.isAll = false;
      if (isCommand && !event.shiftKey && this.isPart && event.key === "Home") this.select(0, 0);
      if (isCommand && !event.shiftKey && this.isPart && event.key === "End") this.select(this.length, this.length);
    });
    area.addEventListener("beforeinput", () => {
      if (this.isAllSelected) this.hold("", "");
      this.isAll = false;
    });
    for (const kind of ["copy", "cut"]) {
      area.addEventListener(kind, event => {
        if (!this.isAllSelected) return;
        event.preventDefault();
        event.clipboardData.setData("text/plain", this.text);
        if (kind === "copy") return;
        this.text = "";
        area.dispatchEvent(new Event("input"));
      });
    }
    // What was pasted may be long.
    area.addEventListener("input", () => area.textLength > LONG && this.cut(this.caret));
  }

  get isPart() {
    return this.before !== "" || this.after !== "";
  }

  get isAllSelected() {
    return this.isAll && this.area.selectionStart === 0 && this.area.selectionEnd === this.area.textLength;
  }

  get text() {
    return this.before + this.area.value + this.after;
  }

  set text(text) {
    this.hold("", "");
    this.area.value = text.length > LONG ? "" : text;
    if (text.length > LONG) this.cut(0, text);
  }

  get length() {
    return this.before.length + this.area.textLength + this.after.length;
  }

  // Where the textarea's part begins, and where the caret is in the text.
  get offset() {
    return this.before.length;
  }

  get caret() {
    return this.offset + this.area.selectionStart;
  }

  select(from, to) {
    if (this.isPart && (from < this.offset || to > this.offset + this.area.textLength)) this.cut(from);
    this.area.setSelectionRange(from - this.offset, to - this.offset);
  }

  // What the textarea doesn't hold.
  hold(before, after) {
    Object.assign(this, { before, after, firstLine: linesIn(before) });
  }

  // Holds the lines around a place.
  cut(place, text = this.text) {
    const { area } = this, had = this.offset, [from, to] = [area.selectionStart + had, area.selectionEnd + had];
    const begin = text.lastIndexOf("\n", Math.max(0, place - PART / 2)) + 1, found = text.indexOf("\n", place + PART / 2), end = found < 0 ? text.length : found + 1;
    this.hold(text.slice(0, begin), text.slice(end));
    area.value = text.slice(begin, end);
    const within = at => Math.max(0, Math.min(end - begin, at - begin));
    area.setSelectionRange(within(from), within(to));
    this.moved();
  }

  // Near an end of the part, another one is held, with the same lines seen.
  follow() {
    const { area, lineHeight } = this;
    if (!this.isPart) return;
    const isNearStart = this.before !== "" && area.scrollTop < area.clientHeight, isNearEnd = this.after !== "" && area.scrollTop > area.scrollHeight - 2 * area.clientHeight;
    if (!isNearStart && !isNearEnd) return;
    const line = Math.floor(area.scrollTop / lineHeight), top = this.firstLine * lineHeight + area.scrollTop;
    let at = 0;
    for (let number = 0; number < line; number++) at = area.value.indexOf("\n", at) + 1;
    this.cut(this.offset + at);
    area.scrollTop = top - this.firstLine * lineHeight;
  }
}
