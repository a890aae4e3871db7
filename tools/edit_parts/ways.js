// Texts beside one another, each with its own past: a step back takes a change of any kind back.

const MOST_WAYS = 8;
const MOST_PAST = 33554432; // letters of older texts that are kept for undo, over all ways
const PAUSE = 1000; // milliseconds without a key, after which typing is a change of its own

const ways = {
  all: [],
  now: null,
  typed: 0, // when a key was pressed last
  named: 0,
  onShow: () => {},

  make(text, saved, name) {
    this.named = Math.max(this.named + 1, Number(/^text (\d+)$/.exec(name ?? "")?.[1] ?? 0));
    return { name: name ?? `text ${this.named}`, text, saved, undo: [], redo: [], run: 0, row: 0,
      head: null, data: null };
  },

  /** Begins with what was kept, or with one text. */
  begin(kept, text) {
    const found = (kept?.ways ?? []).filter((one) => typeof one.text === "string");
    this.all = found.map((one) => this.make(one.text, one.saved ?? "", one.name));
    if (!this.all.length) this.all = [this.make(text, text)];
    this.show(this.all[Math.min(kept?.now ?? 0, this.all.length - 1)]);
  },

  record() {
    return { now: this.all.indexOf(this.now),
      ways: this.all.map(({ name, text, saved }) => ({ name, text, saved })) };
  },

  get isChanged() { return this.now.text !== this.now.saved; },

  /** Shows one of the texts. */
  show(way) {
    this.now = way;
    this.typed = 0;
    editor.show(way.text);
    this.draw();
    this.onShow(way);
  },

  /** Another text of its own, from now on shown. */
  add(text, saved = "") {
    if (this.all.length >= MOST_WAYS) throw new Error(`there are ${MOST_WAYS} texts: close one`);
    const way = this.make(text, saved);
    this.all.push(way);
    this.show(way);
    keep.write(this.record());
    return way;
  },

  close(way) {
    const place = this.all.indexOf(way);
    this.all.splice(place, 1);
    if (this.now === way) this.show(this.all[Math.max(0, place - 1)]);
    else this.draw();
    keep.write(this.record());
  },

  /** The past of a text gains what it was; what is oldest of all is dropped where it is too much. */
  remember(way) {
    way.undo.push(way.text);
    way.redo = [];
    let size = this.all.flatMap((one) => one.undo).reduce((sum, text) => sum + text.length, 0);
    for (const one of [...this.all.filter((other) => other !== way), way]) {
      while (size > MOST_PAST && one.undo.length > 1) size -= one.undo.shift().length;
    }
  },

  /** The reader typed. */
  typedNow() {
    const text = editor.text;
    if (text === this.now.text) return;
    if (Date.now() - this.typed > PAUSE) this.remember(this.now);
    this.typed = Date.now();
    this.take(text);
  },

  /** A change by something else than the keyboard; it is one step of undo. */
  change(text, saved) {
    if (text !== this.now.text) this.remember(this.now);
    if (saved !== undefined) this.now.saved = saved;
    this.typed = 0;
    this.take(text);
    editor.show(text, 0);
  },

  take(text) {
    this.now.text = text;
    this.now.head = this.now.data = null;
    keep.write(this.record());
    this.draw();
  },

  /** Takes a change back, or does it again. Whether there was one. */
  step(from, to) {
    const way = this.now;
    if (!way[from].length) return false;
    way[to].push(way.text);
    const text = way[from].pop();
    this.typed = 0;
    this.take(text);
    editor.show(text, Math.min(text.length, firstApart(text, editor.text)));
    return true;
  },

  draw() {
    const made = this.all.map((way, place) => this.tab(way, place));
    const held = find("ways").contains(document.activeElement);
    find("ways").replaceChildren(...made.flat());
    if (held) find(`way-${this.all.indexOf(this.now)}`)?.focus();
    find("undo").disabled = !this.now.undo.length;
    find("redo").disabled = !this.now.redo.length;
    document.title = `${this.isChanged ? "• " : ""}${this.now.name}: a scenario`;
    results.fillOthers();
  },

  tab(way, place) {
    const isNow = way === this.now;
    const tab = Object.assign(document.createElement("button"), { id: `way-${place}`,
      textContent: way.name + (way.text === way.saved ? "" : " •"),
      title: way.text === way.saved ? way.name : `${way.name}, not saved as a file`,
      tabIndex: isNow ? 0 : -1, onclick: () => { if (way !== this.now) this.show(way); } });
    tab.setAttribute("role", "tab");
    tab.setAttribute("aria-selected", String(isNow));
    tab.setAttribute("aria-controls", "way");
    tab.addEventListener("keydown", (event) => this.onKey(event, place));
    if (this.all.length < 2) return [tab];
    const close = Object.assign(document.createElement("button"), { className: "close",
      textContent: "×", title: `close ${way.name}`, onclick: () => closeWay(way) });
    close.setAttribute("aria-label", `close ${way.name}`);
    return [tab, close];
  },

  onKey(event, place) {
    const to = { ArrowRight: place + 1, ArrowLeft: place - 1 }[event.key];
    if (to === undefined) return;
    const count = this.all.length;
    this.show(this.all[(to + count) % count]);
    find(`way-${(to + count) % count}`).focus();
    event.preventDefault();
  },
};

/** The first letter in which two texts differ. */
function firstApart(one, other) {
  let at = 0;
  while (at < one.length && one[at] === other[at]) at++;
  return at;
}
