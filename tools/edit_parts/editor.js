// The lines of the scenario: their numbers and colours, and the mark of the first bad one.

const LONG_LINE = 2000; // letters of a line that are coloured
const MOST_NUMBERS = 20002; // beside the lines; a text that has more is refused before that line

const editor = {
  bad: 0, // the bad line, from 1, or 0
  word: null, // where the refused word stands in it
  lines: [""],

  get text() { return find("text").value; },

  /** Shows a text, with the cursor where it was asked for, or at its beginning. */
  show(said, place = 0) {
    find("text").value = said;
    find("text").setSelectionRange(place, place);
    if (!place) find("text").scrollTop = 0;
    this.changed();
  },

  /** Where the last line is seen. */
  showEnd() {
    find("text").scrollTop = find("text").scrollHeight;
    this.follow();
  },

  /** The text is another one: numbers beside the lines, and one more, since a bad line may be the
   * one behind the last. */
  changed() {
    const before = this.lines.length;
    this.lines = this.text.split("\n");
    if (this.lines.length !== before || !find("numbers").textContent) {
      const count = Math.min(this.lines.length, MOST_NUMBERS);
      find("numbers").textContent = Array.from({ length: count }, (_, at) => at + 1).join("\n");
    }
    find("numbers").style.width = `${Math.max(4, String(this.lines.length).length + 2)}ch`;
    this.follow();
  },

  /** Numbers, colours and mark go with the text. */
  follow() {
    const text = find("text");
    find("numbers").scrollTop = text.scrollTop;
    const look = getComputedStyle(text);
    const [height, above] = [parseFloat(look.lineHeight), parseFloat(look.paddingTop)];
    find("mark").style.top = `${above + (this.bad - 1) * height - text.scrollTop}px`;
    const first = Math.max(0, Math.floor((text.scrollTop - above) / height));
    const last = Math.min(this.lines.length, first + Math.ceil(text.clientHeight / height) + 2);
    const drawn = this.lines.slice(first, last).map((line, at) => (
      colouredLine(line.slice(0, LONG_LINE), first + at === 0,
        first + at + 1 === this.bad ? this.word : null)
    ));
    const colours = find("colours");
    colours.replaceChildren(...drawn);
    const top = above + first * height - text.scrollTop;
    colours.style.transform = `translate(${-text.scrollLeft}px, ${top}px)`;
  },

  /** Marks a line as bad, with its reason and what should stand there; or none. */
  mark(line, reason, word = null, should = []) {
    this.bad = line;
    this.word = word;
    find("mark").hidden = !line;
    find("to-fault").hidden = !line;
    find("text").setAttribute("aria-invalid", String(Boolean(reason)));
    find("fault").classList.toggle("bad", Boolean(reason));
    const more = should.map((one) => (
      Object.assign(document.createElement("span"), { className: "should", textContent: one })
    ));
    find("fault").replaceChildren(reason, ...more);
    this.follow();
  },

  /** Puts the cursor on the refused word, or the bad line. */
  goToBad() {
    if (!this.bad) return;
    const text = find("text");
    const before = this.lines.slice(0, this.bad - 1);
    const begin = before.reduce((sum, line) => sum + line.length + 1, 0);
    const line = this.lines[this.bad - 1] ?? "";
    const [from, to] = this.word ?? [0, line.length];
    text.focus();
    text.setSelectionRange(begin + from, begin + to);
    text.scrollTop = Math.max(0, (this.bad - 5) * parseFloat(getComputedStyle(text).lineHeight));
    this.follow();
  },
};
