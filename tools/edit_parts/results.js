// What came of a run: its report, its rows with their slider, the scan there, the audit's verdict;
// and the rows of another text beside them.

/** A frame that shows rows; runs are handed to it once its page is there. */
class Frame {
  constructor(id) {
    this.id = id;
    this.isReady = false;
    this.isLoading = false;
    this.next = null;
  }

  get window() { return find(this.id).contentWindow; }

  /** Shows a run at a row, as soon as it can be seen: the page asks how large things are. */
  show(data, row) {
    this.next = { data, row };
    this.load();
  }

  load() {
    if (!this.next || find("rows-panel").hidden) return;
    find(this.id).hidden = false;
    if (!this.isLoading) {
      this.isLoading = true;
      this.window.location.replace("frame"); // so that back leaves this page
    }
    if (!this.isReady) return;
    const { data, row } = this.next;
    this.next = null;
    this.window.showRun(data, row);
  }

  ready() {
    this.isReady = true;
    this.window.setTheme(isDark());
    this.load();
  }

  hide() {
    this.next = null;
    find(this.id).hidden = true;
  }

  /** Goes to a row, where a run is shown. */
  go(row) {
    if (this.isReady && !this.next && !find(this.id).hidden) this.window.go(row);
  }
}

const results = {
  run: 0, // the number of the run that is shown
  row: 0,
  rows: 0, // how many the run has
  apart: 0, // the first row in which the other text's run differs
  statuses: {},
  scanTimer: 0,
  frame: new Frame("rows"),
  other: new Frame("other-rows"),

  say(id, text, look) {
    find(id).textContent = text;
    find(id).classList.toggle("bad", look === "bad");
    find(id).classList.toggle("good", look === "good");
  },

  /** Which program answers. */
  showBy(isProved) {
    const text = isProved ? "the proved program answers" : "unproved: the same code answers";
    if (find("by").textContent === text) return;
    find("by").textContent = text;
    find("by").className = `by ${isProved ? "proved" : "unproved"}`;
    find("by").title = isProved ? "" : "./scatter build proves and builds the program, once";
  },

  /** What is shown is of an older text. */
  age(isOld) {
    document.querySelector(".results").classList.toggle("old", isOld);
  },

  /** What came of a run, in a reader's words; whether it has rows. */
  showHead({ run, status, proved, seconds }) {
    this.run = run;
    this.age(false);
    this.showBy(proved);
    const meaning = this.statuses[status] ?? "ended with a status that it should not have";
    const isBad = status !== 0 && status !== 6;
    this.say("said", `It ${meaning} (status ${status}, ${seconds.toFixed(1)} s)`,
      isBad ? "bad" : "");
    this.say("verdict", "");
    return !isBad;
  },

  showReport(came) {
    find("report").textContent = came.said;
    return this.showHead(came);
  },

  showFault(fault) {
    this.say("said", fault.message, "bad");
    this.say("verdict", "");
  },

  hideRows(why) {
    this.frame.hide();
    this.rows = 0;
    find("no-rows").hidden = false;
    find("no-rows").textContent = why;
    this.say("scanned", "");
    play.show();
  },

  /** Rows and verdict of a run, unless a newer one has come. */
  async follow(run, way) {
    try {
      this.say("verdict", "rows: under way");
      const data = await ask(`rows?run=${run}`);
      if (run !== this.run) return;
      way.data = data;
      this.showRows(data, way.row);
      await this.audit(run);
    } catch (fault) {
      if (run === this.run) this.say("verdict", fault.message, "bad");
    }
  },

  async audit(run) {
    this.say("verdict", "audit: under way");
    const audit = await ask(`audit?run=${run}`);
    if (run !== this.run) return;
    this.say("verdict", `audit: ${audit.said.trim()}`, audit.status ? "bad" : "good");
  },

  /** The rows, at the row that was looked at before where there is one. */
  showRows(data, row) {
    this.rows = data.count;
    this.row = Math.min(row || this.rows, this.rows);
    if (!this.rows) this.hideRows("This run has no rows.");
    else {
      find("no-rows").hidden = true;
      this.frame.show(data, row ? this.row : 0);
    }
    find("row").textContent = String(this.row);
    this.scanSoon(0);
    this.showOther();
  },

  // ---- another text beside this one

  fillOthers() {
    const others = ways.all.filter((way) => way !== ways.now);
    find("beside").hidden = !others.length;
    const chosen = find("other").value;
    const options = others.map((way) => new Option(way.name, way.name));
    find("other").replaceChildren(new Option("no other text", ""), ...options);
    find("other").value = others.some((way) => way.name === chosen) ? chosen : "";
    if (!find("other").value && chosen) this.showOther();
  },

  /** Shows the other text's run beside this one, and the first row in which they differ. */
  async showOther() {
    const way = ways.all.find((one) => one.name === find("other").value && one !== ways.now);
    const run = this.run;
    this.apart = 0;
    find("to-apart").hidden = true;
    this.say("apart", "");
    find("frames").classList.toggle("two", Boolean(way));
    if (!way) {
      this.other.hide();
      return;
    }
    try {
      if (!way.data) await playOf(way);
      const { row } = await ask(`differ?run=${run}&other=${way.head.run}`);
      if (run !== this.run) return;
      this.apart = row;
      this.say("apart", row ? `the first row that differs is ${row}` : "they have the same rows");
      find("to-apart").hidden = !row;
      this.other.show(way.data, Math.min(row || this.row, way.data.count));
      this.markApart();
    } catch (fault) {
      way.data = null;
      if (run === this.run) this.say("apart", fault.message, "bad");
    }
  },

  /** Marks the first row that differs in both frames. */
  markApart() {
    for (const frame of [this.frame, this.other]) {
      if (frame.isReady && !frame.next) frame.window.markRow(this.apart);
    }
  },

  goApart() {
    for (const frame of [this.frame, this.other]) frame.go(this.apart);
  },

  // ---- the scan

  /** The scan comes when the reader rests at a row. */
  scanSoon(wait) {
    clearTimeout(this.scanTimer);
    this.scanTimer = setTimeout(() => this.scan(), wait);
  },

  async scan() {
    if (!this.run || !this.rows || find("rows-panel").hidden) return;
    const [run, row] = [this.run, this.row];
    const [from, positions, pairs] = ["from", "positions", "pairs"].map((id) => (
      find(id).value.trim()
    ));
    const words = new URLSearchParams({ run, row, from, positions, pairs });
    try {
      const came = await ask(`scan?${words}`);
      if (run === this.run && row === this.row) this.say("scanned", came.said);
    } catch (fault) {
      if (run === this.run && row === this.row) this.say("scanned", fault.message, "bad");
    }
  },

  // ---- what the pages of the rows say

  onMessage(event) {
    if (event.origin !== location.origin) return;
    const frame = [this.frame, this.other].find((one) => one.window === event.source);
    if (!frame) return;
    const said = event.data ?? {};
    if (said.ready) {
      frame.ready();
      this.markApart();
    }
    if (said.theme) setTheme(!isDark());
    if (said.help) find("keys").showModal();
    if (frame !== this.frame) return;
    if (Array.isArray(said.append)) appendLines(said.append.map(String));
    if (said.frees) this.free(said.frees);
    if (Array.isArray(said.states)) this.askStates(said.states);
    if (Number.isInteger(said.row)) this.atRow(said.row);
  },

  atRow(row) {
    if (row !== this.row) {
      this.row = row;
      ways.now.row = row === this.rows ? 0 : row;
      find("row").textContent = String(row);
      this.scanSoon(150);
    }
    play.show();
  },

  /** What `scatter node` says of some nodes, one after another, where the program has that. */
  async askStates(nodes) {
    const run = this.run;
    for (const node of nodes) {
      try {
        const { states } = await ask(`states?${new URLSearchParams({ run, node })}`);
        if (run !== this.run) return;
        this.frame.window.takeNode(node, states);
      } catch {
        return; // the rows' own lines stand there all the same
      }
    }
  },

  /** Looks for lines that free a request or an order, and tells the page of the rows. */
  async free({ kind, name }) {
    const [client, seq] = String(name).replace(/^c/, "").split(" ");
    const what = kind === "order" ? { order: name } : { client, seq };
    const mark = `${kind} ${name}`;
    const run = this.run;
    try {
      const { lines } = await ask(`frees?${new URLSearchParams({ run, ...what })}`);
      if (run === this.run) this.frame.window.showFreeing(mark, lines, "");
    } catch (fault) {
      if (run === this.run) this.frame.window.showFreeing(mark, null, fault.message);
    }
  },

  // ---- tabs

  openTab(name) {
    for (const other of ["report", "rows"]) {
      const is = other === name;
      find(`tab-${other}`).setAttribute("aria-selected", String(is));
      find(`tab-${other}`).tabIndex = is ? 0 : -1;
      find(`${other}-panel`).hidden = !is;
    }
    if (name !== "rows") return;
    this.frame.load();
    this.other.load();
    this.scanSoon(0);
  },

  onTabKey(event) {
    const other = event.target.id === "tab-report" ? "rows" : "report";
    if (event.key !== "ArrowLeft" && event.key !== "ArrowRight") return;
    this.openTab(other);
    find(`tab-${other}`).focus();
    event.preventDefault();
  },
};
