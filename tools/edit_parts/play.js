// One step at a time: what may happen after the row that is looked at, each by a click.

const QUIET = "settle 10000"; // lines that deliver all that is pending, where that ends

const ORDER_FORMS = {
  join: ["member", "group"], leave: ["member", "group"], split: ["group", "at"],
  merge: ["group"], repart: ["group", "at"], migrate: ["group", "member"],
};

/** An element with its attributes and children. */
function made(tag, options = {}, ...children) {
  const one = document.createElement(tag);
  for (const [name, value] of Object.entries(options)) {
    if (name.startsWith("on")) one.addEventListener(name.slice(2), value);
    else if (value !== false && value !== null) one.setAttribute(name, value === true ? "" : value);
  }
  one.append(...children.flat());
  return one;
}

const play = {
  isOn: false,
  isBusy: false,
  steps: null, // what may happen next, as the page of the rows counted it
  order: { node: "", word: "split", member: "", group: "", at: "2147483648" },
  storm: { number: "1", steps: "20" },

  toggle(isOn = !this.isOn) {
    this.isOn = isOn;
    find("play").setAttribute("aria-pressed", String(isOn));
    find("steps").hidden = !isOn;
    document.body.classList.toggle("playing", isOn);
    if (!isOn) return;
    results.openTab("rows");
    if (!results.rows || document.querySelector(".results").classList.contains("old")) runNow();
    this.show();
  },

  setBusy(is) {
    this.isBusy = is;
    find("steps").setAttribute("aria-busy", String(is));
    for (const one of find("steps").querySelectorAll("button, input, select")) one.disabled = is;
  },

  /** Lists what may happen next. */
  show() {
    if (!this.isOn) return;
    const frame = results.frame;
    const is = results.rows && frame.isReady && !frame.next;
    this.steps = is ? frame.window.nextSteps() : this.fromText();
    const held = document.activeElement?.dataset?.line;
    const none = results.rows ? "The rows come .." : "What may happen is listed once the text is a"
      + " scenario that can be run.";
    find("steps").replaceChildren(...this.steps ? this.parts() : [
      made("p", { class: "note" }, none)]);
    const same = held && [...find("steps").querySelectorAll("[data-line]")]
      .find((one) => one.dataset.line === held);
    if (same) same.focus();
    this.setBusy(this.isBusy);
  },

  /** The actors of a text whose run has no rows yet. */
  fromText() {
    if (editor.bad || !results.run || results.isWithoutRows !== true) return null;
    const words = editor.lines.map((line) => line.trim().split(/[ \t]+/));
    const count = Number(words.find(([first]) => first === "nodes")?.[1] ?? 0);
    const nodes = Array.from({ length: count }, (_, at) => (
      { number: at + 1, name: `n${at + 1}`, isDown: false }
    ));
    const clients = words.filter(([first, ...rest]) => first === "client" && rest.length === 1)
      .map(([, number]) => ({ number: Number(number), name: `c${number}`, isGone: false }));
    const groups = words.filter(([first]) => first === "group").map(([, lo, ...members], at) => (
      { name: `0.${at + 1}`, lo: Number(lo), members: members.map(Number) }
    ));
    return { row: 0, end: 0, mails: [], nodes, clients, groups };
  },

  button(line, text, title) {
    return made("button", { type: "button", "data-line": line, title: title ?? line,
      onclick: () => takeStep(line) }, text);
  },

  parts() {
    const { row, end, mails } = this.steps;
    const where = row < end ? `after row ${row} of ${end}: a click takes another way from here`
      : `after row ${row}, the last`;
    const quiet = this.button(QUIET, "until quiet", `${QUIET}: all that is pending, and what comes`
      + " of it");
    quiet.disabled = !mails.length;
    const anew = made("button", { type: "button", id: "anew", onclick: () => cutAt(0, []),
      title: "another text, with the head of this one and no schedule" }, "from the beginning");
    anew.hidden = !end;
    return [made("p", { class: "where", id: "where" }, where),
      made("p", { class: "row" }, quiet, ` ${mails.length} pending `, anew),
      this.mails(), this.clients(), this.nodes(), this.orders(), this.storms()];
  },

  mails() {
    const most = 200;
    const { mails } = this.steps;
    const lines = mails.slice(0, most).map((mail) => {
      const where = `${mail.to} ${mail.place}`;
      const copies = mail.copies > 1 ? ` ×${mail.copies}` : "";
      return made("li", {}, made("span", { class: "what", title: mail.words },
        `${mail.number}${copies} ${mail.from}→${mail.to} ${mail.words}`),
      made("span", { class: "acts" }, this.button(`deliver ${where}`, "deliver"),
        this.button(`drop ${where}`, "lose"), this.button(`again ${mail.number}`, "repeat")));
    });
    const more = mails.length - most;
    return made("ul", { class: "mails", "aria-label": "pending mail" }, lines,
      more > 0 ? [made("li", {}, `and ${more} more`)] : []);
  },

  clients() {
    return made("ul", { class: "actors", "aria-label": "clients" },
      this.steps.clients.map(({ number, name, isGone }) => (
        made("li", {}, made("b", {}, name), " ", isGone ? "" : this.button(`go ${number}`, "go"),
          this.button(`tick ${name}`, "tick"))
      )));
  },

  nodes() {
    return made("ul", { class: "actors", "aria-label": "nodes" },
      this.steps.nodes.map(({ number, name, isDown }) => (
        made("li", {}, made("b", {}, isDown ? `${name} ✕` : name), " ",
          isDown ? "crashed" : [this.button(`tick ${name}`, "tick"),
            this.button(`crash ${number}`, "crash")])
      )));
  },

  // ---- orders and storms, which have fields

  field(name, of, label, width) {
    return made("label", {}, label, made("input", { value: of[name], inputmode: "numeric",
      class: width, "data-field": name,
      oninput: (event) => { of[name] = event.target.value.trim(); this.fits(); } }));
  },

  choice(name, label, values) {
    if (!values.includes(this.order[name])) this.order[name] = values[0] ?? "";
    const box = made("select", { "data-field": name, onchange: (event) => {
      this.order[name] = event.target.value;
      if (name === "word") this.show();
      this.fits();
    } }, values.map((value) => new Option(value, value)));
    box.value = this.order[name];
    return made("label", {}, label, box);
  },

  orderLine() {
    const { node, word } = this.order;
    return ["order", node, word, ...ORDER_FORMS[word].map((name) => this.order[name])].join(" ");
  },

  stormLine() {
    return `storm ${this.storm.number} ${this.storm.steps}`;
  },

  /** The buttons behind fields say the line that they append. */
  fits() {
    for (const [id, line] of [["give", this.orderLine()], ["blow", this.stormLine()]]) {
      if (find(id)) Object.assign(find(id), { title: line }).dataset.line = line;
    }
  },

  orders() {
    const living = this.steps.nodes.filter((one) => !one.isDown).map((one) => String(one.number));
    const groups = this.steps.groups.map((one) => one.name);
    const members = this.steps.nodes.map((one) => String(one.number));
    const fields = { group: () => this.choice("group", "group ", groups),
      member: () => this.choice("member", "node ", members),
      at: () => this.field("at", this.order, "at ", "wide") };
    const word = this.choice("word", "", Object.keys(ORDER_FORMS));
    const told = this.choice("node", "tell node ", living);
    const rest = ORDER_FORMS[this.order.word].map((name) => fields[name]());
    const give = made("button", { type: "button", id: "give", title: this.orderLine(),
      "data-line": this.orderLine(), onclick: () => takeStep(this.orderLine()) }, "order");
    return made("p", { class: "row", "aria-label": "an order", role: "group" }, told, word, rest,
      give);
  },

  storms() {
    const blow = made("button", { type: "button", id: "blow", title: this.stormLine(),
      "data-line": this.stormLine(), onclick: () => takeStep(this.stormLine()) }, "storm");
    return made("p", { class: "row", "aria-label": "a storm", role: "group" },
      this.field("number", this.storm, "storm number ", "middle"),
      this.field("steps", this.storm, "steps ", "narrow"), blow);
  },
};

/** A click: the line stands behind the schedule, or, at an earlier row, in another text. */
function takeStep(line) {
  const { row, end } = play.steps;
  if (row < end) return cutAt(row, [line]);
  return stepping(() => ways.change(withLines(editor.text, [line])));
}

/** Another text, whose schedule ends with a row of this one, and these lines behind it. */
function cutAt(row, lines) {
  return stepping(async () => {
    const { text } = await ask(`cut?run=${results.run}&row=${row}`);
    ways.add(withLines(text, lines));
  });
}

async function stepping(act) {
  if (play.isBusy) return;
  play.setBusy(true);
  try {
    await act();
    ways.now.row = 0;
    clearTimeout(page.timer);
    editor.showEnd();
    await playNow();
  } catch (fault) {
    results.showFault(fault);
  }
  play.setBusy(false);
  play.show();
}

/** A text with lines behind it. */
function withLines(text, lines) {
  const begin = text === "" || text.endsWith("\n") ? text : `${text}\n`;
  return begin + lines.map((line) => `${line}\n`).join("");
}
