// The tabs: what is chosen, and long lists of which only the visible part is drawn.

const LINE = 25; // the height of a line of a list
const TABS = ["chosen", "state", "pending", "requests", "changes", "log"];

/** A list of lines: how many, what each is, and which row it begins at, if lists follow the row. */
class LongList {
  constructor() {
    this.inner = make("div", { class: "list-inner" });
    this.box = make("div", { class: "list", role: "listbox", tabindex: 0 }, this.inner);
    this.box.addEventListener("scroll", () => this.draw());
    this.box.addEventListener("keydown", (event) => this.key(event));
    this.active = -1;
    this.count = 0;
  }

  /** Shows other lines. `line` gives the parts of one, and `open` what a click on it does. */
  set(count, line, open, label) {
    Object.assign(this, { count, line, open });
    this.active = Math.min(this.active, count - 1);
    this.box.setAttribute("aria-label", label);
    this.inner.style.height = `${count * LINE}px`;
    this.draw();
  }

  /** Scrolls so far that a line can be seen. */
  reveal(place) {
    const high = this.box.clientHeight;
    const top = place * LINE;
    if (top < this.box.scrollTop || top + LINE > this.box.scrollTop + high) {
      this.box.scrollTop = Math.max(0, top - high / 2);
    }
  }

  draw() {
    const first = Math.max(0, Math.floor(this.box.scrollTop / LINE) - 3);
    const most = Math.ceil((this.box.clientHeight || 400) / LINE) + 6;
    const lines = [];
    for (let place = first; place < Math.min(this.count, first + most); place++) {
      const isActive = place === this.active;
      const open = () => { this.active = place; this.open(place); };
      lines.push(make("div", { class: isActive ? "item active" : "item", role: "option",
        id: `item-${place}`, style: `top:${place * LINE}px`, "aria-selected": String(isActive),
        onclick: open }, this.line(place)));
    }
    this.inner.replaceChildren(...lines);
    if (!this.count) this.inner.replaceChildren(make("p", { class: "note" }, "none"));
  }

  key(event) {
    const step = { ArrowDown: 1, ArrowUp: -1, PageDown: 10, PageUp: -10 }[event.key];
    if (step) {
      this.active = Math.max(0, Math.min(this.count - 1, this.active + step));
      this.reveal(this.active);
      this.draw();
      this.box.setAttribute("aria-activedescendant", `item-${this.active}`);
    } else if (event.key === "Enter" && this.active >= 0) this.open(this.active);
    else return;
    event.preventDefault();
    event.stopPropagation();
  }
}

const list = new LongList();

function cells(...parts) {
  return parts.map(([look, text]) => make("span", { class: look }, text));
}

// ---- what stands in the lists; each is found again only where filters changed

let listed = { name: "", numbers: [] };

function isRequestShown(request) {
  if (filters.client && requests.client[request] !== filters.client) return false;
  if (filters.actor > CLIENT && requests.client[request] !== filters.actor - CLIENT) return false;
  return filters.key === "" || keysShown.has(requests.key[request]);
}

function isEntryShown(entry) {
  if (filters.group && entries.group[entry] !== filters.group) return false;
  const request = entries.request[entry];
  if (filters.client && clientOf(request) !== filters.client) return false;
  return filters.key === "" || (request > 0 && keysShown.has(requests.key[request]));
}

/** The numbers from 1 to `count` that are shown. */
function numbersOf(name, count, isShown) {
  const mark = `${name} ${JSON.stringify(filters)}`;
  if (listed.name !== mark) {
    const numbers = [];
    for (let number = 1; number <= count; number++) if (isShown(number)) numbers.push(number);
    listed = { name: mark, numbers };
  }
  return listed.numbers;
}

/** How many of these numbers begin by the row. */
function begunBy(numbers, rowOf) {
  let low = 0;
  let high = numbers.length;
  while (low < high) {
    const middle = (low + high) >> 1;
    if (rowOf(numbers[middle]) <= state.row) low = middle + 1; else high = middle;
  }
  return low;
}

function showPending() {
  const numbers = pending.mails().filter((mail) => !isFiltered() || fits(mail));
  list.set(numbers.length, (place) => {
    const mail = numbers[place];
    const copies = pending.copies[mail] > 1 ? ` ×${pending.copies[mail]}` : "";
    const who = `${actor(mails.from[mail])}→${actor(mails.to[mail])}${copies}`;
    return cells(["figure", spelled(mail)], ["who", who], ["words", words(mail)]);
  }, (place) => choose({ kind: "mail", number: numbers[place] }), "mail under way");
}

function requestState(request) {
  const issued = requests.issued[request];
  const answered = requests.answered[request];
  if (issued > state.row) return "not asked yet";
  return answered && answered <= state.row ? run.texts[requests.reply[request]] : "waits";
}

function showRequests() {
  const numbers = numbersOf("requests", REQUESTS, isRequestShown);
  list.set(numbers.length, (place) => {
    const request = numbers[place];
    const look = requestState(request) === "waits" ? "state waits" : "state";
    return cells(["who", requestName(request)], ["words", run.texts[requests.text[request]]],
      [look, requestState(request)]);
  }, (place) => choose({ kind: "request", number: numbers[place] }), "requests");
  list.reveal(Math.max(0, begunBy(numbers, (one) => requests.issued[one]) - 1));
}

let changes = []; // orders and transactions, by the rows in which they begin

function takeChanges() {
  changes = [
    ...orders.slice(1).map((order, place) => (
      { kind: "order", number: place + 1, row: order.row }
    )),
    ...run.txs.slice(1).map((_, place) => (
      { kind: "tx", number: place + 1, row: entries.row[entriesOfTx(place + 1)[0] ?? 0]
        || sentIn[mailsOfTx(place + 1)[0] ?? 0] }
    )),
  ].sort((one, other) => one.row - other.row);
  listed = { name: "", numbers: [] };
}

function changeCells({ kind, number, row }) {
  const look = row > state.row ? "words later" : "words";
  if (kind === "order") {
    const { text, result, ended, number: name } = orders[number];
    const standing = ended && ended <= state.row ? result : row <= state.row ? "open" : "";
    return cells(["figure", spelled(row)], ["who", `order ${name}`], [look, text],
      ["state", standing]);
  }
  const soFar = [...entriesOfTx(number)].filter((entry) => entries.row[entry] <= state.row);
  const first = entriesOfTx(number)[0];
  const came = soFar.map((entry) => run.texts[entries.effect[entry]]);
  const last = came.filter((said) => !said.startsWith("no effect")).pop() ?? "";
  const group = first ? run.groups[entries.group[first]] : "";
  const text = first ? `${group}: ${run.texts[entries.text[first]]}` : "";
  return cells(["figure", spelled(row)], ["who", `tx ${run.txs[number]}`], [look, text],
    ["state", last]);
}

function showChanges() {
  list.set(changes.length, (place) => changeCells(changes[place]), (place) => {
    const { kind, number } = changes[place];
    choose({ kind, number });
  }, "orders and transactions");
  list.reveal(Math.max(0, changes.filter((one) => one.row <= state.row).length - 1));
}

function showLog() {
  const numbers = numbersOf("log", ENTRIES, isEntryShown);
  list.set(numbers.length, (place) => {
    const entry = numbers[place];
    const look = entries.row[entry] > state.row ? "words later" : "words";
    const who = `${run.groups[entries.group[entry]]} #${entries.slot[entry]}`;
    return cells(["figure", spelled(entries.row[entry])], ["who", who],
      [look, run.texts[entries.text[entry]]], ["state", run.texts[entries.effect[entry]]]);
  }, (place) => go(entries.row[numbers[place]]), "decided places of logs");
  list.reveal(Math.max(0, begunBy(numbers, (one) => entries.row[one]) - 1));
}

const SHOWS = { pending: showPending, requests: showRequests, changes: showChanges, log: showLog };

function showTab() {
  find("tab-pending").textContent = `pending ${spelled(pending.count)}`;
  for (const name of TABS) {
    find(`tab-${name}`).setAttribute("aria-selected", String(state.tab === name));
    find(`tab-${name}`).tabIndex = state.tab === name ? 0 : -1;
  }
  find("tab").setAttribute("aria-labelledby", `tab-${state.tab}`);
  const box = find("tab");
  if (state.tab === "chosen" || state.tab === "state") {
    const top = box.scrollTop;
    const said = state.tab === "chosen" ? showChosen() : showStates();
    box.replaceChildren(make("div", { class: "card", id: state.tab }, said));
    box.scrollTop = top;
    return;
  }
  if (!box.contains(list.box)) box.replaceChildren(list.box);
  SHOWS[state.tab]();
}

function openTab(name) {
  if (state.tab !== name) {
    list.active = -1;
    list.box.scrollTop = 0;
  }
  state.tab = name;
  showTab();
}

/** Arrow keys, home and end go through the tabs. Whether the key was one of these. */
function tabKey(event) {
  const here = TABS.indexOf(state.tab);
  const last = TABS.length - 1;
  const to = { ArrowRight: here === last ? 0 : here + 1, ArrowLeft: here ? here - 1 : last,
    Home: 0, End: last }[event.key];
  if (to === undefined || event.shiftKey) return false;
  openTab(TABS[to]);
  find(`tab-${TABS[to]}`).focus();
  event.preventDefault();
  return true;
}
