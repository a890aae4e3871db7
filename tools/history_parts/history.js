// The requests of one key as bars over the lines, the order that was found, and other keys.

const find = (id) => document.getElementById(id);
const said = JSON.parse(find("data").textContent);
const [BEGUN, ENDED, PROCESS, KEY, WORDS, TOLD] = [0, 1, 2, 3, 4, 5];
const LANE = 30; // pixels of a process
const HEAD = 34; // pixels of the lines' numbers
const LEFT = 84; // pixels of the processes' names
const MOST_ITEMS = 400; // keys that are listed
const state = { key: 0, chosen: null, unit: 44, dark: false };

/** Makes an element of HTML, or of SVG where the names say so. */
function make(name, attributes, ...inside) {
  const one = ["svg", "g", "rect", "text", "line", "title", "clipPath"].includes(name)
    ? document.createElementNS("http://www.w3.org/2000/svg", name)
    : document.createElement(name);
  for (const [attribute, value] of Object.entries(attributes ?? {})) one.setAttribute(attribute, value);
  one.append(...inside);
  return one;
}

// ---- what is known of each key

const requests = said.requests.map((row, number) => ({
  number, begun: row[BEGUN], ended: row[ENDED], process: row[PROCESS], key: row[KEY],
  words: row[WORDS], told: row[TOLD], place: 0, met: undefined,
}));
const byLine = new Map(requests.map((one) => [one.begun, one]));
const byKey = said.keys.map(() => []);
for (const one of requests) byKey[one.key].push(one);
const orders = said.keys.map(() => []);
for (const [line, met] of said.order ?? []) {
  const one = byLine.get(line);
  orders[one.key].push(one);
  one.place = orders[one.key].length;
  one.met = met === null ? "none" : `value ${met}`;
}
const views = new Map(); // what was laid out of a key

const isFailed = (one) => one.told === "fail";
const isOpen = (one) => one.told === "" || one.told === "lost";
const writes = (one) => !one.words.startsWith("get ");
const hasFault = () => said.line !== null;

/** Whether a request is under way at the line at fault, or ends there. */
function isUnderWay(one) {
  return hasFault() && one.begun < said.line && (isOpen(one) || one.ended >= said.line);
}

/** A key's lines, each with its place across, its processes, and its requests in the order. */
function view(key) {
  if (views.has(key)) return views.get(key);
  const lines = new Set();
  for (const one of byKey[key]) {
    lines.add(one.begun);
    if (one.ended) lines.add(one.ended);
  }
  if (hasFault()) lines.add(said.line);
  const sorted = [...lines].sort((one, other) => one - other);
  const across = new Map(sorted.map((line, place) => [line, place]));
  const processes = [...new Set(byKey[key].map((one) => one.process))];
  processes.sort((one, other) => Number(one) - Number(other));
  const lanes = new Map(processes.map((process, lane) => [process, lane]));
  const rest = byKey[key].filter((one) => !one.place);
  const made = { lines: sorted, across, lanes, order: [...orders[key], ...rest] };
  views.set(key, made);
  return made;
}

// ---- the bars

function left(one) {
  return LEFT + (view(state.key).across.get(one.begun) + 0.5) * state.unit;
}

function right(one) {
  const { across, lines } = view(state.key);
  const place = one.ended ? across.get(one.ended) : lines.length;
  return LEFT + (place + (one.ended ? 0.5 : 0.2)) * state.unit;
}

function bar(one, lane) {
  const classes = ["bar"];
  if (writes(one)) classes.push("writes");
  if (isOpen(one)) classes.push("open");
  if (isFailed(one)) classes.push("failed");
  if (hasFault() && one.begun > said.line) classes.push("later");
  if (isUnderWay(one)) classes.push("under-way");
  if (state.chosen === one) classes.push("chosen");
  const [x, y] = [left(one), HEAD + lane * LANE + 4];
  const width = Math.max(8, right(one) - x);
  const text = make("text", { x: x + 5, y: y + 15, "clip-path": `inset(0 -${width}px 0 0)` });
  if (one.place) {
    const place = document.createElementNS("http://www.w3.org/2000/svg", "tspan");
    place.setAttribute("class", "place");
    place.textContent = `${one.place} `;
    text.append(place);
  }
  const room = Math.floor((width - 10) / 7.3) - (one.place ? String(one.place).length + 1 : 0);
  const words = short(one);
  text.append(words.length > room ? words.slice(0, Math.max(0, room - 1)) + (room > 0 ? "…" : "") : words);
  const label = `line ${one.begun}: process ${one.process} ${one.words}${one.told ? `, ${one.told}` : ""}`;
  return make("g", { class: classes.join(" "), "data-line": one.begun, role: "button", "aria-label": label },
    make("title", {}, label), make("rect", { x, y, width, height: LANE - 8, rx: 4 }), text);
}

/** A request without its key, and what it was told. */
function short(one) {
  const [kind, , ...values] = one.words.split(" ");
  const end = one.told.replace(/^value /, "");
  return [kind, ...values].join(" ") + (end ? ` → ${end}` : "");
}

function grid(from, to, height) {
  const { lines, across, lanes } = view(state.key);
  const parts = [];
  const every = Math.max(1, Math.ceil(48 / state.unit));
  for (let place = Math.max(0, from - (from % every)); place < Math.min(lines.length, to); place += every) {
    const x = LEFT + (place + 0.5) * state.unit;
    parts.push(make("line", { class: "tick", x1: x, x2: x, y1: HEAD - 6, y2: height }));
    parts.push(make("text", { class: "tick-name", x, y: HEAD - 10, "text-anchor": "middle" }, String(lines[place])));
  }
  for (const lane of lanes.values()) {
    const y = HEAD + lane * LANE + LANE / 2;
    parts.push(make("line", { class: "lane-line", x1: LEFT, x2: LEFT + (lines.length + 1) * state.unit, y1: y, y2: y }));
  }
  if (hasFault()) {
    const x = LEFT + (across.get(said.line) + 0.5) * state.unit;
    parts.push(make("line", { class: "at-fault", x1: x, x2: x, y1: HEAD - 22, y2: height }));
    parts.push(make("text", { class: "at-fault-name", x: x + 4, y: HEAD - 22 }, `line ${said.line}`));
  }
  return parts;
}

function names(shift, height) {
  const back = make("rect", { class: "lane-back", x: shift, y: HEAD, width: LEFT - 4, height: height - HEAD });
  return [back, ...[...view(state.key).lanes].map(([process, lane]) =>
    make("text", { class: "lane-name", x: shift + 6, y: HEAD + lane * LANE + LANE / 2 + 4 }, `process ${process}`))];
}

/** Draws what can be seen of the bars, since there may be very many. */
function drawBars() {
  const box = find("bars");
  const { lines, lanes } = view(state.key);
  const width = LEFT + (lines.length + 1.5) * state.unit;
  const height = HEAD + lanes.size * LANE + 12;
  const [shift, seen] = [box.scrollLeft, box.clientWidth || 1200];
  const isSeen = (one) => right(one) >= shift - 200 && left(one) <= shift + seen + 200;
  const from = Math.floor((shift - LEFT) / state.unit) - 2;
  const to = from + Math.ceil(seen / state.unit) + 6;
  const shown = byKey[state.key].filter(isSeen);
  const bars = shown.map((one) => bar(one, lanes.get(one.process)));
  box.replaceChildren(make("svg", { width, height }, ...grid(Math.max(0, from), to, height), ...bars, ...names(shift, height)));
}

/** Scrolls so that a place across can be seen. */
function seeAcross(x) {
  const box = find("bars");
  if (x < box.scrollLeft + LEFT + 20 || x > box.scrollLeft + box.clientWidth - 120) {
    box.scrollLeft = Math.max(0, x - box.clientWidth / 2);
  }
}

// ---- cards and lists

function facts(pairs) {
  return make("dl", { class: "facts" }, ...pairs.flatMap(([name, value]) => [make("dt", {}, name), make("dd", {}, value)]));
}

function showChosen() {
  const one = state.chosen;
  if (!one) {
    find("chosen").replaceChildren(make("p", { class: "note" }, "A click, or ← and →, choose a request."));
    return;
  }
  const ends = { "": "it is still open", lost: "nobody knows whether it took effect", fail: "it took no effect" };
  find("chosen").replaceChildren(make("h3", {}, one.words), facts([
    ["process", one.process],
    ["lines", one.ended ? `${one.begun} to ${one.ended}` : `${one.begun} to the end`],
    ["told", ends[one.told] ?? one.told],
    ["place", one.place ? String(one.place) : "none in the order"],
    ...(one.met === undefined ? [] : [["met", one.met]]),
  ]));
}

function item(one) {
  const classes = one === state.chosen ? "item chosen" : "item";
  const place = make("b", {}, one.place ? String(one.place) : "–");
  const met = one.met === undefined ? "" : ` met ${one.met}`;
  const button = make("button", { class: classes, "data-line": one.begun }, place,
    `${one.begun} ${one.process} ${one.words}`, make("i", {}, met));
  return make("li", {}, button);
}

function showOrder() {
  const { order } = view(state.key);
  const numbered = orders[state.key].length;
  const of = said.answer === "linearizable" ? "the order that was found"
    : said.order ? `an order of the lines before line ${said.line}` : "no order was found";
  find("list-title").textContent = `${of}: ${numbered} of ${some(order.length, "request")}`;
  find("order").replaceChildren(...order.map(item));
}

function showWay() {
  const all = hasFault() ? byKey[state.key].filter(isUnderWay) : [];
  find("way").hidden = !hasFault();
  if (!hasFault()) return;
  const list = make("ol", { id: "under-way", style: "list-style: none; margin: 0; padding: 0" }, ...all.map(item));
  find("way").replaceChildren(make("h3", {}, `under way at line ${said.line}: ${all.length}`), list);
}

function showKeys() {
  const wanted = find("search").value;
  const fits = said.keys.map((name, key) => [name, key]).filter(([name]) => name.includes(wanted));
  const near = Math.max(0, fits.findIndex(([, key]) => key === state.key) - MOST_ITEMS / 2);
  const shown = fits.slice(near, near + MOST_ITEMS);
  const options = shown.map(([name, key]) => make("div", {
    class: key === said.key ? "of-key bad" : "of-key", role: "option", "data-key": key,
    "aria-selected": String(key === state.key),
  }, `${name} ${byKey[key].length}`));
  if (fits.length > shown.length) options.push(make("p", { class: "note" }, `${fits.length} keys in all`));
  find("keys").replaceChildren(...options);
  find("keys").querySelector("[aria-selected=true]")?.scrollIntoView({ block: "nearest" });
}

function mark() {
  for (const old of document.querySelectorAll(".item.chosen")) old.classList.remove("chosen");
  if (!state.chosen) return;
  const all = document.querySelectorAll(`.item[data-line="${state.chosen.begun}"]`);
  for (const one of all) one.classList.add("chosen");
  find("order").querySelector(".item.chosen")?.scrollIntoView({ block: "nearest" });
}

// ---- what the reader does

function writeAddress() {
  const key = `key=${encodeURIComponent(said.keys[state.key] ?? "")}`;
  const request = state.chosen ? `&request=${state.chosen.begun}` : "";
  history.replaceState(null, "", `#${key}${request}`);
}

function choose(one) {
  state.chosen = one;
  if (one) seeAcross(left(one));
  drawBars();
  showChosen();
  mark();
  writeAddress();
}

function showKey(key) {
  state.key = key;
  state.chosen = null;
  find("key").textContent = `key ${said.keys[key]}: ${some(byKey[key].length, "request")}`;
  find("bars").scrollLeft = 0;
  const room = (find("bars").clientWidth - LEFT) / (view(key).lines.length + 2);
  state.unit = Math.max(44, Math.min(110, room));
  showKeys();
  showOrder();
  showWay();
  choose(null);
}

/** Goes on in the order, or back. */
function step(by) {
  const { order } = view(state.key);
  const at = state.chosen ? order.indexOf(state.chosen) + by : by > 0 ? 0 : order.length - 1;
  choose(order[Math.max(0, Math.min(order.length - 1, at))]);
}

function stepKey(by) {
  const next = state.key + by;
  if (next >= 0 && next < said.keys.length) showKey(next);
}

/** Shows the key and the line at fault. */
function toFault() {
  if (!hasFault()) return;
  if (state.key !== said.key) showKey(said.key);
  seeAcross(LEFT + (view(state.key).across.get(said.line) + 0.5) * state.unit);
  drawBars();
}

function zoom(by) {
  const box = find("bars");
  const middle = (box.scrollLeft + box.clientWidth / 2 - LEFT) / state.unit;
  state.unit = Math.max(4, Math.min(200, state.unit * by));
  drawBars();
  box.scrollLeft = LEFT + middle * state.unit - box.clientWidth / 2;
  drawBars();
}

function setTheme(isDark) {
  state.dark = isDark;
  document.documentElement.dataset.theme = isDark ? "dark" : "light";
  find("theme").textContent = isDark ? "light" : "dark";
}

const keyActs = {
  ArrowRight: () => step(1),
  ArrowLeft: () => step(-1),
  ArrowDown: () => stepKey(1),
  ArrowUp: () => stepKey(-1),
  Home: () => choose(view(state.key).order[0]),
  End: () => choose(view(state.key).order[view(state.key).order.length - 1]),
  Escape: () => choose(null),
  l: toFault,
  "/": () => { find("search").focus(); find("search").select(); },
  "+": () => zoom(1.4),
  "-": () => zoom(1 / 1.4),
  d: () => setTheme(!state.dark),
  "?": () => find("keys-help").showModal(),
};

function onKey(event) {
  if (event.ctrlKey || event.altKey || event.metaKey) return;
  if (document.querySelector("dialog[open]")) return;
  if (event.target.matches("input")) {
    if (event.key === "Enter") find("keys").querySelector(".of-key")?.click();
    if (event.key === "Escape" || event.key === "Enter") event.target.blur();
    return;
  }
  if (!keyActs[event.key]) return;
  keyActs[event.key]();
  event.preventDefault();
}

function chosenBy(event) {
  const one = event.target.closest("[data-line]");
  if (one) choose(byLine.get(Number(one.dataset.line)));
}

function listen() {
  const on = (id, name, act) => find(id).addEventListener(name, act);
  on("bars", "click", chosenBy);
  on("order", "click", chosenBy);
  on("way", "click", chosenBy);
  on("bars", "scroll", () => requestAnimationFrame(drawBars));
  on("keys", "click", (event) => {
    const one = event.target.closest("[data-key]");
    if (one) showKey(Number(one.dataset.key));
  });
  on("search", "input", showKeys);
  on("fault", "click", toFault);
  on("wide", "click", keyActs["+"]);
  on("narrow", "click", keyActs["-"]);
  on("theme", "click", keyActs.d);
  on("help", "click", keyActs["?"]);
  on("keys-close", "click", () => find("keys-help").close());
  document.addEventListener("keydown", onKey);
  window.addEventListener("resize", drawBars);
}

/** A number of things. */
const some = (count, what) => `${count} ${what}${count === 1 ? "" : "s"}`;

function showAnswer() {
  const at = hasFault() ? `: line ${said.exact ? "" : "at most "}${said.line}, key ${said.keys[said.key]}` : "";
  const count = `, ${some(said.requests.length, "request")}, ${some(said.keys.length, "key")}, ${some(said.lines, "line")}`;
  find("answer").textContent = said.answer + at + count;
  find("answer").classList.toggle("bad", hasFault());
  find("fault").hidden = !hasFault();
}

function start() {
  find("title").textContent = said.title;
  showAnswer();
  setTheme(window.matchMedia("(prefers-color-scheme: dark)").matches);
  if (!said.requests.length) {
    find("bars").textContent = "This history has no requests.";
    return;
  }
  listen();
  const wanted = new URLSearchParams(location.hash.slice(1));
  const key = said.keys.indexOf(wanted.get("key"));
  showKey(key >= 0 ? key : said.key ?? 0);
  const one = byLine.get(Number(wanted.get("request")));
  if (one && one.key === state.key) choose(one);
  else toFault();
}

start();
