// Rows, keys, filters, the address and the look: what the reader does.

let written = 0; // the timer that writes the address
let took = 0; // milliseconds of the last step

const PARTS = ["#lanes", "#ring", "#groups", "#now", "#tab"]; // what is made anew
const CAN_FOCUS = "button, [tabindex]";

/** Makes parts of the page anew, and gives what had the focus in one of them the focus again. */
function keepFocus(show) {
  const old = document.activeElement;
  const part = PARTS.find((name) => old && old.closest(name) && old !== find(name.slice(1)));
  const place = part ? [...find(part.slice(1)).querySelectorAll(CAN_FOCUS)].indexOf(old) : -1;
  const { mail, row } = old?.dataset ?? {};
  show();
  if (!part || document.contains(old)) return;
  const all = [...find(part.slice(1)).querySelectorAll(CAN_FOCUS)];
  const isSame = (one) => one?.dataset.mail === mail && one?.dataset.row === row;
  const same = !(mail || row) || isSame(all[place]) ? all[place] : all.find(isSame);
  (same ?? all[Math.min(place, all.length - 1)] ?? find("lanes")).focus({ preventScroll: true });
}

/** Shows all that depends on the row. */
function showAll() {
  keepFocus(showParts);
}

function showParts() {
  const begun = performance.now();
  pending.move(state.row);
  find("number").value = String(state.row);
  find("slider").value = String(state.row);
  find("slider").setAttribute("aria-valuetext", `row ${state.row}`);
  showLanes(); // first, since it reads how large things are
  showNow();
  showRing();
  showTab();
  markStrip();
  took = performance.now() - begun;
}

/** The address is written when the reader rests, since browsers count how often it is. */
function writeAddress() {
  clearTimeout(written);
  written = setTimeout(() => {
    history.replaceState(null, "", `#row=${state.row}${addressOfChosen()}`);
  }, 200);
}

function addressOfChosen() {
  const { kind, number } = state.chosen ?? {};
  if (kind === "request") {
    return `&request=${actor(CLIENT + requests.client[number])}.${requests.seq[number]}`;
  }
  return kind ? `&${kind}=${number}` : "";
}

function go(row) {
  const wanted = Math.max(1, Math.min(ROWS, Math.round(row) || 1));
  state.row = wanted;
  showAll();
  writeAddress();
  tell({ row: state.row }); // a page around this one, as that of tools/edit
}

function choose(what) {
  state.chosen = what;
  state.tab = "chosen";
  find("tab").scrollTop = 0;
  keepFocus(() => { showLanes(); showTab(); });
  writeAddress();
}

/** The request that an address names: by client and number, as `c3.2`, or by its place. */
function requestAt(said) {
  const found = /^c(\d+)\.(\d+)$/.exec(said);
  if (!found) return Number(said);
  for (let one = 1; one <= REQUESTS; one++) {
    const is = requests.client[one] === Number(found[1]);
    if (is && requests.seq[one] === Number(found[2])) return one;
  }
  return NaN;
}

/** Reads what is chosen off the address, and the row, or nothing; what is not there is said. */
function readAddress() {
  const said = new URLSearchParams(location.hash.slice(1));
  const most = { mail: MAILS, request: REQUESTS, tx: run.txs.length - 1, order: orders.length - 1,
    group: run.groups.length - 1 };
  const missed = [];
  state.chosen = null;
  for (const kind of Object.keys(most)) {
    if (!said.has(kind)) continue;
    const number = kind === "request" ? requestAt(said.get(kind)) : Number(said.get(kind));
    const is = Number.isInteger(number) && number >= 1 && number <= most[kind];
    if (is) state.chosen = { kind, number };
    else missed.push(`no ${kind === "tx" ? "transaction" : kind} ${said.get(kind)}`);
  }
  const row = said.get("row");
  const isRow = /^\d+$/.test(row ?? "") && Number(row) >= 1 && Number(row) <= ROWS;
  if (row !== null && !isRow) missed.push(`no row ${row}`);
  say(missed.length ? `This run has ${missed.join(", and ")}: it has ${spelled(ROWS)} rows.` : "");
  return isRow ? Number(row) : 0;
}

/** Says something above the rows. */
function say(text) {
  find("notice").textContent = text;
  find("notice").hidden = !text;
}

/** Where a run is opened that no address names a row of: its end, at what it leaves open. */
function openRow() {
  if (state.chosen) return ROWS;
  for (let one = 1; one <= REQUESTS; one++) {
    if (!requests.answered[one]) {
      state.chosen = { kind: "request", number: one };
      return ROWS;
    }
  }
  const open = orders.findIndex((order) => order && !order.ended);
  if (open > 0) state.chosen = { kind: "order", number: open };
  return ROWS;
}

// ---- the strip of the whole run

function styleOf(name) {
  return getComputedStyle(document.documentElement).getPropertyValue(name).trim();
}

let strip = null; // the picture without the row

function drawStrip() {
  if (!run) return;
  const canvas = find("strip");
  const scale = window.devicePixelRatio || 1;
  const width = canvas.clientWidth;
  if (!width) return; // nothing is seen of it, as in a frame that is hidden
  const height = 46;
  canvas.width = width * scale;
  canvas.height = height * scale;
  const pen = canvas.getContext("2d");
  pen.scale(scale, scale);
  const most = past.counts.reduce((one, other) => Math.max(one, other), 1);
  const x = (row) => 8 + ((row - 1) / Math.max(1, ROWS - 1)) * (width - 16);
  pen.fillStyle = styleOf("--area");
  pen.beginPath();
  pen.moveTo(8, height);
  for (let pixel = 0; pixel <= width - 16; pixel++) {
    const from = 1 + Math.floor((pixel / (width - 15)) * ROWS);
    const to = Math.max(from, Math.floor(((pixel + 1) / (width - 15)) * ROWS));
    let high = 0;
    for (let row = from; row <= Math.min(to, ROWS); row++) high = Math.max(high, past.counts[row]);
    pen.lineTo(8 + pixel, height - (high / most) * (height - 16));
  }
  pen.lineTo(width - 8, height);
  pen.fill();
  pen.fillStyle = styleOf("--ink");
  pen.font = "11px system-ui, sans-serif";
  pen.textAlign = "center";
  for (const { row } of rings) if (row) pen.fillText("▼", x(row), 10);
  for (const order of orders) if (order) pen.fillText("•", x(order.row), 22);
  pen.fillStyle = styleOf("--bad");
  for (const row of past.crashes.values()) pen.fillText("✕", x(row), 11);
  strip = pen.getImageData(0, 0, canvas.width, canvas.height);
  markStrip();
}

function markStrip() {
  if (!strip) return;
  const canvas = find("strip");
  const scale = window.devicePixelRatio || 1;
  const pen = canvas.getContext("2d");
  pen.putImageData(strip, 0, 0);
  pen.fillStyle = styleOf("--accent");
  const x = (row) => 8 + ((row - 1) / Math.max(1, ROWS - 1)) * (canvas.clientWidth - 16);
  pen.fillRect(x(state.row) - 1, 0, 2, canvas.height / scale);
  if (!apart) return;
  pen.fillStyle = styleOf("--bad");
  pen.fillRect(x(Math.min(apart, ROWS)) - 1, 0, 2, canvas.height / scale);
}

// ---- filters

function options(id, none, all) {
  find(id).replaceChildren(make("option", { value: none }, "any"),
    ...all.map(([value, text]) => make("option", { value }, text)));
}

function fillFilters() {
  options("by-actor", -1, run.actors.map((who) => [who, actor(who)]));
  options("by-group", 0, run.groups.map((name, place) => [place, name]).slice(1));
  const clients = run.actors.filter((who) => who > CLIENT);
  options("by-client", 0, clients.map((who) => [who - CLIENT, actor(who)]));
  options("by-kind", -1, run.kinds.map((name, place) => [place, name]));
  const some = run.keys.slice(1, 400);
  find("keys").replaceChildren(...some.map((key) => make("option", { value: key })));
}

function showFilters() {
  find("by-actor").value = filters.actor;
  find("by-group").value = filters.group;
  find("by-client").value = filters.client;
  find("by-kind").value = filters.kind;
  if (find("by-key").value !== filters.key) find("by-key").value = filters.key;
  const said = `${spelled(shownCount())} of ${spelled(ROWS)} rows`;
  find("matches").textContent = isFiltered() ? said : "";
  find("filters").classList.toggle("on", isFiltered());
}

function setFilter(name, value) {
  filters[name] = value;
  applyFilters();
  showFilters();
  showAll();
}

function searchKey(key) {
  setFilter("key", key);
}

function clearFilters() {
  Object.assign(filters, NO_FILTERS);
  applyFilters();
  showFilters();
  showAll();
}

// ---- what the reader does

function play() {
  if (state.playing) {
    clearInterval(state.playing);
    state.playing = null;
  } else {
    state.playing = setInterval(() => {
      const next = rowAway(1);
      if (next === state.row) play(); else go(next);
    }, 450);
  }
  find("play").textContent = state.playing ? "stop" : "play";
  find("play").setAttribute("aria-pressed", String(Boolean(state.playing)));
}

function setTheme(isDark) {
  state.dark = isDark;
  document.documentElement.dataset.theme = isDark ? "dark" : "light";
  find("theme").textContent = isDark ? "light" : "dark";
  drawStrip();
}

/** The lines of the run's schedule. */
function showScenario() {
  find("scenario-lines").textContent = run.scenario.join("\n");
  find("scenario-text").showModal();
}

function escape() {
  if (state.chosen) choose(null);
  else clearFilters();
}

const keyActs = {
  ArrowLeft: () => go(rowAway(-1)),
  ArrowUp: () => go(rowAway(-1)),
  ArrowRight: () => go(rowAway(1)),
  ArrowDown: () => go(rowAway(1)),
  PageUp: () => go(rowAway(-20)),
  PageDown: () => go(rowAway(20)),
  Home: () => go(shownCount() ? shownRow(0) : state.row),
  End: () => go(shownCount() ? shownRow(shownCount() - 1) : state.row),
  Escape: escape,
  g: () => { find("number").focus(); find("number").select(); },
  "/": () => { find("by-key").focus(); find("by-key").select(); },
  "?": () => (isFramed ? tell({ help: true }) : find("keys-help").showModal()),
  d: () => (isFramed ? tell({ theme: true }) : setTheme(!state.dark)),
  s: showScenario,
  " ": play,
};

function onKey(event) {
  const inText = event.target.matches("input[type=text], input[type=search], select, textarea");
  if (event.ctrlKey || event.altKey || event.metaKey) return;
  if (document.querySelector("dialog[open]") || !ROWS) return;
  if (inText) {
    if (event.key === "Escape") event.target.blur();
    return;
  }
  if (event.key === " " && event.target.matches("button")) return;
  if (event.target.matches("[role=tab]") && tabKey(event)) return;
  if (event.shiftKey && event.key === "ArrowRight") go(changeAway(1));
  else if (event.shiftKey && event.key === "ArrowLeft") go(changeAway(-1));
  else if (/^[1-6]$/.test(event.key)) openTab(TABS[event.key - 1]);
  else if (keyActs[event.key]) keyActs[event.key]();
  else return;
  event.preventDefault();
}

let wheeled = 0;

function onWheel(event) {
  if (event.ctrlKey || !ROWS) return;
  event.preventDefault();
  const aside = event.deltaX || (event.shiftKey ? event.deltaY : 0);
  if (aside) {
    pan += aside;
    showLanes();
    return;
  }
  wheeled += event.deltaY;
  const steps = Math.trunc(wheeled / 40);
  wheeled -= steps * 40;
  if (steps) go(rowAway(steps));
}

function listen() {
  const on = (id, name, act) => find(id).addEventListener(name, act);
  on("first", "click", keyActs.Home);
  on("before", "click", keyActs.ArrowLeft);
  on("after", "click", keyActs.ArrowRight);
  on("last", "click", keyActs.End);
  on("change", "click", () => go(changeAway(1)));
  on("play", "click", play);
  on("theme", "click", keyActs.d);
  on("help", "click", keyActs["?"]);
  on("keys-close", "click", () => find("keys-help").close());
  on("scenario", "click", showScenario);
  on("scenario-close", "click", () => find("scenario-text").close());
  on("number", "change", () => go(Number(find("number").value.replace(/\D/g, ""))));
  on("slider", "input", () => go(Number(find("slider").value)));
  on("strip", "click", (event) => {
    const width = find("strip").clientWidth - 16;
    go(1 + ((event.offsetX - 8) / width) * (ROWS - 1));
  });
  on("lanes", "wheel", onWheel);
  on("by-actor", "change", () => setFilter("actor", Number(find("by-actor").value)));
  on("by-group", "change", () => setFilter("group", Number(find("by-group").value)));
  on("by-client", "change", () => setFilter("client", Number(find("by-client").value)));
  on("by-kind", "change", () => setFilter("kind", Number(find("by-kind").value)));
  on("by-key", "input", () => setFilter("key", find("by-key").value.trim()));
  on("filters", "submit", (event) => event.preventDefault());
  on("clear", "click", clearFilters);
  for (const name of TABS) on(`tab-${name}`, "click", () => openTab(name));
  document.addEventListener("keydown", onKey);
  window.addEventListener("hashchange", () => { if (run) go(readAddress() || openRow()); });
  window.addEventListener("resize", () => { drawStrip(); if (ROWS) showAll(); });
}

/** Shows a run from its tables on; the page of tools/edit calls this for each run. */
function showRun(said, row) {
  takeTables(said);
  takeState();
  takeChanges();
  takeStates();
  find("title").textContent = run.title;
  find("count").textContent = spelled(ROWS);
  find("slider").max = String(Math.max(1, ROWS));
  find("said").textContent = `${spelled(MAILS)} mails, ${spelled(REQUESTS)} of ${spelled(WRITTEN)}`
    + ` requests sent, ${spelled(ENTRIES)} entries of logs decided`;
  find("empty").hidden = ROWS > 0;
  document.body.classList.toggle("no-rows", !ROWS);
  fillFilters();
  showFilters();
  setTheme(state.dark);
  if (ROWS) go(row || openRow());
}

function start() {
  document.body.classList.toggle("framed", isFramed);
  state.dark = window.matchMedia("(prefers-color-scheme: dark)").matches;
  listen();
  setTheme(state.dark);
  const said = JSON.parse(find("data").textContent);
  if (!said) {
    tell({ ready: true });
    return;
  }
  showRun(said, 1);
  if (ROWS) go(readAddress() || openRow());
}

start();
