// Writing, checking and running: what the reader does.

const REST = 120; // milliseconds without a key, after which a text is checked and run
const QUICK = 2; // seconds that a run may have taken, so that a change runs again by itself
const REPORT_REST = 350; // milliseconds after a step, after which its report is asked for
const BUSY_LOOK = 3000; // milliseconds between two looks at what goes on for other pages

const page = {
  checking: 0, // the number of the last check, since answers may come late
  timer: 0,
  going: 0, // how many of our own calls for runs go on
  isRunning: false,
  wanted: false, // the text changed while it ran
  took: 0, // seconds of the last run
  most: Infinity,
  reportTimer: 0,
};

/** A text as it is sent, or nothing where the program takes none so long. */
function sent() {
  const bytes = new TextEncoder().encode(editor.text);
  if (bytes.length <= page.most) return bytes;
  editor.mark(0, `this has ${bytes.length.toLocaleString("en")} bytes, and a scenario at most `
    + page.most.toLocaleString("en"));
  return null;
}

/** Marks the first bad line. Whether there is none. */
async function check() {
  const number = ++page.checking;
  const text = sent();
  if (!text) return false;
  try {
    const came = await ask("check", text);
    if (number !== page.checking) return false;
    results.showBy(came.proved);
    editor.mark(came.line, came.said, came.word, came.should);
    if (!came.said) find("fault").textContent = "no line is bad";
    return !came.said;
  } catch (fault) {
    if (number === page.checking) editor.mark(0, fault.message);
    return false;
  }
}

/** Runs the text, and once more where it changed meanwhile. */
async function run() {
  page.wanted = page.isRunning;
  const text = sent();
  if (page.isRunning || !text) return;
  const way = ways.now;
  page.isRunning = true;
  results.say("said", "running");
  await going(async () => {
    const came = await ask("run", text);
    page.took = came.seconds;
    if (way !== ways.now) return;
    if (results.showReport(came)) {
      way.head = came;
      going(() => results.follow(came.run, way));
    } else results.hideRows("There are no rows, since it did not run to its end.");
  });
  page.isRunning = false;
  if (page.wanted) runNow();
}

/** Plays a text for its rows alone, as they are wanted beside others. */
async function playOf(way) {
  const came = await going(() => ask("play", new TextEncoder().encode(way.text)), true);
  way.head = came.head;
  way.data = came.data;
  if (!came.data) throw new Error(`${way.name} has no rows: ${came.head.said.trim()}`);
}

/** Plays the text that is shown for its rows; its report follows when the reader rests. */
async function playNow() {
  const [way, text] = [ways.now, ways.now.text];
  if (!sent()) return;
  clearTimeout(page.reportTimer);
  results.say("said", "running");
  try {
    if (!way.data) await playOf(way);
    page.took = way.head.seconds;
  } finally {
    if (way === ways.now && text === way.text && way.head) showPlayed(way);
  }
}

function showPlayed(way) {
  const { head, data } = way;
  results.isWithoutRows = Boolean(data) && !data.count;
  editor.mark(0, "");
  if (!results.showHead(head)) {
    find("report").textContent = head.said;
    results.hideRows("There are no rows, since it did not run to its end.");
    check();
    return;
  }
  results.showRows(data, way.row);
  play.show();
  page.reportTimer = setTimeout(() => going(() => reportOf(head.run)), REPORT_REST);
}

async function reportOf(run) {
  const came = await ask(`report?run=${run}`);
  if (run !== results.run) return;
  results.showReport(came);
  await results.audit(run);
}

/** Does something that the reader can stop meanwhile. */
async function going(act, isThrown) {
  page.going++;
  showGoing(true);
  try {
    return await act();
  } catch (fault) {
    if (isThrown) throw fault;
    results.showFault(fault);
    return null;
  } finally {
    page.going--;
    showGoing(page.going > 0);
  }
}

function showGoing(is) {
  find("stop").disabled = !is;
}

/** What goes on for other pages can be stopped from here too. */
async function lookAtOthers() {
  if (page.going || document.hidden) return;
  try {
    const { busy } = await ask("busy");
    if (!page.going) showGoing(busy);
  } catch {
    if (!page.going) showGoing(false);
  }
}

function stop() {
  page.wanted = false;
  clearTimeout(page.timer);
  ask("stop", "").catch((fault) => results.showFault(fault));
}

function runNow() {
  if (play.isOn) playNow().catch((fault) => results.showFault(fault));
  else run();
}

/** The text has changed: it is checked, and run again where the last run was quick. */
function onChange() {
  results.age(true);
  clearTimeout(page.timer);
  clearTimeout(page.reportTimer);
  page.timer = setTimeout(async () => {
    const isGood = await check();
    if (isGood && find("again").checked && page.took < QUICK) runNow();
  }, REST);
}

/** Another of the texts is shown, with what came of it where that is known. */
function onWay(way) {
  clearTimeout(page.timer);
  clearTimeout(page.reportTimer);
  if (way.head && way.data && play.isOn) showPlayed(way);
  else if (page.most < Infinity) onChange();
}

function stepBack(from, to) {
  if (play.isBusy || !ways.step(from, to)) return;
  ways.now.row = 0;
  if (play.isOn) editor.showEnd();
  onChange();
}

/** Lines that the page of the rows found are put behind the schedule. */
function appendLines(lines) {
  ways.change(withLines(editor.text, lines));
  ways.now.row = 0;
  editor.showEnd();
  onChange();
}

async function closeWay(way) {
  if (way.text !== way.saved) {
    const now = ways.now;
    if (way !== now) ways.show(way);
    if (!await askFirst("another text")) return;
  }
  ways.close(way);
}

function setTheme(is) {
  document.documentElement.dataset.theme = is ? "dark" : "light";
  find("theme").textContent = is ? "light" : "dark";
  for (const frame of [results.frame, results.other]) {
    if (frame.isReady) frame.window.setTheme(is);
  }
}

const isDark = () => document.documentElement.dataset.theme === "dark";

function onKey(event) {
  const isCtrl = event.ctrlKey || event.metaKey;
  const key = event.key.toLowerCase();
  const isText = event.target === find("text") || !event.target.matches("input, textarea, select");
  if (document.querySelector("dialog[open]")) return;
  if (event.key === "Enter" && isCtrl) runNow();
  else if (event.key === "F8") editor.goToBad();
  else if (isCtrl && key === "s") saveFile();
  else if (isCtrl && key === "o") find("file").click();
  else if (isCtrl && isText && (key === "y" || (key === "z" && event.shiftKey))) {
    stepBack("redo", "undo");
  } else if (isCtrl && isText && key === "z") stepBack("undo", "redo");
  else return;
  event.preventDefault();
}

function listen() {
  const on = (id, name, act) => find(id).addEventListener(name, act);
  on("text", "input", () => { editor.changed(); ways.typedNow(); onChange(); });
  on("text", "scroll", () => editor.follow());
  on("stored", "change", takeStored);
  on("open", "click", () => find("file").click());
  on("file", "change", openFile);
  on("save", "click", saveFile);
  on("link", "click", showLink);
  on("link-copy", "click", copyLink);
  on("link-open", "click", openPasted);
  on("link-close", "click", () => find("link-shown").close());
  on("undo", "click", () => stepBack("undo", "redo"));
  on("redo", "click", () => stepBack("redo", "undo"));
  on("run", "click", runNow);
  on("stop", "click", stop);
  on("play", "click", () => play.toggle());
  on("to-fault", "click", () => editor.goToBad());
  on("theme", "click", () => setTheme(!isDark()));
  on("help", "click", () => find("keys").showModal());
  on("keys-close", "click", () => find("keys").close());
  on("scan", "submit", (event) => event.preventDefault());
  on("other", "change", () => results.showOther());
  on("to-apart", "click", () => results.goApart());
  for (const id of ["from", "positions", "pairs"]) on(id, "input", () => results.scanSoon(300));
  for (const name of ["report", "rows"]) {
    on(`tab-${name}`, "click", () => results.openTab(name));
    on(`tab-${name}`, "keydown", (event) => results.onTabKey(event));
  }
  document.addEventListener("keydown", onKey);
  window.addEventListener("message", (event) => results.onMessage(event));
  window.addEventListener("hashchange", takeAddress);
  window.addEventListener("resize", () => editor.follow());
  setInterval(lookAtOthers, BUSY_LOOK);
}

async function start() {
  setTheme(window.matchMedia("(prefers-color-scheme: dark)").matches);
  listen();
  ways.onShow = onWay;
  keep.onFault = (said) => results.showFault(new Error(said));
  try {
    const [came, kept] = await Promise.all([ask("start"), keep.begin()]);
    results.statuses = came.statuses;
    results.showBy(came.proved);
    fillStored(came.scenarios);
    const first = kept ? "" : (await ask("scenario?name=lost_answer")).text;
    ways.begin(kept, first);
    page.most = came.most;
    find("text").focus();
    onChange();
    await takeAddress();
  } catch (fault) {
    results.showFault(fault);
  }
}

start();
