// What is looked at: the row, the filters, what is chosen. And what was so at a row.

/** The mail under way at a row. It is moved row by row, forwards or backwards. */
class Pending {
  constructor() {
    this.row = 0;
    this.copies = new Int32Array(MAILS + 1);
    this.crashed = new Map(); // actors to the row of their crash
    this.down = new Uint8Array(256); // 1 for those, and for the desk, which takes no mail
    this.down[0] = 1;
    this.list = null; // the mails under way, once they were asked for
    this.swept = new Map(); // rows of crashes to the copies that went with them
    this.count = 0;
  }

  add(mail, more) {
    this.copies[mail] += more;
    this.count += more;
  }

  forward() {
    const row = ++this.row;
    const event = rows.event[row];
    const mail = mailOf(row);
    if (mail && event === EVENT.Again) this.add(mail, 1);
    else if (mail) this.add(mail, -1);
    if (event === EVENT.Crash) this.sweep(row);
    for (let sent = firstOf[row]; sent < firstOf[row + 1]; sent++) {
      if (!this.down[mails.to[sent]]) this.add(sent, 1);
    }
  }

  backward() {
    const row = this.row--;
    const event = rows.event[row];
    const mail = mailOf(row);
    for (let sent = firstOf[row]; sent < firstOf[row + 1]; sent++) {
      if (!this.down[mails.to[sent]]) this.add(sent, -1);
    }
    if (event === EVENT.Crash) this.unsweep(row);
    if (mail && event === EVENT.Again) this.add(mail, -1);
    else if (mail) this.add(mail, 1);
  }

  sweep(row) {
    const gone = [];
    for (let mail = 1; mail < firstOf[row]; mail++) {
      if (this.copies[mail] && mails.to[mail] === rows.who[row]) {
        gone.push([mail, this.copies[mail]]);
        this.add(mail, -this.copies[mail]);
      }
    }
    this.swept.set(row, gone);
    if (!this.crashed.has(rows.who[row])) this.crashed.set(rows.who[row], row);
    this.down[rows.who[row]] = 1;
  }

  unsweep(row) {
    if (this.crashed.get(rows.who[row]) === row) {
      this.crashed.delete(rows.who[row]);
      this.down[rows.who[row]] = 0;
    }
    for (const [mail, copies] of this.swept.get(row)) this.add(mail, copies);
  }

  /** Goes to a row. */
  move(row) {
    if (row !== this.row) this.list = null;
    while (this.row < row) this.forward();
    while (this.row > row) this.backward();
  }

  /** The mails under way, in the order of their numbers. */
  mails() {
    if (this.list) return this.list;
    this.list = [];
    const end = firstOf[this.row + 1];
    for (let mail = 1; mail < end; mail++) if (this.copies[mail] > 0) this.list.push(mail);
    return this.list;
  }
}

let pending; // the mail under way at the row that is looked at

/** How much mail was under way at each row, and when each node crashed. */
function wholeRun() {
  const counts = new Int32Array(ROWS + 1);
  const crashes = new Map();
  const walk = new Pending();
  for (let row = 1; row <= ROWS; row++) {
    walk.forward();
    counts[row] = walk.count;
  }
  for (const [who, row] of walk.crashed) crashes.set(who, row);
  return { counts, crashes };
}

let past;

const NO_FILTERS = { actor: -1, group: 0, client: 0, kind: -1, key: "" };
const filters = { ...NO_FILTERS };
let shown = null; // the rows that are shown, ascending; null where all are
let keysShown = new Set();
let lanes = []; // whose lanes are drawn

const state = { row: 1, chosen: null, tab: "chosen", playing: null, dark: false };

/** Begins to look at the run that was taken. */
function takeState() {
  pending = new Pending();
  past = wholeRun();
  state.chosen = null;
  lanes = run.actors;
  if (isFiltered()) Object.assign(filters, NO_FILTERS);
  applyFilters();
}

function isFiltered() {
  const { actor: who, group, client, kind, key } = filters;
  return who >= 0 || group > 0 || client > 0 || kind >= 0 || key !== "";
}

function clientOf(request) {
  return request ? requests.client[request] : 0;
}

/** Whether a mail is among those that the filters ask for. */
function fits(mail) {
  const { actor: who, group, client, kind, key } = filters;
  if (who >= 0 && mails.from[mail] !== who && mails.to[mail] !== who) return false;
  if (group && mails.group[mail] !== group) return false;
  if (kind >= 0 && mails.kind[mail] !== kind) return false;
  const request = mails.request[mail];
  if (client && clientOf(request) !== client) return false;
  return key === "" || (request > 0 && keysShown.has(requests.key[request]));
}

/** Whether a row's event has no mail and still is about the actor or group that is asked for. */
function fitsByItself(row) {
  const { actor: who, group, client, kind, key } = filters;
  if (kind >= 0 || key !== "" || isMailEvent(row)) return false;
  if (who >= 0 && rows.who[row] !== who) return false;
  if (client && rows.who[row] !== CLIENT + client) return false;
  if (!group) return true;
  return rows.event[row] === EVENT.Told && orders[rows.of[row]].text.includes(run.groups[group]);
}

/** Finds the rows that are shown. */
function applyFilters() {
  keysShown = new Set();
  const exact = run.keys.indexOf(filters.key);
  if (exact > 0) keysShown.add(exact);
  else if (filters.key !== "") {
    run.keys.forEach((key, place) => {
      if (place && key.startsWith(filters.key)) keysShown.add(place);
    });
  }
  shown = null;
  lanes = run.actors;
  if (!isFiltered()) return;
  const good = new Uint8Array(MAILS + 1);
  for (let mail = 1; mail <= MAILS; mail++) good[mail] = fits(mail) ? 1 : 0;
  const found = [];
  for (let row = 1; row <= ROWS; row++) {
    let is = fitsByItself(row) || good[mailOf(row)] === 1;
    for (let mail = firstOf[row]; !is && mail < firstOf[row + 1]; mail++) is = good[mail] === 1;
    if (is) found.push(row);
  }
  shown = Int32Array.from(found);
  lanes = lanesOf(good);
}

/** The actors that send or get any of the mails that fit, and the one that is asked for. */
function lanesOf(good) {
  const used = new Uint8Array(256);
  if (filters.actor >= 0) used[filters.actor] = 1;
  if (filters.client) used[CLIENT + filters.client] = 1;
  for (let mail = 1; mail <= MAILS; mail++) {
    if (good[mail]) used[mails.from[mail]] = used[mails.to[mail]] = 1;
  }
  return run.actors.filter((who) => used[who]);
}

/** How many rows are shown, and which is at a place from 0. */
function shownCount() {
  return shown ? shown.length : ROWS;
}

function shownRow(place) {
  return shown ? shown[place] : place + 1;
}

/** The place of a row among those shown; between two of them where it is not shown itself. */
function placeOf(row) {
  if (!shown) return row - 1;
  const count = countTo(shown, row);
  return count && shown[count - 1] === row ? count - 1 : count - 0.5;
}

/** The row that is STEPS shown rows away. */
function rowAway(steps) {
  const here = placeOf(state.row);
  const from = steps > 0 ? Math.floor(here) : Math.ceil(here);
  const place = Math.max(0, Math.min(shownCount() - 1, from + steps));
  return shownCount() ? shownRow(place) : state.row;
}

/** The row before or behind this one that changes the ring or a lock. */
function changeAway(step) {
  const count = countTo(changeRows, step > 0 ? state.row : state.row - 1);
  return changeRows[step > 0 ? count : count - 1] ?? state.row;
}

function ringAt(row) {
  return lastAt(rings, row) ?? { row: 0, cuts: [] };
}

function shapeAt(group, row) {
  return lastAt(shapesOf[group], row);
}

function ballotAt(group, row) {
  return lastAt(ballotsOf[group], row);
}

/** How many places of a group's log were decided by a row. */
function logAt(group, row) {
  const list = entriesOfGroup(group);
  let low = 0;
  let high = list.length;
  while (low < high) {
    const middle = (low + high) >> 1;
    if (entries.row[list[middle]] <= row) low = middle + 1; else high = middle;
  }
  return low;
}

/** What became of a mail by a row: a word, and the row. */
function fate(mail, row) {
  if (sentIn[mail] > row) return "not sent yet";
  if (mails.to[mail] === 0) return "told";
  if (pending.row === row && pending.copies[mail]) {
    return pending.copies[mail] > 1 ? `pending, ${pending.copies[mail]} copies` : "pending";
  }
  const crash = past.crashes.get(mails.to[mail]);
  let word = crash !== undefined && crash <= row ? "went with the crash" : "";
  for (const taken of life(mail)) {
    const event = taken <= row ? rows.event[taken] : -1;
    if (event === EVENT.Deliver) word = "delivered";
    else if (event === EVENT.Drop && word !== "delivered") word = "lost";
  }
  return word;
}
