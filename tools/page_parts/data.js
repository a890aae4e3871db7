"use strict";
// The run: what tools/page wrote into the file, or the page around this one gave, and tables that
// are made of it once. Rows, mails, requests and orders are numbered from 1, so each table has a
// place 0 for none.

const CLIENT = 32; // actors above are clients
const RING = 2 ** 32;

let run = null;
let rows, mails, entries, requests, orders; // columns by name; of orders a list
let ROWS = 0;
let MAILS = 0;
let ENTRIES = 0;
let REQUESTS = 0; // those that were sent
let WRITTEN = 0; // those that the scenario has
let EVENT = {};
let sentIn, firstOf; // the row that sent each mail, and the first mail that each row sent
// The rows that deliver, lose or repeat each mail; the mail and places of logs of each request,
// transaction, order and group.
let life, mailsOfRequest, mailsOfTx, mailsOfOrder;
let entriesOfRequest, entriesOfTx, entriesOfOrder, entriesOfGroup;
let shapes, shapesOf, rings, ballotsOf;
let changeRows; // the rows at which the ring or a lock is another one, ascending

/** A column of numbers, with a 0 before the first one. */
function column(said) {
  const raw = atob(said.bytes);
  const count = raw.length / said.width;
  const numbers = new Int32Array(count + 1);
  for (let i = 0; i < count; i++) {
    let number = 0;
    for (let k = said.width - 1; k >= 0; k--) {
      number = number * 256 + raw.charCodeAt(i * said.width + k);
    }
    numbers[i + 1] = number;
  }
  return numbers;
}

function columns(said) {
  return Object.fromEntries(Object.entries(said).map(([name, one]) => [name, column(one)]));
}

/** The places 1 to `count` by what `of` gives of each: lists, packed into two columns. */
function lists(count, most, of) {
  const starts = new Int32Array(most + 2);
  for (let i = 1; i <= count; i++) starts[of(i) + 1]++;
  for (let i = 1; i < starts.length; i++) starts[i] += starts[i - 1];
  const next = starts.slice();
  const all = new Int32Array(count);
  for (let i = 1; i <= count; i++) all[next[of(i)]++] = i;
  return (number) => all.subarray(starts[number], starts[number + 1]);
}

/** How many numbers of an ascending list are at most `most`. */
function countTo(list, most) {
  let low = 0;
  let high = list.length;
  while (low < high) {
    const middle = (low + high) >> 1;
    if (list[middle] <= most) low = middle + 1; else high = middle;
  }
  return low;
}

/** The last thing of a list, in the order of its rows, that was so at a row. */
function lastAt(list, row) {
  let low = 0;
  let high = list.length;
  while (low < high) {
    const middle = (low + high) >> 1;
    if (list[middle].row <= row) low = middle + 1; else high = middle;
  }
  return low ? list[low - 1] : null;
}

function isMailEvent(row) {
  const event = rows.event[row];
  return event === EVENT.Deliver || event === EVENT.Drop || event === EVENT.Again;
}

/** The mail that a row delivers, loses or repeats; 0 for none. */
function mailOf(row) {
  return isMailEvent(row) && rows.of[row] <= MAILS ? rows.of[row] : 0;
}

/** The decided places of logs of a row, as numbers from `entriesBefore(row - 1) + 1` on. */
function entriesBefore(row) {
  return countTo(entries.row, row) - 1;
}

/** The places of a list's parts by group. */
function byGroup(list) {
  const found = run.groups.map(() => []);
  for (const one of list) found[one.group].push(one);
  return found;
}

/** Takes a run, and makes its tables. */
function takeTables(said) {
  run = said;
  [rows, mails, entries, requests] = [run.rows, run.mails, run.entries, run.requests].map(columns);
  orders = run.orders.map(([number, node, text, row, result, ended]) => (
    { number, node, text, row, result, ended }
  ));
  orders.unshift(null);
  ROWS = rows.who.length - 1;
  MAILS = mails.from.length - 1;
  ENTRIES = entries.row.length - 1;
  REQUESTS = requests.client.length - 1;
  WRITTEN = run.scenario.filter((line, place) => (
    !(place && line.startsWith("#")) && /^\s*(get|put|del|add|cas)\s/.test(line)
  )).length;
  EVENT = Object.fromEntries(run.events.map((name, place) => [name, place]));
  takeSending();
  takeLists();
  takeGroups();
}

function takeSending() {
  sentIn = new Int32Array(MAILS + 1);
  firstOf = new Int32Array(ROWS + 2);
  for (let row = 1, mail = 1; row <= ROWS + 1; row++) {
    firstOf[row] = mail;
    for (let k = 0; row <= ROWS && k < rows.sent[row]; k++) sentIn[mail++] = row;
  }
}

function takeLists() {
  const [txs, groups] = [run.txs.length, run.groups.length];
  life = lists(ROWS, MAILS, mailOf);
  mailsOfRequest = lists(MAILS, REQUESTS, (mail) => mails.request[mail]);
  mailsOfTx = lists(MAILS, txs, (mail) => mails.tx[mail]);
  mailsOfOrder = lists(MAILS, orders.length, (mail) => mails.order[mail]);
  entriesOfRequest = lists(ENTRIES, REQUESTS, (entry) => entries.request[entry]);
  entriesOfTx = lists(ENTRIES, txs, (entry) => entries.tx[entry]);
  entriesOfOrder = lists(ENTRIES, orders.length, (entry) => entries.order[entry]);
  entriesOfGroup = lists(ENTRIES, groups, (entry) => entries.group[entry]);
}

function takeGroups() {
  shapes = run.shapes.map(([row, group, lo, length, members, role, tx, gone, succ, pred]) => (
    { row, group, lo, length, members, role, tx, gone, succ, pred }
  ));
  shapesOf = byGroup(shapes);
  rings = run.rings.map(([row, cuts]) => ({ row, cuts }));
  ballotsOf = byGroup(run.ballots.map(([row, group, round, node]) => (
    { row, group, round, node }
  )));
  changeRows = [...new Set([...shapes, ...rings].map((one) => one.row))]
    .filter((row) => row > 0).sort((one, other) => one - other);
}

/** How a scenario calls an actor. */
function actor(number) {
  if (number === 0) return "desk";
  return number <= CLIENT ? `n${number}` : `c${number - CLIENT}`;
}

function doer(row) {
  return rows.who[row] === 0 ? "network" : actor(rows.who[row]);
}

/** Where a key stands on the ring. */
function position(key) {
  let place = 0;
  for (let i = 0; i < 4; i++) place = place * 256 + (i < key.length ? key.charCodeAt(i) & 255 : 0);
  return place;
}

function holds(arc, place) {
  return ((place - arc.lo) % RING + RING) % RING < arc.length;
}

/** What a mail says, in a few words. */
function words(mail) {
  return run.texts[mails.text[mail]];
}

function kindOf(mail) {
  return run.kinds[mails.kind[mail]];
}
