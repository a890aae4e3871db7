// What is so of each actor at the row: who leads by which ballot, what is open, what waits. It is
// read off the mail that the rows have and what they decided; of nodes also off `scatter node`,
// where the page around this one asks it.

const MOST_TOLD = 8; // slots or requests of a line

let sentBy = null; // the mails of each sender
let byProgram = new Map(); // nodes to what `scatter node` says of them, row by row

function takeStates() {
  sentBy = null;
  byProgram = new Map();
}

/** The mails that an actor sent by a row, ascending. */
function sentByRow(who, row) {
  sentBy ??= lists(MAILS, 97, (mail) => mails.from[mail]);
  const all = sentBy(who);
  return all.subarray(0, countTo(all, firstOf[row + 1] - 1));
}

/** Rows in which an actor took mail of a kind, by a row. */
function taken(who, row, is) {
  const found = [];
  for (let one = 1; one <= row; one++) {
    if (rows.who[one] !== who || rows.event[one] !== EVENT.Deliver) continue;
    const mail = mailOf(one);
    if (mail && is(mail)) found.push(mail);
  }
  return found;
}

function some(list) {
  const more = list.length > MOST_TOLD ? ` and ${list.length - MOST_TOLD} more` : "";
  return list.slice(0, MOST_TOLD).join(", ") + more;
}

/** The highest ballot that a node's mail of a group has. */
function ballotOf(sent) {
  let [round, by] = [0, 0];
  for (const mail of sent) {
    const [one, other] = [mails.round[mail], mails.by[mail]];
    if (one > round || (one === round && other > by)) [round, by] = [one, other];
  }
  return { round, by };
}

/** Whether a node leads a group, as its mail has it. */
function roleOf(node, sent, group, members, row) {
  const { round, by } = ballotOf(sent);
  const first = Math.min(...members);
  if (!round) return node === first ? "leads, as the first member" : `follows n${first}`;
  const ballot = `ballot ${round} of n${by}`;
  if (by !== node) return `follows n${by}, ${ballot}`;
  const isIts = (mail) => mails.round[mail] === round && mails.by[mail] === by;
  if (sent.some((mail) => kindOf(mail) === "Accept" && isIts(mail))) return `leads, ${ballot}`;
  const asks = sent.some((mail) => kindOf(mail) === "Prepare" && isIts(mail));
  if (!asks) return `leads, ${ballot}`;
  const have = new Set(taken(node, row, (mail) => kindOf(mail) === "Promise" && isIts(mail)
    && mails.group[mail] === group).map((mail) => mails.from[mail]));
  return `asks for promises, ${ballot}: has ${have.size} of ${members.length}`;
}

/** The slots that a node has proposed and nothing is decided at. */
function openSlots(sent, group, row) {
  const decided = logAt(group, row);
  const { round, by } = ballotOf(sent);
  const open = sent.filter((mail) => kindOf(mail) === "Accept" && mails.slot[mail] > decided
    && mails.round[mail] === round && mails.by[mail] === by).map((mail) => mails.slot[mail]);
  return [...new Set(open)].sort((one, other) => one - other);
}

/** The requests that a node took, and has neither answered, proposed nor decided. */
function queueOf(node, sent, group, row) {
  const done = new Set(sent.filter((mail) => ["Answer", "Accept"].includes(kindOf(mail)))
    .map((mail) => mails.request[mail]));
  const got = taken(node, row, (mail) => kindOf(mail) === "Request" && mails.group[mail] === group);
  const open = new Set(got.map((mail) => mails.request[mail]).filter((one) => one && !done.has(one)));
  return [...open].filter((one) => {
    const entry = entriesOfRequest(one)[0];
    return !entry || entries.row[entry] > row;
  });
}

function replicaLines(node, group, row) {
  const shape = shapeAt(group, row);
  const sent = [...sentByRow(node, row)].filter((mail) => mails.group[mail] === group);
  const lines = [`${run.groups[group]}: ${roleOf(node, sent, group, shape.members, row)}`];
  const open = openSlots(sent, group, row);
  const slots = open.length ? `; open ${some(open)}` : "";
  lines.push(`  ${logAt(group, row)} slots decided${slots}`);
  const queue = queueOf(node, sent, group, row);
  if (queue.length) lines.push(`  queue: ${some(queue.map(requestName))}`);
  if (shape.role) lines.push(`  locked: ${lockText(shape)}`);
  return lines;
}

/** What `scatter node` says of a node at a row. */
function programLines(node, row) {
  const known = byProgram.get(node);
  if (!Array.isArray(known)) return [];
  const found = known[countTo(known.map(([at]) => at), row) - 1];
  return (found?.[1] ?? []).map((one) => {
    const follows = one.leader ? `follows n${one.leader}` : "knows no leader";
    const role = one.gone ? `gone into ${one.gone}` : one.leads ? "leads" : follows;
    return `scatter node: ${one.group} ${role}, ${one.executed} slots executed, `
      + `${one.pairs} pairs`;
  });
}

function nodeLines(node, row) {
  if ((past.crashes.get(node) ?? Infinity) <= row) return ["crashed"];
  const groups = run.groups.map((_, group) => group).filter((group) => {
    const shape = group ? shapeAt(group, row) : null;
    return shape && !shape.gone && shape.members.includes(node);
  });
  const lines = groups.flatMap((group) => replicaLines(node, group, row));
  return [...lines.length ? lines : ["in no group"], ...programLines(node, row)];
}

function clientLines(who, row) {
  const client = who - CLIENT;
  const mine = [];
  for (let one = 1; one <= REQUESTS; one++) {
    if (requests.client[one] === client && requests.issued[one] <= row) mine.push(one);
  }
  if (!mine.length) return ["has asked nothing yet"];
  const last = mine[mine.length - 1];
  const answered = mine.filter((one) => requests.answered[one] && requests.answered[one] <= row);
  const lines = [`${answered.length} of ${mine.length} requests answered`];
  const asked = [...sentByRow(who, row)].filter((mail) => kindOf(mail) === "Request");
  const own = asked.filter((mail) => mails.request[mail] === last);
  if (!answered.includes(last) && own.length) {
    const to = own[own.length - 1];
    lines.push(`waits for ${requests.seq[last]}: ${run.texts[requests.text[last]]}`,
      `  asked ${own.length === 1 ? "once" : `${own.length} times`}, last ${actor(mails.to[to])}`
      + ` of ${run.groups[mails.group[to]]} in row ${spelled(sentIn[to])}`);
    const told = taken(who, row, (mail) => mails.request[mail] === last);
    if (told.length) lines.push(`  was told ${words(told[told.length - 1])}`);
  }
  const routes = new Map(asked.map((mail) => [mails.group[mail], actor(mails.to[mail])]));
  const said = [...routes].map(([group, to]) => `${run.groups[group]} by ${to}`);
  return [...lines, `routes: ${some(said)}`];
}

function linesOf(who, row) {
  if (row < 1) return [];
  return who > CLIENT ? clientLines(who, row) : nodeLines(who, row);
}

/** Lines, of which those are marked that the row before did not have. */
function actorState(who) {
  const [now, before] = [linesOf(who, state.row), new Set(linesOf(who, state.row - 1))];
  const isHere = rows.who[state.row] === who;
  return make("section", { class: isHere ? "actor-state here" : "actor-state", "data-who": who },
    make("h4", {}, actor(who)),
    now.map((line) => make("p", { class: before.has(line) ? "" : "new" }, line)));
}

/** Asks the page around this one for what `scatter node` says, once for each node. */
function askStates(all) {
  if (!isFramed) return;
  const missing = all.filter((who) => who <= CLIENT && !byProgram.has(who));
  for (const who of missing) byProgram.set(who, null);
  if (missing.length) tell({ states: missing });
}

/** What `scatter node` says of a node, row by row; the page around this one calls this. */
function takeNode(node, list) {
  byProgram.set(node, list);
  if (state.tab === "state") showTab();
}

/** The actors of the lanes, whose row it is first. */
function showStates() {
  const here = rows.who[state.row];
  const all = lanes.filter((who) => who > 0);
  all.sort((one, other) => Number(other === here) - Number(one === here));
  askStates(all);
  return [make("p", { class: "note" }, "As the rows' mail and what they decided have it. What this"
    + " row changed is marked."), all.map(actorState)];
}
