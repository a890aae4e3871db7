// What is said of the row, and of what was chosen: a mail, a request, a change, an order, a group.

const MOST_STEPS = 300; // lines of a card

function showNow() {
  const count = `Row ${spelled(state.row)} of ${spelled(ROWS)}`;
  const lines = make("div", { id: "said-now" }, rowLines(state.row));
  const line = rows.line[state.row];
  const by = line ? `by line ${line}: ${run.scenario[line - 1].trim()}` : "";
  find("now").replaceChildren(make("h2", {}, count),
    make("p", { class: "note", id: "line-now" }, by), lines);
}

const FREES = "these lines behind the schedule free it, as tried:";

/** What an unanswered request or an open order waits for, and which lines free it. */
function waiting(lines, kind, name) {
  if (!lines) return [];
  const end = lines.indexOf(FREES);
  const told = end < 0 ? lines : lines.slice(0, end);
  const known = end < 0 ? [] : lines.slice(end + 1).map((line) => line.trim());
  return [make("h4", {}, "Waits"),
    make("ul", { id: "waits" }, told.map((one) => make("li", {}, one))),
    known.length ? make("h4", {}, "These lines free it, as tried") : null,
    freeingPart(kind, name, known)];
}

/** A line of a card: a row, and what happened. */
function step(row, ...said) {
  const look = row > state.row ? "step later" : row === state.row ? "step here" : "step";
  return make("li", { class: look }, rowLink(row), make("span", {}, ...said));
}

function limited(list) {
  if (list.length <= MOST_STEPS) return list;
  const more = list.length - MOST_STEPS;
  return [...list.slice(0, MOST_STEPS), make("li", { class: "note" }, `and ${spelled(more)} more`)];
}

/** What a row sent, as links. */
function caused(row) {
  const found = [];
  for (let mail = firstOf[row]; mail < firstOf[row + 1]; mail++) {
    found.push(found.length ? ", " : "", mailLink(mail), ` to ${actor(mails.to[mail])}`);
  }
  return found.length ? [", then sends ", found] : [""];
}

/** What made a row send: the mail it took, or its event. */
function cause(row) {
  const mail = mailOf(row);
  if (mail) return [" when it gets ", mailLink(mail), `, ${kindOf(mail)}`];
  return [` when it ${eventText(row)}`];
}

function mailSteps(mail) {
  const from = actor(mails.from[mail]);
  const to = actor(mails.to[mail]);
  const list = [step(sentIn[mail], `${from} sends it to ${to}`, cause(sentIn[mail]))];
  for (const row of life(mail)) {
    const event = run.events[rows.event[row]];
    if (event === "Again") list.push(step(row, "it comes again: one more copy is under way"));
    else if (event === "Drop") list.push(step(row, "a copy is lost"));
    else list.push(step(row, `${to} gets it`, caused(row)));
  }
  const crash = past.crashes.get(mails.to[mail]);
  if (crash !== undefined) list.push(step(crash, `${to} crashes; no copy can come any more`));
  return list;
}

function aboutMail(mail) {
  const found = [];
  if (mails.group[mail]) found.push(["group", groupLink(mails.group[mail])]);
  if (mails.request[mail]) found.push(["request", requestLink(mails.request[mail])]);
  if (mails.tx[mail]) found.push(["transaction", txLink(mails.tx[mail])]);
  if (mails.order[mail]) found.push(["order", orderLink(mails.order[mail])]);
  return found;
}

function facts(list) {
  return make("dl", { class: "facts" }, list.map(([name, ...said]) => (
    [make("dt", {}, name), make("dd", {}, ...said)]
  )));
}

function mailCard(mail) {
  return [make("h3", {}, `Mail ${spelled(mail)}`), make("p", { class: "line" }, words(mail)),
    facts([["from", actor(mails.from[mail])], ["to", actor(mails.to[mail])],
      ["now", make("b", { id: "fate" }, fate(mail, state.row))], ...aboutMail(mail)]),
    make("ol", { class: "steps-list", id: "life" }, limited(mailSteps(mail)))];
}

/** The steps of something in all groups: mail sent and taken, and places of logs, by their rows. */
function stepsOf(mailList, entryList) {
  const found = [];
  for (const mail of mailList) {
    const [from, to] = [actor(mails.from[mail]), actor(mails.to[mail])];
    const sends = () => [`${from} sends `, mailLink(mail), ` to ${to}: ${words(mail)}`];
    found.push([sentIn[mail], 1, sends]);
    for (const row of life(mail)) {
      const event = run.events[rows.event[row]];
      const verb = { Deliver: "gets", Drop: "never gets", Again: "is sent once more" }[event];
      found.push([row, 0, () => [`${to} ${verb} `, mailLink(mail), `, ${kindOf(mail)}`]]);
    }
  }
  for (const entry of entryList) {
    found.push([entries.row[entry], 2, () => [make("b", {}, "decided "), entryText(entry)]]);
  }
  found.sort((one, other) => one[0] - other[0] || one[1] - other[1]);
  const more = found.length - MOST_STEPS;
  const list = found.slice(0, MOST_STEPS).map(([row, , said]) => step(row, said()));
  if (more > 0) list.push(make("li", { class: "note" }, `and ${spelled(more)} more`));
  return make("ol", { class: "steps-list" }, list);
}

/** The group whose arc held a place at a row. */
function groupAt(place, row) {
  const found = ringAt(row).cuts.find(([lo, length]) => holds({ lo, length }, place));
  return found ? found[2] : 0;
}

function requestCard(request) {
  const issued = requests.issued[request];
  const answered = requests.answered[request];
  const key = run.keys[requests.key[request]];
  const owner = groupAt(position(key), state.row);
  const list = [["asked", rowLink(issued)]];
  if (answered) {
    list.push(["answered", rowLink(answered), `, ${spelled(answered - issued)} rows later`],
      ["reply", make("b", { id: "reply" }, run.texts[requests.reply[request]])]);
  } else list.push(["answered", make("b", { id: "reply" }, "not in this journal")]);
  const search = link(key, "the rows about this key", () => searchKey(key));
  list.push(["key", search, ` at ${position(key)}`]);
  if (owner) list.push(["kept by", groupLink(owner), " at this row"]);
  const text = run.texts[requests.text[request]];
  return [make("h3", {}, `Request ${requestName(request)}: ${text}`), facts(list),
    waiting(run.waits.requests[request], "request", requestName(request)),
    stepsOf(mailsOfRequest(request), entriesOfRequest(request))];
}

/** The places of logs of a transaction as a table, group by group. */
function logTable(list) {
  const heads = ["row", "group", "slot", "command", "came to"];
  return make("table", { class: "log-table" },
    make("thead", {}, make("tr", {}, heads.map((head) => make("th", { scope: "col" }, head)))),
    make("tbody", {}, [...list].slice(0, MOST_STEPS).map((entry) => (
      make("tr", { class: entries.row[entry] > state.row ? "later" : "" },
        make("td", {}, link(spelled(entries.row[entry]), "go there", () => go(entries.row[entry]))),
        make("td", {}, groupLink(entries.group[entry])),
        make("td", { class: "figure" }, String(entries.slot[entry])),
        make("td", {}, run.texts[entries.text[entry]]),
        make("td", {}, run.texts[entries.effect[entry]]))
    ))));
}

function txCard(tx) {
  const list = entriesOfTx(tx);
  return [make("h3", {}, `Transaction ${run.txs[tx]}`),
    list.length ? logTable(list) : make("p", { class: "note" }, "no log has it"),
    make("h4", {}, "Steps"), stepsOf(mailsOfTx(tx), list)];
}

function orderCard(order) {
  const { number, node, text, row, result, ended } = orders[order];
  const list = [["told", `n${node}, `, rowLink(row)]];
  list.push(ended ? ["came to", make("b", {}, result), ", ", rowLink(ended)]
    : ["came to", "nothing yet"]);
  return [make("h3", {}, `Order ${number}: ${text}`), facts(list),
    waiting(run.waits.orders[order], "order", number), stepsOf(mailsOfOrder(order), entriesOfOrder(order))];
}

function groupCard(group) {
  const shape = shapeAt(group, state.row);
  const name = run.groups[group];
  if (!shape) {
    return [make("h3", {}, `Group ${name}`), make("p", { class: "note" }, "is not born yet")];
  }
  const nodes = shape.members.map((node) => `n${node}`).join(" ");
  const list = [["arc", `${shape.lo}, ${shape.length} places`], ["members", nodes],
    ["lock", lockText(shape), shape.role ? [" ", txLink(shape.tx)] : ""],
    ["next", shape.succ], ["before", shape.pred]];
  const changes = shapesOf[group].filter((one) => one.row).map((one) => step(one.row,
    `${one.members.map((node) => `n${node}`).join(" ")}, from ${one.lo}, ${lockText(one)}`));
  return [make("h3", {}, `Group ${name}`), facts(list),
    make("p", {}, link("only rows about it", "filter", () => setFilter("group", group))),
    make("h4", {}, "Changes"), make("ol", { class: "steps-list" }, limited(changes))];
}

function showChosen() {
  const { kind, number } = state.chosen ?? {};
  const cards = { mail: mailCard, request: requestCard, tx: txCard, order: orderCard,
    group: groupCard };
  if (!kind) {
    return [make("p", { class: "note" },
      "Click on a mail, a request, a transaction or a group to see its story. ",
      "Arrow keys go through the rows; ? says the other keys.")];
  }
  return cards[kind](number);
}
