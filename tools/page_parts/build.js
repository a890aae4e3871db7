// Small helpers that make parts of the page. Texts of the run are only ever set as text.

const SVG = "http://www.w3.org/2000/svg"; // a name, and no place that is asked

function fill(node, options, children) {
  for (const [name, value] of Object.entries(options ?? {})) {
    if (value === null || value === undefined || value === false) continue;
    if (name.startsWith("on")) node.addEventListener(name.slice(2), value);
    else node.setAttribute(name, value === true ? "" : value);
  }
  for (const child of children.flat(3)) {
    if (child === null || child === undefined || child === "") continue;
    node.append(child instanceof Node ? child : String(child));
  }
  return node;
}

/** An element of HTML with its attributes, listeners (`onclick`) and children. */
function make(tag, options, ...children) {
  return fill(document.createElement(tag), options, children);
}

/** The same of SVG. */
function draw(tag, options, ...children) {
  return fill(document.createElementNS(SVG, tag), options, children);
}

function find(id) {
  return document.getElementById(id);
}

/** A number in groups of three digits. */
function spelled(number) {
  return String(number).replace(/\B(?=(\d{3})+$)/g, ",");
}

function link(text, title, act, more) {
  return make("button", { type: "button", class: "link", title, onclick: act, ...more }, text);
}

function rowLink(row) {
  return link(`row ${spelled(row)}`, "go there", () => go(row), { "data-row": row });
}

function mailLink(mail, text) {
  return link(text ?? `${mail}`, words(mail), () => choose({ kind: "mail", number: mail }));
}

function requestName(request) {
  return `c${requests.client[request]} ${requests.seq[request]}`;
}

function requestLink(request) {
  const text = run.texts[requests.text[request]];
  const open = () => choose({ kind: "request", number: request });
  return link(requestName(request), text, open);
}

function txLink(tx) {
  return link(run.txs[tx], "its steps", () => choose({ kind: "tx", number: tx }));
}

function orderLink(order) {
  const open = () => choose({ kind: "order", number: order });
  return link(`order ${orders[order].number}`, orders[order].text, open);
}

function groupLink(group) {
  const open = () => choose({ kind: "group", number: group });
  return link(run.groups[group], "this group", open);
}

/** What happened in a row to whom it belongs, as tools/trace says it, with its mail as a link. */
function eventParts(row) {
  const event = run.events[rows.event[row]];
  const mail = mailOf(row);
  const of = rows.of[row];
  if (event === "Deliver" || event === "Drop") {
    if (!mail) return [`${event.toLowerCase()} ${of}, which nobody sent`];
    const verb = event === "Deliver" ? "gets" : "never gets";
    return [`${verb} `, mailLink(mail), ` from ${actor(mails.from[mail])}: ${words(mail)}`];
  }
  if (event === "Again") return ["mail ", mail ? mailLink(mail) : of, " comes again"];
  if (event === "Told") {
    return ["is told ", orderLink(of), `: ${orders[of].text}`];
  }
  return [{ Go: "goes", Tick: "ticks", Crash: "crashes" }[event] ?? event];
}

/** The same in plain text. */
function eventText(row) {
  return eventParts(row).map((part) => (part instanceof Node ? part.textContent : part)).join("");
}

/** A decided place of a log, and what it came to. */
function entryText(entry) {
  const group = run.groups[entries.group[entry]];
  const text = run.texts[entries.text[entry]];
  return `${group} slot ${entries.slot[entry]}: ${text} (${run.texts[entries.effect[entry]]})`;
}

/** The lines of a row, as tools/trace prints them. */
function rowLines(row) {
  const lines = [make("p", { class: "line" }, `${doer(row)} `, eventParts(row))];
  for (let mail = firstOf[row]; mail < firstOf[row + 1]; mail++) {
    const to = actor(mails.to[mail]);
    lines.push(make("p", { class: "line more" },
      "sends ", mailLink(mail), ` to ${to}: ${words(mail)}`));
  }
  for (let entry = entriesBefore(row - 1) + 1; entry <= entriesBefore(row); entry++) {
    lines.push(make("p", { class: "line more decides" }, `decides ${entryText(entry)}`));
  }
  return lines;
}
