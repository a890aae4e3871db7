// What may happen after the row that is looked at, and what the page around this one is told.

const isFramed = window.parent !== window && location.protocol.startsWith("http");

function tell(said) {
  if (isFramed) window.parent.postMessage(said, location.origin);
}

/** The pending mail, each with its place among that of its receiver. */
function nextMails() {
  const places = new Map();
  return pending.mails().map((mail) => {
    const [to, copies] = [mails.to[mail], pending.copies[mail]];
    const place = (places.get(to) ?? 0) + 1;
    places.set(to, place - 1 + copies);
    return { number: mail, from: actor(mails.from[mail]), to: actor(to), copies, place,
      words: words(mail) };
  });
}

/** The clients that were told to go by a row. */
function goneBy(row) {
  const gone = new Set();
  for (let one = 1; one <= row; one++) if (rows.event[one] === EVENT.Go) gone.add(rows.who[one]);
  return gone;
}

/** All that the page of tools/edit offers as a next step; it calls this. */
function nextSteps() {
  if (!run) return null;
  const gone = goneBy(state.row);
  const isDown = (who) => (past.crashes.get(who) ?? Infinity) <= state.row;
  const all = run.actors.filter((who) => who > 0);
  return { row: state.row, end: ROWS, mails: nextMails(),
    nodes: all.filter((who) => who <= CLIENT).map((who) => (
      { number: who, name: actor(who), isDown: isDown(who) }
    )),
    clients: all.filter((who) => who > CLIENT).map((who) => (
      { number: who - CLIENT, name: actor(who), isGone: gone.has(who) }
    )),
    groups: ringAt(state.row).cuts.map(([lo, length, group]) => (
      { name: run.groups[group], lo, length, members: shapeAt(group, state.row)?.members ?? [] }
    )) };
}

/** The row that is looked at, and the one that is marked. */
function placesNow() {
  return `row ${state.row}, marked ${apart}`;
}

// ---- lines that free what waits

let freeing = { name: "", lines: null, fault: "" }; // what was found, or is looked for

/** What the page around this one found for a request or an order; it calls this. */
function showFreeing(name, lines, fault) {
  freeing = { name, lines, fault };
  showTab();
}

/** Lines as a block that can be copied and, in tools/edit, put behind the schedule. */
function lineBlock(lines) {
  const text = `${lines.join("\n")}\n`;
  const copy = make("button", { type: "button", onclick: () => copyText(text, copy) }, "copy");
  const append = make("button", { type: "button", onclick: () => tell({ append: lines }) },
    "append to the schedule");
  return make("div", { class: "block" }, make("pre", { tabindex: 0 }, text),
    make("p", {}, copy, isFramed ? [" ", append] : ""));
}

function copyText(text, button) {
  const done = (said) => { button.textContent = said; };
  const box = make("textarea", { readonly: true }, text);
  document.body.append(box);
  box.select();
  const is = document.execCommand("copy");
  box.remove();
  button.focus();
  done(is ? "copied" : "select it, and press ctrl C");
}

/** What would free the request or order of a card: known lines, or a button that looks for them. */
function freeingPart(kind, name, known) {
  if (known?.length) return lineBlock(known);
  if (!isFramed) return null;
  const mark = `${kind} ${name}`;
  if (freeing.name !== mark) {
    const ask = () => {
      showFreeing(mark, null, "");
      tell({ frees: { kind, name } });
    };
    return make("p", {}, link("which lines free it?", "tries lines by runs", ask));
  }
  if (freeing.fault) return make("p", { class: "note" }, freeing.fault);
  if (!freeing.lines) return make("p", { class: "note" }, "lines are tried ..");
  return freeing.lines.length ? [make("h4", {}, "These lines free it, as tried"),
    lineBlock(freeing.lines)] : make("p", { class: "note" }, "no lines that were tried free it");
}
