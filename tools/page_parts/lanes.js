// A lane for each actor, and the mail around the row. Only what is visible is drawn.

const HEIGHT = 23; // of a row
const HEADS = 60; // of the actors' names, and of the hints at lanes out of sight
const GUTTER = 66; // for the rows' numbers
const TEXT = 280; // the least width of what rows say
const SHARE = 0.36; // of the width that it has at least
const PITCH = [60, 84]; // the least and the greatest width of a lane
const MOST_ARROWS = 1200;
const FAR = 40; // lines outside, where arrows that come from farther begin

let letter = 0; // the width of a letter of what rows say

function letterWidth() {
  if (!letter) {
    const pen = document.createElement("canvas").getContext("2d");
    pen.font = `10.5px ${getComputedStyle(document.documentElement).getPropertyValue("--mono")}`;
    letter = pen.measureText("n".repeat(100)).width / 100 || 6.35;
  }
  return letter;
}

/** The window of rows that is drawn, and how wide lanes are. */
function frame() {
  const box = find("lanes");
  const width = Math.max(320, box.clientWidth - 2);
  const count = Math.max(6, Math.floor((box.clientHeight - HEADS - 4) / HEIGHT));
  const many = Math.max(1, lanes.length);
  const least = Math.max(120, width - GUTTER - Math.max(TEXT, SHARE * width));
  const pitch = Math.max(PITCH[0], Math.min(PITCH[1], least / many));
  const room = Math.min(many * pitch, least);
  const here = placeOf(state.row);
  const most = Math.max(0, shownCount() - count);
  const top = Math.max(0, Math.min(most, Math.ceil(here) - Math.floor(count * 0.45)));
  const view = { count, pitch, room, top, width, text: GUTTER + room + 8, pan: 0,
    height: HEADS + count * HEIGHT, most: many * pitch - room };
  movePan(view, view.most);
  return view;
}

let pan = 0; // how far the lanes are moved to the left, where there are more than room
let panned = 0; // the row for which the lane of its actor was brought into sight

/** Moves the lanes so far that the lane of the row can be seen. */
function movePan(view, most) {
  if (panned !== state.row) {
    panned = state.row;
    const mail = mailOf(state.row);
    const x = laneX(view, rows.who[state.row] || (mail ? mails.to[mail] : 0)) - GUTTER;
    const edge = view.pitch / 2;
    if (x + view.pan < pan + edge || x + view.pan > pan + view.room - edge) {
      pan = x + view.pan - view.room / 2;
    }
  }
  pan = Math.max(0, Math.min(Math.max(0, most), pan));
  view.pan = pan;
}

function laneX(view, who) {
  return GUTTER + (Math.max(0, lanes.indexOf(who)) + 0.5) * view.pitch - view.pan;
}

/** How high a row stands: between two lines where it is not shown, and not too far outside. */
function rowY(view, row) {
  const [high, low] = [view.top - FAR, view.top + view.count + FAR];
  const place = Math.max(high, Math.min(low, placeOf(row)));
  return HEADS + (place - view.top + 0.5) * HEIGHT;
}

function family(mail) {
  const kind = kindOf(mail);
  if (kind === "Request" || kind === "Answer") return "asks";
  if (kind.startsWith("Tx")) return "change";
  return kind === "Told" ? "told" : "agree";
}

/** Whether a mail belongs to what is chosen. */
function isChosen(mail) {
  const { kind, number } = state.chosen ?? {};
  if (kind === "mail") return number === mail;
  if (kind === "request") return mails.request[mail] === number;
  if (kind === "tx") return mails.tx[mail] === number;
  return kind === "order" && mails.order[mail] === number;
}

/** The ways of a mail's copies: where each begins, and the row that took it, or 0. */
function ways(mail) {
  const found = [];
  const agains = [];
  for (const row of life(mail)) {
    if (rows.event[row] === EVENT.Again) agains.push(row);
    else found.push({ from: agains[found.length - 1] ?? sentIn[mail], to: row });
  }
  return found.length ? found : [{ from: sentIn[mail], to: 0 }];
}

function headOf(x, y, dx, dy) {
  const long = Math.hypot(dx, dy) || 1;
  const [ux, uy] = [dx / long, dy / long];
  const [bx, by] = [x - 7 * ux, y - 7 * uy];
  return `M${x} ${y}L${bx - 3.2 * uy} ${by + 3.2 * ux}L${bx + 3.2 * uy} ${by - 3.2 * ux}Z`;
}

function crossAt(x, y) {
  return `M${x - 4} ${y - 4}l8 8M${x + 4} ${y - 4}l-8 8`;
}

/** The line of one way, and what stands at its end. */
function wayShape(view, mail, way) {
  const [x0, y0] = [laneX(view, mails.from[mail]), rowY(view, way.from)];
  const x1 = laneX(view, mails.to[mail]);
  const isTold = mails.to[mail] === 0;
  const isOpen = !way.to && !isTold;
  const isLost = way.to > 0 && rows.event[way.to] === EVENT.Drop;
  const y1 = way.to ? rowY(view, way.to) : isTold ? y0 : y0 + 0.7 * HEIGHT;
  if (x0 === x1) {
    const side = x0 + Math.min(26, view.pitch * 0.45);
    const line = `M${x0} ${y0}C${side} ${y0} ${side} ${y1} ${x1} ${y1}`;
    if (isLost) return { line, end: crossAt(x1 + 12, y1 - 2), isLost };
    if (isOpen) return { line, end: `M${x1 + 3} ${y1}a3 3 0 1 0 6 0a3 3 0 1 0-6 0`, isOpen };
    return { line, end: headOf(x1 + 3, y1, -8, 2) };
  }
  const share = isOpen ? 0.55 : isLost ? 0.82 : 1;
  const [ex, ey] = [x0 + (x1 - x0) * share, y0 + (y1 - y0) * share];
  const line = `M${x0} ${y0}L${ex} ${ey}`;
  if (isLost) return { line, end: crossAt(ex, ey), isLost };
  if (isOpen) return { line, end: `M${ex - 3} ${ey}a3 3 0 1 0 6 0a3 3 0 1 0-6 0`, isOpen };
  const back = x1 > x0 ? -3.5 : 3.5;
  return { line, end: headOf(x1 + back, y1, x1 - x0, y1 - y0) };
}

function arrow(view, mail, way) {
  const { line, end, isLost, isOpen } = wayShape(view, mail, way);
  const isNow = way.from === state.row || way.to === state.row;
  const look = ["arrow", family(mail), isLost && "lost", isOpen && "open", isNow && "at-row",
    isChosen(mail) && "chosen"].filter(Boolean).join(" ");
  const open = () => choose({ kind: "mail", number: mail });
  const parties = `${actor(mails.from[mail])} to ${actor(mails.to[mail])}`;
  const about = `mail ${mail}, ${parties}: ${words(mail)}`;
  return draw("g", { class: look, tabindex: 0, role: "button", "aria-label": about, onclick: open,
    "data-mail": mail, onkeydown: (event) => { if (event.key === "Enter") open(); } },
  draw("title", {}, about), draw("path", { class: "hit", d: line }),
  draw("path", { class: "line", d: line }), draw("path", { class: "end", d: end }));
}

/** The arrows with an end among the visible rows. */
function arrows(view, visible) {
  const first = visible[0];
  const last = visible[visible.length - 1];
  const seen = new Set();
  const found = [];
  const add = (mail, way) => {
    const name = `${mail} ${way.to}`;
    if (seen.has(name) || found.length >= MOST_ARROWS) return;
    seen.add(name);
    found.push([mail, way]);
  };
  for (const row of visible) {
    const taken = mailOf(row);
    if (taken && isShownMail(taken)) {
      for (const way of ways(taken)) if (way.to === row) add(taken, way);
    }
    for (let mail = firstOf[row]; mail < firstOf[row + 1]; mail++) {
      if (!isShownMail(mail)) continue;
      for (const way of ways(mail)) {
        const isNear = way.from >= first && way.from <= last;
        if (isNear || (way.to >= first && way.to <= last)) add(mail, way);
      }
    }
  }
  const rank = ([mail, way]) => (
    (isChosen(mail) ? 2 : 0) + (way.from === state.row || way.to === state.row ? 1 : 0)
  );
  found.sort((one, other) => rank(one) - rank(other));
  return found.map(([mail, way]) => arrow(view, mail, way));
}

/** What stands on a lane at a row. */
function eventMark(view, row) {
  const y = rowY(view, row);
  const event = run.events[rows.event[row]];
  const mail = mailOf(row);
  const who = rows.who[row] === 0 ? (mail ? mails.to[mail] : 0) : rows.who[row];
  const x = laneX(view, who);
  if (event === "Deliver") return draw("circle", { class: "got", cx: x, cy: y, r: 3.4 });
  const path = (look, d) => draw("path", { class: look, d });
  if (event === "Tick") {
    const clock = `M${x - 5} ${y}a5 5 0 1 0 10 0a5 5 0 1 0-10 0`;
    return path("tick", `${clock}M${x} ${y - 3.5}V${y}H${x + 3}`);
  }
  if (event === "Go") return path("goes", `M${x - 4} ${y - 5}l9 5l-9 5Z`);
  if (event === "Told") {
    const desk = laneX(view, 0);
    return draw("g", { class: "arrow told" }, path("line", `M${desk} ${y}H${x}`),
      path("end", headOf(x - 4, y, 1, 0)), path("goes", `M${x - 4} ${y - 4}h8v8h-8z`));
  }
  if (event === "Crash") return path("crash", `M${x - 6} ${y - 6}l12 12m0-12l-12 12`);
  return event === "Again" ? path("tick", `M${x - 4} ${y - 3}a5 5 0 1 0 8 0l1-4m-1 4l-4-1`) : null;
}

function cutTo(text, width) {
  const most = Math.floor(width / letterWidth());
  return text.length > most ? `${text.slice(0, most - 1)}…` : text;
}

function rowText(view, row) {
  const y = rowY(view, row);
  const count = entriesBefore(row) - entriesBefore(row - 1);
  const text = `${doer(row)} ${eventText(row)}`;
  const look = row === state.row ? "row-text here" : "row-text";
  const said = `decides ${count === 1 ? "a place of a log" : `${count} places of logs`}`;
  const mark = `M${GUTTER - 6} ${y - 4.5}l4.5 4.5l-4.5 4.5l-4.5-4.5z`;
  const at = { y: y + 4 };
  const open = () => go(row);
  const part = cutTo(text, view.width - view.text - 4);
  const whole = part === text ? {} : { role: "button", ...shownWhole(text, view.text, y - 11),
    onkeydown: (event) => { if (event.key === "Enter") open(); } };
  return draw("g", { class: look, onclick: open, "data-row": row, ...whole },
    part === text ? draw("title", {}, text) : null,
    draw("rect", { class: "hit-row", x: 0, y: y - HEIGHT / 2, width: view.width, height: HEIGHT }),
    draw("text", { ...at, x: GUTTER - 14, "text-anchor": "end", class: "row-number" },
      spelled(row)),
    count ? draw("path", { class: "decided", d: mark }, draw("title", {}, said)) : null,
    draw("text", { ...at, x: view.text, class: "row-words" }, part));
}

/** The names of the lanes: groups of a node, and how much mail is under way to it. */
function laneHeads(view) {
  const waiting = new Map();
  for (const mail of pending.mails()) {
    waiting.set(mails.to[mail], (waiting.get(mails.to[mail]) ?? 0) + pending.copies[mail]);
  }
  const names = new Map();
  for (const [, , group] of ringAt(state.row).cuts) {
    for (const node of shapeAt(group, state.row)?.members ?? []) {
      names.set(node, [...(names.get(node) ?? []), run.groups[group]]);
    }
  }
  const most = Math.max(1, Math.floor(view.pitch / 22));
  return lanes.map((who) => laneHead(view, who, names.get(who) ?? [], waiting.get(who), most));
}

function laneHead(view, who, all, count, most) {
  const crash = past.crashes.get(who);
  const isDown = crash !== undefined && crash <= state.row;
  const some = all.length > most ? `${all.slice(0, most - 1).join(" ")}…` : all.join(" ");
  const about = `${actor(who)}${isDown ? ", crashed" : ""}; ${count ?? 0} mails under way to it; `
    + `groups ${all.join(" ")}`;
  const at = { x: laneX(view, who), "text-anchor": "middle" };
  const isCut = all.length > most;
  const whole = isCut ? { role: "note", ...shownWhole(about, Math.max(0, at.x - 60), 44) } : {};
  return draw("g", { class: isDown ? "head down" : "head", ...whole },
    isCut ? null : draw("title", {}, about),
    draw("text", { ...at, y: 15, class: "lane-name" }, isDown ? `${actor(who)}✕` : actor(who)),
    draw("text", { ...at, y: 28, class: "lane-groups" }, some),
    count ? draw("text", { ...at, y: 40, class: "lane-waiting" }, `${count} to come`) : null);
}

/** Which lanes are out of sight, on both sides; a click brings them into it. */
function hints(view) {
  const isIn = (who) => {
    const x = laneX(view, who);
    return x >= GUTTER + 20 && x <= GUTTER + view.room - 20;
  };
  const first = lanes.findIndex(isIn);
  const last = lanes.length - 1 - [...lanes].reverse().findIndex(isIn);
  const part = (all, text, x, anchor, step) => {
    if (!all.length || view.most <= 0) return null;
    const move = () => { pan += step * view.room * 0.7; showLanes(); };
    return draw("text", { class: "hint", x, y: 55, "text-anchor": anchor, role: "button",
      tabindex: 0, onclick: move, "aria-label": `lanes out of sight: ${all.map(actor).join(" ")}`,
      onkeydown: (event) => { if (event.key === "Enter") move(); } }, text);
  };
  const [before, after] = [lanes.slice(0, Math.max(0, first)), lanes.slice(last + 1)];
  const said = view.room < 200 ? (all) => String(all.length) : spanned;
  return [part(before, `◀ ${said(before)}`, GUTTER, "start", -1),
    part(after, `${said(after)} ▶`, GUTTER + view.room, "end", 1)];
}

/** Actors in a few words. */
function spanned(all) {
  if (all.length < 3) return all.map(actor).join(" ");
  return `${actor(all[0])} … ${actor(all[all.length - 1])}`;
}

let apart = 0; // a row that is marked, as the first in which two runs differ

/** Marks a row, or none; the page of tools/edit calls this. */
function markRow(row) {
  apart = row;
  if (!ROWS) return;
  showLanes();
  markStrip();
}

function apartMark(view, visible) {
  if (!visible.includes(apart)) return null;
  const y = rowY(view, apart) - HEIGHT / 2 + 1;
  return draw("rect", { class: "apart", x: 1, y, width: view.width - 2, height: HEIGHT - 2 },
    draw("title", {}, "the first row that differs"));
}

function laneLines(view) {
  const bottom = view.height;
  return lanes.map((who) => {
    const x = laneX(view, who);
    const crash = past.crashes.get(who);
    const y = crash === undefined ? bottom : Math.max(HEADS, Math.min(bottom, rowY(view, crash)));
    return [draw("path", { class: "lane", d: `M${x} ${HEADS}V${y}` }),
      y < bottom ? draw("path", { class: "lane down", d: `M${x} ${y}V${bottom}` }) : null];
  });
}

function isShownMail(mail) {
  return !isFiltered() || fits(mail);
}

function showLanes() {
  const view = frame();
  const visible = [];
  for (let place = view.top; place < Math.min(view.top + view.count, shownCount()); place++) {
    visible.push(shownRow(place));
  }
  const y = rowY(view, state.row);
  const isBetween = placeOf(state.row) % 1 !== 0;
  const below = isBetween ? y : y + HEIGHT / 2;
  const picture = draw("svg", { width: view.width, height: view.height, class: "lanes-picture" },
    isBetween ? draw("path", { class: "between", d: `M0 ${y}H${view.width}` })
      : draw("rect", { class: "now", x: 0, y: y - HEIGHT / 2, width: view.width, height: HEIGHT }),
    visible.map((row) => rowText(view, row)),
    draw("clipPath", { id: "middle" },
      draw("rect", { x: GUTTER, y: 0, width: view.room, height: view.height })),
    draw("g", { "clip-path": "url(#middle)" }, laneLines(view),
      visible.length ? arrows(view, visible) : null,
      visible.map((row) => eventMark(view, row))),
    draw("rect", { class: "veil", x: GUTTER, y: below, width: view.width,
      height: Math.max(0, view.height - below) }),
    draw("rect", { class: "head-back", x: 0, y: 0, width: view.width, height: HEADS - 2 }),
    draw("g", { "clip-path": "url(#middle)" }, laneHeads(view)), hints(view),
    apartMark(view, visible),
    visible.length ? null : draw("text", { x: 20, y: 90, class: "row-words" }, "no row is so"));
  hideWhole();
  find("lanes").replaceChildren(picture);
}
