// The ring at the row: arcs of groups, who is locked by which transaction, a table of the groups.

const COLOURS = 8; // kinds of arcs in the style, each a colour and a hatching
const CENTRE = 170;
const OUTER = 118;
const INNER = 92;

/** Where a position of the ring is drawn, at a distance from the centre. */
function onCircle(place, radius) {
  const angle = (place / RING) * 2 * Math.PI - Math.PI / 2;
  return [CENTRE + radius * Math.cos(angle), CENTRE + radius * Math.sin(angle)];
}

function spot(place, radius) {
  return onCircle(place, radius).map((one) => one.toFixed(1)).join(" ");
}

/** The outline of an arc of the ring. */
function outline(lo, length) {
  if (length >= RING) {
    const whole = (radius, turn) => `M${spot(lo, radius)} A${radius} ${radius} 0 1 ${turn} `
      + `${spot(lo + RING / 2, radius)} A${radius} ${radius} 0 1 ${turn} ${spot(lo, radius)}Z`;
    return whole(OUTER, 1) + whole(INNER, 0);
  }
  const large = length > RING / 2 ? 1 : 0;
  return `M${spot(lo, OUTER)} A${OUTER} ${OUTER} 0 ${large} 1 ${spot(lo + length, OUTER)} `
    + `L${spot(lo + length, INNER)} A${INNER} ${INNER} 0 ${large} 0 ${spot(lo, INNER)}Z`;
}

const HATCHES = [
  "", "M0 8L8 0", "M0 0L8 8", "M0 4H8", "M4 0V8", "M0 4H8M4 0V8", "M2 2h1v1h-1zM6 6h1v1h-1z",
  "M0 8L8 0M0 0L8 8",
];

function hatchings() {
  return draw("defs", {}, HATCHES.map((path, place) => (
    draw("pattern", { id: `hatch${place}`, width: 8, height: 8, patternUnits: "userSpaceOnUse" },
      draw("path", { d: path, class: "hatch" }))
  )), draw("marker", { id: "tip", viewBox: "0 0 8 8", refX: 7, refY: 4, markerWidth: 7,
    markerHeight: 7, orient: "auto" }, draw("path", { d: "M0 0L8 4L0 8Z", class: "tip" })));
}

/** What a group's lock is called. */
function lockText(shape) {
  if (!shape) return "";
  if (shape.gone) return `gone into ${shape.gone}`;
  return shape.role ? `${shape.role} ${run.txs[shape.tx]}` : "free";
}

/** The label of an arc, outside of it: the group's name and its members. */
function arcLabel(lo, length, group, shape, place) {
  const middle = lo + length / 2;
  const isSmall = length < RING / 30;
  const [x, y] = onCircle(middle, OUTER + (isSmall && place % 2 ? 31 : 13));
  const anchor = Math.abs(x - CENTRE) < 24 ? "middle" : x < CENTRE ? "end" : "start";
  const nodes = shape ? shape.members.map((node) => `n${node}`).join(" ") : "";
  const long = nodes.length > 12 ? `${shape.members.length} nodes` : nodes;
  const look = isSmall ? "arc-name small" : "arc-name";
  return draw("text", { x, y: y + (y < CENTRE ? -3 : 9), "text-anchor": anchor, class: look },
    draw("tspan", {}, run.groups[group]),
    isSmall ? null : draw("tspan", { x, dy: 12, class: "arc-members" }, long));
}

function padlock(middle, length) {
  const [x, y] = onCircle(middle, (OUTER + INNER) / 2);
  const size = length < RING / 30 ? 0.7 : 1;
  const place = `translate(${x - 6 * size} ${y - 8 * size}) scale(${size})`;
  return draw("path", { class: "padlock", transform: place,
    d: "M1 7h10v8h-10zM3 7v-3a3 3 0 0 1 6 0v3" });
}

function arcParts(cut, place, row) {
  const [lo, length, group] = cut;
  const shape = shapeAt(group, row);
  const look = group % COLOURS;
  const about = `group ${run.groups[group]}, from ${lo}, ${lockText(shape)}`;
  const open = () => choose({ kind: "group", number: group });
  const arc = draw("g", { class: `arc look${look}`, tabindex: 0, role: "button", onclick: open,
    "aria-label": about, onkeydown: (event) => { if (event.key === "Enter") open(); } },
  draw("title", {}, about),
  draw("path", { d: outline(lo, length), "fill-rule": "evenodd", class: "arc-fill" }),
  draw("path", { d: outline(lo, length), "fill-rule": "evenodd", fill: `url(#hatch${look})` }));
  return [arc, arcLabel(lo, length, group, shape, place),
    shape?.role ? padlock(lo + length / 2, length) : null];
}

/** Lines inside the ring from who asks in a transaction to who votes or watches. */
function locks(cuts, row) {
  const middle = new Map(cuts.map(([lo, length, group]) => [group, lo + length / 2]));
  const found = [];
  const asks = new Map();
  for (const [group] of middle) {
    const shape = shapeAt(group, row);
    if (shape?.role === "asks") asks.set(shape.tx, group);
  }
  for (const [group, place] of middle) {
    const shape = shapeAt(group, row);
    if (!shape?.role || shape.role === "asks" || !asks.has(shape.tx)) continue;
    const from = onCircle(middle.get(asks.get(shape.tx)), INNER - 5);
    const to = onCircle(place, INNER - 7);
    // bent towards the middle, the more the farther the two are apart
    const bend = [0, 1].map((axis) => CENTRE + 0.6 * ((from[axis] + to[axis]) / 2 - CENTRE));
    found.push(draw("path", { class: `bond ${shape.role === "watches" ? "watch" : "vote"}`,
      d: `M${from.join(" ")} Q${bend.join(" ")} ${to.join(" ")}`, "marker-end": "url(#tip)" },
    draw("title", {}, `${run.groups[group]} ${lockText(shape)}`)));
  }
  return found;
}

/** What is written in the middle: how many groups, and the transactions that lock any. */
function middleText(cuts, row) {
  const held = new Set();
  for (const [, , group] of cuts) {
    const shape = shapeAt(group, row);
    if (shape?.role) held.add(run.txs[shape.tx]);
  }
  const names = [...held];
  const said = names.length > 3 ? `${names.length} transactions` : names.join(", ");
  return draw("text", { x: CENTRE, y: CENTRE - 2, "text-anchor": "middle", class: "middle" },
    draw("tspan", {}, `${cuts.length} ${cuts.length === 1 ? "group" : "groups"}`),
    names.length ? draw("tspan", { x: CENTRE, dy: 15, class: "held" }, `locked by ${said}`) : null);
}

/** Where keys stand that begin with these letters. */
function letters() {
  return [..."!0AZaz"].map((letter) => {
    const place = position(letter);
    const [x, y] = onCircle(place, INNER - 11);
    const tick = `M${spot(place, INNER)} L${spot(place, INNER - 4)}`;
    return [draw("path", { class: "letter-tick", d: tick }),
      draw("text", { x, y: y + 3, "text-anchor": "middle", class: "letter" }, letter)];
  });
}

function keyMark() {
  if (keysShown.size !== 1) return null;
  const key = run.keys[[...keysShown][0]];
  const place = position(key);
  const line = `M${spot(place, INNER - 8)} L${spot(place, OUTER + 8)}`;
  return draw("path", { class: "key-mark", d: line }, draw("title", {}, `key ${key}`));
}

function showRing() {
  const { cuts, row } = ringAt(state.row);
  const side = 2 * CENTRE;
  const picture = draw("svg", { viewBox: `-14 12 ${side + 28} ${side - 24}`, class: "ring-picture",
    role: "group", "aria-label": `the ring, as decided in row ${row}` },
  hatchings(), letters(), cuts.map((cut, place) => arcParts(cut, place, state.row)),
  locks(cuts, state.row), middleText(cuts, state.row), keyMark());
  find("ring").replaceChildren(picture);
  showGroups(cuts);
}

function groupRow(lo, group) {
  const shape = shapeAt(group, state.row);
  const ballot = ballotAt(group, state.row);
  const nodes = shape ? shape.members.map((node) => `n${node}`).join(" ") : "";
  return make("tr", {},
    make("td", {}, make("i", { class: `chip look${group % COLOURS}` }), groupLink(group)),
    make("td", { class: "figure" }, lo === null ? "" : String(lo)),
    make("td", {}, nodes),
    make("td", {}, ballot ? `${ballot.round} of n${ballot.node}` : "none"),
    make("td", { class: "figure" }, String(logAt(group, state.row))),
    make("td", { class: shape?.role ? "locked" : "" },
      shape?.role ? [`${shape.role} `, txLink(shape.tx)] : lockText(shape)));
}

/** The groups of the ring, and those that are bound to it but have no arc any more. */
function showGroups(cuts) {
  const there = new Set(cuts.map(([, , group]) => group));
  const others = run.groups.map((_, group) => group).filter((group) => (
    group && !there.has(group) && shapeAt(group, state.row)
  ));
  const bound = others.filter((group) => !shapeAt(group, state.row).gone);
  const gone = others.length - bound.length;
  const heads = ["group", "from", "members", "ballot", "log", "lock"];
  find("groups").replaceChildren(make("table", { class: "groups" },
    make("thead", {}, make("tr", {}, heads.map((head) => make("th", { scope: "col" }, head)))),
    make("tbody", {}, cuts.map(([lo, , group]) => groupRow(lo, group)),
      bound.map((group) => groupRow(null, group)))),
  gone ? make("p", { class: "note" }, `${gone} gone into others`) : "");
}
