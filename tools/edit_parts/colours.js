// The colours of a scenario's words. Only the lines that are seen are drawn.

const PARTS = ["scatter", "nodes", "group", "policy", "client", "end"];
const REQUESTS = ["get", "put", "del", "add", "cas"];
const LINES = ["go", "settle", "free", "deliver", "drop", "again", "tick", "crash", "storm",
  "order"];
const ORDERS = ["join", "leave", "split", "merge", "repart", "migrate"];

/** What a word is, by its place in its line. */
function lookOf(word, place, first) {
  if (place === 0) {
    if (PARTS.includes(word)) return "part";
    if (REQUESTS.includes(word)) return "request";
    return LINES.includes(word) ? "step" : "";
  }
  if (REQUESTS.includes(first)) return place === 1 ? "key" : "value";
  if (first === "order" && place === 2 && ORDERS.includes(word)) return "step";
  if (/^[nc]\d+$/.test(word)) return "actor";
  if (/^\d+\.\d+$/.test(word)) return "name";
  return /^\d+$/.test(word) ? "number" : "";
}

/** A line in pieces: a text, its look, and the letter that it begins at. */
function piecesOf(line, isFirst) {
  if (line.startsWith("#") && !isFirst) return [{ text: line, look: "comment", at: 0 }];
  const found = [];
  let place = 0;
  let first = "";
  for (const { 0: text, index: at } of line.matchAll(/[^ \t]+|[ \t]+/g)) {
    const isWord = !/^[ \t]/.test(text);
    if (isWord && place === 0) first = text;
    found.push({ text, at, look: isWord ? lookOf(text, place++, first) : "" });
  }
  return found;
}

/** The elements of a line; `bad` is where its refused word stands, or null. */
function colouredLine(line, isFirst, bad) {
  const made = document.createElement("div");
  for (const { text, look, at } of piecesOf(line, isFirst)) {
    const isBad = bad && at < bad[1] && at + text.length > bad[0];
    const piece = document.createElement("span");
    piece.className = [look, isBad ? "refused" : ""].filter(Boolean).join(" ");
    piece.textContent = text;
    made.append(piece);
  }
  if (!line) made.textContent = "\u200b";
  return made;
}
