// What the server is asked.

const find = (id) => document.getElementById(id);

const PAGE = Array.from(crypto.getRandomValues(new Uint32Array(3)), (one) => one.toString(36))
  .join(""); // the name of this page, by which a newer run of it ends an older one

/** Asks the server; a fault is an Error with what it said. */
async function ask(address, body) {
  const how = body === undefined ? {} : { method: "POST", body };
  const mark = `${address}${address.includes("?") ? "&" : "?"}page=${PAGE}`;
  let answer;
  try {
    answer = await fetch(mark, { cache: "no-store", ...how });
  } catch {
    throw new Error("the server is gone: call ./scatter edit again; the text is kept");
  }
  const said = await answer.json().catch(() => ({ fault: `status ${answer.status}` }));
  if (!answer.ok) throw Object.assign(new Error(said.fault), { status: answer.status });
  return said;
}

/** Bytes as letters that may stand in an address. */
function lettersOf(bytes) {
  let said = "";
  for (const one of bytes) said += String.fromCharCode(one);
  return btoa(said).replaceAll("+", "-").replaceAll("/", "_").replaceAll("=", "");
}

function bytesOf(letters) {
  const said = atob(letters.replaceAll("-", "+").replaceAll("_", "/"));
  return Uint8Array.from(said, (one) => one.charCodeAt(0));
}

async function through(stream, bytes) {
  const piped = new Blob([bytes]).stream().pipeThrough(stream);
  return new Uint8Array(await new Response(piped).arrayBuffer());
}

/** A text as the end of an address, compressed. */
async function fragmentOf(text) {
  const bytes = await through(new CompressionStream("deflate-raw"), new TextEncoder().encode(text));
  return `text=${lettersOf(bytes)}`;
}

/** The text that the end of an address holds, or null; an Error where it holds a broken one. */
async function textOfFragment(fragment, most) {
  const letters = new URLSearchParams(fragment).get("text");
  if (letters === null) return null;
  try {
    const stream = new DecompressionStream("deflate-raw");
    const bytes = await through(stream, bytesOf(letters));
    if (bytes.length > most) throw new Error();
    return new TextDecoder("utf-8", { fatal: true }).decode(bytes);
  } catch {
    throw new Error("this link holds no text that can be read");
  }
}
