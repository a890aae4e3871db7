// Texts from elsewhere: stored scenarios, files, links. A text that would be lost is asked about,
// and undo brings it back in any case.

/** Asks before a text takes the place of one that is changed and not saved. */
function askFirst(what) {
  if (!ways.isChanged || ways.now.text.trim() === "") return Promise.resolve(true);
  find("question-text").textContent = `${ways.now.name} is changed and not saved as a file. `
    + `Take ${what} in its place? Undo brings it back.`;
  const box = find("question");
  return new Promise((resolve) => {
    const end = (is) => { box.onclose = null; box.close(); resolve(is); };
    find("question-yes").onclick = () => end(true);
    find("question-no").onclick = () => end(false);
    box.onclose = () => resolve(false);
    box.showModal();
    find("question-no").focus();
  });
}

/** Takes a text in place of the one that is shown. */
function takeText(text, saved) {
  ways.now.row = 0; // another run, so it is looked at from its end
  ways.change(text, saved);
  onChange();
}

async function takeStored() {
  const name = find("stored").value;
  const shows = find("stored").selectedOptions[0].title;
  find("stored").value = "";
  if (!name) return;
  try {
    const { text } = await ask(`scenario?name=${encodeURIComponent(name)}`);
    if (!await askFirst(`the stored scenario ${name}`)) return;
    find("shows").textContent = `${name}: ${shows}`;
    find("shows").title = find("shows").textContent;
    takeText(text, text);
  } catch (fault) {
    results.showFault(fault);
  }
}

/** The stored scenarios, under the headings of scenarios/README.md. */
function fillStored(scenarios) {
  let group = null;
  for (const { name, shows, about } of scenarios) {
    if (group?.label !== about) {
      group = Object.assign(document.createElement("optgroup"), { label: about });
      find("stored").append(group);
    }
    const one = Object.assign(document.createElement("option"), { value: name, title: shows });
    one.textContent = name;
    group.append(one);
  }
}

// ---- files

/** The bytes of a file as a text: UTF-8, or else a letter for each byte. */
function textOf(bytes) {
  try {
    return new TextDecoder("utf-8", { fatal: true }).decode(bytes);
  } catch {
    return new TextDecoder("iso-8859-1").decode(bytes);
  }
}

async function openFile() {
  const file = find("file").files[0];
  find("file").value = "";
  if (!file) return;
  if (file.size > page.most) {
    results.showFault(new Error(`${file.name} has more bytes than a scenario may have`));
    return;
  }
  const text = textOf(new Uint8Array(await file.arrayBuffer()));
  if (!await askFirst(`the file ${file.name}`)) return;
  find("shows").textContent = file.name;
  takeText(text, text);
}

function saveFile() {
  const bytes = new Blob([ways.now.text], { type: "text/plain" });
  const address = URL.createObjectURL(bytes);
  const name = `${ways.now.name.replace(/[^\w.-]+/g, "_")}.scatter`;
  const anchor = Object.assign(document.createElement("a"), { href: address, download: name });
  document.body.append(anchor);
  anchor.click();
  anchor.remove();
  setTimeout(() => URL.revokeObjectURL(address), 10000);
  ways.now.saved = ways.now.text;
  keep.write(ways.record());
  ways.draw();
}

// ---- links

async function showLink() {
  const address = location.href.split("#")[0];
  find("link-text").value = `${address}#${await fragmentOf(ways.now.text)}`;
  results.say("link-said", "");
  find("link-shown").showModal();
  find("link-text").select();
}

function copyLink() {
  find("link-text").select();
  const is = document.execCommand("copy");
  results.say("link-said", is ? "copied" : "press ctrl C");
}

/** Takes the text of a link, whose address may be that of another server. */
async function openLink(said) {
  const text = await textOfFragment(said.slice(said.indexOf("#") + 1), page.most);
  if (text === null) throw new Error("this is no link that holds a text");
  if (await askFirst("the text of the link")) takeText(text, text);
}

async function openPasted() {
  try {
    const said = find("link-text").value.trim();
    find("link-shown").close();
    await openLink(said);
  } catch (fault) {
    results.say("link-said", fault.message, "bad");
    find("link-shown").showModal();
  }
}

/** The text that the address holds takes its place once; the address then holds it no more. */
async function takeAddress() {
  const fragment = location.hash.slice(1);
  if (!fragment) return;
  history.replaceState(null, "", location.pathname);
  try {
    await openLink(`#${fragment}`);
  } catch (fault) {
    results.showFault(fault);
  }
}
