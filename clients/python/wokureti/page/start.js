// The page of `wokureti open` without a stream: it opens a file of the browser's dialog, which the server copies, or a
// stream that was open before.

import { find } from "./elements.js";
import { writeRecent } from "./recent.js";

const BASE = new URL("../", document.baseURI);
// Bytes of a piece of a file.
const PIECE = 3 << 20;

async function members(path, body) {
  const options = body
    ? { method: "POST", headers: { "Content-Type": "application/json" }, body: JSON.stringify(body) }
    : {};
  const answer = await fetch(new URL(path, BASE), options).catch(() => {
    throw new Error("The server of this page does not answer: was it ended?");
  });
  const found = await answer.json();
  if (!answer.ok) throw new Error(found.error);
  return found;
}

function say(text) {
  find("welcome-text").textContent = text;
}

/** The bytes of a piece as base64. */
async function textOf(piece) {
  const reader = new FileReader();
  const read = new Promise((done, fail) => Object.assign(reader, {
    onload: () => done(reader.result),
    onerror: () => fail(reader.error),
  }));
  reader.readAsDataURL(piece);
  return (await read).replace(/^[^,]*,?/, "");
}

async function open(file) {
  const { name, size } = file;
  let copy = "";
  for (let at = 0; at === 0 || at < size; at += PIECE) {
    say(`copying ${name}: ${size ? Math.floor((100 * at) / size) : 100} %`);
    ({ copy } = await members("piece", {
      copy,
      name,
      at,
      data: await textOf(file.slice(at, at + PIECE)),
      last: at + PIECE >= size,
    }));
  }
  await go({ copy, name }, name);
}

async function go(what, name) {
  say(`opening ${name}`);
  location.assign((await members("pages", what)).address);
}

function tried(promise) {
  find("welcome-open").disabled = true;
  promise.catch((error) => say(error.message)).finally(() => (find("welcome-open").disabled = false));
}

function choose() {
  find("welcome-file").click();
}

find("welcome-open").addEventListener("click", choose);
find("welcome-file").addEventListener("change", () => {
  const [file] = find("welcome-file").files;
  find("welcome-file").value = "";
  if (file) tried(open(file));
});
addEventListener("dragover", (event) => event.preventDefault());
addEventListener("drop", (event) => {
  event.preventDefault();
  const [file] = event.dataTransfer.files;
  if (file) tried(open(file));
});

async function list() {
  const { recent, folder } = await members("recent");
  find("copies").textContent = folder;
  writeRecent(recent.map((entry) => ({ ...entry, when: 1000 * entry.when })), (entry) => {
    if (entry.folder) return tried(go({ recent: entry.number }, entry.name));
    say(`Choose ${entry.name} again: its edits are there then.`);
    return choose();
  });
  document.body.dataset.ready = "yes";
}

// A page that is gone back to may have others by now.
addEventListener("pageshow", () => {
  say("");
  list().catch((error) => say(error.message));
});
