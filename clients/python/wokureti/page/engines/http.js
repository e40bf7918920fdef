// The engine behind a server: docs/reference/http.md says what each request answers.

import { OPENING, Refusal, Unreachable, sizeOf, use, waited, whenLost } from "../engine.js";
import { runsOf } from "./clipboard.js";
import { Mirror } from "./mirror.js";

const BASE = new URL("../", document.baseURI);

/** The name that an answer gives its file. */
export function nameIn(disposition) {
  const found = /filename="([^"]+)"/.exec(disposition || "");
  return found ? found[1] : "exported";
}

/** Sends a request. A refusal is an answer with a header of its own, since a browser reports other statuses as errors
 * of the page. */
async function sent(path, options) {
  try {
    const url = new URL(path, BASE);
    url.searchParams.set("refusals", "answers");
    const response = await fetch(url, options);
    const status = Number(response.headers.get("X-Refused")) || response.status;
    if (status < 400) return response;
    let members = {};
    try {
      members = await response.json();
    } catch {
      members = { error: `the server answered with status ${status}` };
    }
    throw new Refusal(status, members);
  } catch (error) {
    if (error instanceof Refusal || error.name === "AbortError") throw error;
    throw new Unreachable(whenLost());
  }
}

function get(path, what = "", signal = undefined) {
  return waited(what, sent(path, { signal }));
}

function post(path, body, what, signal) {
  return waited(
    what,
    sent(path, { method: "POST", headers: { "Content-Type": "application/json" }, body: JSON.stringify(body), signal }),
  );
}

/** The JSON object of a question with members. */
async function asked(what, query = {}, { waits = "", signal = undefined } = {}) {
  const text = Object.entries(query).map(([name, value]) => `${name}=${encodeURIComponent(value)}`).join("&");
  return (await get(text ? `${what}?${text}` : what, waits, signal)).json();
}

async function answer(line, source, { waits = "", signal = undefined } = {}) {
  return (await get(`answer?source=${source}&line=${encodeURIComponent(line)}`, waits, signal)).text();
}

// The packets, as far as they were told.
const mirror = new Mirror();
let begin;
const begun = new Promise((resolve) => (begin = resolve));

/** Takes a state that was answered to who knew the packets of a name. If others came meanwhile, it is asked for
 * anew. */
async function taken({ told, ...session }, known, waits = "") {
  if (!mirror.take(/** @type {any} */ (session), told ?? { base: known })) return state(waits);
  begin();
  return session;
}

async function state(waits = "the packets") {
  const { known } = mirror;
  return taken(await asked("session", { known }, { waits }), known, waits);
}

/** What the numbers of packets in lines are of. */
function named() {
  return { contents: mirror.contents?.name };
}

/** Sends a change, and takes the state after it. */
async function changed(members, page, what) {
  const { known } = mirror;
  const { session, ...found } = await (await post("edits", { ...members, ...named(), known }, what)).json();
  return { ...found, session: await taken(session, known), ...(page && mirror.shownOn(page)) };
}

function ask(lines, { revision = undefined, title = "", page = null } = {}) {
  return changed(
    typeof lines === "string" ? { line: lines, revision } : { lines, revision, ...(title && { title }) },
    page,
    "edit",
  );
}

async function look(what, query) {
  await begun;
  return mirror.look(what, query);
}

/** Inserts remembered packets. The server has the bytes of those that are in no stream any more, by their numbers. */
async function paste({ contents, revision, page, ...given }) {
  const { name, ofFiles } = mirror.contents;
  if (contents !== name && given.numbers.some(([first, count]) => first + count > ofFiles)) {
    throw new Refusal(409, { error: "the packets that were copied are gone, since vp8serve was started again" });
  }
  const { lines, title, told: found } = mirror.pasted(given, (number, at) => `insert ${at} #${number}`);
  if (revision !== mirror.revision) throw new Refusal(412, { error: "the stream was changed" });
  if (!lines.length) return { ...found, session: await state(), ...mirror.shownOn(page) };
  return { ...found, ...(await changed({ lines, title, revision }, page, "edit")) };
}

/** The frames of a YUV4MPEG2 text: width, height and samples of each. */
export function parseFrames(bytes, count) {
  const end = bytes.indexOf(10);
  const found = /^YUV4MPEG2 W(\d+) H(\d+)/.exec(new TextDecoder().decode(bytes.subarray(0, end)));
  const [width, height] = [Number(found[1]), Number(found[2])];
  const size = 6 + sizeOf(width, height);
  if (bytes.length !== end + 1 + count * size) throw new Error("frames were cut off");
  return Array.from({ length: count }, (_, place) => ({
    width,
    height,
    samples: bytes.subarray(end + 1 + place * size + 6, end + 1 + (place + 1) * size),
  }));
}

/** The request for frames, and what is waited for. */
function requestOf(list, { of = undefined, lines = undefined, revision = undefined }) {
  const [first] = list;
  if (!of && !lines && list.length === 1) return { path: `frames/${first}.y4m`, what: `frame ${first}` };
  const what = lines
    ? "preview"
    : of?.packets !== undefined
    ? `packet ${first} of source ${of.packets}`
    : of
    ? `frame ${first} before the edits`
    : `frame ${first}`;
  return { path: "frames", body: { frames: list, ...of, ...(lines && { lines, revision, ...named() }) }, what };
}

async function frames(list, given = {}) {
  const { path, body, what } = requestOf(list, given);
  const waits = given.low ? "" : what;
  const response = await (body ? post(path, body, waits, given.signal) : get(path, waits, given.signal));
  const bytes = new Uint8Array(await response.arrayBuffer());
  const revision = Number((response.headers.get("ETag") || "").replace(/"/g, "").split("-")[1] || 0);
  return parseFrames(bytes, list.length).map((frame) => ({ ...frame, revision }));
}

/** The frames that are shown as a file: its bytes, its name, and what it has. `got` hears how many bytes of all are
 * here; `how` says what is coded again. */
async function exported({ name = "", signal = undefined, got = (done, total) => {}, how = null }) {
  const coded = how ? `&${new URLSearchParams({ code: 1, ...how })}` : "";
  const answer = await get(`file/export?name=${name}${coded}`, "", signal);
  const total = Number(answer.headers.get("Content-Length"));
  const pieces = [];
  let done = 0;
  for (const reader = answer.body.getReader(); ; ) {
    const { value } = await reader.read();
    if (!value) break;
    pieces.push(value);
    done += value.length;
    got(done, total);
  }
  return {
    file: new Blob(pieces),
    name: nameIn(answer.headers.get("Content-Disposition")),
    said: answer.headers.get("X-Exported"),
  };
}

async function file(kind, given = {}) {
  if (kind === "export") return exported(given);
  const answer = await get("file/cuts.csv", "the list of cuts");
  return { file: await answer.blob(), name: nameIn(answer.headers.get("Content-Disposition")) };
}

const LINKS = { png: (frame) => `../frames/${frame}.png` };

async function made(kind, query, { waits = "", signal = undefined } = {}) {
  return (await post("task", { kind, ...query }, waits, signal)).json();
}

/** The repairs of a finding. What they need of packets is asked for once. */
async function repairs({ finding = null }, how) {
  await begun;
  const { contents } = mirror;
  const numbers = contents.unknown(finding.packet);
  if (numbers.length) contents.know(numbers, await made("facts", { numbers: runsOf(numbers), ...named() }, how));
  return { revision: mirror.revision, repairs: mirror.repairs(finding) };
}

function task(kind, query = {}, how = {}) {
  return kind === "repairs"
    ? repairs(query, how)
    : made(kind, kind === "check" ? { ...query, ...named() } : query, how);
}

async function progress(name) {
  const { doing, opening, exports } = await asked("progress");
  return { doing, opening, exporting: exports[name] };
}

/** Opens a file that was dropped, where the server has it: a page learns its name and its bytes, and not its path. */
async function same(name, size, sha256) {
  return (await asked("streams", { name, size, sha256 })).files;
}

/** Calls `heard` with the name of each event of the server, and how many changes there were by then, and `found` with
 * what a check found, as long as the page is visible. */
function listen(heard, found) {
  let source = null;
  const start = () => {
    if (source || document.hidden) return;
    source = new EventSource(new URL("events?check=1", BASE));
    for (const name of ["edit", "restarted", "saved"]) {
      source.addEventListener(name, (event) => heard(name, JSON.parse(event.data).changes));
    }
    source.addEventListener("check", (event) => {
      const members = JSON.parse(event.data);
      if (members.check !== undefined) mirror.heard(members);
      found(members);
    });
    source.addEventListener("error", () => heard("lost", null));
    source.addEventListener("open", () => heard("open", null));
  };
  // A browser has six connections to a server: pages that are not seen leave theirs to the others.
  document.addEventListener("visibilitychange", () => {
    if (document.hidden) {
      source?.close();
      source = null;
    } else {
      start();
    }
  });
  start();
}

use({
  isOver: "server",
  ask,
  answer,
  look,
  frames,
  file,
  task,
  progress,
  changed: listen,
  same,
  paste,
  state,
  save: (source, page) => changed({ line: "save", source }, page, "the packets to be saved"),
  link: (kind, number) => LINKS[kind](number),
  sound: ({ sounds, revision, instance }) =>
    (sounds ? String(new URL(`file/sound.webm?revision=${revision}&instance=${instance}`, BASE)) : null),
  hasWave: ({ waves }, source) => waves[source],
  wave: async (source, piece, instance) => ({
    bytes: await (await get(`file/wave.webm?source=${source}&piece=${piece}&instance=${instance}`)).arrayBuffer(),
    begins: 0,
  }),
  files: async () => (await asked("streams")).files,
  add: async (path) => (await post("streams", { file: path, as: "source" }, OPENING)).json(),
  page: async (path) =>
    (await (await post("streams", { file: path, as: "page" }, "the page to be opened")).json()).address,
});
