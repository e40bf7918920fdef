// What a worker runs: a stream that is edited, or the sessions beside it. It answers calls one after the other; between
// them the headers are listed and the packets checked, in pieces, since a worker that is in a call hears nothing.

import { Beside } from "./beside.js";
import { Refused, full } from "./calls.js";
import { planOf } from "./coding.js";
import { Stream } from "./stream.js";

// Milliseconds of a piece, and between two events of a check that goes on; findings in one event.
const PIECE = 50;
const OFTEN = 100;
const MOST_TOLD = 1000;

let module = null;
let stream = null;
let beside = null;
// What was told of the check.
let told = { check: null, count: 0, state: "", at: 0 };
let isSoon = false;
let isHeard = false;

function report(part) {
  self.postMessage({ event: "opening", part });
}

const calls = {
  start(given) {
    module = given;
  },
  open(sources, revision) {
    const fresh = new Stream(module);
    const found = fresh.open(sources, revision, report);
    stream = fresh;
    return found;
  },
  take: (text) => stream.take(text),
  // From now on the page hears what the check finds.
  begin() {
    isHeard = true;
  },
  beside(sources) {
    beside = new Beside(module, sources);
  },
  add: (source) => ({ ...stream.add(source, report), about: stream.about() }),
  ask: (lines, given) => ({ ...stream.ask(lines, given), text: stream.text() }),
  paste: (members) => ({ ...stream.paste(members), text: stream.text() }),
  answer: (line, source) => stream.session.ask(line, source),
  state: () => stream.state(),
  look: (what, query) => stream.look(what, query),
  task: (kind, query) => stream.task(kind, query),
  frames: (list) => stream.frames(list),
  aside: (source, packet, lines) => stream.aside(source, packet, lines),
  save: (source, pads) => stream.save(source, pads),
  savedAs: (source, file, page) => stream.savedAs(source, file, page),
  cuts: () => stream.cuts(),
  plan: (codesLeads) => planOf(stream, codesLeads),
  lines: () => stream.session.lines,
  text: () => stream.text(),
  unwritten(count) {
    stream.unwritten = count;
  },
};
// What is answered also while the session cannot be opened again: the list of edits above all.
const ALWAYS = new Set(["start", "open", "begin", "lines", "text", "unwritten"]);
for (const name of ["before", "frames", "packet", "findings", "export", "coded", "measure", "exportCoded"])
  calls[`beside.${name}`] = (...given) => beside[name](...given);

/** Goes on with what nobody waits for. */
function goOn() {
  isSoon = false;
  if (!stream || !isHeard) return;
  let isMore = false;
  try {
    stream.whole();
    if (!stream.causes.isWhole) {
      isMore = stream.causes.goOn(PIECE);
      if (!isMore) stream.timelines = [];
      soon();
      return;
    }
    const check = stream.checked();
    if (!check.isOver) check.goOn();
    isMore = tell(check);
  } catch (error) {
    self.postMessage({ event: "check", members: { failed: reported(error).members.error } });
  }
  if (isMore) soon();
}

/** Tells what is new of a check, and returns whether there is more to come. */
function tell(check) {
  if (check.number !== told.check) told = { check: check.number, count: 0, state: "", at: 0 };
  const members = check.members(told.count, MOST_TOLD);
  const state = `${stream.revision} ${check.done} ${check.findings.length} ${members.over}`;
  const isLast = members.over || performance.now() - told.at > OFTEN;
  if (state !== told.state && isLast) {
    told = { ...told, count: told.count + members.findings.length, state, at: performance.now() };
    self.postMessage({ event: "check", members: { revision: stream.revision, ...members } });
  }
  return !members.over || told.count < check.findings.length;
}

function soon() {
  if (isSoon) return;
  isSoon = true;
  setTimeout(goOn, 0);
}

/** What an error says to the page. A fault of the library ends its session: it is opened again, with the same edits. */
function reported(error) {
  if (error instanceof Refused) return { status: error.status, members: error.members };
  if (error instanceof WebAssembly.RuntimeError) {
    try {
      stream?.restart();
    } catch {
      // The next call tries again.
    }
    return {
      status: 503,
      members: {
        error: `The engine ended at this request (${error.message}). It was started again, and all edits are there.`,
      },
    };
  }
  if (error instanceof RangeError) return { status: 507, members: full().members };
  return { status: 409, members: { error: error.message || String(error) } };
}

/** The buffers of an answer that go over without a copy. */
function buffersOf(result) {
  const list = Array.isArray(result) ? result : (result?.pieces ?? []);
  return list.map((one) => one?.samples?.buffer ?? one?.buffer).filter((one) => one instanceof ArrayBuffer);
}

self.onmessage = ({ data: { id, name, given } }) => {
  try {
    if (!ALWAYS.has(name)) stream?.whole();
    const result = calls[name](...given);
    self.postMessage({ id, result }, buffersOf(result));
  } catch (error) {
    self.postMessage({ id, refused: reported(error) });
  }
  soon();
};
