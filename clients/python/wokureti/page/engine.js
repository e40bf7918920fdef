// What the page needs of the engine that has the stream, and speaks to alone. engines/http.js is the one over a server,
// engines/wasm.js the one in the browser.
//
// ask(lines, { revision, title, page })    edits as one step, which may have a title; or the text `undo` or `redo`. All
//                                          are made or, if the stream is of another revision, none. Returns the `reply`
//                                          to the last one, and the state afterwards: `session`, and of `page` the
//                                          `place` of its packet and its `tiles`
// paste(members)                           packets that were remembered by their numbers, inserted as one step
// state()                                  the session: its packets, frames, edits, titles of steps, saves and notices
// answer(line, source, { waits, signal })  the session's reply to a question about the packets of a source, as a text;
//                                          `waits` names it for who waits
// look(what, query, { waits })             what the timeline shows, from the packets and the script alone: `timeline`,
//                                          `place`, `range`, `key`, `cut`, `origins`, `numbers`
// frames(list, { of, lines, revision, low, signal })
//                                          pictures of frames, some at a time: `of` nothing now; `{ before: source }`
//                                          as that source was opened; `{ packets: source }` packets alone, without the
//                                          script. With `lines` as they would be after these edits, which are not made:
//                                          no list, event, undo or redo has them. `low`: nobody waits
// save(source, page)                       writes the packets of a source, and returns where, `reply`
// file(kind, { name, signal, got, how })   a file that the page offers: `export` the frames that are shown, `cuts` the
//                                          parts that are shown. With `how` the frames of an export that the script
//                                          changes are coded again: `psnr` the decibels that each has at least, `lead`
//                                          (`exact` or `coded`), `sound` (`copy` or `fade`)
// link(kind, number)                       the address of a file, or null if `offer` makes it
// offer(kind, number)                      offers a file of a kind without an address
// task(kind, query, { waits, signal })     long work: `check`, the findings of a group of pictures after edits that are
//                                          not made; `costs`, what an export costs: the number of its `frames`, how
//                                          many are `coded` again, its `leads`, whether `sounds` can fade, the
//                                          `encoder`, and `why` there is none; `cuts`, the script of a list of cuts;
//                                          `repairs` of a finding, and `repair_all`; `times`, when frames begin, if the
//                                          rate varies; `waves`, where the sound of the frames of a source is: `runs`
// progress(name)                           how far an edit, the opening of a stream, and the export of this name are
// sound(session)                           the address of the sound of the frames that are shown, or null
// hasWave(session, source)                 whether the file of a source may have sound
// wave(source, piece, instance)            a minute of the sound of that file: `bytes` that the browser decodes, none
//                                          if no packet is there, and the millisecond at which it `begins`; null if it
//                                          has no sound
// add(file), page(file)                    opens a stream as the last source, or on a new page; `take(files)` those
//                                          that were dropped, true if that is all
// changed(heard, found)                    calls back what changes elsewhere, and what the check of the current packets
//                                          finds

/** The engine of this page. */
export const engine = {};

export function use(found) {
  Object.assign(engine, found);
}

/** A request that was refused: the status, the engine's reply if it has one, and the reason. */
export class Refusal extends Error {
  constructor(status, members) {
    // The reason begins with the command that was refused, which is known here.
    const reason = (members.reason || "").replace(/^\w+: /, "");
    super(reason || members.error || `status ${status}`);
    this.status = status;
    this.reply = members.reply || "";
    this.reason = reason;
  }
}

/** The engine cannot be reached. */
export class Unreachable extends Error {}

// Milliseconds for which the browser may still read a file that it was offered.
const LATER = 60000;

// What is waited for while a stream is opened.
export const OPENING = "the stream to be opened";

// Requests that are not answered yet, with when each began: what goes on is shown if one takes long.
export const waiting = new Map();
let next = 0;

/** What a promise becomes. Until then `what` is what is waited for, if that is said. */
export async function waited(what, promise) {
  const number = next++;
  if (what) waiting.set(number, { what, since: performance.now() });
  try {
    return await promise;
  } finally {
    waiting.delete(number);
  }
}

// Where the edits are, and the command that goes on with them, once that is known.
let kept = null;

export function remember({ list, again }) {
  kept = list && again ? { list, again } : null;
}

/** What is said when the engine does not answer. */
export function whenLost() {
  const where = kept ? ` The edits are in ${kept.list}: ${kept.again} goes on from there, and this page with it.` : "";
  return `The server of this page does not answer: was it ended?${where}`;
}

/** Offers bytes to the browser as a file. */
export function offer(blob, name) {
  const link = document.createElement("a");
  link.href = URL.createObjectURL(blob);
  link.download = name;
  link.click();
  setTimeout(() => URL.revokeObjectURL(link.href), LATER);
}

/** The number of samples of a frame. */
export function sizeOf(width, height) {
  return width * height + 2 * ((width + 1) >> 1) * ((height + 1) >> 1);
}
