// A worker that answers one call at a time. Calls wait here, so that one that nobody wants any more is never made, and
// those that nobody waits for come last.

import { Refusal, Unreachable } from "../engine.js";

export class Channel {
  /** `text` is the script of the worker, and `heard` is called with what it says by itself. */
  constructor(text, heard = (said) => {}) {
    this.address = URL.createObjectURL(new Blob([text], { type: "text/javascript" }));
    this.worker = new Worker(this.address);
    this.waiting = [];
    this.now = null;
    this.count = 0;
    this.worker.onmessage = ({ data }) => (data.event ? heard(data) : this.answered(data));
    this.worker.onerror = (event) =>
      this.end(
        new Unreachable(
          `The engine of this page ended: ${event.message}. The edits are kept: load the page again, and open the ` +
            "file.",
        ),
      );
  }

  call(name, given = [], { low = false, signal = undefined } = {}) {
    return new Promise((resolve, reject) => {
      if (this.over) return reject(this.over);
      const one = { id: ++this.count, name, given, low, resolve, reject };
      signal?.addEventListener("abort", () => {
        this.waiting = this.waiting.filter((other) => other !== one);
        reject(new DOMException("it was stopped", "AbortError"));
      });
      this.waiting.push(one);
      return this.next();
    });
  }

  next() {
    if (this.now || !this.waiting.length) return;
    const place = Math.max(0, this.waiting.findIndex(({ low }) => !low));
    [this.now] = this.waiting.splice(place, 1);
    const { id, name, given } = this.now;
    this.worker.postMessage({ id, name, given });
  }

  answered({ id, result, refused }) {
    if (this.now?.id !== id) return;
    const { resolve, reject } = this.now;
    this.now = null;
    if (refused) reject(new Refusal(refused.status, refused.members));
    else resolve(result);
    this.next();
  }

  /** Ends the worker, in the middle of a call too. */
  end(why = /** @type {Error} */ (new DOMException("it was stopped", "AbortError"))) {
    this.over = why;
    this.worker.terminate();
    URL.revokeObjectURL(this.address);
    for (const one of [this.now, ...this.waiting]) one?.reject(why);
    this.waiting = [];
    this.now = null;
  }
}
