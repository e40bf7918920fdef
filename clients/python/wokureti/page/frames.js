// Frames that were fetched: those of the current revision, and those before the edits.

import { Refusal, engine } from "./engine.js";

const MOST_BYTES = 192 << 20;

/** Asks for one picture. */
function one(number, of) {
  return async (signal) => (await engine.frames([number], { of, signal }))[0];
}

export class Frames {
  constructor(model) {
    this.model = model;
    this.found = new Map();
    this.bytes = 0;
    model.addEventListener("session", () => this.forget());
  }

  /** Drops frames of other revisions. */
  forget() {
    const { instance } = this.model.session;
    const isOther = this.instance !== undefined && this.instance !== instance;
    this.instance = instance;
    for (const [key, entry] of this.found) {
      if (isOther) this.drop(key);
      else if (entry.revision !== null && entry.revision !== this.model.revision) this.drop(key);
    }
  }

  drop(key) {
    const entry = this.found.get(key);
    if (!entry) return;
    this.bytes -= entry.bytes;
    this.found.delete(key);
    entry.control.abort();
  }

  /** The frame, fetched if it is not here. A refused one is an error, which is kept too. */
  get(frame) {
    const { revision } = this.model;
    return this.fetch(`now ${frame}`, revision, one(frame));
  }

  /** The frame before a revision is known: it is of the one that its answer names. */
  async first(frame) {
    const found = await this.fetch(`now ${frame}`, null, one(frame));
    const entry = this.found.get(`now ${frame}`);
    if (entry?.value === found) entry.revision = found.revision;
    return found;
  }

  /** Frames that follow each other, fetched together. If that is refused, each one is fetched by itself. */
  getTogether(first, count) {
    if (count === 1) return this.get(first);
    const { revision } = this.model;
    const group = engine.frames(Array.from({ length: count }, (_, place) => first + place));
    const each = (place) => (signal) =>
      group.then(
        (found) => found[place],
        (error) => {
          if (error instanceof Refusal && error.status < 500) return one(first + place)(signal);
          throw error;
        },
      );
    return Promise.all(
      Array.from({ length: count }, (_, place) => this.fetch(`now ${first + place}`, revision, each(place))),
    );
  }

  /** The picture of a packet without the script. */
  aside(source, packet) {
    const { revision } = this.model;
    return this.fetch(`aside ${source} ${packet}`, revision, one(packet, { packets: source }));
  }

  before(source, frame) {
    return this.fetch(`before ${source} ${frame}`, null, one(frame, { before: source }));
  }

  /** The frame if it is here, else null. */
  here(frame) {
    const entry = this.found.get(`now ${frame}`);
    return entry && entry.revision === this.model.revision ? entry.value : null;
  }

  isAsked(frame) {
    return this.found.has(`now ${frame}`);
  }

  fetch(key, revision, ask) {
    const old = this.found.get(key);
    if (old && old.revision === revision) {
      // The entries that were used last are at the end.
      this.found.delete(key);
      this.found.set(key, old);
      return old.promise;
    }
    this.drop(key);
    const control = new AbortController();
    const entry = { revision, control, value: null, bytes: 0, promise: null };
    entry.promise = ask(control.signal).then(
      (frame) => {
        entry.value = frame;
        if (this.found.get(key) === entry) {
          entry.bytes = frame.samples.length;
          this.bytes += entry.bytes;
          this.trim();
        }
        return frame;
      },
      (error) => {
        // A frame that is refused stays so at this revision; anything else is tried again.
        if (!(error instanceof Refusal) || error.status >= 500) {
          if (this.found.get(key) === entry) this.drop(key);
        }
        entry.error = error;
        throw error;
      },
    );
    entry.promise.catch(() => {});
    this.found.set(key, entry);
    return entry.promise;
  }

  trim() {
    for (const key of this.found.keys()) {
      if (this.bytes <= MOST_BYTES) return;
      if (this.found.get(key).value) this.drop(key);
    }
  }
}
