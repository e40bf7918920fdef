// The packets that the timeline draws: tiles of 1,024 columns, of one packet each or of a power of two of them.

import { engine } from "./engine.js";

export const COLUMNS = 1024;
const MOST_TILES = 200;

export class Tiles {
  /** `arrived` is called when a tile is here. */
  constructor(arrived) {
    this.arrived = arrived;
    this.found = new Map();
    this.state = "";
    this.revision = 0;
    this.source = 0;
  }

  /** Forgets the tiles if they are of another state of the stream. They are still drawn until the new ones are here. */
  use(revision, source, state) {
    const text = `${revision} ${source} ${state}`;
    if (text === this.state) return;
    if (source !== this.source) this.found.clear();
    this.state = text;
    this.revision = revision;
    this.source = source;
  }

  /** The tile with this number of columns of `per` packets: that of the current state, or an older one until it is
   * here, or null. */
  get(per, number) {
    const key = `${per}/${number}`;
    const entry = this.found.get(key);
    if (!entry || (entry.state !== this.state && entry.asked !== this.state)) this.ask(key, per, number, entry);
    return this.found.get(key)?.tile || null;
  }

  /** The tile, if it is of the current state. */
  fresh(per, number) {
    this.get(per, number);
    return this.peek(per, number);
  }

  /** The same, which asks for nothing. */
  peek(per, number) {
    const entry = this.found.get(`${per}/${number}`);
    return entry?.state === this.state ? entry.tile : null;
  }

  /** Takes a tile of the current state that was not asked for. */
  put(tile) {
    if (tile.source !== this.source) return;
    const key = `${tile.per}/${tile.first / (COLUMNS * tile.per)}`;
    this.found.delete(key);
    this.found.set(key, { state: this.state, asked: this.state, tile: prepared(tile) });
    this.trim();
  }

  async ask(key, per, number, old) {
    const { state, source } = this;
    const entry = { state: old ? old.state : null, asked: state, tile: old ? old.tile : null };
    this.found.delete(key);
    this.found.set(key, entry);
    try {
      const tile = await engine.look(
        "timeline",
        { source, first: number * COLUMNS * per, per, count: COLUMNS },
        { waits: "the packets of the timeline" },
      );
      if (state !== this.state && this.found.get(key) !== entry) return;
      entry.tile = prepared(tile);
      entry.state = state;
      this.trim();
      this.arrived();
    } catch {
      entry.asked = null;
    }
  }

  trim() {
    for (const key of this.found.keys()) {
      if (this.found.size <= MOST_TILES) return;
      this.found.delete(key);
    }
  }
}

function prepared(tile) {
  return { ...tile, marks: new Set(tile.edits) };
}

/** How many packets a column has at a scale, in pixels a packet. */
export function perOf(scale) {
  return scale >= 1 ? 1 : 2 ** Math.ceil(Math.log2(1 / scale) - 1e-9);
}
