// What vp8list says of the macroblocks of packets, fetched when it is looked at.

import { detailsOf } from "./details.js";
import { engine } from "./engine.js";

// Packets whose records are stored: a frame of 1080p has 8,160.
const MOST_PACKETS = 6;

/** The records of a packet: columns and rows of macroblocks, `at(column, row)`, and `why` there are none. */
export class Records {
  constructor(source, packet, details) {
    this.macroblocks = details.objects;
    const last = this.macroblocks.at(-1);
    this.columns = last ? last.column + 1 : 0;
    this.rows = last ? last.row + 1 : 0;
    this.packet = packet;
    this.source = source;
    this.why = whyNone(packet, details);
  }

  at(column, row) {
    return column >= 0 && column < this.columns ? (this.macroblocks[row * this.columns + column] ?? null) : null;
  }

  /** Whether these are the macroblocks of a picture of this size: a script may crop it. */
  fit({ width, height }) {
    return this.columns === (width + 15) >> 4 && this.rows === (height + 15) >> 4;
  }
}

/** Why a packet has no macroblocks, or null. */
export function whyNone(packet, { refused, repeats }) {
  if (repeats) return `packet ${packet} has no bytes: it shows the last frame again`;
  if (refused && refused.packet !== packet)
    return `packet ${packet} is lost with packet ${refused.packet}: ${refused.cause}`;
  return refused ? `packet ${packet} is refused: ${refused.cause}` : null;
}

export class RecordStore {
  constructor(model) {
    this.model = model;
    this.found = new Map();
  }

  /** The records of a packet of the current revision. */
  get(source, packet) {
    const key = `${this.model.revision} ${source} ${packet}`;
    let found = this.found.get(key);
    if (!found) {
      found = engine
        .answer(`macroblocks ${packet}`, source, { waits: `the macroblocks of packet ${packet}` })
        .then((reply) => new Records(source, packet, detailsOf(reply)));
      found.catch(() => this.found.delete(key));
    }
    // The entries that were used last are at the end.
    this.found.delete(key);
    this.found.set(key, found);
    for (const old of this.found.keys()) {
      if (this.found.size <= MOST_PACKETS) break;
      this.found.delete(old);
    }
    return found;
  }
}

/** The bits of a macroblock: those of its tokens, and those of its record where they are listed. */
export function bitsOf(record) {
  return record.token_bits + (record.mode_bits ?? 0);
}
