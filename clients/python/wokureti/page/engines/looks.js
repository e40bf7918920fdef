// What the timeline shows, and where a frame comes from: answered from the packets and the script alone, for each
// engine.

import { joined, shotsOf, unfaded } from "../shots.js";
import { pasteOf, runsOf } from "./clipboard.js";
import { Runs, Timeline, original } from "./views.js";

// Packets, frames or columns that are told at a time.
const MOST_ENTRIES = 4096;
// The columns of the tiles that an answer to a change has; places of selected packets that are named.
const COLUMNS = 1024;
const MOST_PLACES = 3;

/** A stream at a revision. Each kind of it has its `contents`, `revision`, `scriptText`, `frameCount` and `current`
 * source, the causes against the packets of a source (`causesOf`), and which packets of source 0 are `damaged`
 * inside. */
export class Looks {
  /** The packets or the script are others now. */
  lookAgain() {
    this.timelines = [];
    this.runs = null;
  }

  timeline(source) {
    return (this.timelines[source] ??= new Timeline(this.contents, source, this.causesOf(source)));
  }

  /** Where the frames of the script come from. */
  served() {
    if (!this.runs) {
      const frames = this.contents.streams.map((_, source) => this.timeline(source).shown);
      this.runs = new Runs(joined(unfaded(shotsOf(this.scriptText, frames).shots)), (source) => this.timeline(source));
    }
    return this.runs;
  }

  /** The state after a change: of the page what is shown. */
  shownOn({ source: asked, packet: wanted, tiles }) {
    const { streams } = this.contents;
    const source = Math.min(asked, streams.length - 1);
    const packet = Math.max(0, Math.min(wanted, streams[source].length - 1));
    return {
      place: this.place({ source, packet }),
      tiles: tiles.map(([per, number]) => this.tile({ source, first: number * COLUMNS * per, per, count: COLUMNS })),
    };
  }

  tile({ source, first, per, count }) {
    const timeline = this.timeline(source);
    if (source === 0) timeline.damage(this.damaged());
    const start = Math.min(first, timeline.count);
    const columns = Math.min(count, MOST_ENTRIES);
    const keys = timeline.keysOf(start, per, columns).map((packet) => [
      packet,
      timeline.stream[packet],
      timeline.ownFrame(packet),
    ]);
    return {
      revision: this.revision,
      contents: this.contents.name,
      source,
      first,
      per,
      packets: timeline.count,
      ...timeline.tile(start, per, columns),
      keys,
    };
  }

  place({ source, packet }) {
    const found = { revision: this.revision, source, packet, frame: this.served().frameOf(source, packet) };
    const timeline = this.timeline(source);
    return packet < timeline.count
      ? { ...found, own: timeline.ownFrame(packet), before: this.before(source, packet) }
      : found;
  }

  /** The frame that the file of a source shows at a packet, or null. */
  before(source, packet) {
    const index = original(this.contents, source, packet);
    if (index === null) return null;
    const shown = this.contents.shownInFile(source);
    return shown.at(-1) ? Math.min(shown[index], shown.at(-1) - 1) : null;
  }

  origins({ from, count }) {
    const found = { revision: this.revision, from, sources: [], packets: [], before: [] };
    for (let frame = from; frame < Math.min(from + Math.min(count, MOST_ENTRIES), this.frameCount); frame++) {
      const { source, packet } = this.served().origin(frame);
      found.sources.push(source);
      found.packets.push(packet);
      found.before.push(this.before(source, packet));
    }
    return found;
  }

  key({ source, packet, step }) {
    const timeline = this.timeline(source);
    const found = step > 0 ? timeline.nextKey(packet + 1) : timeline.keyBefore(packet - 1);
    return { revision: this.revision, source, packet: found < 0 || found >= timeline.count ? null : found };
  }

  cut({ frame, step }) {
    return { revision: this.revision, frame: this.served().join(frame, step) };
  }

  range({ source, first, end }) {
    const found = this.served().rangeOf(source, first, end);
    return { revision: this.revision, ...found, places: found.places.slice(0, MOST_PLACES) };
  }

  numbers({ source, first, count }) {
    return {
      revision: this.revision,
      contents: this.contents.name,
      numbers: runsOf(this.contents.streams[source].slice(first, first + count)),
    };
  }

  /** What inserts remembered packets: the lines, their title, and what is told of them. `insertion(number, at)` is the
   * line for one that is in no stream any more. */
  pasted(given, insertion) {
    return pasteOf(this.contents.streams, this.current, given, insertion);
  }

  look(what, query) {
    return what === "timeline" ? this.tile(query) : this[what](query);
  }
}
