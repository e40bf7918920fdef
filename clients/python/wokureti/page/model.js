// What all parts of the page share: the state of the session, the current frame, and the selections: of frames that are
// shown, and of packets.

import { engine, remember } from "./engine.js";

/** Sends `session` when the stream was changed, `frame` when another frame is current, `range` and `selection` when
 * other frames or packets are selected, and `lane`. */
export class Model extends EventTarget {
  constructor() {
    super();
    this.session = null;
    this.frame = 0;
    this.source = 0;
    // The packet that edits act on: that of the frame, or another one that was clicked.
    this.packet = 0;
    // The packet whose own picture is looked at, since no frame shows it: another source, or a packet that the script
    // leaves out.
    this.aside = null;
    this.moves = 0;
    // Until the frame of a packet is known.
    this.going = null;
    this.isPlaying = false;
    // The frames that are selected, in the order in which they are shown; and the packets of the source.
    this.range = null;
    this.selection = null;
    // The lane that keys act on: `programme`, the frames that are shown, or `packets`.
    this.lane = "programme";
    this.blocks = new Map();
    // The milliseconds of each frame, if the rate varies, and the revision that they are of.
    this.times = null;
    this.timed = null;
    this.loading = null;
    // A change whose answer is not here yet, and what an answer had of the state after it: the place of the packet, and
    // tiles of the timeline.
    this.changing = null;
    this.given = null;
    // The tiles that the lane of packets shows, and the next key packet that it knows from a packet on.
    this.tilesShown = () => [];
    this.keyFrom = () => undefined;
  }

  send(name) {
    this.dispatchEvent(new Event(name));
  }

  /** Makes a change. `act` is called with what is shown, and the answer has the new state of that: events about the
   * change, which may come first, wait. */
  async change(act) {
    const making = act({ source: this.source, packet: this.packet, tiles: this.tilesShown() });
    const changing = making.catch(() => {});
    this.changing = changing;
    try {
      const answer = await making;
      const { session, place, tiles } = answer;
      this.given = { revision: session.revision, place, tiles };
      this.use(session);
      return answer;
    } finally {
      if (this.changing === changing) this.changing = null;
    }
  }

  /** Reads the state of the session, unless it has so many changes already. Calls that come in the meantime are
   * answered by one more reading. */
  async load(changes = Infinity) {
    while ((this.changing || this.loading) && changes < Infinity) await (this.changing || this.loading.catch(() => {}));
    if (this.session?.changes >= changes) return this.session;
    if (this.loading) {
      this.again = true;
      return this.loading;
    }
    this.loading = this.read().finally(() => (this.loading = null));
    return this.loading;
  }

  async read() {
    do {
      this.again = false;
      this.use(await engine.state());
    } while (this.again);
    return this.session;
  }

  /** Takes a state of the session, unless a newer one is here. */
  use(session) {
    const old = this.session;
    if (old && old.instance === session.instance && old.changes > session.changes) return;
    this.session = session;
    remember(session);
    if (!old || old.revision !== session.revision || old.instance !== session.instance) this.blocks.clear();
    this.time().catch(() => {});
    if (this.selection && this.selection.end > this.packets) this.select(null);
    if (this.range && this.range.end > this.frames) this.selectFrames(null);
    this.send("session");
    if (old && old.revision !== session.revision && !this.isPlaying) this.stay(old.script !== session.script);
  }

  /** Reads the times of the frames, if the rate varies. */
  async time() {
    const { revision, instance, varies } = this.session;
    const key = varies ? `${instance} ${revision}` : null;
    if (key === this.timed) return;
    this.timed = key;
    if (!varies) this.times = null;
    else {
      const { times } = await engine.task("times");
      if (this.timed !== key) return;
      this.times = times;
    }
    this.send("frame");
  }

  get revision() {
    return this.session ? this.session.revision : 0;
  }

  get frames() {
    return this.session ? this.session.frames : 0;
  }

  /** The number of packets of the source that the timeline shows. */
  get packets() {
    return this.session ? this.session.sources[this.source] : 0;
  }

  /** Frames a second. */
  get rate() {
    const [rate, scale] = this.session ? this.session.rate : [30, 1];
    return rate / scale;
  }

  /** After an edit the picture is that of the current packet, or after another script that of the current frame. */
  stay(isOtherScript) {
    const move = this.moves;
    queueMicrotask(() => {
      if (move === this.moves) (isOtherScript ? this.go(this.frame) : this.goPacket(this.packet)).catch(() => {});
    });
  }

  /** Goes to a frame. */
  async go(frame, { keepPacket = false } = {}) {
    this.moves++;
    const last = Math.max(0, this.frames - 1);
    this.aside = null;
    this.frame = Math.max(0, Math.min(last, Math.floor(frame)));
    this.send("frame");
    if (!keepPacket) await this.follow();
  }

  /** Goes on by so many frames, or by packets if the picture is that of a packet: from the packet that was asked for
   * last. */
  async step(count) {
    await this.going?.catch(() => {});
    return this.aside ? this.goPacket(this.packet + count) : this.go(this.frame + count);
  }

  /** Goes to the next key packet, or to the one before. */
  async goKey(step) {
    const { packet } = await engine.look("key", { source: this.source, packet: this.packet, step });
    if (packet !== null) await this.goPacket(packet);
  }

  /** Goes to the next frame that begins something else, or to the one before. */
  async goCut(step) {
    await this.going?.catch(() => {});
    const { frame } = await engine.look("cut", { frame: this.frame, step });
    if (frame !== null) await this.go(frame);
  }

  /** Goes to the first frame or the last one. */
  goEnd(isFirst) {
    if (this.aside) return this.goPacket(isFirst ? 0 : this.packets - 1);
    return this.go(isFirst ? 0 : this.frames - 1);
  }

  /** Makes the packet of the current frame the current packet, and shows its source. */
  async follow() {
    const move = this.moves;
    const origin = await this.origin(this.frame);
    if (!origin || move !== this.moves) return;
    if (origin.source !== this.source) {
      this.source = origin.source;
      this.packet = origin.packet;
      this.select(null);
      this.send("session");
      this.send("packet");
    } else if (origin.packet !== this.packet) {
      this.packet = origin.packet;
      this.send("packet");
    }
  }

  /** Goes to a packet, and to the frame that shows it; if there is none, to its own picture. */
  goPacket(packet) {
    const going = this.goPacketNow(packet).finally(() => {
      if (this.going === going) this.going = null;
    });
    this.going = going;
    return going;
  }

  async goPacketNow(packet) {
    const move = ++this.moves;
    this.packet = Math.max(0, Math.min(Math.max(0, this.packets - 1), packet));
    this.send("packet");
    if (!this.packets) return;
    const { source } = this;
    const asked = this.packet;
    const place = this.placeGiven(source, asked) || (await engine.look("place", { packet: asked, source }));
    if (move !== this.moves) return;
    if (place.frame !== null) {
      await this.go(Math.min(place.frame, this.frames - 1), { keepPacket: true });
      return;
    }
    this.aside = { source, packet: asked, before: place.before, own: place.own };
    this.send("frame");
  }

  /** The place of a packet, if the answer to the last change had it. */
  placeGiven(source, packet) {
    const place = this.given?.revision === this.revision ? this.given.place : null;
    return place && place.source === source && place.packet === packet ? place : null;
  }

  /** Takes the tiles that the answer to the last change had. */
  takeTiles() {
    const { given } = this;
    const tiles = given?.revision === this.revision ? given.tiles : [];
    if (given) given.tiles = [];
    return tiles;
  }

  /** Shows another source in the timeline, and its first picture. */
  useSource(source) {
    this.source = source;
    this.packet = 0;
    this.select(null);
    this.send("session");
    return this.goPacket(0);
  }

  /** The source and the packet that the picture is of. */
  async looked() {
    return this.aside || this.origin(this.frame);
  }

  /** A text that is another one if another picture is looked at. */
  get look() {
    return this.aside ? `packet ${this.aside.source} ${this.aside.packet}` : `frame ${this.frame}`;
  }

  select(first, end) {
    this.selection = first === null || end <= first ? null : { first, end };
    this.send("selection");
  }

  /** Selects frames. `mark` is the one of In and Out, `begin` or `end`, that is the only one. */
  selectFrames(first, end, mark = null) {
    this.range = first === null || end <= first ? null : { first, end, mark };
    this.send("range");
  }

  /** The lane that keys act on. */
  activate(lane) {
    if (this.lane === lane) return;
    this.lane = lane;
    this.send("lane");
  }

  /** The packets that an edit acts on: the selection, or the current packet. */
  get chosen() {
    if (this.selection) return this.selection;
    return this.packets ? { first: this.packet, end: this.packet + 1 } : null;
  }

  /** The source and the packet of a frame, and the frame before the edits. Frames next to it are asked for together. */
  async origin(frame) {
    if (frame < 0 || frame >= this.frames) return null;
    const block = await this.block(Math.floor(frame / BLOCK));
    return entry(block, frame % BLOCK);
  }

  /** The same if it is known, else null. */
  known(frame) {
    const block = this.blocks.get(Math.floor(frame / BLOCK));
    return block && block.packets ? entry(block, frame % BLOCK) : null;
  }

  block(number) {
    let found = this.blocks.get(number);
    if (!found) {
      found = engine.look("origins", { from: number * BLOCK, count: BLOCK });
      this.blocks.set(number, found);
      found.then(
        (block) => {
          if (this.blocks.get(number) === found) this.blocks.set(number, block);
        },
        () => this.blocks.delete(number),
      );
    }
    return found;
  }
}

const BLOCK = 256;

function entry(block, place) {
  if (place >= block.packets.length) return null;
  return { source: block.sources[place], packet: block.packets[place], before: block.before[place] };
}
