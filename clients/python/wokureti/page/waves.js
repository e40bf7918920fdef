// The sound of the frames that are shown, drawn below their small pictures. A file is decoded once, a minute at a time,
// and only its peaks are kept.

import { engine } from "./engine.js";
import { columnsOf, loudest, numbered, peaksOf, piecesOf, timesOf } from "./peaks.js";
import { packetsOf } from "./thumbs.js";

// Pixels of the picture in a lane, and in one that is low.
const TALL = 26;
const LOW = 14;
// Milliseconds for which nothing changes before sound is fetched, and before the times of frames are asked again after
// an edit of packets.
const QUIET = 500;
const RENEW = 5000;
// The rate at which files are decoded: that of Opus.
const RATE = 48000;

export class Waves {
  constructor(model, programme, thumbs) {
    Object.assign(this, { model, programme, thumbs });
    this.begin(null);
    programme.waves = this;
    for (const name of ["session", "frame", "packet"]) model.addEventListener(name, () => this.later());
  }

  /** Nothing is known of another stream. Of each source the peaks of its pieces, by their numbers, or null if it has no
   * sound that this browser decodes; and the runs of its frames, with what tells the packets that they are of. */
  begin(instance) {
    Object.assign(this, { instance, files: new Map(), runs: new Map(), isLoose: false });
  }

  /** Whether a source has sound, as far as is known. */
  has(source) {
    return this.files.get(source) !== null && engine.wave !== undefined && engine.hasWave(this.model.session, source);
  }

  /** The pixels that the picture takes of a lane of this height. */
  tall(height) {
    const isSeen = this.model.session.source_frames.some((_, source) =>
      this.has(source) && (this.files.has(source) || engine.isOver === "server"),
    );
    document.body.classList.toggle("has-waves", isSeen);
    return !isSeen ? 0 : height < 100 ? LOW : TALL;
  }

  /** Goes on with what is seen once nothing changes for a moment. */
  soon() {
    const { model, programme } = this;
    if (this.instance !== model.session.instance) this.begin(model.session.instance);
    if (this.isBusy || model.isPlaying || !programme.box.clientHeight || !this.next()) return;
    clearTimeout(this.timer);
    this.timer = setTimeout(() => this.goOn(), QUIET);
  }

  /** After an edit of packets their frames have other times: these are asked again once nothing is done. */
  later() {
    if (!this.model.session) return;
    const packets = packetsOf(this.model.session);
    const isOld = [...this.runs.values()].some((one) => one.packets !== packets);
    if (!isOld) return;
    clearTimeout(this.renewing);
    this.renewing = setTimeout(() => {
      if (this.model.isPlaying) return;
      for (const [source, one] of this.runs) if (one.packets !== packets) this.runs.delete(source);
      this.soon();
    }, RENEW);
  }

  /** What is to be asked next: the runs of a source, or a piece of its file. Null if all that is seen is known. */
  next() {
    const { programme } = this;
    const seen = programme.blocks.filter(({ left, right }) => right > 0 && left < programme.window.width);
    const unknown = seen.find(({ shot }) => this.has(shot.source) && !this.runs.has(shot.source));
    if (unknown) return { source: unknown.shot.source };
    for (const { shot, left, right } of seen) {
      const runs = this.runs.get(shot.source)?.runs ?? [];
      const scale = (right - left) / shot.count;
      const [one, other] = [Math.max(0, -left), Math.min(right, programme.window.width) - left].map(
        (pixel) => shot.first + pixel / scale,
      );
      for (const times of runs.length ? timesOf(runs, one, other) : []) {
        const { of } = times;
        const piece = this.has(of) ? piecesOf(times).find((number) => !this.files.get(of)?.has(number)) : undefined;
        if (piece !== undefined) return { source: of, piece };
      }
    }
    return null;
  }

  async goOn() {
    if (this.isBusy) return;
    this.isBusy = true;
    const { instance } = this;
    try {
      for (
        let next;
        (next = this.next()) && instance === this.instance && !this.model.isPlaying;
        this.programme.redraw()
      ) {
        // The small pictures come first.
        if (this.thumbs.isWanting) break;
        await (next.piece === undefined ? this.learn(next.source) : this.fetch(next.source, next.piece, instance));
      }
    } finally {
      this.isBusy = false;
    }
    this.soon();
  }

  async learn(source) {
    const packets = packetsOf(this.model.session);
    let runs = [];
    try {
      ({ runs } = await engine.task("waves", { source }));
    } catch {
      // It is drawn without sound until the next edit.
    }
    this.runs.set(source, { packets, runs: numbered(runs) });
  }

  async fetch(source, piece, instance) {
    let peaks = null;
    try {
      const found = await engine.wave(source, piece, instance);
      peaks = found && (found.bytes.byteLength ? await decoded(found) : new Int8Array(0));
    } catch {
      // This browser, or this server, cannot decode it.
    }
    if (instance !== this.instance) return;
    const pieces = this.files.get(source);
    // Of a file that was decoded before, what is missing is a gap.
    if (pieces) pieces.set(piece, peaks ?? new Int8Array(0));
    else this.files.set(source, peaks && new Map([[piece, peaks]]));
  }

  /** Draws it from a height on. */
  draw(context, top, tall) {
    const { programme, files } = this;
    let columns = 0;
    context.fillStyle = programme.theme.wave;
    for (const { x, level, times } of tall
      ? columnsOf(programme.blocks, programme.window.width, (source) => this.runs.get(source)?.runs)
      : []) {
      let [low, high] = [0, 0];
      for (const { of, from, end } of times) {
        const found = files.get(of) ? loudest(files.get(of), from, end) : [0, 0];
        [low, high] = [Math.min(low, found[0]), Math.max(high, found[1])];
      }
      if (low === high) continue;
      // Roots, as of the bytes of packets: quiet sound is seen too.
      const [up, down] = [high, -low].map((value) => Math.sqrt((value * level) / 127) * (tall / 2 - 1));
      context.fillRect(x, top + tall / 2 - up, 1, Math.max(1, up + down));
      columns++;
    }
    programme.canvas.dataset.waves = columns;
  }
}

/** The peaks of a piece. */
async function decoded({ bytes, begins }) {
  const buffer = await new OfflineAudioContext(1, 1, RATE).decodeAudioData(bytes);
  return peaksOf(
    Array.from({ length: buffer.numberOfChannels }, (_, channel) => buffer.getChannelData(channel)),
    buffer.sampleRate,
    begins,
  );
}
