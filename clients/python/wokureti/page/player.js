// Playback at the stream's rate, in both directions. Frames are fetched ahead; those that come late are dropped.

// Frames that are asked for at a time, and how far ahead.
const AT_ONCE = 2;
const TOGETHER_AT_ONCE = 4;
const AHEAD = 16;
const TOGETHER = 8;
// Milliseconds that playback waits for its first frames.
const MOST_WAIT = 600;

/** The frame that is due after some frames' time, in a range that begins again at its end if it loops; null after the
 * end. */
export function frameDue(start, direction, passed, range, isLoop) {
  const count = range.end - range.first;
  if (count <= 0) return null;
  const place = direction > 0 ? start - range.first + passed : range.end - 1 - start + passed;
  if (place >= count && !isLoop) return null;
  const turned = place % count;
  return direction > 0 ? range.first + turned : range.end - 1 - turned;
}

/** The frames that come next, in the order of playback. */
export function framesAhead(frame, direction, count, range, isLoop) {
  const found = [];
  for (let turn = 0; turn < count; turn++) {
    const due = frameDue(frame, direction, turn, range, isLoop);
    if (due === null) break;
    if (found.includes(due)) break;
    found.push(due);
  }
  return found;
}

/** The order in which frames are asked for. Backward, frames that are next to each other are decoded forward: the
 * nearest of these groups first. */
export function orderOf(frames, direction) {
  if (direction > 0) return frames;
  const group = (frame) => Math.floor(frame / TOGETHER);
  return [...frames].sort((one, other) => group(other) - group(one) || one - other);
}

/** Frames that follow each other as pairs of the first one and how many there are, a few at most: one request for
 * each. */
export function groupsOf(frames) {
  const groups = [];
  for (const frame of frames) {
    const last = groups.at(-1);
    if (last && frame === last[0] + last[1] && last[1] < TOGETHER_AT_ONCE) last[1]++;
    else groups.push([frame, 1]);
  }
  return groups;
}

export class Player {
  constructor(model, frames, viewer, sound) {
    Object.assign(this, { model, frames, viewer, sound });
    this.speed = 0;
    this.isLoop = false;
    this.flying = 0;
    model.addEventListener("session", () => this.speed && this.restart());
  }

  get isPlaying() {
    return this.speed !== 0;
  }

  toggle() {
    return this.isPlaying ? this.stop() : this.play(1);
  }

  /** Plays at a speed: 1 is that of the stream, -1 the same backward. */
  async play(speed) {
    if (!this.model.frames) return;
    const range = this.played;
    let start = this.model.frame;
    const isOutside = start < range.first || start >= range.end;
    if (isOutside || (speed > 0 && start === range.end - 1) || (speed < 0 && start === range.first)) {
      if (isOutside || this.isLoop || !this.isPlaying) start = speed > 0 ? range.first : range.end - 1;
    }
    this.range = range;
    this.speed = speed;
    this.begin(start);
    this.model.isPlaying = true;
    this.model.aside = null;
    this.onchange?.();
    cancelAnimationFrame(this.asked);
    this.asked = requestAnimationFrame(() => this.tick());
  }

  begin(start) {
    this.start = start;
    this.since = performance.now();
    this.isReady = false;
    this.shown = 0;
    this.dropped = 0;
    this.passed = -1;
    this.window = [];
  }

  /** The frames that are played: those that are selected if it loops, else all. */
  get played() {
    const { range, frames } = this.model;
    return this.isLoop && range ? range : { first: 0, end: frames };
  }

  async restart() {
    const { speed } = this;
    if (speed) await this.play(speed);
  }

  stop() {
    if (!this.speed) return;
    this.speed = 0;
    this.sound.stop();
    cancelAnimationFrame(this.asked);
    this.model.isPlaying = false;
    this.onchange?.();
    this.model.go(this.model.frame).catch(() => {});
  }

  tick() {
    if (!this.speed) return;
    const direction = Math.sign(this.speed);
    const now = performance.now();
    if (!this.isReady && !this.fill(direction, now)) {
      this.asked = requestAnimationFrame(() => this.tick());
      return;
    }
    const passed = Math.floor(((now - this.since) / 1000) * this.model.rate * Math.abs(this.speed));
    const due = frameDue(this.start, direction, passed, this.range, this.isLoop);
    if (due === null) {
      this.model.frame = direction > 0 ? this.range.end - 1 : this.range.first;
      this.stop();
      return;
    }
    this.fetch(due, direction);
    if (passed !== this.passed) this.presentNewest(passed, direction, now);
    this.asked = requestAnimationFrame(() => this.tick());
  }

  /** Waits for the first frames, for a moment at most. The time of playback begins then. */
  fill(direction, now) {
    this.fetch(this.start, direction);
    const first = framesAhead(this.start, direction, TOGETHER, this.range, this.isLoop);
    this.isReady = now - this.since > MOST_WAIT || first.every((frame) => this.frames.here(frame));
    if (this.isReady) this.since = now;
    return this.isReady;
  }

  /** Shows the newest frame that is here of those that were due since the last one; those before it are dropped. */
  presentNewest(passed, direction, now) {
    for (let one = passed; one > Math.max(this.passed, passed - AHEAD); one--) {
      const due = frameDue(this.start, direction, one, this.range, this.isLoop);
      const frame = this.frames.here(due);
      if (frame) {
        this.present(due, frame, one, now);
        return;
      }
    }
  }

  present(due, frame, passed, now) {
    this.dropped += passed - this.passed - 1;
    this.passed = passed;
    this.shown++;
    this.window.push(now);
    while (this.window.length > 1 && now - this.window[0] > 1000) this.window.shift();
    this.model.frame = due;
    const origin = this.model.known(due);
    if (origin && origin.source === this.model.source) this.model.packet = origin.packet;
    else this.model.origin(due).catch(() => {});
    this.viewer.present(frame);
    this.sound.at(due, this.speed);
    this.model.send("frame");
    this.onframe?.();
  }

  /** Frames a second in the last second. */
  get measured() {
    if (!this.window || this.window.length < 2) return 0;
    return ((this.window.length - 1) * 1000) / (this.window[this.window.length - 1] - this.window[0]);
  }

  fetch(due, direction) {
    const step = Math.max(1, Math.round(Math.abs(this.speed)));
    const ahead = framesAhead(due, direction, AHEAD * Math.min(step, 2), this.range, this.isLoop);
    const wanted = orderOf(ahead, direction).filter((frame) => !this.frames.isAsked(frame));
    for (const [first, count] of groupsOf(wanted)) {
      if (this.flying >= AT_ONCE) return;
      this.flying++;
      this.frames
        .getTogether(first, count)
        .catch(() => {})
        .finally(() => this.flying--);
    }
  }
}
