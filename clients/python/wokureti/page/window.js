// Which packets the timeline shows: the first one, and how many pixels each has.

export const MOST_SCALE = 32;

export class Window {
  constructor() {
    this.from = 0;
    this.scale = 1;
    this.width = 1;
    this.count = 0;
  }

  get least() {
    return Math.min(MOST_SCALE, this.width / Math.max(1, this.count));
  }

  /** The packets that there is room for. */
  get span() {
    return this.width / this.scale;
  }

  clamp() {
    this.scale = Math.max(this.least, Math.min(MOST_SCALE, this.scale));
    this.from = Math.max(0, Math.min(this.count - this.span, this.from));
  }

  all() {
    this.scale = this.least;
    this.from = 0;
    this.clamp();
  }

  /** Zooms so that what is at a pixel stays there. */
  zoom(factor, pixel) {
    const place = this.from + pixel / this.scale;
    this.scale *= factor;
    this.scale = Math.max(this.least, Math.min(MOST_SCALE, this.scale));
    this.from = place - pixel / this.scale;
    this.clamp();
  }

  pan(pixels) {
    this.from += pixels / this.scale;
    this.clamp();
  }

  packetAt(pixel) {
    return Math.floor(this.from + pixel / this.scale);
  }

  pixelOf(packet) {
    return (packet - this.from) * this.scale;
  }

  /** Moves so that a packet is seen. */
  reveal(packet) {
    const margin = Math.min(40, this.width / 8);
    const pixel = this.pixelOf(packet + 0.5);
    if (pixel < margin) this.from -= (margin - pixel) / this.scale;
    else if (pixel > this.width - margin) this.from += (pixel - this.width + margin) / this.scale;
    this.clamp();
  }

  /** Moves on by a page if a packet is no longer seen, as in playback. */
  follow(packet) {
    const pixel = this.pixelOf(packet);
    if (pixel < 0 || pixel > this.width) this.from = packet - this.span * 0.1;
    this.clamp();
  }
}

/** A step between labels: 1, 2 or 5 times a power of ten, at least this large. */
export function stepOf(least) {
  let power = 1;
  while (power * 10 <= least) power *= 10;
  for (const factor of [1, 2, 5, 10]) if (factor * power >= least) return Math.max(1, factor * power);
  return power * 10;
}

/** A number of bytes in words. */
export function bytesText(bytes) {
  if (bytes < 1000) return `${bytes} B`;
  if (bytes < 1e6) return `${(bytes / 1000).toFixed(bytes < 1e5 ? 1 : 0)} kB`;
  return `${(bytes / 1e6).toFixed(1)} MB`;
}
