// The picture: the frame as it is served, alone or with the frame before the edits.

import { toDifference, toPixels } from "./colours.js";
import { drag, find } from "./elements.js";

/** What draws on a canvas of this size. */
function sized(canvas, width, height) {
  if (canvas.width !== width || canvas.height !== height) Object.assign(canvas, { width, height });
  return canvas.getContext("2d", { alpha: false });
}

function draw(canvas, pixels, width, height) {
  sized(canvas, width, height).putImageData(new ImageData(new Uint8ClampedArray(pixels.buffer), width, height), 0, 0);
}

/** How large a picture is shown: a number of pixels of the page for each sample. */
export function scaleOf(size, width, height, room) {
  if (size !== "fit") return Number(size);
  return Math.min(room.width / width, room.height / height);
}

/** Whether the browser can draw frames of samples by itself, which is faster: only used in playback. */
const hasFrames = typeof VideoFrame === "function";

function drawVideo(canvas, { width, height, samples }) {
  const across = (width + 1) >> 1;
  const luma = width * height;
  const chroma = across * ((height + 1) >> 1);
  const video = new VideoFrame(samples, {
    format: "I420",
    codedWidth: width,
    codedHeight: height,
    timestamp: 0,
    layout: [
      { offset: 0, stride: width },
      { offset: luma, stride: across },
      { offset: luma + chroma, stride: across },
    ],
    colorSpace: { matrix: "smpte170m", primaries: "smpte170m", transfer: "smpte170m", fullRange: false },
  });
  try {
    sized(canvas, width, height).drawImage(video, 0, 0);
  } finally {
    video.close();
  }
}

export class Picture {
  constructor() {
    this.stage = find("stage");
    this.canvas = find("now-canvas");
    this.other = find("before-canvas");
    Object.assign(this, { view: "frame", plane: "colour", size: "fit", gain: 8, split: 0.5 });
    Object.assign(this, { now: null, before: null, isFirst: true });
    // Called when the picture has another size on the page.
    this.onfit = () => {};
    this.useVideo = hasFrames;
    new ResizeObserver(() => this.fit()).observe(this.stage);
    this.handle = find("split-handle");
    this.handle.addEventListener("pointerdown", (event) => this.drag(event));
    this.handle.addEventListener("keydown", (event) => this.nudge(event));
  }

  /** Shows a frame, and the frame before the edits if the view needs one. */
  show(now, before = null, { isPlaying = false } = {}) {
    this.now = now;
    this.before = before;
    this.refuse(null);
    this.paint(isPlaying);
    if (this.isFirst) performance.mark("first picture");
    this.isFirst = false;
  }

  /** Says why there is no picture; null takes that away. */
  refuse(text, title = "This frame is refused") {
    const box = find("refusal");
    box.hidden = text === null;
    this.stage.classList.toggle("is-refused", text !== null);
    if (text === null) return;
    box.querySelector("strong").textContent = title;
    box.querySelector("p").textContent = text;
  }

  get isPaired() {
    return this.before && this.before.width === this.now.width && this.before.height === this.now.height;
  }

  paint(isPlaying = false) {
    const { now, before, view, plane } = this;
    const showsBefore = view === "pair" && before !== null;
    find("before-figure").hidden = !showsBefore;
    find("now-caption").hidden = !showsBefore;
    this.handle.hidden = !(view === "split" && this.isPaired);
    if (!now) {
      if (showsBefore) draw(this.other, toPixels(before, plane), before.width, before.height);
      this.fit();
      return;
    }
    const { width, height } = now;
    if (view === "difference" && this.isPaired) {
      draw(this.canvas, toDifference(now, before, plane, this.gain), width, height);
    } else if (view === "split" && this.isPaired) {
      draw(this.canvas, this.mixed(), width, height);
    } else if (isPlaying && this.useVideo && plane === "colour") {
      try {
        drawVideo(this.canvas, now);
      } catch {
        // A browser that takes no frames of this size: the page converts them itself.
        this.useVideo = false;
        draw(this.canvas, toPixels(now, plane), width, height);
      }
    } else {
      draw(this.canvas, toPixels(now, plane), width, height);
    }
    if (showsBefore) draw(this.other, toPixels(before, plane), before.width, before.height);
    this.fit();
  }

  /** The frame before the edits on the left of the split, and the current one on the right. */
  mixed() {
    const { width, height } = this.now;
    const pixels = toPixels(this.now, this.plane);
    const left = toPixels(this.before, this.plane);
    const column = Math.round(this.split * width);
    for (let row = 0; row < height; row++) pixels.set(left.subarray(row * width, row * width + column), row * width);
    return pixels;
  }

  /** Gives the canvases their size on the page. */
  fit() {
    const shown = [
      this.now ? [this.canvas, this.now] : null,
      this.view === "pair" && this.before ? [this.other, this.before] : null,
    ].filter(Boolean);
    const isPair = this.view === "pair" && this.before !== null;
    const room = {
      width: (this.stage.clientWidth - (isPair ? 36 : 24)) / (isPair ? 2 : 1),
      height: this.stage.clientHeight - (isPair ? 46 : 24),
    };
    for (const [canvas, { width, height }] of shown) {
      const scale = scaleOf(this.size, width, height, room);
      canvas.style.width = `${Math.max(1, Math.round(width * scale))}px`;
      canvas.style.height = `${Math.max(1, Math.round(height * scale))}px`;
      canvas.style.imageRendering = scale >= 1 ? "pixelated" : "auto";
    }
    this.handle.style.left = `${this.split * 100}%`;
    this.onfit();
  }

  setSplit(split) {
    this.split = Math.max(0, Math.min(1, split));
    this.handle.setAttribute("aria-valuenow", Math.round(this.split * 100));
    this.paint();
  }

  drag(event) {
    event.preventDefault();
    drag(this.handle, event, (moved) => {
      const box = this.canvas.getBoundingClientRect();
      this.setSplit((moved.clientX - box.left) / box.width);
    });
  }

  nudge(event) {
    const step = { ArrowLeft: -0.01, ArrowRight: 0.01, Home: -1, End: 1 }[event.key];
    if (step === undefined) return;
    event.preventDefault();
    event.stopPropagation();
    this.setSplit(this.split + step);
  }
}
