// The programme: the frames that are shown, in their order. Its selection is of frames, whatever packets they are of.

import { drag, find } from "./elements.js";
import { Lane, polygon } from "./lane.js";
import { MOST_NODES, lengthOf, nodesFor, shotsOf } from "./shots.js";
import { timeText } from "./times.js";
import { stepOf } from "./window.js";

// Pixels of the numbers and of the band of shots; around a handle of a fade; of the narrowest shot that has handles.
const RULER = 16;
const BAND = 18;
const NEAR = 7;
const LEAST = 30;
// The colours of sources: letters of `theme`.
const COLOURS = ["i", "f", "h", "k", "p", "d", "l", "r"];

/** Where each shot begins and ends, in pixels of a window. */
export function blocksOf(shots, window) {
  let at = 0;
  return shots.map((shot) => {
    const left = window.pixelOf(at);
    at += shot.count;
    return { shot, left, right: window.pixelOf(at) };
  });
}

/** The handle near a pixel: the number of the block, and which of its fades; or null. */
export function handleAt(blocks, x) {
  let found = null;
  let least = NEAR + 1;
  blocks.forEach(({ shot, left, right }, block) => {
    if (right - left < LEAST) return;
    const wide = (right - left) / shot.count;
    for (const [name, place] of [["fadeIn", left + shot.fadeIn * wide], ["fadeOut", right - shot.fadeOut * wide]]) {
      // The handles of blocks that are next to each other are inside their own.
      const far = Math.abs(x - Math.min(right - 4, Math.max(left + 4, place)));
      if (far < least) [found, least] = [{ block, name }, far];
    }
  });
  return found;
}

/** The frames of a fade whose handle is dragged to a pixel. */
export function fadeAt({ shot, left, right }, name, x) {
  const wide = (right - left) / shot.count;
  const wanted = Math.round((name === "fadeIn" ? x - left : right - x) / wide);
  return Math.max(0, Math.min(shot.count - (name === "fadeIn" ? shot.fadeOut : shot.fadeIn), wanted));
}

export class Programme extends Lane {
  constructor(model, editing, status) {
    super(model, "programme", find("programme"), [find("programme-canvas")]);
    Object.assign(this, { editing, status });
    this.shots = [];
    // The first frame of each shot, and after the last one the number of frames.
    this.starts = [0];
    this.isAllShots = true;
    this.dragged = null;
    model.addEventListener("session", () => this.follow());
    for (const name of ["frame", "packet"]) model.addEventListener(name, () => this.moved());
    model.addEventListener("range", () => this.redraw());
    this.box.addEventListener("pointermove", (event) => this.hover(event));
    this.box.addEventListener("pointerleave", () => (find("frame-tip").hidden = true));
  }

  get current() {
    return this.model.frame;
  }

  get selection() {
    return this.model.range;
  }

  select(first, end) {
    this.model.selectFrames(first, end);
  }

  go(frame) {
    this.model.go(frame).catch(() => {});
  }

  /** A click keeps the selection: frames are moved to where a click goes. */
  clicked() {}

  isRuler(event) {
    return this.height(event) < RULER;
  }

  /** A selection snaps at joins, at both ends, and at the current frame. */
  isSnap(frame) {
    return frame === this.model.frame || this.starts.includes(frame);
  }

  follow() {
    const { script, source_frames: frames } = this.model.session;
    if (!this.dragged) this.use(shotsOf(script, frames));
    this.recount(this.model.frames);
    this.moved();
  }

  use({ shots, isAll }) {
    Object.assign(this, { shots, isAllShots: isAll });
    this.starts = [0];
    for (const { count } of shots) this.starts.push(this.starts.at(-1) + count);
  }

  /** The number of the shot of a frame, or -1. */
  shotOf(frame) {
    return this.starts.findLastIndex((start, place) => start <= frame && place < this.shots.length);
  }

  /** The source and the frame of it that a frame shows. */
  at(frame) {
    const place = this.shotOf(frame);
    if (place < 0) return null;
    const { source, first } = this.shots[place];
    return {
      source,
      number: first + frame - this.starts[place],
      from: this.starts[place],
      end: this.starts[place + 1],
    };
  }

  moved() {
    const { model, box } = this;
    if (model.isPlaying) this.window.follow(model.frame);
    else if (!this.isHeld) this.window.reveal(model.frame);
    box.setAttribute("aria-valuemax", Math.max(0, model.frames - 1));
    box.setAttribute("aria-valuenow", model.frame);
    box.setAttribute(
      "aria-valuetext",
      `frame ${model.frame} of ${model.frames}, ${timeText(model.frame, model.rate, model.times)}`,
    );
    this.redraw();
  }

  get blocks() {
    return blocksOf(this.shots, this.window);
  }

  /** The handle of a fade at a point of the band of shots. */
  handle(event) {
    return this.isAllShots && this.height(event) > this.box.clientHeight - BAND
      ? handleAt(this.blocks, this.pixel(event))
      : null;
  }

  /** A handle is dragged. */
  press(event) {
    const handle = event.button === 0 && this.model.frames ? this.handle(event) : null;
    if (!handle) {
      super.press(event);
      return;
    }
    this.model.activate(this.name);
    const move = (moved) => {
      const frames = fadeAt(this.blocks[handle.block], handle.name, this.pixel(moved));
      this.dragged = handle;
      this.shots = this.shots.map((shot, place) =>
        (place === handle.block ? { ...shot, [handle.name]: frames } : shot),
      );
      this.status.say(`fade ${handle.name === "fadeIn" ? "in" : "out"}: ${frames} frames`);
      this.redraw();
    };
    drag(this.box, event, move, () => {
      const { dragged, shots } = this;
      this.dragged = null;
      if (dragged) this.fade(shots, dragged).catch(() => this.follow());
    });
  }

  /** Sets the script that shows these shots. */
  async fade(shots, { block, name }) {
    const { session } = this.model;
    const nodes = nodesFor(shots, session.source_frames);
    if (nodes.length > MOST_NODES) {
      this.status.say(`a script has ${MOST_NODES} nodes at most, and this one would have ${nodes.length}`);
      this.follow();
      return;
    }
    const line = `script ${nodes.join("; ") || "-"}`;
    const frames = shots[block][name];
    const side = name === "fadeIn" ? "in" : "out";
    const said = `shot ${block + 1} ${frames ? `fades ${side} in ${frames} frames` : `does not fade ${side}`}`;
    if (line === `script ${session.script}` || !(await this.editing.make([line], said))) this.follow();
  }

  hover(event) {
    const tip = find("frame-tip");
    const frame = this.window.packetAt(this.pixel(event));
    const found = this.model.session ? this.at(frame) : null;
    tip.hidden = !found || frame >= this.model.frames;
    const handle = this.handle(event);
    this.box.style.cursor = handle || this.dragged || this.edgeAt(event) ? "ew-resize" : "";
    if (tip.hidden) return;
    const { source, number } = found;
    const { names } = this.model.session;
    const of = source === 0 && number === frame
      ? ""
      : ` · frame ${number} of ${names.length > 1 ? `source ${source}` : names[0]}`;
    const time = timeText(frame, this.model.rate, this.model.times);
    const fade = handle && `Drag: fade ${handle.name === "fadeIn" ? "in" : "out"}`;
    this.showTip(tip, fade ?? `frame ${frame} · ${time}${of}`, this.pixel(event));
  }

  draw() {
    const { window, theme: colours, canvas } = this;
    const [context, height] = this.begin(canvas);
    context.fillStyle = colours.back;
    context.fillRect(0, 0, window.width, height);
    canvas.dataset.shots = this.shots.length;
    canvas.dataset.selection = this.selection ? `${this.selection.first} ${this.selection.end}` : "";
    if (!window.count) return;
    const tall = this.waves?.tall(height) ?? 0;
    this.thumbs?.draw(context, RULER, height - BAND - RULER - tall);
    this.waves?.draw(context, height - BAND - tall, tall);
    this.drawNumbers(context);
    this.blocks.forEach((block, place) => {
      if (block.right > 0 && block.left < window.width) this.drawBlock(context, block, place, height);
    });
    this.drawSelection(context, height);
    this.drawCursor(context, 0, height, [[-6, 0], [6, 0], [0, 8]]);
    this.thumbs?.soon();
    this.waves?.soon();
  }

  drawNumbers(context) {
    const { window, theme: colours } = this;
    const step = stepOf(70 / window.scale);
    context.font = "11px system-ui, sans-serif";
    context.textAlign = "left";
    for (
      let frame = Math.ceil(Math.max(0, window.from) / step) * step;
      frame < Math.min(window.count, window.from + window.span);
      frame += step
    ) {
      const left = window.pixelOf(frame);
      context.fillStyle = colours["line-strong"];
      context.fillRect(Math.round(left), 0, 1, RULER);
      context.fillStyle = colours.muted;
      context.fillText(frame.toLocaleString("en"), left + 4, RULER - 4);
    }
  }

  drawBlock(context, block, place, height) {
    const { shot, left, right } = block;
    const colours = this.theme;
    const [from, end] = [Math.max(-9, left), Math.min(this.window.width + 9, right)];
    const [top, wide] = [height - BAND, Math.max(1, end - from - 1)];
    context.fillStyle = colours[COLOURS[shot.source % COLOURS.length]];
    context.globalAlpha = 0.55;
    context.fillRect(from, top + 1, wide, BAND - 1);
    context.globalAlpha = 1;
    const scale = (right - left) / shot.count;
    // What is dark of a fade.
    context.fillStyle = "#000000b0";
    for (const [one, other] of [[left, left + shot.fadeIn * scale], [right - 1, right - 1 - shot.fadeOut * scale]]) {
      polygon(context, [[one, RULER], [other, RULER], [one, height]]);
    }
    if (place) {
      context.fillStyle = colours.edit;
      context.fillRect(left - 1, RULER, 2, height - RULER);
      polygon(context, [[left - 5, RULER], [left + 5, RULER], [left, RULER + 6]]);
    }
    context.font = "11px system-ui, sans-serif";
    context.textAlign = "center";
    context.fillStyle = colours.text;
    const text =
      `${this.model.session.source_frames.length > 1 ? `${shot.source}: ` : ""}${shot.first} to ` +
      `${shot.first + shot.count - 1}`;
    if (context.measureText(text).width + 8 < wide) context.fillText(text, (from + end) / 2, height - 5);
    if (this.isAllShots && right - left >= LEAST) this.drawHandles(context, block, top);
  }

  drawHandles(context, { shot, left, right }, top) {
    const scale = (right - left) / shot.count;
    for (const x of [left + shot.fadeIn * scale, right - shot.fadeOut * scale]) {
      context.beginPath();
      context.arc(Math.min(right - 4, Math.max(left + 4, x)), top + 5, 3.5, 0, 2 * Math.PI);
      context.fillStyle = this.theme.cursor;
      context.fill();
      context.strokeStyle = this.theme.back;
      context.lineWidth = 1;
      context.stroke();
    }
  }
}
