// What both lanes of the timeline do: the frames that are shown, and the packets of a source. Each has a window that is
// zoomed and moved, goes to what is pressed, and selects what is dragged over.

import { drag } from "./elements.js";
import { theme } from "./kinds.js";
import { Window } from "./window.js";

// Pixels within which an edge of the selection is dragged, within which a boundary snaps, and up to which a press is
// not a drag.
const EDGE = 5;
const SNAP = 6;
const STILL = 3;

export class Lane {
  /** `name` is that of the lane in the model. The first one of the canvases is in the box. */
  constructor(model, name, box, canvases) {
    Object.assign(this, { model, name, box, canvases });
    this.canvas = canvases[0];
    this.window = new Window();
    this.theme = theme();
    this.isAll = true;
    this.isHeld = false;
    matchMedia("(prefers-color-scheme: dark)").addEventListener("change", () => {
      this.theme = theme();
      this.redraw();
    });
    new ResizeObserver(() => this.resize()).observe(box);
    model.addEventListener("lane", () => box.classList.toggle("is-active", model.lane === name));
    box.addEventListener("focus", () => model.activate(name));
    box.addEventListener("wheel", (event) => this.wheel(event), { passive: false });
    box.addEventListener("pointerdown", (event) => this.press(event));
  }

  resize() {
    const ratio = devicePixelRatio || 1;
    for (const canvas of this.canvases) {
      canvas.width = Math.round(canvas.clientWidth * ratio);
      canvas.height = Math.round(canvas.clientHeight * ratio);
    }
    this.window.width = Math.max(1, this.canvas.clientWidth);
    if (this.isAll) this.window.all();
    this.window.clamp();
    this.redraw();
  }

  /** There are so many items now. */
  recount(count) {
    const isNew = this.window.count === 0;
    this.window.count = count;
    if (this.isAll || isNew) this.window.all();
    this.window.clamp();
  }

  zoom(factor, pixel = this.window.pixelOf(this.current + 0.5)) {
    const inside = pixel >= 0 && pixel <= this.window.width ? pixel : this.window.width / 2;
    this.window.zoom(factor, inside);
    this.isAll = this.window.scale <= this.window.least * 1.0001;
    this.viewed();
  }

  zoomAll() {
    this.isAll = true;
    this.window.all();
    this.viewed();
  }

  /** Shows these items: the first one, and the pixels of each. */
  setView(from, scale) {
    this.isAll = false;
    this.window.scale = scale;
    this.window.from = from;
    this.window.clamp();
    this.redraw();
  }

  viewed() {
    this.redraw();
    this.onview?.();
  }

  wheel(event) {
    event.preventDefault();
    const unit = event.deltaMode === 1 ? 16 : event.deltaMode === 2 ? 120 : 1;
    const across = event.shiftKey ? event.deltaY : event.deltaX;
    if (Math.abs(across) > Math.abs(event.shiftKey ? 0 : event.deltaY)) {
      this.window.pan(across * unit);
      this.viewed();
      return;
    }
    this.zoom(Math.exp((-event.deltaY * unit) / 300), this.pixel(event));
  }

  pixel(event, element = this.canvas) {
    return event.clientX - element.getBoundingClientRect().left;
  }

  height(event) {
    return event.clientY - this.canvas.getBoundingClientRect().top;
  }

  itemAt(event) {
    return Math.max(0, Math.min(this.window.count - 1, this.window.packetAt(this.pixel(event))));
  }

  /** The edge of the selection at a point: the name of the other one, which stays; or null. */
  edgeAt(event) {
    const { selection } = this;
    if (!selection || this.isRuler(event)) return null;
    const far = (item) => Math.abs(this.window.pixelOf(item) - this.pixel(event));
    if (Math.min(far(selection.first), far(selection.end)) > EDGE) return null;
    return far(selection.first) < far(selection.end) ? "end" : "first";
  }

  /** A click goes there; a drag selects, or moves an edge of the selection; on the numbers it goes along. */
  press(event) {
    if (event.button !== 0 || !this.window.count) return;
    this.model.activate(this.name);
    this.box.focus({ focusVisible: false });
    const { selection } = this;
    const isRuler = this.isRuler(event);
    const start = this.itemAt(event);
    const edge = event.shiftKey ? null : this.edgeAt(event);
    const from = event.shiftKey ? (selection ? selection.first : this.current) : start;
    const begun = event.clientX;
    let isDragged = event.shiftKey;
    this.isHeld = true;
    if (event.shiftKey) this.select(Math.min(from, start), Math.max(from, start) + 1);
    else if (!edge) this.go(start);
    const move = (moved) => {
      const here = this.itemAt(moved);
      if (isRuler && !event.shiftKey) {
        if (here !== this.current) this.go(here);
        return;
      }
      isDragged = isDragged || Math.abs(moved.clientX - begun) > STILL;
      if (!isDragged) return;
      if (edge) this.spread(selection[edge], this.boundaryAt(moved));
      else if (here < from) this.spread(this.snapped(here, moved), from + 1);
      else this.spread(from, Math.max(from + 1, this.snapped(here + 1, moved)));
    };
    drag(this.box, event, move, () => {
      this.isHeld = false;
      if (!isDragged && !isRuler && !edge) this.clicked();
    });
  }

  /** Selects what is between two boundaries, at least one item. */
  spread(one, other) {
    const first = Math.min(one, other, this.window.count - 1);
    this.select(first, Math.max(one, other, first + 1));
  }

  boundaryAt(event) {
    const { from, scale, count } = this.window;
    return this.snapped(Math.max(0, Math.min(count, Math.round(from + this.pixel(event) / scale))), event);
  }

  /** The boundary of a selection, or one near it at which it snaps. With Alt it stays. */
  snapped(boundary, event) {
    if (event.altKey) return boundary;
    for (let far = 0; far * this.window.scale <= SNAP; far++) {
      for (const near of [boundary - far, boundary + far]) if (this.isSnap(near)) return near;
    }
    return boundary;
  }

  /** Shows a text next to a pixel, on the side that has more room. */
  showTip(tip, text, pixel) {
    const { width } = this.window;
    tip.textContent = text;
    tip.style.left = pixel > width / 2 ? "" : `${pixel + 12}px`;
    tip.style.right = pixel > width / 2 ? `${width - pixel + 12}px` : "";
  }

  redraw() {
    if (this.asked) return;
    this.asked = requestAnimationFrame(() => {
      this.asked = 0;
      if (this.model.session) this.draw();
    });
  }

  /** A canvas to draw on in pixels of the page, with its height in these. */
  begin(canvas) {
    const ratio = canvas.width / this.window.width;
    const context = canvas.getContext("2d", { alpha: false });
    context.setTransform(ratio, 0, 0, ratio, 0, 0);
    return [context, canvas.height / ratio];
  }

  drawSelection(context, height) {
    const { selection, window, theme: colours } = this;
    if (!selection) return;
    const left = window.pixelOf(selection.first);
    const right = Math.max(left + 1, window.pixelOf(selection.end));
    context.fillStyle = colours.selection;
    context.fillRect(left, 0, right - left, height);
    context.fillStyle = colours.accent;
    context.fillRect(left - 0.5, 0, 1.5, height);
    context.fillRect(right - 1, 0, 1.5, height);
  }

  drawCursor(context, from, end, arrow) {
    const { window, theme: colours } = this;
    const left = window.pixelOf(this.current);
    const middle = left + Math.max(1, window.scale) / 2;
    context.fillStyle = colours.cursor;
    context.globalAlpha = 0.14;
    if (window.scale > 2) context.fillRect(left, from, window.scale, end - from);
    context.globalAlpha = 1;
    context.fillRect(Math.round(middle) - 0.5, from, 1.5, end - from);
    polygon(context, arrow.map(([x, y]) => [middle + x, y]));
  }
}

export function polygon(context, points) {
  context.beginPath();
  for (const point of points) context.lineTo(...point);
  context.fill();
}
