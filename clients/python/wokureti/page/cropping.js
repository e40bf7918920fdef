// A rectangle is drawn on the picture, and the script crops all frames to it.

import { ask } from "./ask.js";
import { drag, find } from "./elements.js";
import { nodesIn } from "./script.js";

// Pixels that a pointer moves at least.
const LEAST = 4;

/** The samples between two positions of a picture: column and row are even, since chroma has half as many. */
export function rectangle(one, other, { width, height }) {
  const within = (value, most) => Math.max(0, Math.min(most, Math.round(value)));
  const [left, right] = [within(Math.min(one.x, other.x), width - 1) & ~1, within(Math.max(one.x, other.x), width)];
  const [top, bottom] = [within(Math.min(one.y, other.y), height - 1) & ~1, within(Math.max(one.y, other.y), height)];
  return { x: left, y: top, width: Math.max(1, right - left), height: Math.max(1, bottom - top) };
}

/** The nodes of a script that crops what this one shows. */
export function cropped(script, { x, y, width, height }) {
  const nodes = nodesIn(script);
  return [...nodes, `crop ${nodes.length} ${x} ${y} ${width} ${height}`];
}

export class Cropping {
  constructor(model, cutting, picture, status) {
    Object.assign(this, { model, cutting, picture, status, isOn: false });
    // A click of the keyboard has no detail: then the numbers are typed.
    find("crop").addEventListener("click", (event) => (event.detail || this.isOn ? this.toggle() : this.type()));
    picture.canvas.addEventListener("pointerdown", (event) => this.begin(event));
    document.addEventListener("keydown", (event) => {
      if (event.key === "Escape" && this.isOn) this.toggle(false);
    });
  }

  /** Whether a rectangle is drawn with the pointer. */
  toggle(isOn = !this.isOn) {
    this.isOn = isOn && Boolean(this.picture.now);
    find("crop").setAttribute("aria-pressed", String(this.isOn));
    this.picture.canvas.style.cursor = this.isOn ? "crosshair" : "";
    find("crop-box").hidden = true;
    if (this.isOn) this.status.say("draw a rectangle on the picture; Escape leaves it");
  }

  type() {
    const { now } = this.picture;
    if (now) this.take({ x: 0, y: 0, width: now.width, height: now.height });
  }

  position(event) {
    const box = this.picture.canvas.getBoundingClientRect();
    const { width, height } = this.picture.now;
    return {
      x: ((event.clientX - box.left) / box.width) * width,
      y: ((event.clientY - box.top) / box.height) * height,
    };
  }

  begin(event) {
    if (!this.isOn || !this.picture.now || event.button) return;
    event.stopPropagation();
    event.preventDefault();
    const { canvas } = this.picture;
    const start = this.position(event);
    const [x, y] = [event.clientX, event.clientY];
    const move = (moved) => this.draw(rectangle(start, this.position(moved), this.picture.now));
    drag(canvas, event, move, (ended) => {
      const isDrawn = ended.type === "pointerup" && Math.hypot(ended.clientX - x, ended.clientY - y) >= LEAST;
      if (isDrawn) this.take(rectangle(start, this.position(ended), this.picture.now));
      else this.toggle(false);
    });
  }

  draw({ x, y, width, height }) {
    const { now, canvas } = this.picture;
    const box = find("crop-box");
    const [across, down] = [canvas.clientWidth / now.width, canvas.clientHeight / now.height];
    Object.assign(box.style, {
      left: `${canvas.offsetLeft + x * across}px`,
      top: `${canvas.offsetTop + y * down}px`,
      width: `${width * across}px`,
      height: `${height * down}px`,
    });
    box.hidden = false;
  }

  /** Asks whether these are the samples, and sets the script. */
  async take(found) {
    const { width, height } = this.picture.now;
    const fields = [
      { name: "x", label: "Column, even", value: found.x, most: width - 1, step: 2 },
      { name: "y", label: "Row, even", value: found.y, most: height - 1, step: 2 },
      { name: "width", label: "Width", value: found.width, most: width },
      { name: "height", label: "Height", value: found.height, most: height },
    ];
    const given = await ask(
      "Crop all frames",
      "Crop",
      fields,
      "The script crops what is shown; no packet is changed. Export then codes all frames again.",
    );
    this.toggle(false);
    if (!given) return;
    const { x, y, width: wide, height: high } = given;
    await this.cutting.set(
      cropped(this.model.session.script, { x, y, width: wide, height: high }),
      `${wide}x${high} samples of each frame are shown`,
      this.model.frame,
    );
  }
}
