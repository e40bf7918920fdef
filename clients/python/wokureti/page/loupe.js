// The loupe: the samples around a position, enlarged, and the three values there.

import { colourOf, planes } from "./colours.js";
import { find } from "./elements.js";

// Samples on each side of the one in the middle, and pixels for each of them.
const AROUND = 5;
const ENLARGED = 16;

/** The three samples at a position of a frame. */
export function samplesAt(frame, x, y) {
  const { y: luma, u, v } = planes(frame);
  const chroma = (y >> 1) * u.width + (x >> 1);
  return { y: luma.samples[y * luma.width + x], u: u.samples[chroma], v: v.samples[chroma] };
}

/** What the loupe says of a position. */
export function textAt(frame, before, x, y) {
  const { y: light, u, v } = samplesAt(frame, x, y);
  const lines = [
    `x ${x}, y ${y}`,
    `Y ${light}  U ${u}  V ${v}`,
    `RGB ${colourOf(light, u, v).join(", ")}`,
    `macroblock ${x >> 4}, ${y >> 4}`,
  ];
  if (before && before.width === frame.width && before.height === frame.height) {
    const old = samplesAt(before, x, y);
    lines.splice(2, 0, `before ${old.y}  ${old.u}  ${old.v}`);
  }
  return lines.join("\n");
}

export class Loupe {
  constructor(picture) {
    this.picture = picture;
    this.isOn = false;
    // No position yet: the middle of the picture.
    this.x = null;
    this.y = null;
    picture.canvas.addEventListener("pointermove", (event) => this.point(event));
  }

  toggle(isOn = !this.isOn) {
    this.isOn = isOn;
    find("loupe-switch").setAttribute("aria-pressed", String(isOn));
    this.show();
  }

  point(event) {
    if (!this.isOn || !this.picture.now) return;
    const box = this.picture.canvas.getBoundingClientRect();
    const { width, height } = this.picture.now;
    this.x = Math.floor(((event.clientX - box.left) / box.width) * width);
    this.y = Math.floor(((event.clientY - box.top) / box.height) * height);
    this.show();
  }

  move(across, down) {
    this.x += across;
    this.y += down;
    this.show();
  }

  show() {
    const { now, before } = this.picture;
    find("loupe").hidden = !this.isOn || !now;
    if (!this.isOn || !now) return;
    this.x ??= now.width >> 1;
    this.y ??= now.height >> 1;
    this.x = Math.max(0, Math.min(now.width - 1, this.x));
    this.y = Math.max(0, Math.min(now.height - 1, this.y));
    const context = find("loupe-canvas").getContext("2d");
    context.fillStyle = "#000";
    context.fillRect(0, 0, 176, 176);
    for (let row = -AROUND; row <= AROUND; row++) {
      for (let column = -AROUND; column <= AROUND; column++) {
        const [x, y] = [this.x + column, this.y + row];
        if (x < 0 || y < 0 || x >= now.width || y >= now.height) continue;
        const { y: light, u, v } = samplesAt(now, x, y);
        context.fillStyle = `rgb(${colourOf(light, u, v).join(",")})`;
        context.fillRect((column + AROUND) * ENLARGED, (row + AROUND) * ENLARGED, ENLARGED, ENLARGED);
      }
    }
    const middle = AROUND * ENLARGED;
    context.strokeStyle = "#000";
    context.strokeRect(middle - 0.5, middle - 0.5, ENLARGED + 1, ENLARGED + 1);
    context.strokeStyle = "#fff";
    context.strokeRect(middle + 0.5, middle + 0.5, ENLARGED - 1, ENLARGED - 1);
    find("loupe-text").textContent = textAt(now, before, this.x, this.y);
  }
}
