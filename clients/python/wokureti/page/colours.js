// YCbCr of ITU-R BT.601 in limited range to red, green and blue, in integers: the bytes are those of `wokureti png`.

import { sizeOf } from "./engine.js";

const SHIFT = 16;
const RED = 0.299;
const BLUE = 0.114;
const GREEN = 1 - RED - BLUE;

// Python's round: a half goes to the even number.
function rounded(value) {
  const low = Math.floor(value);
  const part = value - low;
  if (part !== 0.5) return Math.round(value);
  return low % 2 === 0 ? low : low + 1;
}

function table(term) {
  return Int32Array.from({ length: 256 }, (_, value) => term(value));
}

const one = 1 << SHIFT;
const perLuma = (255 / 219) * one;
const perChroma = (255 / 224) * one;
export const LUMA = table((value) => rounded((value - 16) * perLuma) + (one >> 1));
export const RED_OF_CR = table((value) => rounded((value - 128) * perChroma * 2 * (1 - RED)));
export const GREEN_OF_CR = table((value) => rounded((-(value - 128) * perChroma * 2 * (1 - RED) * RED) / GREEN));
export const GREEN_OF_CB = table((value) => rounded((-(value - 128) * perChroma * 2 * (1 - BLUE) * BLUE) / GREEN));
export const BLUE_OF_CB = table((value) => rounded((value - 128) * perChroma * 2 * (1 - BLUE)));

// Values lie between -LOW and 1000 before they are clamped.
const LOW = 600;
const CLAMPED = Uint8Array.from({ length: 1600 }, (_, value) => Math.max(0, Math.min(255, value - LOW)));

/** The three planes of a frame: samples, width and height of each. */
export function planes({ width, height, samples }) {
  const across = (width + 1) >> 1;
  const down = (height + 1) >> 1;
  const luma = width * height;
  const chroma = across * down;
  return {
    y: { samples: samples.subarray(0, luma), width, height },
    u: { samples: samples.subarray(luma, luma + chroma), width: across, height: down },
    v: { samples: samples.subarray(luma + chroma, sizeOf(width, height)), width: across, height: down },
  };
}

/** The red, green and blue of one sample. */
export function colourOf(y, u, v) {
  return [
    CLAMPED[((LUMA[y] + RED_OF_CR[v]) >> SHIFT) + LOW],
    CLAMPED[((LUMA[y] + GREEN_OF_CR[v] + GREEN_OF_CB[u]) >> SHIFT) + LOW],
    CLAMPED[((LUMA[y] + BLUE_OF_CB[u]) >> SHIFT) + LOW],
  ];
}

/** A frame in colour, as pixels of 32 bits. Two samples of luma in a row have one of each chroma plane. */
export function toColour(frame) {
  const { width, height } = frame;
  const { y, u, v } = planes(frame);
  const out = new Uint32Array(width * height);
  for (let row = 0; row < height; row++) {
    let chroma = (row >> 1) * u.width;
    const end = (row + 1) * width;
    for (let place = row * width; place < end; chroma++) {
      const cb = u.samples[chroma];
      const cr = v.samples[chroma];
      const red = RED_OF_CR[cr];
      const green = GREEN_OF_CR[cr] + GREEN_OF_CB[cb];
      const blue = BLUE_OF_CB[cb];
      for (const stop = Math.min(end, place + 2); place < stop; place++) {
        const light = LUMA[y.samples[place]];
        out[place] =
          (255 << 24) |
          (CLAMPED[((light + blue) >> SHIFT) + LOW] << 16) |
          (CLAMPED[((light + green) >> SHIFT) + LOW] << 8) |
          CLAMPED[((light + red) >> SHIFT) + LOW];
      }
    }
  }
  return out;
}

function grey(value) {
  return (255 << 24) | (value << 16) | (value << 8) | value;
}

/** One plane in grey, each chroma sample as large as the luma samples that it covers. */
export function toPlane(frame, name) {
  const { width, height } = frame;
  const plane = planes(frame)[name];
  const half = name === "y" ? 0 : 1;
  const out = new Uint32Array(width * height);
  for (let row = 0, place = 0; row < height; row++) {
    const start = (row >> half) * plane.width;
    for (let column = 0; column < width; column++, place++) out[place] = grey(plane.samples[start + (column >> half)]);
  }
  return out;
}

/** A frame as pixels: in colour, or one plane of it. */
export function toPixels(frame, plane) {
  return plane === "colour" ? toColour(frame) : toPlane(frame, plane);
}

/** The difference of two frames of one size times a number, in grey: of one plane, or the greatest of the three. */
export function toDifference(frame, other, plane, gain) {
  const { width, height } = frame;
  const [mine, theirs] = [planes(frame), planes(other)];
  const names = plane === "colour" ? ["y", "u", "v"] : [plane];
  const out = new Uint32Array(width * height);
  for (let row = 0, place = 0; row < height; row++) {
    for (let column = 0; column < width; column++, place++) {
      let most = 0;
      for (const name of names) {
        const half = name === "y" ? 0 : 1;
        const index = (row >> half) * mine[name].width + (column >> half);
        most = Math.max(most, Math.abs(mine[name].samples[index] - theirs[name].samples[index]));
      }
      out[place] = grey(Math.min(255, most * gain));
    }
  }
  return out;
}

/** Of two frames of one size: for each plane the PSNR (Infinity if they are the same), and the number of samples that
 * differ. */
export function compared(frame, other) {
  const [mine, theirs] = [planes(frame), planes(other)];
  const psnr = {};
  let differing = 0;
  for (const name of ["y", "u", "v"]) {
    const [one, two] = [mine[name].samples, theirs[name].samples];
    let sum = 0;
    for (let place = 0; place < one.length; place++) {
      const difference = one[place] - two[place];
      if (difference) {
        differing++;
        sum += difference * difference;
      }
    }
    psnr[name] = sum ? 10 * Math.log10((255 * 255 * one.length) / sum) : Infinity;
  }
  return { psnr, differing, samples: frame.samples.length };
}
