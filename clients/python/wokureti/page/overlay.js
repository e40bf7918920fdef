// The overlay: a fact of each macroblock, drawn over the picture.

import { bitsOf } from "./records.js";

const ALPHA = 0.55;
// Colours that stay apart for people who confuse red and green (after Okabe and Ito).
const ORANGE = "#e69f00";
const SKY = "#56b4e9";
const GREEN = "#009e73";
const YELLOW = "#f0e442";
const BLUE = "#0072b2";
const RED = "#d55e00";
const PINK = "#cc79a7";
const GREY = "#999999";
const WHITE = "#f2f2f2";
const BLACK = "#222222";

export const LUMA = {
  DC_PRED: GREY,
  V_PRED: YELLOW,
  H_PRED: ORANGE,
  TM_PRED: PINK,
  B_PRED: RED,
  mv_zero: BLACK,
  mv_nearest: SKY,
  mv_near: GREEN,
  mv_new: BLUE,
  mv_split: WHITE,
};
export const REFERENCE = { intra: RED, last: SKY, golden: YELLOW, altref: PINK };
const SEGMENT = [SKY, YELLOW, RED, PINK];

/** A colour between dark blue and yellow for a part from 0 to 1. */
export function heat(part) {
  const steps = [
    [24, 28, 92],
    [96, 40, 140],
    [190, 60, 110],
    [240, 130, 50],
    [252, 232, 90],
  ];
  const at = Math.max(0, Math.min(1, part)) * (steps.length - 1);
  const low = Math.min(steps.length - 2, Math.floor(at));
  const mix = (place) => Math.round(steps[low][place] + (at - low) * (steps[low + 1][place] - steps[low][place]));
  return `rgb(${mix(0)},${mix(1)},${mix(2)})`;
}

/** An overlay of names: the colour of each, and how many macroblocks have it. */
function byName(nameOf, colours) {
  return {
    colour: (record) => colours[nameOf(record)],
    legend: (records) => Object.keys(colours).map((name) => [
      colours[name],
      name,
      records.filter((record) => String(nameOf(record)) === name).length,
    ]),
  };
}

/** An overlay of numbers: from the least to the greatest. */
function byNumber(valueOf, most) {
  return {
    colour: (record, limits) => heat(valueOf(record) / limits.most),
    limits: (records) => ({ most: most ?? Math.max(1, ...records.map(valueOf)) }),
    text: (record) => String(valueOf(record)),
    legend: (records) => {
      const values = records.map(valueOf);
      const [low, high] = [Math.min(...values), Math.max(...values)];
      const top = most ?? Math.max(1, high);
      return low === high
        ? [[heat(low / top), String(low), values.length]]
        : [[heat(low / top), `${low} (least)`, null], [heat(high / top), `${high} (greatest)`, null]];
    },
  };
}

export const OVERLAYS = {
  luma: { name: "luma mode", ...byName((record) => record.luma, LUMA) },
  reference: { name: "reference", ...byName((record) => record.reference, REFERENCE) },
  vectors: {
    name: "vectors",
    draw: drawVectors,
    legend: (records) => Object.keys(REFERENCE)
      .slice(1)
      .map((name) => [REFERENCE[name], `from ${name}`, records.filter((record) => record.reference === name).length]),
  },
  segment: { name: "segment", ...byName((record) => record.segment, Object.fromEntries(SEGMENT.entries())) },
  quantizer: { name: "quantizer index", ...byNumber((record) => record.quantizer, 127) },
  level: { name: "loop filter level", ...byNumber((record) => record.level, 63) },
  bits: { name: "bits", ...byNumber(bitsOf) },
  edges: {
    name: "skipped, and filtered edges",
    draw: drawEdges,
    legend: (records) => [
      [BLACK, "skipped", records.filter((record) => record.skip).length],
      [YELLOW, "edges filtered", records.filter((record) => record.level).length],
      [SKY, "inner edges too", records.filter((record) => record.inner).length],
    ],
  },
};

/** Draws one line of a vector, from the middle of its block to where it points. A sample has `scale` pixels. */
function arrow(context, x, y, [right, down], scale) {
  const [dx, dy] = [(right / 4) * scale, (down / 4) * scale];
  const long = Math.hypot(dx, dy);
  context.beginPath();
  context.moveTo(x, y);
  context.lineTo(x + dx, y + dy);
  if (long > 6) {
    const turn = Math.atan2(dy, dx);
    for (const side of [-0.4, 0.4]) {
      context.moveTo(x + dx, y + dy);
      context.lineTo(x + dx - 5 * Math.cos(turn + side), y + dy - 5 * Math.sin(turn + side));
    }
  }
  context.stroke();
  context.fillRect(x - 1, y - 1, 2, 2);
}

function drawVectors(context, records, scale) {
  for (const record of records) {
    if (!record.vector) continue;
    context.strokeStyle = context.fillStyle = REFERENCE[record.reference];
    const [x, y] = [record.column * 16 * scale, record.row * 16 * scale];
    if (record.parts) {
      record.parts.forEach((vector, place) =>
        arrow(context, x + (4 * (place % 4) + 2) * scale, y + (4 * (place >> 2) + 2) * scale, vector, scale),
      );
    } else {
      arrow(context, x + 8 * scale, y + 8 * scale, record.vector, scale);
    }
  }
}

function drawEdges(context, records, scale) {
  const side = 16 * scale;
  for (const record of records) {
    const [x, y] = [record.column * side, record.row * side];
    if (record.skip) {
      context.fillStyle = "rgba(0,0,0,0.5)";
      context.fillRect(x, y, side, side);
    }
    if (record.inner) {
      context.fillStyle = SKY;
      for (let edge = 4; edge < 16; edge += 4) {
        context.fillRect(x + edge * scale, y, 1, side);
        context.fillRect(x, y + edge * scale, side, 1);
      }
    }
    if (record.level) {
      context.fillStyle = YELLOW;
      // No edge of the frame is filtered.
      if (record.column) context.fillRect(x, y, 1, side);
      if (record.row) context.fillRect(x, y, side, 1);
    }
  }
}

/** Draws an overlay of records on a canvas as large as the picture on the page. */
export function draw(canvas, kind, records, { width, height }, box, chosen) {
  const density = devicePixelRatio || 1;
  canvas.width = Math.max(1, Math.round(box.width * density));
  canvas.height = Math.max(1, Math.round(box.height * density));
  canvas.style.width = `${box.width}px`;
  canvas.style.height = `${box.height}px`;
  const context = canvas.getContext("2d");
  context.setTransform(density, 0, 0, density, 0, 0);
  context.clearRect(0, 0, box.width, box.height);
  const scale = box.width / width;
  const overlay = OVERLAYS[kind];
  if (overlay?.draw) {
    overlay.draw(context, records.macroblocks, scale);
  } else if (overlay) {
    drawCells(context, overlay, records.macroblocks, scale);
  }
  if (chosen) {
    const side = 16 * scale;
    const [x, y] = [chosen.column * side, chosen.row * side];
    const size = [Math.min(side, width * scale - x), Math.min(side, height * scale - y)];
    context.strokeStyle = "#000";
    context.strokeRect(x + 0.5, y + 0.5, size[0] - 1, size[1] - 1);
    context.strokeStyle = "#fff";
    context.strokeRect(x + 1.5, y + 1.5, size[0] - 3, size[1] - 3);
  }
}

function drawCells(context, overlay, macroblocks, scale) {
  const side = 16 * scale;
  const limits = overlay.limits?.(macroblocks);
  context.globalAlpha = ALPHA;
  for (const record of macroblocks) {
    context.fillStyle = overlay.colour(record, limits);
    // Cells meet without a gap whatever the scale.
    const [x, y] = [Math.round(record.column * side), Math.round(record.row * side)];
    context.fillRect(x, y, Math.round((record.column + 1) * side) - x, Math.round((record.row + 1) * side) - y);
  }
  context.globalAlpha = 1;
  if (!overlay.text || side < 22) return;
  context.font = "10px sans-serif";
  context.textAlign = "center";
  context.textBaseline = "middle";
  context.lineWidth = 2.5;
  context.strokeStyle = "#000a";
  context.fillStyle = "#fff";
  for (const record of macroblocks) {
    const where = [(record.column + 0.5) * side, (record.row + 0.5) * side];
    context.strokeText(overlay.text(record), ...where);
    context.fillText(overlay.text(record), ...where);
  }
  context.lineWidth = 1;
}
