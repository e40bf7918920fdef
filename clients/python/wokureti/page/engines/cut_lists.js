// Lists of cuts as LosslessCut has them, CSV: a line for each part, with its beginning and its end in seconds, and a
// label. What is empty is the beginning or the end of the stream.

import { nodesFor } from "../shots.js";

const CLOCK = /^(?:(?:(\d+):)?(\d+):)?(\d+(?:\.\d*)?)$/;
const FORM = "a line has a beginning, an end and a label, in seconds, for example 70.5,842.2,a title";

/** Microseconds as seconds. */
function secondsText(micro) {
  return `${Math.floor(micro / 1e6)}.${String(micro % 1e6).padStart(6, "0")}`;
}

/** The list of shots of source 0. `begins` has the microseconds at which each of its frames begins, and at which the
 * last one ends. */
export function textOf(shots, begins) {
  const rows = shots.map(({ source, first, count }) => {
    if (source) throw new Error(`the script shows frames of source ${source}, and a list of cuts is of one stream`);
    return `${secondsText(Math.ceil(begins[first]))},${secondsText(Math.floor(begins[first + count]))},\n`;
  });
  return rows.join("");
}

function microOf(cell, line) {
  const found = CLOCK.exec(cell);
  if (!found) throw new Error(`the list: line ${line}: '${cell}' is not a time: ${FORM}`);
  const [hours, minutes, seconds] = found.slice(1).map((part) => Number(part || 0));
  return Math.round((3600 * hours + 60 * minutes + seconds) * 1e6);
}

/** The script that shows the parts of a list: from the frame that is shown at their beginnings to the one that begins
 * at their ends or later. */
export function scriptOf(text, begins) {
  const count = begins.length - 1;
  const parts = [];
  for (const [place, row] of text.replace(/^\ufeff/, "").split(/\r?\n/).entries()) {
    if (!row.trim()) continue;
    const cells = row.split(",").map((cell) => cell.trim().replace(/^"(.*)"$/, "$1"));
    if (cells.length < 2) throw new Error(`the list: line ${place + 1} has no \`,\`: ${FORM}`);
    const [start, end] = cells.slice(0, 2).map((cell) => (cell ? microOf(cell, place + 1) : null));
    const first = start === null ? 0 : begins.slice(1).findIndex((after) => after > start);
    const stop = end === null ? count : begins.slice(0, -1).findIndex((begin) => begin >= end);
    const last = stop < 0 ? count : stop;
    if (first < 0 || first >= last)
      throw new Error(
        `there is no frame from ${cells[0] || "the beginning"} to ${cells[1] || "the end"}: the stream has ` +
          `${count.toLocaleString("en")} frames`,
      );
    parts.push({ source: 0, first, count: last - first, fadeIn: 0, fadeOut: 0 });
  }
  if (!parts.length) throw new Error("the list has no line with a part");
  return nodesFor(parts, [count]).join("; ") || "-";
}
