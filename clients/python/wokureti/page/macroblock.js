// The overlay over the picture, and the macroblock under the pointer: its record, and its samples before and after the
// edits.

import { planes } from "./colours.js";
import { find, make } from "./elements.js";
import { patch } from "./kinds.js";
import { draw, OVERLAYS } from "./overlay.js";
import { RecordStore } from "./records.js";

const NAMES = {
  segment: "Segment",
  skip: "Skipped",
  reference: "Reference",
  luma: "Luma mode",
  chroma: "Chroma mode",
  split: "Split",
  parts: "Sub blocks",
  vector: "Vector",
  quantizer: "Quantizer index",
  level: "Loop filter level",
  interior_limit: "Interior limit",
  hev_threshold: "High edge variance",
  mbedge_limit: "Macroblock edge limit",
  sub_bedge_limit: "Sub block edge limit",
  inner: "Inner edges filtered",
  blocks: "Blocks with coefficients",
  coefficients: "Coefficients",
  greatest: "Greatest coefficient",
  mode_bits: "Bits of its record",
  token_bits: "Bits of its tokens",
};

/** A vector of quarter samples as samples. */
export function vectorText([x, y]) {
  return `${x / 4}, ${y / 4}`;
}

/** A member of a record as a text; lists of 16 have four to a line. */
export function valueText(name, value) {
  if (name === "skip" || name === "inner") return value ? "yes" : "no";
  if (name === "vector") return `${vectorText(value)} samples`;
  if (name === "blocks")
    return `Y ${value.slice(0, 16).replace(/(.{4})(?=.)/g, "$1 ")}\nU ${value.slice(16, 20)}  V ` +
      `${value.slice(20, 24)}  Y2 ${value.slice(24)}`;
  if (name !== "parts") return typeof value === "number" ? value.toLocaleString("en") : value;
  const parts = value.map((part) =>
    (typeof part === "string" ? part.replace(/^B_|_PRED$/g, "") : vectorText(part).replace(", ", ":")),
  );
  const width = Math.max(...parts.map((part) => part.length));
  return [0, 4, 8, 12]
    .map((first) => parts.slice(first, first + 4).map((part) => part.padStart(width)).join(" "))
    .join("\n");
}

/** The samples of a block of a plane: rows of numbers, cut off at the edge of the frame. */
export function rowsOf(plane, x, y, side) {
  const rows = [];
  for (let row = y; row < Math.min(y + side, plane.height); row++) {
    const start = row * plane.width;
    rows.push([...plane.samples.subarray(start + x, start + Math.min(x + side, plane.width))]);
  }
  return rows;
}

/** Where two blocks differ, as one text: `now`, with marks around values that are others in `before`. */
export function writeRows(place, now, before) {
  place.replaceChildren();
  now.forEach((row, down) => {
    if (down) place.append("\n");
    row.forEach((value, across) => {
      const text = String(value).padStart(across ? 4 : 3);
      place.append(before && before[down]?.[across] !== value ? make("mark", { textContent: text }) : text);
    });
  });
}

export class Macroblocks {
  constructor(model, viewer, status) {
    Object.assign(this, { model, viewer, status, kind: "none", last: "luma", records: null, column: null, row: null });
    this.store = new RecordStore(model);
    this.onchange = () => {};
    this.canvas = find("overlay-canvas");
    const select = find("overlay");
    select.append(
      new Option("no overlay", "none"),
      ...Object.entries(OVERLAYS).map(([kind, { name }]) => new Option(name, kind)),
    );
    select.addEventListener("change", () => this.choose(select.value));
    for (const name of ["frame", "session"]) model.addEventListener(name, () => this.soon());
    viewer.onshown = () => this.soon();
    viewer.picture.canvas.addEventListener("pointermove", (event) => this.point(event));
    viewer.picture.onfit = () => this.paint();
  }

  choose(kind) {
    this.kind = OVERLAYS[kind] ? kind : "none";
    if (this.kind !== "none") this.last = this.kind;
    find("overlay").value = this.kind;
    this.onchange();
    this.soon();
  }

  toggle() {
    this.choose(this.kind === "none" ? this.last : "none");
  }

  get isPanel() {
    return !find("macroblock").hidden;
  }

  get isOn() {
    return (this.kind !== "none" || this.isPanel) && !this.model.isPlaying && !this.viewer.preview;
  }

  /** The records are asked for once the frame stays for a moment, and only if they are seen. */
  soon() {
    clearTimeout(this.timer);
    if (!this.isOn) {
      this.clear();
      return;
    }
    // The facts of one frame are not shown over another.
    if (this.shown !== this.model.look) this.canvas.hidden = true;
    this.timer = setTimeout(() => this.show().catch((error) => this.say(error.message)), 40);
  }

  clear() {
    this.records = null;
    this.canvas.hidden = true;
    find("overlay-legend").hidden = true;
  }

  /** Why there is nothing to see. */
  say(text) {
    this.clear();
    find("macroblock-name").textContent = "";
    find("macroblock-note").textContent = text;
    find("macroblock-parts").hidden = true;
    const legend = find("overlay-legend");
    legend.hidden = this.kind === "none";
    legend.replaceChildren(text);
  }

  async show() {
    const { look, revision } = this.model;
    const picture = this.viewer.picture.now;
    const origin = await this.model.looked();
    const isStale = () => look !== this.model.look || revision !== this.model.revision || !this.isOn;
    if (isStale()) return;
    if (!picture || !origin) {
      this.say("no picture");
      return;
    }
    const records = await this.store.get(origin.source, origin.packet);
    if (isStale() || picture !== this.viewer.picture.now) return;
    if (records.why) {
      this.say(records.why);
      return;
    }
    if (!records.fit(picture)) {
      this.say(`the script shows a part of packet ${origin.packet}, whose macroblocks do not fit`);
      return;
    }
    this.records = records;
    this.shown = look;
    this.paint();
    this.writeLegend();
    await this.write();
  }

  paint() {
    const { picture } = this.viewer;
    this.canvas.hidden = !this.records || !picture.now || !this.isOn;
    if (this.canvas.hidden) return;
    const box = { width: parseFloat(picture.canvas.style.width), height: parseFloat(picture.canvas.style.height) };
    draw(this.canvas, this.kind, this.records, picture.now, box, this.isPanel ? this.current : null);
    this.canvas.dataset.shows = `${this.kind} of packet ${this.records.packet}`;
  }

  /** The macroblock that is looked at: the one that was pointed at last, or the one in the middle. */
  get current() {
    if (!this.records) return null;
    const { columns, rows } = this.records;
    this.column = Math.max(0, Math.min(columns - 1, this.column ?? columns >> 1));
    this.row = Math.max(0, Math.min(rows - 1, this.row ?? rows >> 1));
    return this.records.at(this.column, this.row);
  }

  point(event) {
    if (!this.isPanel || !this.records) return;
    const box = this.viewer.picture.canvas.getBoundingClientRect();
    const { width, height } = this.viewer.picture.now;
    this.go(
      Math.floor((((event.clientX - box.left) / box.width) * width) / 16),
      Math.floor((((event.clientY - box.top) / box.height) * height) / 16),
    );
  }

  move(across, down) {
    this.go(this.column + across, this.row + down);
  }

  go(column, row) {
    if (column === this.column && row === this.row) return;
    [this.column, this.row] = [column, row];
    this.paint();
    this.write().catch(() => {});
  }

  writeLegend() {
    const legend = find("overlay-legend");
    legend.hidden = this.kind === "none";
    if (legend.hidden) return;
    legend.replaceChildren();
    for (const [colour, text, count] of OVERLAYS[this.kind].legend(this.records.macroblocks)) {
      if (count === 0) continue;
      legend.append(make("span", {}, patch(colour), count === null ? text : `${text} ${count.toLocaleString("en")}`));
    }
  }

  /** Writes the record, and the samples. */
  async write() {
    if (!this.isPanel) return;
    const record = this.current;
    if (!record) return;
    find("macroblock-parts").hidden = false;
    find("macroblock-note").textContent = "";
    find("macroblock-name").textContent = `Macroblock ${record.column}, ${record.row} of packet ${this.records.packet}`;
    const body = find("macroblock-facts").tBodies[0];
    body.replaceChildren();
    for (const [name, text] of Object.entries(NAMES)) {
      if (!(name in record) || record[name] === null) continue;
      const row = body.insertRow();
      row.insertCell().textContent = text;
      const cell = row.insertCell();
      cell.textContent = valueText(name, record[name]);
      cell.classList.toggle("mono", name === "parts" || name === "blocks");
    }
    const now = this.viewer.picture.now;
    this.writeSamples(record, now, null);
    const frame = this.model.frame;
    const before = await this.viewer.beforeOf(frame);
    if (record !== this.current || frame !== this.model.frame || now !== this.viewer.picture.now) return;
    const fits = before.frame && before.frame.width === now.width && before.frame.height === now.height;
    this.writeSamples(record, now, fits ? before.frame : null);
    const note = find("samples-note");
    if (!before.frame) note.textContent = `before the edits: ${before.text}`;
    else note.textContent = fits ? "" : "before the edits the size was another one";
  }

  writeSamples({ column, row }, now, before) {
    let differs = 0;
    for (const [name, side] of Object.entries({ y: 16, u: 8, v: 8 })) {
      const [mine, old] = [now, before].map((frame) =>
        frame && rowsOf(planes(frame)[name], column * side, row * side, side),
      );
      writeRows(find(`samples-${name}`), mine, old);
      const other = find(`before-${name}`);
      if (old) {
        writeRows(other, old, mine);
        old.forEach((values, down) =>
          (differs += values.filter((value, across) => value !== mine[down][across]).length),
        );
      } else {
        other.textContent = "";
      }
    }
    find("samples-before").hidden = !differs;
    find("samples-title").textContent = before
      ? (differs ? `Samples now: ${differs} differ` : "Samples: as before the edits")
      : "Samples";
  }
}
