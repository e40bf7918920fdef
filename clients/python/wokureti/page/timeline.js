// The lane of packets: a bar a packet of a source, or a column for several.

import { drag, find } from "./elements.js";
import { firstAt } from "./engines/views.js";
import { NAMES } from "./kinds.js";
import { Lane, polygon } from "./lane.js";
import { COLUMNS, Tiles, perOf } from "./tiles.js";
import { timeText } from "./times.js";
import { bytesText, stepOf } from "./window.js";

const RULER = 20;
const MARKS = 14;
// Tiles that are drawn, at most, besides that of the whole stream.
const MOST_SHOWN = 4;
// The kinds of packets that are better than damage inside.
const BETTER = "ihkfd";

export class Timeline extends Lane {
  constructor(model) {
    super(model, "packets", find("timeline"), [find("bars"), find("overview")]);
    this.overview = find("overview");
    this.tiles = new Tiles(() => this.redraw());
    this.findings = [];
    // The packets that are damaged inside, and the columns that have them, by the packets of a column.
    this.inside = [];
    this.columns = new Map();
    this.state = "";
    this.drawn = 0;
    model.tilesShown = () => this.tilesShown();
    model.keyFrom = (packet) => this.keyFrom(packet);
    model.addEventListener("session", () => this.changed());
    for (const name of ["frame", "packet"]) model.addEventListener(name, () => this.moved());
    model.addEventListener("selection", () => this.redraw());
    this.box.addEventListener("pointermove", (event) => this.hover(event));
    this.box.addEventListener("pointerleave", () => (find("tip").hidden = true));
    this.overview.addEventListener("pointerdown", (event) => this.scroll(event));
  }

  get current() {
    return this.model.packet;
  }

  get selection() {
    return this.model.selection;
  }

  select(first, end) {
    this.model.select(first, end);
  }

  go(packet) {
    this.model.goPacket(packet).catch(() => {});
  }

  clicked() {
    this.model.select(null);
  }

  isRuler(event) {
    return this.height(event) > this.canvas.clientHeight - RULER;
  }

  /** A selection snaps before key packets. */
  isSnap(packet) {
    return this.window.scale >= 1 && this.entry(packet)?.kind === "k";
  }

  changed() {
    const { model } = this;
    this.recount(model.packets);
    this.tiles.use(model.revision, model.source, `${model.session.listed} ${this.state}`);
    for (const tile of model.takeTiles()) this.tiles.put(tile);
    this.describe();
    this.redraw();
  }

  /** The tiles that are drawn, as pairs of the packets of a column and a number. */
  tilesShown() {
    const { window } = this;
    const per = perOf(window.scale);
    const [first, last] = [window.from, Math.min(window.count - 1, window.from + window.span)].map((packet) =>
      Math.max(0, Math.floor(packet / per / COLUMNS)),
    );
    const found = Array.from({ length: Math.min(MOST_SHOWN, last - first + 1) }, (_, place) => [per, first + place]);
    const whole = perOf(COLUMNS / Math.max(1, window.count));
    return whole === per && first === 0 ? found : [...found, [whole, 0]];
  }

  /** The key packets that are known of the source that is shown, each with its index, its frame, and a name that stays
   * its own; undefined until some are known. */
  keys() {
    if (!this.model.packets) return [];
    const tiles = this.tilesShown().map(([per, number]) => this.tiles.fresh(per, number));
    if (tiles.includes(null)) return undefined;
    const found = new Map(
      tiles.flatMap(({ keys, contents }) => keys.map(([packet, number, frame]) => [
        packet,
        { packet, frame, name: `${contents} ${number}` },
      ])),
    );
    return [...found.values()].sort((one, other) => one.packet - other.packet);
  }

  /** The next key packet from a packet on, or the number of packets if there is none; undefined if that is not known
   * here. */
  keyFrom(packet) {
    for (let at = packet; at < this.window.count; at++) {
      const found = this.tiles.peek(1, Math.floor(at / COLUMNS));
      if (!found) return undefined;
      if (found.kinds[at % COLUMNS] === "k") return at;
    }
    return this.window.count;
  }

  /** The findings of the check, those packets that are damaged inside, and a text that changes with what only the
   * server has of these. */
  setFindings(findings, inside, state) {
    this.findings = findings;
    this.inside = inside;
    this.columns.clear();
    if (state !== this.state) {
      this.state = state;
      if (this.model.session)
        this.tiles.use(this.model.revision, this.model.source, `${this.model.session.listed} ${state}`);
    }
    this.redraw();
  }

  moved() {
    if (this.model.isPlaying) this.window.follow(this.model.packet);
    else if (!this.isHeld) this.window.reveal(this.model.packet);
    this.describe();
    this.redraw();
  }

  describe() {
    const { model, box } = this;
    box.setAttribute("aria-valuemax", Math.max(0, model.frames - 1));
    box.setAttribute("aria-valuenow", model.frame);
    box.setAttribute("aria-valuetext", `frame ${model.frame}, packet ${model.packet} of ${model.packets}`);
  }

  /** Drags the part of the overview that the timeline shows. */
  scroll(event) {
    const go = (moved) => {
      const { window } = this;
      window.from = (this.pixel(moved, this.overview) / window.width) * window.count - window.span / 2;
      window.clamp();
      this.viewed();
    };
    drag(this.overview, event, go);
    go(event);
  }

  hover(event) {
    const packet = this.window.packetAt(this.pixel(event));
    const tip = find("tip");
    const found = packet >= 0 && packet < this.window.count ? this.entry(packet) : null;
    tip.hidden = !found;
    if (!found) return;
    const { per, first, kind, bytes, frame } = found;
    const end = Math.min(first + per, this.window.count) - 1;
    const one = `packet ${first} · frame ${frame} · ${timeText(frame, this.model.rate, this.model.times)}`;
    const some = `packets ${first} to ${end} · ${NAMES[kind]} · up to ${bytesText(bytes)}`;
    this.showTip(tip, per === 1 ? `${one} · ${NAMES[kind]} · ${bytesText(bytes)}` : some, this.pixel(event));
    tip.style.top = "4px";
  }

  /** The column that has a packet at the current zoom, if its tile is here. */
  entry(packet) {
    const per = perOf(this.window.scale);
    const column = Math.floor(packet / per);
    const tile = this.tiles.get(per, Math.floor(column / COLUMNS));
    const place = column % COLUMNS;
    if (!tile || place >= tile.kinds.length) return null;
    return {
      per,
      first: column * per,
      kind: this.kindOf(tile, place),
      bytes: tile.bytes[place],
      frame: tile.frames[place],
    };
  }

  /** The kind of a column of a tile: a worse one if the check found damage inside its packets. */
  kindOf(tile, place) {
    const kind = tile.kinds[place];
    if (this.model.source !== 0 || !BETTER.includes(kind) || !this.inside.length) return kind;
    const { per, first } = tile;
    if (!this.columns.has(per)) this.columns.set(per, new Set(this.inside.map((packet) => Math.floor(packet / per))));
    return this.columns.get(per).has(first / per + place) ? "p" : kind;
  }

  draw() {
    const started = performance.now();
    const whole = this.wholeTile();
    const most = whole ? whole.bytes.reduce((one, other) => Math.max(one, other), 1) : 1;
    this.drawBars(most);
    this.drawOverview(whole, most);
    if (whole && !this.isDrawn) performance.mark("first timeline");
    this.isDrawn = this.isDrawn || whole !== null;
    this.drawn = performance.now() - started;
    this.ondraw?.();
  }

  wholeTile() {
    const { count } = this.window;
    return count ? this.tiles.get(perOf(COLUMNS / count), 0) : null;
  }

  drawBars(most) {
    const { window, theme: colours } = this;
    const [context, height] = this.begin(this.canvas);
    context.fillStyle = colours.panel;
    context.fillRect(0, 0, window.width, height);
    if (!window.count) return;
    const base = height - RULER;
    const room = base - MARKS - 4;
    this.drawGrid(context, most, base, room);
    const per = perOf(window.scale);
    const wide = window.scale * per;
    const gap = wide >= 4 ? 1 : 0;
    const first = Math.max(0, Math.floor(window.from / per));
    const end = Math.ceil(Math.min(window.count, window.from + window.span + per) / per);
    const labels = [];
    const step = stepOf(70 / window.scale);
    let label = -Infinity;
    for (let column = first; column < end; column++) {
      const tile = this.tiles.get(per, Math.floor(column / COLUMNS));
      const place = column % COLUMNS;
      const left = (column * per - window.from) * window.scale;
      if (!tile || place >= tile.kinds.length) {
        context.fillStyle = colours.grid;
        context.fillRect(left, base - 6, Math.max(1, wide - gap), 6);
        continue;
      }
      const kind = this.kindOf(tile, place);
      const tall = Math.max(3, Math.sqrt(tile.bytes[place] / most) * room);
      context.fillStyle = colours[kind];
      if (kind === "r" || kind === "p") {
        // A broken packet may be small: its column is tinted.
        context.globalAlpha = 0.22;
        context.fillRect(left, MARKS, Math.max(1, wide - gap), base - MARKS);
        context.globalAlpha = 1;
      }
      context.fillRect(left, base - tall, Math.max(0.75, wide - gap), tall);
      if (tile.marks.has(place)) mark(context, left + wide / 2, MARKS - 2, colours.edit);
      const number = Math.floor(tile.frames[place] / step);
      const shown = per > 1 || kind !== "h";
      if (number !== label && shown) {
        if (label !== -Infinity || tile.frames[place] % step === 0) labels.push([left, number * step]);
        label = number;
      }
    }
    if (this.curve) this.drawCurve(context, base, room);
    this.drawNumbers(context, labels, base, height);
    this.drawFindings(context);
    this.drawSelection(context, base);
    this.drawCursor(context, 0, base, [[-6, base + 1], [6, base + 1], [0, base - 6]]);
  }

  /** A number of each packet: the top is its greatest value. */
  drawCurve(context, base, room) {
    const { window, theme: colours } = this;
    for (const [wide, colour] of [[4, colours.panel], [1.75, colours.cursor]]) {
      context.strokeStyle = colour;
      context.lineWidth = wide;
      context.lineJoin = "round";
      context.beginPath();
      for (const line of this.curve.lines) {
        line.forEach(([packet, part], place) => {
          const [x, y] = [window.pixelOf(packet), base - part * room];
          if (place) context.lineTo(x, y);
          else context.moveTo(x, y);
        });
        // A packet by itself.
        if (line.length === 1) context.lineTo(window.pixelOf(line[0][0]) + 1, base - line[0][1] * room);
      }
      context.stroke();
    }
  }

  drawGrid(context, most, base, room) {
    context.strokeStyle = this.theme.grid;
    context.fillStyle = this.theme.muted;
    context.lineWidth = 1;
    context.font = "10px system-ui, sans-serif";
    this.scaleTexts = [];
    for (const part of [1, 0.25]) {
      const y = Math.round(base - Math.sqrt(part) * room) + 0.5;
      context.beginPath();
      context.moveTo(0, y);
      context.lineTo(this.window.width, y);
      context.stroke();
      this.scaleTexts.push([bytesText(Math.round(most * part)), y]);
    }
  }

  drawNumbers(context, labels, base, height) {
    const { theme: colours, window } = this;
    context.fillStyle = colours.back;
    context.fillRect(0, base, window.width, height - base);
    context.fillStyle = colours["line-strong"];
    context.fillRect(0, base, window.width, 1);
    context.font = "11px system-ui, sans-serif";
    context.textAlign = "left";
    for (const [left, number] of labels) {
      context.fillStyle = colours["line-strong"];
      context.fillRect(Math.round(left), base, 1, 6);
      context.fillStyle = colours.muted;
      context.fillText(number.toLocaleString("en"), left + 4, base + 14);
    }
    context.font = "10px system-ui, sans-serif";
    context.textAlign = "right";
    for (const [text, y] of this.scaleTexts) {
      const wide = context.measureText(text).width;
      context.fillStyle = colours.panel;
      context.globalAlpha = 0.8;
      context.fillRect(window.width - wide - 8, y - 6, wide + 8, 12);
      context.globalAlpha = 1;
      context.fillStyle = colours.muted;
      context.fillText(text, window.width - 4, y + 3.5);
    }
    context.textAlign = "left";
  }

  /** Damage as a dot above its packet. */
  drawFindings(context) {
    if (this.model.source !== 0) return;
    const { findings, window } = this;
    let last = -10;
    for (let place = firstAt(findings, Math.floor(window.from)); place < findings.length; place++) {
      const pixel = window.pixelOf(findings[place] + 0.5);
      if (pixel > window.width) break;
      if (pixel - last < 4) continue;
      last = pixel;
      context.fillStyle = this.theme.refused;
      context.beginPath();
      context.arc(pixel, 5, 3, 0, 2 * Math.PI);
      context.fill();
    }
  }

  drawOverview(whole, most) {
    const { window, theme: colours } = this;
    const [context, height] = this.begin(this.overview);
    context.fillStyle = colours.back;
    context.fillRect(0, 0, window.width, height);
    if (!whole || !window.count) return;
    const scale = window.width / window.count;
    const wide = Math.max(1, whole.per * scale);
    for (let column = 0; column < whole.kinds.length; column++) {
      const tall = Math.max(2, Math.sqrt(whole.bytes[column] / most) * (height - 4));
      context.fillStyle = colours[this.kindOf(whole, column)];
      context.fillRect(column * whole.per * scale, height - tall, wide, tall);
    }
    const left = window.from * scale;
    const right = Math.max(left + 3, (window.from + window.span) * scale);
    context.fillStyle = colours.back;
    context.globalAlpha = 0.62;
    context.fillRect(0, 0, left, height);
    context.fillRect(right, 0, window.width - right, height);
    context.globalAlpha = 1;
    context.strokeStyle = colours.accent;
    context.lineWidth = 1.5;
    context.strokeRect(left + 0.75, 0.75, Math.max(1.5, Math.min(right, window.width) - left - 1.5), height - 1.5);
    context.fillStyle = colours.cursor;
    context.fillRect(Math.round(this.model.packet * scale), 0, 1, height);
  }
}

/** A small triangle that says that an edit was here. */
function mark(context, x, y, colour) {
  context.fillStyle = colour;
  polygon(context, [[x - 4, y - 5], [x + 4, y - 5], [x, y + 1]]);
}
