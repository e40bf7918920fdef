// Cuts, fades and stills by the script: frames vanish or are shown again, no packet is changed, and so nothing after
// them breaks.

import { ask } from "./ask.js";
import { find } from "./elements.js";
import { engine } from "./engine.js";
import { nodesIn } from "./script.js";
import * as parts from "./shots.js";
import { timeText } from "./times.js";

// Frames of a still, at most.
const MOST_STILL = 100000;
const NAMES = { begin: "In", end: "Out" };
const TITLES = {
  keep: "Only the selected frames are shown (E)",
  "cut-out": "The selected frames are not shown; no packet is changed, so nothing after them breaks (X, or Delete)",
  "move-here": "The selected frames are shown before the current one (V)",
};

/** How frames are selected. */
function howText(what) {
  return `Select ${what} first: I at the first frame and O at the last one, or drag over them on the programme`;
}

function framesText(first, end) {
  return end === first + 1 ? `frame ${first} is` : `frames ${first} to ${end - 1} are`;
}

/** The nodes of a script, and the number of the last one: node 0 is the stream. */
function base(script) {
  const nodes = nodesIn(script);
  return [nodes, nodes.length];
}

/** The ranges of frames that are shown if only `first` to `end` - 1 of `count` are; if all others are; if these come
 * before frame `at`. */
export const ranges = {
  kept: ({ first, end }) => [[first, end]],
  without: ({ first, end }, count) => [[0, first], [end, count]],
  moved: ({ first, end }, count, at) =>
    (at < first
      ? [[0, at], [first, end], [at, first], [end, count]]
      : [[0, first], [end, at], [first, end], [at, count]]),
};

/** Puts the node that was added last, of this length, between frames before `first` and those from `end` on, as far as
 * there are any. */
function between(nodes, length, last, count, { first, end }) {
  const ranges = [[last, 0, first], [nodes.length, 0, length], [last, end, count - end]].filter((part) => part[2] > 0);
  return ranges.length > 1 ? [...nodes, parts.partsText(ranges)] : nodes;
}

/** Frames are faded in from black, or out to black; those before and after them stay. */
export function faded(script, count, { first, end }, isIn) {
  const [nodes, last] = base(script);
  const length = end - first;
  const found = [
    ...nodes,
    `trim ${last} ${first} ${length}`,
    `fade ${last + 1} 0 ${length} ${isIn ? "0 256" : "256 0"}`,
  ];
  return between(found, length, last, count, { first, end });
}

/** Before frame `at` the frame before it, or black, is shown for some frames. */
export function still(script, count, at, length, isBlack) {
  const [nodes, last] = base(script);
  const some = Math.min(length, 400);
  const found = [...nodes, parts.partsText(Array(some).fill([last, Math.max(0, at - 1), 1]))];
  // A long still is made of shorter ones: a script of 100,000 parts is a long text.
  const ranges = Array.from({ length: Math.ceil(length / some) }, (_, place) => [
    found.length,
    0,
    Math.min(some, length - place * some),
  ]);
  if (ranges.length > 1) found.push(parts.partsText(ranges));
  if (isBlack) found.push(`fade ${found.length} 0 1 0 0`);
  return between(found, length, last, count, { first: at, end: at });
}

/** After the last frame those of a source are shown. */
export function followed(script, source) {
  const [nodes, last] = base(script);
  if (source === 0) return [...nodes, `splice ${last} 0`];
  return [...nodes, `source ${source}`, `splice ${last} ${last + 1}`];
}

export class Cutting {
  constructor(model, editing, status) {
    Object.assign(this, { model, editing, status });
    find("keep").addEventListener("click", () => this.keep());
    find("cut-out").addEventListener("click", () => this.cutOut());
    find("move-here").addEventListener("click", () => this.moveHere());
    find("frames-more").addEventListener("click", () => this.more());
    // A mark that waits for the frame of a packet.
    this.marking = null;
    for (const name of ["session", "range"]) model.addEventListener(name, () => this.enable());
  }

  enable() {
    const { session, range } = this.model;
    for (const id of ["keep", "cut-out", "move-here"]) {
      const button = find(id);
      button.disabled = !session || !range;
      button.title = range ? TITLES[id] : `${TITLES[id]}. ${howText("them")}`;
    }
    find("frames-more").disabled = !session || !session.frames;
  }

  /** The frames that are selected, or null, which is said. */
  async range(what) {
    await this.marking;
    const { range } = this.model;
    if (!range) this.status.say(`Nothing is selected to ${what}. ${howText("the frames")}`);
    return range;
  }

  /** The selection begins, or ends, with the current frame. */
  mark(isBegin) {
    const { going } = this.model;
    if (going) this.marking = going.catch(() => {}).then(() => this.markNow(isBegin));
    else this.markNow(isBegin);
    return this.marking;
  }

  markNow(isBegin) {
    const { model } = this;
    const { frame, range, aside } = model;
    if (aside) {
      this.status.say(`no frame shows packet ${aside.packet}: In and Out are of frames that are shown`);
      return;
    }
    model.activate("programme");
    const [name, other] = isBegin ? ["begin", "end"] : ["end", "begin"];
    // The other mark, unless there is none.
    const far = !range || range.mark === name ? null : isBegin ? range.end - 1 : range.first;
    const isInOrder = far !== null && (isBegin ? frame <= far : far <= frame);
    if (isInOrder) model.selectFrames(Math.min(frame, far), Math.max(frame, far) + 1);
    else model.selectFrames(frame, frame + 1, name);
    if (far === null || isInOrder) return;
    const [begin, end] = isBegin ? [frame, far] : [far, frame];
    this.status.say(
      `Out, frame ${end}, is before In, frame ${begin}: ${NAMES[other]} is dropped. Press ` +
        `${isBegin ? "O at the last frame" : "I at the first frame"}`,
    );
  }

  /** Sets a script, and goes to a frame. */
  async set(nodes, said, frame) {
    if (nodes.length > parts.MOST_NODES) {
      this.status.say(
        `a script has ${parts.MOST_NODES} nodes at most, and this one would have ${nodes.length}: nothing is changed`,
      );
      return;
    }
    if (!(await this.editing.make([`script ${nodes.join("; ") || "-"}`], said))) return;
    this.model.selectFrames(null);
    await this.model.go(frame);
  }

  /** The nodes of a script whose shots are changed; if it has more than shots, or would have too many nodes, those that
   * `nodes` gives. */
  changed(change, nodes) {
    const { script, source_frames: frames } = this.model.session;
    const { shots, isAll } = parts.shotsOf(script, frames);
    const found = isAll ? change(shots) : null;
    const anew = found && found.length ? parts.nodesFor(found, frames) : null;
    return anew && anew.length <= parts.MOST_NODES ? anew : nodes();
  }

  /** The nodes of a script that shows these ranges of frames. */
  only(some) {
    const { script, source_frames: frames } = this.model.session;
    return this.changed((shots) => parts.picked(shots, some), () => parts.partsOver(script, some, frames));
  }

  async keep() {
    const range = await this.range("keep");
    if (range)
      await this.set(this.only(ranges.kept(range)), `only frames ${range.first} to ${range.end - 1} are shown`, 0);
  }

  /** The selected frames come before the current one. */
  async moveHere() {
    const range = await this.range("move");
    if (!range) return;
    const { frames, frame } = this.model;
    const { first, end } = range;
    if (frame >= first && frame <= end) {
      this.status.say("go to the frame before which the selected frames shall be");
      return;
    }
    await this.set(
      this.only(ranges.moved(range, frames, frame)),
      `frames ${first} to ${end - 1} are shown before frame ${frame}`,
      frame > first ? frame - (end - first) : frame,
    );
  }

  async cutOut() {
    const range = await this.range("cut out");
    if (range) await this.cutOutOf(range);
  }

  /** These frames are not shown. */
  async cutOutOf({ first, end }) {
    const { frames } = this.model;
    if (end - first >= frames) this.status.say("these are all frames");
    else await this.set(
      this.only(ranges.without({ first, end }, frames)),
      `${framesText(first, end)} cut out: no packet is changed`,
      Math.max(0, first - 1),
    );
  }

  /** Cuts out the frames that show packets. */
  async cutOutPackets(source, first, end) {
    const { places } = await engine.look("range", { source, first, end });
    if (places.length === 1) await this.cutOutOf({ first: places[0][0], end: places[0][1] });
    else this.status.say(
      places.length
        ? "these packets are shown in several places: select the frames of each"
        : "no frame shows these packets",
    );
  }

  /** Shows all frames of a source after the last one. */
  async join(source) {
    const { session, frames } = this.model;
    const nodes = this.changed(
      (shots) => parts.followed(shots, source, session.source_frames),
      () => followed(session.script, source),
    );
    await this.set(nodes, `${session.names[source]} is shown after frame ${frames - 1}`, frames);
  }

  async more() {
    const { model } = this;
    const { frame, frames, rate, session, range: selected } = model;
    const choices = [
      ["show the frame before", "hold"],
      ["show black", "black"],
    ];
    if (selected) choices.unshift(["fade in the selected frames", "in"], ["fade out the selected frames", "out"]);
    session.names.forEach((name, source) => choices.push([
      `join ${source}: ${name}, after the last frame`,
      `join ${source}`,
    ]));
    const fields = [
      { name: "what", label: "What", value: choices[0][1], choices },
      { name: "seconds", label: `Seconds, before frame ${frame}`, value: 1, step: "any" },
    ];
    const found = await ask(
      "Frames by the script",
      "Do it",
      fields,
      `Frame ${frame} is at ${timeText(frame, rate, model.times)}. No packet is changed. A fade takes the ` +
        "selection; a join takes no seconds.",
    );
    if (!found) return;
    if (found.what.startsWith("join ")) {
      await this.join(Number(found.what.slice(5)));
      return;
    }
    if (found.what === "in" || found.what === "out") {
      const range = await this.range("fade");
      const nodes =
        range &&
        this.changed(
          (shots) => parts.fading(shots, range, found.what === "in"),
          () => faded(session.script, frames, range, found.what === "in"),
        );
      if (range) await this.set(nodes, `frames ${range.first} to ${range.end - 1} fade ${found.what}`, range.first);
      return;
    }
    const length = Math.max(1, Math.min(MOST_STILL, Math.round(Number(found.seconds) * rate)));
    const what = found.what === "black" ? "black is" : "the frame before is";
    await this.set(
      still(session.script, frames, frame, length, found.what === "black"),
      `${what} shown for ${length} frames before frame ${frame}`,
      frame,
    );
  }
}
