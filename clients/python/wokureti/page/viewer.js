// What is shown in the picture: the current frame, its comparison with the frame before the edits, or a preview.

import { compared } from "./colours.js";
import { drag, find, walk } from "./elements.js";
import { Refusal, engine } from "./engine.js";
import { Loupe } from "./loupe.js";
import { Picture } from "./picture.js";

// Frames after which a search says how far it is.
const SHOWN_EVERY = 16;

function capital(text) {
  return text[0].toUpperCase() + text.slice(1);
}

/** A sentence on two frames of one size; `other` is what the second one is called. */
export function comparison({ psnr, differing, samples }, other = "before the edits") {
  if (!differing) return `same as ${other}, sample for sample`;
  const values = ["y", "u", "v"].map((name) =>
    `${name.toUpperCase()} ${Number.isFinite(psnr[name]) ? psnr[name].toFixed(2) : "∞"}`,
  );
  return `${differing.toLocaleString("en")} of ${samples.toLocaleString("en")} samples differ from ${other}, PSNR ` +
    `${values.join("  ")} dB`;
}

export class Viewer {
  constructor(model, frames, status) {
    Object.assign(this, { model, frames, status, isStale: false, showing: null });
    this.picture = new Picture();
    this.loupe = new Loupe(this.picture);
    // The edits of a preview, or null.
    this.preview = null;
    // What the other picture is: the frame before the edits, or that of a source as it was opened.
    this.against = "before";
    // Called when another picture is shown.
    this.onshown = () => {};
    model.addEventListener("frame", () => model.isPlaying || this.show());
    model.addEventListener("session", () => this.show());
    this.choices("view", (view) => {
      this.picture.view = view;
      find("gain-label").hidden = view !== "difference";
      find("against-label").hidden = view === "frame";
      this.show();
    });
    model.addEventListener("session", () => this.writeSources());
    find("against").addEventListener("change", () => {
      this.against = find("against").value;
      this.show();
    });
    this.choices("plane", (plane) => {
      this.picture.plane = plane;
      this.repaint();
    });
    this.choices("size", (size) => {
      this.picture.size = size;
      this.picture.fit();
    });
    find("gain").addEventListener("change", () => {
      this.picture.gain = Number(find("gain").value);
      this.repaint();
    });
    find("stage").addEventListener("pointerdown", (event) => this.pan(event));
    find("loupe-switch").addEventListener("click", () => this.loupe.toggle());
    find("next-difference").addEventListener("click", () => this.nextDifference(1));
  }

  /** Buttons of which one is chosen; the arrow keys choose another. */
  choices(name, chosen) {
    const buttons = [...document.querySelectorAll(`[data-${name}]`)];
    this[`choose_${name}`] = (value) => {
      for (const button of buttons) {
        const isChosen = button.dataset[name] === value;
        button.setAttribute("aria-checked", String(isChosen));
        button.tabIndex = isChosen ? 0 : -1;
      }
      chosen(value);
    };
    buttons.forEach((button, place) => {
      button.tabIndex = place ? -1 : 0;
      button.addEventListener("click", () => this[`choose_${name}`](button.dataset[name]));
      const choose = (other) => this[`choose_${name}`](other.dataset[name]);
      button.addEventListener("keydown", (event) => walk(buttons, place, event, choose));
    });
  }

  /** Drags a picture that is larger than its place. */
  pan(event) {
    const stage = find("stage");
    const isLarger = stage.scrollWidth > stage.clientWidth || stage.scrollHeight > stage.clientHeight;
    if (event.button !== 0 || !isLarger || event.target.closest("#split-handle")) return;
    const [left, top] = [stage.scrollLeft + event.clientX, stage.scrollTop + event.clientY];
    drag(stage, event, (moved) => stage.scrollTo(left - moved.clientX, top - moved.clientY));
  }

  get needsBefore() {
    return this.picture.view !== "frame";
  }

  /** A frame of playback. */
  present(frame) {
    this.picture.show(frame, null, { isPlaying: true });
    if (this.loupe.isOn) this.loupe.show();
  }

  repaint() {
    if (this.picture.now || this.picture.before) this.picture.paint();
    this.loupe.show();
  }

  /** The sources that the picture can be compared with. */
  writeSources() {
    const select = find("against");
    const { names } = this.model.session;
    if (select.options.length === names.length + 1) return;
    select.replaceChildren(
      new Option("before the edits", "before"),
      ...names.map((name, number) => new Option(`source ${number}: ${name}, as it was opened`, number)),
    );
    select.value = this.against;
  }

  /** What the other picture is called. */
  get other() {
    return this.against === "before" ? "before the edits" : `source ${this.against}`;
  }

  /** Shows the current frame. While one is fetched, others wait, and only the last of them is fetched then. */
  show() {
    this.isStale = true;
    if (!this.showing) this.showing = this.catchUp();
    return this.showing;
  }

  async catchUp() {
    try {
      while (this.isStale) {
        this.isStale = false;
        await this.showNow();
      }
    } finally {
      // In the same moment in which nothing is stale any more: a call that comes later begins again.
      this.showing = null;
    }
  }

  async showNow() {
    const { frame, frames, look, aside } = this.model;
    const png = find("png");
    png.hidden = Boolean(aside);
    png.href = engine.link("png", frame) ?? "";
    png.download = `frame-${frame}.png`;
    if (!this.model.session) return;
    if (!frames && !aside) {
      this.picture.now = null;
      this.picture.refuse("The stream has no frame to show.", "No frames");
      find("picture-text").textContent = "";
      return;
    }
    const [now, before] = await Promise.all([
      this.nowOf(frame, aside),
      this.needsBefore || this.preview ? this.beforeOf(frame, aside) : null,
    ]);
    if (this.model.isPlaying || (this.isStale && look !== this.model.look)) return;
    if (now.frame) {
      this.picture.show(now.frame, this.needsBefore ? (before?.frame ?? null) : null);
    } else {
      this.picture.now = null;
      this.picture.before = this.needsBefore ? (before?.frame ?? null) : null;
      this.picture.paint();
      this.picture.refuse(now.text, now.title);
    }
    this.loupe.show();
    this.note(before, aside);
    this.describe(frame, now, before, aside);
    this.onshown();
  }

  /** Says on the picture which packet it is of, if no frame shows that, and why it is not compared. */
  note(before, aside) {
    const box = find("stage-note");
    const isMissing =
      this.needsBefore &&
      before &&
      (!before.frame || (this.picture.now && !this.picture.isPaired && this.picture.view !== "pair"));
    const parts = [];
    if (aside) parts.push(`${this.nameOf(aside)}: no frame shows it, so this is its own picture, without the script`);
    if (isMissing)
      parts.push(
        before.frame ? "Not compared: the sizes differ" : `Not compared. ${capital(this.other)}: ${before.text}`,
      );
    box.hidden = !parts.length;
    box.textContent = parts.join(". ");
  }

  nameOf({ source, packet }) {
    const { names } = this.model.session;
    return names.length > 1 ? `Packet ${packet} of source ${source} (${names[source]})` : `Packet ${packet}`;
  }

  /** The frame, or why there is none. */
  async nowOf(frame, aside) {
    try {
      if (this.preview) return { frame: await (aside ? this.preview.packet(aside) : this.preview.picture(frame)) };
      return { frame: await (aside ? this.frames.aside(aside.source, aside.packet) : this.frames.get(frame)) };
    } catch (error) {
      return refusalOf(error);
    }
  }

  async beforeOf(frame, aside) {
    try {
      if (this.against !== "before") {
        const number = aside ? aside.own : frame;
        return { frame: await this.frames.before(Number(this.against), number), number };
      }
      const origin = aside || (await this.model.origin(frame));
      if (!origin || origin.before === null) return { text: "nothing was here before the edits" };
      return { frame: await this.frames.before(origin.source, origin.before), number: origin.before };
    } catch (error) {
      return refusalOf(error);
    }
  }

  describe(frame, now, before, aside) {
    const parts = [];
    const name = aside ? `${this.nameOf(aside)}, without the script` : `frame ${frame}`;
    if (now.frame) parts.push(`${name}, ${now.frame.width}x${now.frame.height}`);
    else parts.push(`${name}: ${now.text}`);
    if (this.needsBefore && before) {
      const number = aside ? aside.own : frame;
      if (!before.frame) parts.push(`${this.other}: ${before.text}`);
      else if (!now.frame) parts.push(`${this.other}: frame ${before.number}`);
      else if (this.picture.isPaired) {
        const of = before.number === number ? "" : `frame ${before.number} ${this.other}: `;
        parts.push(of + comparison(compared(now.frame, before.frame), this.other));
      } else parts.push(`${this.other} ${before.frame.width}x${before.frame.height}: the sizes differ`);
      find("before-caption").textContent = before.frame ? `${this.other}, frame ${before.number}` : this.other;
    }
    find("picture-text").textContent = parts.join("  ·  ");
    this.picture.canvas.setAttribute("aria-label", parts.join(", "));
  }

  /** Shows frames of a stream with edits that are not made; null goes back. */
  setPreview(lines) {
    if (lines === null) {
      this.preview = null;
    } else {
      const revision = this.model.revision;
      this.preview = {
        lines,
        picture: async (frame) => (await engine.frames([frame], { lines, revision }))[0],
        packet: async ({ source, packet }) =>
          (await engine.frames([packet], { of: { packets: source }, lines, revision }))[0],
      };
    }
    return this.show();
  }

  /** Whether a frame differs from the one before the edits, or from that of the source that is compared. */
  async isOther(frame, signal) {
    const picture = async (list, of) => {
      try {
        return (await engine.frames(list, { of, low: true, signal }))[0];
      } catch (error) {
        if (!(error instanceof Refusal) || error.status >= 500) throw error;
        return error.reply || error.message;
      }
    };
    const origin = this.against === "before"
      ? await this.model.origin(frame)
      : { source: Number(this.against), before: frame };
    const then = origin.before === null ? null : picture([origin.before], { before: origin.source });
    return differ(...(await Promise.all([picture([frame]), then])));
  }

  /** Goes to the next frame that is another one than before the edits. */
  async nextDifference(step) {
    if (this.search) {
      this.search.abort();
      return;
    }
    this.search = new AbortController();
    const button = find("next-difference");
    button.textContent = "Stop the search";
    const { frame: start, frames, revision } = this.model;
    const { other } = this;
    try {
      for (let frame = start + step; frame >= 0 && frame < frames; frame += step) {
        if (await this.isOther(frame, this.search.signal)) {
          await this.model.go(frame);
          this.status.say(`frame ${frame} differs from ${other}`);
          return;
        }
        if (this.search.signal.aborted) throw new DOMException("it was stopped", "AbortError");
        if (this.model.revision !== revision) throw new Error("the stream was changed, so the search ended");
        if (frame % SHOWN_EVERY === 0)
          this.status.progress(
            `compared up to frame ${frame}`,
            Math.abs(frame - start),
            step > 0 ? frames - start : start,
          );
      }
      this.status.say(`no frame ${step > 0 ? "after" : "before"} frame ${start} differs from ${other}`);
    } catch (error) {
      this.status.say(error.name === "AbortError" ? "the search was stopped" : error.message);
    } finally {
      this.search = null;
      button.textContent = "Next difference";
    }
  }
}

/** Whether two pictures, or the refusals in their place, are others. */
function differ(one, other) {
  if (!one?.samples || !other?.samples) return one !== other;
  return one.width !== other.width ||
    one.height !== other.height ||
    one.samples.some((value, place) => value !== other.samples[place]);
}

function refusalOf(error) {
  if (error instanceof Refusal && error.reply) {
    return {
      text: error.reason ? `${error.reply.replace(/^refused /, "")}: ${error.reason}` : error.reply,
      title: "This frame is refused",
    };
  }
  return { text: error.message, title: "There is no picture" };
}
