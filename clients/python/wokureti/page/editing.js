// The edits of the page: each is one step, and a refusal changes nothing.

import { ask } from "./ask.js";
import { find } from "./elements.js";
import { Refusal, engine } from "./engine.js";
import { notice, withdraw } from "./status.js";
import * as steps from "./steps.js";

// Half of the body that the server takes, as HEX.
const MOST_BYTES = (8 << 20) / 2 - 100;

export class Editing {
  constructor(model, status) {
    Object.assign(this, { model, status, clipboard: null });
    this.queue = /** @type {Promise<any>} */ (Promise.resolve());
    const press = (id, act) => find(id).addEventListener("click", () => act());
    press("undo", () => this.undo());
    press("redo", () => this.redo());
    press("save", () => this.save());
    press("delete", () => this.delete());
    press("hold", () => this.hold());
    press("drop", () => this.drop());
    press("copy", () => this.copy(false));
    press("cut", () => this.copy(true));
    press("paste", () => this.paste());
    press("insert-blank", () => this.blank());
    press("replace-file", () => find("file").click());
    press("replace-source", () => this.replaceBySource());
    find("file").addEventListener("change", () => this.replaceByFile());
    for (const name of ["session", "selection", "packet"]) model.addEventListener(name, () => this.enable());
    // What is said of packets that were deleted goes with the next change.
    let revision = 0;
    model.addEventListener("session", () => {
      if (model.revision !== revision) withdraw("broken");
      ({ revision } = model);
    });
  }

  enable() {
    const { session, chosen } = this.model;
    if (!session) return;
    find("undo").disabled = !session.edits.length;
    find("redo").disabled = !session.undone.length;
    find("undo").title = session.edits.length
      ? `Undo: ${session.edits[session.edits.length - 1].slice(0, 60)} (Ctrl+Z)`
      : "Nothing to undo";
    find("redo").title = session.undone.length
      ? `Redo: ${session.undone[0].slice(0, 60)} (Ctrl+Shift+Z)`
      : "Nothing to redo";
    find("save").disabled = session.saved && session.script === "-";
    for (const id of ["delete", "hold", "drop", "copy", "cut"]) find(id).disabled = !chosen;
    find("paste").disabled = !this.clipboard;
  }

  /** Makes edits one after the other. Returns whether they were made; a refusal is shown, and returned by `refused`. */
  make(lines, said, { refused = null, isQuiet = false } = {}) {
    return this.inTurn(() => this.makeNow(lines, said, refused, isQuiet));
  }

  /** Calls a function after those before it are done. */
  inTurn(act) {
    const turn = this.queue.then(act);
    this.queue = turn.catch(() => {});
    return turn;
  }

  async makeNow(lines, said, refused, isQuiet) {
    if (!lines.length) return false;
    const since = performance.now();
    performance.mark("edit");
    try {
      const title = typeof said === "string" ? said : "";
      const answer = await this.model.change((page) => engine.ask(lines, {
        revision: this.model.revision,
        title,
        page,
      }));
      const text = typeof said === "function" ? said(answer.reply) : said;
      if (text && !isQuiet) this.status.say(`${text} (${Math.round(performance.now() - since)} ms)`);
      this.last = answer.reply;
      return true;
    } catch (error) {
      if (error.status !== 412 && refused && (await refused(error))) return false;
      await this.refuse(error);
      return false;
    }
  }

  /** Says why an edit was not made. */
  async refuse(error) {
    if (error.status === 412) {
      notice("The stream was changed in another place, so nothing was done. Look, and try again.", { isBad: true });
    } else if (error instanceof Refusal && error.reply) {
      notice(`Refused, and nothing was changed: ${error.reason || error.reply}`, { isBad: true, id: "refused" });
    } else {
      notice(error.message, { isBad: true, id: "refused" });
    }
    await this.model.load().catch(() => {});
  }

  /** Makes a step on the source that the timeline shows. */
  step(lines, said, options = {}) {
    return this.make(steps.ofSource(lines, this.model.source, this.model.session.source), said, options);
  }

  undo() {
    return this.make("undo", (lines) => (lines.length ? `undone: ${named(lines)}` : "there is nothing to undo"));
  }

  redo() {
    return this.make("redo", (lines) => (lines.length ? `made again: ${named(lines)}` : "there is nothing to redo"));
  }

  /** Saves packets as they are. With edits of other sources, it asks those of which. */
  async save() {
    const { session } = this.model;
    const { saves, names } = session;
    let source = 0;
    if (saves.some(({ edited }, number) => number && edited)) {
      const choices = saves
        .map(({ edited, next }, number) => [`the packets of ${names[number]}, to ${fileOf(next)}`, number, edited])
        .filter(([, number, edited]) => edited || number === 0);
      const found = await ask(
        "Save packets as they are",
        "Save",
        [{ name: "source", label: "What", value: 0, choices }],
        "The script is in no packet: Export gives the frames that are shown.",
      );
      if (!found) return;
      source = Number(found.source);
    }
    return this.inTurn(async () => {
      try {
        const { reply: path, renumbered } = await this.model.change((page) => engine.save(source, page));
        const what = source === 0 && this.model.session.script !== "-"
          ? "The packets were saved, without the script, to"
          : source
          ? `The packets of ${names[source]} were saved to`
          : "Saved to";
        const said = `${what} ${path}${renumbered ? "; times were numbered again" : ""}`;
        notice(said, { id: "saved" });
        this.status.say(`${said[0].toLowerCase()}${said.slice(1)}`);
      } catch (error) {
        await this.refuse(error);
      }
    });
  }

  /** Takes edits back until so many are left. */
  async undoTo(count) {
    const left = () => this.model.session.edits_before + this.model.session.edits.length;
    while (left() > count) {
      const before = left();
      if (!(await this.undo()) || left() >= before) return;
    }
  }

  async delete() {
    const { chosen } = this.model;
    if (!chosen) return;
    const { first, end } = chosen;
    const { selection, packet } = this.model;
    // After the edit the picture is that of this packet: whoever goes to another one meanwhile stays there.
    this.model.packet = first;
    if (await this.step(steps.deleted(first, end), `${packets(chosen)} deleted`)) {
      if (this.model.selection === selection) this.model.select(null);
      await this.warn(chosen);
    } else if (this.model.packet === first) {
      this.model.packet = packet;
    }
  }

  /** Says which packets are predicted from those that were deleted, and offers to cut the frames out instead. */
  async warn({ first, end }) {
    const { model } = this;
    const { source, revision, packets: count } = model;
    const key = model.keyFrom(first) ?? (first < count ? await this.keyAfter(first) : count);
    if (key === first || first === count || model.revision !== revision) return;
    const broken = key - first === 1 ? "The packet after" : `The ${(key - first).toLocaleString("en")} packets after`;
    const deleted = end - first === 1 ? "it" : "them";
    const until = key < count ? "up to the next key packet" : "up to the end";
    const act = async () => {
      if (model.revision !== revision) this.status.say("the stream was changed since: undo, and then cut out");
      else if (await this.undo()) await this.cutting.cutOutPackets(source, first, end);
    };
    const gone = packets({ first, end });
    const [are, breaks] = key - first === 1 ? ["is", "its picture breaks"] : ["are", "their pictures break"];
    notice(
      `${gone[0].toUpperCase()}${gone.slice(1)} deleted. ${broken} ${deleted}, ${until}, ${are} predicted from ` +
        `${deleted}, so ${breaks}. Cut out leaves all packets as they are, and only does not show the frames.`,
      { isBad: true, id: "broken", act: ["Cut out instead", act] },
    );
  }

  async keyAfter(packet) {
    const { source, packets: count } = this.model;
    const before = packet ? packet - 1 : 0;
    return (await engine.look("key", { source, packet: before, step: 1 })).packet ?? count;
  }

  async hold() {
    const { chosen } = this.model;
    if (!chosen) return;
    const { first, end } = chosen;
    const said = `the picture before is held in the place of ${packets(chosen)}`;
    // A broken key packet gives no size: then the last one before it does.
    const again = (error) => {
      if (error.reply !== "refused Size" || first === 0) return false;
      queueMicrotask(() => this.step(steps.heldBefore(first, end), said));
      return true;
    };
    await this.step(steps.held(first, end), said, { refused: again });
  }

  drop() {
    const { chosen } = this.model;
    if (chosen) return this.step(steps.dropped(chosen.first, chosen.end), `${packets(chosen)} dropped`);
  }

  /** Remembers the chosen packets by their numbers on the server: edits change their indexes, and not these. */
  copy(isMove) {
    const { chosen, source } = this.model;
    if (!chosen) return null;
    return this.inTurn(async () => {
      try {
        const { first, end } = chosen;
        const { contents, numbers } = await engine.look("numbers", { source, first, count: end - first });
        this.clipboard = { contents, numbers, isMove, source, count: end - first, said: packets(chosen) };
        this.enable();
        this.status.say(`${packets(chosen)} ${isMove ? "to move" : "to copy"}: go to a packet, and paste before it`);
      } catch (error) {
        notice(error.message, { isBad: true, id: "refused" });
      }
    });
  }

  paste() {
    return this.inTurn(async () => {
      const { clipboard, model } = this;
      if (!clipboard) return;
      const { contents, numbers, isMove, said } = clipboard;
      const at = model.packet;
      const source = model.source;
      try {
        const found = await model.change((page) => engine.paste({
          contents,
          numbers,
          source,
          at,
          move: isMove,
          revision: model.revision,
          page,
        }));
        if (isMove) this.clipboard = null;
        if (!found.made) return this.status.say("they are there already");
        model.select(found.first, found.first + found.count);
        const many = found.deleted === 1 ? "1 of them was" : `${found.deleted.toLocaleString("en")} of them were`;
        const again = found.deleted ? `; ${many} deleted or replaced since, and inserted again` : "";
        this.status.say(`${said} ${isMove ? "moved" : "copied"} to ${found.first}${again}`);
      } catch (error) {
        await this.refuse(error);
        if (error.status === 409 && !error.reply) this.clipboard = null;
      } finally {
        this.enable();
      }
    });
  }

  async blank() {
    const { now } = this.viewer.picture;
    const at = this.model.packet;
    const found = await ask(`A grey key frame before packet ${at}`, "Insert", [
      { name: "width", label: "Width", value: now ? now.width : 320, most: 16383 },
      { name: "height", label: "Height", value: now ? now.height : 180, most: 16383 },
    ]);
    if (found)
      await this.step(
        [`blank ${at} ${Number(found.width)} ${Number(found.height)}`],
        `a grey frame is inserted at ${at}`,
      );
  }

  async replaceByFile() {
    const [file] = find("file").files;
    const at = this.model.packet;
    if (!file) return;
    const bytes = steps.packetOf(new Uint8Array(await file.arrayBuffer()));
    find("file").value = "";
    if (bytes.length > MOST_BYTES) {
      notice(
        `${file.name} has ${bytes.length.toLocaleString("en")} bytes; a packet that the page sends has at most ` +
          `${MOST_BYTES.toLocaleString("en")}.`,
        { isBad: true },
      );
      return;
    }
    await this.step([`replace ${at} ${steps.hexadecimal(bytes)}`], `packet ${at} has the bytes of ${file.name}`);
  }

  async replaceBySource() {
    const { session, packet: at, source } = this.model;
    const others = session.names.map((name, number) => [`${number}: ${name}`, number]).filter(([, number]) =>
      number !== source,
    );
    const found = await ask(`Replace packet ${at}`, "Replace", [
      { name: "source", label: "Source", value: others[0][1], choices: others },
      { name: "packet", label: "Packet of it", value: at },
    ]);
    if (!found) return;
    const lines = [`copy ${Number(found.source)} ${Number(found.packet)} ${at}`, `delete ${at + 1}`];
    await this.step(lines, `packet ${at} is packet ${found.packet} of source ${found.source}`);
  }
}

/** Packets in words. */
export function packets({ first, end }) {
  return end === first + 1 ? `packet ${first}` : `packets ${first} to ${end - 1}`;
}

/** The name of a file without its folder. */
export function fileOf(path) {
  return path.slice(path.lastIndexOf("/") + 1);
}

/** What of the stream is in which file. */
export function savedText({ saves, script, names, edits }) {
  const parts = [];
  saves.forEach(({ edited, file }, source) => {
    if (!edited && !file) return;
    const of = source ? `${names[source]}: ` : "";
    const without = source === 0 && file && script !== "-" ? ", without the script" : "";
    parts.push(file ? `${of}saved to ${fileOf(file)}${without}` : `${of}not saved`);
  });
  if (!parts.length && edits.length)
    parts.push(script === "-" ? "nothing to save" : "the script is in the list of edits");
  return parts.join(" · ");
}

function named(lines) {
  return lines.length === 1 ? lines[0].slice(0, 80) : `${lines.length} edits`;
}
