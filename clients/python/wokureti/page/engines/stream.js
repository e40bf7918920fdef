// The stream that the page edits: its session, its steps, and what the page asks of it.

import { objectsOf } from "../details.js";
import { nodesOf } from "../script.js";
import { Refused, sizeOfSource } from "./calls.js";
import { Check, atEnd, atHeader } from "./checking.js";
import { Causes, Contents, readIvf } from "./contents.js";
import { scriptOf, textOf as cutsOf } from "./cut_lists.js";
import { runsOf as heardIn } from "./heard.js";
import { plain, spaced } from "./lines.js";
import { stepsOf, textOf, titled } from "./lists.js";
import { Looks } from "./looks.js";
import { rateOf } from "./rates.js";
import { Repairs } from "./repairs.js";
import { Session } from "./session.js";
import { Sha256 } from "./sha256.js";

// Bytes of the pictures of cached states; edits and notices that are told, at most; characters of an edit; checks that
// are remembered.
const MOST_STATES = 1 << 29;
const MOST_EDITS = 500;
const MOST_LINE = 200;
const MOST_CHECKS = 8;
// Bytes between two reports of how much is read.
const STEP = 1 << 23;
// Frames whose origins are asked for at a time.
const MOST_ENTRIES = 4096;
// Nodes that may change samples.
const CHANGING = /(?:^|; ?)(?:crop|fade) /;

/** Reads what is known of the files while they are opened. A WebM file is read as the session has it. `report` is
 * called with the part that is done: each byte is read twice. */
function indexes(module, sources, report) {
  const found = [];
  const total = 2 * sources.reduce((sum, source) => sum + sizeOfSource(source), 0);
  let [done, said] = [0, 0];
  const told = (count) => {
    done += count;
    if (done - said < STEP) return;
    said = done;
    report(Math.min(1, done / total));
  };
  const read = (bytes) => {
    const digest = new Sha256();
    const got = (part) => {
      digest.add(part);
      told(part.length);
    };
    return Object.assign(readIvf(bytes, got), { digest: digest.hex() });
  };
  const session = new Session(module, sources, MOST_STATES, (place, bytes) => {
    const given = bytes();
    if (given.length >= 32 && given[0] === 0x44) found[place] = read(given);
  }, told);
  sources.forEach((source, place) => {
    if (!found[place]) {
      const pieces = session.calls.save(place, false, false);
      const whole = new Uint8Array(pieces.reduce((sum, { length }) => sum + length, 0));
      pieces.reduce((at, piece) => (whole.set(piece, at), at + piece.length), 0);
      found[place] = Object.assign(read(whole), { isIvf: false, cut: null });
    }
    found[place].name = source.name ?? `source ${place}`;
  });
  return { session, found };
}

export class Stream extends Looks {
  constructor(module) {
    super();
    this.module = module;
    this.restarts = 0;
    this.checkNumber = 0;
    this.notices = [];
  }

  /** Opens files; the first one is edited. Revisions go on from one. */
  open(sources, revision, report) {
    this.revision = revision;
    const { session, found } = indexes(this.module, sources, report);
    Object.assign(this, { session, files: found, sources });
    this.instance = Math.random().toString(16).slice(2, 10);
    this.checks = [];
    this.check = null;
    this.saves = found.map(() => ({ stream: null, file: null }));
    this.saved = 0;
    this.unwritten = 0;
    this.steps = [];
    this.undone = [];
    this.readAgain();
    this.changed();
    return this.about();
  }

  /** What the page keeps a list by. */
  about() {
    const { digest, count, bytes, name } = this.files[0];
    return { digest, count, bytes, name, text: this.text() };
  }

  readAgain() {
    this.contents = new Contents(this.files, (line, source) => this.session.ask(line, source));
    this.contents.name = Math.random().toString(16).slice(2, 10);
    this.causes = new Causes(this.contents);
  }

  /** Makes the edits of a list. It may be anybody's: what is no list of this stream is not taken, and said. Returns
   * whether it was taken. */
  take(text) {
    this.waits = null;
    let isTaken = true;
    try {
      const { steps, others } = stepsOf(text, this.files[0]);
      const missing = others.filter(({ source, digest }) => this.files[source]?.digest !== digest);
      if (missing.length) {
        this.waits = text;
        this.notice(
          `The edits of ${this.files[0].name} are kept, and need ` +
            `${missing.map(({ source, name }) => `${name} as source ${source}`).join(" and ")}: open that too, and ` +
            "they are made.",
        );
        return { isTaken: false };
      }
      for (const { title, lines } of steps) this.makeStep(lines, title);
    } catch (error) {
      this.steps = [];
      this.session.follow([]);
      this.contents.begin();
      isTaken = false;
      this.notice(
        `The list of edits that this browser keeps for ${this.files[0].name} is not taken: ${error.message}. It ` +
          "stays in the browser's store, and the stream is shown without edits.",
      );
    }
    this.changed();
    return { isTaken };
  }

  /** Opens another file as the last source. If it is refused, all is as before. */
  add(source, report) {
    const { sources, files, session, steps, undone, contents, causes, saves, revision } = this;
    if (sources.length === 8) throw new Refused(409, { error: "a session has at most 8 streams" });
    try {
      const opened = indexes(this.module, [...sources, source], report);
      Object.assign(this, {
        session: opened.session,
        files: opened.found,
        sources: [...sources, source],
        steps: [],
        undone: [],
        saves: [...saves, { stream: null, file: null }],
      });
      this.readAgain();
      for (const step of steps) this.makeStep(step.lines, step.title);
      this.undone = undone;
      this.changed();
      if (this.waits) this.take(this.waits);
      return { source: this.sources.length - 1, ...this.told() };
    } catch (error) {
      Object.assign(this, {
        session,
        files,
        sources,
        steps,
        undone,
        contents,
        causes,
        saves,
        revision,
        isBehind: true,
      });
      throw error;
    }
  }

  /** Makes a change. If it is refused, in the middle of it too, steps, packets and the revision are as before. */
  change(make) {
    const { revision, session } = this;
    const [steps, undone] = [[...this.steps], [...this.undone]];
    const count = session.lines.length;
    try {
      return make();
    } catch (error) {
      if (
        this.revision !== revision ||
        this.steps.length !== steps.length ||
        this.undone.length !== undone.length ||
        session.lines.length !== count
      ) {
        Object.assign(this, { steps, undone, revision, isBehind: true });
        session.lose(steps.flatMap(({ lines }) => lines));
        this.applyAgain();
      }
      throw error;
    }
  }

  /** After a change that was refused in the middle: the session has its edits again, and what is known of the stream is
   * of them. */
  whole() {
    this.session.whole();
    if (this.isBehind) this.know();
  }

  /** The engine ended in the middle of a call: it is started again, with the same edits. */
  restart() {
    this.restarts++;
    this.session.restart();
  }

  notice(text) {
    this.notices.push([this.notices.length + 1, text]);
  }

  // Edits

  text() {
    return textOf(this.steps, this.files);
  }

  makeStep(lines, title) {
    const edits = lines.map(plain);
    const reply = this.session.run(edits);
    const first = this.contents.unused;
    this.contents.apply(edits, first);
    this.steps.push({ title: edits.length > 1 ? titled(title) : "", lines: edits, first });
    return reply;
  }

  /** The stream is another one now. */
  changed() {
    this.revision++;
    this.know();
  }

  /** Asks for what is known of the stream. */
  know() {
    this.isBehind = true;
    this.contents.learn();
    this.causes.follow();
    this.lookAgain();
    this.scriptText = spaced(this.session.calls.answered("script").slice("script ".length));
    this.frameCount = this.session.count();
    this.begun = null;
    this.isBehind = false;
  }

  /** The packets after the steps. */
  applyAgain() {
    this.contents.begin();
    for (const { lines, first } of this.steps) this.contents.apply(lines, first);
  }

  undo() {
    const step = this.steps.pop();
    if (!step) return [];
    this.undone.push(step);
    this.session.follow(this.steps.flatMap(({ lines }) => lines));
    this.applyAgain();
    this.changed();
    return step.lines;
  }

  redo() {
    const step = this.undone.pop();
    if (!step) return [];
    this.session.run(step.lines);
    this.contents.apply(step.lines, step.first);
    this.steps.push(step);
    this.changed();
    return step.lines;
  }

  /** Edits as one step, or the text `undo` or `redo`. If the stream is of another revision, nothing is done. */
  ask(lines, { revision = undefined, title = "", page = null } = {}) {
    if (revision !== undefined && revision !== this.revision)
      throw new Refused(412, { error: "the stream was changed" });
    return this.change(() => ({
      reply: lines === "undo" || lines === "redo" ? this[lines]() : this.step(lines, title),
      ...this.told(page),
    }));
  }

  /** Makes edits as one step, after which nothing can be made again. Returns the reply to the last one. */
  step(lines, title) {
    const reply = this.makeStep(lines, title);
    this.undone = [];
    this.changed();
    return reply;
  }

  /** What is told after a change: the state, and what of the page is shown. */
  told(page) {
    const found = { revision: this.revision, changes: this.changes, session: this.state() };
    return page ? { ...found, ...this.shownOn(page) } : found;
  }

  /** Inserts remembered packets as one step. */
  paste({ contents, revision, page, ...given }) {
    if (revision !== this.revision) throw new Refused(412, { error: "the stream was changed" });
    if (contents !== this.contents.name)
      throw new Refused(409, { error: "the packets that were copied are gone, since the stream was opened again" });
    const { lines, title, told } = this.pasted(given, (number, place) => this.insertion(number, place));
    return this.change(() => {
      if (lines.length) this.step(lines, title);
      return { ...told, ...this.told(page) };
    });
  }

  /** The line that inserts a packet that is in no stream any more: another session, with the edits up to the one after
   * which it was there, has its bytes. */
  insertion(number, at) {
    const contents = new Contents(this.files, () => "");
    const isThere = () => contents.streams.findIndex((stream) => stream.includes(number));
    contents.made = [...this.contents.made];
    const lines = [];
    const steps = [...this.steps, ...[...this.undone].reverse()];
    let source = isThere();
    let found = source < 0 ? null : { lines: [], source, index: contents.streams[source].indexOf(number) };
    for (const step of steps) {
      let { first } = step;
      for (const line of step.lines) {
        contents.apply([line], first);
        first = contents.next;
        lines.push(line);
        source = isThere();
        if (source >= 0) found = { lines: [...lines], source, index: contents.streams[source].indexOf(number) };
      }
    }
    if (!found) throw new Refused(409, { error: "the packets that were copied are gone" });
    const other = new Session(this.module, this.sources, 1 << 20);
    other.follow(found.lines);
    const [, stamp, hex] = other.ask(`packet ${found.index}`, found.source).split(" ");
    return `insert ${at} ${stamp} ${hex}`;
  }

  // What the page asks

  get changes() {
    return this.revision + this.saved + this.restarts;
  }

  get current() {
    return this.session.current;
  }

  causesOf(source) {
    return this.causes.isWhole ? this.causes.seen[source].causes : [];
  }

  damaged() {
    return this.check && this.isOfNow(this.check) ? this.check.inside : [];
  }

  /** The number and the text of the first node that changes samples of a frame, or null. */
  changing() {
    if (!CHANGING.test(this.scriptText)) return null;
    for (let first = 0; first < this.frameCount; first += MOST_ENTRIES) {
      const node = objectsOf(this.session.calls.answered(`origins ${first} ${MOST_ENTRIES}`)).find(({ changed }) =>
        changed.length,
      )?.changed[0];
      if (node) return [node, nodesOf(this.scriptText)[node - 1]];
    }
    return null;
  }

  savesOf() {
    return this.saves.map(({ stream, file }, source) => {
      const now = this.contents.streams[source];
      const edited = this.contents.isEdited(source);
      const isSame =
        stream !== null && stream.length === now.length && stream.every((number, place) => number === now[place]);
      return { edited, saved: isSame || !edited, file: isSame ? file : null, next: `${this.stem(source)}-edited.ivf` };
    });
  }

  stem(source = 0) {
    return this.files[source].name.replace(/\.[^.]*$/, "");
  }

  /** The edits, the last ones, line by line. */
  edits() {
    const lines = this.steps.flatMap((step, place) => step.lines.map((line, turn) => ({
      line: line.slice(0, MOST_LINE),
      step: place,
      title: turn ? "" : step.title,
    })));
    const told = lines.slice(-MOST_EDITS);
    return {
      edits_before: lines.length - told.length,
      edits: told.map(({ line }) => line),
      steps: told.map(({ step }) => step),
      titles: Object.fromEntries(told.map(({ title }, place) => [place, title]).filter(([, title]) => title)),
      undone: [...this.undone]
        .reverse()
        .flatMap((step) => step.lines.map((line) => line.slice(0, MOST_LINE)))
        .slice(0, MOST_EDITS),
    };
  }

  state() {
    const saves = this.savesOf();
    return {
      revision: this.revision,
      changes: this.changes,
      instance: this.instance,
      names: this.files.map(({ name }) => name),
      packets: this.contents.streams[0].length,
      frames: this.frameCount,
      rate: rateOf(this.files[0]),
      varies: false,
      sources: this.contents.streams.map(({ length }) => length),
      source: this.session.current,
      script: this.scriptText,
      ...this.edits(),
      saved: saves.every(({ saved }) => saved),
      saves,
      changing: this.changing(),
      list: "this browser",
      again: null,
      unwritten: this.unwritten,
      notices: this.notices,
      listed: this.causes.isWhole,
      restarts: this.restarts,
      shown: this.timeline(0).shown,
      source_frames: this.files.map((_, source) => this.timeline(source).shown),
    };
  }

  repairsNow() {
    const hex = (packet, source) => this.session.ask(`packet ${packet}`, source).split(" ")[2];
    return new Repairs(this.contents, this.timeline(0), this.files.map(({ name }) => name), hex);
  }

  task(kind, { finding, source, text }) {
    const tasks = {
      cuts: () => ({ script: scriptOf(text, this.begins()) }),
      repairs: () => ({ repairs: this.repairsNow().of(finding) }),
      repair_all: () => this.repairsNow().all(this.check?.findings ?? []),
      times: () => ({ times: null }),
      waves: () => ({ runs: heardIn(this.contents, source) }),
    };
    return { revision: this.revision, ...tasks[kind]() };
  }

  frames(list) {
    return list.map((number) => ({ ...this.session.frame(number), revision: this.revision }));
  }

  /** What shows a packet by itself, without the script: edits, and a frame after them; the frame is null if other edits
   * follow. */
  aside(source, packet, lines) {
    const edits = [...this.session.lines, ...(lines ?? [])].filter((line) => !line.startsWith("script"));
    return {
      lines: source ? [...edits, `script source ${source}`] : edits,
      frame: lines ? null : this.timeline(source).ownFrame(packet),
    };
  }

  // Files

  /** The packets of a source as a file, and whether its times were numbered again. */
  save(source, pads = true) {
    const restamps = this.contents.isEdited(source);
    const pieces = this.session.calls.save(source, pads, restamps);
    return { pieces, name: `${this.stem(source)}-edited.ivf`, renumbered: restamps };
  }

  savedAs(source, file, page) {
    this.saves[source] = { stream: this.contents.streams[source].slice(), file };
    this.saved++;
    return this.told(page);
  }

  begins() {
    const { rate, scale } = this.files[0].head;
    const tick = rate ? (1e6 * scale) / rate : 1e6 / 30;
    let clock = 0;
    const found = [0];
    for (const number of this.contents.streams[0]) {
      if (!(this.contents.tags[number] & 2)) continue;
      clock += this.contents.duration(number, 0);
      found.push(Math.round(clock * tick * 1000) / 1000);
    }
    return found;
  }

  cuts() {
    return cutsOf(this.served().shots, this.begins());
  }

  // The check

  isOfNow({ timeline }) {
    const now = this.contents.streams[0];
    return timeline.contents === this.contents &&
      timeline.stream.length === now.length &&
      timeline.stream.every((number, place) => number === now[place]);
  }

  /** The check of the current packets, begun now if it is another one than that of the check before. After undo nothing
   * is checked again. */
  checked() {
    if (this.begun && this.begun === this.check) return this.check;
    const known = [this.check, ...this.checks].find((one) => one && !one.failed && this.isOfNow(one));
    this.begun = this.check = known ?? this.newCheck();
    return this.check;
  }

  newCheck() {
    if (this.check?.isOver) this.checks = [this.check, ...this.checks].slice(0, MOST_CHECKS);
    const [file] = this.files;
    const timeline = this.timeline(0);
    timeline.contents = this.contents;
    const isWhole = file.isIvf && !this.contents.isEdited(0);
    const key = timeline.stream.find((number) => this.contents.tags[number] & 1 && this.contents.pictures.has(number));
    const header = atHeader(file, isWhole, key === undefined ? null : this.contents.pictures.get(key));
    return new Check(
      ++this.checkNumber,
      timeline,
      (line, source) => this.session.ask(line, source),
      header,
      atEnd(file, isWhole),
    );
  }
}

