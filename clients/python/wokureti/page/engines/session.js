// A session of the library, with the edits that were made: it is opened again where edits are taken back, and where a
// frame has another size.

import { Calls, Refused } from "./calls.js";
import { firstWord, plain, wordsOf } from "./lines.js";

/** Edits that are taken back by setting what was there before. */
function isLight(line) {
  return ["script", "use"].includes(firstWord(line));
}

function lastOf(lines, word, none) {
  return lines.findLast((line) => firstWord(line) === word) ?? none;
}

export class Session {
  /** `most` bytes of pictures are cached, four for each state. */
  constructor(module, sources, most, look, told) {
    Object.assign(this, { module, sources, most, isLost: false });
    this.calls = new Calls(module);
    this.open(look, told);
  }

  open(look, told) {
    this.calls.open(this.sources, this.most, look, told);
    this.lines = [];
    this.current = 0;
  }

  /** The session has these edits once it is whole again: what it has now is not known. */
  lose(lines) {
    this.lines = [...lines];
    this.current = Number(wordsOf(lastOf(lines, "use", "use 0"))[1]);
    this.isLost = true;
  }

  /** Opens a session again that was lost, with its edits: in the memory that it has, or in another one. If neither
   * does, the next call tries again. */
  whole() {
    if (!this.isLost) return;
    const { lines } = this;
    try {
      this.goTo(lines);
    } catch {
      this.lose(lines);
      this.calls = new Calls(this.module);
      try {
        this.goTo(lines);
      } catch (error) {
        this.lose(lines);
        throw error;
      }
    }
  }

  /** After a fault of the library: another one, with the same edits. */
  restart() {
    this.lose(this.lines);
    this.calls = new Calls(this.module);
    this.whole();
  }

  goTo(lines) {
    const wanted = [...lines];
    this.lose([]);
    this.open();
    this.isLost = false;
    for (const line of wanted) this.edit(line);
  }

  edit(line) {
    let reply = "";
    try {
      reply = this.calls.answered(line);
    } catch (error) {
      if (!(error instanceof Refused) || error.isUnsure) this.lose(this.lines);
      throw error;
    }
    this.lines.push(line);
    if (firstWord(line) === "use") this.current = Number(wordsOf(line)[1]);
    return reply;
  }

  /** Makes edits, and returns the reply to the last one. If one is refused, none is made. */
  run(lines) {
    const before = [...this.lines];
    let reply = "";
    try {
      for (const line of lines) reply = this.edit(plain(line));
    } catch (error) {
      if (this.lines.length !== before.length) this.lose(before);
      throw error;
    }
    return reply;
  }

  /** Makes the edits these: those that both begin with stay. */
  follow(lines) {
    let common = 0;
    while (common < lines.length && this.lines[common] === lines[common]) common++;
    const gone = this.lines.slice(common);
    if (!gone.every(isLight)) {
      this.goTo(lines);
      return;
    }
    this.lines.length = common;
    if (gone.length) {
      for (const line of [lastOf(this.lines, "script", "script -"), lastOf(this.lines, "use", "use 0")]) this.set(line);
      this.current = Number(wordsOf(lastOf(this.lines, "use", "use 0"))[1]);
    }
    for (const line of lines.slice(common)) this.edit(line);
  }

  /** The reply to a question about a source; the current one stays as it is. */
  ask(line, source = this.current) {
    if (source === this.current) return this.calls.answered(line);
    const { current } = this;
    this.set(`use ${source}`);
    try {
      return this.calls.answered(line);
    } finally {
      this.set(`use ${current}`);
    }
  }

  /** Makes a line that is none of the edits. If it is refused, the session may have any source or script. */
  set(line) {
    try {
      this.calls.answered(line);
    } catch (error) {
      this.lose(this.lines);
      throw error;
    }
  }

  /** The number of frames of the script. */
  count() {
    return Number(wordsOf(this.calls.answered("count"))[3]);
  }

  /** A frame, of whatever size: a session serves those of one size, so for another one it is opened again. */
  frame(n) {
    try {
      return this.calls.frame(n);
    } catch (error) {
      if (!error.isOfOtherSize) throw error;
      this.lose(this.lines);
      this.whole();
      return this.calls.frame(n);
    }
  }
}
