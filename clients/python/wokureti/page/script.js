// The script as text, a node a line; a refusal is shown at its node.

import { find, make } from "./elements.js";
import { engine, offer } from "./engine.js";
import { notice } from "./status.js";

/** The nodes of a text: separated by lines or by `;`. Empty ones at the end go. */
export function nodesOf(text) {
  const nodes = text.split(/[;\n]/).map((node) => node.trim().replace(/\s+/g, " "));
  while (nodes.length && nodes[nodes.length - 1] === "") nodes.pop();
  return nodes;
}

/** The nodes of a script as it is in a session. */
export function nodesIn(script) {
  return script === "-" ? [] : nodesOf(script);
}

/** The request line of a text. */
export function lineOf(text) {
  return `script ${nodesOf(text).join("; ") || "-"}`;
}

/** The text of a script, a node a line. */
export function textOf(script) {
  return nodesIn(script).join("\n");
}

/** The node that a reason names, counted from 1, or null. */
export function nodeOf(reason) {
  const found = /node (\d+)/.exec(reason);
  return found ? Number(found[1]) : null;
}

/** Whether a node is a crop that begins at an odd column or row. */
export function isOddCrop(node) {
  const [word, , x, y] = node.split(" ");
  return word === "crop" && [x, y].some((number) => Number(number) % 2 === 1);
}

/** The first and the last character of a node in a text. */
export function rangeOf(text, node) {
  let start = 0;
  for (let number = 1; ; number++) {
    const match = /[;\n]/.exec(text.slice(start));
    const end = match ? start + match.index : text.length;
    if (number === node || !match) return [start, end];
    start = end + 1;
  }
}

export class ScriptPanel {
  constructor(model, editing) {
    Object.assign(this, { model, editing, text: find("script-text"), shown: null });
    model.addEventListener("session", () => this.follow());
    find("script-form").addEventListener("submit", (event) => {
      event.preventDefault();
      this.set();
    });
    find("script-none").addEventListener("click", () => {
      this.text.value = "";
      this.set();
    });
    this.text.addEventListener("input", () => this.complain(null));
    this.text.addEventListener("scroll", () => (find("script-numbers").scrollTop = this.text.scrollTop));
    this.text.addEventListener("keydown", (event) => {
      if (event.key === "Enter" && (event.ctrlKey || event.metaKey)) {
        event.preventDefault();
        this.set();
      }
    });
    find("cuts-open").addEventListener("click", () => find("cuts-file").click());
    find("cuts-file").addEventListener("change", () => this.openCuts());
    find("cuts-save").addEventListener("click", (event) => {
      event.preventDefault();
      this.saveCuts();
    });
    this.number();
  }

  /** Shows only the parts of a list of cuts. */
  async openCuts() {
    const [file] = find("cuts-file").files;
    if (!file) return;
    try {
      const { script } = await engine.task("cuts", { text: await file.text() }, { waits: "the list of cuts" });
      await this.editing.make([`script ${script}`], `the parts of ${file.name} are shown`);
    } catch (error) {
      notice(error.message, { isBad: true, id: "cuts" });
    } finally {
      find("cuts-file").value = "";
    }
  }

  /** Offers the parts that are shown as a list of cuts. */
  async saveCuts() {
    try {
      const { name, file } = await engine.file("cuts");
      offer(file, name);
    } catch (error) {
      notice(error.message, { isBad: true, id: "cuts" });
    }
  }

  /** Shows the script of the session, unless another text is being written. */
  follow() {
    const { script } = this.model.session;
    if (script === this.shown) return;
    const isWritten =
      this.shown !== null && nodesOf(this.text.value).join("; ") !== nodesOf(textOf(this.shown)).join("; ");
    if (!isWritten || document.activeElement !== this.text) {
      this.text.value = textOf(script);
      this.complain(null);
    }
    this.shown = script;
    find("tab-script").classList.toggle("is-set", script !== "-");
  }

  set() {
    return this.editing.make([lineOf(this.text.value)], "the script is set", {
      refused: (error) => {
        if (!error.reply) return false;
        const reason = error.reason || error.reply;
        this.complain(
          `${reason}${nodesOf(this.text.value).some(isOddCrop) ? "; column and row of a crop are even" : ""}`,
        );
        return true;
      },
    });
  }

  /** Shows why the text was refused, at its node; null takes that away. */
  complain(reason) {
    const box = find("script-error");
    box.hidden = reason === null;
    box.textContent = reason === null ? "" : `Refused: ${reason}`;
    this.text.setAttribute("aria-invalid", String(reason !== null));
    const node = reason === null ? null : nodeOf(reason);
    this.number(node);
    if (node === null) return;
    const [start, end] = rangeOf(this.text.value, node);
    this.text.focus();
    this.text.setSelectionRange(start, end);
  }

  /** Numbers the lines by their nodes. */
  number(bad = null) {
    let node = 1;
    const lines = this.text.value.split("\n").map((line) => {
      const count = Math.max(1, line.split(";").length);
      const isBad = bad !== null && bad >= node && bad < node + count;
      node += count;
      return make("li", { textContent: `${node - count}${count > 1 ? "+" : ""}`, className: isBad ? "bad" : "" });
    });
    find("script-numbers").replaceChildren(...lines);
  }
}
