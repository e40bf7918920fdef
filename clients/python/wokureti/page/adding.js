// Another stream of the folder is opened: as the last source, or on a new page.

import { ask } from "./ask.js";
import { fileOf } from "./editing.js";
import { find } from "./elements.js";
import { engine } from "./engine.js";
import { notice } from "./status.js";

// Bytes of a file that is dropped, at most: an IVF file has no more.
const MOST_BYTES = 1 << 30;

/** A file as it is called below the folder that all files have in common. */
export function namedFrom(file, files) {
  const parts = files[0].split("/").slice(0, -1);
  const common = parts.filter((_, place) => files.every((other) =>
    other.startsWith(`${parts.slice(0, place + 1).join("/")}/`),
  ));
  return file.split("/").slice(common.length).join("/");
}

/** The SHA-256 of a file that was dropped, or null if it is a folder or too large for a stream. */
async function digestOf(file) {
  const bytes = file.size > MOST_BYTES ? null : await file.arrayBuffer().catch(() => null);
  if (!bytes) return null;
  const digest = new Uint8Array(await crypto.subtle.digest("SHA-256", bytes));
  return [...digest].map((byte) => byte.toString(16).padStart(2, "0")).join("");
}

export class Adding {
  constructor(model, status) {
    Object.assign(this, { model, status });
    find("add-source").addEventListener("click", () => this.add().catch((error) => this.status.say(error.message)));
    find("stream-file").addEventListener("change", () => {
      const files = [...find("stream-file").files];
      find("stream-file").value = "";
      this.drop(files).catch((error) => this.status.say(error.message));
    });
    // For a file that is dropped a browser leaves the page, if the page does not take it.
    const hasFiles = ({ dataTransfer }) => dataTransfer !== null && dataTransfer.types.includes("Files");
    addEventListener("dragover", (event) => hasFiles(event) && event.preventDefault());
    addEventListener("drop", (event) => {
      if (!hasFiles(event)) return;
      event.preventDefault();
      this.drop([...event.dataTransfer.files]).catch((error) => this.status.say(error.message));
    });
  }

  async add() {
    if (!engine.files) return find("stream-file").click();
    const files = await engine.files();
    if (files.length) await this.choose(files, files);
    else this.status.say("there is no stream in this folder");
  }

  /** Opens a file that was dropped, where the server has it: a page learns its name and its bytes, and not its path. */
  async drop(dropped) {
    if (find("add-source").disabled || document.querySelector("dialog[open]")) return;
    if (engine.take && (await engine.take(dropped))) return;
    if (dropped.length !== 1) {
      this.status.say("one file is opened at a time");
      return;
    }
    if (!engine.files) return this.chooseHow(dropped[0]);
    const { name, size } = dropped[0];
    const digest = await digestOf(dropped[0]);
    const same = digest ? await engine.same(name, size, digest) : [];
    if (same.length) await this.choose(same, await engine.files());
    else notice(
      `${name} is no stream in the folders of those that are open, or below them: move it there, or name it with ` +
        "--source",
      { isBad: true, id: "dropped" },
    );
  }

  /** Opens a file of this machine: next to the stream that is open, or in its place. */
  chooseHow(file) {
    const how = [
      ["the next source", "source"],
      ["the stream to edit, in the place of this one", "stream"],
    ];
    const fields = [{ name: "how", label: "As", value: "source", choices: how }];
    return this.open(`Open ${file.name}`, fields, "The edits of the stream that is open are kept.", async (found) => {
      if (found.how === "source") return this.asSource(file, file.name);
      await engine.instead(file);
      return `${file.name} is open`;
    });
  }

  /** Opens one of these streams, which are called as below the folder that `files` have in common. */
  choose(offered, files) {
    const choices = offered.map((file) => [namedFrom(file, files), file]);
    const how = [
      ["the next source", "source"],
      ["a new page", "page"],
    ];
    const fields = [
      { name: "file", label: "Stream", value: offered[0], choices },
      { name: "how", label: "As", value: "source", choices: how },
    ];
    return this.open("Open another stream", fields, "The stream itself is only read.", async (found) => {
      const name = fileOf(found.file);
      if (found.how === "source") return this.asSource(found.file, name);
      const address = await engine.page(found.file);
      const where = `The page of ${name} is at ${address}`;
      if (!window.open(address, "_blank")) notice(where, { isBad: true, id: "opened" });
      return `${name} is open on a new page`;
    });
  }

  /** Asks how a stream is opened. `act` opens it, and returns what is said then. */
  async open(title, fields, note, act) {
    const what = "Packets are copied from a source, and a script shows its frames.";
    const found = await ask(title, "Open", fields, `${what} ${note}`);
    if (!found) return;
    find("add-source").disabled = true;
    try {
      this.status.say(await act(found));
    } catch (error) {
      notice(error.message, { isBad: true, id: "opened" });
    } finally {
      find("add-source").disabled = false;
    }
  }

  async asSource(what, name) {
    const { source, changes } = await engine.add(what);
    await this.model.load(changes);
    return `${name} is source ${source}`;
  }
}
