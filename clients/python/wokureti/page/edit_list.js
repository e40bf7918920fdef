// The list of edits: a line goes to its packet; edits can be taken back up to it.

import { find, make } from "./elements.js";
import { packetOfLine } from "./steps.js";

export class EditList {
  constructor(model, editing) {
    Object.assign(this, { model, editing });
    model.addEventListener("session", () => this.write());
  }

  write() {
    const { session } = this.model;
    const { edits, undone, steps, titles, unwritten, edits_before: before } = session;
    const key = `${session.revision} ${session.instance} ${unwritten} ${session.list} ${session.saves[0].next}`;
    if (key === this.key) return;
    this.key = key;
    find("edits-count").textContent = edits.length ? (before + edits.length).toLocaleString("en") : "";
    find("edits-text").textContent = unwritten
      ? `The last ${unwritten === 1 ? "edit is" : `${unwritten.toLocaleString("en")} edits are`} not on the disk ` +
        `yet: make room, and the next edit writes all to ${session.list}.`
      : edits.length
        ? `Each edit is in ${session.list} already. Save writes the packets to ${session.saves[0].next}.`
        : "No edits yet. Select packets in the timeline and delete, hold or drop them, or take a repair of a finding.";
    find("edits-text").classList.toggle("error", unwritten > 0);
    const list = find("edits-list");
    list.replaceChildren();
    if (before) list.append(note(`${before.toLocaleString("en")} edits before these`));
    edits.forEach((line, place) => {
      if (titles[place]) list.append(note(titles[place]));
      const entry = this.row(line, before + place + 1, place, steps[place] !== steps[place + 1]);
      if (place >= edits.length - unwritten) {
        entry.classList.add("is-unwritten");
        entry.querySelector("button").title = "Made, and not on the disk yet";
      }
      list.append(entry);
    });
    undone.slice(0, 50).forEach((line) => list.append(this.row(line, "", null, false)));
    list.lastElementChild?.scrollIntoView({ block: "nearest" });
  }

  row(line, number, place, isEnd) {
    const text = line.length > 90 ? `${line.slice(0, 90)}…` : line;
    const count = make("span", { className: "number", textContent: number });
    const button = make("button", { className: "row" }, count, make("span", { className: "text", textContent: text }));
    const entry = make("li", {}, button);
    if (place === null) {
      entry.className = "is-undone";
      button.title = "Undone; Redo makes it again";
      button.disabled = true;
      return entry;
    }
    const packet = packetOfLine(line);
    if (line.startsWith("script")) button.addEventListener("click", () => find("tab-script").click());
    else if (packet !== null)
      button.addEventListener("click", () => this.model
        .goPacket(Math.min(packet, this.model.packets - 1))
        .catch(() => {}));
    if (isEnd && place + 1 < this.model.session.edits.length) {
      const texts = { className: "here", textContent: "Back to here", title: "Undo the edits after this one" };
      entry.append(make("button", { ...texts, onclick: () => this.editing.undoTo(number) }));
    }
    return entry;
  }
}

function note(text) {
  return make("li", { className: "muted", textContent: text });
}
