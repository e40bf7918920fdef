// The line that says what goes on, and notices.

import { find, make } from "./elements.js";
import { OPENING, engine, waiting } from "./engine.js";

// Milliseconds after which a request that is not answered is shown.
const SOON = 300;

export class Status {
  constructor() {
    Object.assign(this, { text: "", until: 0, polling: false });
    setInterval(() => this.look(), 150);
  }

  /** Says a sentence until the next one comes. */
  say(text) {
    this.text = text;
    this.until = 0;
    this.write(text, null);
  }

  /** Says how much of something is done. */
  progress(text, done, total) {
    this.until = performance.now() + 600;
    this.write(`${text}: ${done.toLocaleString("en")} of ${total.toLocaleString("en")}`, total ? done / total : 0);
  }

  /** Says which part of something is done; null if that is not known. */
  share(text, part) {
    this.until = performance.now() + 600;
    this.write(part === null ? text : `${text}: ${Math.floor(100 * part)} %`, part);
    this.isBusy = true;
  }

  write(text, part) {
    if (find("status").textContent !== text) find("status").textContent = text;
    const bar = find("status-bar");
    bar.hidden = part === null;
    if (part !== null) bar.value = part;
  }

  /** Shows the request that is not answered for the longest time, with a number. */
  look() {
    if (performance.now() < this.until) return;
    const oldest = [...waiting.values()].sort((one, other) => one.since - other.since)[0];
    const passed = oldest ? performance.now() - oldest.since : 0;
    if (passed < SOON) {
      if (this.isBusy) this.write(this.text, null);
      this.isBusy = false;
      return;
    }
    this.isBusy = true;
    const seconds = `${(passed / 1000).toFixed(1)} s`;
    if (oldest.what === "edit") {
      this.ask(`an edit is being applied: ${seconds}`, (found) => this.tellEdit(found));
    } else if (oldest.what === OPENING) {
      this.ask(`waiting for ${OPENING}: ${seconds}`, (found) => this.tellOpening(found));
    } else {
      this.write(`${oldest.what.startsWith("frame") ? "decoding" : "waiting for"} ${oldest.what}: ${seconds}`, null);
    }
  }

  /** Says how far the engine is, if `tell` says it, or else a text. */
  async ask(text, tell) {
    if (this.polling) return;
    this.polling = true;
    try {
      if (!tell(await engine.progress())) this.write(text, null);
    } catch {
      this.write(text, null);
    } finally {
      this.polling = false;
    }
  }

  tellEdit({ doing }) {
    if (doing?.total > 1) this.progress("edits made", doing.done, doing.total);
    return doing?.total > 1;
  }

  tellOpening({ opening }) {
    if (opening?.total) this.share(opening.what, opening.done / opening.total);
    return opening?.total;
  }
}

/** Marks toolbars that have more on a side than is seen, in small windows. */
export function markToolbars() {
  for (const bar of document.querySelectorAll(".tools")) {
    const mark = () => {
      bar.classList.toggle("more-left", bar.scrollLeft > 1);
      bar.classList.toggle("more-right", bar.scrollLeft + bar.clientWidth < bar.scrollWidth - 1);
    };
    bar.addEventListener("scroll", mark, { passive: true });
    new ResizeObserver(mark).observe(bar);
    new MutationObserver(mark).observe(bar, { childList: true, subtree: true, attributeFilter: ["hidden"] });
  }
}

/** Takes a notice back. */
export function withdraw(id) {
  for (const old of [...find("notices").children]) if (old.dataset.id === id) old.remove();
}

/** Shows a notice, which goes by itself unless it is bad or stays. `act` is what it offers: the text of a button, and
 * what that does. */
export function notice(text, { isBad = false, id = "", stays = false, act = null } = {}) {
  const place = find("notices");
  // The same sentence is there once, also if two tabs were told it.
  for (const old of [...place.children])
    if ((id && old.dataset.id === id) || old.querySelector("span").textContent === text) old.remove();
  const said = make("span", { textContent: text });
  const box = make("div", { className: `notice${isBad ? " bad" : ""}`, "data-id": id }, said);
  const press = () => {
    box.remove();
    act[1]();
  };
  if (act) box.append(make("button", { className: "offered", textContent: act[0], onclick: press }));
  box.append(make("button", { textContent: "×", "aria-label": "Close", onclick: () => box.remove() }));
  place.append(box);
  while (place.children.length > 4) place.firstChild.remove();
  if (!isBad && !stays) setTimeout(() => box.remove(), 6000);
  return box;
}
