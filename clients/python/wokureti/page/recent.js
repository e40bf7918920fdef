// The streams that were edited before, on the page that opens a file.

import { find, make } from "./elements.js";

/** Lists what was edited before: each has a `name`, a number of `edits`, `when` in milliseconds, and may have a
 * `folder`. `pick` is called with the one that is pressed. */
export function writeRecent(entries, pick) {
  find("recent").hidden = !entries.length;
  const items = entries.map((entry) => {
    const edits = entry.edits === 1 ? "1 edit" : `${entry.edits.toLocaleString("en")} edits`;
    const when = new Date(entry.when).toLocaleString("en-GB", { dateStyle: "medium", timeStyle: "short" });
    const about = [edits, when, entry.folder].filter(Boolean).join(" · ");
    const name = make("span", { className: "text", textContent: entry.name });
    const sub = make("span", { className: "sub", textContent: about });
    return make("li", {}, make("button", { className: "row", onclick: () => pick(entry) }, name, sub));
  });
  find("recent-list").replaceChildren(...items);
}
