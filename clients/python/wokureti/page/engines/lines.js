// Request lines and replies as words: docs/reference/requests.md has the requests.

/** The requests that change something. */
export const EDITS = ["use", "insert", "replace", "delete", "move", "copy", "blank", "hold", "hide", "show", "script"];

export function wordsOf(line) {
  return line.split(" ").filter((word) => word);
}

export function firstWord(line) {
  return wordsOf(line)[0] ?? "";
}

/** Whether a line is an edit, and nothing but one. */
export function isEdit(line) {
  const words = wordsOf(line);
  return EDITS.includes(words[0]) && !/[\r\n]/.test(line) && !(words[0] === "script" && words.length === 1);
}

/** A line with one space between its words. */
export function plain(line) {
  return wordsOf(line).join(" ");
}

/** A script with a space after each node, as people write it. */
export function spaced(script) {
  return script.replaceAll(";", "; ");
}
