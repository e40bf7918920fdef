// The list of edits as a text, as the Python client keeps it: request lines, and comments that say which stream it is
// of, and what is one step.

import { isEdit, plain } from "./lines.js";

const FIRST = /^# wokureti: edits of (\d+) packets, (\d+) bytes, sha256 ([0-9a-f]{64})$/;
const SOURCE = /^# source ([1-7]): (\d+) packets, (\d+) bytes, sha256 ([0-9a-f]{64}), "(.*)"$/;
const STEP = /^# step (\d{1,9})(?: (.*))?$/;
// Characters of a title, and edits and characters of a list, at most.
const MOST_TITLE = 100;
const MOST_EDITS = 1 << 20;
const MOST_TEXT = 1 << 26;

export function titled(title) {
  return title.split(/\s+/).filter((word) => word).join(" ").slice(0, MOST_TITLE);
}

/** The text of the edits of files: `steps` have lines and a title. */
export function textOf(steps, files) {
  const lines = files.map(({ count, bytes, digest, name }, source) =>
    (source
      ? `# source ${source}: ${count} packets, ${bytes} bytes, sha256 ${digest}, ${JSON.stringify(name)}`
      : `# wokureti: edits of ${count} packets, ${bytes} bytes, sha256 ${digest}`),
  );
  for (const { title, lines: edits } of steps) {
    if (edits.length > 1) lines.push(`# step ${edits.length} ${title}`.trimEnd());
    lines.push(...edits);
  }
  return `${lines.join("\n")}\n`;
}

/** The steps of a text, and the other streams that it names. It may be anybody's, so whatever is no list of edits of
 * this file is refused. */
export function stepsOf(text, file) {
  if (typeof text !== "string" || text.length > MOST_TEXT) throw new Error("it is no text of a list");
  const lines = text.split("\n");
  if (lines.pop() !== "") throw new Error("its last line is cut off");
  const found = FIRST.exec(lines[0] ?? "");
  if (!found || Number(found[1]) !== file.count || Number(found[2]) !== file.bytes || found[3] !== file.digest)
    throw new Error("it is of another stream");
  const steps = [];
  const others = [];
  let [left, title, count, isOpen] = [0, "", 0, false];
  for (const [place, line] of lines.slice(1).entries()) {
    if (line.startsWith("#") || !line.trim()) {
      const [step, source] = [STEP.exec(line), SOURCE.exec(line)];
      if (step) [left, title] = [Number(step[1]), titled(step[2] ?? "")];
      if (source)
        others.push({
          source: Number(source[1]),
          count: Number(source[2]),
          bytes: Number(source[3]),
          digest: source[4],
          name: source[5],
        });
      continue;
    }
    if (!isEdit(line) || ++count > MOST_EDITS) throw new Error(`line ${place + 2} is no edit`);
    if (left > 0 && isOpen) steps.at(-1).lines.push(plain(line));
    else steps.push({ title, lines: [plain(line)] });
    left = Math.max(0, left - 1);
    isOpen = left > 0;
    title = "";
  }
  return { steps, others };
}
