// Where the sound of frames is: runs of frames, as waves.py of the server has them.

import { baseOf } from "./rates.js";
import { SHOWN } from "./tags.js";

// Milliseconds by which a frame may be drawn beside its sound, and by which times of WebM are rounded.
const NEAR = 5;
const ROUNDED = 1.1;

/** For each shown packet of a source the file whose sound it has, -1 for a packet that an edit made, and when that
 * begins there and how long it is, in milliseconds. */
function spansOf(contents, source) {
  const { files } = contents;
  const ticks = files.map(({ head }) => baseOf(head)).map(([rate, scale]) => (1000 * scale) / rate);
  const found = [];
  for (const number of contents.streams[source]) {
    if (!(contents.tags[number] & SHOWN)) continue;
    const [of, place] = contents.timed(number);
    if (place === null) found.push({ of: -1, start: 0, length: contents.duration(number, source) * ticks[source] });
    else found.push({ of, start: files[of].stamps[place] * ticks[of], length: files[of].durations[place] * ticks[of] });
  }
  return found;
}

/** Spans, where packets that edits made keep what is there if the packets around them leave it room, and are silent
 * else. */
function filled(spans) {
  const found = [];
  for (let at = 0; at < spans.length; ) {
    if (spans[at].of >= 0) {
      found.push(spans[at++]);
      continue;
    }
    let end = at;
    while (end < spans.length && spans[end].of < 0) end++;
    const [before, after] = [found.at(-1), spans[end]];
    const whole = spans.slice(at, end).reduce((sum, { length }) => sum + length, 0);
    let start = before ? before.start + before.length : (after?.start ?? 0) - whole;
    const hasRoom = after && (before ? before.of === after.of && after.start - start > whole - ROUNDED : start >= 0);
    for (; at < end; at++) {
      found.push({ of: hasRoom ? after.of : null, start, length: spans[at].length });
      start += spans[at].length;
    }
  }
  return found;
}

/** Runs of frames that last about as long as each other: their number, the source whose file has their sound, or null,
 * when that begins there, and how long all are. */
export function runsOf(contents, source) {
  const runs = [];
  let run = null;
  for (const { of, start, length } of filled(spansOf(contents, source))) {
    if (
      !run ||
      run.of !== of ||
      (of !== null && Math.abs(start - run.end) > NEAR) ||
      !grown(run, of === null ? run.end + length : start + length)
    ) {
      run = { of, start, count: 0, end: start, least: 0, most: Infinity };
      grown(run, start + length);
      runs.push(run);
    }
  }
  return runs.map(({ of, start, count, end, least, most }) => [
    count,
    of,
    start,
    Math.min(Math.max((end - start) / count, least), most) * count,
  ]);
}

/** Adds a frame that ends then to a run, if all its frames are near their times. */
function grown(run, end) {
  const count = run.count + 1;
  const [least, most] = [
    Math.max(run.least, (end - run.start - NEAR) / count),
    Math.min(run.most, (end - run.start + NEAR) / count),
  ];
  if (least > most) return false;
  Object.assign(run, { count, end, least, most });
  return true;
}
