// The shots of a script of trims, splices, parts and fades: parts of sources, one after the other. A script that is
// written anew from them has no nodes left over.

import { nodesIn } from "./script.js";

/** Nodes that a script may have. */
export const MOST_NODES = 16;

function shot(source, first, count, fadeIn = 0, fadeOut = 0) {
  return { source, first, count, fadeIn, fadeOut };
}

/** The number of frames of shots. */
export function lengthOf(shots) {
  return shots.reduce((sum, { count }) => sum + count, 0);
}

/** The shots from frame `first` up to `end`; null if one of these is inside a fade. */
export function slice(shots, first, end) {
  const found = [];
  let at = 0;
  for (const one of shots) {
    const from = Math.max(first - at, 0);
    const to = Math.min(end - at, one.count);
    at += one.count;
    if (from >= to) continue;
    if ((from > 0 && from < one.fadeIn) || (to < one.count && to > one.count - one.fadeOut)) return null;
    const fadeIn = from > 0 ? 0 : one.fadeIn;
    const fadeOut = to < one.count ? 0 : one.fadeOut;
    if (fadeIn > to - from || fadeOut > to - from) return null;
    found.push(shot(one.source, one.first + from, to - from, fadeIn, fadeOut));
  }
  return found;
}

/** Shots of which those that follow each other in a source are one. */
export function joined(shots) {
  const found = [];
  for (const one of shots) {
    const last = found[found.length - 1];
    if (last && last.source === one.source && last.first + last.count === one.first && !last.fadeOut && !one.fadeIn) {
      found[found.length - 1] = shot(one.source, last.first, last.count + one.count, last.fadeIn, one.fadeOut);
    } else found.push(one);
  }
  return found;
}

/** The shots with a fade at their beginning or end, or null. */
function faded(shots, [first, count, from, to]) {
  const length = lengthOf(shots);
  const place = from === 0 ? 0 : shots.length - 1;
  const one = shots[place];
  if (!one || count < 1 || count > one.count) return null;
  const found = [...shots];
  if (from === 0 && to === 256 && first === 0 && !one.fadeIn) found[place] = { ...one, fadeIn: count };
  else if (from === 256 && to === 0 && first + count === length && !one.fadeOut)
    found[place] = { ...one, fadeOut: count };
  else return null;
  return found;
}

/** The shots of frames of nodes, one part after the other, or null. */
function ofParts(results, numbers) {
  const found = [];
  for (let at = 0; at < numbers.length; at += 3) {
    const [node, first, count] = numbers.slice(at, at + 3);
    const part = slice(results[node], first, Math.min(first + count, lengthOf(results[node])));
    if (!part) return null;
    found.push(...part);
  }
  return found;
}

/** Shots without their fades. */
export function unfaded(shots) {
  return shots.map((one) => ({ ...one, fadeIn: 0, fadeOut: 0 }));
}

/** The shots of each node of a script, from node 0 on, the stream; and whether they are all of it. */
function resultsOf(script, frames) {
  let isAll = true;
  const results = [[shot(0, 0, frames[0])]];
  for (const text of nodesIn(script)) {
    const [word, ...rest] = text.split(" ");
    const [node, ...numbers] = rest.map(Number);
    if (word === "source") {
      results.push([shot(node, 0, frames[node])]);
      continue;
    }
    if (word === "splice") {
      results.push([...results[node], ...results[numbers[0]]]);
      continue;
    }
    const [found, without] =
      word === "trim" || word === "parts"
        ? [ofParts(results, [node, ...numbers]), () => ofParts(results.map(unfaded), [node, ...numbers])]
        : [word === "fade" ? faded(results[node], numbers) : null, () => results[node]];
    isAll = isAll && found !== null;
    results.push(found || without());
  }
  return { results, isAll };
}

/** The shots of a script, and whether they are all of it: a crop, or a fade in the middle, is not in them. `frames` has
 * the number of frames of each source. */
export function shotsOf(script, frames) {
  const { results, isAll } = resultsOf(script, frames);
  return { shots: joined(results[results.length - 1].filter(({ count }) => count > 0)), isAll };
}

/** The nodes of a script with these frames of what it shows, one range after the other, each the first frame and the
 * one after the last. If the last node is parts itself, they are parts of its nodes, so cut after cut adds no node. */
export function partsOver(script, ranges, frames) {
  const nodes = nodesIn(script);
  const { results } = resultsOf(script, frames);
  const [word, ...rest] = (nodes[nodes.length - 1] ?? "").split(" ");
  let [inner, before] = [[[nodes.length, 0, lengthOf(results[nodes.length])]], nodes];
  if (word === "trim" || word === "parts") {
    before = nodes.slice(0, -1);
    inner = [];
    for (let at = 0; at < rest.length; at += 3) {
      const [node, first, count] = rest.slice(at, at + 3).map(Number);
      inner.push([node, first, Math.max(0, Math.min(count, lengthOf(results[node]) - first))]);
    }
  }
  const found = ranges.flatMap(([from, end]) => within(inner, from, end));
  return [...before, partsText(found.length ? found : [[inner[0][0], 0, 0]])];
}

/** Parts of nodes that are frames `from` to `end` - 1 of parts of nodes. */
function within(parts, from, end) {
  const found = [];
  let at = 0;
  for (const [node, first, count] of parts) {
    const [one, other] = [Math.max(from - at, 0), Math.min(end - at, count)];
    at += count;
    if (one < other) found.push([node, first + one, other - one]);
  }
  return found;
}

/** The nodes of a script that shows these shots. */
export function nodesFor(shots, frames) {
  const nodes = [];
  const known = new Map([["source 0", 0]]);
  const node = (text) => {
    if (!known.has(text)) {
      nodes.push(text);
      known.set(text, nodes.length);
    }
    return known.get(text);
  };
  const parts = [];
  for (const { source, first, count, fadeIn, fadeOut } of shots) {
    let here = node(`source ${source}`);
    const isWhole = first === 0 && count === frames[source];
    if (fadeIn || fadeOut) {
      if (!isWhole) here = node(`trim ${here} ${first} ${count}`);
      if (fadeIn) here = node(`fade ${here} 0 ${fadeIn} 0 256`);
      if (fadeOut) here = node(`fade ${here} ${count - fadeOut} ${fadeOut} 256 0`);
      parts.push({ here, first: 0, count, isWhole: true });
    } else parts.push({ here, first, count, isWhole });
  }
  if (!parts.length) return ["trim 0 0 0"];
  const [one] = parts;
  // The last node is the one that is shown.
  if (parts.length === 1 && one.isWhole && one.here === nodes.length) return nodes;
  return [...nodes, partsText(parts.map(({ here, first, count }) => [here, first, count]))];
}

/** The node of frames of nodes, one part after the other: of each the node, its first frame and how many. One part is a
 * trim. */
export function partsText(parts) {
  return `${parts.length === 1 ? "trim" : "parts"} ${parts.flat().join(" ")}`;
}

/** The shots of ranges of frames, one after the other. Null if a boundary is inside a fade. */
export function picked(shots, ranges) {
  const found = ranges.map(([first, end]) => slice(shots, first, end));
  return found.includes(null) ? null : joined(found.flat());
}

/** The shots, and then all frames of a source. */
export function followed(shots, source, frames) {
  return joined([...shots, shot(source, 0, frames[source])]);
}

/** Frames that fade in or out are a shot that ends or begins with the fade, if they are in one. */
export function fading(shots, { first, end }, isIn) {
  const [before, middle, after] = [slice(shots, 0, first), slice(shots, first, end), slice(shots, end, Infinity)];
  if (!before || !after || !middle || middle.length !== 1) return null;
  const [one] = middle;
  if (isIn ? one.fadeIn || one.fadeOut : one.fadeOut || one.fadeIn) return null;
  return joined([...before, { ...one, [isIn ? "fadeIn" : "fadeOut"]: one.count }, ...after]);
}
