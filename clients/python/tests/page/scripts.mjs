// The frames of a script, as docs/reference/requests.md defines each node: what the page writes and reads is compared with these.

/** The frames of a script: of each the source, its frame there, and the weight of the picture, 0 (black) to 1. */
export function framesOf(script, counts) {
  const source = (number) => Array.from({ length: counts[number] }, (_, frame) => [number, frame, 1]);
  const nodes = [source(0)];
  for (const text of script === "-" ? [] : script.split(";")) {
    const [word, ...rest] = text.trim().split(/\s+/);
    const numbers = rest.map(Number);
    const [a, first, count, from, to] = numbers;
    const part = ([node, start, length]) => nodes[node].slice(start, start + length);
    const kinds = {
      source: () => source(a),
      trim: () => part(numbers),
      splice: () => [...nodes[a], ...nodes[first]],
      parts: () => Array.from({ length: numbers.length / 3 }, (_, at) => part(numbers.slice(3 * at, 3 * at + 3))).flat(),
      crop: () => nodes[a],
      fade: () => nodes[a].map((frame, at) => weighted(frame, (from + (to - from) * Math.max(0, Math.min(1, (at - first) / count))) / 256)),
    };
    if (word === "fade" && !count) throw new Error("refused Number");
    nodes.push(kinds[word]());
  }
  if (nodes.length > 17) throw new Error("refused Nodes");
  return rounded(nodes.at(-1));
}

function weighted([source, frame, weight], by) {
  return [source, frame, weight * by];
}

function rounded(frames) {
  return frames.map(([source, frame, weight]) => [source, frame, Math.round(weight * 1e6) / 1e6]);
}

/** The frames of shots: the first ones fade in from black, the last ones out to black. */
export function framesOfShots(shots) {
  const all = shots.flatMap(({ source, first, count, fadeIn, fadeOut }) =>
    Array.from({ length: count }, (_, at) => {
      const out = at - (count - fadeOut);
      return weighted([source, first + at, fadeIn ? Math.min(at / fadeIn, 1) : 1], fadeOut && out > 0 ? 1 - out / fadeOut : 1);
    }),
  );
  return rounded(all);
}

/** Numbers by chance, the same ones for the same seed: below `most`. */
export function chances(seed) {
  let state = seed;
  return (most) => {
    state = (Math.imul(state, 1103515245) + 12345) & 0x7fffffff;
    return (state >> 8) % most;
  };
}
