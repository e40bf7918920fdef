// The sound of frames as a picture: the lowest and the highest sample of each hundredth of a second, and which of them
// are those of a column of pixels.

/** Milliseconds of a peak, and of a piece of a file that is decoded at a time. */
export const STEP = 10;
export const PIECE = 60000;
const PER_PIECE = PIECE / STEP;

/** The peaks of decoded samples, of which the first one is at a millisecond of the piece: pairs of the lowest and the
 * highest one, -127 to 127. */
export function peaksOf(channels, rate, begins = 0) {
  const count = Math.max(0, Math.min(PER_PIECE, Math.ceil((begins + (channels[0].length * 1000) / rate) / STEP)));
  const found = new Int8Array(2 * count);
  for (let peak = 0; peak < count; peak++) {
    const [first, end] = [peak, peak + 1].map((place) =>
      Math.max(0, Math.round(((place * STEP - begins) * rate) / 1000)),
    );
    let [low, high] = [0, 0];
    for (const samples of channels) {
      for (let at = Math.min(end, samples.length) - 1; at >= first; at--) {
        if (samples[at] < low) low = samples[at];
        else if (samples[at] > high) high = samples[at];
      }
    }
    found[2 * peak] = Math.round(127 * Math.max(-1, low));
    found[2 * peak + 1] = Math.round(127 * Math.min(1, high));
  }
  return found;
}

/** Runs of frames as the engine tells them, with the first frame of each. */
export function numbered(runs) {
  let at = 0;
  return runs.map(([count, of, start, length]) => ({ first: (at += count) - count, count, of, start, length }));
}

/** When the sound of frames of a source is heard, from one boundary to another: in which files, from and until which
 * millisecond. */
export function timesOf(runs, from, end) {
  let [low, high] = [0, runs.length - 1];
  while (low < high) {
    const middle = (low + high + 1) >> 1;
    if (runs[middle].first <= from) low = middle;
    else high = middle - 1;
  }
  const found = [];
  for (let place = low; place < runs.length && (runs[place].first < end || place === low); place++) {
    const { first, count, of, start, length } = runs[place];
    const [one, other] = [from, end].map((frame) =>
      start + (Math.max(0, Math.min(count, frame - first)) / count) * length,
    );
    if (of !== null && one < other) found.push({ of, from: one, end: other });
  }
  return found;
}

/** How loud the sound is at a place of a shot, 0 to 1: it fades as the picture does. */
function levelOf({ count, fadeIn, fadeOut }, place) {
  return Math.min(1, fadeIn ? place / fadeIn : 1, fadeOut ? (count - place) / fadeOut : 1);
}

/** For each column of pixels of shots, which are drawn from `left` to `right`, the times of its sound, and how loud it
 * is there. `runsOf` has the runs of a source, if they are known. */
export function columnsOf(blocks, width, runsOf) {
  const found = [];
  for (const { shot, left, right } of blocks) {
    const runs = right > 0 && left < width ? runsOf(shot.source) : null;
    if (!runs?.length) continue;
    const scale = (right - left) / shot.count;
    for (let x = Math.max(0, Math.floor(left)); x < Math.min(width, right); x++) {
      const [one, other] = [x, x + 1].map((pixel) => Math.max(0, Math.min(shot.count, (pixel - left) / scale)));
      found.push({
        x,
        level: levelOf(shot, (one + other) / 2),
        times: timesOf(runs, shot.first + one, shot.first + other),
      });
    }
  }
  return found;
}

/** The lowest and the highest peak from one millisecond to another. `pieces` has the peaks of pieces, by their
 * numbers. */
export function loudest(pieces, from, end) {
  let [low, high] = [0, 0];
  const last = Math.ceil(end / STEP);
  for (let at = Math.max(0, Math.floor(from / STEP)); at < last; ) {
    const number = Math.floor(at / PER_PIECE);
    const stop = Math.min(last, (number + 1) * PER_PIECE);
    const peaks = pieces.get(number);
    for (
      let place = 2 * (at - number * PER_PIECE);
      peaks && place < Math.min(peaks.length, 2 * (stop - number * PER_PIECE));
      place += 2
    ) {
      if (peaks[place] < low) low = peaks[place];
      if (peaks[place + 1] > high) high = peaks[place + 1];
    }
    at = stop;
  }
  return [low, high];
}

/** The numbers of the pieces that times need. */
export function piecesOf({ from, end }) {
  const first = Math.max(0, Math.floor(from / PIECE));
  return Array.from({ length: Math.max(0, Math.ceil(end / PIECE) - first) }, (_, place) => first + place);
}
