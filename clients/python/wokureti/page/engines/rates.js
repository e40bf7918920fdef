// The frames a second of a file, and the time of a frame, as the Python client has them (tools/times.py).

import { SHOWN } from "./tags.js";

// Frames a second that a time base may be the rate of, at most, and rates that clips have.
const MOST_RATE = 240;
const STANDARD = /** @type {[number, number][]} */ ([
  [24000, 1001], [24, 1], [25, 1], [30000, 1001], [30, 1], [48, 1], [50, 1], [60000, 1001], [60, 1], [120, 1],
  [10, 1], [12, 1], [15, 1], [20, 1],
]);
// A step that is rounded is not smaller.
const LEAST_ROUNDED = 8;

/** A header without a rate has 30 frames a second. */
export function baseOf({ rate, scale }) {
  return rate && scale ? [rate, scale] : [30, 1];
}

function reduced(rate, scale) {
  let [one, other] = [rate, scale];
  while (other) [one, other] = [other, one % other];
  return [rate / one, scale / one];
}

function shownStamps({ stamps, tags }) {
  return stamps.filter((_, place) => tags[place] & SHOWN);
}

function forward(shown) {
  return shown.slice(1).map((stamp, place) => stamp - shown[place]).filter((step) => step > 0);
}

/** The lower one of two in the middle. */
function middle(steps) {
  return [...steps].sort((one, other) => one - other)[(steps.length - 1) >> 1];
}

/** The median of the steps between the time stamps of shown packets; 1 if there is none. */
export function stepOf(file) {
  const steps = forward(shownStamps(file));
  return steps.length ? middle(steps) : 1;
}

/** The frames a second of a file as a pair, by the time stamps of its shown packets. */
export function rateOf(file) {
  return (file.rate ??= foundRate(file));
}

function foundRate(file) {
  const [rate, scale] = baseOf(file.head);
  const shown = shownStamps(file);
  const steps = forward(shown);
  const isRate = rate <= MOST_RATE * scale;
  if (!steps.length) return isRate ? [rate, scale] : [30, 1];
  const step = middle(steps);
  if (step === 1 && isRate) return [rate, scale];
  const span = shown.at(-1) - shown[0];
  const far = steps.reduce((most, one) => Math.max(most, Math.abs(one - step)), 0);
  if (!(step >= LEAST_ROUNDED && steps.length === shown.length - 1 && far > 0 && far <= 1))
    return reduced(rate, scale * step);
  // The whole span is rounded to a tick too.
  const found = (rate * steps.length) / (scale * span);
  const away = ([one, other]) => Math.abs(one / other - found);
  const near = STANDARD.filter((one) => away(one) <= (2 * found) / span);
  if (!near.length) return reduced(rate * steps.length, scale * span);
  // Of a short clip several are near: whole rates come first.
  return near.reduce((best, one) => (one[1] < best[1] || (one[1] === best[1] && away(one) < away(best)) ? one : best));
}

/** The duration of each packet of a file: from its time stamp to that of the next shown packet; the median step where
 * that is 0, or goes back, or there is none. */
export function durationsOf(file) {
  const { stamps, tags } = file;
  const step = stepOf(file);
  const found = [];
  let after = null;
  for (let place = stamps.length - 1; place >= 0; place--) {
    found[place] = after !== null && after > stamps[place] ? after - stamps[place] : step;
    if (tags[place] & SHOWN) after = stamps[place];
  }
  return found;
}
