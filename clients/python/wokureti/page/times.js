// Frames as times, and what a person types for a frame.

/** The time of a frame: hours, minutes, seconds and thousandths. `times` has the milliseconds of each frame, if the
 * rate varies. */
export function timeText(frame, rate, times = null) {
  const milliseconds = times?.[frame] ?? Math.round((frame / rate) * 1000);
  const seconds = Math.floor(milliseconds / 1000);
  const parts = [Math.floor(seconds / 3600), Math.floor(seconds / 60) % 60, seconds % 60].map((part) =>
    String(part).padStart(2, "0"),
  );
  return `${parts.join(":")}.${String(milliseconds % 1000).padStart(3, "0")}`;
}

/** The frame that a text means: a number, a step from the current frame with its sign, or a time. Null if it means
 * none. */
export function frameOf(text, current, rate, times = null) {
  const word = text.trim().replace(/^−/, "-");
  if (/^\d{1,15}$/.test(word)) return Number(word);
  if (/^[+-]\d{1,15}$/.test(word)) return Math.max(0, current + Number(word));
  if (!/^(\d{1,6}:){0,2}\d{1,6}([.,]\d{1,9})?$/.test(word)) return null;
  const seconds = word.replace(",", ".").split(":").reduce((sum, part) => 60 * sum + Number(part), 0);
  // The frame that is shown at that time.
  if (times) return Math.max(0, times.findLastIndex((time) => time <= seconds * 1000 + 1e-6));
  return Math.floor(seconds * rate + 1e-6);
}
