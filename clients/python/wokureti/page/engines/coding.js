// What an export codes again, as the Python client has it (tools/coding.py): frames that the script changes, and leads;
// the script over the sources and the coded frames.

import { objectsOf } from "../details.js";
import { baseOf } from "./rates.js";

// Frames whose origins are asked for at a time; sources of a session; decibels of a frame that is the same.
const PAGE = 4096;
const MOST_SOURCES = 8;
const BEST = 99;

/** The frames of a script as runs: so many from a frame of a source on, and the nodes that change them. */
export function runsOf(answered, frames) {
  const found = [];
  for (let first = 0; first < frames; first += PAGE) {
    for (const { source, source_frame: frame, changed } of objectsOf(
      answered(`origins ${first} ${Math.min(PAGE, frames - first)}`),
    )) {
      const last = found.at(-1);
      if (
        last &&
        last.source === source &&
        last.first + last.count === frame &&
        String(last.changed) === String(changed)
      ) last.count++;
      else found.push({ count: 1, source, first: frame, changed });
    }
  }
  return found;
}

/** The parts of a range of frames, each with whether it is coded. */
function marked(first, end, leads, isChanged) {
  if (isChanged) return [[first, end, true]];
  const found = [];
  let at = first;
  for (const lead of leads) {
    const [start, stop] = [Math.max(at, lead.first), Math.min(end, lead.end)];
    if (start >= stop) continue;
    if (at < start) found.push([at, start, false]);
    found.push([start, stop, true]);
    at = stop;
  }
  if (at < end) found.push([at, end, false]);
  return found;
}

/** The pieces of the frames: how many, from which on, and whether they are coded, or come from a source, from one of
 * its frames on. */
export function piecesOf(runs, leads) {
  const pieces = [];
  let first = 0;
  for (const run of runs) {
    for (const [start, end, isCoded] of marked(first, first + run.count, leads, run.changed.length > 0)) {
      const piece = { first: start, count: end - start, isCoded, source: run.source, start: run.first + start - first };
      const last = pieces.at(-1);
      const goesOn =
        last &&
        last.isCoded === isCoded &&
        (isCoded || (last.source === piece.source && last.start + last.count === piece.start));
      if (goesOn) last.count += piece.count;
      else pieces.push(piece);
    }
    first += run.count;
  }
  return pieces;
}

/** Parts that begin between key packets: an exact cut has hidden packets before them, or their frames up to the next
 * key packet are coded again. */
export function leadsOf(facts, runs) {
  const found = [];
  let [first, before] = [0, null];
  for (const run of runs) {
    const goesOn =
      before && before.source === run.source && before.first + before.count === run.first && !before.changed.length;
    if (!run.changed.length && !goesOn) {
      const lead = leadOf(facts, run, first);
      if (lead) found.push(lead);
    }
    [first, before] = [first + run.count, run];
  }
  return found;
}

function leadOf({ contents, timeline }, run, first) {
  const own = timeline(run.source);
  const place = own.packetOf(run.first);
  const begin = Math.max(0, own.keyBefore(place));
  if (begin === place) return null;
  let count = 0;
  while (count < run.count && !own.keys[own.packetOf(run.first + count)]) count++;
  const after = own.packetOf(run.first + count - 1) + 1;
  const sum = (from, end) => own.sizes.slice(from, end).reduce((all, size) => all + size, 0);
  const [rate, scale] = baseOf(contents.files[run.source].head);
  let ticks = 0;
  for (let at = begin; at < place; at++)
    if (own.frames[at + 1] > own.frames[at]) ticks += contents.duration(own.stream[at], run.source);
  return {
    first,
    end: first + count,
    packets: place - begin,
    bytes: sum(begin, place),
    length: Math.floor((ticks * scale * 1e9) / rate),
    coded_bytes: sum(place, after),
  };
}

/** The script of the pieces, of which source `coded` has those that are coded. */
export function scriptOf(pieces, coded) {
  const sources = [...new Set([
    ...pieces.filter(({ isCoded }) => !isCoded).map(({ source }) => source),
    coded,
  ])].sort((one, other) => one - other);
  const named = sources.filter((source) => source);
  const node = (source) => (source ? named.indexOf(source) + 1 : 0);
  let place = 0;
  const parts = pieces.map(({ isCoded, source, start, count }) => {
    const text = isCoded ? `${node(coded)} ${place} ${count}` : `${node(source)} ${start} ${count}`;
    if (isCoded) place += count;
    return text;
  });
  return [...named.map((source) => `source ${source}`), `parts ${parts.join(" ")}`].join("; ");
}

/** The time stamps of the coded frames in the time base of source 0, and the end of the last one. Sums are rounded, and
 * not each. */
export function stampsOf({ contents, timeline }, runs, pieces) {
  const [toRate, toScale] = baseOf(contents.files[0].head);
  const durations = [];
  for (const { source, first, count } of runs) {
    const own = timeline(source);
    const [rate, scale] = baseOf(contents.files[source].head);
    for (let at = 0; at < count; at++)
      durations.push(
        (contents.duration(own.stream[own.packetOf(first + at)], source) * scale * toRate) / (rate * toScale),
      );
  }
  const stamps = [0];
  let due = 0;
  for (const piece of pieces.filter(({ isCoded }) => isCoded)) {
    for (const duration of durations.slice(piece.first, piece.first + piece.count)) {
      due += duration;
      stamps.push(Math.max(stamps.at(-1) + 1, Math.round(due)));
    }
  }
  return stamps;
}

/** What an export of a `Stream` costs, and how it is made. */
export function planOf(stream, codesLeads = false) {
  const runs = runsOf((line) => stream.session.calls.answered(line), stream.frameCount);
  const facts = { contents: stream.contents, timeline: (source) => stream.timeline(source) };
  const leads = leadsOf(facts, runs);
  const pieces = piecesOf(runs, codesLeads ? leads : []);
  const coded = stream.contents.files.length;
  return {
    lines: stream.session.lines,
    frames: stream.frameCount,
    coded: runs.filter(({ changed }) => changed.length).reduce((sum, { count }) => sum + count, 0),
    leads,
    pieces,
    head: stream.contents.files[0].head,
    stamps: stampsOf(facts, runs, pieces),
    script: scriptOf(pieces, coded),
    isFull: coded >= MOST_SOURCES,
  };
}

/** An IVF file. */
export function ivfOf({ width, height, rate, scale }, stamps, packets) {
  const bytes = new Uint8Array(32 + packets.reduce((sum, { length }) => sum + 12 + length, 0));
  const view = new DataView(bytes.buffer);
  bytes.set(new TextEncoder().encode("DKIF\0\0\x20\0VP80"));
  view.setUint16(12, width, true);
  view.setUint16(14, height, true);
  view.setUint32(16, rate, true);
  view.setUint32(20, scale, true);
  view.setUint32(24, packets.length, true);
  let at = 32;
  packets.forEach((packet, place) => {
    view.setUint32(at, packet.length, true);
    view.setBigUint64(at + 4, BigInt(stamps[place]), true);
    bytes.set(packet, at + 12);
    at += 12 + packet.length;
  });
  return bytes;
}

/** The PSNR of samples against others, over all planes. */
export function psnrOf(one, other) {
  let squares = 0;
  for (let at = 0; at < one.length; at++) squares += (one[at] - other[at]) ** 2;
  return squares ? Math.min(BEST, 10 * Math.log10((255 * 255 * one.length) / squares)) : BEST;
}
