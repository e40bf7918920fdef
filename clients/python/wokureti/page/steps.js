// The request lines of edits of several packets. Each list is made as one step, line by line, so numbers are those that
// are true then.

/** Deletes packets `first` to `end` - 1. */
export function deleted(first, end) {
  return Array.from({ length: end - first }, () => `delete ${first}`);
}

/** Holds the picture before in the place of packets. A held packet has the time stamp of the packet before it: so it is
 * inserted after the packet that it replaces. */
export function held(first, end) {
  const lines = [];
  for (let at = first; at < end; at++) lines.push(`hold ${at + 1}`, `delete ${at}`);
  return lines;
}

/** The same for packets that give no size of their own, such as a broken key packet: with the time stamp of the packet
 * before. */
export function heldBefore(first, end) {
  const lines = [];
  for (let at = first; at < end; at++) lines.push(`hold ${at}`, `delete ${at + 1}`);
  return lines;
}

/** Packets of no bytes in the place of packets; they keep the time stamps. */
export function dropped(first, end) {
  return Array.from({ length: end - first }, (_, turn) => `replace ${first + turn} -`);
}

/** Edits of another source than the current one. */
export function ofSource(lines, source, current) {
  return source === current ? lines : [`use ${source}`, ...lines];
}

/** The bytes as HEX. */
export function hexadecimal(bytes) {
  if (!bytes.length) return "-";
  let text = "";
  for (const byte of bytes) text += byte.toString(16).padStart(2, "0");
  return text;
}

/** The packet in the bytes of a file: those of the first packet if it is an IVF file, else all of them. */
export function packetOf(bytes) {
  const isIvf = bytes.length >= 44 && bytes[0] === 0x44 && bytes[1] === 0x4b && bytes[2] === 0x49 && bytes[3] === 0x46;
  if (!isIvf) return bytes;
  const view = new DataView(bytes.buffer, bytes.byteOffset, bytes.byteLength);
  const start = view.getUint16(6, true);
  return bytes.subarray(start + 12, start + 12 + view.getUint32(start, true));
}

/** The packet that an edit is about, or null. */
export function packetOfLine(line) {
  const [word, ...rest] = line.split(" ");
  const place = { insert: 0, replace: 0, delete: 0, move: 1, copy: 2, blank: 0, hold: 0 }[word];
  return place === undefined || !/^\d+$/.test(rest[place] || "") ? null : Number(rest[place]);
}
