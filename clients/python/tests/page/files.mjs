// Small files, byte by byte as docs/reference/options.md and RFC 6386 have them.

/** An IVF file: `packets` are pairs of a time stamp and bytes. */
export function ivf(packets, { rate = 30, scale = 1, width = 16, height = 16, claimed = packets.length, more = [] } = {}) {
  const bytes = [...new TextEncoder().encode("DKIF"), 0, 0, 32, 0, ...new TextEncoder().encode("VP80")];
  const little = (value, count) => Array.from({ length: count }, (_, at) => Math.floor(value / 256 ** at) % 256);
  bytes.push(...little(width, 2), ...little(height, 2), ...little(rate, 4), ...little(scale, 4), ...little(claimed, 4), 0, 0, 0, 0);
  for (const [stamp, data] of packets) bytes.push(...little(data.length, 4), ...little(stamp, 8), ...data);
  return Uint8Array.from([...bytes, ...more]);
}

// The first byte of a packet: bit 0 is 0 in a key packet, bit 4 is 1 if the frame is shown (RFC 6386, section 9.1).
export const KEY = [0x10, 0, 0, 1];
export const INTER = [0x11, 0, 0, 2];
export const HIDDEN = [0x01, 0, 0, 3];
