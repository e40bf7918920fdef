// SHA-256 (FIPS 180-4) of bytes that come in parts: the browser's own takes all at once, and pages from some addresses
// have none.

const ROUND = Uint32Array.from(primes(64), (prime) => part(Math.cbrt(prime)));
const START = Uint32Array.from(primes(8), (prime) => part(Math.sqrt(prime)));

function primes(count) {
  const found = [];
  for (let one = 2; found.length < count; one++) if (found.every((prime) => one % prime)) found.push(one);
  return found;
}

/** The first 32 bits of the part after the point. */
function part(value) {
  return Math.floor((value - Math.floor(value)) * 2 ** 32);
}

const turned = (value, by) => (value >>> by) | (value << (32 - by));

export class Sha256 {
  constructor() {
    this.state = START.slice();
    this.block = new Uint8Array(64);
    this.words = new Uint32Array(64);
    this.view = new DataView(this.block.buffer);
    this.length = 0;
  }

  add(bytes) {
    let place = this.length % 64;
    this.length += bytes.length;
    for (let at = 0; at < bytes.length; ) {
      const count = Math.min(64 - place, bytes.length - at);
      this.block.set(bytes.subarray(at, at + count), place);
      at += count;
      place += count;
      if (place < 64) break;
      this.mix();
      place = 0;
    }
    return this;
  }

  mix() {
    const { words, state, view } = this;
    for (let at = 0; at < 16; at++) words[at] = view.getUint32(4 * at);
    for (let at = 16; at < 64; at++) {
      const one = words[at - 15];
      const two = words[at - 2];
      words[at] =
        words[at - 16] +
        (turned(one, 7) ^ turned(one, 18) ^ (one >>> 3)) +
        words[at - 7] +
        (turned(two, 17) ^ turned(two, 19) ^ (two >>> 10));
    }
    let a = state[0] | 0,
      b = state[1] | 0,
      c = state[2] | 0,
      d = state[3] | 0,
      e = state[4] | 0,
      f = state[5] | 0,
      g = state[6] | 0,
      h = state[7] | 0;
    for (let at = 0; at < 64; at++) {
      const one =
        (h + (turned(e, 6) ^ turned(e, 11) ^ turned(e, 25)) + ((e & f) ^ (~e & g)) + ROUND[at] + words[at]) | 0;
      const two = ((turned(a, 2) ^ turned(a, 13) ^ turned(a, 22)) + ((a & b) ^ (a & c) ^ (b & c))) | 0;
      h = g;
      g = f;
      f = e;
      e = (d + one) | 0;
      d = c;
      c = b;
      b = a;
      a = (one + two) | 0;
    }
    [a, b, c, d, e, f, g, h].forEach((value, place) => (state[place] += value));
  }

  /** The digest in hexadecimal. Nothing can be added afterwards. */
  hex() {
    const bits = this.length * 8;
    const end = new Uint8Array(((119 - (this.length % 64)) % 64) + 9);
    end[0] = 0x80;
    const view = new DataView(end.buffer);
    view.setUint32(end.length - 8, Math.floor(bits / 2 ** 32));
    view.setUint32(end.length - 4, bits >>> 0);
    this.add(end);
    return [...this.state].map((word) => word.toString(16).padStart(8, "0")).join("");
  }
}
