// The calls of wokureti.h over the library in WebAssembly. Addresses have 32 bits and are numbers here; sizes have 64
// bits and are BigInts.

const FAULTS = [
  "", "Header", "Magic", "FourCc", "HeaderLength", "TooMany", "NoMemory", "DocType", "NoTracks", "NoVideo", "Encoded",
  "Scale",
];
// What a person can do about each of them.
const REASONS = {
  Header: "it is shorter than the header of its kind, or empty",
  Magic: "it is neither IVF nor WebM; another kind is read by `wokureti open`",
  FourCc: "its video is not VP8",
  HeaderLength: "the length of its header is wrong",
  TooMany: "it has more than 1,048,576 packets",
  NoMemory: "there is not memory enough for its packets: close other tabs, or cut it with `wokureti cut`",
  DocType: "it is neither WebM nor Matroska",
  NoTracks: "it has no list of tracks",
  NoVideo: "it has no track of VP8",
  Encoded: "its packets are compressed or encrypted once more",
  Scale: "its unit of time is wrong",
};
// Bytes of a file that are read at a time, and of a text that are copied.
const SLICE = 1 << 22;
// Numbers of statuses.
const [FILE, MEMORY, CLOSED, ROOM, LOST] = [2, 3, 4, 5, 7];
const [PACKET, SIZE_DIFFERS, CHANGED] = [24, 26, 33];
// The reply to a line that is out of memory, after which nothing is changed.
const NO_MEMORY = "refused NoMemory";

/** A call that is refused: the status of HTTP that a server would answer with, and `reply`, `reason` or `error`. */
export class Refused extends Error {
  constructor(status, members) {
    super(members.error || members.reason || members.reply);
    Object.assign(this, { status, members });
  }
}

/** The memory is full. With `isUnsure` the line that was asked may have been made. */
export function full(isUnsure = false) {
  return Object.assign(
    new Refused(507, {
      error:
        "There is not memory enough for this. Nothing is lost: the edits are kept. Close other tabs, or open the " +
        "file with `wokureti open`.",
    }),
    { isUnsure },
  );
}

/** Bytes of a file, or of an array. */
export function bytesOf(source, first, end) {
  if (ArrayBuffer.isView(source)) return source.subarray(first, end);
  try {
    return new Uint8Array(new FileReaderSync().readAsArrayBuffer(source.slice(first, end)));
  } catch (error) {
    throw new Refused(409, {
      error: `${source.name || "the file"} cannot be read: ${error.message} The edits are kept: open the file again`,
    });
  }
}

export function sizeOfSource(source) {
  return ArrayBuffer.isView(source) ? source.length : source.size;
}

/** A session in this thread. */
export class Calls {
  constructor(module) {
    this.calls = /** @type {any} */ (new WebAssembly.Instance(module, {}).exports);
    this.handle = this.room(8);
    this.fault = this.room(16);
    this.shown = this.room(40);
    this.length = this.room(8);
    this.samples = { at: 0, size: 0 };
    this.view(this.handle, 8).setBigUint64(0, 0n, true);
  }

  room(size) {
    const at = this.calls.wk_room(BigInt(size)) >>> 0;
    if (at === 0) throw full();
    return at;
  }

  view(at, size) {
    return new DataView(this.calls.memory.buffer, at, size);
  }

  bytes(at, size) {
    return new Uint8Array(this.calls.memory.buffer, at, size);
  }

  /** The number that a call wrote. */
  number(at) {
    return Number(this.view(at, 8).getBigUint64(0, true));
  }

  /** Calls a function with a room of these bytes in the module's memory. */
  withRoom(size, call) {
    const at = this.room(size || 1);
    try {
      return call(at, BigInt(size));
    } finally {
      this.calls.wk_free(at);
    }
  }

  with(data, call) {
    return this.withRoom(data.length, (at, size) => {
      this.bytes(at, data.length).set(data);
      return call(at, size);
    });
  }

  /** Opens a session over IVF and WebM files. The one before it ends. The pictures of the cached states take at most
   * `most` bytes, four for each. `look` is called with the bytes of each file, as long as they are in the memory, and
   * `told` with how many bytes were read. */
  open(sources, most, look = (place, bytes) => {}, told = (count) => {}) {
    const ends = [];
    for (const source of sources) ends.push((ends.at(-1) ?? 0) + sizeOfSource(source));
    this.calls.wk_close(this.handle);
    const total = ends.at(-1);
    if (total > 2 ** 31 - 4096) throw full();
    const status = this.withRoom(total, (at, size) => {
      sources.forEach((source, place) => {
        const first = at + (place ? ends[place - 1] : 0);
        this.read(source, first, told);
        look(place, () => this.bytes(first, sizeOfSource(source)));
      });
      const list = new Uint8Array(BigUint64Array.from(ends, BigInt).buffer);
      return this.with(list, (where) =>
        this.calls.wk_open_bytes(this.handle, at, size, where, BigInt(sources.length), BigInt(most), 0, 0n, this.fault),
      );
    });
    const view = this.view(this.fault, 16);
    const cause = FAULTS[view.getUint32(8, true)];
    if (status === FILE && cause === "NoMemory") throw full();
    if (status === FILE)
      throw new Refused(409, {
        error:
          `${sources[Number(view.getBigUint64(0, true))].name || "the file"} is not opened, ${cause}: ` +
          `${REASONS[cause]}`,
      });
    if (status) throw full();
  }

  /** Copies a file into the module's memory, some of it at a time. */
  read(source, at, told) {
    for (let first = 0; first < sizeOfSource(source); first += SLICE) {
      const part = bytesOf(source, first, Math.min(sizeOfSource(source), first + SLICE));
      this.bytes(at + first, part.length).set(part);
      told(part.length);
    }
  }

  /** The text that the last call left, in pieces that are the caller's own. */
  pieces() {
    const size = this.number(this.length);
    return this.withRoom(size, (at) => {
      this.calls.wk_text(this.handle, at, BigInt(size), this.length);
      const found = [];
      for (let first = 0; first < size; first += SLICE)
        found.push(this.bytes(at + first, Math.min(SLICE, size - first)).slice());
      return found;
    });
  }

  text() {
    const decoder = new TextDecoder();
    return this.pieces().map((piece) => decoder.decode(piece, { stream: true })).join("") + decoder.decode();
  }

  checked(status) {
    if (status === MEMORY || status === LOST) throw full(status === LOST);
    if (status === CLOSED) throw new Refused(503, { error: "no file is open" });
    return status;
  }

  /** The reply to a request line, without its last newline. */
  request(line) {
    this.checked(
      this.with(new TextEncoder().encode(line), (at, size) =>
        this.calls.wk_request(this.handle, at, size, this.length),
      ),
    );
    try {
      return this.text().replace(/\n$/, "");
    } catch (error) {
      throw error instanceof Refused ? full(true) : error;
    }
  }

  /** Why the last line was refused, or an empty text. */
  why() {
    return this.calls.wk_why(this.handle, this.length) ? "" : this.text().trimEnd().replace(/^line \d+: /, "");
  }

  /** What a line that was refused throws. */
  refused(line, reply) {
    if (reply === NO_MEMORY) return full();
    const members = { error: `${line.slice(0, 60)}: ${reply}`, reply, reason: this.why() };
    return new Refused(reply === "refused NoSuchFrame" ? 404 : 409, members);
  }

  /** A reply that is no refusal. */
  answered(line) {
    const reply = this.request(line);
    if (reply.startsWith("refused")) throw this.refused(line, reply);
    return reply;
  }

  /** The size of a frame. */
  size(n) {
    const status = this.checked(this.calls.wk_frame(this.handle, BigInt(n), 0, 0n, 0, 0n, 0, 0n, this.shown));
    if (status === ROOM)
      return [this.view(this.shown, 40).getUint32(16, true), this.view(this.shown, 40).getUint32(20, true)];
    const line = `frame ${n}`;
    throw Object.assign(this.refused(line, this.request(line)), { isOfOtherSize: status === SIZE_DIFFERS });
  }

  /** A frame: its width, height, and a copy of the samples of its planes Y, Cb and Cr, one after the other. */
  frame(n) {
    const [width, height] = this.size(n);
    const [luma, across] = [width * height, (width + 1) >> 1];
    const chroma = across * ((height + 1) >> 1);
    const size = luma + 2 * chroma;
    if (size > this.samples.size) {
      this.calls.wk_free(this.samples.at);
      this.samples = { at: 0, size: 0 };
      this.samples = { at: this.room(size), size };
    }
    this.view(this.shown, 40).setBigUint64(0, BigInt(width), true);
    this.view(this.shown, 40).setBigUint64(8, BigInt(across), true);
    const y = this.samples.at;
    const [cb, cr] = [y + luma, y + luma + chroma];
    const status = this.calls.wk_frame(
      this.handle,
      BigInt(n),
      y,
      BigInt(luma),
      cb,
      BigInt(chroma),
      cr,
      BigInt(chroma),
      this.shown,
    );
    if (status) throw new Refused(500, { error: `frame ${n} was served, and then not (${status})` });
    return { width, height, samples: this.bytes(y, size).slice() };
  }

  /** The packets of a source as an IVF file, in pieces. With `pads` players that use libvpx show the packets that
   * repeat a picture too. */
  save(source, pads, restamps) {
    const status =
      this.checked(this.calls.wk_save_source(this.handle, BigInt(source), pads ? 1 : 0, restamps ? 1 : 0, this.length));
    if (status) throw new Refused(404, { error: "there is no such source" });
    return this.pieces();
  }

  /** The frames that are shown as an IVF file, in pieces. */
  export() {
    return this.withRoom(32, (at) => {
      const status = this.checked(this.calls.wk_export(this.handle, 1, this.length, at));
      if (!status) return this.pieces();
      const [frame, node, source, packet] = [0, 8, 16, 24].map((place) =>
        Number(this.view(at + place, 8).getBigUint64(0, true)),
      );
      if (status === CHANGED)
        throw new Refused(409, {
          error: `frame ${frame} is changed by node ${node}: without coding again it cannot be kept`,
        });
      if (status === PACKET)
        throw new Refused(409, {
          error: `frame ${frame} is refused: source ${source} packet ${packet}. Repair it, or leave the frame out`,
        });
      throw new Refused(409, {
        error: status === 35
          ? "there would be more than 1,048,576 packets, or more than 1 GiB: export the script in parts"
          : `frame ${frame} cannot be exported (${status})`,
      });
    });
  }
}
