// Frames as packets of VP8, by the browser's VideoEncoder.

// The codec; frames that the encoder has at a time, at most; bits a second of a sample for the first try, and bits a
// second at most.
const CODEC = "vp8";
const MOST_QUEUE = 8;
const FIRST = 1;
const MOST = 1e9;
// Tries between the bits that are too few and those that are enough.
const TRIES = 3;
// How long is waited for the encoder.
const PAUSE = 5;

export const NO_ENCODER =
  "This browser has no VideoEncoder for VP8, which Chromium 94 and Firefox 130 have. Open the page there, or the " +
  "file with `wokureti open`, or run `wokureti export --code-changed`";

function configOf(width, height, bitrate, framerate) {
  return { codec: CODEC, width, height, bitrate, framerate, bitrateMode: "variable", latencyMode: "quality" };
}

/** Whether the browser codes frames of this size. */
export async function canEncode(width, height) {
  if (typeof VideoEncoder === "undefined") return false;
  return VideoEncoder
    .isConfigSupported(configOf(width, height, 1e6, 30))
    .then(({ supported }) => supported, () => false);
}

export function check(signal) {
  if (signal?.aborted) throw new DOMException("it was stopped", "AbortError");
}

/** The samples with a column and a row more where those of luma are an odd number: Firefox takes no other frames. */
function evened({ width, height, samples }, wide, high) {
  const luma = width * height;
  const found = new Uint8Array(wide * high + samples.length - luma);
  for (let row = 0; row < high; row++) {
    const from = Math.min(row, height - 1) * width;
    found.set(samples.subarray(from, from + width), row * wide);
    if (wide > width) found[(row + 1) * wide - 1] = samples[from + width - 1];
  }
  found.set(samples.subarray(luma), wide * high);
  return found;
}

/** A frame of the engine for the encoder. */
function videoFrame(frame, timestamp) {
  const { width, height, samples } = frame;
  const [wide, high] = [width + (width & 1), height + (height & 1)];
  const planes = wide === width && high === height ? samples : evened(frame, wide, high);
  return new VideoFrame(planes, {
    format: "I420",
    codedWidth: wide,
    codedHeight: high,
    visibleRect: { x: 0, y: 0, width, height },
    timestamp,
  });
}

/** The packets of so many frames, of which `frames(from)` has some from one on; a key packet first. `got` hears how
 * many were coded. */
async function packetsOf(frames, count, { bitrate, framerate, signal, got }) {
  const packets = [];
  let failed = null;
  const encoder = new VideoEncoder({
    output(chunk) {
      const packet = new Uint8Array(chunk.byteLength);
      chunk.copyTo(packet);
      packets.push(packet);
    },
    error: (error) => (failed = error),
  });
  try {
    let size = null;
    for (let at = 0; at < count; ) {
      for (const frame of await frames(at)) {
        check(signal);
        if (!size) encoder.configure(configOf(frame.width, frame.height, bitrate, framerate));
        size ??= frame;
        if (frame.width !== size.width || frame.height !== size.height)
          throw new Error("frames that are coded together have one size");
        while (encoder.encodeQueueSize > MOST_QUEUE && !failed) await new Promise((done) => setTimeout(done, PAUSE));
        if (failed) throw failed;
        const given = videoFrame(frame, Math.round((at * 1e6) / framerate));
        encoder.encode(given, { keyFrame: at === 0 });
        given.close();
        got(++at);
      }
    }
    await encoder.flush();
    if (failed) throw failed;
  } catch (error) {
    if (error.name === "AbortError") throw error;
    throw new Error(`The browser could not code the frames: ${error.message}`);
  } finally {
    if (encoder.state !== "closed") encoder.close();
  }
  const isShown = (packet) => packet.length > 2 && packet[0] & 16;
  if (packets.length !== count || !packets.every(isShown) || packets[0][0] & 1)
    throw new Error(`The browser made ${packets.length} packets of ${count} frames`);
  return packets;
}

/** Codes frames with as few bits as are found by which each has at least so many decibels. `frames(from)` has some of
 * the `count` frames, `measure(packets, least)` the PSNR of each up to the first one that has less. `told(turn, done)`
 * hears how far it is. */
export async function encoded(frames, count, measure, { least, framerate, samples, signal, told }) {
  let turn = 0;
  const attempt = async (bitrate) => {
    turn++;
    const packets = await packetsOf(frames, count, {
      bitrate: Math.round(bitrate),
      framerate,
      signal,
      got: (done) => told(turn, done / 2),
    });
    const psnr = await measure(packets, least, (done) => told(turn, (count + done) / 2));
    return { packets, psnr, isEnough: psnr.length === count && Math.min(...psnr) >= least };
  };
  let [low, high, best, worst] = [0, samples * framerate * FIRST, null, 0];
  for (;;) {
    const found = await attempt(Math.min(high, MOST));
    if (found.isEnough) {
      best = found;
      break;
    }
    worst = Math.min(...found.psnr);
    if (high >= MOST)
      throw new Error(
        `The browser codes these frames with ${worst.toFixed(1)} dB at least, and not with ${least}: ask for less, ` +
          `or run \`wokureti export --code-changed\`. Firefox scales frames of an odd width or height`,
      );
    [low, high] = [high, high * 4];
  }
  for (let tries = 0; tries < TRIES; tries++) {
    const middle = low ? Math.sqrt(low * high) : high / 4;
    const found = await attempt(middle);
    if (found.isEnough) [best, high] = [found, middle];
    else low = middle;
  }
  return best;
}
