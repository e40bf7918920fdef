//! Times reads of the bit decoder beside the same algorithm written by hand. README.md says more.

use std::hint::black_box;
use std::time::Instant;

const READS: usize = 100_000_000;
const RUNS: usize = 9;

unsafe extern "C" {
    fn decoder_ones(
        bytes: *const u8,
        length: usize,
        probs: *const u8,
        count: usize,
        rounds: u32,
    ) -> u32;
}

/// How many of `rounds` times as many bits as there are probabilities are 1, by our decoder.
fn proved_ones(bytes: &[u8], probs: &[u8], rounds: u32) -> u32 {
    // The call reads the two slices alone.
    unsafe {
        decoder_ones(
            bytes.as_ptr(),
            bytes.len(),
            probs.as_ptr(),
            probs.len(),
            rounds,
        )
    }
}

/// The decoder of RFC 6386, section 7, over a window of 64 bits, of which the low `left` are unread.
#[derive(Clone, Copy)]
struct HandWritten<'a> {
    bytes: &'a [u8],
    value: u64,
    left: u32,
    range: u32,
}

impl<'a> HandWritten<'a> {
    fn new(bytes: &'a [u8]) -> HandWritten<'a> {
        let (value, bytes) = match bytes {
            [] => (0, bytes),
            [first, rest @ ..] => (u64::from(*first), rest),
        };
        HandWritten {
            bytes,
            value,
            left: 0,
            range: 255,
        }
    }

    #[inline]
    fn bit(&mut self, prob: u8) -> bool {
        if self.left < 7 {
            *self = self.refilled();
        }
        let split = 1 + (((self.range - 1) * u32::from(prob)) >> 8);
        let bit = self.value >> self.left >= u64::from(split);
        if bit {
            self.value -= u64::from(split) << self.left;
            self.range -= split;
        } else {
            self.range = split;
        }
        let count = self.range.leading_zeros() - 24;
        self.left -= count;
        self.range <<= count;
        bit
    }

    #[cold]
    #[inline(never)]
    fn refilled(mut self) -> Self {
        let d = self.value >> self.left;
        if d > u64::from(self.range) {
            self.value -= (d - u64::from(self.range)) << self.left;
        }
        while self.left <= 48 {
            let [first, rest @ ..] = self.bytes else {
                break;
            };
            self.bytes = rest;
            self.value = (self.value << 8) | u64::from(*first);
            self.left += 8;
        }
        if self.left < 7 {
            self.value <<= 7 - self.left;
            self.left = 7;
        }
        self
    }
}

#[inline(never)]
fn hand_written_ones(bytes: &[u8], probs: &[u8], rounds: u32) -> u32 {
    let mut decoder = HandWritten::new(bytes);
    let mut ones: u32 = 0;
    for _ in 0..rounds {
        for prob in probs {
            ones = ones.wrapping_add(u32::from(decoder.bit(*prob)));
        }
    }
    ones
}

/// `count` bytes of a linear congruential generator.
fn pseudo_random(mut seed: u32, count: usize) -> Vec<u8> {
    let mut next = || {
        seed = seed.wrapping_mul(1_664_525).wrapping_add(1_013_904_223);
        (seed >> 24) as u8
    };
    (0..count).map(|_| next()).collect()
}

fn seconds(
    of: fn(&[u8], &[u8], u32) -> u32,
    bytes: &[u8],
    probs: &[u8],
    rounds: u32,
) -> (f64, u32) {
    let start = Instant::now();
    let ones = of(black_box(bytes), black_box(probs), rounds);
    (start.elapsed().as_secs_f64(), ones)
}

fn main() {
    // A bit takes up one bit of the text on average at most, so that the reads never reach its end.
    let bytes = pseudo_random(1, READS / 8);
    let probs = pseudo_random(2, 10_000);
    let rounds = (READS / probs.len()) as u32;
    let (mut proved, mut hand_written) = (f64::MAX, f64::MAX);
    for _ in 0..RUNS {
        let (time, ones) = seconds(proved_ones, &bytes, &probs, rounds);
        let (time_beside, ones_beside) = seconds(hand_written_ones, &bytes, &probs, rounds);
        assert_eq!(ones, ones_beside, "the two read other bits");
        proved = proved.min(time);
        hand_written = hand_written.min(time_beside);
    }
    let nanoseconds = |time: f64| time * 1e9 / READS as f64;
    println!("bool_coder::Decoder: {:.2} ns a bit", nanoseconds(proved));
    println!(
        "written by hand:     {:.2} ns a bit",
        nanoseconds(hand_written)
    );
    println!("ratio: {:.2}", proved / hand_written);
}
