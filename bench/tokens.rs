//! Times the reading of tokens beside the same algorithm written by hand. README.md says more.

use std::hint::black_box;
use std::time::Instant;

const MACROBLOCKS: u32 = 100_000;
const RUNS: usize = 15;

unsafe extern "C" {
    fn proved_tokens(
        bytes: *const u8,
        length: usize,
        probs: *const u8,
        count: usize,
        macroblocks: u32,
    ) -> u32;
}

/// A mixed sum of what so many macroblocks have, by our parser.
fn proved(bytes: &[u8], probs: &[u8; 1056]) -> u32 {
    // The call reads the two slices alone.
    unsafe {
        proved_tokens(
            bytes.as_ptr(),
            bytes.len(),
            probs.as_ptr(),
            probs.len(),
            MACROBLOCKS,
        )
    }
}

/// The decoder of RFC 6386, section 7, over a window of 64 bits, of which the low `left` are unread.
#[derive(Clone, Copy)]
struct Decoder<'a> {
    bytes: &'a [u8],
    value: u64,
    left: u32,
    range: u32,
}

impl<'a> Decoder<'a> {
    fn new(bytes: &'a [u8]) -> Decoder<'a> {
        let (value, bytes) = match bytes {
            [] => (0, bytes),
            [first, rest @ ..] => (u64::from(*first), rest),
        };
        Decoder {
            bytes,
            value,
            left: 0,
            range: 255,
        }
    }

    #[inline]
    fn bit(&mut self, prob: u8) -> bool {
        if self.left < 7 {
            *self = self.refilled();
        }
        let split = 1 + (((self.range - 1) * u32::from(prob)) >> 8);
        let bit = self.value >> self.left >= u64::from(split);
        let range = if bit {
            self.value -= u64::from(split) << self.left;
            self.range - split
        } else {
            split
        };
        let count = range.leading_zeros() - 24;
        self.left -= count;
        self.range = range << count;
        bit
    }

    #[cold]
    #[inline(never)]
    fn refilled(mut self) -> Self {
        let d = self.value >> self.left;
        if d > u64::from(self.range) {
            self.value -= (d - u64::from(self.range)) << self.left;
        }
        while self.left <= 48 {
            let [first, rest @ ..] = self.bytes else {
                break;
            };
            self.bytes = rest;
            self.value = (self.value << 8) | u64::from(*first);
            self.left += 8;
        }
        if self.left < 7 {
            self.value <<= 7 - self.left;
            self.left = 7;
        }
        self
    }
}

const BANDS: [usize; 16] = [0, 1, 2, 3, 6, 4, 5, 6, 6, 6, 6, 6, 6, 6, 6, 7];
const ZIGZAG: [usize; 16] = [0, 1, 4, 8, 5, 2, 3, 6, 9, 12, 13, 10, 7, 11, 14, 15];

struct Tokens {
    above: [bool; 9],
    left: [bool; 9],
    coefficients: [[i16; 16]; 25],
    ends: [u8; 25],
}

#[inline]
fn extra(decoder: &mut Decoder, least: u16, probs: &[u8]) -> u16 {
    let mut extra = 0;
    for prob in probs {
        extra = 2 * extra + u16::from(decoder.bit(*prob));
    }
    least + extra
}

#[inline]
fn size(decoder: &mut Decoder, nodes: &[u8; 11]) -> u16 {
    if !decoder.bit(nodes[2]) {
        return 1;
    }
    if !decoder.bit(nodes[3]) {
        if !decoder.bit(nodes[4]) {
            return 2;
        }
        return if decoder.bit(nodes[5]) { 4 } else { 3 };
    }
    if !decoder.bit(nodes[6]) {
        return if decoder.bit(nodes[7]) {
            extra(decoder, 7, &[165, 145])
        } else {
            extra(decoder, 5, &[159])
        };
    }
    if !decoder.bit(nodes[8]) {
        return if decoder.bit(nodes[9]) {
            extra(decoder, 19, &[176, 155, 140, 135])
        } else {
            extra(decoder, 11, &[173, 148, 140])
        };
    }
    if decoder.bit(nodes[10]) {
        let probs = [254, 254, 243, 230, 196, 177, 153, 140, 133, 130, 129];
        extra(decoder, 67, &probs)
    } else {
        extra(decoder, 35, &[180, 157, 141, 134, 130])
    }
}

#[inline]
fn nodes_at(probs: &[u8; 1056], kind: usize, place: usize, context: usize) -> &[u8; 11] {
    let start = ((kind * 8 + BANDS[place]) * 3 + context) * 11;
    probs[start..start + 11].try_into().unwrap()
}

/// Behind a 0 a token is read without its first bit; else it is the end of the block where that is 0.
#[inline]
fn block<'a>(
    mut decoder: Decoder<'a>,
    probs: &[u8; 1056],
    kind: usize,
    first: usize,
    mut context: usize,
    coefficients: &mut [i16; 16],
) -> (Decoder<'a>, usize) {
    let mut place = first;
    while place < 16 {
        if !decoder.bit(nodes_at(probs, kind, place, context)[0]) {
            return (decoder, place);
        }
        loop {
            let nodes = nodes_at(probs, kind, place, context);
            if decoder.bit(nodes[1]) {
                let size = size(&mut decoder, nodes);
                let value = size as i16;
                coefficients[ZIGZAG[place]] = if decoder.bit(128) { -value } else { value };
                context = if size > 1 { 2 } else { 1 };
                place += 1;
                break;
            }
            context = 0;
            place += 1;
            if place == 16 {
                return (decoder, 16);
            }
        }
    }
    (decoder, 16)
}

#[inline]
fn place_of(has_y2: bool, k: usize) -> (usize, usize, usize, usize, usize) {
    if k == 0 {
        return (1, 0, 24, 8, 8);
    }
    if k < 17 {
        let n = k - 1;
        return (
            if has_y2 { 0 } else { 3 },
            usize::from(has_y2),
            n,
            n % 4,
            n / 4,
        );
    }
    let (blocks, flags, n) = if k < 21 {
        (16, 4, k - 17)
    } else {
        (20, 6, k - 21)
    };
    (2, 0, blocks + n, flags + n % 2, flags + n / 2)
}

fn macroblock(decoder: &mut Decoder, probs: &[u8; 1056], has_y2: bool, tokens: &mut Tokens) {
    let mut reader = *decoder;
    for k in 0..25 {
        if k > 0 || has_y2 {
            let (kind, first, index, above, left) = place_of(has_y2, k);
            let context = usize::from(tokens.left[left]) + usize::from(tokens.above[above]);
            let coefficients = &mut tokens.coefficients[index];
            let (behind, end) = block(reader, probs, kind, first, context, coefficients);
            reader = behind;
            tokens.above[above] = end > first;
            tokens.left[left] = end > first;
            tokens.ends[index] = end as u8;
        }
    }
    *decoder = reader;
}

fn mixed(mut sum: u32, tokens: &Tokens) -> u32 {
    for (end, block) in tokens.ends.iter().zip(&tokens.coefficients) {
        let sizes = u32::from(block[0].unsigned_abs()) + u32::from(block[4].unsigned_abs());
        sum = sum
            .wrapping_mul(31)
            .wrapping_add(sizes)
            .wrapping_add(u32::from(*end));
    }
    sum
}

/// The same sum, and how many tokens were read, where they are counted.
#[inline(always)]
fn read_all(bytes: &[u8], probs: &[u8; 1056], counts: bool) -> (u32, u64) {
    let mut decoder = Decoder::new(bytes);
    let mut tokens = Tokens {
        above: [false; 9],
        left: [false; 9],
        coefficients: [[0; 16]; 25],
        ends: [0; 25],
    };
    let (mut sum, mut count) = (0, 0);
    for n in 0..MACROBLOCKS {
        let has_y2 = n % 3 > 0;
        macroblock(&mut decoder, probs, has_y2, &mut tokens);
        sum = mixed(sum, &tokens);
        if counts {
            for (index, end) in tokens.ends.iter().enumerate() {
                if index < 24 || has_y2 {
                    let first = u64::from(has_y2 && index < 16);
                    count += u64::from(*end) - first + u64::from(*end < 16);
                }
            }
        }
        tokens.coefficients = [[0; 16]; 25];
        tokens.ends = [0; 25];
    }
    (sum, count)
}

#[inline(never)]
fn hand_written(bytes: &[u8], probs: &[u8; 1056]) -> u32 {
    read_all(bytes, probs, false).0
}

/// `count` bytes of a linear congruential generator.
fn pseudo_random(mut seed: u32, count: usize) -> Vec<u8> {
    let mut next = || {
        seed = seed.wrapping_mul(1_664_525).wrapping_add(1_013_904_223);
        (seed >> 24) as u8
    };
    (0..count).map(|_| next()).collect()
}

fn seconds(of: fn(&[u8], &[u8; 1056]) -> u32, bytes: &[u8], probs: &[u8; 1056]) -> (f64, u32) {
    let start = Instant::now();
    let sum = of(black_box(bytes), black_box(probs));
    (start.elapsed().as_secs_f64(), sum)
}

fn main() {
    let probs: [u8; 1056] = match std::env::args().nth(1) {
        Some(path) => std::fs::read(path).unwrap()[..1056].try_into().unwrap(),
        None => [128; 1056],
    };
    let bytes = pseudo_random(1, MACROBLOCKS as usize * 1_000);
    let (_, tokens) = read_all(&bytes, &probs, true);
    let (mut time, mut beside) = (f64::MAX, f64::MAX);
    for _ in 0..RUNS {
        let (ours, sum) = seconds(proved, &bytes, &probs);
        let (theirs, sum_beside) = seconds(hand_written, &bytes, &probs);
        assert_eq!(sum, sum_beside, "the two read other tokens");
        time = time.min(ours);
        beside = beside.min(theirs);
    }
    let nanoseconds = |time: f64| time * 1e9 / tokens as f64;
    println!(
        "{:.1} tokens a macroblock",
        tokens as f64 / f64::from(MACROBLOCKS)
    );
    println!(
        "token_parser:    {:.2} ns a token, {:.1} million a second",
        nanoseconds(time),
        1e3 / nanoseconds(time)
    );
    println!("written by hand: {:.2} ns a token", nanoseconds(beside));
    println!("ratio: {:.2}", time / beside);
}
