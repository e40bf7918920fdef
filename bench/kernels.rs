//! Times dequantisation and the inverse transforms of a block beside libvpx's own. README.md says more.

use std::hint::black_box;
use std::time::Instant;

const BLOCKS: usize = 1_000;
const ROUNDS: usize = 1_000;
const RUNS: usize = 9;
const STRIDE: i32 = 16;

unsafe extern "C" {
    fn proved_dct_add(coefficients: *const i16, samples: *mut u8);
    fn proved_dct_add_two(first: *const i16, second: *const i16, samples: *mut u8);
    fn proved_dct_add_first(first: i16, samples: *mut u8);
    fn proved_wht(coefficients: *const i16, out: *mut i16);
    fn proved_dequantise(coefficients: *const i16, dc: i16, ac: i16, out: *mut i16);
    fn vp8_short_idct4x4llm_mmx(input: *const i16, pred: *const u8, pred_stride: i32, out: *mut u8, stride: i32);
    fn vp8_short_idct4x4llm_c(input: *const i16, pred: *const u8, pred_stride: i32, out: *mut u8, stride: i32);
    fn vp8_dc_only_idct_add_mmx(first: i16, pred: *const u8, pred_stride: i32, out: *mut u8, stride: i32);
    fn vp8_dc_only_idct_add_c(first: i16, pred: *const u8, pred_stride: i32, out: *mut u8, stride: i32);
    fn vp8_short_inv_walsh4x4_sse2(input: *const i16, out: *mut i16);
    fn vp8_short_inv_walsh4x4_c(input: *const i16, out: *mut i16);
    fn vp8_dequantize_b_impl_mmx(input: *const i16, out: *mut i16, factors: *const i16);
}

const DC: i16 = 57;
const AC: i16 = 33;
const FACTORS: Coefficients = Coefficients([DC, AC, AC, AC, AC, AC, AC, AC, AC, AC, AC, AC, AC, AC, AC, AC]);

/// What libvpx's C does: each coefficient times its factor.
#[inline(never)]
extern "C" fn plain_dequantise(input: &[i16; 16], factors: &[i16; 16], out: &mut [i16; 256]) {
    for place in 0..16 {
        out[place] = input[place].wrapping_mul(factors[place]);
    }
}

/// What is timed.
#[derive(Clone, Copy, PartialEq)]
enum Kernel {
    Dct,
    Two,
    First,
    Wht,
    Dequantise,
}

/// Whose body is timed.
#[derive(Clone, Copy)]
enum Way {
    Proved,
    Lanes,
    Plain,
}

#[repr(C, align(16))]
#[derive(Clone)]
struct Coefficients([i16; 16]);

#[repr(C, align(16))]
#[derive(Clone, PartialEq)]
struct Samples([u8; 64]);

/// The result of a WHT. libvpx writes one number to the start of each block of 16.
#[repr(C, align(16))]
struct Numbers([i16; 256]);

#[inline(always)]
fn run(kernel: Kernel, way: Way, coefficients: &Coefficients, samples: &mut Samples, numbers: &mut Numbers) {
    let input = coefficients.0.as_ptr();
    let first = coefficients.0[0];
    let out = samples.0.as_mut_ptr();
    let to = numbers.0.as_mut_ptr();
    // Each call reads sixteen coefficients and writes a block of four rows, 16 samples apart, two such
    // blocks, or numbers that have room.
    unsafe {
        match (kernel, way) {
            (Kernel::Dct, Way::Proved) => proved_dct_add(input, out),
            (Kernel::Dct, Way::Lanes) => vp8_short_idct4x4llm_mmx(input, out, STRIDE, out, STRIDE),
            (Kernel::Dct, Way::Plain) => vp8_short_idct4x4llm_c(input, out, STRIDE, out, STRIDE),
            (Kernel::Two, Way::Proved) => proved_dct_add_two(input, input, out),
            (Kernel::Two, Way::Lanes) => {
                vp8_short_idct4x4llm_mmx(input, out, STRIDE, out, STRIDE);
                vp8_short_idct4x4llm_mmx(input, out.add(4), STRIDE, out.add(4), STRIDE);
            }
            (Kernel::Two, Way::Plain) => {
                vp8_short_idct4x4llm_c(input, out, STRIDE, out, STRIDE);
                vp8_short_idct4x4llm_c(input, out.add(4), STRIDE, out.add(4), STRIDE);
            }
            (Kernel::First, Way::Proved) => proved_dct_add_first(first, out),
            (Kernel::First, Way::Lanes) => vp8_dc_only_idct_add_mmx(first, out, STRIDE, out, STRIDE),
            (Kernel::First, Way::Plain) => vp8_dc_only_idct_add_c(first, out, STRIDE, out, STRIDE),
            (Kernel::Wht, Way::Proved) => proved_wht(input, to),
            (Kernel::Wht, Way::Lanes) => vp8_short_inv_walsh4x4_sse2(input, to),
            (Kernel::Wht, Way::Plain) => vp8_short_inv_walsh4x4_c(input, to),
            (Kernel::Dequantise, Way::Proved) => proved_dequantise(input, DC, AC, to),
            (Kernel::Dequantise, Way::Lanes) => vp8_dequantize_b_impl_mmx(input, to, FACTORS.0.as_ptr()),
            (Kernel::Dequantise, Way::Plain) => plain_dequantise(&coefficients.0, &FACTORS.0, &mut numbers.0),
        }
    }
}

/// The time of a block in nanoseconds.
fn time(kernel: Kernel, way: Way, blocks: &[Coefficients]) -> f64 {
    let mut samples = Samples([128; 64]);
    let mut numbers = Numbers([0; 256]);
    let start = Instant::now();
    for _ in 0..ROUNDS {
        for block in blocks {
            run(kernel, way, block, &mut samples, &mut numbers);
            black_box(&mut samples);
            black_box(&mut numbers);
        }
    }
    start.elapsed().as_secs_f64() * 1e9 / (ROUNDS * BLOCKS) as f64
}

/// Coefficients of up to 12 bits, as a stream that was encoded has them.
fn blocks() -> Vec<Coefficients> {
    let mut state = 0x2545_f491_4f6c_dd1d_u64;
    let mut next = || {
        state ^= state << 13;
        state ^= state >> 7;
        state ^= state << 17;
        (state >> 32) as u32
    };
    (0..BLOCKS)
        .map(|_| {
            let shift = 4 + next() % 8;
            Coefficients(std::array::from_fn(|_| (next() as i16) >> shift))
        })
        .collect()
}

fn compare(kernel: Kernel, block: &Coefficients) {
    let mut ours = Samples([100; 64]);
    let mut theirs = ours.clone();
    let mut numbers = Numbers([0; 256]);
    let mut expected = Numbers([0; 256]);
    run(kernel, Way::Proved, block, &mut ours, &mut numbers);
    run(kernel, Way::Plain, block, &mut theirs, &mut expected);
    assert!(ours == theirs, "the samples differ");
    if kernel == Kernel::Dequantise {
        assert!(numbers.0[..16] == expected.0[..16], "the products differ");
    }
    if kernel == Kernel::Wht {
        for place in 0..16 {
            assert!(numbers.0[place] == expected.0[16 * place], "the numbers differ");
        }
    }
}

fn main() {
    let blocks = blocks();
    println!("{:16}{:>10}{:>10}{:>10}{:>8}", "ns", "proved", "mmx/sse2", "c", "ratio");
    for (name, kernel) in [
        ("dct_add", Kernel::Dct),
        ("dct_add_two", Kernel::Two),
        ("dct_add_first", Kernel::First),
        ("wht", Kernel::Wht),
        ("dequantise", Kernel::Dequantise),
    ] {
        for block in &blocks {
            compare(kernel, block);
        }
        let mut best = [f64::MAX; 3];
        for _ in 0..RUNS {
            for (best, way) in best.iter_mut().zip([Way::Proved, Way::Lanes, Way::Plain]) {
                *best = best.min(time(kernel, way, &blocks));
            }
        }
        println!(
            "{name:16}{:10.1}{:10.1}{:10.1}{:8.2}",
            best[0],
            best[1],
            best[2],
            best[0] / best[1]
        );
    }
}
