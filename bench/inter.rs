//! Times inter prediction of blocks beside libvpx's own. README.md says more.

use std::hint::black_box;
use std::time::Instant;

const WINDOWS: usize = 64;
const ROUNDS: usize = 300;
const RUNS: usize = 41;
const STRIDE: usize = 32;

unsafe extern "C" {
    fn proved_predict(
        is_bilinear: u32,
        side: u32,
        right: u32,
        below: u32,
        samples: *const u8,
        stride: usize,
        out: *mut u8,
    );
    fn vp8_copy_mem16x16_sse2(from: *const u8, stride: i32, to: *mut u8, to_stride: i32);
    fn vp8_copy_mem16x16_c(from: *const u8, stride: i32, to: *mut u8, to_stride: i32);
    fn vp8_copy_mem8x8_mmx(from: *const u8, stride: i32, to: *mut u8, to_stride: i32);
    fn vp8_copy_mem8x8_c(from: *const u8, stride: i32, to: *mut u8, to_stride: i32);
}

/// One of libvpx's predictors: the first whole sample, its stride, the fraction to the right and
/// below, the block and its stride.
type Predictor = unsafe extern "C" fn(*const u8, i32, i32, i32, *mut u8, i32);

macro_rules! predictors {
    ($($name:ident)*) => {
        unsafe extern "C" {
            $(fn $name(from: *const u8, stride: i32, right: i32, below: i32, to: *mut u8, to_stride: i32);)*
        }
    };
}

predictors! {
    vp8_sixtap_predict16x16_ssse3 vp8_sixtap_predict8x8_ssse3 vp8_sixtap_predict4x4_ssse3
    vp8_sixtap_predict16x16_sse2 vp8_sixtap_predict8x8_sse2 vp8_sixtap_predict4x4_mmx
    vp8_sixtap_predict16x16_c vp8_sixtap_predict8x8_c vp8_sixtap_predict4x4_c
    vp8_bilinear_predict16x16_ssse3 vp8_bilinear_predict8x8_ssse3
    vp8_bilinear_predict16x16_sse2 vp8_bilinear_predict8x8_sse2 vp8_bilinear_predict4x4_sse2
    vp8_bilinear_predict16x16_c vp8_bilinear_predict8x8_c vp8_bilinear_predict4x4_c
}

unsafe extern "C" fn copy16_sse2(from: *const u8, stride: i32, _: i32, _: i32, to: *mut u8, to_stride: i32) {
    unsafe { vp8_copy_mem16x16_sse2(from, stride, to, to_stride) }
}

unsafe extern "C" fn copy16_c(from: *const u8, stride: i32, _: i32, _: i32, to: *mut u8, to_stride: i32) {
    unsafe { vp8_copy_mem16x16_c(from, stride, to, to_stride) }
}

unsafe extern "C" fn copy8_mmx(from: *const u8, stride: i32, _: i32, _: i32, to: *mut u8, to_stride: i32) {
    unsafe { vp8_copy_mem8x8_mmx(from, stride, to, to_stride) }
}

unsafe extern "C" fn copy8_c(from: *const u8, stride: i32, _: i32, _: i32, to: *mut u8, to_stride: i32) {
    unsafe { vp8_copy_mem8x8_c(from, stride, to, to_stride) }
}

/// A way to predict that is timed.
#[derive(Clone, Copy)]
enum Way {
    Proved,
    Libvpx(Predictor),
}

#[derive(Clone, Copy)]
struct Case {
    name: &'static str,
    is_bilinear: u32,
    side: u32,
    right: u32,
    below: u32,
}

/// The samples round a block, from two before it to three behind it each way.
#[repr(C, align(16))]
struct Window([u8; 672]);

#[repr(C, align(16))]
struct Block([u8; 256]);

#[inline(always)]
fn predict(way: Way, case: Case, window: &Window, out: &mut Block) {
    let Case { is_bilinear, side, right, below, .. } = case;
    let to = out.0.as_mut_ptr();
    // Each call reads the window and writes side * side samples.
    unsafe {
        match way {
            Way::Proved => proved_predict(is_bilinear, side, right, below, window.0.as_ptr(), STRIDE, to),
            Way::Libvpx(predictor) => {
                let from = window.0.as_ptr().add(2 * STRIDE + 2);
                predictor(from, STRIDE as i32, right as i32, below as i32, to, side as i32)
            }
        }
    }
}

/// The time of a block in nanoseconds.
fn time(way: Way, case: Case, windows: &[Window]) -> f64 {
    let mut out = Block([0; 256]);
    let start = Instant::now();
    for _ in 0..ROUNDS {
        for window in windows {
            predict(way, black_box(case), window, &mut out);
            black_box(&mut out);
        }
    }
    start.elapsed().as_secs_f64() * 1e9 / (ROUNDS * WINDOWS) as f64
}

fn windows() -> Vec<Window> {
    let mut state = 0x2545_f491_4f6c_dd1d_u64;
    let mut next = || {
        state ^= state << 13;
        state ^= state >> 7;
        state ^= state << 17;
        (state >> 32) as u8
    };
    (0..WINDOWS).map(|_| Window(std::array::from_fn(|_| next()))).collect()
}

/// libvpx's ways for a case: the fastest first, then the next, then C.
fn ways(case: Case) -> Vec<(&'static str, Predictor)> {
    let is_whole = case.right == 0 && case.below == 0;
    match (is_whole, case.is_bilinear, case.side) {
        (true, _, 16) => vec![("sse2", copy16_sse2), ("c", copy16_c)],
        (true, _, _) => vec![("mmx", copy8_mmx), ("c", copy8_c)],
        (_, 0, 16) => vec![
            ("ssse3", vp8_sixtap_predict16x16_ssse3),
            ("sse2", vp8_sixtap_predict16x16_sse2),
            ("c", vp8_sixtap_predict16x16_c),
        ],
        (_, 0, 8) => vec![
            ("ssse3", vp8_sixtap_predict8x8_ssse3),
            ("sse2", vp8_sixtap_predict8x8_sse2),
            ("c", vp8_sixtap_predict8x8_c),
        ],
        (_, 0, _) => vec![
            ("ssse3", vp8_sixtap_predict4x4_ssse3),
            ("mmx", vp8_sixtap_predict4x4_mmx),
            ("c", vp8_sixtap_predict4x4_c),
        ],
        (_, _, 16) => vec![
            ("ssse3", vp8_bilinear_predict16x16_ssse3),
            ("sse2", vp8_bilinear_predict16x16_sse2),
            ("c", vp8_bilinear_predict16x16_c),
        ],
        (_, _, 8) => vec![
            ("ssse3", vp8_bilinear_predict8x8_ssse3),
            ("sse2", vp8_bilinear_predict8x8_sse2),
            ("c", vp8_bilinear_predict8x8_c),
        ],
        _ => vec![("sse2", vp8_bilinear_predict4x4_sse2), ("c", vp8_bilinear_predict4x4_c)],
    }
}

/// Compares the blocks of all 64 fractions with those of libvpx's C.
fn compare(windows: &[Window]) {
    for is_bilinear in 0..2 {
        for side in [16, 8, 4] {
            for right in 0..8 {
                for below in 0..8 {
                    if side == 4 && right == 0 && below == 0 {
                        continue;
                    }
                    let case = Case { name: "", is_bilinear, side, right, below };
                    let plain = ways(case).pop().unwrap().1;
                    for window in windows {
                        let mut ours = Block([0; 256]);
                        let mut theirs = Block([0; 256]);
                        predict(Way::Proved, case, window, &mut ours);
                        predict(Way::Libvpx(plain), case, window, &mut theirs);
                        assert!(ours.0 == theirs.0, "{is_bilinear} {side} {right} {below}: the blocks differ");
                    }
                }
            }
        }
    }
}

fn main() {
    let windows = windows();
    compare(&windows);
    println!("{:32}{:>8}  of libvpx", "ns", "proved");
    for (name, is_bilinear, side, right, below) in [
        ("six-tap 16x16 six and six taps", 0, 16, 2, 6),
        ("six-tap 16x16 four and four", 0, 16, 3, 5),
        ("six-tap 16x16 across", 0, 16, 2, 0),
        ("six-tap 16x16 down", 0, 16, 0, 6),
        ("six-tap 8x8 six and six taps", 0, 8, 2, 6),
        ("six-tap 8x8 four and four", 0, 8, 3, 5),
        ("six-tap 8x8 across", 0, 8, 2, 0),
        ("six-tap 8x8 down", 0, 8, 0, 6),
        ("six-tap 4x4 six and six taps", 0, 4, 2, 6),
        ("six-tap 4x4 four and four", 0, 4, 3, 5),
        ("six-tap 4x4 across", 0, 4, 2, 0),
        ("six-tap 4x4 down", 0, 4, 0, 6),
        ("bilinear 16x16", 1, 16, 2, 6),
        ("bilinear 16x16 across", 1, 16, 2, 0),
        ("bilinear 16x16 down", 1, 16, 0, 6),
        ("bilinear 8x8", 1, 8, 2, 6),
        ("bilinear 4x4", 1, 4, 2, 6),
        ("whole 16x16", 0, 16, 0, 0),
        ("whole 8x8", 0, 8, 0, 0),
    ] {
        let case = Case { name, is_bilinear, side, right, below };
        let mut all = vec![("proved", Way::Proved)];
        all.extend(ways(case).into_iter().map(|(name, way)| (name, Way::Libvpx(way))));
        let mut best = vec![f64::MAX; all.len()];
        for _ in 0..RUNS {
            for (best, (_, way)) in best.iter_mut().zip(&all) {
                *best = best.min(time(*way, case, &windows));
            }
        }
        print!("{:32}{:8.1}", case.name, best[0]);
        for (best_of, (name, _)) in best.iter().zip(&all).skip(1) {
            print!("  {name} {best_of:.1} ({:.2})", best[0] / best_of);
        }
        println!();
    }
}
