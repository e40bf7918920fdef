//! Times the prediction of whole blocks beside libvpx's own. README.md says more.

use std::hint::black_box;
use std::time::Instant;

const SAMPLES: usize = 1_000;
const ROUNDS: usize = 1_000;
const RUNS: usize = 9;

unsafe extern "C" {
    fn predict_luma(mode: u32, above: *const u8, left: *const u8, corner: u8, out: *mut u8);
    fn predict_chroma(mode: u32, above: *const u8, left: *const u8, corner: u8, out: *mut u8);
}

/// One of libvpx's predictors: the block, its stride, the row above it behind the corner, and the
/// column to its left.
type Predictor = unsafe extern "C" fn(*mut u8, isize, *const u8, *const u8);

macro_rules! predictors {
    ($($name:ident)*) => {
        unsafe extern "C" {
            $(fn $name(out: *mut u8, stride: isize, above: *const u8, left: *const u8);)*
        }
    };
}

predictors! {
    vpx_dc_predictor_16x16_sse2 vpx_v_predictor_16x16_sse2
    vpx_h_predictor_16x16_sse2 vpx_tm_predictor_16x16_sse2
    vpx_dc_predictor_8x8_sse2 vpx_v_predictor_8x8_sse2
    vpx_h_predictor_8x8_sse2 vpx_tm_predictor_8x8_sse2
    vpx_dc_predictor_16x16_c vpx_v_predictor_16x16_c
    vpx_h_predictor_16x16_c vpx_tm_predictor_16x16_c
    vpx_dc_predictor_8x8_c vpx_v_predictor_8x8_c
    vpx_h_predictor_8x8_c vpx_tm_predictor_8x8_c
}

/// A way to predict that is timed.
#[derive(Clone, Copy)]
enum Way {
    Proved,
    Libvpx(Predictor),
}

/// What stands round a block: the corner at place 15 with the row above behind it, and the left
/// column.
#[repr(C, align(16))]
struct Edge {
    above: [u8; 32],
    left: [u8; 16],
}

#[repr(C, align(16))]
struct Block([u8; 256]);

#[inline(always)]
fn predict(way: Way, mode: u32, side: usize, edge: &Edge, out: &mut Block) {
    let out = out.0.as_mut_ptr();
    // Each call reads the edge and writes side * side samples.
    unsafe {
        let above = edge.above.as_ptr().add(16);
        let left = edge.left.as_ptr();
        match (way, side) {
            (Way::Proved, 16) => predict_luma(mode, above, left, edge.above[15], out),
            (Way::Proved, _) => predict_chroma(mode, above, left, edge.above[15], out),
            (Way::Libvpx(predictor), _) => predictor(out, side as isize, above, left),
        }
    }
}

/// The time of a block in nanoseconds.
fn time(way: Way, mode: u32, side: usize, edges: &[Edge]) -> f64 {
    let mut out = Block([0; 256]);
    let start = Instant::now();
    for _ in 0..ROUNDS {
        for edge in edges {
            predict(way, black_box(mode), side, edge, &mut out);
            black_box(&mut out);
        }
    }
    start.elapsed().as_secs_f64() * 1e9 / (ROUNDS * SAMPLES) as f64
}

fn edges() -> Vec<Edge> {
    let mut state = 0x2545_f491_4f6c_dd1d_u64;
    let mut next = || {
        state ^= state << 13;
        state ^= state >> 7;
        state ^= state << 17;
        (state >> 32) as u8
    };
    (0..SAMPLES)
        .map(|_| Edge {
            above: std::array::from_fn(|_| next()),
            left: std::array::from_fn(|_| next()),
        })
        .collect()
}

fn main() {
    let edges = edges();
    let cases: [(&str, u32, usize, Predictor, Predictor); 8] = [
        (
            "DC 16",
            0,
            16,
            vpx_dc_predictor_16x16_sse2,
            vpx_dc_predictor_16x16_c,
        ),
        (
            "V 16",
            1,
            16,
            vpx_v_predictor_16x16_sse2,
            vpx_v_predictor_16x16_c,
        ),
        (
            "H 16",
            2,
            16,
            vpx_h_predictor_16x16_sse2,
            vpx_h_predictor_16x16_c,
        ),
        (
            "TM 16",
            3,
            16,
            vpx_tm_predictor_16x16_sse2,
            vpx_tm_predictor_16x16_c,
        ),
        (
            "DC 8",
            0,
            8,
            vpx_dc_predictor_8x8_sse2,
            vpx_dc_predictor_8x8_c,
        ),
        ("V 8", 1, 8, vpx_v_predictor_8x8_sse2, vpx_v_predictor_8x8_c),
        ("H 8", 2, 8, vpx_h_predictor_8x8_sse2, vpx_h_predictor_8x8_c),
        (
            "TM 8",
            3,
            8,
            vpx_tm_predictor_8x8_sse2,
            vpx_tm_predictor_8x8_c,
        ),
    ];
    println!(
        "{:8}{:>10}{:>10}{:>10}{:>8}",
        "ns", "proved", "sse2", "c", "ratio"
    );
    for (name, mode, side, lanes, plain) in cases {
        for edge in &edges {
            let mut ours = Block([0; 256]);
            let mut theirs = Block([0; 256]);
            predict(Way::Proved, mode, side, edge, &mut ours);
            predict(Way::Libvpx(plain), mode, side, edge, &mut theirs);
            assert!(ours.0 == theirs.0, "{name}: the blocks differ");
        }
        let mut best = [f64::MAX; 3];
        for _ in 0..RUNS {
            for (best, way) in
                best.iter_mut()
                    .zip([Way::Proved, Way::Libvpx(lanes), Way::Libvpx(plain)])
            {
                *best = best.min(time(way, mode, side, &edges));
            }
        }
        println!(
            "{name:8}{:10.1}{:10.1}{:10.1}{:8.2}",
            best[0],
            best[1],
            best[2],
            best[0] / best[1]
        );
    }
}
