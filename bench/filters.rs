//! Times the loop filter of single edges beside libvpx's own, and with the word `frame` libvpx's of a whole frame.
//! README.md says more.

use std::hint::black_box;
use std::time::Instant;

const RUNS: usize = 41;
const ROUNDS: usize = 20;
const STRIDE: usize = 256;
/// The macroblocks of a plane that have others all round them, each way.
const BLOCKS: usize = 14;

macro_rules! proved {
    ($($name:ident)*) => {
        unsafe extern "C" {
            $(fn $name(edge: u8, interior: u8, variance: u8, y: *mut u8, u: *mut u8, v: *mut u8, start: usize, stride: usize);)*
        }
    };
}

proved! {
    proved_inner_rows proved_simple_rows proved_simple_columns proved_inner_columns proved_joined_macroblock_rows
    proved_joined_macroblock_columns proved_joined_inner_rows
}

/// libvpx's limits: pointers to sixteen equal bytes each.
#[repr(C)]
struct Limits {
    macroblock_edge: *const u8,
    inner_edge: *const u8,
    interior: *const u8,
    variance: *const u8,
}

unsafe extern "C" {
    fn vp8_loop_filter_bh_y_sse2(y: *mut u8, stride: i32, edge: *const u8, interior: *const u8, variance: *const u8, count: i32);
    fn vp8_loop_filter_simple_horizontal_edge_sse2(y: *mut u8, stride: i32, edge: *const u8);
    fn vp8_loop_filter_simple_vertical_edge_sse2(y: *mut u8, stride: i32, edge: *const u8);
    fn vp8_loop_filter_simple_horizontal_edge_c(y: *mut u8, stride: i32, edge: *const u8);
    fn vp8_loop_filter_simple_vertical_edge_c(y: *mut u8, stride: i32, edge: *const u8);
}

macro_rules! of_macroblock {
    ($($name:ident)*) => {
        unsafe extern "C" {
            $(fn $name(y: *mut u8, u: *mut u8, v: *mut u8, stride: i32, chroma_stride: i32, limits: *const Limits);)*
        }
    };
}

of_macroblock! {
    vp8_loop_filter_mbv_sse2 vp8_loop_filter_bv_sse2 vp8_loop_filter_mbh_sse2 vp8_loop_filter_bh_sse2
    vp8_loop_filter_mbv_c vp8_loop_filter_bv_c vp8_loop_filter_mbh_c vp8_loop_filter_bh_c
}

/// Sixteen times the same limit, as libvpx's kernels read it.
#[repr(C, align(16))]
struct Sixteen([u8; 16]);

struct EdgeLimits {
    edge: Sixteen,
    interior: Sixteen,
    variance: Sixteen,
}

impl EdgeLimits {
    fn new(edge: u8, interior: u8, variance: u8) -> EdgeLimits {
        EdgeLimits { edge: Sixteen([edge; 16]), interior: Sixteen([interior; 16]), variance: Sixteen([variance; 16]) }
    }

    fn of_libvpx(&self) -> Limits {
        Limits {
            macroblock_edge: self.edge.0.as_ptr(),
            inner_edge: self.edge.0.as_ptr(),
            interior: self.interior.0.as_ptr(),
            variance: self.variance.0.as_ptr(),
        }
    }
}

#[repr(C, align(64))]
#[derive(Clone, PartialEq)]
struct Plane([u8; 65536]);

/// Luma and the two chroma planes, all of one size.
#[derive(Clone, PartialEq)]
struct Planes {
    y: Box<Plane>,
    u: Box<Plane>,
    v: Box<Plane>,
}

/// Samples that are smooth but for so much noise.
fn plane(seed: u32, noise: u32) -> Box<Plane> {
    let mut state = seed;
    let mut plane = Box::new(Plane([0; 65536]));
    for (place, sample) in plane.0.iter_mut().enumerate() {
        state = state.wrapping_mul(1_103_515_245).wrapping_add(12345);
        let (column, row) = (place % STRIDE / 4, place / STRIDE / 4);
        let base = (row * 7 + column * 5) as u32 % 31 * (noise / 4 + 1);
        *sample = base.wrapping_add((state >> 16) % noise).min(255) as u8;
    }
    plane
}

fn planes(seed: u32, noise: u32) -> Planes {
    Planes { y: plane(seed, noise), u: plane(seed + 99, noise), v: plane(seed + 198, noise) }
}

/// Makes a way to filter edges of each macroblock that has others all round it.
macro_rules! pass {
    (|$limits:ident, $y:ident, $u:ident, $v:ident, $at:ident| $call:expr) => {
        |$limits: &EdgeLimits, planes: &mut Planes| {
            let ($y, $u, $v) = (planes.y.0.as_mut_ptr(), planes.u.0.as_mut_ptr(), planes.v.0.as_mut_ptr());
            for row in 1..=BLOCKS {
                for column in 1..=BLOCKS {
                    let $at = 16 * (row * STRIDE + column);
                    // Each call stays within the planes' 256 rows of 256 samples.
                    unsafe { $call };
                }
            }
        }
    };
}

macro_rules! proved_pass {
    ($name:ident, $before:expr) => {
        pass!(|limits, y, u, v, at| $name(limits.edge.0[0], limits.interior.0[0], limits.variance.0[0], y, u, v, at - $before, STRIDE))
    };
}

macro_rules! luma_pass {
    ($name:ident $(, $more:expr)*) => {
        pass!(|limits, y, _u, _v, at| $name(y.add(at), STRIDE as i32, limits.edge.0.as_ptr(), limits.interior.0.as_ptr(), limits.variance.0.as_ptr() $(, $more)*))
    };
}

macro_rules! simple_pass {
    ($name:ident) => {
        pass!(|limits, y, _u, _v, at| $name(y.add(at), STRIDE as i32, limits.edge.0.as_ptr()))
    };
}

/// libvpx's calls for the edges of a macroblock in all planes.
macro_rules! all_planes_pass {
    ($name:ident) => {
        pass!(|limits, y, u, v, at| $name(y.add(at), u.add(at), v.add(at), STRIDE as i32, STRIDE as i32, &limits.of_libvpx()))
    };
}

macro_rules! plain_luma_pass {
    ($name:ident) => {
        pass!(|limits, y, _u, _v, at| $name(
            y.add(at),
            std::ptr::null_mut(),
            std::ptr::null_mut(),
            STRIDE as i32,
            STRIDE as i32,
            &limits.of_libvpx()
        ))
    };
}

/// Three edges of luma one after another, by calls for one.
macro_rules! three_passes {
    ($name:ident, $step:expr) => {
        pass!(|limits, y, u, v, at| for edge in 0..3 {
            $name(limits.edge.0[0], limits.interior.0[0], limits.variance.0[0], y, u, v, at + edge * $step, STRIDE)
        })
    };
}

/// The three inner edges between rows of luma, the first together with those of chroma.
macro_rules! inner_rows_pass {
    () => {
        pass!(|limits, y, u, v, at| {
            let (edge, interior, variance) = (limits.edge.0[0], limits.interior.0[0], limits.variance.0[0]);
            proved_joined_inner_rows(edge, interior, variance, y, u, v, at, STRIDE);
            proved_inner_rows(edge, interior, variance, y, u, v, at + 4 * STRIDE, STRIDE);
            proved_inner_rows(edge, interior, variance, y, u, v, at + 8 * STRIDE, STRIDE)
        })
    };
}

type Pass = Box<dyn Fn(&EdgeLimits, &mut Planes)>;

struct Case {
    name: &'static str,
    /// How many edges a pass filters of each macroblock.
    edges: usize,
    /// The proved way, libvpx's in SSE2, and in C where it has one alone.
    ways: Vec<Pass>,
}

macro_rules! case {
    ($name:expr, $edges:expr, $($way:expr),*) => {
        Case { name: $name, edges: $edges, ways: vec![$(Box::new($way)),*] }
    };
}

fn cases() -> Vec<Case> {
    const ROWS: usize = 4 * STRIDE;
    vec![
        case!(
            "all planes, macroblock, rows",
            1,
            proved_pass!(proved_joined_macroblock_rows, ROWS),
            all_planes_pass!(vp8_loop_filter_mbh_sse2),
            all_planes_pass!(vp8_loop_filter_mbh_c)
        ),
        case!(
            "all planes, macroblock, columns",
            1,
            proved_pass!(proved_joined_macroblock_columns, 4),
            all_planes_pass!(vp8_loop_filter_mbv_sse2),
            all_planes_pass!(vp8_loop_filter_mbv_c)
        ),
        case!(
            "all planes, inner rows",
            1,
            inner_rows_pass!(),
            all_planes_pass!(vp8_loop_filter_bh_sse2),
            all_planes_pass!(vp8_loop_filter_bh_c)
        ),
        case!(
            "all planes, inner columns",
            1,
            proved_pass!(proved_inner_columns, 0),
            all_planes_pass!(vp8_loop_filter_bv_sse2),
            all_planes_pass!(vp8_loop_filter_bv_c)
        ),
        case!(
            "luma, inner rows",
            3,
            three_passes!(proved_inner_rows, ROWS),
            luma_pass!(vp8_loop_filter_bh_y_sse2, 2),
            plain_luma_pass!(vp8_loop_filter_bh_c)
        ),
        case!(
            "luma, simple, rows",
            1,
            proved_pass!(proved_simple_rows, ROWS),
            simple_pass!(vp8_loop_filter_simple_horizontal_edge_sse2),
            simple_pass!(vp8_loop_filter_simple_horizontal_edge_c)
        ),
        case!(
            "luma, simple, columns",
            1,
            proved_pass!(proved_simple_columns, 4),
            simple_pass!(vp8_loop_filter_simple_vertical_edge_sse2),
            simple_pass!(vp8_loop_filter_simple_vertical_edge_c)
        ),
    ]
}

/// Filters planes of noise at many limits in each way, and compares the samples.
fn compare(case: &Case) {
    for seed in 0..60 {
        let interior = (seed * 11 % 63 + 1) as u8;
        let limits = EdgeLimits::new((seed * 37 % 194) as u8, interior, (seed % 4) as u8);
        let start = planes(seed, u32::from(interior) + 3);
        let behind = |way: &Pass| {
            let mut planes = start.clone();
            way(&limits, &mut planes);
            planes
        };
        let ours = behind(&case.ways[0]);
        for theirs in &case.ways[1..] {
            assert!(ours == behind(theirs), "{}: the samples differ", case.name);
        }
    }
}

/// The time of an edge in nanoseconds.
fn time(case: &Case, way: &Pass, planes: &mut Planes) -> f64 {
    let limits = EdgeLimits::new(60, 12, 1);
    let start = Instant::now();
    for _ in 0..ROUNDS {
        way(black_box(&limits), planes);
    }
    start.elapsed().as_secs_f64() * 1e9 / (ROUNDS * BLOCKS * BLOCKS * case.edges) as f64
}

fn edges() {
    println!("{:32}{:>8}  of libvpx", "ns an edge, or the edges of all planes", "proved");
    for case in cases() {
        compare(&case);
        let mut planes = planes(5, 9);
        let mut best = vec![f64::MAX; case.ways.len()];
        for _ in 0..RUNS {
            for (best, way) in best.iter_mut().zip(&case.ways) {
                *best = best.min(time(&case, way, &mut planes));
            }
        }
        print!("{:32}{:8.1}", case.name, best[0]);
        for (best_of, name) in best[1..].iter().zip(["sse2", "c"]) {
            print!("  {name} {best_of:.1} ({:.2})", best[0] / best_of);
        }
        println!();
    }
}

type OfMacroblock = unsafe extern "C" fn(*mut u8, *mut u8, *mut u8, i32, i32, *const Limits);

/// The four calls by which libvpx filters a macroblock: its left edge, inner columns, top edge and inner rows.
struct Order {
    name: &'static str,
    left: OfMacroblock,
    inner_columns: OfMacroblock,
    top: OfMacroblock,
    inner_rows: OfMacroblock,
}

const ORDERS: [Order; 2] = [
    Order {
        name: "sse2",
        left: vp8_loop_filter_mbv_sse2,
        inner_columns: vp8_loop_filter_bv_sse2,
        top: vp8_loop_filter_mbh_sse2,
        inner_rows: vp8_loop_filter_bh_sse2,
    },
    Order {
        name: "c",
        left: vp8_loop_filter_mbv_c,
        inner_columns: vp8_loop_filter_bv_c,
        top: vp8_loop_filter_mbh_c,
        inner_rows: vp8_loop_filter_bh_c,
    },
];

const WIDTH: usize = 1920;
const HEIGHT: usize = 1088;

/// Filters a frame of level 32 and sharpness 0, as libvpx goes over it.
fn filter_frame(order: &Order, y: &mut [u8], u: &mut [u8], v: &mut [u8]) {
    let outer = Sixteen([100; 16]);
    let inner = Sixteen([96; 16]);
    let interior = Sixteen([32; 16]);
    let variance = Sixteen([1; 16]);
    let limits = Limits {
        macroblock_edge: outer.0.as_ptr(),
        inner_edge: inner.0.as_ptr(),
        interior: interior.0.as_ptr(),
        variance: variance.0.as_ptr(),
    };
    for row in 0..HEIGHT / 16 {
        for column in 0..WIDTH / 16 {
            let at = 16 * (row * WIDTH + column);
            let of_chroma = 8 * (row * WIDTH / 2 + column);
            let call = |filter: OfMacroblock, y: &mut [u8], u: &mut [u8], v: &mut [u8]| unsafe {
                // The planes have all samples round the macroblock's edges.
                filter(
                    y.as_mut_ptr().add(at),
                    u.as_mut_ptr().add(of_chroma),
                    v.as_mut_ptr().add(of_chroma),
                    WIDTH as i32,
                    WIDTH as i32 / 2,
                    &limits,
                )
            };
            if column > 0 {
                call(order.left, y, u, v);
            }
            call(order.inner_columns, y, u, v);
            if row > 0 {
                call(order.top, y, u, v);
            }
            call(order.inner_rows, y, u, v);
        }
    }
}

fn frame_plane(count: usize) -> Vec<u8> {
    let mut state: u32 = 12345;
    let mut sample = || {
        state = state.wrapping_mul(1_103_515_245).wrapping_add(12345);
        (100 + state / 65536 % 12 + state / 4096 % 2 * 8) as u8
    };
    (0..count).map(|_| sample()).collect()
}

fn frames() {
    for order in &ORDERS {
        let mut best = f64::MAX;
        let mut sum: u32 = 0;
        for _ in 0..ROUNDS {
            let mut y = frame_plane(WIDTH * HEIGHT);
            let mut u = frame_plane(WIDTH * HEIGHT / 4);
            let mut v = u.clone();
            let start = Instant::now();
            filter_frame(order, &mut y, &mut u, &mut v);
            best = best.min(start.elapsed().as_secs_f64() * 1e6);
            sum = [y, u, v].iter().flatten().fold(0, |sum: u32, sample| sum.wrapping_mul(31).wrapping_add(u32::from(*sample)));
        }
        println!("{} {best:.0} us, checksum {sum}", order.name);
    }
}

fn main() {
    if std::env::args().nth(1).as_deref() == Some("frame") {
        frames();
    } else {
        edges();
    }
}
