//! Allocates the planes of a frame of 1920 by 1080 samples, fills each with one value and writes the
//! shown rows to /dev/null, as many times as the first word says: what a frame costs without decoding.

use std::fs::File;
use std::hint::black_box;
use std::io::{BufWriter, Write};

/// A plane's coded width and height, its shown width and height, and its value.
const PLANES: [(usize, usize, usize, usize, u8); 3] = [
    (1920, 1088, 1920, 1080, 129),
    (960, 544, 960, 540, 128),
    (960, 544, 960, 540, 128),
];

fn main() -> std::io::Result<()> {
    let frames: usize = std::env::args().nth(1).and_then(|n| n.parse().ok()).unwrap_or(200);
    let mut out = BufWriter::with_capacity(65_536, File::create("/dev/null")?);
    for _ in 0..frames {
        for (width, height, shown_width, shown_height, value) in PLANES {
            let plane = black_box(vec![value; width * height]);
            for row in plane.chunks_exact(width).take(shown_height) {
                out.write_all(&row[..shown_width])?;
            }
        }
    }
    out.flush()
}
