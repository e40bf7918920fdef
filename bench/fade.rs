// Fades the luma samples of a frame of 1920 by 1080 with `fade_row`, and copies them, in turn.
use std::hint::black_box;
use std::time::Instant;

const WIDTH: usize = 1920;
const HEIGHT: usize = 1080;

unsafe extern "C" {
    fn fade(row: *const u8, weight: u16, dark: u8, out: *mut u8);
}

fn faded(sample: u8, weight: u16, dark: u8) -> u8 {
    ((u32::from(weight) * u32::from(sample) + (256 - u32::from(weight)) * u32::from(dark) + 128) / 256) as u8
}

fn main() {
    let source: Vec<u8> = (0..WIDTH * HEIGHT).map(|i| (i * 7 + i / 13) as u8).collect();
    let mut out = vec![0u8; WIDTH * HEIGHT];
    let mut best = [f64::MAX; 2];
    for weight in 0..=256u16 {
        let start = Instant::now();
        for (row, to) in source.chunks(WIDTH).zip(out.chunks_mut(WIDTH)) {
            unsafe { fade(row.as_ptr(), weight, 16, to.as_mut_ptr()) };
        }
        best[0] = best[0].min(start.elapsed().as_secs_f64());
        if (0..source.len()).any(|i| out[i] != faded(source[i], weight, 16)) {
            eprintln!("a sample differs at weight {weight}");
            std::process::exit(1);
        }
        let start = Instant::now();
        black_box(&mut out).copy_from_slice(black_box(&source));
        best[1] = best[1].min(start.elapsed().as_secs_f64());
    }
    println!(
        "fade {:.3} ms, memcpy {:.3} ms, ratio {:.2}",
        best[0] * 1e3,
        best[1] * 1e3,
        best[0] / best[1]
    );
}
