//! Writes the rows that `replay_maths` reads: arguments from a fixed generator, and the answers of
//! Rust's own `f32` functions. A row is the function's number, the bits of the argument and the bits
//! of the answer, the highest byte first.
//!
//! rustc -O tools/maths_rows.rs -o maths_rows && ./maths_rows > crates/replay_maths/stdin
use std::io::Write;

const ROWS: usize = 2400;

struct Generator(u64);

impl Generator {
    fn bits(&mut self) -> u32 {
        self.0 ^= self.0 << 13;
        self.0 ^= self.0 >> 7;
        self.0 ^= self.0 << 17;
        (self.0 >> 32) as u32
    }

    // from -limit to limit, evenly
    fn within(&mut self, limit: f32) -> f32 {
        let unit = f64::from(self.bits()) / f64::from(u32::MAX);
        ((2.0 * unit - 1.0) * f64::from(limit)) as f32
    }

    // finite, of any size, by its bits
    fn any_size(&mut self) -> f32 {
        f32::from_bits(self.bits() % 0x7f80_0000)
    }
}

fn written(x: f32) -> [u8; 4] {
    if x.is_nan() { 0x7fc0_0000u32 } else { x.to_bits() }.to_be_bytes()
}

fn row(out: &mut Vec<u8>, number: u8, x: f32, y: f32) {
    out.push(number);
    out.extend(written(x));
    out.extend(written(y));
}

fn arguments(limit: f32, others: usize, seed: u64) -> Vec<f32> {
    let mut generator = Generator(seed);
    let mut xs = vec![0.0, -0.0, limit, -limit, f32::INFINITY, f32::NEG_INFINITY, f32::NAN];
    xs.extend([0.5, -0.5, 1e-30, -1e-45, limit.next_up(), -limit.next_up(), limit.next_down()]);
    xs.extend((1..9).map(|k| k as f32 * std::f32::consts::FRAC_PI_4).filter(|x| *x <= limit));
    while xs.len() < ROWS {
        xs.push(generator.within(limit));
    }
    for i in 0..others {
        let x = generator.any_size();
        xs.push(if i % 2 == 0 { x } else { -x });
    }
    xs
}

fn main() {
    let mut out = Vec::new();
    let circle = arguments(8.0, 200, 0x9e37_79b9_7f4a_7c15);
    let unit = arguments(1.0, 20, 0xbf58_476d_1ce4_e5b9);
    let wide = arguments(1.0, 200, 0x94d0_49bb_1331_11eb);
    let mut sizes = arguments(1.0, 2000, 0x2545_f491_4f6c_dd1d);
    sizes.drain(400..ROWS);
    // of the numbers below 0 only the first few: their power is NaN
    sizes.iter_mut().skip(30).for_each(|x| *x = x.abs());
    circle.iter().for_each(|x| row(&mut out, 1, *x, x.sin()));
    circle.iter().for_each(|x| row(&mut out, 2, *x, x.cos()));
    unit.iter().for_each(|x| row(&mut out, 3, *x, x.acos()));
    wide.iter().for_each(|x| row(&mut out, 4, *x, x.tan()));
    sizes.iter().for_each(|x| row(&mut out, 5, *x, x.powf(0.3333333)));
    std::io::stdout().write_all(&out).expect("standard output takes the rows");
}
