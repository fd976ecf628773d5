//! Writes the table that the crate `replay_roots` is run on: `stdin` with a step and a bit pattern
//! to a line, and `stdout` with the pattern of the answer of the machine's own step.
//!
//!     rustc -O -o root_table tools/root_table.rs && ./root_table crates/replay_roots
use std::fmt::Write;

fn root_arguments(next: &mut impl FnMut() -> u32) -> Vec<u32> {
    let inf = f32::INFINITY.to_bits();
    let sign = 1 << 31;
    let mut all = vec![0, sign, inf, sign | inf, f32::NAN.to_bits()];
    // the ends of the subnormal and of the normal numbers
    all.extend([1, 2, 3, 0x7f_fffe, 0x7f_ffff, 0x80_0000, 0x80_0001, inf - 2, inf - 1]);
    all.extend([1u32, 0x7f_ffff, 0x80_0000, 0x3f80_0000, inf - 1].map(|b| sign | b));
    // squares, with the two numbers beside each
    for k in (1..40).chain([255, 1000, 2047, 2048, 4094, 4095]) {
        let b = ((k * k) as f32).to_bits();
        all.extend([b - 1, b, b + 1]);
    }
    for e in [-149i32, -148, -126, -20, -2, -1, 2, 20, 21, 126, 127] {
        let b = 2f64.powi(e) as f32;
        let b = b.to_bits();
        all.extend([b.saturating_sub(1), b, b + 1]);
    }
    all.extend((0..300).map(|_| next() & 0x7fff_ffff));
    all.extend((0..60).map(|_| next() & 0x7f_ffff));
    all.extend((0..20).map(|_| next() | sign));
    all
}

fn ceiling_arguments(next: &mut impl FnMut() -> u32) -> Vec<u32> {
    let mut sizes = vec![0, 1, 0x7f_ffff, 0x80_0000, f32::INFINITY.to_bits(), f32::MAX.to_bits()];
    for x in [0.25f32, 0.5, 1.0, 1.5, 2.0, 2.5, 4194304.0, 8388608.0, 16777216.0] {
        sizes.extend([x.to_bits() - 1, x.to_bits(), x.to_bits() + 1]);
    }
    // from 2^-3 up to 2^25
    sizes.extend((0..100).map(|_| (124 << 23) + next() % (28 << 23)));
    let below: Vec<u32> = sizes.iter().map(|b| 1 << 31 | b).collect();
    sizes.extend(below);
    sizes.push(f32::NAN.to_bits());
    sizes
}

fn main() -> std::io::Result<()> {
    let folder = std::env::args().nth(1).expect("the crate's folder");
    let mut state = 0x2545_f491_4f6c_dd1du64;
    let mut next = move || {
        state ^= state << 13;
        state ^= state >> 7;
        state ^= state << 17;
        (state >> 32) as u32
    };
    let (mut asked, mut answered) = (String::new(), String::new());
    let mut row = |step: &str, bits: u32, r: f32| {
        // every NaN by one pattern; the test is of the bits, since a compiler may drop one of the number
        let r = r.to_bits();
        let r = if r & 0x7fff_ffff > 0x7f80_0000 { 0x7fc0_0000 } else { r };
        writeln!(asked, "{step} {bits}").unwrap();
        writeln!(answered, "{r}").unwrap();
    };
    for bits in root_arguments(&mut next) {
        row("sqrt", bits, f32::from_bits(bits).sqrt());
    }
    for bits in ceiling_arguments(&mut next) {
        row("ceil", bits, f32::from_bits(bits).ceil());
    }
    std::fs::write(format!("{folder}/stdin"), asked)?;
    std::fs::write(format!("{folder}/stdout"), answered)
}
