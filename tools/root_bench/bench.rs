//! Nanoseconds for one root: ours, the machine's, and how many times longer ours takes. What a call
//! takes depends on the numbers, since a machine may work out the root of a subnormal one by steps.
use std::hint::black_box;
use std::time::Instant;

extern "C" {
    fn numbers_sqrt(x: f32) -> f32;
}

#[inline(never)]
extern "C" fn machine_sqrt(x: f32) -> f32 {
    x.sqrt()
}

const COUNT: usize = 4096;
const TURNS: usize = 2000;

/// Parts from 0 to 1.
fn parts() -> impl Iterator<Item = f64> {
    let mut state = 0x9e37_79b9_7f4a_7c15u64;
    (0..COUNT).map(move |_| {
        state ^= state << 13;
        state ^= state >> 7;
        state ^= state << 17;
        (state >> 11) as f64 / (1u64 << 53) as f64
    })
}

/// Numbers between 1e-6 and 1e9, spread evenly over the exponents.
fn ordinary() -> Vec<f32> {
    parts().map(|part| 10f64.powf(-6.0 + 15.0 * part) as f32).collect()
}

/// Numbers below the least normal one.
fn subnormal() -> Vec<f32> {
    parts().map(|part| f32::from_bits(1 + (part * 8_388_606.0) as u32)).collect()
}

fn time(xs: &[f32], out: &mut [f32], each: impl Fn(&[f32], &mut [f32])) -> f64 {
    each(xs, out);
    let mut best = f64::MAX;
    for _ in 0..5 {
        let start = Instant::now();
        for _ in 0..TURNS {
            each(black_box(xs), black_box(&mut *out));
        }
        best = best.min(start.elapsed().as_secs_f64());
    }
    best * 1e9 / (COUNT * TURNS) as f64
}

fn compare(name: &str, xs: &[f32]) {
    let mut ours = vec![0.0; COUNT];
    let mut theirs = vec![0.0; COUNT];
    let a = time(xs, &mut ours, |xs, out| {
        for (o, x) in out.iter_mut().zip(xs) {
            *o = unsafe { numbers_sqrt(*x) };
        }
    });
    let b = time(xs, &mut theirs, |xs, out| {
        for (o, x) in out.iter_mut().zip(xs) {
            *o = machine_sqrt(*x);
        }
    });
    let c = time(xs, &mut theirs, |xs, out| {
        for (o, x) in out.iter_mut().zip(xs) {
            *o = x.sqrt();
        }
    });
    let same = ours.iter().zip(&theirs).all(|(a, b)| a.to_bits() == b.to_bits());
    println!("{name}");
    println!("  ours, called            {a:.2} ns");
    println!("  machine's, called       {b:.2} ns   ratio {:.1}", a / b);
    println!("  machine's, over vectors {c:.2} ns   ratio {:.1}", a / c);
    println!("  same answers: {same}");
}

/// Every NaN that the root hands out is 7FC00000, whatever the argument's sign and payload.
fn see_nan() {
    for bits in [0xbf80_0000, 0x7f80_0001, 0x7fc0_0000, 0x7fff_ffff, 0xff80_0000, 0xffc0_0000] {
        let root = unsafe { numbers_sqrt(f32::from_bits(bits)) };
        assert_eq!(root.to_bits(), 0x7fc0_0000, "the root of {bits:08X}");
    }
}

fn main() {
    see_nan();
    compare("from 1e-6 to 1e9", &ordinary());
    compare("subnormal", &subnormal());
}
