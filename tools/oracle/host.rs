//! The maths that the Rust is given, and the log of what it asks.
use crate::generator::Generator;
use crate::spelling::bits;
use std::cell::RefCell;
use std::collections::BTreeMap;
use std::f32::consts::PI;
use std::panic::{catch_unwind, AssertUnwindSafe};
use std::process::exit;

pub const SINE: u8 = 1;
pub const COSINE: u8 = 2;
pub const ARC_COSINE: u8 = 3;
pub const TANGENT: u8 = 4;
pub const POWER: u8 = 5;

#[derive(Clone, Copy, Debug)]
pub enum Host {
    /// std's f32 functions.
    Std,
    /// Answers without sense, but the same to the same question, and an arc cosine is NaN or lies
    /// from 0 to 3.1415927. Each number is another such host.
    Nonsense(u64),
}

impl Host {
    /// One of six hosts talks nonsense.
    pub fn any(generator: &mut Generator) -> Host {
        match generator.below(6) {
            0 => Host::Nonsense(u64::from(generator.bits())),
            _ => Host::Std,
        }
    }

    fn answer(self, function: u8, x: f32) -> f32 {
        match self {
            Host::Std => sensible(function, x),
            Host::Nonsense(seed) => senseless(seed, function, x),
        }
    }
}

fn sensible(function: u8, x: f32) -> f32 {
    match function {
        SINE => x.sin(),
        COSINE => x.cos(),
        ARC_COSINE => x.acos(),
        TANGENT => x.tan(),
        POWER => x.powf(0.3333333),
        _ => unreachable!("function {function}"),
    }
}

fn senseless(seed: u64, function: u8, x: f32) -> f32 {
    let question = u64::from(function) << 32 | u64::from(bits(x));
    let mut generator = Generator::new(seed, question);
    let kind = generator.below(8);
    match (function, kind) {
        (_, 0) => f32::NAN,
        (_, 1) => sensible(function, x),
        (ARC_COSINE, 2) => generator.pick(&[0.0, PI]),
        (ARC_COSINE, _) => generator.unit() * PI,
        (_, 2) => generator.pick(&[0.0, -0.0, 1.0, -1.0, f32::INFINITY, f32::NEG_INFINITY]),
        (_, 3) => generator.pick(&[1e-40, -1e-30, 1e-6, 1e6, -1e30, 3e38]),
        (_, 4) => f32::from_bits(generator.bits()),
        _ => generator.within(1.5),
    }
}

/// A question, by the bits of its argument, and the bits of the answer.
#[derive(Clone, Copy)]
pub struct Row {
    pub function: u8,
    pub argument: u32,
    pub answer: u32,
}

/// The number of rows, and nine bytes for each; in numbers the high byte comes first.
pub fn row_bytes(rows: &[Row]) -> Vec<u8> {
    let mut bytes = (rows.len() as u32).to_be_bytes().to_vec();
    for row in rows {
        bytes.push(row.function);
        bytes.extend(row.argument.to_be_bytes());
        bytes.extend(row.answer.to_be_bytes());
    }
    bytes
}

/// Whether a cosine was answered by NaN. One of three roots is NaN then, and has no place in order.
pub fn has_nan_cosine(rows: &[Row]) -> bool {
    let nan = |row: &Row| row.function == COSINE && f32::from_bits(row.answer).is_nan();
    rows.iter().any(nan)
}

struct Log {
    host: Host,
    rows: Vec<Row>,
    /// The answers in the rows, by function and argument.
    known: BTreeMap<(u8, u32), u32>,
    /// Whether questions are answered without a row.
    hushed: bool,
}

impl Log {
    const fn new(host: Host) -> Log {
        Log {
            host,
            rows: Vec::new(),
            known: BTreeMap::new(),
            hushed: false,
        }
    }
}

thread_local! {
    static LOG: RefCell<Log> = const { RefCell::new(Log::new(Host::Std)) };
}

/// Lets zeno work with a host. The rows are its questions, each once, in the order of first asking.
/// A panic of zeno is told with the title of the work, and is the end.
pub fn logged<T>(host: Host, title: &str, work: impl FnOnce() -> T) -> (T, Vec<Row>) {
    LOG.set(Log::new(host));
    let Ok(done) = catch_unwind(AssertUnwindSafe(work)) else {
        eprintln!("zeno panicked: {title}");
        exit(2);
    };
    (
        done,
        LOG.with_borrow_mut(|log| std::mem::take(&mut log.rows)),
    )
}

/// How many rows there are by now.
pub fn asked() -> usize {
    LOG.with_borrow(|log| log.rows.len())
}

/// While it is hushed the log takes no rows.
pub fn hush(hushed: bool) {
    LOG.with_borrow_mut(|log| log.hushed = hushed);
}

// What `ext.rs` calls.

#[unsafe(no_mangle)]
fn oracle_ask(function: u8, x: f32) -> f32 {
    let argument = bits(x);
    LOG.with_borrow_mut(|log| {
        if let Some(&answer) = log.known.get(&(function, argument)) {
            return f32::from_bits(answer);
        }
        let answer = bits(log.host.answer(function, f32::from_bits(argument)));
        if !log.hushed {
            log.known.insert((function, argument), answer);
            log.rows.push(Row {
                function,
                argument,
                answer,
            });
        }
        f32::from_bits(answer)
    })
}

#[unsafe(no_mangle)]
fn oracle_sqrt(x: f32) -> f32 {
    x.sqrt()
}

#[unsafe(no_mangle)]
fn oracle_ceil(x: f32) -> f32 {
    x.ceil()
}
