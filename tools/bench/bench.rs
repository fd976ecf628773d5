//! How long strokes take, ours and zeno's: the same paths, in one run and in turns.
use std::hint::black_box;
use std::time::Instant;
use zeno::command::Command;
use zeno::geometry::Point;
use zeno::stroke::stroke_into;
use zeno::style::{Cap, Join, Stroke};

#[repr(C)]
#[derive(Clone, Copy, Default, Debug, PartialEq)]
struct Answer {
    length: u64,
    sent: u64,
    place: u64,
    steps: u32,
    refusal: u32,
}

extern "C" {
    fn stroke_job(job: *const u8, job_length: usize, bytes: *mut u8, bytes_length: usize, answer: *mut Answer);
}

const ROUNDS: usize = 41;
const ROUND: f64 = 0.002;

struct Case {
    name: String,
    style: Stroke<'static>,
    path: Vec<Command>,
}

struct Chance(u64);

impl Chance {
    fn next(&mut self) -> f32 {
        self.0 ^= self.0 << 13;
        self.0 ^= self.0 >> 7;
        self.0 ^= self.0 << 17;
        (self.0 >> 40) as f32 / (1u64 << 24) as f32
    }
}

/// Lines as a finger draws them, in steps of about 3: a part of 100 points, and the next.
fn signature(points: usize) -> Vec<Command> {
    let mut chance = Chance(0x9e37_79b9_7f4a_7c15);
    let mut path = Vec::new();
    for i in 0..points {
        let t = i as f32;
        let x = 0.9 * t + 14.0 * (t * 0.19).sin() + 0.3 * chance.next();
        let y = 100.0 + 18.0 * (t * 0.23).cos() + 7.0 * (t * 0.071).sin() + 0.3 * chance.next();
        let p = Point::new(x, y);
        path.push(if i % 100 == 0 { Command::MoveTo(p) } else { Command::LineTo(p) });
    }
    path
}

/// So many commands: closed paths of 30 cubics about a circle, each of about 60 in length, the last
/// path of as many cubics as are left.
fn glyphs(commands: usize) -> Vec<Command> {
    let mut chance = Chance(0x1234_5678_9abc_def1);
    let mut path = Vec::new();
    while path.len() < commands {
        let curves = 30.min(commands - path.len() - 2);
        let middle = 500.0 + path.len() as f32;
        let at = |i: f32, radius: f32| {
            let angle = i * std::f32::consts::TAU / 30.0;
            Point::new(middle + radius * angle.cos(), 500.0 + radius * angle.sin())
        };
        path.push(Command::MoveTo(at(0.0, 300.0)));
        for i in 0..curves {
            let t = i as f32;
            let a = at(t + 0.33, 260.0 + 80.0 * chance.next());
            let b = at(t + 0.67, 260.0 + 80.0 * chance.next());
            path.push(Command::CurveTo(a, b, at(t + 1.0, 300.0)));
        }
        path.push(Command::Close);
    }
    path
}

fn style(width: f32, join: Join, cap: Cap, dashes: &'static [f32], offset: f32) -> Stroke<'static> {
    let mut style = Stroke::new(width);
    style.join(join).cap(cap).dash(dashes, offset);
    style
}

fn job(case: &Case) -> Vec<u8> {
    let style = &case.style;
    let join = match style.join {
        Join::Bevel => 0,
        Join::Miter => 1,
        Join::Round => 2,
    };
    let shape = |cap| match cap {
        Cap::Butt => 0,
        Cap::Square => 1,
        Cap::Round => 2,
    };
    let mut bytes = Vec::new();
    let letter = |bytes: &mut Vec<u8>, letter: u8, numbers: &[f32]| {
        bytes.push(letter);
        for x in numbers {
            bytes.extend(x.to_bits().to_be_bytes());
        }
    };
    letter(&mut bytes, b'W', &[style.width]);
    bytes.extend([b'J', join, b'S', shape(style.start_cap), b'E', shape(style.end_cap)]);
    letter(&mut bytes, b'I', &[style.miter_limit]);
    letter(&mut bytes, b'O', &[style.offset]);
    for x in style.dashes {
        letter(&mut bytes, b'D', &[*x]);
    }
    for command in &case.path {
        record(&mut bytes, command);
    }
    bytes
}

fn record(bytes: &mut Vec<u8>, command: &Command) {
    let (letter, points): (u8, &[Point]) = match command {
        Command::MoveTo(p) => (b'M', &[*p]),
        Command::LineTo(p) => (b'L', &[*p]),
        Command::CurveTo(a, b, p) => (b'C', &[*a, *b, *p]),
        Command::QuadTo(a, p) => (b'Q', &[*a, *p]),
        Command::Close => (b'Z', &[]),
    };
    bytes.push(letter);
    for p in points {
        bytes.extend(p.x.to_bits().to_be_bytes());
        bytes.extend(p.y.to_bits().to_be_bytes());
    }
}

fn ours(job: &[u8], bytes: &mut [u8]) -> Answer {
    let mut answer = Answer::default();
    unsafe { stroke_job(job.as_ptr(), job.len(), bytes.as_mut_ptr(), bytes.len(), &mut answer) };
    answer
}

fn zenos(case: &Case, out: &mut Vec<Command>) {
    out.clear();
    stroke_into(case.path.iter(), &case.style, out);
}

/// Microseconds for one call, over as many calls as a round takes.
fn once(turns: usize, mut call: impl FnMut()) -> f64 {
    let start = Instant::now();
    for _ in 0..turns {
        call();
    }
    start.elapsed().as_secs_f64() * 1e6 / turns as f64
}

fn turns(mut call: impl FnMut()) -> usize {
    call();
    let one = once(3, &mut call) * 1e-6;
    (ROUND / one).ceil().max(1.0) as usize
}

fn median(mut times: Vec<f64>) -> f64 {
    times.sort_by(f64::total_cmp);
    times[times.len() / 2]
}

/// The largest difference between two numbers of the two outputs, none where they are of other kinds.
fn apart(bytes: &[u8], out: &[Command]) -> Option<f32> {
    let mut theirs = Vec::new();
    out.iter().for_each(|command| record(&mut theirs, command));
    if bytes.len() != theirs.len() {
        return None;
    }
    let mut worst = 0f32;
    let mut place = 0;
    for command in out {
        let numbers = match command {
            Command::MoveTo(_) | Command::LineTo(_) => 2,
            Command::CurveTo(..) => 6,
            Command::QuadTo(..) => 4,
            Command::Close => 0,
        };
        if bytes[place] != theirs[place] {
            return None;
        }
        place += 1;
        for _ in 0..numbers {
            let number = |from: &[u8]| f32::from_bits(u32::from_be_bytes(from[place..place + 4].try_into().unwrap()));
            worst = worst.max((number(bytes) - number(&theirs)).abs());
            place += 4;
        }
    }
    Some(worst)
}

fn measure(case: &Case) {
    let job = job(case);
    let mut bytes = vec![0u8; 4 << 20];
    let mut out = Vec::new();
    zenos(case, &mut out);
    let answer = ours(&job, &mut bytes);
    let apart = apart(&bytes[..answer.length as usize], &out);
    let ours_turns = turns(|| { black_box(ours(black_box(&job), &mut bytes)); });
    let zenos_turns = turns(|| zenos(black_box(case), black_box(&mut out)));
    let (mut a, mut b) = (Vec::new(), Vec::new());
    for _ in 0..ROUNDS {
        a.push(once(ours_turns, || { black_box(ours(black_box(&job), &mut bytes)); }));
        b.push(once(zenos_turns, || zenos(black_box(case), black_box(&mut out))));
    }
    let (a, b) = (median(a), median(b));
    let each = |time: f64| 1e3 * time / case.path.len() as f64;
    let apart = apart.map_or("other commands".to_string(), |x| format!("{x:.1e}"));
    let end = match answer.refusal {
        0 => format!("{} sent", answer.sent),
        n => format!("refused by {n} at {}", answer.place),
    };
    println!(
        "{:<32} {:>8.1} {:>8.1} {:>6.2} {:>8.0} {:>8.0}   {end}, zeno {}; apart {apart}",
        case.name, a, b, a / b, each(a), each(b), out.len()
    );
}

/// Ours alone, for a profile: a case so many times.
fn alone(case: &Case, turns: usize) {
    let job = job(case);
    let mut bytes = vec![0u8; 4 << 20];
    for _ in 0..turns {
        black_box(ours(black_box(&job), &mut bytes));
    }
}

fn main() {
    let round = style(2.0, Join::Round, Cap::Round, &[], 0.0);
    let dashed = style(2.0, Join::Round, Cap::Round, &[4.0, 4.0], 1.0);
    let miter = style(2.0, Join::Miter, Cap::Butt, &[], 0.0);
    let case = |name: &str, style, path| Case { name: name.to_string(), style, path };
    let three = [
        case("a: signature, 300 points, round", round, signature(300)),
        case("b: glyph, 30 cubics, miter", miter, glyphs(32)),
        case("c: signature, dashed 4 4 from 1", dashed, signature(300)),
    ];
    let arguments: Vec<String> = std::env::args().skip(1).collect();
    if let [which, turns] = &arguments[..] {
        let case = three.iter().find(|case| case.name.starts_with(which.as_str()));
        return alone(case.expect("a, b or c"), turns.parse().expect("a number of turns"));
    }
    println!(
        "{:<32} {:>8} {:>8} {:>6} {:>8} {:>8}",
        "microseconds, medians", "ours", "zeno's", "ratio", "ns each", "zeno's"
    );
    three.iter().for_each(measure);
    for n in [10, 30, 100, 300, 1000, 4000] {
        measure(&case(&format!("  {n} commands, round"), round, signature(n)));
    }
    for n in [10, 30, 100, 300, 1000, 4000] {
        measure(&case(&format!("  {n} commands, dashed"), dashed, signature(n)));
    }
    for n in [10, 32, 96, 320, 992, 4000] {
        measure(&case(&format!("  {n} commands, cubics"), miter, glyphs(n)));
    }
}
