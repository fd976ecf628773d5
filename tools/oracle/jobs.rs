//! Jobs by chance: paths and styles of every kind, and limits.
use crate::generator::Generator;
use crate::job::{self, item, BUDGET, DASHES};
use crate::journal::{Journal, Limits, PLACES};
use crate::paths;
use crate::planned::LIMITS;
use crate::spelling::{parts, path_bytes};
use std::f32::consts::{PI, TAU};
use zeno::command::Command::{self, Close, CurveTo, LineTo, MoveTo, QuadTo};
use zeno::geometry::Point;

type Maker = fn(&mut Generator) -> Vec<Command>;

/// Weights, names, and what makes the path.
const KINDS: &[(u32, &str, Maker)] = &[
    (40, "any path", any_path),
    (16, "a finger's lines", finger_lines),
    (8, "a finger's curves", finger_curves),
    (12, "a ring", ring),
    (12, "whole numbers", whole),
    (4, "steps", steps),
    (6, "short parts", short_parts),
    (4, "at the limits", limit_numbers),
    (2, "as many lines as the storage holds", many_lines),
];

/// The bytes of a job, and the name of its kind.
pub fn job(generator: &mut Generator) -> (&'static str, Vec<u8>) {
    let (name, path) = path(generator);
    let style = style(generator, length(&path));
    let path = path.iter().map(|command| path_bytes(&[*command])).collect();
    let mut items = merged(generator, style, path);
    if generator.chance(5) {
        spoil(generator, &mut items);
    }
    (name, items.concat())
}

fn path(generator: &mut Generator) -> (&'static str, Vec<Command>) {
    let (_, name, maker) = KINDS[generator.by_weight(KINDS)];
    (name, maker(generator))
}

/// One of the paths that are drawn elsewhere, seldom one with a coordinate past the limits.
fn any_path(generator: &mut Generator) -> Vec<Command> {
    loop {
        let number = u64::from(generator.below(200));
        let (_, path) = paths::path(number, generator);
        if path.iter().all(job::is_near) || generator.chance(10) {
            return path;
        }
    }
}

fn within(generator: &mut Generator, size: f32) -> Point {
    Point::new(generator.within(size), generator.within(size))
}

/// A finger that turns slowly, by speeds that vary, and rests here and there.
struct Finger<'a> {
    generator: &'a mut Generator,
    at: Point,
    way: f32,
    speed: f32,
}

impl Finger<'_> {
    fn new(generator: &mut Generator) -> Finger<'_> {
        Finger {
            at: within(generator, 200.0),
            way: generator.within(PI),
            speed: 0.2 + generator.unit() * 6.0,
            generator,
        }
    }

    fn heading(&self) -> Point {
        let (y, x) = self.way.sin_cos();
        Point::new(x, y)
    }

    fn turn(&mut self) {
        let most = if self.generator.chance(5) { PI } else { 0.6 };
        self.way += self.generator.within(most);
        self.speed *= 0.6 + self.generator.unit();
        self.speed = self.speed.clamp(0.002, 20.0);
    }

    fn go(&mut self) -> Point {
        self.turn();
        self.at = match self.generator.below(12) {
            0 => self.at + within(self.generator, 0.02),
            _ => self.at + self.heading() * self.speed,
        };
        self.at
    }

    /// A curve that goes on in the same direction.
    fn curve(&mut self) -> Command {
        let b = self.at + self.heading() * (2.0 * self.speed);
        self.speed *= 3.0;
        let to = self.go();
        let c = to - self.heading() * self.speed;
        match self.generator.chance(30) {
            true => QuadTo(b, to),
            false => CurveTo(b, c, to),
        }
    }
}

fn finger_lines(generator: &mut Generator) -> Vec<Command> {
    finger(generator, 60, |finger| LineTo(finger.go()))
}

fn finger_curves(generator: &mut Generator) -> Vec<Command> {
    finger(generator, 16, |finger| finger.curve())
}

fn finger(generator: &mut Generator, most: u32, step: fn(&mut Finger) -> Command) -> Vec<Command> {
    let mut path = Vec::new();
    for _ in 0..1 + generator.below(2) {
        let count = generator.pick(&[3, most / 4, most]);
        let count = 1 + generator.below(count);
        let closed = generator.chance(30);
        let mut finger = Finger::new(generator);
        path.push(MoveTo(finger.at));
        path.extend((0..count).map(|_| step(&mut finger)));
        if closed {
            path.push(Close);
        }
    }
    path
}

/// Polygons and squares, mostly closed, whose dashes meet at the start.
fn ring(generator: &mut Generator) -> Vec<Command> {
    let size = generator.pick(&[4.0, 8.0, 10.0, 100.0, 3.3]);
    let middle = Point::new(whole_number(generator), whole_number(generator));
    let corners: Vec<Point> = match generator.chance(40) {
        true => [[0.0, 0.0], [size, 0.0], [size, size], [0.0, size]]
            .map(|[x, y]| middle + Point::new(x, y))
            .to_vec(),
        false => {
            let count = 3 + generator.below(10);
            let around = generator.pick(&[TAU, -TAU]);
            let corner = |place: u32| {
                let (y, x) = (place as f32 * around / count as f32).sin_cos();
                middle + Point::new(x, y) * size
            };
            (0..count).map(corner).collect()
        }
    };
    let mut path = vec![MoveTo(corners[0])];
    for &corner in &corners[1..] {
        path.push(match generator.chance(15) {
            true => QuadTo(middle, corner),
            false => LineTo(corner),
        });
    }
    if generator.chance(20) {
        path.push(LineTo(corners[0]));
    }
    if generator.chance(85) {
        path.push(Close);
    }
    path
}

fn whole_number(generator: &mut Generator) -> f32 {
    generator.below(17) as f32 - 8.0
}

/// Commands of every kind between few places.
fn whole(generator: &mut Generator) -> Vec<Command> {
    let places: Vec<Point> = (0..3 + generator.below(4))
        .map(|_| Point::new(whole_number(generator), whole_number(generator)))
        .collect();
    let mut path = Vec::new();
    for place in 0..1 + generator.below(14) {
        let [b, c, to] = [0; 3].map(|_| generator.pick(&places));
        let letter = generator.below(if place == 0 { 30 } else { 12 });
        path.push(match letter {
            0..5 => LineTo(to),
            5 | 6 => CurveTo(b, c, to),
            7 => CurveTo(b, b, to),
            8 | 9 => QuadTo(b, to),
            10 => Close,
            _ => MoveTo(to),
        });
    }
    path
}

/// A few steps along the axes, whose length is a whole number.
fn steps(generator: &mut Generator) -> Vec<Command> {
    let mut at = Point::new(whole_number(generator), whole_number(generator));
    let mut path = vec![MoveTo(at)];
    for _ in 0..1 + generator.below(3) {
        let by = generator.pick(&[2.0, 4.0, 8.0, -3.0, -8.0]);
        at = match generator.chance(50) {
            true => Point::new(at.x + by, at.y),
            false => Point::new(at.x, at.y + by),
        };
        path.push(LineTo(at));
    }
    path
}

/// Short parts, open, closed and empty.
fn short_parts(generator: &mut Generator) -> Vec<Command> {
    let mut path = Vec::new();
    for _ in 0..2 + generator.below(5) {
        if generator.chance(80) {
            path.push(MoveTo(within(generator, 50.0)));
        }
        for _ in 0..generator.below(4) {
            let (b, to) = (within(generator, 50.0), within(generator, 50.0));
            path.push(match generator.below(3) {
                0 => QuadTo(b, to),
                _ => LineTo(to),
            });
        }
        if generator.chance(40) {
            path.push(Close);
        }
    }
    path
}

const NUMBERS: &[f32] = &[
    1_048_576.0,
    -1_048_576.0,
    1_048_575.94,
    -1_048_575.94,
    0.0,
    -0.0,
    0.01,
    1e-40,
];

const PAST: &[f32] = &[
    1_048_576.1,
    -1_048_576.1,
    f32::NAN,
    f32::INFINITY,
    f32::NEG_INFINITY,
    3e38,
];

fn limit_numbers(generator: &mut Generator) -> Vec<Command> {
    let past = if generator.chance(20) { 4 } else { 0 };
    let mut number = || match generator.below(20) {
        0..10 => generator.pick(NUMBERS),
        chance if chance < 10 + past => generator.pick(PAST),
        _ => generator.within(1_048_576.0),
    };
    let mut point = || Point::new(number(), number());
    let mut path = vec![MoveTo(point())];
    for letter in [0, 1, 2, 0, 3] {
        let (b, c, to) = (point(), point(), point());
        path.push(match letter {
            0 => LineTo(to),
            1 => QuadTo(b, to),
            2 => CurveTo(b, c, to),
            _ => Close,
        });
    }
    path.truncate(2 + generator.below(5) as usize);
    path
}

fn many_lines(generator: &mut Generator) -> Vec<Command> {
    let count = 120 + generator.below(16);
    let closed = generator.chance(30);
    let mut finger = Finger::new(generator);
    let mut path = vec![MoveTo(finger.at)];
    for _ in 0..count {
        finger.turn();
        finger.speed = finger.speed.max(0.5);
        finger.at = finger.at + finger.heading() * finger.speed;
        path.push(LineTo(finger.at));
    }
    if closed {
        path.push(Close);
    }
    path
}

/// About how long a path is; 100 if that is no number.
fn length(path: &[Command]) -> f32 {
    let points: Vec<Point> = path.iter().flat_map(|command| parts(command).1).collect();
    let legs = points.windows(2).map(|leg| (leg[1] - leg[0]).length());
    match legs.sum::<f32>() {
        sum if sum.is_finite() => sum,
        _ => 100.0,
    }
}

/// The letters of a style. Those left out are as they are from the start.
fn style(generator: &mut Generator, length: f32) -> Vec<Vec<u8>> {
    let mut items = Vec::new();
    if generator.chance(10) {
        items.push(item(b'W', &[generator.unit()]));
        items.push(vec![b'J', generator.below(3) as u8]);
    }
    if generator.chance(90) {
        items.push(item(b'W', &[width(generator)]));
    }
    if generator.chance(85) {
        items.push(vec![b'J', generator.below(3) as u8]);
    }
    if generator.chance(40) {
        items.push(item(b'I', &[miter_limit(generator)]));
    }
    let [start, end] = [0; 2].map(|_| generator.below(3) as u8);
    let end = if generator.chance(60) { start } else { end };
    if generator.chance(85) {
        items.push(vec![b'S', start]);
        items.push(vec![b'E', end]);
    }
    let dashes = match generator.chance(50) {
        true => dashes(generator, length),
        false => Vec::new(),
    };
    if generator.chance(70) {
        items.push(item(b'O', &[offset(generator, &dashes)]));
    }
    items.extend(dashes.iter().map(|&dash| item(b'D', &[dash])));
    items
}

fn width(generator: &mut Generator) -> f32 {
    match generator.below(32) {
        0 => generator.pick(&[0.0, -0.0, -1.0, f32::NEG_INFINITY]),
        1 => generator.pick(&[0.005, 0.009999999, 0.01, 0.010000001, 0.02]),
        2 => f32::NAN,
        3 => generator.pick(&[4096.0, 4095.0, 1000.0, 300.0]),
        4 if generator.chance(40) => generator.pick(&[4096.0005, 4097.0, 3e38, f32::INFINITY]),
        5..16 => generator.pick(&[1.0, 2.0, 3.0, 4.0, 0.5, 10.0]),
        _ => 0.1 + generator.unit() * 30.0,
    }
}

fn miter_limit(generator: &mut Generator) -> f32 {
    match generator.below(4) {
        0 => generator.pick(&[0.0, 0.5, 0.99999994, 1.0, 1.0000001, -3.0, f32::MAX]),
        1 => generator.pick(&[f32::NAN, f32::INFINITY, f32::NEG_INFINITY, 1.4142135, 2.0]),
        _ => 1.0 + generator.unit() * 11.0,
    }
}

/// Dashes beside which the path is not too long.
fn dashes(generator: &mut Generator, length: f32) -> Vec<f32> {
    if length.fract() == 0.0 && length > 0.0 && generator.chance(40) {
        return departing(generator, length);
    }
    let most = generator.pick(&[1, 2, 2, 2, 3, 4, 6, DASHES as u32]);
    let count = match generator.chance(50) {
        true => most,
        false => 1 + generator.below(most),
    };
    let unit = match generator.below(20) {
        0..10 if length < 3000.0 => 1.0,
        0 => 20.0,
        _ => (length / (3.0 + generator.unit() * 30.0)).max(1.0),
    };
    let mut dashes: Vec<f32> = (0..count).map(|_| unit * dash(generator)).collect();
    alter(generator, &mut dashes);
    dashes
}

/// A dash and a gap that are as long as the path, and a dash without a length.
fn departing(generator: &mut Generator, length: f32) -> Vec<f32> {
    let first = length * generator.pick(&[0.0, 0.25, 0.5, 0.75, 1.0]);
    let last = [f32::NAN, dash(generator), dash(generator)];
    let count = 1 + generator.below(3) as usize;
    [[first, length - first].as_slice(), &last[..count]].concat()
}

fn dash(generator: &mut Generator) -> f32 {
    match generator.below(6) {
        0 => generator.unit() * 2.0,
        1 => generator.below(9) as f32,
        2 => generator.pick(&[1.0, 2.0, 4.0, 8.0, 12.0]),
        3 => 1.0 + generator.below(5) as f32,
        _ => 1.0 + generator.unit() * 15.0,
    }
}

/// In half of the lists some are 0, or odd numbers, or all are too small.
fn alter(generator: &mut Generator, dashes: &mut [f32]) {
    let one = generator.below(dashes.len() as u32) as usize;
    match generator.below(16) {
        0 => dashes
            .iter_mut()
            .skip(1)
            .step_by(2)
            .for_each(|gap| *gap = 0.0),
        1 => dashes.iter_mut().step_by(2).for_each(|dash| *dash = 0.0),
        2 => dashes[one] = 0.0,
        3 => {
            let zero = |dash: &&mut f32| **dash != 0.0 && generator.chance(50);
            dashes.iter_mut().filter(zero).for_each(|dash| *dash = 0.0);
        }
        4 => dashes
            .iter_mut()
            .for_each(|dash| *dash = dash.min(0.99999994)),
        5 => dashes[one] = generator.pick(&[-1.0, -0.0, -1e-30]),
        6 => dashes[one] = f32::NAN,
        7 => dashes[one] = generator.pick(&[f32::INFINITY, 1e30, 1e-30, 0.99999994]),
        _ => {}
    }
}

fn offset(generator: &mut Generator, dashes: &[f32]) -> f32 {
    let sum: f32 = dashes.iter().sum();
    match generator.below(12) {
        0 => generator.pick(&[0.0, -0.0]),
        1 => generator.within(50.0),
        2 => generator.below(40) as f32 - 20.0,
        3 => -sum,
        4 => sum * generator.below(4) as f32,
        5 => generator.pick(&[1e6, -1e6, 1e10, -1e10, 3e38, -3e38, 1e-30, -1e-30]),
        6 => generator.pick(&[f32::NAN, f32::INFINITY, f32::NEG_INFINITY]),
        7 => {
            let count = generator.below(1 + dashes.len() as u32) as usize;
            dashes[..count].iter().sum()
        }
        _ => generator.within(2.0) * sum,
    }
}

/// The style before the path, or, now and then, among it.
fn merged(generator: &mut Generator, style: Vec<Vec<u8>>, path: Vec<Vec<u8>>) -> Vec<Vec<u8>> {
    if !generator.chance(12) {
        return style.into_iter().chain(path).collect();
    }
    let (mut style, mut path) = (style.into_iter(), path.into_iter());
    let mut items = Vec::new();
    loop {
        let next = match generator.chance(50) {
            true => style.next().or_else(|| path.next()),
            false => path.next().or_else(|| style.next()),
        };
        match next {
            Some(item) => items.push(item),
            None => return items,
        }
    }
}

/// Makes the job one that the reader refuses, or one with all dashes that it takes.
fn spoil(generator: &mut Generator, items: &mut Vec<Vec<u8>>) {
    let place = generator.below(items.len() as u32 + 1) as usize;
    match generator.below(5) {
        0 => {
            let letter = generator.bits() as u8;
            if job::size(letter).is_none() {
                items.insert(place, vec![letter]);
            }
        }
        1 => {
            let letter = generator.pick(b"WIODJSEMLCQ");
            let size = job::size(letter).expect("a letter of a job") as u32;
            let bytes = (0..generator.below(size)).map(|_| generator.bits() as u8);
            items.push([letter].into_iter().chain(bytes).collect());
        }
        2 => {
            let byte = generator.pick(&[3, 4, b'0', b'1', 255]);
            items.insert(place, vec![generator.pick(b"JSE"), byte]);
        }
        _ => {
            let dashes = items.iter().filter(|item| item[0] == b'D').count();
            let missing = DASHES + generator.below(2) as usize - dashes;
            let dash = item(b'D', &[1.0 + generator.below(9) as f32]);
            items.splice(place..place, vec![dash; missing]);
        }
    }
}

/// Limits around what happens in the stroke.
pub fn limits(generator: &mut Generator, journal: &Journal) -> Limits {
    let mut limits = Limits {
        storage: generator.pick(&[128, 128, 200, 512]),
        places: generator.pick(&[300, 1024, 1024, PLACES]),
        ..LIMITS
    };
    let exact = Limits {
        storage: journal.most_held(),
        places: journal.sent().min(PLACES),
        budget: journal.steps().min(BUDGET),
    };
    let mut up_to = |most: usize| generator.below(most as u32 + 2) as usize;
    let any = Limits {
        storage: up_to(exact.storage),
        places: up_to(exact.places).min(PLACES),
        budget: up_to(exact.budget).min(BUDGET),
    };
    match generator.below(16) {
        0 | 1 => limits.storage = any.storage,
        2 | 3 => limits.places = any.places,
        4..7 => limits.budget = any.budget,
        7 => limits = any,
        8 => limits = exact,
        9 if generator.chance(20) => {
            limits.budget = generator.pick(&[BUDGET + 1, 100_000, u32::MAX as usize]);
        }
        _ => {}
    }
    limits
}
