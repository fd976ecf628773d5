//! Generated paths of every kind.
use crate::generator::Generator;
use zeno::command::Command::{self, Close, CurveTo, LineTo, MoveTo, QuadTo};
use zeno::geometry::Point;

/// How many of each 200 paths are made by plan; the others are made by chance.
pub const PLANNED: u64 = 2 + CLOSES.len() as u64;

/// Short paths with a close, a start or an end of every kind. The letters are those of a path, and
/// some more: S and N are a line back to the start and near to it, A is a curve whose points are
/// all one, O is a curve that goes out and returns, whose first piece is too short to be given, and
/// X is a curve of which 16 pieces are made, as many as there are places for.
const CLOSES: &[&str] = &[
    "", "M", "Z", "ZZ", "ZL", "ZM", "L", "LZ", "C", "CZ", "Q", "MM", "MZ", "MZZ", "MZL", "MMZ",
    "MML", "MLM", "MLMM", "MLMZ", "MLZ", "MLZZ", "MLZZZ", "MLZL", "MLZLZ", "MLZM", "MLZMLZ",
    "MLSZ", "MLSZZ", "MLSZM", "MLLSZ", "MLLSZLZ", "MLNZ", "MLNZZ", "MLLNZ", "MLLNZL", "MCZ",
    "MCSZ", "MCNZZ", "MQZ", "MQSZ", "MQNZM", "MA", "MAZ", "MLAL", "MO", "MOM", "MOZ", "MX",
];

/// The path with this number, and the name of its kind.
pub fn path(number: u64, generator: &mut Generator) -> (&'static str, Vec<Command>) {
    let planned = number % 200;
    let numbers = if planned < PLANNED {
        Numbers::Within(100.0)
    } else {
        generator.pick(NUMBERS)
    };
    let mut pen = Pen::new(generator, numbers);
    let name = match planned {
        0 => {
            long(&mut pen);
            "long"
        }
        1 => {
            rest(&mut pen, 254);
            "two commands with one id"
        }
        2..PLANNED => {
            by_letters(&mut pen, CLOSES[planned as usize - 2]);
            "a close by plan"
        }
        _ => pen.draw_any(),
    };
    (name, pen.path)
}

type Step = fn(&mut Pen);

/// Weights, names, and what adds a command or a few to a path.
const KINDS: &[(u32, &str, Step)] = &[
    (6, "lines", line),
    (10, "finger", finger),
    (16, "cubics", cubic),
    (10, "quadratics", quadratic),
    (12, "cusps and loops", crossed),
    (16, "points that coincide", coincident),
    (10, "straight curves", straight),
    (6, "closes", closing),
    (7, "there and back", there_and_back),
    (9, "mixed", mixed),
];

/// What the coordinates of a path are like.
#[derive(Clone, Copy)]
enum Numbers {
    Within(f32),
    /// From -8 to 8.
    Whole,
    /// Around 0.01, below which two points count as one.
    Near,
    /// Up to 1048576.
    Limits,
    /// Huge, tiny, infinite or NaN here and there.
    Odd,
}

const NUMBERS: &[Numbers] = &[
    Numbers::Within(100.0),
    Numbers::Within(100.0),
    Numbers::Within(100.0),
    Numbers::Within(4000.0),
    Numbers::Within(2.0),
    Numbers::Within(0.04),
    Numbers::Whole,
    Numbers::Whole,
    Numbers::Whole,
    Numbers::Near,
    Numbers::Limits,
    Numbers::Odd,
    Numbers::Odd,
];

const LIMITS: &[f32] = &[
    1048576.0,
    -1048576.0,
    1048575.94,
    -1048575.94,
    0.0,
    -0.0,
    1.0,
];

const ODD: &[f32] = &[
    f32::NAN,
    f32::INFINITY,
    f32::NEG_INFINITY,
    1e30,
    -1e30,
    3e38,
    -3e38,
    1e15,
    1e10,
    -0.0,
    1e-40,
    -1e-45,
    f32::MIN_POSITIVE,
    1e-20,
];

const NEAR: &[f32] = &[0.0, 0.003, 0.009999999, 0.01, 0.010000001, 0.02, 0.3];

struct Pen<'a> {
    generator: &'a mut Generator,
    numbers: Numbers,
    origin: Point,
    start: Point,
    at: Point,
    path: Vec<Command>,
}

impl Pen<'_> {
    fn new(generator: &mut Generator, numbers: Numbers) -> Pen<'_> {
        let origin = match numbers {
            Numbers::Within(size) if size < 10.0 => {
                Point::new(generator.within(50.0), generator.within(50.0))
            }
            // Nothing is altered by adding -0, not even -0.
            _ => Point::new(-0.0, -0.0),
        };
        Pen {
            generator,
            numbers,
            origin,
            start: Point::ZERO,
            at: Point::ZERO,
            path: Vec::new(),
        }
    }

    fn below(&mut self, limit: u32) -> u32 {
        self.generator.below(limit)
    }

    fn chance(&mut self, percent: u32) -> bool {
        self.generator.chance(percent)
    }

    fn pick<T: Copy>(&mut self, list: &[T]) -> T {
        self.generator.pick(list)
    }

    fn kind(&mut self) -> (&'static str, Step) {
        let (_, name, step) = KINDS[self.generator.by_weight(KINDS)];
        (name, step)
    }

    // A path of some kind, whose name is the answer.
    fn draw_any(&mut self) -> &'static str {
        if self.chance(1) {
            let count = 250 + self.below(10);
            rest(self, count);
            return "rest";
        }
        let (name, step) = self.kind();
        if !self.chance(6) {
            self.move_anywhere();
        }
        let most = self.pick(&[2, 5, 9, 12]);
        for _ in 0..1 + self.below(most) {
            step(self);
            if self.chance(15) {
                closing(self);
            }
        }
        if self.chance(40) {
            self.close();
        }
        name
    }

    fn number(&mut self) -> f32 {
        let special = self.below(20);
        match (self.numbers, special) {
            (Numbers::Within(size), _) => self.generator.within(size),
            (Numbers::Whole, _) => self.below(17) as f32 - 8.0,
            (Numbers::Near, 0..10) => self.pick(NEAR),
            (Numbers::Near, _) => -self.pick(NEAR),
            (Numbers::Limits, 0..10) => self.pick(LIMITS),
            (Numbers::Limits, _) => self.generator.within(1048576.0),
            (Numbers::Odd, 0..4) => self.pick(ODD),
            (Numbers::Odd, 4) => f32::from_bits(self.generator.bits()),
            (Numbers::Odd, _) => self.generator.within(100.0),
        }
    }

    fn place(&mut self) -> Point {
        Point::new(self.origin.x + self.number(), self.origin.y + self.number())
    }

    // Where a line or a curve ends: anywhere, or back at the start of the path, or near it.
    fn end(&mut self) -> Point {
        match self.below(6) {
            0 => self.near(self.start),
            _ => self.place(),
        }
    }

    fn near(&mut self, point: Point) -> Point {
        let distance = self.pick(NEAR);
        let mut part = || self.generator.pick(&[distance, -distance, 0.0]);
        Point::new(point.x + part(), point.y + part())
    }

    fn move_anywhere(&mut self) {
        self.at = self.place();
        self.start = self.at;
        self.path.push(MoveTo(self.at));
    }

    fn line_to(&mut self, to: Point) {
        self.at = to;
        self.path.push(LineTo(to));
    }

    fn curve_to(&mut self, b: Point, c: Point, to: Point) {
        self.at = to;
        self.path.push(CurveTo(b, c, to));
    }

    fn quad_to(&mut self, b: Point, to: Point) {
        self.at = to;
        self.path.push(QuadTo(b, to));
    }

    fn close(&mut self) {
        self.at = self.start;
        self.path.push(Close);
    }
}

fn line(pen: &mut Pen) {
    let to = pen.end();
    pen.line_to(to);
}

// A finger that moves slowly and rests.
fn finger(pen: &mut Pen) {
    let size = pen.pick(&[0.004, 0.009, 0.015, 0.5, 3.0]);
    for _ in 0..1 + pen.below(3) {
        let step = Point::new(pen.generator.within(size), pen.generator.within(size));
        pen.line_to(pen.at + step);
    }
    let to = pen.near(pen.at);
    pen.line_to(to);
    if pen.chance(15) {
        for _ in 0..pen.below(20) {
            pen.line_to(pen.at);
        }
    }
}

fn cubic(pen: &mut Pen) {
    let (b, c, d) = (pen.place(), pen.place(), pen.end());
    pen.curve_to(b, c, d);
}

fn quadratic(pen: &mut Pen) {
    let (b, c) = (pen.place(), pen.end());
    match pen.below(8) {
        0 => pen.quad_to(pen.at, c),
        1 => pen.quad_to(c, c),
        2 => pen.quad_to(b, pen.at),
        3 => pen.quad_to(pen.at + (c - pen.at) * 0.5, c),
        4 => {
            let (b, c) = (pen.near(pen.at), pen.near(pen.at));
            pen.quad_to(b, c);
        }
        _ => pen.quad_to(b, c),
    }
}

// The handles cross: by more than 1 is a loop, by 1 a cusp, by less an arch.
fn crossed(pen: &mut Pen) {
    let a = pen.at;
    let (across, up) = (pen.place() - pen.origin, pen.place() - pen.origin);
    let by = pen.pick(&[1.0, 1.0, 1.0001, 0.999, 0.3, 0.7, 1.2, 2.0, 5.0]);
    pen.curve_to(
        a + across * by + up,
        a + across * (1.0 - by) + up,
        a + across,
    );
}

// Each point is anywhere, or at another one, or near it.
fn coincident(pen: &mut Pen) {
    let (a, far) = (pen.at, pen.end());
    let d = match pen.below(4) {
        0 => pen.near(a),
        _ => far,
    };
    let b = match pen.below(4) {
        0 => pen.near(d),
        1 => pen.place(),
        _ => pen.near(a),
    };
    let c = match pen.below(5) {
        0 => pen.near(a),
        1 => pen.near(b),
        2 => pen.place(),
        _ => pen.near(d),
    };
    pen.curve_to(b, c, d);
}

// The handles lie on the line through the ends, or a little beside it.
fn straight(pen: &mut Pen) {
    let (a, d) = (pen.at, pen.end());
    let beside = pen.pick(&[0.0, 0.0, 0.001, 0.02, 0.1]);
    let mut handle = || {
        let time = pen.pick(&[-0.5, 0.0, 0.25, 1.0 / 3.0, 0.5, 2.0 / 3.0, 0.75, 1.0, 1.5]);
        let away = Point::new(pen.generator.within(beside), pen.generator.within(beside));
        a + (d - a) * time + away
    };
    let (b, c) = (handle(), handle());
    pen.curve_to(b, c, d);
}

fn closing(pen: &mut Pen) {
    let letters = pen.pick(CLOSES);
    by_letters(pen, letters);
}

fn by_letters(pen: &mut Pen, letters: &str) {
    for letter in letters.chars() {
        let (b, c, d) = (pen.place(), pen.place(), pen.place());
        match letter {
            'M' => pen.move_anywhere(),
            'L' => pen.line_to(d),
            'C' => pen.curve_to(b, c, d),
            'Q' => pen.quad_to(b, d),
            'A' => pen.curve_to(pen.at, pen.at, pen.at),
            'O' => pen.curve_to(pen.at + (pen.at - c) * 0.001, c, pen.start),
            'X' => sixteen(pen),
            'S' => pen.line_to(pen.start),
            'N' => {
                let beside = Point::new(pen.generator.within(0.009), pen.generator.within(0.009));
                pen.line_to(pen.start + beside);
            }
            _ => pen.close(),
        }
    }
}

// Its numbers are so near the limit that rounding bends it.
fn sixteen(pen: &mut Pen) {
    let (a, d) = (
        Point::new(515397.75, 1048575.94),
        Point::new(515397.44, 1048575.94),
    );
    pen.line_to(a);
    pen.curve_to(a, Point::new(515397.44, 1048575.6), d);
}

// Straight to a place and back, and closed.
fn there_and_back(pen: &mut Pen) {
    pen.move_anywhere();
    let (there, back) = (pen.place(), pen.near(pen.start));
    let letter = pen.below(3);
    for to in [there, back] {
        let way = to - pen.at;
        match letter {
            0 => pen.line_to(to),
            1 => pen.quad_to(pen.at + way * 0.5, to),
            _ => pen.curve_to(pen.at + way * 0.3, pen.at + way * 0.7, to),
        }
    }
    pen.close();
}

fn mixed(pen: &mut Pen) {
    let steps = [
        line, finger, cubic, quadratic, crossed, coincident, straight, closing,
    ];
    pen.pick(&steps)(pen);
}

fn line_or_curve(pen: &mut Pen) {
    let letter = pen.pick(&["L", "C", "Q"]);
    by_letters(pen, letter);
}

// Two commands, and between them LineTo's that go nowhere.
fn rest(pen: &mut Pen, count: u32) {
    pen.move_anywhere();
    line_or_curve(pen);
    for _ in 0..count {
        pen.line_to(pen.at);
    }
    line_or_curve(pen);
}

// More lines than there are ids.
fn long(pen: &mut Pen) {
    pen.move_anywhere();
    for _ in 0..260 + pen.below(20) {
        let step = Point::new(1.0 + pen.generator.unit(), pen.generator.within(3.0));
        pen.line_to(pen.at + step);
        if pen.chance(5) {
            finger(pen);
        }
    }
}
