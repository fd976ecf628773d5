//! Small arcs with growing angles, and the curves that zeno gives for them.
//!
//! arcs make SEED COUNT DIR         writes DIR/stdin (arcs) and DIR/stdout (their curves)
//! arcs check SEED COUNT PROGRAM    compares the curves that PROGRAM prints with zeno's
//! arcs make-alone, check-alone     the same of ordinary arcs that are drawn by themselves
use common::arc::Arc;
use common::centred::Centred;
use common::generator::Generator;
use common::host::{logged, row_bytes, Host};
use common::program::{self, Case, Way};
use common::spelling::digits;
use std::f32::consts::{PI, TAU};
use std::process::ExitCode;
use zeno::command::Command;
use zeno::geometry::Point;
use zeno::path_builder::{arc, ArcSize, ArcSweep};

fn main() -> ExitCode {
    let ways = [
        ("make", Way::Make(case)),
        ("check", Way::Check(case, program::CHUNK)),
        ("make-alone", Way::Make(alone)),
        ("check-alone", Way::Check(alone, program::CHUNK)),
    ];
    program::main("arcs", &ways)
}

fn case(seed: u64, number: u64) -> Case {
    let mut generator = Generator::new(seed, number);
    let host = Host::any(&mut generator);
    let (kind, given) = any_arc(&mut generator);
    let title = format!("arc {number} of seed {seed}: {kind}, host {host:?}");
    drawn(&title, host, given, false).0
}

/// An ordinary arc with std's maths, which an arc by itself draws as zeno does: one whose start is sharp and
/// that zeno's last curve ends well within the nearness that is asked of it there.
fn alone(seed: u64, number: u64) -> Case {
    let mut generator = Generator::new(seed, number);
    loop {
        let given = ordinary(&mut generator);
        let title = format!("arc {number} of seed {seed} by itself");
        let (case, end) = drawn(&title, Host::Std, given, true);
        if starts_well(given) && ends_well(given, end) {
            return case;
        }
    }
}

/// The start is an arc cosine's, which is blurred where the arc begins near the first axis; and far from 0 the
/// steps between floats show.
fn starts_well(given: Arc) -> bool {
    let chord = (given.from[0] - given.to[0]).hypot(given.from[1] - given.to[1]);
    let far = (given.from.iter().chain(&given.to)).fold(0f32, |far, x| far.max(x.abs()));
    far <= 1000.0 * chord
        && Centred::new(given).is_some_and(|centred| {
            let blur = (1e-6 / centred.start.sin().abs()).min(1e-3);
            blur * centred.radius() < f64::from(chord) / 2048.0
        })
}

/// Within 1/1024 of half the chord in x and in y; an arc by itself asks for 1/256.
fn ends_well(given: Arc, end: Option<Point>) -> bool {
    let [half_x, half_y] = [0, 1].map(|i| (given.from[i] / 2.0 - given.to[i] / 2.0).abs());
    let near = half_x.max(half_y) / 1024.0;
    end.is_some_and(|end| {
        (end.x - given.to[0]).abs() <= near && (end.y - given.to[1]).abs() <= near
    })
}

/// The case of an arc, and where zeno's curves end.
fn drawn(title: &str, host: Host, given: Arc, alone: bool) -> (Case, Option<Point>) {
    let title = format!("{title}, {}", given.words());
    let (curves, rows) = logged(host, &title, || zeno_curves(given));
    let mut input = vec![b'A', u8::from(alone)];
    input.extend(given.bytes());
    input.extend(row_bytes(&rows));
    let lines: Vec<String> = curves.iter().map(line).collect();
    let end = match curves.last() {
        Some(Command::CurveTo(_, _, end)) => Some(*end),
        _ => None,
    };
    let case = Case {
        title,
        input,
        output: format!("{}= {}\n", lines.concat(), lines.len()),
        nan_cosine: false,
        counts: Vec::new(),
    };
    (case, end)
}

/// The larger radius from half the chord to a hundred times the chord.
fn ordinary(generator: &mut Generator) -> Arc {
    let (from, chord) = (point(generator), radius(generator));
    let (sine, cosine) = generator.within(PI).sin_cos();
    let to = [from[0] + chord * cosine, from[1] + chord * sine];
    let rx = chord * 0.5 * (generator.unit() * 5.3).exp();
    let narrow = generator.pick(&[1.0, 1.0, 0.99, 0.7, 0.3]);
    Arc {
        rx: signed(generator, rx),
        ry: signed(generator, rx * narrow),
        angle: angle(generator),
        ..circle(from, rx, to)
    }
}

fn zeno_curves(given: Arc) -> Vec<Command> {
    let [from, to] = [given.from, given.to].map(|[x, y]| Point::new(x, y));
    let (size, sweep) = (ArcSize::Small, ArcSweep::Positive);
    let mut sink = Vec::new();
    arc(
        &mut sink,
        from,
        given.rx,
        given.ry,
        given.angle,
        size,
        sweep,
        to,
    );
    sink
}

fn line(command: &Command) -> String {
    match *command {
        Command::CurveTo(b, c, d) => format!("C{}\n", digits(&[b, c, d])),
        _ => unreachable!("an arc is made of curves"),
    }
}

type Maker = fn(&mut Generator) -> Arc;

/// Weights, names and makers.
const KINDS: &[(u32, &str, Maker)] = &[
    (20, "a join", join),
    (12, "a cap", cap),
    (10, "ends close to each other", close_ends),
    (8, "nearly half a turn", half_turn),
    (6, "a quarter", quarter),
    (16, "an ellipse", ellipse),
    (8, "radii too small", too_small),
    (8, "whole numbers", whole),
    (4, "one point", one_point),
    (8, "odd numbers", odd),
];

fn any_arc(generator: &mut Generator) -> (&'static str, Arc) {
    let (_, name, maker) = KINDS[generator.by_weight(KINDS)];
    (name, maker(generator))
}

/// From 0.005 to 2048, as often small as large.
fn radius(generator: &mut Generator) -> f32 {
    match generator.below(4) {
        0 => generator.pick(&[0.005, 0.5, 1.0, 2.0, 10.0, 2048.0]),
        _ => 0.005 * (generator.unit() * 12.92).exp(),
    }
}

fn point(generator: &mut Generator) -> [f32; 2] {
    let limit = generator.pick(&[0.0, 1.0, 100.0, 100.0, 4000.0, 1e6]);
    [generator.within(limit), generator.within(limit)]
}

fn circle(from: [f32; 2], r: f32, to: [f32; 2]) -> Arc {
    Arc {
        from,
        rx: r,
        ry: r,
        angle: 0.0,
        to,
        large: false,
        positive: true,
    }
}

/// The arc around a pivot from an angle on.
fn around(generator: &mut Generator, turn: f32) -> Arc {
    let (pivot, r) = (point(generator), radius(generator));
    let start = generator.within(PI);
    let place = |angle: f32| [pivot[0] + angle.cos() * r, pivot[1] + angle.sin() * r];
    circle(place(start), r, place(start + turn))
}

fn join(generator: &mut Generator) -> Arc {
    let turn = generator.unit() * PI;
    around(generator, turn)
}

// A stroke's end: a unit vector from a pivot, and its opposite.
fn cap(generator: &mut Generator) -> Arc {
    let (pivot, r) = (point(generator), radius(generator));
    let (sine, cosine) = generator.within(PI).sin_cos();
    let across = match generator.below(4) {
        0 => generator.pick(&[[r, 0.0], [-r, 0.0], [0.0, r], [0.0, -r]]),
        _ => [cosine * r, sine * r],
    };
    let from = [pivot[0] + across[0], pivot[1] + across[1]];
    let to = [pivot[0] - across[0], pivot[1] - across[1]];
    circle(from, r, to)
}

fn close_ends(generator: &mut Generator) -> Arc {
    let (from, r) = (point(generator), radius(generator));
    let reach = r * generator.pick(&[1e-7, 1e-6, 1e-5, 1e-4, 1e-3, 1e-2]);
    let to = match generator.below(3) {
        0 => [nudged(generator, from[0]), nudged(generator, from[1])],
        _ => [
            from[0] + generator.within(reach),
            from[1] + generator.within(reach),
        ],
    };
    circle(from, r, to)
}

/// The number, or one a few units in the last place away.
fn nudged(generator: &mut Generator, x: f32) -> f32 {
    f32::from_bits(x.to_bits().wrapping_add(generator.below(7)).wrapping_sub(3))
}

fn half_turn(generator: &mut Generator) -> Arc {
    let arc = cap(generator);
    let r = match generator.below(3) {
        0 => arc.rx * (1.0 + generator.within(1e-3)),
        _ => nudged(generator, arc.rx),
    };
    circle(arc.from, r, arc.to)
}

fn quarter(generator: &mut Generator) -> Arc {
    let (c, r) = (point(generator), radius(generator));
    let ends = generator.pick(&[
        ([r, 0.0], [0.0, r]),
        ([0.0, r], [-r, 0.0]),
        ([-r, 0.0], [0.0, -r]),
        ([0.0, -r], [r, 0.0]),
    ]);
    let (from, to) = ends;
    let mut arc = circle(
        [c[0] + from[0], c[1] + from[1]],
        r,
        [c[0] + to[0], c[1] + to[1]],
    );
    arc.ry = nudged(generator, r);
    arc
}

fn signed(generator: &mut Generator, x: f32) -> f32 {
    if generator.chance(20) {
        -x
    } else {
        x
    }
}

fn angle(generator: &mut Generator) -> f32 {
    match generator.below(4) {
        0 => generator.pick(&[0.0, -0.0, PI / 2.0, PI, -PI / 2.0, TAU, PI / 4.0, 100.0]),
        _ => generator.within(7.0),
    }
}

fn ellipse(generator: &mut Generator) -> Arc {
    let (from, size) = (point(generator), radius(generator));
    let longest = 2.0 * size;
    let to = [
        from[0] + generator.within(longest),
        from[1] + generator.within(longest),
    ];
    let narrow = generator.pick(&[1.0, 0.99, 0.7, 0.3, 0.1, 0.01]);
    let (rx, ry) = match generator.below(2) {
        0 => (size, size * narrow),
        _ => (size * narrow, size),
    };
    Arc {
        rx: signed(generator, rx),
        ry: signed(generator, ry),
        angle: angle(generator),
        ..circle(from, size, to)
    }
}

fn too_small(generator: &mut Generator) -> Arc {
    let mut arc = ellipse(generator);
    let by = generator.pick(&[0.9, 0.5, 0.1, 1e-3, 1e-6, 1e-12, 1e-20, 0.0]);
    arc.rx *= by;
    arc.ry *= by;
    arc
}

fn whole(generator: &mut Generator) -> Arc {
    let mut number = || generator.below(17) as f32 - 8.0;
    let (from, to, rx, ry) = (
        [number(), number()],
        [number(), number()],
        number(),
        number(),
    );
    Arc {
        rx,
        ry,
        angle: angle(generator),
        ..circle(from, rx, to)
    }
}

fn one_point(generator: &mut Generator) -> Arc {
    let mut arc = ellipse(generator);
    arc.to = arc.from;
    if generator.chance(50) {
        arc.from = [0.0, -0.0];
        arc.to = [-0.0, generator.pick(&[0.0, -0.0, 1e-45, -1e-45])];
    }
    arc
}

const ODD: &[f32] = &[
    f32::NAN,
    f32::INFINITY,
    f32::NEG_INFINITY,
    3e38,
    -3e38,
    1e30,
    1e20,
    1e10,
    1e-10,
    1e-20,
    1e-30,
    -1e-40,
    1e-45,
    f32::MIN_POSITIVE,
    0.0,
    -0.0,
];

fn odd(generator: &mut Generator) -> Arc {
    let mut arc = ellipse(generator);
    for _ in 0..1 + generator.below(3) {
        let number = generator.pick(ODD);
        match generator.below(7) {
            0 => arc.from[0] = number,
            1 => arc.from[1] = number,
            2 => arc.rx = number,
            3 => arc.ry = number,
            4 => arc.angle = number,
            5 => arc.to[0] = number,
            _ => arc.to[1] = number,
        }
    }
    arc
}
