//! Arcs of every flag, with the places at which the notes on SVG 1.1 put their curves.
//!
//! notes make SEED COUNT DIR            writes DIR/stdin
//! notes measure SEED COUNT PROGRAM     prints what PROGRAM says of them, with the arcs that it names
use common::arc::Arc;
use common::chorded::{distance, Chorded};
use common::generator::Generator;
use common::program::{numbers, run};
use std::f64::consts::{FRAC_PI_2, PI, TAU};
use std::fs;
use std::io;
use std::path::Path;
use std::process::ExitCode;

/// How far past a multiple of a quarter an arc may turn without one curve more.
const NEAR: f64 = 1.0 / 256.0;

/// The parts of an arc, in 24ths of its turn, at which one to four equal curves have their middles and ends.
const PARTS: [u8; 11] = [3, 4, 6, 8, 9, 12, 15, 16, 18, 20, 21];

fn main() -> ExitCode {
    let arguments: Vec<String> = std::env::args().skip(1).collect();
    let words: Vec<&str> = arguments.iter().map(String::as_str).collect();
    let done = match (words.as_slice(), numbers(&words)) {
        (["make", _, _, dir], Some((seed, count))) => make(seed, count, Path::new(dir)),
        (["measure", _, _, program @ ..], Some((seed, count))) if !program.is_empty() => {
            measure(seed, count, program)
        }
        _ => {
            eprintln!(
                "usage: notes make SEED COUNT DIR\n       notes measure SEED COUNT PROGRAM.."
            );
            return ExitCode::from(2);
        }
    };
    match done {
        Ok(()) => ExitCode::SUCCESS,
        Err(error) => {
            eprintln!("{}: {error}", words[3]);
            ExitCode::from(2)
        }
    }
}

fn make(seed: u64, count: usize, dir: &Path) -> io::Result<()> {
    let bytes: Vec<u8> = noted(seed, count).iter().flat_map(Noted::bytes).collect();
    fs::create_dir_all(dir)?;
    fs::write(dir.join("stdin"), &bytes)?;
    println!("{count} arcs, stdin {} bytes", bytes.len());
    Ok(())
}

fn measure(seed: u64, count: usize, program: &[&str]) -> io::Result<()> {
    let arcs = noted(seed, count);
    let said = run(program, arcs.iter().flat_map(Noted::bytes).collect())?;
    for line in said.lines() {
        println!("{line}");
        if let Some(arc) = named(line).and_then(|number| arcs.get(number)) {
            println!("    {}", arc.words());
        }
    }
    for (number, kind) in KINDS.iter().enumerate() {
        println!("kind {number}: {}", kind.1);
    }
    println!("kind {BY_PLAN}: by plan");
    Ok(())
}

/// The number of the arc that a line ends with.
fn named(line: &str) -> Option<usize> {
    line.split_once(" at arc ")?.1.parse().ok()
}

/// The first arcs of a seed that have places.
fn noted(seed: u64, count: usize) -> Vec<Noted> {
    (0..)
        .filter_map(|number| numbered_arc(seed, number))
        .take(count)
        .collect()
}

struct Noted {
    kind: u8,
    arc: Arc,
    chorded: Option<Chorded>,
}

impl Noted {
    /// None where the ends are one point or a radius is 0. Without places where one of them is too large for an f32.
    fn new(kind: u8, arc: Arc) -> Option<Noted> {
        let numbers = [arc.from, arc.to, [arc.rx, arc.ry]];
        let fits = |x: &f64| (*x as f32).abs() <= f32::MAX / 2.0;
        let chorded = Chorded::new(arc).filter(|c| places(c).iter().flatten().all(fits));
        if let Some(chorded) = chorded {
            chorded.assert_like_notes(arc);
        }
        let drawn = arc.from != arc.to && arc.rx != 0.0 && arc.ry != 0.0;
        let finite = numbers.iter().flatten().all(|x| x.is_finite());
        (drawn && finite).then_some(Noted { kind, arc, chorded })
    }

    fn bytes(&self) -> Vec<u8> {
        let mut bytes = vec![b'B', self.kind];
        bytes.extend(self.arc.bytes());
        bytes.push(u8::from(self.chorded.is_some()));
        if let Some(chorded) = self.chorded {
            let places = places(&chorded);
            bytes.push(fewest(&chorded));
            bytes.extend((size(self.arc, &places) as f32).to_bits().to_be_bytes());
            bytes.extend(places.iter().flatten().flat_map(|x| x.to_be_bytes()));
        }
        bytes
    }

    fn words(&self) -> String {
        format!("{}; {:?}", self.arc.words(), self.chorded)
    }
}

fn places(chorded: &Chorded) -> Vec<[f64; 2]> {
    (PARTS.iter())
        .map(|part| chorded.place(f64::from(*part) / 24.0))
        .collect()
}

/// A curve for each quarter begun.
fn fewest(chorded: &Chorded) -> u8 {
    let quarters = (2.0 * chorded.half - NEAR) / FRAC_PI_2;
    quarters.ceil().clamp(1.0, 4.0) as u8
}

/// How far the arc goes from its start, at its end or at one of the places.
fn size(arc: Arc, places: &[[f64; 2]]) -> f64 {
    let [from, to] = [arc.from, arc.to].map(|end| end.map(f64::from));
    (places.iter()).fold(distance(from, to), |size, place| {
        size.max(distance(from, *place))
    })
}

/// What an arc is made from.
#[derive(Clone, Copy)]
struct Plan {
    /// The larger radius.
    size: f64,
    /// The smaller radius as a part of the larger.
    narrow: f64,
    /// How far the centre is from 0, in larger radii, at most.
    away: f64,
    /// The angle between the ends, the shorter way.
    between: f64,
    /// What the radii are multiplied by in the end.
    shrunk: f64,
    /// Whether the arc begins at 0, where its ends may be ever so close.
    at_zero: bool,
}

type Planner = fn(&mut Generator) -> Plan;

/// Where nothing is planned.
const NO_PLAN: Plan = Plan {
    size: 0.0,
    narrow: 0.0,
    away: 0.0,
    between: 0.0,
    shrunk: 0.0,
    at_zero: false,
};

/// Weights, names and plans. The kinds are numbered from 0.
const KINDS: &[(u32, &str, Planner)] = &[
    (17, "any angle", ordinary),
    (13, "ends close to each other", close_ends),
    (13, "half turns", half_turn),
    (8, "quarters", quarter),
    (12, "radii too small", too_small),
    (12, "tiny and huge", scaled),
    (5, "flat ellipses", flat),
    (5, "far from 0", far),
    (10, "several of these", several),
    (5, "far from 0, by 1e4 to 1e7 radii", farther),
    (1, "radii below 1e-12", tinier),
    (1, "radii above 5e9", huger),
    (1, "ellipses flatter than 1/1000", flatter),
    (1, "radii too small by more than 1e12", too_small_by_far),
    (1, "ends closer than 1e-6 of the radius", closer),
    (1, "any bits of finite numbers", |_| NO_PLAN),
];

/// The kind whose numbers are any.
const ANY_BITS: usize = KINDS.len() - 1;

/// The first arcs of a seed, from, radii and to, each with every flag: a quarter, half a turn, ends
/// close to each other beside a radius of 1 and of 5e9, radii of 1e-12, radii that have to grow a
/// little, much and too much, ends whose difference is too large, and radii beside which the chord is short.
const PLANNED: &[[[f32; 2]; 3]] = &[
    [[1.0, 0.0], [1.0, 1.0], [0.0, 1.0]],
    [[1.0, 0.0], [1.0, 1.0], [-1.0, 0.0]],
    [[0.0, 0.0], [1.0, 1.0], [1e-6, 0.0]],
    [[0.0, 0.0], [5e9, 5e9], [5e3, -5e3]],
    [[1e-12, 0.0], [1e-12, 1e-12], [0.0, 1e-12]],
    [[-1.0, 0.0], [0.9, 0.7], [1.0, 0.0]],
    [[-1.0, 0.0], [1e-12, 1e-12], [1.0, 0.0]],
    [[-1.0, 0.0], [1e-20, 1e-20], [1.0, 0.0]],
    [[3e38, 0.0], [5.0, 5.0], [-3e38, 0.0]],
    [[0.0, 0.0], [4000.0, 4000.0], [1.0, 0.0]],
    [[10.0, 10.0], [100.0, 100.0], [10.02, 10.0]],
    [[0.0, 0.0], [5e9, 5e9], [1.0, 0.0]],
    [[0.0, 0.0], [100.0, 100.0], [0.02, 0.0]],
    [[0.0, 0.0], [100.0, 100.0], [1e-6, 1e-6]],
];

/// The number of their kind.
const BY_PLAN: u8 = KINDS.len() as u8;

fn numbered_arc(seed: u64, number: u64) -> Option<Noted> {
    match PLANNED.get(number as usize / 4) {
        Some(&[from, [rx, ry], to]) => {
            let arc = Arc {
                from,
                rx,
                ry,
                angle: 0.0,
                to,
                large: number % 4 >= 2,
                positive: number % 2 == 1,
            };
            Noted::new(BY_PLAN, arc)
        }
        None => any_arc(&mut Generator::new(seed, number)),
    }
}

fn any_arc(generator: &mut Generator) -> Option<Noted> {
    let number = generator.by_weight(KINDS);
    let plan = KINDS[number].2(generator);
    let arc = match number {
        ANY_BITS => any_bits(generator),
        _ => drawn(generator, plan),
    };
    Noted::new(number as u8, arc)
}

fn any_bits(generator: &mut Generator) -> Arc {
    let mut any = || f32::from_bits(generator.below(1 << 16) << 16 | generator.below(1 << 16));
    let [from, to] = [[any(), any()], [any(), any()]];
    let (rx, ry, angle, flags) = (any(), any(), any(), any().to_bits());
    Arc {
        from,
        rx,
        ry,
        angle,
        to,
        large: flags & 1 == 1,
        positive: flags & 2 == 2,
    }
}

fn between(generator: &mut Generator, low: f64, high: f64) -> f64 {
    low + (high - low) * f64::from(generator.unit())
}

/// Ten to a power between two.
fn ten_to(generator: &mut Generator, low: f64, high: f64) -> f64 {
    10f64.powf(between(generator, low, high))
}

fn ordinary(generator: &mut Generator) -> Plan {
    let circle = generator.chance(40);
    let narrow = between(generator, 0.125, 1.0);
    Plan {
        size: ten_to(generator, -2.0, 3.0),
        narrow: if circle { 1.0 } else { narrow },
        away: between(generator, 0.0, 8.0),
        between: between(generator, 0.01, PI - 0.01),
        shrunk: 1.0,
        at_zero: false,
    }
}

fn close_ends(generator: &mut Generator) -> Plan {
    Plan {
        between: ten_to(generator, -6.0, -2.0),
        at_zero: generator.chance(50),
        ..ordinary(generator)
    }
}

fn half_turn(generator: &mut Generator) -> Plan {
    let less = ten_to(generator, -7.0, -2.0);
    Plan {
        between: if generator.chance(40) { PI } else { PI - less },
        shrunk: 1.0 + generator.pick(&[0.0, 0.0, 1e-7, -1e-7, 1e-6, -1e-6]),
        ..ordinary(generator)
    }
}

fn quarter(generator: &mut Generator) -> Plan {
    let off = ten_to(generator, -8.0, -2.0) * generator.pick(&[0.0, 1.0, -1.0]);
    Plan {
        between: FRAC_PI_2 + off,
        ..ordinary(generator)
    }
}

fn too_small(generator: &mut Generator) -> Plan {
    let plan = ordinary(generator);
    let fitting = (plan.between / 2.0).sin();
    Plan {
        shrunk: fitting * ten_to(generator, -12.0, 0.0),
        ..plan
    }
}

fn scaled(generator: &mut Generator) -> Plan {
    Plan {
        size: ten_to(generator, -12.0, 9.7),
        ..ordinary(generator)
    }
}

fn flat(generator: &mut Generator) -> Plan {
    Plan {
        narrow: ten_to(generator, -3.0, -1.0),
        ..ordinary(generator)
    }
}

fn farther(generator: &mut Generator) -> Plan {
    Plan {
        away: ten_to(generator, 4.0, 7.0),
        ..ordinary(generator)
    }
}

fn far(generator: &mut Generator) -> Plan {
    Plan {
        away: ten_to(generator, 1.0, 4.0),
        ..ordinary(generator)
    }
}

// Each part of the plan by itself.
fn several(generator: &mut Generator) -> Plan {
    Plan {
        size: generator.pick(&[ordinary, scaled])(generator).size,
        narrow: generator.pick(&[ordinary, flat])(generator).narrow,
        away: ordinary(generator).away,
        between: generator.pick(&[ordinary, close_ends, half_turn, quarter])(generator).between,
        shrunk: generator.pick(&[ordinary, ordinary, half_turn, too_small])(generator).shrunk,
        at_zero: generator.chance(50),
    }
}

fn tinier(generator: &mut Generator) -> Plan {
    Plan {
        size: ten_to(generator, -44.0, -12.0),
        ..ordinary(generator)
    }
}

fn huger(generator: &mut Generator) -> Plan {
    Plan {
        size: ten_to(generator, 9.7, 38.5),
        ..ordinary(generator)
    }
}

fn flatter(generator: &mut Generator) -> Plan {
    Plan {
        narrow: ten_to(generator, -20.0, -3.0),
        ..ordinary(generator)
    }
}

fn too_small_by_far(generator: &mut Generator) -> Plan {
    Plan {
        shrunk: ten_to(generator, -40.0, -12.0),
        ..ordinary(generator)
    }
}

fn closer(generator: &mut Generator) -> Plan {
    Plan {
        between: ten_to(generator, -40.0, -6.0),
        at_zero: true,
        ..ordinary(generator)
    }
}

/// The arc of a plan, anywhere, turned in any way, and with any flags.
fn drawn(generator: &mut Generator, plan: Plan) -> Arc {
    let (large, positive) = (generator.chance(50), generator.chance(50));
    let (mut rx, mut ry) = (plan.size, plan.size * plan.narrow);
    if generator.chance(50) {
        (rx, ry) = (ry, rx);
    }
    let angle = match generator.below(4) {
        0 => generator.pick(&[0.0, -0.0, 1.5707964, 3.1415927, -0.7853982]),
        _ => generator.within(7.0),
    };
    let [from, to] = ends(generator, plan, [rx, ry], angle, large, positive);
    let mut signed = |x: f64| (x * generator.pick(&[1.0, 1.0, 1.0, 1.0, -1.0])) as f32;
    Arc {
        from,
        rx: signed(rx * plan.shrunk),
        ry: signed(ry * plan.shrunk),
        angle,
        to,
        large,
        positive,
    }
}

fn ends(
    generator: &mut Generator,
    plan: Plan,
    [rx, ry]: [f64; 2],
    angle: f32,
    large: bool,
    positive: bool,
) -> [[f32; 2]; 2] {
    let away = plan.size * plan.away;
    let (sine, cosine) = f64::from(angle).sin_cos();
    let turned = |x: f64, y: f64| [cosine * x - sine * y, sine * x + cosine * y];
    let way = if positive { 1.0 } else { -1.0 };
    let turn = if large {
        TAU - plan.between
    } else {
        plan.between
    };
    let start = between(generator, -PI, PI);
    let centre = [
        between(generator, -away, away),
        between(generator, -away, away),
    ];
    // The chord of the circle of radius 1, without a difference of two places on it.
    let (across, along) = (start + way * turn / 2.0).sin_cos();
    let length = 2.0 * (plan.between / 2.0).sin() * way;
    let chord = turned(-across * length * rx, along * length * ry);
    let first = turned(start.cos() * rx, start.sin() * ry);
    let from = match plan.at_zero {
        true => [0.0, 0.0],
        false => [centre[0] + first[0], centre[1] + first[1]],
    };
    let to = [from[0] + chord[0], from[1] + chord[1]];
    [from, to].map(|end| end.map(|x| x as f32))
}
