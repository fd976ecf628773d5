//! Drawings, and the segments that zeno gives for them.
//!
//! drawings make SEED COUNT DIR         writes DIR/stdin (drawings) and DIR/stdout (their segments)
//! drawings check SEED COUNT PROGRAM    compares the segments that PROGRAM prints with zeno's
use common::generator::Generator;
use common::host::{has_nan_cosine, logged, row_bytes, Host};
use common::paths;
use common::program::{self, Case, Way};
use common::spelling::{digits, path_bytes, path_words};
use std::process::ExitCode;
use zeno::segment::{segments, Segment};

fn main() -> ExitCode {
    let ways = [
        ("make", Way::Make(drawing)),
        ("check", Way::Check(drawing, program::CHUNK)),
    ];
    program::main("drawings", &ways)
}

fn drawing(seed: u64, number: u64) -> Case {
    let mut generator = Generator::new(seed, number);
    let host = Host::any(&mut generator);
    // The planned paths come by turns with splitting and without.
    let split = match number % 400 {
        planned if planned % 200 < paths::PLANNED => planned < 200,
        _ => generator.chance(83),
    };
    let (kind, path) = paths::path(number, &mut generator);
    let title = format!(
        "drawing {number} of seed {seed}: {kind}, split {split}, host {host:?}, path{}",
        path_words(&path)
    );
    let trace = || segments(path.iter(), split).map(line).collect::<Vec<_>>();
    let (lines, rows) = logged(host, &title, trace);
    let bytes = path_bytes(&path);
    let mut input = vec![u8::from(split)];
    input.extend(row_bytes(&rows));
    input.extend((bytes.len() as u32).to_be_bytes());
    input.extend(bytes);
    Case {
        title,
        input,
        output: format!("{}= {}\n", lines.concat(), lines.len()),
        nan_cosine: has_nan_cosine(&rows),
        counts: Vec::new(),
    }
}

/// The line of a segment.
fn line(segment: Segment) -> String {
    match segment {
        Segment::Line(id, l) => format!("L {id}{}\n", digits(&[l.a, l.b])),
        Segment::Curve(id, c) => format!("C {id}{}\n", digits(&[c.a, c.b, c.c, c.d])),
        Segment::End(closed) => format!("E {}\n", u8::from(closed)),
    }
}
