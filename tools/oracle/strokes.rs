//! Strokes with limits, and the commands that zeno gives for them.
//!
//! strokes make SEED COUNT DIR              writes DIR/stdin (jobs with their lengths) and DIR/stdout
//! strokes one SEED NUMBER DIR              the same for one job, without its length
//! strokes check SEED COUNT PROGRAM         compares what PROGRAM prints, given one job, with zeno's
//! strokes check-many SEED COUNT PROGRAM    the same for a program that is given many jobs at once
use common::generator::Generator;
use common::host::{has_nan_cosine, logged, row_bytes, Host, Row};
use common::job::{self, Job, Refusal};
use common::jobs;
use common::journal::{self, Limits, Outcome};
use common::planned::{self, LIMITS};
use common::program::{self, Case, Way};
use common::spelling::command_line;
use std::process::{exit, ExitCode};
use zeno::segment::segments;

fn main() -> ExitCode {
    let ways = [
        ("make", Way::Make(framed)),
        ("one", Way::One(case)),
        ("check", Way::Check(case, 1)),
        ("check-many", Way::Check(framed, program::CHUNK)),
    ];
    program::main("strokes", &ways)
}

/// The job after its length.
fn framed(seed: u64, number: u64) -> Case {
    let mut case = case(seed, number);
    let length = (case.input.len() as u32).to_be_bytes();
    case.input.splice(..0, length);
    case
}

fn case(seed: u64, number: u64) -> Case {
    let mut generator = Generator::new(seed, number);
    let made = Made::new(number, &mut generator);
    let digits: String = made
        .bytes
        .iter()
        .map(|byte| format!("{byte:02X}"))
        .collect();
    let title = format!(
        "stroke {number} of seed {seed}: {}, host {:?}, job {digits}",
        made.kind, made.host
    );
    match job::read(&made.bytes).and_then(Job::asked) {
        Ok(job) => stroked(&made, &job, &title, &mut generator),
        Err(refusal) => {
            let limits = made.limits.unwrap_or(LIMITS);
            written(&made, title, limits, Outcome::refused(refusal), &[])
        }
    }
}

struct Made {
    kind: &'static str,
    bytes: Vec<u8>,
    host: Host,
    /// None are by chance.
    limits: Option<Limits>,
}

impl Made {
    fn new(number: u64, generator: &mut Generator) -> Made {
        if let Some(planned) = planned::job(number) {
            return Made {
                kind: "by plan",
                bytes: planned.bytes.clone(),
                host: Host::Std,
                limits: Some(planned.limits),
            };
        }
        let host = Host::any(generator);
        let (kind, bytes) = jobs::job(generator);
        Made {
            kind,
            bytes,
            host,
            limits: None,
        }
    }
}

fn stroked(made: &Made, job: &Job, title: &str, generator: &mut Generator) -> Case {
    let (_, of_roots) = logged(made.host, title, || segments(job.path.iter(), true).count());
    let (journal, rows) = logged(made.host, title, || journal::stroke(job));
    if !logged(made.host, title, || journal.is_zenos(job)).0 {
        eprintln!("the copy with counters sends other commands: {title}");
        exit(2);
    }
    let limits = (made.limits).unwrap_or_else(|| jobs::limits(generator, &journal));
    let outcome = journal.limited(limits);
    let asked = outcome.asked.min(rows.len());
    let mut case = written(made, title.to_string(), limits, outcome, &rows[..asked]);
    case.nan_cosine = has_nan_cosine(&of_roots);
    if journal.steps() > 0 {
        case.counts.push(("dashed".to_string(), 1));
    }
    case
}

fn written(made: &Made, title: String, limits: Limits, outcome: Outcome, rows: &[Row]) -> Case {
    let Limits {
        storage,
        places,
        budget,
    } = limits;
    let mut input: Vec<u8> = [storage, places, budget]
        .iter()
        .flat_map(|&number| (number as u32).to_be_bytes())
        .collect();
    input.extend(row_bytes(rows));
    input.extend(&made.bytes);
    let lines: String = outcome.sent.iter().map(command_line).collect();
    let last = match outcome.refusal {
        None => format!("= {} {}\n", outcome.sent.len(), outcome.steps),
        Some(Refusal {
            number,
            place,
            sent,
        }) => format!("! {number} {place} {sent}\n"),
    };
    Case {
        title: format!("{title}, storage {storage}, places {places}, budget {budget}"),
        input,
        output: lines + &last,
        nan_cosine: false,
        counts: counts(made, &outcome),
    }
}

fn counts(made: &Made, outcome: &Outcome) -> Vec<(String, u64)> {
    let told = match outcome.refusal {
        None => "accepted".to_string(),
        Some(refusal) => format!("refused by {}", refusal.number),
    };
    let mut counts = vec![
        (told, 1),
        ("departing dashes left out".to_string(), outcome.departed),
    ];
    if made.limits.is_some() {
        counts.push(("by plan".to_string(), 1));
    }
    if let Host::Nonsense(_) = made.host {
        counts.push(("with a host that talks nonsense".to_string(), 1));
    }
    counts
}
