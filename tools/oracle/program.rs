//! What a program does with its cases: it stores them, or compares another program with zeno.
use std::collections::BTreeMap;
use std::fmt;
use std::fs;
use std::io::{self, Write};
use std::path::Path;
use std::process::{Command, ExitCode, Stdio};
use std::thread;

/// How many cases one run of the compared program is given at most.
pub const CHUNK: usize = 200;

pub struct Case {
    /// What it is, for people.
    pub title: String,
    /// Its bytes in the input.
    pub input: Vec<u8>,
    /// What zeno gives for it: lines, of which the last alone begins with `=` or `!`.
    pub output: String,
    /// Whether the host answered a cosine by NaN. Such a case is left out.
    pub nan_cosine: bool,
    /// What else is counted in it.
    pub counts: Vec<(String, u64)>,
}

/// The case of a seed with a number.
type Cases = fn(u64, u64) -> Case;

/// What is done with the cases of a seed.
#[derive(Clone, Copy)]
pub enum Way {
    /// SEED COUNT DIR: so many are stored.
    Make(Cases),
    /// SEED NUMBER DIR: the one with a number is stored.
    One(Cases),
    /// SEED COUNT PROGRAM: so many are compared, with a few for each run of the program.
    Check(Cases, usize),
}

/// The ways by the words that ask for them.
pub fn main(name: &str, ways: &[(&str, Way)]) -> ExitCode {
    let arguments: Vec<String> = std::env::args().skip(1).collect();
    let words: Vec<&str> = arguments.iter().map(String::as_str).collect();
    let Some(done) = done(&words, ways) else {
        eprintln!("usage:");
        for (word, way) in ways {
            eprintln!("    {name} {word} {}", way.usage());
        }
        return ExitCode::from(2);
    };
    match done {
        Ok(alike) => ExitCode::from(u8::from(!alike)),
        Err(error) => {
            eprintln!("{}: {error}", words[3]);
            ExitCode::from(2)
        }
    }
}

/// None if the words ask for nothing.
fn done(words: &[&str], ways: &[(&str, Way)]) -> Option<io::Result<bool>> {
    let (_, way) = *ways.iter().find(|(word, _)| words.first() == Some(word))?;
    let ((seed, count), last) = (numbers(words)?, words.get(3..)?);
    match (way, last) {
        (Way::Make(cases), [dir]) => Some(make(cases, seed, count, Path::new(dir))),
        (Way::One(cases), [dir]) => {
            let case = cases(seed, count as u64);
            println!("{}", case.title);
            Some(write(Path::new(dir), &case.input, &case.output))
        }
        (Way::Check(cases, size), [_, ..]) => Some(check(cases, seed, count, size, last)),
        _ => None,
    }
}

impl Way {
    fn usage(self) -> &'static str {
        match self {
            Way::Make(_) => "SEED COUNT DIR",
            Way::One(_) => "SEED NUMBER DIR",
            Way::Check(..) => "SEED COUNT PROGRAM..",
        }
    }
}

/// A seed and a count, after the first word.
pub fn numbers(words: &[&str]) -> Option<(u64, usize)> {
    Some((words.get(1)?.parse().ok()?, words.get(2)?.parse().ok()?))
}

fn make(cases: Cases, seed: u64, count: usize, dir: &Path) -> io::Result<bool> {
    let mut kept = Kept::new(cases, seed);
    let (mut input, mut output, mut tally) = (Vec::new(), String::new(), Tally::default());
    for case in kept.by_ref().take(count) {
        tally.count(&case);
        input.extend(case.input);
        output.push_str(&case.output);
    }
    println!("{tally}");
    println!("{kept}");
    write(dir, &input, &output)
}

fn write(dir: &Path, input: &[u8], output: &str) -> io::Result<bool> {
    fs::create_dir_all(dir)?;
    fs::write(dir.join("stdin"), input)?;
    fs::write(dir.join("stdout"), output)?;
    println!("stdin {} bytes, stdout {} bytes", input.len(), output.len());
    Ok(true)
}

/// Answers whether all is alike.
fn check(cases: Cases, seed: u64, count: usize, size: usize, program: &[&str]) -> io::Result<bool> {
    let mut kept = Kept::new(cases, seed);
    let mut tally = Tally::default();
    for first in (0..count).step_by(size) {
        let chunk: Vec<Case> = kept.by_ref().take(size.min(count - first)).collect();
        let input = chunk.iter().flat_map(|case| &case.input).copied().collect();
        let output = run(program, input)?;
        for (case, block) in chunk.iter().zip(blocks(&output, chunk.len())) {
            tally.count(case);
            tally.compare(case, block);
        }
    }
    println!("{tally}");
    println!("{kept}");
    println!("{} cases differ", tally.differing);
    Ok(tally.differing == 0)
}

/// The cases of a seed by their numbers. Those left out are skipped, and counted.
struct Kept {
    cases: Cases,
    seed: u64,
    next: u64,
    left_out: u64,
}

impl Kept {
    fn new(cases: Cases, seed: u64) -> Kept {
        Kept {
            cases,
            seed,
            next: 0,
            left_out: 0,
        }
    }
}

impl Iterator for Kept {
    type Item = Case;

    fn next(&mut self) -> Option<Case> {
        loop {
            let case = (self.cases)(self.seed, self.next);
            self.next += 1;
            if !case.nan_cosine {
                return Some(case);
            }
            self.left_out += 1;
        }
    }
}

impl fmt::Display for Kept {
    fn fmt(&self, f: &mut fmt::Formatter) -> fmt::Result {
        write!(
            f,
            "of the numbers below {}, {} were left out: a cosine is NaN",
            self.next, self.left_out
        )
    }
}

/// What the program, given with its arguments, prints, and its status if that is not 0.
pub fn run(program: &[&str], input: Vec<u8>) -> io::Result<String> {
    let mut command = Command::new(program[0]);
    let mut child = command
        .args(&program[1..])
        .stdin(Stdio::piped())
        .stdout(Stdio::piped())
        .spawn()?;
    let mut pipe = child.stdin.take().expect("a pipe was asked for");
    // The output of a program that does not read to the end is compared all the same.
    let writer = thread::spawn(move || drop(pipe.write_all(&input)));
    let output = child.wait_with_output()?;
    writer.join().expect("the writer does not panic");
    let mut text = String::from_utf8_lossy(&output.stdout).into_owned();
    if !output.status.success() {
        text.push_str(&format!("({})\n", output.status));
    }
    Ok(text)
}

/// The text of each case: up to a line with `=` or `!`, and for the last one all that is left.
fn blocks(text: &str, count: usize) -> Vec<&str> {
    let mut blocks = Vec::new();
    let mut rest = text;
    while blocks.len() + 1 < count {
        let mut end = 0;
        for line in rest.split_inclusive('\n') {
            end += line.len();
            if line.starts_with(['=', '!']) {
                break;
            }
        }
        let (block, later) = rest.split_at(end);
        blocks.push(block);
        rest = later;
    }
    blocks.push(rest);
    blocks
}

#[derive(Default)]
struct Tally {
    cases: u64,
    /// How many lines begin with a letter.
    lines: BTreeMap<char, u64>,
    /// What else was counted.
    counts: BTreeMap<String, u64>,
    differing: u64,
}

impl Tally {
    fn count(&mut self, case: &Case) {
        self.cases += 1;
        for letter in case.output.lines().filter_map(|line| line.chars().next()) {
            *self.lines.entry(letter).or_default() += 1;
        }
        for (what, count) in &case.counts {
            *self.counts.entry(what.clone()).or_default() += count;
        }
    }

    fn compare(&mut self, case: &Case, block: &str) {
        if block == case.output {
            return;
        }
        if self.differing == 0 {
            tell_difference(case, block);
        }
        self.differing += 1;
    }
}

impl fmt::Display for Tally {
    fn fmt(&self, f: &mut fmt::Formatter) -> fmt::Result {
        let all: u64 = self.lines.values().sum();
        write!(f, "{} cases, {all} lines, by their letters:", self.cases)?;
        for (letter, count) in &self.lines {
            write!(f, " {letter} {count}")?;
        }
        for (what, count) in &self.counts {
            write!(f, "\n{what}: {count}")?;
        }
        Ok(())
    }
}

fn tell_difference(case: &Case, block: &str) {
    let mut zeno = case.output.split_inclusive('\n');
    let mut other = block.split_inclusive('\n');
    let mut number = 1;
    let (wanted, found) = loop {
        match (zeno.next(), other.next()) {
            (a, b) if a == b => number += 1,
            pair => break pair,
        }
    };
    println!("the first difference is in line {number} of {}", case.title);
    println!(
        "zeno    {:?}\nprogram {:?}",
        wanted.unwrap_or(""),
        found.unwrap_or("")
    );
}
