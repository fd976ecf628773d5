//! Calls each function and checks what it answers and what the bytes hold: cases of docs/RULES.md and
//! docs/FORMATS.md, and the stored strokes of the Rust.
//!   test_rs crates/replay_strokes/stdin crates/replay_strokes/stdout
mod stroke;

use std::fs;
use stroke::{Refusal, Steps, Stroked};

type Function = for<'a> fn(&[u8], &[u8], &'a mut [u8]) -> Stroked<'a>;

/// What a byte holds before a call.
const OLD: u8 = 0xa5;

fn series<'a>(_rows: &[u8], job: &[u8], bytes: &'a mut [u8]) -> Stroked<'a> {
    stroke::stroke(job, bytes)
}

fn series_long<'a>(_rows: &[u8], job: &[u8], bytes: &'a mut [u8]) -> Stroked<'a> {
    stroke::stroke_long(job, bytes)
}

const SHORT: [Function; 2] = [series, stroke::stroke_by_rows];
const LONG: [Function; 2] = [series_long, stroke::stroke_long_by_rows];

#[derive(Debug)]
struct Wanted {
    bytes: Vec<u8>,
    sent: u64,
    ended: Result<Steps, Refusal>,
}

fn accepted(bytes: Vec<u8>, sent: u64) -> Wanted {
    Wanted { bytes, sent, ended: Ok(Steps(0)) }
}

fn refused(number: u32, place: u64, bytes: Vec<u8>, sent: u64) -> Wanted {
    Wanted { bytes, sent, ended: Err(Refusal { number, place }) }
}

/// Lends so many bytes: the answer is the wanted one, and the bytes after the records are as they were.
fn check(name: &str, function: Function, rows: &[u8], job: &[u8], room: usize, wanted: &Wanted) {
    let mut bytes = vec![OLD; room];
    let drawn = function(rows, job, &mut bytes);
    assert_eq!(drawn.bytes, wanted.bytes, "{name}");
    assert_eq!((drawn.sent, drawn.ended), (wanted.sent, wanted.ended), "{name}");
    let used = wanted.bytes.len();
    assert!(bytes[used..].iter().all(|b| *b == OLD), "{name}: a byte after the records was written");
}

/// No row is needed: nothing here bends.
fn check_all(name: &str, job: &[u8], room: usize, wanted: &Wanted) {
    for function in SHORT.into_iter().chain(LONG) {
        check(name, function, &[], job, room, wanted);
    }
}

fn item(letter: u8, numbers: &[f32]) -> Vec<u8> {
    let numbers = numbers.iter().flat_map(|x| x.to_bits().to_be_bytes());
    [letter].into_iter().chain(numbers).collect()
}

/// A path of so many lines, each of length 1.
fn lines(n: usize) -> Vec<u8> {
    let line = |i: usize| item(if i == 0 { b'M' } else { b'L' }, &[i as f32, 0.0]);
    (0..=n).flat_map(line).collect()
}

/// A line of length 8 with width 2, from an x on.
fn line_from(x: f32) -> Vec<u8> {
    [item(b'M', &[x, 0.0]), item(b'L', &[x + 8.0, 0.0])].concat()
}

fn outline_from(x: f32) -> Vec<Vec<u8>> {
    vec![
        item(b'M', &[x, -1.0]),
        item(b'L', &[x + 8.0, -1.0]),
        item(b'L', &[x + 8.0, 1.0]),
        item(b'L', &[x, 1.0]),
        item(b'L', &[x, -1.0]),
        item(b'Z', &[]),
    ]
}

fn worked() {
    let style = b"W\x40\0\0\0J\0";
    let line = [&style[..], &line_from(0.0)].concat();
    let outline = outline_from(0.0);
    check_all("a line", &line, 64, &accepted(outline.concat(), 6));
    check_all("just enough bytes", &line, 46, &accepted(outline.concat(), 6));
    for sent in 0..6 {
        let part = outline[..sent].concat();
        let wanted = refused(8, 0, part.clone(), sent as u64);
        check_all("too few bytes", &line, part.len(), &wanted);
        check_all("a byte too few", &line, part.len() + outline[sent].len() - 1, &wanted);
    }
    let two = [line, line_from(16.0)].concat();
    check_all("two lines", &two, 92, &accepted([outline.concat(), outline_from(16.0).concat()].concat(), 12));
    check_all("too few bytes in the first run", &two, 20, &refused(8, 1, outline[..2].concat(), 2));
    check_all("no items", b"", 8, &accepted(vec![], 0));
    check_all("no items, no bytes", b"", 0, &accepted(vec![], 0));
    check_all("an unknown letter", b"W\x40\0\0\0?", 8, &refused(10, 5, vec![], 0));
    check_all("missing operands", b"W\x40\0\0", 8, &refused(11, 0, vec![], 0));
    check_all("a missing operand", b"ZS", 8, &refused(11, 1, vec![], 0));
    check_all("an unknown shape", b"J\x02S\x03", 8, &refused(12, 2, vec![], 0));
    check_all("a dash too many", &item(b'D', &[1.0]).repeat(33), 8, &refused(13, 160, vec![], 0));
    check_all("a command too many", &lines(4096), 8, &refused(13, 9 * 4096, vec![], 0));
    check_all("a coordinate too large", &[line_from(0.0), line_from(1048576.0)].concat(), 8, &refused(2, 3, vec![], 0));
    check_all("a width too large", &item(b'W', &[4096.5]), 8, &refused(3, 0, vec![], 0));
}

/// Whether a path of so many lines is taken by a storage.
fn takes(function: Function, n: usize) -> bool {
    let mut bytes = vec![OLD; 1 << 20];
    let drawn = function(&[], &lines(n), &mut bytes);
    let full = drawn.ended == Err(Refusal { number: 6, place: 0 });
    assert!(full || drawn.ended == Ok(Steps(0)));
    assert_eq!(full, drawn.bytes.is_empty());
    !full
}

fn storages() {
    for function in SHORT {
        assert!(takes(function, 128));
        assert!(!takes(function, 129));
    }
    for function in LONG {
        assert!(takes(function, 129));
        assert!(takes(function, 4095));
    }
}

struct Stored<'a> {
    segments: u32,
    budget: u32,
    rows: &'a [u8],
    job: &'a [u8],
}

fn cut<'a>(bytes: &mut &'a [u8], n: usize) -> &'a [u8] {
    let (front, rest) = bytes.split_at(n);
    *bytes = rest;
    front
}

fn word(bytes: &mut &[u8]) -> u32 {
    u32::from_be_bytes(cut(bytes, 4).try_into().expect("four bytes"))
}

fn stored<'a>(bytes: &mut &'a [u8]) -> Stored<'a> {
    let length = word(bytes) as usize;
    let mut record = cut(bytes, length);
    let segments = word(&mut record);
    let _places = word(&mut record);
    let budget = word(&mut record);
    let rows = 9 * word(&mut record) as usize;
    Stored { segments, budget, rows: cut(&mut record, rows), job: record }
}

/// The lines up to the one that ends a stroke.
fn wanted<'a>(lines: &mut impl Iterator<Item = &'a str>) -> Wanted {
    let mut bytes = Vec::new();
    loop {
        let words: Vec<&str> = lines.next().expect("a line").split(' ').collect();
        let number = |i: usize| words[i].parse().expect("a number");
        match words[0] {
            "=" => return Wanted { bytes, sent: number(1), ended: Ok(Steps(number(2) as u32)) },
            "!" => return refused(number(1) as u32, number(2), bytes, number(3)),
            letter => {
                bytes.extend(letter.as_bytes());
                let bits = words[1..].iter().map(|x| u32::from_str_radix(x, 16).expect("eight digits"));
                bytes.extend(bits.flat_map(u32::to_be_bytes));
            }
        }
    }
}

/// Whether a call with this storage and the greatest budget has to come to the same end.
fn same_end(stored: &Stored, wanted: &Wanted, segments: u32) -> bool {
    match wanted.ended {
        Err(Refusal { number: 5, .. }) => false,
        Err(Refusal { number: 6, .. }) => stored.segments == segments,
        Err(Refusal { number: 7, .. }) => stored.segments <= segments && stored.budget == 65_536,
        _ => stored.segments <= segments,
    }
}

/// With just as many bytes as the Rust's commands take: where it has no place for one more, a byte is missing.
fn replayed(stdin: &[u8], stdout: &str) -> [usize; 2] {
    let mut records = stdin;
    let mut lines = stdout.lines();
    let mut checked = [0; 2];
    while !records.is_empty() {
        let stored = stored(&mut records);
        let wanted = wanted(&mut lines);
        let functions: [(Function, u32); 2] = [(stroke::stroke_by_rows, 128), (stroke::stroke_long_by_rows, 4096)];
        for (i, (function, segments)) in functions.into_iter().enumerate() {
            if same_end(&stored, &wanted, segments) {
                check("a stored stroke", function, stored.rows, stored.job, wanted.bytes.len(), &wanted);
                checked[i] += 1;
            }
        }
    }
    checked
}

fn main() {
    worked();
    storages();
    let arguments: Vec<String> = std::env::args().collect();
    let stdin = fs::read(&arguments[1]).expect("the stored strokes");
    let stdout = fs::read_to_string(&arguments[2]).expect("what the Rust gave");
    let [short, long] = replayed(&stdin, &stdout);
    assert!(short > 250 && long > 250, "only {short} and {long} stored strokes were checked");
    println!("all as expected; {short} and {long} stored strokes");
}
