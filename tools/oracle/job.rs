//! Jobs: a style and a path in bytes, and the questions that are asked of them first.
use crate::spelling::parts;
use zeno::command::Command::{self, Close, CurveTo, LineTo, MoveTo, QuadTo};
use zeno::geometry::Point;
use zeno::style::{Cap, Join, Stroke};

/// The places in the reader's lists. A job that is read has no more commands and dashes than a
/// stroke takes, so that these two questions of a stroke are always answered by yes.
pub const COMMANDS: usize = 4096;
pub const DASHES: usize = 32;

/// What the other questions of a stroke allow.
const COORDINATE: f32 = 1_048_576.0;
const WIDTH: f32 = 4096.0;
pub const BUDGET: usize = 65_536;

/// The question that was answered by no, where, and how many commands were sent before.
#[derive(Clone, Copy)]
pub struct Refusal {
    pub number: u8,
    pub place: usize,
    pub sent: usize,
}

impl Refusal {
    /// Before a command was sent.
    pub fn early(number: u8, place: usize) -> Refusal {
        Refusal {
            number,
            place,
            sent: 0,
        }
    }
}

#[derive(Default)]
pub struct Job {
    style: Stroke<'static>,
    dashes: Vec<f32>,
    pub path: Vec<Command>,
}

/// How many bytes follow a letter.
pub fn size(letter: u8) -> Option<usize> {
    match letter {
        b'W' | b'I' | b'O' | b'D' => Some(4),
        b'J' | b'S' | b'E' => Some(1),
        b'M' | b'L' => Some(8),
        b'C' => Some(24),
        b'Q' => Some(16),
        b'Z' => Some(0),
        _ => None,
    }
}

pub fn read(bytes: &[u8]) -> Result<Job, Refusal> {
    let mut job = Job::default();
    let mut place = 0;
    while place < bytes.len() {
        let refused = |number| Refusal::early(number, place);
        let size = size(bytes[place]).ok_or(refused(10))?;
        let operands = bytes.get(place + 1..place + 1 + size).ok_or(refused(11))?;
        job.take(bytes[place], operands).map_err(refused)?;
        place += 1 + size;
    }
    Ok(job)
}

impl Job {
    pub fn style(&self) -> Stroke<'_> {
        Stroke {
            dashes: &self.dashes,
            ..self.style
        }
    }

    fn take(&mut self, letter: u8, operands: &[u8]) -> Result<(), u8> {
        let numbers: Vec<f32> = operands.chunks_exact(4).map(number).collect();
        let point = |place: usize| Point::new(numbers[2 * place], numbers[2 * place + 1]);
        match letter {
            b'W' => self.style.width = numbers[0],
            b'I' => self.style.miter_limit = numbers[0],
            b'O' => self.style.offset = numbers[0],
            b'D' if self.dashes.len() == DASHES => return Err(13),
            b'D' => self.dashes.push(numbers[0]),
            b'J' => self.style.join = named(operands, [Join::Bevel, Join::Miter, Join::Round])?,
            b'S' => self.style.start_cap = named(operands, CAPS)?,
            b'E' => self.style.end_cap = named(operands, CAPS)?,
            _ if self.path.len() == COMMANDS => return Err(13),
            b'M' => self.path.push(MoveTo(point(0))),
            b'L' => self.path.push(LineTo(point(0))),
            b'C' => self.path.push(CurveTo(point(0), point(1), point(2))),
            b'Q' => self.path.push(QuadTo(point(0), point(1))),
            _ => self.path.push(Close),
        }
        Ok(())
    }

    /// Asks of the coordinates, then of the width.
    pub fn asked(self) -> Result<Job, Refusal> {
        if let Some(place) = self.path.iter().position(|command| !is_near(command)) {
            return Err(Refusal::early(2, place));
        }
        if self.style.width > WIDTH {
            return Err(Refusal::early(3, 0));
        }
        Ok(self)
    }
}

const CAPS: [Cap; 3] = [Cap::Butt, Cap::Square, Cap::Round];

fn number(bytes: &[u8]) -> f32 {
    f32::from_bits(
        bytes
            .iter()
            .fold(0, |bits, &byte| bits << 8 | u32::from(byte)),
    )
}

fn named<T: Copy>(operands: &[u8], names: [T; 3]) -> Result<T, u8> {
    names.get(usize::from(operands[0])).copied().ok_or(12)
}

/// Whether all coordinates lie within the limits. NaN does not.
pub fn is_near(command: &Command) -> bool {
    let near = |x: f32| (-COORDINATE..=COORDINATE).contains(&x);
    parts(command).1.iter().all(|p| near(p.x) && near(p.y))
}

/// A letter and its numbers.
pub fn item(letter: u8, numbers: &[f32]) -> Vec<u8> {
    let bits = numbers.iter().flat_map(|x| x.to_bits().to_be_bytes());
    [letter].into_iter().chain(bits).collect()
}

/// The bytes of words: a letter, and its numbers or its byte, as in `W2 J0 M0,0 L8,0`; or `#` and
/// bytes in hexadecimal.
pub fn spelled(text: &str) -> Vec<u8> {
    text.split_whitespace().flat_map(spelled_word).collect()
}

fn spelled_word(word: &str) -> Vec<u8> {
    let (letter, rest) = (word.as_bytes()[0], &word[1..]);
    match letter {
        b'#' => (0..rest.len() / 2)
            .map(|place| u8::from_str_radix(&rest[2 * place..2 * place + 2], 16))
            .collect::<Result<_, _>>()
            .expect("bytes in hexadecimal"),
        b'J' | b'S' | b'E' => vec![letter, rest.parse().expect("a byte")],
        b'Z' => vec![letter],
        _ => {
            let numbers: Vec<f32> = (rest.split(','))
                .map(|number| number.parse().expect("a number"))
                .collect();
            assert_eq!(size(letter), Some(4 * numbers.len()), "{word}");
            item(letter, &numbers)
        }
    }
}
