//! What happens in a stroke by zeno, in order, and where limits end it.
//!
//! Zeno has no limits. It is left to stroke a job into a list and a storage without end, and the
//! limits are laid on what happened. Steps and dashes are told by the copy of its stroke.rs that
//! `count.rs` makes; the commands of the unchanged files must be the same.
use crate::host;
use crate::job::{Job, Refusal, BUDGET};
use crate::spelling::path_bytes;
use std::cell::RefCell;
use std::panic::{catch_unwind, resume_unwind, AssertUnwindSafe};
use zeno::command::Command;
use zeno::counted::{stroke_with_storage, StrokerStorage};
use zeno::geometry::Point;
use zeno::path_builder::PathBuilder;
use zeno::segment::Segment;
use zeno::stroke::stroke_into;

/// The most places that a list may have here.
pub const PLACES: usize = 2048;

#[derive(Clone, Copy)]
pub struct Limits {
    /// The segments that the storage has room for.
    pub storage: usize,
    /// The commands that the list has room for.
    pub places: usize,
    /// The steps that may be taken.
    pub budget: usize,
}

#[derive(Clone, Copy)]
enum What {
    /// The storage is emptied for a run.
    Clear,
    /// It is handed a segment.
    Push,
    /// The run's end is read.
    End,
    /// A step of the dashes comes next.
    Step,
    Send(Command),
    /// A dash is drawn that has no start here: it is left out, with its commands.
    Depart,
    LeftOut(Command),
}

struct Event {
    what: What,
    /// How many questions the host was asked before, each counted once.
    asked: usize,
}

#[derive(Default)]
pub struct Journal {
    events: Vec<Event>,
    steps: usize,
    sent: usize,
    departs: bool,
    /// Whether the stroke came to its end. Else it went beyond what any limits allow.
    is_whole: bool,
}

thread_local! {
    static JOURNAL: RefCell<Journal> = RefCell::default();
}

/// The payload by which a stroke is left from inside.
struct Stop;

fn stop() -> ! {
    resume_unwind(Box::new(Stop))
}

/// Whether the work came to its end, and was not stopped.
fn is_finished(work: impl FnOnce()) -> bool {
    match catch_unwind(AssertUnwindSafe(work)) {
        Ok(()) => true,
        Err(cause) if cause.is::<Stop>() => false,
        Err(cause) => resume_unwind(cause),
    }
}

/// The journal of a job that was asked. Its questions are logged by the host.
pub fn stroke(job: &Job) -> Journal {
    JOURNAL.take();
    let is_whole = is_finished(|| {
        let (mut sink, mut storage) = (Sink(send), Storage(Vec::new()));
        stroke_with_storage(job.path.iter(), &job.style(), &mut sink, &mut storage);
    });
    Journal {
        is_whole,
        ..JOURNAL.take()
    }
}

impl Journal {
    pub fn steps(&self) -> usize {
        self.steps
    }

    /// How many commands are sent, without those left out.
    pub fn sent(&self) -> usize {
        self.sent
    }

    /// The most segments that are in the storage at once.
    pub fn most_held(&self) -> usize {
        let mut held = 0;
        let counts = self.events.iter().map(|event| {
            match event.what {
                What::Clear => held = 0,
                What::Push => held += 1,
                _ => {}
            }
            held
        });
        counts.max().unwrap_or(0)
    }

    /// Whether the unchanged files send the same commands, as far as the journal goes.
    pub fn is_zenos(&self, job: &Job) -> bool {
        let told: Vec<Command> = (self.events.iter())
            .filter_map(|event| match event.what {
                What::Send(command) | What::LeftOut(command) => Some(command),
                _ => None,
            })
            .collect();
        if told.is_empty() && !self.is_whole {
            return true;
        }
        let mut sent = Vec::new();
        is_finished(|| {
            let mut sink = Sink(|command| {
                sent.push(command);
                if sent.len() == told.len() && !self.is_whole {
                    stop();
                }
            });
            stroke_into(job.path.iter(), &job.style(), &mut sink);
        });
        path_bytes(&sent) == path_bytes(&told)
    }

    /// What comes of the stroke with limits.
    pub fn limited(&self, limits: Limits) -> Outcome {
        if limits.budget > BUDGET {
            return Outcome::refused(Refusal::early(5, 0));
        }
        let mut outcome = Outcome::default();
        let (mut ends, mut held) = (0, 0);
        for event in &self.events {
            let room = match event.what {
                What::Push => held < limits.storage,
                What::Step => outcome.steps < limits.budget,
                What::Send(_) => outcome.sent.len() < limits.places,
                _ => true,
            };
            outcome.asked = event.asked;
            if !room {
                outcome.refusal = Some(Refusal {
                    number: event.what.question(),
                    place: ends,
                    sent: outcome.sent.len(),
                });
                return outcome;
            }
            match event.what {
                What::Clear => held = 0,
                What::Push => held += 1,
                What::End => ends += 1,
                What::Step => outcome.steps += 1,
                What::Send(command) => outcome.sent.push(command),
                What::Depart => outcome.departed += 1,
                What::LeftOut(_) => {}
            }
        }
        assert!(self.is_whole, "a limit ends each stroke");
        outcome.asked = usize::MAX;
        outcome
    }

    fn add(&mut self, what: What) {
        match what {
            What::Step => self.steps += 1,
            What::Send(_) => self.sent += 1,
            _ => {}
        }
        let asked = host::asked();
        self.events.push(Event { what, asked });
    }
}

impl What {
    fn question(self) -> u8 {
        match self {
            What::Push => 6,
            What::Step => 7,
            _ => 8,
        }
    }
}

/// What a stroke with limits gives.
#[derive(Default)]
pub struct Outcome {
    pub sent: Vec<Command>,
    pub steps: usize,
    pub refusal: Option<Refusal>,
    /// How many of the host's rows were asked for.
    pub asked: usize,
    /// How many dashes were left out.
    pub departed: u64,
}

impl Outcome {
    pub fn refused(refusal: Refusal) -> Outcome {
        Outcome {
            refusal: Some(refusal),
            ..Outcome::default()
        }
    }
}

/// Adds an event, and leaves the stroke if no limits would let it come so far.
fn note(what: What) {
    let is_beyond = JOURNAL.with_borrow_mut(|journal| {
        journal.add(what);
        journal.steps > BUDGET || journal.sent > PLACES
    });
    if is_beyond {
        stop();
    }
}

fn send(command: Command) {
    if JOURNAL.with_borrow(|journal| journal.departs) {
        note(What::LeftOut(command));
    } else {
        note(What::Send(command));
    }
}

struct Sink<F>(F);

impl<F: FnMut(Command)> PathBuilder for Sink<F> {
    fn current_point(&self) -> Point {
        unreachable!("a stroke does not ask for the current point")
    }
    fn move_to(&mut self, to: impl Into<Point>) -> &mut Self {
        self.0(Command::MoveTo(to.into()));
        self
    }
    fn line_to(&mut self, to: impl Into<Point>) -> &mut Self {
        self.0(Command::LineTo(to.into()));
        self
    }
    fn curve_to(
        &mut self,
        b: impl Into<Point>,
        c: impl Into<Point>,
        to: impl Into<Point>,
    ) -> &mut Self {
        self.0(Command::CurveTo(b.into(), c.into(), to.into()));
        self
    }
    fn quad_to(&mut self, _b: impl Into<Point>, _to: impl Into<Point>) -> &mut Self {
        unreachable!("no stroke sends it")
    }
    fn close(&mut self) -> &mut Self {
        self.0(Command::Close);
        self
    }
}

struct Storage(Vec<Segment>);

impl StrokerStorage for Storage {
    fn clear(&mut self) {
        note(What::Clear);
        self.0.clear();
    }
    fn push(&mut self, segment: &Segment) {
        note(What::Push);
        self.0.push(*segment);
    }
    fn get(&self) -> &[Segment] {
        &self.0
    }
}

// What the copy of stroke.rs calls.

#[unsafe(no_mangle)]
fn oracle_end() {
    note(What::End);
}

#[unsafe(no_mangle)]
fn oracle_step() {
    note(What::Step);
}

/// Zeno sends no MoveTo for a dash of one segment that starts at its end and has no length of 0.
#[unsafe(no_mangle)]
fn oracle_dash(start: isize, end: isize, t0: f32, t1: f32) {
    if start == end && t0 >= 1.0 && t1 != t0 {
        note(What::Depart);
        JOURNAL.with_borrow_mut(|journal| journal.departs = true);
        host::hush(true);
    }
}

#[unsafe(no_mangle)]
fn oracle_dash_is_drawn() {
    JOURNAL.with_borrow_mut(|journal| journal.departs = false);
    host::hush(false);
}
