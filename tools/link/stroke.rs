//! Strokes, by the static library: safe calls, over bytes that the caller lends.
#![allow(dead_code)]

#[repr(C)]
#[derive(Clone, Copy, Default)]
struct Answer {
    length: u64,
    sent: u64,
    place: u64,
    steps: u32,
    refusal: u32,
}

unsafe extern "C" {
    fn stroke_job(job: *const u8, job_length: usize, bytes: *mut u8, bytes_length: usize, answer: *mut Answer);

    fn stroke_job_long(job: *const u8, job_length: usize, bytes: *mut u8, bytes_length: usize, answer: *mut Answer);

    fn stroke_job_by_rows(
        rows: *const u8,
        rows_length: usize,
        job: *const u8,
        job_length: usize,
        bytes: *mut u8,
        bytes_length: usize,
        answer: *mut Answer,
    );

    fn stroke_job_long_by_rows(
        rows: *const u8,
        rows_length: usize,
        job: *const u8,
        job_length: usize,
        bytes: *mut u8,
        bytes_length: usize,
        answer: *mut Answer,
    );
}

/// What was drawn: the commands' bytes, and the tally or the refusal.
#[derive(Clone, Copy, Debug, PartialEq, Eq)]
pub struct Stroked<'a> {
    pub bytes: &'a [u8],
    pub sent: u64,
    pub ended: Result<Steps, Refusal>,
}

/// How many dash steps were taken.
#[derive(Clone, Copy, Debug, PartialEq, Eq)]
pub struct Steps(pub u32);

/// The refusal's number, and where it stopped.
#[derive(Clone, Copy, Debug, PartialEq, Eq)]
pub struct Refusal {
    pub number: u32,
    pub place: u64,
}

fn stroked(bytes: &[u8], answer: Answer) -> Stroked<'_> {
    let ended = match answer.refusal {
        0 => Ok(Steps(answer.steps)),
        number => Err(Refusal { number, place: answer.place }),
    };
    Stroked { bytes: &bytes[..answer.length as usize], sent: answer.sent, ended }
}

type BySeries = unsafe extern "C" fn(*const u8, usize, *mut u8, usize, *mut Answer);

type ByRows = unsafe extern "C" fn(*const u8, usize, *const u8, usize, *mut u8, usize, *mut Answer);

// By one of the library's two functions of this type.
fn by_series<'a>(call: BySeries, job: &[u8], bytes: &'a mut [u8]) -> Stroked<'a> {
    let mut answer = Answer::default();
    // SAFETY: each pointer comes from a slice or a reference, with its length.
    unsafe { call(job.as_ptr(), job.len(), bytes.as_mut_ptr(), bytes.len(), &mut answer) };
    stroked(bytes, answer)
}

// Likewise.
fn by_rows<'a>(call: ByRows, rows: &[u8], job: &[u8], bytes: &'a mut [u8]) -> Stroked<'a> {
    let mut answer = Answer::default();
    let (rows, rows_length) = (rows.as_ptr(), rows.len());
    // SAFETY: as above.
    unsafe { call(rows, rows_length, job.as_ptr(), job.len(), bytes.as_mut_ptr(), bytes.len(), &mut answer) };
    stroked(bytes, answer)
}

/// With the library's own maths and a storage of 128 segments.
pub fn stroke<'a>(job: &[u8], bytes: &'a mut [u8]) -> Stroked<'a> {
    by_series(stroke_job, job, bytes)
}

/// With the library's own maths and a storage of 4,096 segments.
pub fn stroke_long<'a>(job: &[u8], bytes: &'a mut [u8]) -> Stroked<'a> {
    by_series(stroke_job_long, job, bytes)
}

/// By rows of nine bytes as the maths, with a storage of 128 segments.
pub fn stroke_by_rows<'a>(rows: &[u8], job: &[u8], bytes: &'a mut [u8]) -> Stroked<'a> {
    by_rows(stroke_job_by_rows, rows, job, bytes)
}

/// By rows of nine bytes as the maths, with a storage of 4,096 segments.
pub fn stroke_long_by_rows<'a>(rows: &[u8], job: &[u8], bytes: &'a mut [u8]) -> Stroked<'a> {
    by_rows(stroke_job_long_by_rows, rows, job, bytes)
}
