//! Makes the copy of zeno's stroke.rs that tells `journal.rs` what happens in a stroke.
//!
//! count STROKE.RS COUNTED.RS
use std::process::ExitCode;

/// How often a text stands in the file, the text, and what comes in its place.
const EDITS: &[(usize, &str, &str)] = &[
    // An end that is read from the segments of the path.
    (
        1,
        "                        is_closed = closed;\n",
        "                        is_closed = closed;\n                        oracle_end();\n",
    ),
    // A step is a turn of this loop or a call of this function.
    (
        1,
        "            while accum < offset {\n",
        "            while accum < offset {\n                oracle_step();\n",
    ),
    (
        1,
        "    fn next(&mut self, segments: &[Segment], dashes: &[f32]) -> DashOp {\n",
        "    fn next(&mut self, segments: &[Segment], dashes: &[f32]) -> DashOp {\n        oracle_step();\n",
    ),
    // A dash, before it is drawn and after.
    (
        1,
        "                        self.dash_segments(segments, start, end, t0, t1);\n",
        "                        oracle_dash(start, end, t0, t1);
                        self.dash_segments(segments, start, end, t0, t1);
                        oracle_dash_is_drawn();\n",
    ),
    // Both files are in one crate, where Segment can have but one function of a name.
    (
        1,
        "    fn offset(&self, radius: f32)",
        "    fn counted_offset(&self, radius: f32)",
    ),
    (7, ".offset(", ".counted_offset("),
];

const LAST: &str = "
unsafe extern \"Rust\" {
    safe fn oracle_end();
    safe fn oracle_step();
    safe fn oracle_dash(start: isize, end: isize, t0: f32, t1: f32);
    safe fn oracle_dash_is_drawn();
}
";

fn main() -> ExitCode {
    let paths: Vec<String> = std::env::args().skip(1).collect();
    let [stroke, counted] = paths.as_slice() else {
        eprintln!("usage: count STROKE.RS COUNTED.RS");
        return ExitCode::from(2);
    };
    let done = std::fs::read_to_string(stroke)
        .map_err(|error| format!("{stroke}: {error}"))
        .and_then(edited)
        .and_then(|text| {
            std::fs::write(counted, text).map_err(|error| format!("{counted}: {error}"))
        });
    match done {
        Ok(()) => ExitCode::SUCCESS,
        Err(error) => {
            eprintln!("{error}");
            ExitCode::from(2)
        }
    }
}

fn edited(mut text: String) -> Result<String, String> {
    for &(expected, old, new) in EDITS {
        let found = text.matches(old).count();
        if found != expected {
            return Err(format!(
                "stroke.rs has this {found} times, not {expected}:\n{old}"
            ));
        }
        text = text.replace(old, new);
    }
    Ok(text + LAST)
}
