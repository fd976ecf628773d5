//! Strokes a line of length 8 with width 2, and tells what came of it.
mod stroke;

fn main() {
    let job = b"W\x40\0\0\0M\0\0\0\0\0\0\0\0L\x41\0\0\0\0\0\0\0";
    let mut bytes = [0; 256];
    println!("{:?}", stroke::stroke(job, &mut bytes));
    println!("{:?}", stroke::stroke(job, &mut bytes[..20]));
    println!("{:?}", stroke::stroke(b"W\x40\0\0\0?", &mut bytes));
    println!("{:?}", stroke::stroke_long(job, &mut bytes));
    println!("{:?}", stroke::stroke_by_rows(&[], job, &mut bytes));
}
