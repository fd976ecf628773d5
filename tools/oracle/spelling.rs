//! How numbers and paths are written.
use zeno::command::Command;
use zeno::geometry::Point;

/// The bits of a number; every NaN is 7FC00000.
pub fn bits(x: f32) -> u32 {
    if x.is_nan() {
        0x7fc0_0000
    } else {
        x.to_bits()
    }
}

/// Points for people and for printed lines: a blank and eight digits for each number.
pub fn digits(points: &[Point]) -> String {
    let digits = |p: &Point| format!(" {:08X} {:08X}", bits(p.x), bits(p.y));
    points.iter().map(digits).collect()
}

/// The printed line of a command.
pub fn command_line(command: &Command) -> String {
    let (letter, points) = parts(command);
    format!("{}{}\n", char::from(letter), digits(&points))
}

/// The bytes of a path: letters, and the bits of numbers with the high byte first.
pub fn path_bytes(path: &[Command]) -> Vec<u8> {
    let mut bytes = Vec::new();
    for command in path {
        let (letter, points) = parts(command);
        bytes.push(letter);
        for point in points {
            bytes.extend(bits(point.x).to_be_bytes());
            bytes.extend(bits(point.y).to_be_bytes());
        }
    }
    bytes
}

/// The same for people.
pub fn path_words(path: &[Command]) -> String {
    let words = |command| {
        let (letter, points) = parts(command);
        format!(" {}{}", char::from(letter), digits(&points))
    };
    path.iter().map(words).collect()
}

/// A command's letter and its points.
pub fn parts(command: &Command) -> (u8, Vec<Point>) {
    match *command {
        Command::MoveTo(to) => (b'M', vec![to]),
        Command::LineTo(to) => (b'L', vec![to]),
        Command::CurveTo(b, c, to) => (b'C', vec![b, c, to]),
        Command::QuadTo(b, to) => (b'Q', vec![b, to]),
        Command::Close => (b'Z', vec![]),
    }
}
