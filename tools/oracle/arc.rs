//! An arc by its ends, and how it is written.
use crate::spelling::bits;

#[derive(Clone, Copy)]
pub struct Arc {
    pub from: [f32; 2],
    pub rx: f32,
    pub ry: f32,
    pub angle: f32,
    pub to: [f32; 2],
    pub large: bool,
    pub positive: bool,
}

impl Arc {
    fn numbers(&self) -> [f32; 7] {
        let ([x, y], [to_x, to_y]) = (self.from, self.to);
        [x, y, self.rx, self.ry, self.angle, to_x, to_y]
    }

    /// The bits of its numbers with the high byte first, and its flags.
    pub fn bytes(&self) -> Vec<u8> {
        let mut bytes: Vec<u8> = (self.numbers().iter())
            .flat_map(|&x| bits(x).to_be_bytes())
            .collect();
        bytes.extend([u8::from(self.large), u8::from(self.positive)]);
        bytes
    }

    /// The same for people, as numbers and by their bits.
    pub fn words(&self) -> String {
        let digits = self.numbers().map(|x| format!(" {:08X}", bits(x))).concat();
        format!(
            "from {:?} radii {:?} {:?} angle {:?} to {:?} {} {}, bits{digits}",
            self.from,
            self.rx,
            self.ry,
            self.angle,
            self.to,
            if self.large { "large" } else { "small" },
            if self.positive {
                "positive"
            } else {
                "negative"
            },
        )
    }
}
