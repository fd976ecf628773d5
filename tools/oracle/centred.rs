//! The notes on SVG 1.1's elliptical arc commands, F.6.5 and F.6.6, in f64.
use crate::arc::Arc;
use std::f64::consts::TAU;

/// An arc by its centre. The radii are those after they grew, and the sweep is negative where
/// angles fall.
#[derive(Clone, Copy, Debug)]
pub struct Centred {
    pub centre: [f64; 2],
    pub rx: f64,
    pub ry: f64,
    pub sine: f64,
    pub cosine: f64,
    pub start: f64,
    pub sweep: f64,
}

impl Centred {
    /// None where the ends are one point, a radius is 0 or a number is not finite.
    pub fn new(arc: Arc) -> Option<Centred> {
        let ([x1, y1], [x2, y2]) = (arc.from.map(f64::from), arc.to.map(f64::from));
        let (sine, cosine) = f64::from(arc.angle).sin_cos();
        // F.6.5.1
        let (dx, dy) = ((x1 - x2) / 2.0, (y1 - y2) / 2.0);
        let (x, y) = (cosine * dx + sine * dy, cosine * dy - sine * dx);
        let (rx, ry, root) = grown(arc, x, y);
        // F.6.5.2
        let (cx, cy) = (root * rx * y / ry, -root * ry * x / rx);
        // F.6.5.5
        let u = [(x - cx) / rx, (y - cy) / ry];
        let v = [(-x - cx) / rx, (-y - cy) / ry];
        let centred = Centred {
            // F.6.5.3
            centre: [
                cosine * cx - sine * cy + (x1 + x2) / 2.0,
                sine * cx + cosine * cy + (y1 + y2) / 2.0,
            ],
            rx,
            ry,
            sine,
            cosine,
            start: u[1].atan2(u[0]),
            sweep: sweep(arc, u, v),
        };
        ((dx != 0.0 || dy != 0.0) && centred.is_finite()).then_some(centred)
    }

    fn is_finite(&self) -> bool {
        let [x, y] = self.centre;
        [x, y, self.rx, self.ry, self.start, self.sweep]
            .iter()
            .all(|x| x.is_finite())
    }

    pub fn radius(&self) -> f64 {
        self.rx.max(self.ry)
    }

    /// The point at an angle, F.6.3.1.
    pub fn place(&self, angle: f64) -> [f64; 2] {
        let (sine, cosine) = angle.sin_cos();
        let (x, y) = (self.rx * cosine, self.ry * sine);
        [
            self.cosine * x - self.sine * y + self.centre[0],
            self.sine * x + self.cosine * y + self.centre[1],
        ]
    }
}

/// The radii after F.6.6.1 to F.6.6.3, and the root of F.6.5.2 with its sign. The fraction under the
/// root is divided by the squares of both radii.
fn grown(arc: Arc, x: f64, y: f64) -> (f64, f64, f64) {
    let (rx, ry) = (f64::from(arc.rx).abs(), f64::from(arc.ry).abs());
    let lambda = (x / rx).powi(2) + (y / ry).powi(2);
    let growth = lambda.sqrt().max(1.0);
    let lambda = lambda.min(1.0);
    let root = ((1.0 - lambda) / lambda).sqrt();
    let sign = if arc.large == arc.positive { -1.0 } else { 1.0 };
    (rx * growth, ry * growth, sign * root)
}

/// F.6.5.6. The centre was chosen so that the large arc has the flag's direction with more than half a
/// turn; told by the flags this stands also where the ends are so close that the sign of their
/// angle is lost. Elsewhere it is the angle of F.6.5.4 with a turn added or taken off.
fn sweep(arc: Arc, u: [f64; 2], v: [f64; 2]) -> f64 {
    let cross = u[0] * v[1] - u[1] * v[0];
    let dot = u[0] * v[0] + u[1] * v[1];
    let between = cross.abs().atan2(dot);
    let size = if arc.large { TAU - between } else { between };
    let sweep = if arc.positive { size } else { -size };
    let by_sign = match cross.atan2(dot) {
        angle if arc.positive && angle < 0.0 => angle + TAU,
        angle if !arc.positive && angle > 0.0 => angle - TAU,
        angle => angle,
    };
    assert!(
        (sweep - by_sign).abs() < 1e-6 || !(between > 1e-12),
        "{sweep} and {by_sign}: {}",
        arc.words()
    );
    sweep
}
