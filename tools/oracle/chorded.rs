//! The arc of the notes, F.6.5 and F.6.6, told about its chord, in f64: the centre is not formed, so that no
//! digit is lost where the ends are close beside the radii.
use crate::arc::Arc;
use crate::centred::Centred;
use std::f64::consts::PI;

#[derive(Clone, Copy, Debug)]
pub struct Chorded {
    middle: [f64; 2],
    /// On the circle of radius 1: from the middle to the start, and to the side where the arc goes.
    along: [f64; 2],
    aside: [f64; 2],
    /// After they grew.
    radii: [f64; 2],
    sine: f64,
    cosine: f64,
    /// Half of how far the arc turns.
    pub half: f64,
}

impl Chorded {
    /// None where the ends are one point, or a number is too large or too small for this.
    pub fn new(arc: Arc) -> Option<Chorded> {
        let ([x1, y1], [x2, y2]) = (arc.from.map(f64::from), arc.to.map(f64::from));
        let (sine, cosine) = f64::from(arc.angle).sin_cos();
        let (dx, dy) = ((x1 - x2) / 2.0, (y1 - y2) / 2.0);
        let radii = [arc.rx, arc.ry].map(|r| f64::from(r).abs());
        // The half chord on the circle: its length is the root of lambda (F.6.6.2).
        let u = [
            (cosine * dx + sine * dy) / radii[0],
            (cosine * dy - sine * dx) / radii[1],
        ];
        let length = u[0].hypot(u[1]);
        let along = u.map(|x| x / length);
        let growth = length.max(1.0);
        let short = length.min(1.0).asin();
        let chorded = Chorded {
            middle: [(x1 + x2) / 2.0, (y1 + y2) / 2.0],
            along,
            aside: match arc.positive {
                true => [-along[1], along[0]],
                false => [along[1], -along[0]],
            },
            radii: radii.map(|r| r * growth),
            sine,
            cosine,
            half: if arc.large { PI - short } else { short },
        };
        (length > 0.0 && length.is_finite()).then_some(chorded)
    }

    /// The place at a part of the turn, from 0 to 1. Half a turn is the angle h and the place lies at
    /// the angle t from the top, so that it is as far aside as cos t - cos h.
    pub fn place(&self, part: f64) -> [f64; 2] {
        let (h, t) = (self.half, (2.0 * part - 1.0) * self.half);
        let (along, aside) = (-t.sin(), 2.0 * ((h + t) / 2.0).sin() * ((h - t) / 2.0).sin());
        let on_axes = |i: usize| (along * self.along[i] + aside * self.aside[i]) * self.radii[i];
        let (x, y) = (on_axes(0), on_axes(1));
        [
            self.middle[0] + self.cosine * x - self.sine * y,
            self.middle[1] + self.sine * x + self.cosine * y,
        ]
    }

    /// Compares with the steps of the notes one by one, which f64 bears where the radii are neither much larger
    /// than the chord nor much unlike each other.
    pub fn assert_like_notes(&self, arc: Arc) {
        let Some(centred) = Centred::new(arc) else {
            return;
        };
        let chord = distance(self.place(0.0), self.place(1.0));
        let (less, more) = (centred.rx.min(centred.ry), centred.rx.max(centred.ry));
        let far = (arc.from.iter().chain(&arc.to)).fold(0.0, |x: f64, y| x.max(f64::from(*y).abs()));
        if more > 1e4 * chord || more > 1e3 * less || far > 1e4 * chord {
            return;
        }
        for part in [0.0, 0.25, 0.5, 0.75, 1.0] {
            let place = centred.place(centred.start + centred.sweep * part);
            let off = distance(place, self.place(part));
            // A half turn's centre is only as sure as the root of a rounded difference.
            assert!(off < 1e-5 * more, "{off} at {part}: {}", arc.words());
        }
    }
}

pub fn distance(a: [f64; 2], b: [f64; 2]) -> f64 {
    (a[0] - b[0]).hypot(a[1] - b[1])
}
