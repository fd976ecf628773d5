//! The functions of f32 that zeno's files call. Five go to the host (`host.rs`), which knows them
//! by their numbers; the square root and the ceiling are those of IEEE 754.

unsafe extern "Rust" {
    safe fn oracle_ask(function: u8, x: f32) -> f32;
    safe fn oracle_sqrt(x: f32) -> f32;
    safe fn oracle_ceil(x: f32) -> f32;
}

pub trait F32Ext: Sized {
    fn sin(self) -> f32;
    fn cos(self) -> f32;
    fn sin_cos(self) -> (f32, f32);
    fn acos(self) -> f32;
    fn tan(self) -> f32;
    fn powf(self, exponent: f32) -> f32;
    fn powi(self, exponent: i32) -> f32;
    fn sqrt(self) -> f32;
    fn ceil(self) -> f32;

    // For masks and transforms, which no program here asks for.
    fn floor(self) -> f32 {
        unreachable!("floor")
    }
    fn atan2(self, _x: f32) -> f32 {
        unreachable!("atan2")
    }
}

impl F32Ext for f32 {
    fn sin(self) -> f32 {
        oracle_ask(1, self)
    }
    fn cos(self) -> f32 {
        oracle_ask(2, self)
    }
    fn sin_cos(self) -> (f32, f32) {
        let sine = self.sin();
        (sine, self.cos())
    }
    fn acos(self) -> f32 {
        oracle_ask(3, self)
    }
    fn tan(self) -> f32 {
        oracle_ask(4, self)
    }
    fn powf(self, exponent: f32) -> f32 {
        assert!(exponent == 0.3333333, "powf({exponent})");
        oracle_ask(5, self)
    }
    fn powi(self, exponent: i32) -> f32 {
        assert!(exponent == 2, "powi({exponent})");
        self * self
    }
    fn sqrt(self) -> f32 {
        oracle_sqrt(self)
    }
    fn ceil(self) -> f32 {
        oracle_ceil(self)
    }
}
