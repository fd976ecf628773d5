//! Jobs by plan.
use crate::job::{spelled, BUDGET, COMMANDS};
use crate::journal::Limits;
use std::sync::LazyLock;

/// The limits where a plan has none.
pub const LIMITS: Limits = Limits {
    storage: 128,
    places: 1024,
    budget: BUDGET,
};

pub struct Planned {
    pub bytes: Vec<u8>,
    pub limits: Limits,
}

/// The job with this number, if there are so many.
pub fn job(number: u64) -> Option<&'static Planned> {
    JOBS.get(number as usize)
}

static JOBS: LazyLock<Vec<Planned>> = LazyLock::new(|| {
    let parts = [
        texts(SHORT),
        texts(DASHED),
        texts(DEPARTING),
        texts(QUESTIONED),
        texts(MISREAD),
        lone_closes(),
        by_length(),
        by_limits(),
    ];
    parts.into_iter().flatten().collect()
});

/// Lines, a corner, a square and single curves.
const SHORT: &[&str] = &[
    "",
    "W2 J0 M0,0 L8,0",
    "W2 J0 M0,0 L8,0 L8,8",
    "W2 J0 M0,0 L8,0 L8,-8",
    "W2 J1 M0,0 L8,0 L8,8",
    "W2 J2 M0,0 L8,0 L8,8",
    "W2 J1 I1 M0,0 L8,0 L8,8",
    "W2 J1 I10 M0,0 L8,0 L-8,1",
    "W2 J1 Iinf M0,0 L8,0 L0,0",
    "W2 J2 M0,0 L8,0 L0,0",
    "W2 J0 M0,0 L8,0 L8,8 L0,8 Z",
    "W2 J1 M0,0 L0,8 L8,8 L8,0 Z",
    "W2 J2 S2 E2 M0,0 L8,0 L8,8 L0,8 L0,0 Z",
    "W2 J0 S1 E2 M0,0 L8,0 M0,4 L8,4 Z M0,8 L8,8",
    "W2 J2 M0,0 C7,9,11,15,6,15",
    "W2 J2 M0,0 C-5,-1,-8,5,-9,9",
    "W2 J2 S2 E1 M0,0 Q8,8,16,0",
    "M0,0",
    "M0,0 M1,1 M2,2",
    "S1 M0,0 L0.005,0",
    "S2 M3,4 L3,4 Z Z Z",
    "M0,0 W9 J2 L8,0 S2 W2 L8,8 E2",
];

/// Dashes and offsets of every kind.
const DASHED: &[&str] = &[
    "W2 J0 D4 D4 M0,0 L16,0",
    "W2 J0 D4 D4 S1 M0,0 L16,0",
    "W2 J0 D4 D4 S2 E2 M0,0 L16,0",
    "W2 J0 D12 D4 M0,0 L8,0 L8,8 L0,8 Z",
    "W2 J0 D4 D4 M0,0 L8,0 L8,8 L0,8 Z",
    "W2 J0 D4 D4 O-8 M0,0 L8,0 L8,8 L0,8 Z",
    "W2 J0 D4 D4 O8 M0,0 L8,0 L8,8 L0,8 Z",
    "W2 J0 D4 D4 O-8 M0,0 L16,0",
    "W2 J0 D4 D4 O8 M0,0 L16,0",
    "W2 J0 D4 D4 O1e30 M0,0 L16,0",
    "W2 J0 D4 D4 O-1e-30 M0,0 L16,0",
    "W2 J0 D4 D4 ONaN M0,0 L16,0",
    "W2 J0 D4 D4 Oinf M0,0 L16,0",
    "W2 J0 D3 D0 D4 D2 M0,0 L32,0",
    "W2 J0 D2 D0.5 M0,0 L8,0",
    "W2 J0 D0.5 M0,0 L8,0",
    "W2 J0 D1 M0,0 L8,0",
    "W2 J0 D1 D1 O1.5 S2 M0,0 L8,0 L8,8 Z",
    "W2 J0 D0 D4 M0,0 L16,0",
    "W2 J0 D0 D4 S2 E1 M0,0 L16,0 L16,16",
    "W2 J0 D0 D0 D0 D4 O3 S2 M0,0 L16,0",
    "W2 J0 D2 DNaN D2 D4 M0,0 L8,0",
    "W2 J0 DNaN D4 M0,0 L8,0",
    "W2 J0 DNaN M0,0 L8,0",
    "W2 J0 Dinf D4 M0,0 L8,0 L8,8 Z",
    "W2 J0 D4 Dinf O2 M0,0 L8,0 L8,8 Z",
    "W2 J0 D4 D-4 M0,0 L8,0",
    "W2 J0 D4 D-0 D4 D1 M0,0 L32,0",
    "W2 J2 D100 D4 S2 M0,0 L8,0 L8,8 Z",
    "W2 J2 D5 D3 O7 S1 E2 M0,0 L8,0 M0,4 Q8,4,8,12 M0,20 C9,20,9,30,0,30 Z",
    "D0 D1 M0,0 L1048576,0",
    "S1 D0 D1 M0,0 L1048576,0",
    "D1 D0 M0,0 L1048576,0",
];

/// A dash that zeno sends without MoveTo, on lines and on a curve.
const DEPARTING: &[&str] = &[
    "W2 J0 D4 D4 DNaN M0,0 L8,0",
    "W2 J0 D4 D4 DNaN S1 E1 M0,0 L8,0",
    "W2 J0 D4 D4 DNaN S2 E2 M0,0 L8,0",
    "W2 J0 D4 D4 DNaN S1 E2 M0,0 L8,0",
    "W2 J0 D4 D4 DNaN D4 M0,0 L8,0",
    "W2 J0 D4 D4 DNaN D4 S1 E1 M0,0 L8,0",
    "W2 J0 D4 D4 DNaN D4 S2 E2 M0,0 L8,0 M0,4 L8,4 L8,12",
    "W2 D2 D3 DNaN D1 O2.5 M2,-3 Q1,-3,-3,-3",
    "W2 D2 D3 DNaN D1 O2.5 S2 E1 M2,-3 Q1,-3,-3,-3 M0,0 L9,0",
];

/// At the limits of the coordinates and of the width, and past them.
const QUESTIONED: &[&str] = &[
    "M0,0 L1048576,0",
    "M0,0 L-1048576,1048576",
    "M0,0 L1048576.125,0",
    "M0,0 L0,-1048576.125",
    "MNaN,0 L8,0",
    "M0,0 L8,0 Z Linf,0",
    "M0,0 C1048577,0,8,8,8,0",
    "M0,0 C8,8,0,1048577,8,0",
    "M0,0 C8,8,8,0,0,-1048577",
    "M0,0 Q0,-inf,8,0",
    "M0,0 Q8,0,NaN,0",
    "W4096 S2 M0,0 L8,0 L8,8",
    "W4096.0005 M0,0 L8,0",
    "Winf M0,0 L8,0",
    "Winf M0,0 L2e6,0",
    "W-inf S2 M0,0 L8,0",
    "WNaN S2 M0,0 L8,0",
    "W0 S1 M0,0 L8,0",
    "W-0 J1 M0,0 L8,0 L8,8",
    "W-5 J2 M0,0 L8,0 L8,8",
    "W0.010000001 J2 M0,0 L8,0 L8,8",
];

/// Letters that are not known, operands that are cut, bytes that name nothing.
const MISREAD: &[&str] = &[
    "#00",
    "M0,0 L8,0 #77",
    "M0,0 #58 J7",
    "W2 #57",
    "#4900",
    "#4F0000",
    "M0,0 L8,0 #44000000",
    "#4A",
    "M0,0 #53",
    "#45",
    "#4D00000000000000",
    "M0,0 #4C",
    "M0,0 #4300000000000000000000000000000000000000000000",
    "M0,0 #51000000000000000000000000000000",
    "J3",
    "W1 S3",
    "M0,0 L8,0 E255 L9,9",
    "J2 J1 J0 J4",
];

fn texts(list: &[&str]) -> Vec<Planned> {
    list.iter().map(|text| limited(text, LIMITS)).collect()
}

fn limited(text: &str, limits: Limits) -> Planned {
    Planned {
        bytes: spelled(text),
        limits,
    }
}

/// A close alone with each pair of caps: plain, dashed, and with a first dash of 0.
fn lone_closes() -> Vec<Planned> {
    let mut list = Vec::new();
    for dashes in ["", "D4 D4", "D0 D4"] {
        for caps in 0..9 {
            let (start, end) = (caps / 3, caps % 3);
            list.push(limited(
                &format!("W2 J0 S{start} E{end} {dashes} Z"),
                LIMITS,
            ));
        }
    }
    list
}

/// Segments around a storage of 128, 32 and 33 dashes, 4096 and 4097 commands.
fn by_length() -> Vec<Planned> {
    let zigzag = |count: usize| {
        let lines = (1..=count).map(|place| format!(" L{},{}", place, place % 2));
        format!("W0.5 J0 M0,0{}", lines.collect::<String>())
    };
    let few = Limits {
        places: 8,
        ..LIMITS
    };
    vec![
        limited(&zigzag(127), LIMITS),
        limited(&zigzag(128), LIMITS),
        limited(&zigzag(129), LIMITS),
        limited(&format!("{} Z", zigzag(127)), LIMITS),
        limited(&format!("{} Z", zigzag(128)), LIMITS),
        limited(&format!("M0,5 L5,5 {}", zigzag(129)), LIMITS),
        limited(&format!("{} M0,0 L8,0", "D4 ".repeat(32)), LIMITS),
        limited(&format!("{} M0,0 L8,0", "D4 ".repeat(33)), LIMITS),
        limited(&format!("M0,0 L8,0 {}", "D-1 ".repeat(33)), LIMITS),
        limited(&"Z ".repeat(COMMANDS), few),
        limited(&"Z ".repeat(COMMANDS + 1), few),
        limited(&format!("{} W2 D4 D4", "Z ".repeat(COMMANDS)), few),
    ]
}

/// Small jobs with each limit from 0 on.
fn by_limits() -> Vec<Planned> {
    let edges = [BUDGET, BUDGET + 1, u32::MAX as usize];
    let parts = [
        with(budgets(0..8), &["W2 J0 D4 D4 M0,0 L16,0"]),
        with(budgets(edges), &["W2 J0 D4 D4 M0,0 L16,0"]),
        with(budgets([0, BUDGET + 1]), UNSPENT),
        with(budgets(0..8), &["W2 J0 D1 D1 O1.5 M0,0 L2,0 M0,4 L2,4"]),
        with(places(0..13), &["W2 J0 M0,0 L8,0 M0,4 L8,4"]),
        with(places(0..7), &["W2 J2 S2 E2 Z D4 D4 DNaN M0,0 L8,0"]),
        with(storages(0..4), STORED),
    ];
    parts.into_iter().flatten().collect()
}

/// With few steps or none.
const UNSPENT: &[&str] = &["", "Z", "M0,0 L8,0", "D4 D4", "D4 D4 M0,0 M8,0", "D4 D4 Z"];

const STORED: &[&str] = &[
    "W2 J0 M0,0 L8,0 L8,8 M0,4 L8,4 L8,8 L0,9",
    "W2 J0 D4 D4 M0,0 L8,0 Z M1,1 L2,2 M0,4 L8,4 L8,8 L0,9",
    "W2 J0 M0,0 M1,1 Q8,8,16,0",
];

fn with(limits: Vec<Limits>, list: &[&str]) -> Vec<Planned> {
    (limits.into_iter())
        .flat_map(|limits| list.iter().map(move |text| limited(text, limits)))
        .collect()
}

fn budgets(budgets: impl IntoIterator<Item = usize>) -> Vec<Limits> {
    let limits = |budget| Limits { budget, ..LIMITS };
    budgets.into_iter().map(limits).collect()
}

fn places(places: impl IntoIterator<Item = usize>) -> Vec<Limits> {
    let limits = |places| Limits { places, ..LIMITS };
    places.into_iter().map(limits).collect()
}

fn storages(storages: impl IntoIterator<Item = usize>) -> Vec<Limits> {
    let limits = |storage| Limits { storage, ..LIMITS };
    storages.into_iter().map(limits).collect()
}
