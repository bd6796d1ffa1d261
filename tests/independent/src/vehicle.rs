//! The vehicle record, with the fields of the C header in their order.

#[derive(Clone, Copy, PartialEq, Eq, Debug)]
pub struct Vehicle {
    pub ng: u16,
    pub ratio: [u16; 10],
    pub idle: u16,
    pub rated: u16,
    pub nmax: u16,
    pub f0: u16,
    pub f1: i32,
    pub f2: u16,
    pub tm: u16,
    pub margin: u16,
    pub points: u16,
    pub n: [u16; 64],
    pub p: [u16; 64],
    pub m: [u16; 64],
    pub profile: u16,
}

pub const ZERO: Vehicle = Vehicle {
    ng: 0,
    ratio: [0; 10],
    idle: 0,
    rated: 0,
    nmax: 0,
    f0: 0,
    f1: 0,
    f2: 0,
    tm: 0,
    margin: 0,
    points: 0,
    n: [0; 64],
    p: [0; 64],
    m: [0; 64],
    profile: 0,
};

/// Car Z of the paper's sums.
pub fn car_z() -> Vehicle {
    let mut v = Vehicle { ng: 5, idle: 800, rated: 5600, nmax: 6000, f0: 1000, f1: 0, f2: 4000, tm: 1500, margin: 10, points: 7, ..ZERO };
    v.ratio[..5].copy_from_slice(&[12000, 7000, 4500, 3500, 2800]);
    v.n[..7].copy_from_slice(&[800, 1800, 2800, 3800, 4800, 5600, 6000]);
    v.p[..7].copy_from_slice(&[100, 300, 500, 700, 850, 900, 880]);
    v
}

/// Request Thirteen: the same car with a crawler, of that ratio, below its first gear.
pub fn with_crawler(car: &Vehicle, ratio: u16) -> Vehicle {
    let mut van = Vehicle { ng: car.ng + 1, profile: 1, ..*car };
    van.ratio[0] = ratio;
    van.ratio[1..].copy_from_slice(&car.ratio[..9]);
    van
}

/// And the car that a van is without its crawler.
pub fn without_crawler(van: &Vehicle) -> Vehicle {
    let mut car = Vehicle { ng: van.ng - 1, profile: 0, ..*van };
    car.ratio[..9].copy_from_slice(&van.ratio[1..]);
    car
}
