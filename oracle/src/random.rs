//! Numbers drawn from a seed. Only whole-number steps and IEEE operations are used,
//! so that a seed gives the same numbers on any machine.

/// The generator splitmix64.
pub struct Random {
    state: u64,
}

/// 2 to the power `e`, for `e` from -1022 to 1023.
pub fn power_of_two(e: i32) -> f64 {
    f64::from_bits(((1023 + e) as u64) << 52)
}

/// Sine of `turns` times a full turn, to some 8 digits, by a fixed polynomial.
pub fn sine(turns: f64) -> f64 {
    let x = (turns - (turns + 0.5).floor()) * std::f64::consts::TAU;
    let mut term = x;
    let mut sum = x;
    for k in 1..10 {
        term *= -x * x / f64::from(2 * k * (2 * k + 1));
        sum += term;
    }
    sum
}

/// Numbers at the ends of the format's ranges.
const SPECIAL: [f64; 20] = [
    0.,
    -0.,
    1.,
    -1.,
    f64::INFINITY,
    f64::NEG_INFINITY,
    f64::NAN,
    f64::MAX,
    f64::MIN,
    f64::MIN_POSITIVE,
    -f64::MIN_POSITIVE,
    5e-324,
    -5e-324,
    2.225073858507201e-308,
    0.9999999999999999,
    1.0000000000000002,
    2.,
    4.,
    0.5,
    1e300,
];

impl Random {
    pub fn new(seed: u64) -> Self {
        Self { state: seed }
    }

    pub fn next(&mut self) -> u64 {
        self.state = self.state.wrapping_add(0x9E37_79B9_7F4A_7C15);
        let z = (self.state ^ (self.state >> 30)).wrapping_mul(0xBF58_476D_1CE4_E5B9);
        let z = (z ^ (z >> 27)).wrapping_mul(0x94D0_49BB_1331_11EB);
        z ^ (z >> 31)
    }

    /// A whole number below `n`.
    pub fn below(&mut self, n: usize) -> usize {
        (self.next() % n as u64) as usize
    }

    /// A whole number from `low` to `high`, both included.
    pub fn between(&mut self, low: usize, high: usize) -> usize {
        low + self.below(high - low + 1)
    }

    /// True about `percent` times in a hundred.
    pub fn chance(&mut self, percent: usize) -> bool {
        self.below(100) < percent
    }

    pub fn pick<T: Copy>(&mut self, list: &[T]) -> T {
        list[self.below(list.len())]
    }

    /// From 0 to below 1.
    pub fn unit(&mut self) -> f64 {
        (self.next() >> 11) as f64 * power_of_two(-53)
    }

    /// From -1 to below 1.
    pub fn signed(&mut self) -> f64 {
        2. * self.unit() - 1.
    }

    /// A signed number with a binary exponent from `low` to `high`.
    pub fn scaled(&mut self, low: i32, high: i32) -> f64 {
        let e = low + self.below((high - low + 1) as usize) as i32;
        (1. + self.unit()) * power_of_two(e) * self.sign()
    }

    pub fn sign(&mut self) -> f64 {
        if self.chance(50) { 1. } else { -1. }
    }

    /// Any number, with the special ones often; every NaN is the same one.
    pub fn float(&mut self) -> f64 {
        let v = match self.below(10) {
            0 => f64::from_bits(self.next()),
            1 | 2 => self.pick(&SPECIAL),
            3 => self.below(40) as f64 * self.sign(),
            4 => self.square(),
            5 => self.unit() * self.pick(&[1e300, 1e-300, 1e308, 1e-308]) * self.sign(),
            6 => self.few_bits(),
            7 => f64::from_bits(self.next() >> self.between(12, 63)) * self.sign(),
            8 => (self.below(1000) as f64 + 0.5) * self.sign(),
            _ => self.scaled(-60, 60),
        };
        let v = match self.below(12) {
            0 => v.next_up(),
            1 => v.next_down(),
            _ => v,
        };
        if v.is_nan() { f64::NAN } else { v }
    }

    /// A number as it occurs in lanes, at times a zero or a large one.
    pub fn plain(&mut self) -> f64 {
        match self.below(20) {
            0 => 0.,
            1 => -0.,
            2 => self.scaled(-40, 40),
            3 => self.below(9) as f64 * self.sign(),
            _ => 4. * self.signed(),
        }
    }

    /// A perfect square, or a number next to one, or next to the square of a number
    /// halfway between two neighbours.
    pub fn square(&mut self) -> f64 {
        let scale = power_of_two(2 * self.below(900) as i32 - 900);
        if self.chance(50) {
            let root = (self.next() >> self.between(38, 60)) as f64;
            return root * root * scale;
        }
        let middle = u128::from(self.next() >> 11 | 1 << 52) * 2 + 1;
        let top = ((middle * middle) >> 54) as u64;
        let spare = 11 - top.leading_zeros();
        (top >> spare << spare) as f64 * scale
    }

    /// A number whose fraction is a run of ones or a few single bits.
    fn few_bits(&mut self) -> f64 {
        let exponent = self.between(1023 - 80, 1023 + 80) as u64;
        let fraction = match self.below(3) {
            0 => 1 << self.below(52),
            1 => (1 << self.between(1, 52)) - 1,
            _ => !((1 << self.below(52)) - 1) & ((1 << 52) - 1),
        };
        f64::from_bits(exponent << 52 | fraction) * self.sign()
    }
}
