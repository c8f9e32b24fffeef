// A seeded source, and doubles of the families that the cases are made of.

use crate::algebra::{spindle_log, FloatT};

pub struct Random(u64);

impl Random {
    pub fn new(seed: u64) -> Random {
        Random(seed.wrapping_mul(0x9E37_79B9_7F4A_7C15) ^ 0x5851_F42D_4C95_7F2D)
    }

    // splitmix64
    pub fn next(&mut self) -> u64 {
        self.0 = self.0.wrapping_add(0x9E37_79B9_7F4A_7C15);
        let mut x = self.0;
        x = (x ^ x >> 30).wrapping_mul(0xBF58_476D_1CE4_E5B9);
        x = (x ^ x >> 27).wrapping_mul(0x94D0_49BB_1331_11EB);
        x ^ x >> 31
    }

    pub fn below(&mut self, n: usize) -> usize {
        (self.next() % n as u64) as usize
    }

    // true so many times in a hundred
    pub fn chance(&mut self, percent: usize) -> bool {
        self.below(100) < percent
    }

    pub fn pick(&mut self, from: &[f64]) -> f64 {
        from[self.below(from.len())]
    }

    pub fn whole(&mut self, low: i64, high: i64) -> i64 {
        low + self.below((high - low + 1) as usize) as i64
    }

    // in [0,1)
    pub fn unit(&mut self) -> f64 {
        (self.next() >> 11) as f64 / 9007199254740992.0
    }

    pub fn sign(&mut self) -> f64 {
        if self.chance(50) {
            1.0
        } else {
            -1.0
        }
    }

    // positive and normal, its exponent between low and high
    pub fn spread(&mut self, low: i64, high: i64) -> f64 {
        let exponent = self.whole(low, high);
        f64::from_bits(((exponent + 1023) as u64) << 52 | self.next() >> 12)
    }

    // quarters between -4 and 4: sums and products of them are exact
    pub fn simple(&mut self) -> f64 {
        self.whole(-16, 16) as f64 / 4.0
    }

    pub fn subnormal(&mut self) -> f64 {
        let bits = self.next() >> 12 >> self.below(52);
        f64::from_bits(if bits == 0 { 1 } else { bits }) * self.sign()
    }

    // any finite double
    pub fn wild(&mut self) -> f64 {
        loop {
            let x = f64::from_bits(self.next());
            if x - x == 0.0 {
                return x;
            }
        }
    }

    // finite doubles at which something may change
    pub fn special(&mut self) -> f64 {
        const AT: [f64; 38] = [
            0.0,
            0.0,
            0.0,
            1.0,
            0.5,
            2.0,
            3.0,
            0.25,
            4.0,
            1e-300,
            1e300,
            f64::MAX,
            f64::MIN_POSITIVE,
            f64::EPSILON,
            1.4901161193847656e-8,
            1.0000000000000002,
            0.9999999999999999,
            2.220446049250313e-16,
            1.1102230246251565e-16,
            1e-9,
            1e-10,
            1e-12,
            1e-5,
            1e5,
            1e8,
            1e16,
            1e100,
            1e-100,
            1e154,
            1.4e154,
            1e-154,
            1e-162,
            1e200,
            1e-200,
            709.0,
            709.5,
            708.0,
            0.99,
        ];
        let x = match self.below(12) {
            0 => self.subnormal(),
            1 => f64::from_bits(1),
            2 => f64::from_bits(0x000F_FFFF_FFFF_FFFF),
            3 => self.spread(-1022, 1023),
            4 => f64::from_bits(((self.whole(-1022, 1023) + 1023) as u64) << 52),
            _ => self.pick(&AT),
        };
        x * self.sign()
    }

    pub fn nonfinite(&mut self) -> f64 {
        let bits = match self.below(8) {
            0 | 1 => 0x7FF0_0000_0000_0000,
            2 | 3 => 0xFFF0_0000_0000_0000,
            4 => 0x7FF8_0000_0000_0000,
            5 => 0xFFF8_0000_0000_0000,
            6 => 0x7FF0_0000_0000_0001,
            _ => 0x7FF0_0000_0000_0000 | self.next() >> 12 | 1 | self.next() << 63,
        };
        f64::from_bits(bits)
    }

    // anything, for places that are neither read nor judged
    pub fn junk(&mut self) -> f64 {
        match self.below(4) {
            0 => self.nonfinite(),
            1 => self.special(),
            _ => f64::from_bits(self.next()),
        }
    }

    // a few units in the last place beside x
    pub fn beside(&mut self, x: f64) -> f64 {
        nudged(x, self.whole(-3, 3))
    }
}

// x moved by so many doubles in its own direction; kept finite
pub fn nudged(x: f64, steps: i64) -> f64 {
    if x == 0.0 {
        return if steps == 0 { x } else { f64::from_bits(steps.unsigned_abs()) * if steps < 0 { -1.0 } else { 1.0 } };
    }
    let moved = f64::from_bits((x.to_bits() as i64 + steps) as u64);
    if moved - moved == 0.0 {
        moved
    } else {
        x
    }
}

pub fn ln(x: f64) -> f64 {
    unsafe { spindle_log(x) }
}

pub fn e_to(x: f64) -> f64 {
    FloatT::exp(x)
}

pub fn root(x: f64) -> f64 {
    FloatT::sqrt(x)
}

pub fn size(x: f64) -> f64 {
    FloatT::abs(x)
}
