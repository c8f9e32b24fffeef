//! Why a cone, or a plan's list of cones, is refused with 1.
use crate::{Cone, Kind, Rule, MOST_CONES};
use core::fmt;

/// What is wrong with a cone that was refused, or with the list of a plan. It is written out in words:
///
/// ```
/// use spindle::{Cone, Refusal, Trouble};
///
/// let why = Cone::generalized(&[0.3, 0.3], 2).unwrap_err();
/// assert_eq!(why.to_string(), "refused with 1: the exponents sum to 0.6: rule 2 takes 1 within 2^-50");
/// let Refusal::BadCone(Trouble::Sum { bits, .. }) = why else { panic!() };
/// assert_eq!(f64::from_bits(bits), 0.6);
/// ```
///
/// A number is kept by its bits, so that troubles can be compared, one with NaN too.
#[derive(Clone, Copy, Debug, PartialEq, Eq, Hash)]
#[non_exhaustive]
pub enum Trouble {
    /// The number of the kind, in a record of a trace, is none of 1, 2 and 3.
    Kind(u32),
    /// The number of the rule, in a record of a trace, is neither 1 nor 2.
    Rule(u32),
    /// A power cone's exponent is not above 0 and below 1.
    PowerExponent {
        /// The bits of the exponent.
        bits: u64,
    },
    /// A generalized cone has no exponents, or more than 32.
    Dim1(usize),
    /// A generalized cone's tail is empty, or has more than 32 numbers.
    Dim2(usize),
    /// A generalized cone's exponent is not above 0 and at most 1.
    Exponent {
        /// Which one, counted from 0.
        place: usize,
        /// Its bits.
        bits: u64,
    },
    /// A generalized cone's exponents, added from the first on, sum to a number that is too far from 1.
    Sum {
        /// The bits of the sum.
        bits: u64,
        /// The rule that says how far it may be.
        rule: Rule,
    },
    /// A plan has no cones, or more than [`MOST_CONES`].
    Cones(usize),
    /// A generalized cone has no correction and no combined shift.
    NoCorrection,
    /// The library refuses a cone that this crate finds nothing wrong with: the two are of different versions.
    Unknown,
}

impl Trouble {
    // The first that is wrong of kind, rule, dims, exponents and sum, as spindle_cone_trouble of the C header has them.
    pub(crate) fn of(cone: &Cone) -> Option<Trouble> {
        if !(1..=3).contains(&cone.kind) {
            return Some(Trouble::Kind(cone.kind));
        }
        if !(1..=2).contains(&cone.rule) {
            return Some(Trouble::Rule(cone.rule));
        }
        let wide = match cone.kind() {
            Kind::Exponential => return None,
            Kind::Power => {
                let exponent = cone.exps[0];
                let good = exponent > 0.0 && exponent < 1.0;
                return (!good).then_some(Trouble::PowerExponent { bits: exponent.to_bits() });
            }
            Kind::Generalized => 1..=32,
        };
        if !wide.contains(&cone.dim1) {
            return Some(Trouble::Dim1(cone.dim1 as usize));
        }
        if !wide.contains(&cone.dim2) {
            return Some(Trouble::Dim2(cone.dim2 as usize));
        }
        let mut sum = 0.0;
        for (place, &exponent) in cone.exponents().iter().enumerate() {
            if !(exponent > 0.0 && exponent <= 1.0) {
                return Some(Trouble::Exponent { place, bits: exponent.to_bits() });
            }
            sum += exponent;
        }
        let tolerance = f64::from_bits((1023 - cone.rule().places() as u64) << 52);
        let off: f64 = sum - 1.0;
        (off > tolerance || off < -tolerance).then_some(Trouble::Sum { bits: sum.to_bits(), rule: cone.rule() })
    }
}

impl Rule {
    // The tolerance is 2 to minus this.
    fn places(self) -> u32 {
        match self {
            Rule::One => 40,
            Rule::Two => 50,
        }
    }
}

impl fmt::Display for Trouble {
    fn fmt(&self, f: &mut fmt::Formatter<'_>) -> fmt::Result {
        match *self {
            Trouble::Kind(kind) => write!(f, "the kind is {kind}: it is 1, 2 or 3"),
            Trouble::Rule(rule) => write!(f, "the rule is {rule}: it is 1 or 2"),
            Trouble::PowerExponent { bits } => {
                write!(f, "the exponent is {:?}: a power cone's is above 0 and below 1", f64::from_bits(bits))
            }
            Trouble::Dim1(count) => write!(f, "there are {count} exponents: a generalized cone has 1 to 32"),
            Trouble::Dim2(count) => write!(f, "the tail has {count} numbers: a generalized cone's has 1 to 32"),
            Trouble::Exponent { place, bits } => {
                write!(f, "exponent {place}, counted from 0, is {:?}: it is above 0 and at most 1", f64::from_bits(bits))
            }
            Trouble::Sum { bits, rule } => {
                let sum = f64::from_bits(bits);
                write!(f, "the exponents sum to {sum:?}: rule {} takes 1 within 2^-{}", rule.number(), rule.places())
            }
            Trouble::Cones(count) => write!(f, "the plan has {count} cones: it has 1 to {MOST_CONES}"),
            Trouble::NoCorrection => write!(f, "a generalized cone has no correction and no combined shift"),
            Trouble::Unknown => write!(f, "the library refuses a cone that this crate would take: they are of different versions"),
        }
    }
}

#[cfg(test)]
mod tests {
    use super::Trouble;
    use crate::{face, Cone};

    // splitmix64
    fn any(state: &mut u64) -> u64 {
        *state = state.wrapping_add(0x9E37_79B9_7F4A_7C15);
        let mut x = *state;
        x = (x ^ (x >> 30)).wrapping_mul(0xBF58_476D_1CE4_E5B9);
        x = (x ^ (x >> 27)).wrapping_mul(0x94D0_49BB_1331_11EB);
        x ^ (x >> 31)
    }

    fn of(numbers: &[f64], state: &mut u64) -> f64 {
        numbers[any(state) as usize % numbers.len()]
    }

    fn some_cone(state: &mut u64) -> Cone {
        let below = |state: &mut u64, n: u64| (any(state) % n) as u32;
        let mut cone = Cone {
            kind: 1 + below(state, 3),
            dim1: 1 + below(state, 32),
            dim2: 1 + below(state, 32),
            rule: 1 + below(state, 2),
            exps: [0.0; 32],
        };
        let borders = [0.5, 0.25, 0.0, -0.0, 1.0, 1.0 + f64::EPSILON, 5e-324, -1.0, f64::NAN, f64::INFINITY];
        for exponent in &mut cone.exps {
            *exponent = of(&borders, state);
        }
        if below(state, 4) != 0 {
            // a sum near 1, at a tolerance of either rule or beside it
            let last = cone.dim1 as usize - 1;
            cone.exps[..last].fill(1.0 / 64.0);
            let off =
                of(&[0.0, 2f64.powi(-52), 2f64.powi(-50), 1.25 * 2f64.powi(-50), 2f64.powi(-41), 2f64.powi(-40), 2f64.powi(-39)], state);
            cone.exps[last] = 1.0 - last as f64 / 64.0 + of(&[1.0, -1.0], state) * off;
        }
        match below(state, 16) {
            0 => cone.kind = of(&[0.0, 4.0, 4294967295.0], state) as u32,
            1 => cone.rule = of(&[0.0, 3.0, 257.0, 4294967295.0], state) as u32,
            2 => cone.dim1 = of(&[0.0, 33.0, 4294967295.0], state) as u32,
            3 => cone.dim2 = of(&[0.0, 33.0, 4294967295.0], state) as u32,
            _ => {}
        }
        cone
    }

    #[test]
    fn a_trouble_exactly_where_the_library_refuses() {
        let (mut state, mut bad) = (1, 0);
        for _ in 0..100_000 {
            let cone = some_cone(&mut state);
            let code = unsafe { face::spindle_fresh(cone) }.code;
            assert_eq!(Trouble::of(&cone).is_some(), code == 1, "{cone:?}");
            bad += code;
        }
        assert!((20_000..80_000).contains(&bad), "{bad} bad cones");
    }
}
