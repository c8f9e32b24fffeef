// What document 01 says of the four kernels ("Kernels to design first") and a run can see: special values with their bits, and the bounds against
// the C library, which errs by less than a unit in the last place.

use crate::algebra::{spindle_exp, spindle_log};
use crate::types::*;

extern "C" {
    fn near_sqrt(x: f64) -> f64;
    fn near_log(x: f64) -> f64;
    fn near_exp(x: f64) -> f64;
}

// "Any NaN that a kernel answers has the bits 7FF8000000000000."
const NAN: u64 = 0x7FF8_0000_0000_0000;
const BOUND: f64 = 1.0 / 17592186044416.0;

// What the C library's own error and the comparison's roundings may add.
const SLACK: f64 = 1.0 / 1125899906842624.0;

fn is_nan(x: f64) -> bool {
    x != x
}

fn abs(x: f64) -> f64 {
    f64::from_bits(x.to_bits() & !(1 << 63))
}

// The bits that the rules fix, or none where only a bound is given.
fn fixed(call: &Call) -> Option<u64> {
    let [x, y, _] = call.numbers;
    match call.entry {
        SQRT => Some(if is_nan(x) || x < 0.0 { NAN } else { unsafe { near_sqrt(x) }.to_bits() }),
        LOG => {
            if is_nan(x) {
                Some(NAN)
            } else if x <= 0.0 {
                Some(f64::NEG_INFINITY.to_bits())
            } else if x == f64::INFINITY {
                Some(x.to_bits())
            } else if x == 1.0 {
                Some(0)
            } else {
                None
            }
        }
        EXP => {
            if is_nan(x) {
                Some(NAN)
            } else if x > 709.0 {
                Some(f64::INFINITY.to_bits())
            } else if x < -708.0 {
                Some(0)
            } else if x == 0.0 {
                Some(1f64.to_bits())
            } else {
                None
            }
        }
        _ => {
            let r = if y == 0.0 {
                1.0
            } else if y == 1.0 {
                x
            } else if y == 2.0 {
                x * x
            } else if is_nan(x) || x < 0.0 {
                f64::NAN
            } else {
                unsafe { spindle_exp(y * spindle_log(x)) }
            };
            Some(if is_nan(r) { NAN } else { r.to_bits() })
        }
    }
}

// Whether a kernel's answer keeps the rules.
pub fn kept(call: &Call, given: f64) -> bool {
    if let Some(bits) = fixed(call) {
        return given.to_bits() == bits;
    }
    let x = call.numbers[0];
    if call.entry == LOG {
        // "the distance from L(x) is at most 2^-44·max(1, |L(x)|)"
        let near = unsafe { near_log(x) };
        let size = if abs(near) > 1.0 { abs(near) } else { 1.0 };
        abs(given - near) <= (BOUND + SLACK) * size
    } else {
        // "the result is within 2^-44 relative"
        let near = unsafe { near_exp(x) };
        abs(given - near) <= (BOUND + SLACK) * near
    }
}
