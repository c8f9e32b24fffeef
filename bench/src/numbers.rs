// Two more kinds of numbers beside the oracle's f64, which is on the port's kernels: `Own` is on the platform's kernels, `Counted` is on the port's
// and notes every call of them.

use crate::algebra::{spindle_exp, spindle_log, spindle_powf, spindle_sqrt, FloatT, ScalarMath};
use core::cmp::Ordering;
use core::ops::{Add, AddAssign, Div, DivAssign, Mul, MulAssign, Neg, Sub, SubAssign};

// When this is built (see run), `own_log` becomes `llvm.log.f64` and so on: what Rust's own f64 methods compile to.
extern "C" {
    fn own_sqrt(x: f64) -> f64;
    fn own_log(x: f64) -> f64;
    fn own_exp(x: f64) -> f64;
    fn own_pow(x: f64, y: f64) -> f64;
}

#[derive(Clone, Copy)]
#[repr(transparent)]
pub struct Own(f64);

#[derive(Clone, Copy)]
#[repr(transparent)]
pub struct Counted(f64);

macro_rules! arithmetic {
    ($kind:ident) => {
        impl Add for $kind {
            type Output = Self;
            fn add(self, y: Self) -> Self {
                Self(self.0 + y.0)
            }
        }
        impl Sub for $kind {
            type Output = Self;
            fn sub(self, y: Self) -> Self {
                Self(self.0 - y.0)
            }
        }
        impl Mul for $kind {
            type Output = Self;
            fn mul(self, y: Self) -> Self {
                Self(self.0 * y.0)
            }
        }
        impl Div for $kind {
            type Output = Self;
            fn div(self, y: Self) -> Self {
                Self(self.0 / y.0)
            }
        }
        impl Neg for $kind {
            type Output = Self;
            fn neg(self) -> Self {
                Self(-self.0)
            }
        }
        impl AddAssign for $kind {
            fn add_assign(&mut self, y: Self) {
                self.0 += y.0
            }
        }
        impl SubAssign for $kind {
            fn sub_assign(&mut self, y: Self) {
                self.0 -= y.0
            }
        }
        impl MulAssign for $kind {
            fn mul_assign(&mut self, y: Self) {
                self.0 *= y.0
            }
        }
        impl DivAssign for $kind {
            fn div_assign(&mut self, y: Self) {
                self.0 /= y.0
            }
        }
        impl PartialEq for $kind {
            fn eq(&self, y: &Self) -> bool {
                self.0 == y.0
            }
        }
        impl PartialOrd for $kind {
            fn partial_cmp(&self, y: &Self) -> Option<Ordering> {
                self.0.partial_cmp(&y.0)
            }
            // the four of f64 itself: one comparison each
            fn lt(&self, y: &Self) -> bool {
                self.0 < y.0
            }
            fn le(&self, y: &Self) -> bool {
                self.0 <= y.0
            }
            fn gt(&self, y: &Self) -> bool {
                self.0 > y.0
            }
            fn ge(&self, y: &Self) -> bool {
                self.0 >= y.0
            }
        }
    };
}

arithmetic!(Own);
arithmetic!(Counted);

impl FloatT for Own {
    fn from_f64(x: f64) -> Own {
        Own(x)
    }
    fn to_f64(self) -> f64 {
        self.0
    }
    fn abs(self) -> Own {
        Own(FloatT::abs(self.0))
    }
    fn sqrt(self) -> Own {
        Own(unsafe { own_sqrt(self.0) })
    }
    fn exp(self) -> Own {
        Own(unsafe { own_exp(self.0) })
    }
    fn powf(self, y: Own) -> Own {
        Own(unsafe { own_pow(self.0, y.0) })
    }
}

impl ScalarMath for Own {
    // "zero or below gives minus infinity"
    fn logsafe(&self) -> Own {
        Own(if self.0 <= 0.0 { f64::NEG_INFINITY } else { unsafe { own_log(self.0) } })
    }
}

// How often each kernel was called (sqrt, log, exp, powf), and some of the arguments.
pub const KEPT: usize = 1 << 14;
pub static mut CALLS: [u64; 4] = [0; 4];
pub static mut ARGUMENTS: [[[f64; 2]; KEPT]; 4] = [[[0.0; 2]; KEPT]; 4];

fn note(kernel: usize, x: f64, y: f64) {
    unsafe {
        // the first ones, then one in 37, so that what is kept comes from the whole plan
        let place = CALLS[kernel] as usize;
        if place < KEPT {
            ARGUMENTS[kernel][place] = [x, y];
        } else if place % 37 == 0 {
            ARGUMENTS[kernel][place / 37 % KEPT] = [x, y];
        }
        CALLS[kernel] += 1;
    }
}

impl FloatT for Counted {
    fn from_f64(x: f64) -> Counted {
        Counted(x)
    }
    fn to_f64(self) -> f64 {
        self.0
    }
    fn abs(self) -> Counted {
        Counted(FloatT::abs(self.0))
    }
    // the port holds √ε as a constant, where the text takes the root each time
    fn sqrt(self) -> Counted {
        if self.0 != f64::EPSILON {
            note(0, self.0, 0.0);
        }
        Counted(unsafe { spindle_sqrt(self.0) })
    }
    fn exp(self) -> Counted {
        note(2, self.0, 0.0);
        Counted(unsafe { spindle_exp(self.0) })
    }
    fn powf(self, y: Counted) -> Counted {
        note(3, self.0, y.0);
        Counted(unsafe { spindle_powf(self.0, y.0) })
    }
}

impl ScalarMath for Counted {
    fn logsafe(&self) -> Counted {
        note(1, self.0, 0.0);
        Counted(unsafe { spindle_log(self.0) })
    }
}

#[no_mangle]
pub extern "C" fn rust_calls(kernel: u32) -> u64 {
    unsafe { CALLS[kernel as usize] }
}

#[no_mangle]
pub extern "C" fn rust_arguments(kernel: u32) -> *const f64 {
    unsafe { ARGUMENTS[kernel as usize].as_ptr() as *const f64 }
}
