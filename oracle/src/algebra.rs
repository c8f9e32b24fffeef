// What the Rust text takes from its crate's algebra module, written by document 01, "Helpers that the text lacks".
// The square root, logarithm, exponential and power are the port's exported kernels.

#![allow(non_snake_case)]

use core::ops::{Add, AddAssign, Div, DivAssign, Index, IndexMut, Mul, MulAssign, Neg, Sub, SubAssign};

extern "C" {
    pub fn spindle_sqrt(x: f64) -> f64;
    pub fn spindle_log(x: f64) -> f64;
    pub fn spindle_exp(x: f64) -> f64;
    pub fn spindle_powf(x: f64, y: f64) -> f64;
}

pub trait FloatT:
    Copy
    + PartialOrd
    + Neg<Output = Self>
    + Add<Output = Self>
    + Sub<Output = Self>
    + Mul<Output = Self>
    + Div<Output = Self>
    + AddAssign
    + SubAssign
    + MulAssign
    + DivAssign
    + ScalarMath
    + 'static
{
    fn from_f64(x: f64) -> Self;
    fn to_f64(self) -> f64;
    fn abs(self) -> Self;
    fn sqrt(self) -> Self;
    fn exp(self) -> Self;
    fn powf(self, y: Self) -> Self;

    fn zero() -> Self {
        Self::from_f64(0.0)
    }
    fn one() -> Self {
        Self::from_f64(1.0)
    }
    // "π is the nearest double, ε is 2^-52"
    fn PI() -> Self {
        Self::from_f64(core::f64::consts::PI)
    }
    fn epsilon() -> Self {
        Self::from_f64(f64::EPSILON)
    }
    fn recip(self) -> Self {
        Self::one() / self
    }
}

impl FloatT for f64 {
    fn from_f64(x: f64) -> f64 {
        x
    }
    fn to_f64(self) -> f64 {
        self
    }
    fn abs(self) -> f64 {
        f64::from_bits(self.to_bits() & !(1 << 63))
    }
    fn sqrt(self) -> f64 {
        unsafe { spindle_sqrt(self) }
    }
    fn exp(self) -> f64 {
        unsafe { spindle_exp(self) }
    }
    fn powf(self, y: f64) -> f64 {
        unsafe { spindle_powf(self, y) }
    }
}

pub trait ScalarMath {
    fn logsafe(&self) -> Self;
}

impl ScalarMath for f64 {
    fn logsafe(&self) -> f64 {
        unsafe { spindle_log(*self) }
    }
}

pub trait AsFloatT<T> {
    fn as_T(&self) -> T;
}

impl<T: FloatT> AsFloatT<T> for f64 {
    fn as_T(&self) -> T {
        T::from_f64(*self)
    }
}

impl<T: FloatT> AsFloatT<T> for usize {
    fn as_T(&self) -> T {
        T::from_f64(*self as f64)
    }
}

pub trait VectorMath<T: FloatT> {
    fn copy_from(&mut self, from: &Self) -> &mut Self;
    fn set(&mut self, c: T) -> &mut Self;
    fn scale(&mut self, c: T) -> &mut Self;
    fn recip(&mut self) -> &mut Self;
    fn negate(&mut self) -> &mut Self;
    fn scalarop_from(&mut self, op: impl Fn(T) -> T, from: &Self) -> &mut Self;
    fn axpby(&mut self, a: T, x: &Self, b: T) -> &mut Self;
    fn waxpby(&mut self, a: T, x: &Self, b: T, y: &Self) -> &mut Self;
    fn dot(&self, y: &Self) -> T;
    fn sum(&self) -> T;
    fn sumsq(&self) -> T;
    fn norm(&self) -> T;
    fn normalize(&mut self) -> T;
    fn mean(&self) -> T;
}

impl<T: FloatT> VectorMath<T> for [T] {
    fn copy_from(&mut self, from: &[T]) -> &mut [T] {
        self.copy_from_slice(from);
        self
    }
    fn set(&mut self, c: T) -> &mut [T] {
        for x in self.iter_mut() {
            *x = c;
        }
        self
    }
    fn scale(&mut self, c: T) -> &mut [T] {
        for x in self.iter_mut() {
            *x *= c;
        }
        self
    }
    fn recip(&mut self) -> &mut [T] {
        for x in self.iter_mut() {
            *x = T::recip(*x);
        }
        self
    }
    fn negate(&mut self) -> &mut [T] {
        for x in self.iter_mut() {
            *x = -*x;
        }
        self
    }
    fn scalarop_from(&mut self, op: impl Fn(T) -> T, from: &[T]) -> &mut [T] {
        for (x, &y) in self.iter_mut().zip(from) {
            *x = op(y);
        }
        self
    }
    // "axpby is a·x + b·y with each product and the sum rounded"
    fn axpby(&mut self, a: T, x: &[T], b: T) -> &mut [T] {
        for (y, &x) in self.iter_mut().zip(x) {
            *y = a * x + b * *y;
        }
        self
    }
    fn waxpby(&mut self, a: T, x: &[T], b: T, y: &[T]) -> &mut [T] {
        for ((w, &x), &y) in self.iter_mut().zip(x).zip(y) {
            *w = a * x + b * y;
        }
        self
    }
    // "Dot, sum and sumsq run left to right from +0"
    fn dot(&self, y: &[T]) -> T {
        self.iter().zip(y).fold(T::zero(), |sum, (&x, &y)| sum + x * y)
    }
    fn sum(&self) -> T {
        self.iter().fold(T::zero(), |sum, &x| sum + x)
    }
    fn sumsq(&self) -> T {
        self.dot(self)
    }
    // "Norm is the root of sumsq; normalize multiplies by 1/norm and does nothing at norm 0"
    fn norm(&self) -> T {
        self.sumsq().sqrt()
    }
    fn normalize(&mut self) -> T {
        let norm = self.norm();
        if norm == T::zero() {
            return norm;
        }
        self.scale(T::recip(norm));
        norm
    }
    // "mean is sum/n"
    fn mean(&self) -> T {
        self.sum() / self.len().as_T()
    }
}

// "Packed order is (0,0),(0,1),(1,1),(0,2),(1,2),(2,2)"
pub struct DenseMatrixSym3<T> {
    pub data: [T; 6],
}

impl<T> Index<(usize, usize)> for DenseMatrixSym3<T> {
    type Output = T;
    fn index(&self, at: (usize, usize)) -> &T {
        &self.data[packed(at)]
    }
}

impl<T> IndexMut<(usize, usize)> for DenseMatrixSym3<T> {
    fn index_mut(&mut self, at: (usize, usize)) -> &mut T {
        &mut self.data[packed(at)]
    }
}

fn packed((i, j): (usize, usize)) -> usize {
    let (row, column) = if i < j { (i, j) } else { (j, i) };
    row + column * (column + 1) / 2
}

impl<T: FloatT> DenseMatrixSym3<T> {
    pub fn zeros() -> Self {
        Self { data: [T::zero(); 6] }
    }

    pub fn copy_from(&mut self, from: &Self) {
        self.data = from.data;
    }

    pub fn scaled_from(&mut self, c: T, from: &Self) {
        for i in 0..6 {
            self.data[i] = c * from.data[i];
        }
    }

    // "Block product rows run left to right from the first product"
    pub fn mul(&self, y: &mut [T], x: &[T]) {
        for i in 0..3 {
            y[i] = self[(i, 0)] * x[0] + self[(i, 1)] * x[1] + self[(i, 2)] * x[2];
        }
    }

    // "quad form is y·(Hx)"
    pub fn quad_form(&self, y: &[T], x: &[T]) -> T {
        let mut hx = [T::zero(); 3];
        self.mul(&mut hx, x);
        y.dot(&hx)
    }

    // "Frobenius: (d0²+d2²+d5²) + 2·(d1²+d3²+d4²), rooted"
    pub fn norm_fro(&self) -> T {
        let d = &self.data;
        let two: T = (2.0).as_T();
        ((d[0] * d[0] + d[2] * d[2] + d[5] * d[5]) + two * (d[1] * d[1] + d[3] * d[3] + d[4] * d[4])).sqrt()
    }

    // "Cholesky: pivots h00, h11-l10², h22-l20²-l21²; a pivot not above 0 fails and makes the correction zero;
    // l21 = (h12-l10·l20)/l11; l10 = h01/l00, l20 = h02/l00, and the diagonal holds the pivots' roots"
    pub fn cholesky_3x3_explicit_factor(&mut self, h: &Self) -> Result<(), ()> {
        let l00 = root_of_pivot(h[(0, 0)])?;
        let l10 = h[(0, 1)] / l00;
        let l11 = root_of_pivot(h[(1, 1)] - l10 * l10)?;
        let l20 = h[(0, 2)] / l00;
        let l21 = (h[(1, 2)] - l10 * l20) / l11;
        let l22 = root_of_pivot(h[(2, 2)] - l20 * l20 - l21 * l21)?;
        self.data = [l00, l10, l11, l20, l21, l22];
        Ok(())
    }

    // "forward then backward substitution, subtracting known products in rising index order, with division by the diagonal"
    pub fn cholesky_3x3_explicit_solve(&self, x: &mut [T], b: &[T]) {
        let [l00, l10, l11, l20, l21, l22] = self.data;
        let y0 = b[0] / l00;
        let y1 = (b[1] - l10 * y0) / l11;
        let y2 = (b[2] - l20 * y0 - l21 * y1) / l22;
        x[2] = y2 / l22;
        x[1] = (y1 - l21 * x[2]) / l11;
        x[0] = (y0 - l10 * x[1] - l20 * x[2]) / l00;
    }
}

fn root_of_pivot<T: FloatT>(pivot: T) -> Result<T, ()> {
    if pivot > T::zero() {
        Ok(pivot.sqrt())
    } else {
        Err(())
    }
}
