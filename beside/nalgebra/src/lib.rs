//! The part of nalgebra's surface that the ten files use, with RULES section 4's orders: sums by rising index from the left,
//! the determinant along the first row, `recompose` scaling U's columns first, the inverse as cofactors over the determinant.
//! Factors are those that the caller brings, principal stresses those that the harness works of the lower triangle. Elementary functions are asked of the harness.
//! No std here: with it, the inherent `f64::ln` and its like would win over `ComplexField`, silently.
//! With the feature `quiet` nothing is told to the harness of what was worked where, and with `machine` there is std besides, whose functions win: builds 4 and 3, for times.
#![cfg_attr(not(feature = "machine"), no_std)]

use core::ops::{Add, AddAssign, Div, Index, IndexMut, Mul, Neg, Sub};
use core::panic::Location;

/// What the harness answers. `Location` names the file and line of the Rust that made the call.
pub mod hooks {
    use core::panic::Location;
    /// In the order of the first nine calls; then the powers -1, 1/2 and 1 of two axes.
    #[derive(Copy, Clone, Debug, PartialEq)]
    pub enum Function {
        Exp,
        Ln,
        Sinh,
        Sin,
        Sqrt,
        Cbrt,
        InvCbrt,
        CbrtSquared,
        InvCbrtSquared,
        PowerMinusOne,
        PowerHalf,
        PowerOne,
    }

    #[derive(Copy, Clone, Debug, PartialEq, Eq, PartialOrd, Ord, Hash)]
    pub enum Op {
        Sum,
        Trace,
        Product,
        Norm,
        NormSquared,
        Normalize,
        Determinant,
        Inverse,
        MatrixProduct,
        Recompose,
        Repeat,
        Fill,
        Least,
        Greatest,
    }

    extern "Rust" {
        pub fn beside_elementary(which: Function, x: f64, at: &'static Location<'static>) -> f64;
        pub fn beside_site(op: Op, at: &'static Location<'static>, input: &[f64], output: &[f64]);
        /// U, sigma and V^T; of two axes the first ten floats.
        pub fn beside_factors() -> &'static [f64; 21];
        pub fn beside_principal(lower: [f64; 6]) -> [f64; 3];
    }
}
use hooks::{Function, Op};

fn site(op: Op, at: &'static Location<'static>, input: &[f64], output: &[f64]) {
    if cfg!(not(feature = "quiet")) {
        unsafe { hooks::beside_site(op, at, input, output) }
    }
}

#[derive(Copy, Clone, Debug, PartialEq)]
pub struct SMatrix<T, const R: usize, const C: usize>(pub [[T; C]; R]);

pub type Matrix2<T> = SMatrix<T, 2, 2>;
pub type Matrix3<T> = SMatrix<T, 3, 3>;
pub type Vector1<T> = SMatrix<T, 1, 1>;
pub type Vector2<T> = SMatrix<T, 2, 1>;
pub type Vector3<T> = SMatrix<T, 3, 1>;
pub type Vector6<T> = SMatrix<T, 6, 1>;

/// Names that lib.rs lists and nothing uses.
#[allow(dead_code)]
mod names {
    pub struct Unused<T>(T);
    pub type Isometry2<T> = Unused<T>;
    pub type Isometry3<T> = Unused<T>;
    pub type Point2<T> = Unused<T>;
    pub type Point3<T> = Unused<T>;
    pub type Translation2<T> = Unused<T>;
    pub type Translation3<T> = Unused<T>;
    pub type UnitComplex<T> = Unused<T>;
    pub type UnitQuaternion<T> = Unused<T>;
    pub type UnitVector2<T> = Unused<T>;
    pub type UnitVector3<T> = Unused<T>;
    pub struct U2;
    pub struct U3;
    pub struct U6;
}
pub use names::*;

#[macro_export]
macro_rules! vector {
    ($($x:expr),* $(,)?) => { $crate::SMatrix([$([$x]),*]) };
}

const MOST: usize = 9;

impl<const R: usize, const C: usize> SMatrix<f64, R, C> {
    fn each(self, f: impl Fn(usize, usize) -> f64) -> Self {
        let mut m = self;
        for i in 0..R {
            for j in 0..C {
                m.0[i][j] = f(i, j);
            }
        }
        m
    }

    /// The entries in nalgebra's own order, column by column.
    fn flat(&self) -> [f64; MOST] {
        let mut a = [0.0; MOST];
        for j in 0..C {
            for i in 0..R {
                a[j * R + i] = self.0[i][j];
            }
        }
        a
    }

    pub fn zeros() -> Self {
        SMatrix([[0.0; C]; R])
    }

    #[track_caller]
    pub fn repeat(x: f64) -> Self {
        site(Op::Repeat, Location::caller(), &[x], &[x]);
        SMatrix([[x; C]; R])
    }

    #[track_caller]
    pub fn fill(&mut self, x: f64) {
        site(Op::Fill, Location::caller(), &[x], &[x]);
        self.0 = [[x; C]; R];
    }

    pub fn identity() -> Self {
        Self::zeros().each(|i, j| if i == j { 1.0 } else { 0.0 })
    }

    pub fn map(self, f: impl Fn(f64) -> f64) -> Self {
        self.each(|i, j| f(self.0[i][j]))
    }

    pub fn apply(&mut self, f: impl Fn(&mut f64)) {
        for j in 0..C {
            for i in 0..R {
                f(&mut self.0[i][j]);
            }
        }
    }

    pub fn zip_map(&self, other: &Self, f: impl Fn(f64, f64) -> f64) -> Self {
        self.each(|i, j| f(self.0[i][j], other.0[i][j]))
    }

    pub fn component_mul(&self, other: &Self) -> Self {
        self.each(|i, j| self.0[i][j] * other.0[i][j])
    }

    pub fn iter(&self) -> impl Iterator<Item = &f64> {
        self.0.iter().flatten()
    }

    fn from_left(a: &[f64], f: impl Fn(f64, f64) -> f64) -> f64 {
        let mut t = a[0];
        for x in &a[1..] {
            t = f(t, *x);
        }
        t
    }

    #[track_caller]
    pub fn sum(&self) -> f64 {
        let a = self.flat();
        let r = Self::from_left(&a[..R * C], |x, y| x + y);
        site(Op::Sum, Location::caller(), &a[..R * C], &[r]);
        r
    }

    #[track_caller]
    pub fn product(&self) -> f64 {
        let a = self.flat();
        let r = Self::from_left(&a[..R * C], |x, y| x * y);
        site(Op::Product, Location::caller(), &a[..R * C], &[r]);
        r
    }

    /// nalgebra's: the first stays where it is at most (at least) the next, else the next is taken.
    #[track_caller]
    pub fn min(&self) -> f64 {
        let a = self.flat();
        let r = Self::from_left(&a[..R * C], |x, y| if x <= y { x } else { y });
        site(Op::Least, Location::caller(), &a[..R * C], &[r]);
        r
    }

    #[track_caller]
    pub fn max(&self) -> f64 {
        let a = self.flat();
        let r = Self::from_left(&a[..R * C], |x, y| if x >= y { x } else { y });
        site(Op::Greatest, Location::caller(), &a[..R * C], &[r]);
        r
    }

    fn squares(&self) -> f64 {
        let a = self.flat();
        let mut t = a[0] * a[0];
        for x in &a[1..R * C] {
            t = t + *x * *x;
        }
        t
    }

    #[track_caller]
    pub fn norm_squared(&self) -> f64 {
        let r = self.squares();
        site(Op::NormSquared, Location::caller(), &self.flat()[..R * C], &[r]);
        r
    }

    #[track_caller]
    pub fn norm(&self) -> f64 {
        let r = self.squares().sqrt();
        site(Op::Norm, Location::caller(), &self.flat()[..R * C], &[r]);
        r
    }

    #[track_caller]
    pub fn normalize(&self) -> Self {
        let n = self.squares().sqrt();
        let r = self.each(|i, j| self.0[i][j] / n);
        site(Op::Normalize, Location::caller(), &self.flat()[..R * C], &r.flat()[..R * C]);
        r
    }
}

impl<T: Copy> SMatrix<T, 2, 2> {
    pub fn new(a: T, b: T, c: T, d: T) -> Self {
        SMatrix([[a, b], [c, d]])
    }
}

impl<T: Copy> SMatrix<T, 2, 1> {
    pub fn new(a: T, b: T) -> Self {
        SMatrix([[a], [b]])
    }
}

impl<T: Copy> SMatrix<T, 3, 3> {
    #[allow(clippy::too_many_arguments)]
    pub fn new(a: T, b: T, c: T, d: T, e: T, f: T, g: T, h: T, i: T) -> Self {
        SMatrix([[a, b, c], [d, e, f], [g, h, i]])
    }
}

impl<T: Copy> SMatrix<T, 3, 1> {
    pub fn new(a: T, b: T, c: T) -> Self {
        SMatrix([[a], [b], [c]])
    }
}

impl<const N: usize> SMatrix<f64, N, N> {
    pub fn transpose(&self) -> Self {
        self.each(|i, j| self.0[j][i])
    }

    #[track_caller]
    pub fn trace(&self) -> f64 {
        let mut d = [0.0; N];
        for i in 0..N {
            d[i] = self.0[i][i];
        }
        let r = Self::from_left(&d, |x, y| x + y);
        site(Op::Trace, Location::caller(), &d, &[r]);
        r
    }

    pub fn svd_unordered(&self, _: bool, _: bool) -> Factors<N> {
        let f = unsafe { hooks::beside_factors() };
        let square = |k: usize| Self::zeros().each(|i, j| f[k + i * N + j]);
        let mut singular_values = SMatrix::zeros();
        for i in 0..N {
            singular_values[i] = f[N * N + i];
        }
        Factors { u: square(0), singular_values, v_t: square(N * N + N) }
    }
}

impl Matrix3<f64> {
    fn minor(m: &[[f64; 3]; 3], r: [usize; 2], c: [usize; 2]) -> f64 {
        m[r[0]][c[0]] * m[r[1]][c[1]] - m[r[1]][c[0]] * m[r[0]][c[1]]
    }

    fn det(m: &[[f64; 3]; 3]) -> f64 {
        m[0][0] * Self::minor(m, [1, 2], [1, 2]) - m[0][1] * Self::minor(m, [1, 2], [0, 2])
            + m[0][2] * Self::minor(m, [1, 2], [0, 1])
    }

    #[track_caller]
    pub fn determinant(&self) -> f64 {
        let r = Self::det(&self.0);
        site(Op::Determinant, Location::caller(), &self.flat(), &[r]);
        r
    }

    /// The inverse of the transpose of F, as `fpk_stress` asks for it: F's cofactors over F's determinant.
    #[track_caller]
    pub fn try_inverse(&self) -> Option<Self> {
        let f = self.transpose().0;
        let det = Self::det(&f);
        if det == 0.0 {
            return None;
        }
        let c = |i: usize, j: usize| {
            let (a, b) = ((i + 1) % 3, (i + 2) % 3);
            let (x, y) = ((j + 1) % 3, (j + 2) % 3);
            f[a][x] * f[b][y] - f[a][y] * f[b][x]
        };
        let r = self.each(|i, j| c(i, j) / det);
        site(Op::Inverse, Location::caller(), &self.flat(), &r.flat());
        Some(r)
    }

    pub fn try_symmetric_eigen(&self, _: f64, _: usize) -> Option<Principal> {
        let m = &self.0;
        let e = unsafe { hooks::beside_principal([m[0][0], m[1][1], m[2][2], m[1][0], m[2][0], m[2][1]]) };
        Some(Principal { eigenvalues: Vector3::new(e[0], e[1], e[2]) })
    }
}

#[derive(Copy, Clone, Debug)]
pub struct Factors<const N: usize> {
    pub u: SMatrix<f64, N, N>,
    pub singular_values: SMatrix<f64, N, 1>,
    pub v_t: SMatrix<f64, N, N>,
}

impl<const N: usize> Factors<N> {
    #[track_caller]
    pub fn recompose(self) -> Result<SMatrix<f64, N, N>, &'static str> {
        let s = self.singular_values;
        let scaled = self.u.each(|i, j| self.u.0[i][j] * s[j]);
        let r = multiply(&scaled, &self.v_t);
        let (n, all) = (N * N, 2 * N * N + N);
        let mut input = [0.0; 21];
        input[..n].copy_from_slice(&self.u.flat()[..n]);
        input[n..n + N].copy_from_slice(&s.flat()[..N]);
        input[n + N..all].copy_from_slice(&self.v_t.flat()[..n]);
        site(Op::Recompose, Location::caller(), &input[..all], &r.flat()[..n]);
        Ok(r)
    }
}

pub struct Principal {
    pub eigenvalues: Vector3<f64>,
}

fn multiply<const N: usize, const C: usize>(a: &SMatrix<f64, N, N>, b: &SMatrix<f64, N, C>) -> SMatrix<f64, N, C> {
    b.each(|i, j| {
        let mut t = a.0[i][0] * b.0[0][j];
        for k in 1..N {
            t = t + a.0[i][k] * b.0[k][j];
        }
        t
    })
}

impl<const N: usize, const C: usize> Mul<SMatrix<f64, N, C>> for SMatrix<f64, N, N> {
    type Output = SMatrix<f64, N, C>;
    #[track_caller]
    fn mul(self, b: SMatrix<f64, N, C>) -> SMatrix<f64, N, C> {
        let r = multiply(&self, &b);
        let (n, m) = (N * N, N * C);
        let mut input = [0.0; 18];
        input[..n].copy_from_slice(&self.flat()[..n]);
        input[n..n + m].copy_from_slice(&b.flat()[..m]);
        site(Op::MatrixProduct, Location::caller(), &input[..n + m], &r.flat()[..m]);
        r
    }
}

impl<const N: usize> Mul<SMatrix<f64, N, N>> for &SMatrix<f64, N, N> {
    type Output = SMatrix<f64, N, N>;
    #[track_caller]
    fn mul(self, b: SMatrix<f64, N, N>) -> SMatrix<f64, N, N> {
        *self * b
    }
}

impl<const R: usize, const C: usize> Mul<f64> for SMatrix<f64, R, C> {
    type Output = Self;
    fn mul(self, s: f64) -> Self {
        self.map(|x| x * s)
    }
}

impl<const R: usize, const C: usize> Mul<SMatrix<f64, R, C>> for f64 {
    type Output = SMatrix<f64, R, C>;
    fn mul(self, m: SMatrix<f64, R, C>) -> SMatrix<f64, R, C> {
        m.map(|x| self * x)
    }
}

impl<const R: usize, const C: usize> Mul<&SMatrix<f64, R, C>> for f64 {
    type Output = SMatrix<f64, R, C>;
    fn mul(self, m: &SMatrix<f64, R, C>) -> SMatrix<f64, R, C> {
        self * *m
    }
}

impl<const R: usize, const C: usize> Div<f64> for SMatrix<f64, R, C> {
    type Output = Self;
    fn div(self, s: f64) -> Self {
        self.map(|x| x / s)
    }
}

impl<const R: usize, const C: usize> Neg for SMatrix<f64, R, C> {
    type Output = Self;
    fn neg(self) -> Self {
        self.map(|x| -x)
    }
}

impl<const R: usize, const C: usize> Add for SMatrix<f64, R, C> {
    type Output = Self;
    fn add(self, b: Self) -> Self {
        self.each(|i, j| self.0[i][j] + b.0[i][j])
    }
}

impl<const R: usize, const C: usize> Add<SMatrix<f64, R, C>> for &SMatrix<f64, R, C> {
    type Output = SMatrix<f64, R, C>;
    fn add(self, b: SMatrix<f64, R, C>) -> SMatrix<f64, R, C> {
        *self + b
    }
}

impl<const R: usize, const C: usize> AddAssign for SMatrix<f64, R, C> {
    fn add_assign(&mut self, b: Self) {
        *self = *self + b;
    }
}

impl<const R: usize, const C: usize> Sub for SMatrix<f64, R, C> {
    type Output = Self;
    fn sub(self, b: Self) -> Self {
        self.each(|i, j| self.0[i][j] - b.0[i][j])
    }
}

impl<const R: usize, const C: usize> Sub<SMatrix<f64, R, C>> for &SMatrix<f64, R, C> {
    type Output = SMatrix<f64, R, C>;
    fn sub(self, b: SMatrix<f64, R, C>) -> SMatrix<f64, R, C> {
        *self - b
    }
}

impl<T, const R: usize, const C: usize> Index<(usize, usize)> for SMatrix<T, R, C> {
    type Output = T;
    fn index(&self, (i, j): (usize, usize)) -> &T {
        &self.0[i][j]
    }
}

impl<T, const R: usize, const C: usize> IndexMut<(usize, usize)> for SMatrix<T, R, C> {
    fn index_mut(&mut self, (i, j): (usize, usize)) -> &mut T {
        &mut self.0[i][j]
    }
}

impl<T, const R: usize> Index<usize> for SMatrix<T, R, 1> {
    type Output = T;
    fn index(&self, i: usize) -> &T {
        &self.0[i][0]
    }
}

impl<T, const R: usize> IndexMut<usize> for SMatrix<T, R, 1> {
    fn index_mut(&mut self, i: usize) -> &mut T {
        &mut self.0[i][0]
    }
}

pub trait ComplexField: Copy {
    fn exp(self) -> Self;
    fn ln(self) -> Self;
    fn sinh(self) -> Self;
    fn sin(self) -> Self;
    fn sqrt(self) -> Self;
    fn powf(self, e: Self) -> Self;
    fn powi(self, e: i32) -> Self;
}

macro_rules! asked {
    ($name:ident, $which:ident) => {
        #[track_caller]
        fn $name(self) -> f64 {
            unsafe { hooks::beside_elementary(Function::$which, self, Location::caller()) }
        }
    };
}

impl ComplexField for f64 {
    asked!(exp, Exp);
    asked!(ln, Ln);
    asked!(sinh, Sinh);
    asked!(sin, Sin);
    asked!(sqrt, Sqrt);

    /// The four powers of the text in three axes, ours meaning the exact third, and the three in two.
    #[track_caller]
    fn powf(self, e: f64) -> f64 {
        let which = if e == 1.0 / 3.0 {
            Function::Cbrt
        } else if e == -1.0 / 3.0 {
            Function::InvCbrt
        } else if e == 2.0 / 3.0 {
            Function::CbrtSquared
        } else if e == -2.0 / 3.0 {
            Function::InvCbrtSquared
        } else if e == -1.0 {
            Function::PowerMinusOne
        } else if e == 0.5 {
            Function::PowerHalf
        } else if e == 1.0 {
            Function::PowerOne
        } else {
            panic!("a power that the text does not have")
        };
        unsafe { hooks::beside_elementary(which, self, Location::caller()) }
    }

    /// RULES section 3's halving.
    fn powi(self, e: i32) -> f64 {
        let mut n = e.unsigned_abs();
        let (mut r, mut base) = (1.0, self);
        while n > 0 {
            if n & 1 == 1 {
                r *= base;
            }
            n >>= 1;
            base *= base;
        }
        if e < 0 {
            1.0 / r
        } else {
            r
        }
    }
}
