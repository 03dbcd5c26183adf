//! Document 01's vectors, in place of the ones that the reference takes from
//! outside: dot is (a0b0 + a1b1) + a2b2, norm its square root, and normalising
//! divides each component by the norm.

use std::ops::{Add, Div, Index, Mul, Neg};

#[derive(Clone, Copy, Debug)]
pub struct Vector3<F>([F; 3]);

/// Rows of a 3×3 matrix.
#[derive(Clone, Copy, Debug)]
pub struct Matrix3<F>([[F; 3]; 3]);

/// A float of either width.
pub trait Float:
    Copy + Add<Output = Self> + Mul<Output = Self> + Div<Output = Self> + Neg<Output = Self>
{
    fn root(self) -> Self;
}

impl Float for f32 {
    fn root(self) -> f32 {
        self.sqrt()
    }
}

impl Float for f64 {
    fn root(self) -> f64 {
        self.sqrt()
    }
}

impl<F: Float> Vector3<F> {
    pub fn from_array(components: [F; 3]) -> Self {
        Vector3(components)
    }

    pub fn dot(&self, other: &Self) -> F {
        let (a, b) = (&self.0, &other.0);
        (a[0] * b[0] + a[1] * b[1]) + a[2] * b[2]
    }

    pub fn norm(&self) -> F {
        self.dot(self).root()
    }

    pub fn normalize(&self) -> Self {
        *self / self.norm()
    }
}

impl<F: Float> Add for Vector3<F> {
    type Output = Self;
    fn add(self, other: Self) -> Self {
        let (a, b) = (self.0, other.0);
        Vector3([a[0] + b[0], a[1] + b[1], a[2] + b[2]])
    }
}

impl<F: Float> Neg for Vector3<F> {
    type Output = Self;
    fn neg(self) -> Self {
        Vector3(self.0.map(|c| -c))
    }
}

impl<F: Float> Mul<F> for Vector3<F> {
    type Output = Self;
    fn mul(self, by: F) -> Self {
        Vector3(self.0.map(|c| c * by))
    }
}

impl<F: Float> Div<F> for Vector3<F> {
    type Output = Self;
    fn div(self, by: F) -> Self {
        Vector3(self.0.map(|c| c / by))
    }
}

impl<F> Index<usize> for Vector3<F> {
    type Output = F;
    fn index(&self, i: usize) -> &F {
        &self.0[i]
    }
}

impl<F: Float> Matrix3<F> {
    pub fn new(rows: [[F; 3]; 3]) -> Self {
        Matrix3(rows)
    }
}

impl<F> Index<(usize, usize)> for Matrix3<F> {
    type Output = F;
    fn index(&self, (row, column): (usize, usize)) -> &F {
        &self.0[row][column]
    }
}
