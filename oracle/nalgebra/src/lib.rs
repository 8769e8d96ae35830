//! A stand-in for the matrix library, as document 01 lays it down under 'Arithmetic beneath': every operation is rounded
//! once, product sums start from +0.0 and add their terms at rising index, and the finished sum meets the target.
//! A pivot must also exceed 2^-40 of its diagonal entry (C-13), which the library that this stands for doesn't ask.
//! Only what the original calls is here. Matrices are stored column by column. Shapes that don't fit panic.
pub mod tolerance;

use std::marker::PhantomData;
use std::ops::{Add, AddAssign, Div, Mul, Neg, Sub};

pub trait RealField:
    'static
    + Copy
    + PartialEq
    + std::fmt::Debug
    + Add<Output = Self>
    + Sub<Output = Self>
    + Mul<Output = Self>
    + Div<Output = Self>
    + Neg<Output = Self>
{
    fn zero() -> Self;
    fn one() -> Self;
    /// The root of a pivot, which is left of the diagonal entry given; none where the pivot is not finite, above zero and
    /// above the entry times the tolerance.
    fn pivot(self, given: Self) -> Option<Self>;
}

impl RealField for f64 {
    fn zero() -> Self {
        0.0
    }

    fn one() -> Self {
        1.0
    }

    fn pivot(self, given: Self) -> Option<Self> {
        let least = tolerance::least(given);
        tolerance::note(self, least);
        (self.is_finite() && self > 0.0 && self > least).then(|| self.sqrt())
    }
}

/// Any number of columns.
#[derive(Debug, Clone)]
pub struct Many;

/// One column.
#[derive(Debug, Clone)]
pub struct One;

/// Entry (i, j) stands at `i + j * across` of the data, which is owned or lent.
#[derive(Debug, Clone)]
pub struct Matrix<T, D, C> {
    rows: usize,
    columns: usize,
    across: usize,
    pub data: D,
    kind: PhantomData<(T, C)>,
}

pub type DMatrix<T> = Matrix<T, Vec<T>, Many>;
pub type DVector<T> = Matrix<T, Vec<T>, One>;
pub type DMatrixView<'a, T> = Matrix<T, &'a [T], Many>;
pub type DMatrixViewMut<'a, T> = Matrix<T, &'a mut [T], Many>;

/// Where the part that begins at (row, column) begins in the data. An empty part may lie past the last entry.
fn start(row: usize, column: usize, across: usize, rows: usize, columns: usize) -> usize {
    if rows == 0 || columns == 0 { 0 } else { row + column * across }
}

impl<T, D, C> Matrix<T, D, C> {
    fn of(rows: usize, columns: usize, across: usize, data: D) -> Self {
        Matrix { rows, columns, across, data, kind: PhantomData }
    }

    pub fn nrows(&self) -> usize {
        self.rows
    }

    pub fn ncols(&self) -> usize {
        self.columns
    }

    fn shape(&self) -> (usize, usize) {
        (self.rows, self.columns)
    }
}

impl<T: RealField, D: AsRef<[T]>, C> Matrix<T, D, C> {
    fn at(&self, i: usize, j: usize) -> T {
        assert!(i < self.rows && j < self.columns);
        self.data.as_ref()[i + j * self.across]
    }
}

impl<T: RealField, D: AsRef<[T]> + AsMut<[T]>, C> Matrix<T, D, C> {
    fn set(&mut self, i: usize, j: usize, x: T) {
        assert!(i < self.rows && j < self.columns);
        self.data.as_mut()[i + j * self.across] = x;
    }

    pub fn copy_from(&mut self, from: &Matrix<T, impl AsRef<[T]>, impl Sized>) {
        assert_eq!(self.shape(), from.shape());
        for j in 0..self.columns {
            for i in 0..self.rows {
                self.set(i, j, from.at(i, j));
            }
        }
    }

    pub fn fill_diagonal(&mut self, x: T) {
        for i in 0..self.rows.min(self.columns) {
            self.set(i, i, x);
        }
    }

    /// A times B.
    pub fn gemm(
        &mut self,
        alpha: T,
        a: &Matrix<T, impl AsRef<[T]>, impl Sized>,
        b: &Matrix<T, impl AsRef<[T]>, impl Sized>,
        beta: T,
    ) {
        assert_eq!((self.shape(), a.columns), ((a.rows, b.columns), b.rows));
        self.meet(alpha, beta, a.columns, |i, k| a.at(i, k), |k, j| b.at(k, j));
    }

    /// A transposed times B.
    pub fn gemm_tr(
        &mut self,
        alpha: T,
        a: &Matrix<T, impl AsRef<[T]>, impl Sized>,
        b: &Matrix<T, impl AsRef<[T]>, impl Sized>,
        beta: T,
    ) {
        assert_eq!((self.shape(), a.rows), ((a.columns, b.columns), b.rows));
        self.meet(alpha, beta, a.rows, |i, k| a.at(k, i), |k, j| b.at(k, j));
    }

    /// A transposed times a vector.
    pub fn gemv_tr(
        &mut self,
        alpha: T,
        a: &Matrix<T, impl AsRef<[T]>, impl Sized>,
        b: &Matrix<T, impl AsRef<[T]>, impl Sized>,
        beta: T,
    ) {
        assert_eq!(b.columns, 1);
        self.gemm_tr(alpha, a, b, beta);
    }

    /// A' W A: W times A first, then A transposed times that.
    pub fn quadform(
        &mut self,
        alpha: T,
        w: &Matrix<T, impl AsRef<[T]>, impl Sized>,
        a: &Matrix<T, impl AsRef<[T]>, impl Sized>,
        beta: T,
    ) {
        let mut wa = DMatrix::zeros(w.rows, a.columns);
        wa.gemm(T::one(), w, a, T::zero());
        self.gemm_tr(alpha, a, &wa, beta);
    }

    /// Each entry meets its finished product sum: stored, added or subtracted, and nothing else.
    fn meet(&mut self, alpha: T, beta: T, terms: usize, a: impl Fn(usize, usize) -> T, b: impl Fn(usize, usize) -> T) {
        let (stored, added, taken) = ((T::one(), T::zero()), (T::one(), T::one()), (-T::one(), T::one()));
        for j in 0..self.columns {
            for i in 0..self.rows {
                let sum = (0..terms).fold(T::zero(), |sum, k| sum + a(i, k) * b(k, j));
                let met = match (alpha, beta) {
                    way if way == stored => sum,
                    way if way == added => self.at(i, j) + sum,
                    way if way == taken => self.at(i, j) - sum,
                    way => panic!("document 01 has no product with {way:?}"),
                };
                self.set(i, j, met);
            }
        }
    }
}

impl<T: RealField, D: AsRef<[T]> + AsMut<[T]>, C, E: AsRef<[T]>, F> AddAssign<&Matrix<T, E, F>> for Matrix<T, D, C> {
    fn add_assign(&mut self, from: &Matrix<T, E, F>) {
        assert_eq!(self.shape(), from.shape());
        for j in 0..self.columns {
            for i in 0..self.rows {
                self.set(i, j, self.at(i, j) + from.at(i, j));
            }
        }
    }
}

impl<T: RealField> DMatrix<T> {
    pub fn zeros(rows: usize, columns: usize) -> Self {
        Matrix::of(rows, columns, rows, vec![T::zero(); rows * columns])
    }

    pub fn identity(rows: usize, columns: usize) -> Self {
        let mut unit = Self::zeros(rows, columns);
        unit.fill_diagonal(T::one());
        unit
    }

    pub fn from_column_slice(rows: usize, columns: usize, data: &[T]) -> Self {
        assert_eq!(data.len(), rows * columns);
        Matrix::of(rows, columns, rows, data.to_vec())
    }

    pub fn columns(&self, first: usize, count: usize) -> DMatrixView<'_, T> {
        self.view((0, first), (self.rows, count))
    }

    pub fn view(&self, (row, column): (usize, usize), (rows, columns): (usize, usize)) -> DMatrixView<'_, T> {
        assert!(row + rows <= self.rows && column + columns <= self.columns);
        let from = start(row, column, self.across, rows, columns);
        Matrix::of(rows, columns, self.across, &self.data[from..])
    }

    pub fn view_mut(
        &mut self,
        (row, column): (usize, usize),
        (rows, columns): (usize, usize),
    ) -> DMatrixViewMut<'_, T> {
        assert!(row + rows <= self.rows && column + columns <= self.columns);
        let from = start(row, column, self.across, rows, columns);
        Matrix::of(rows, columns, self.across, &mut self.data[from..])
    }

    pub fn fill_upper_triangle_with_lower_triangle(&mut self) {
        assert_eq!(self.rows, self.columns);
        for j in 0..self.columns {
            for i in 0..j {
                self.set(i, j, self.at(j, i));
            }
        }
    }

    /// The diagonal holds roots of pivots, so no division is by zero and the answer is always true.
    pub fn solve_lower_triangular_mut<D: AsRef<[T]> + AsMut<[T]>, C>(&self, x: &mut Matrix<T, D, C>) -> bool {
        assert_eq!(self.shape(), (x.rows, x.rows));
        for c in 0..x.columns {
            for i in 0..x.rows {
                let left = (0..i).fold(x.at(i, c), |left, k| left - self.at(i, k) * x.at(k, c));
                x.set(i, c, left / self.at(i, i));
            }
        }
        true
    }

    fn tr_solve_lower_triangular_mut<D: AsRef<[T]> + AsMut<[T]>, C>(&self, x: &mut Matrix<T, D, C>) {
        assert_eq!(self.shape(), (x.rows, x.rows));
        for c in 0..x.columns {
            for i in (0..x.rows).rev() {
                let below = i + 1..x.rows;
                let left = below.fold(x.at(i, c), |left, k| left - self.at(k, i) * x.at(k, c));
                x.set(i, c, left / self.at(i, i));
            }
        }
    }
}

impl<T: RealField> DVector<T> {
    pub fn zeros(rows: usize) -> Self {
        Matrix::of(rows, 1, rows, vec![T::zero(); rows])
    }

    pub fn from_column_slice(data: &[T]) -> Self {
        Matrix::of(data.len(), 1, data.len(), data.to_vec())
    }

    pub fn rows_mut(&mut self, row: usize, rows: usize) -> DMatrixViewMut<'_, T> {
        Matrix::of(rows, 1, rows, &mut self.data[row..row + rows])
    }
}

pub mod linalg {
    use super::{DMatrix, DVector, Matrix, RealField};

    /// Golub and Van Loan's factor of the lower triangle; what stands above it is as given.
    pub struct Cholesky<T>(DMatrix<T>);

    impl<T: RealField> Cholesky<T> {
        pub fn new(mut m: DMatrix<T>) -> Option<Self> {
            assert_eq!(m.nrows(), m.ncols());
            for j in 0..m.ncols() {
                for i in j..m.nrows() {
                    let left = (0..j).fold(m.at(i, j), |left, k| left - m.at(i, k) * m.at(j, k));
                    let entry = if i == j { left.pivot(m.at(j, j))? } else { left / m.at(j, j) };
                    m.set(i, j, entry);
                }
            }
            Some(Cholesky(m))
        }

        pub fn l_dirty(&self) -> &DMatrix<T> {
            &self.0
        }

        pub fn solve(&self, b: &DVector<T>) -> DVector<T> {
            let mut x = b.clone();
            self.solve_mut(&mut x);
            x
        }

        /// Solves for the unit vectors.
        pub fn inverse(&self) -> DMatrix<T> {
            let mut x = DMatrix::identity(self.0.nrows(), self.0.nrows());
            self.solve_mut(&mut x);
            x
        }

        fn solve_mut<D: AsRef<[T]> + AsMut<[T]>, C>(&self, x: &mut Matrix<T, D, C>) {
            self.0.solve_lower_triangular_mut(x);
            self.0.tr_solve_lower_triangular_mut(x);
        }
    }
}
