//! The stand-ins against small cases worked by hand from document 01's 'Arithmetic beneath'.
use anyhow::{Context, Result, bail, ensure};
use nalgebra::linalg::Cholesky;
use nalgebra::{DMatrix, DVector, RealField};
use oracle::cases::two_to;
use oracle::tolerance::published;

const LARGE: f64 = 1e16;

fn matrix(rows: usize, columns: usize, by_column: &[f64]) -> DMatrix<f64> {
    DMatrix::from_column_slice(rows, columns, by_column)
}

fn bits(numbers: &[f64]) -> Vec<u64> {
    numbers.iter().map(|x| x.to_bits()).collect()
}

#[test]
fn products_are_stored_added_and_subtracted() {
    let (a, b) = (matrix(2, 2, &[1.0, 2.0, 3.0, 4.0]), matrix(2, 1, &[5.0, 6.0]));
    let mut target = matrix(2, 1, &[100.0, 200.0]);
    target.gemm(1.0, &a, &b, 0.0);
    assert_eq!(target.data, [23.0, 34.0]);
    target.gemm(1.0, &a, &b, 1.0);
    assert_eq!(target.data, [46.0, 68.0]);
    target.gemm_tr(-1.0, &a, &b, 1.0);
    assert_eq!(target.data, [46.0 - 17.0, 68.0 - 39.0]);
}

#[test]
fn terms_are_added_at_rising_index_from_plus_zero() {
    let terms = matrix(1, 3, &[LARGE, 1.0, -LARGE]);
    let mut target = matrix(1, 1, &[7.0]);
    target.gemm(1.0, &terms, &matrix(3, 1, &[1.0; 3]), 0.0);
    assert_eq!(target.data, [0.0]);
    let mut target = matrix(1, 1, &[7.0]);
    target.gemm(1.0, &matrix(1, 1, &[-0.0]), &matrix(1, 1, &[1.0]), 0.0);
    assert_eq!(bits(&target.data), bits(&[0.0]));
}

#[test]
fn the_finished_sum_meets_the_target() {
    let (terms, ones) = (matrix(2, 1, &[LARGE, -LARGE]), DVector::from_column_slice(&[1.0, 1.0]));
    let mut target = DVector::from_column_slice(&[1.0]);
    target.gemv_tr(1.0, &terms, &ones, 1.0);
    assert_eq!(target.data, [1.0]);
    target.gemv_tr(-1.0, &terms, &ones, 1.0);
    assert_eq!(target.data, [1.0]);
}

/// W A is (1, 1e16), because 1e16 + 1 rounds to 1e16, and so does the rest. (A'W)A would be 1e16 + 2.
#[test]
fn the_quadratic_form_takes_w_times_a_first() {
    let (w, a) = (matrix(2, 2, &[1.0, 1.0, 0.0, LARGE]), matrix(2, 1, &[1.0, 1.0]));
    let mut target = matrix(1, 1, &[0.0]);
    target.quadform(1.0, &w, &a, 1.0);
    assert_eq!(target.data, [LARGE]);
}

#[test]
fn a_product_that_document_01_lacks_panics() {
    let unit = DMatrix::<f64>::identity(1, 1);
    let odd = std::panic::catch_unwind(|| DMatrix::<f64>::zeros(1, 1).gemm(2.0, &unit, &unit, 1.0));
    assert!(odd.is_err());
}

/// Beside an entry of 1.
fn pivot(left: f64) -> Option<f64> {
    RealField::pivot(left, 1.0)
}

#[test]
fn pivots_are_finite_and_above_zero() {
    for refused in [0.0, -0.0, -1.0, f64::NAN, f64::INFINITY, f64::NEG_INFINITY] {
        assert_eq!(pivot(refused), None);
        assert_eq!(RealField::pivot(refused, refused), None);
    }
    assert_eq!(pivot(4.0), Some(2.0));
    assert_eq!(pivot(2.0).map(f64::to_bits), Some(0x3FF6_A09E_667F_3BCD));
    let least = f64::from_bits(1);
    assert_eq!(RealField::pivot(least, least), Some(f64::from_bits((1023 - 537) << 52)));
}

/// 2^-40 of the entry, which is a NaN or an infinity too, or a subnormal number: then it is rounded, to 0 at 2^-1035.
#[test]
fn pivots_exceed_their_share_of_the_entry() {
    let share = two_to(-40);
    let (below, above) = (f64::from_bits(share.to_bits() - 1), f64::from_bits(share.to_bits() + 1));
    assert_eq!([below, share, above].map(|left| pivot(left).is_some()), [false, false, true]);
    assert_eq!([f64::NAN, f64::INFINITY].map(|given| RealField::pivot(1.0, given)), [None, None]);
    let least = |given: u64| RealField::pivot(f64::from_bits(1), f64::from_bits(given)).is_some();
    assert_eq!([1 << 39, (1 << 39) + 1, 1 << 40].map(least), [true, false, false]);
    assert!(RealField::pivot(f64::from_bits(2), f64::from_bits(1 << 40)).is_some());
}

/// What is left of the second entry, and whether its root is taken.
fn second_pivot(b: f64, entry: f64) -> (f64, bool) {
    (entry - b * b, Cholesky::new(matrix(2, 2, &[1.0, b, b, entry])).is_some())
}

/// 2^-40 is left of 1, and 2^-40 * 1.4375^2 of the float below 1.4375^2. By the entry after subtraction both would be taken.
#[test]
fn the_entry_is_that_before_subtraction() {
    let square = 1.4375_f64 * 1.4375;
    assert_eq!(second_pivot(1.0 - two_to(-41), 1.0), (two_to(-40), false));
    let (b, entry) = (f64::from_bits(0x3FF6_FFFF_FFFF_F47F), f64::from_bits(square.to_bits() - 1));
    assert_eq!(second_pivot(b, entry), (square * two_to(-40), true));
    assert_eq!(published(|| second_pivot(1.0 - two_to(-41), 1.0)), (two_to(-40), true));
}

#[test]
fn the_factor_reads_only_the_lower_triangle() {
    let given = matrix(3, 3, &[4.0, 2.0, 6.0, f64::NAN, 5.0, 7.0, f64::NAN, f64::NAN, 22.0]);
    let factor = Cholesky::new(given).unwrap();
    let l = &factor.l_dirty().data;
    assert_eq!([l[0], l[1], l[2], l[4], l[5], l[8]], [2.0, 1.0, 3.0, 2.0, 2.0, 3.0]);
}

/// The last pivot is (1e16 + 2 - 1e16) - 1 by rising k. In the other order 1e16 + 2 - 1 rounds to 1e16, which leaves 0. Beside its
/// entry it is small, so the published rule is used.
#[test]
fn the_factor_subtracts_at_rising_k_one_at_a_time() {
    let root = LARGE.sqrt();
    let given = matrix(3, 3, &[1.0, 0.0, root, 0.0, 1.0, 1.0, 0.0, 0.0, LARGE + 2.0]);
    let factor = published(|| Cholesky::new(given)).unwrap();
    assert_eq!(factor.l_dirty().data[8], 1.0);
}

#[test]
fn refused_pivots_end_the_factor() {
    for given in [[1.0, 1.0, 0.0, 1.0], [1.0, 2.0, 0.0, 3.0], [0.0, 0.0, 0.0, 1.0], [1.0, 0.0, 0.0, f64::INFINITY]] {
        assert!(Cholesky::new(matrix(2, 2, &given)).is_none());
    }
    assert!(Cholesky::new(DMatrix::<f64>::zeros(0, 0)).is_some());
}

#[test]
fn solves_and_inverse() {
    let factor = Cholesky::new(matrix(2, 2, &[4.0, 2.0, f64::NAN, 5.0])).unwrap();
    assert_eq!(factor.solve(&DVector::from_column_slice(&[8.0, 12.0])).data, [1.0, 2.0]);
    assert_eq!(factor.inverse().data, [0.3125, -0.125, -0.125, 0.25]);
    let mut x = matrix(2, 2, &[2.0, 5.0, 4.0, 6.0]);
    assert!(factor.l_dirty().solve_lower_triangular_mut(&mut x));
    assert_eq!(x.data, [1.0, 2.0, 2.0, 2.0]);
}

/// As above: 1e16 + 2 less 1e16, then less 1.
#[test]
fn the_lower_solve_subtracts_at_rising_column() {
    let lower = matrix(3, 3, &[1.0, 0.0, 1.0, 0.0, 1.0, 1.0, 0.0, 0.0, 1.0]);
    let mut x = DVector::from_column_slice(&[LARGE, 1.0, LARGE + 2.0]);
    lower.solve_lower_triangular_mut(&mut x);
    assert_eq!(x.data, [LARGE, 1.0, 1.0]);
}

/// L has rows (1), (1/2 1), (1/2 0 1). The lower solve gives (1e16 + 2, 2e16, 2), so that row 0 of the transposed one is
/// 1e16 + 2 less 1e16, then less 1.
#[test]
fn the_transposed_solve_subtracts_at_rising_column() {
    let factor = Cholesky::new(matrix(3, 3, &[1.0, 0.5, 0.5, 0.0, 1.25, 0.25, 0.0, 0.0, 1.25])).unwrap();
    let given = DVector::from_column_slice(&[LARGE + 2.0, 2.5 * LARGE, 0.5 * LARGE + 3.0]);
    assert_eq!(factor.solve(&given).data, [1.0, 2.0 * LARGE, 2.0]);
}

/// A mean of -0.0 below a negative one, under the identity: 0 times the negative is -0.0, and -0.0 less that is +0.0.
#[test]
fn the_identity_turns_a_minus_zero() {
    let factor = Cholesky::new(DMatrix::identity(2, 2)).unwrap();
    let solved = factor.solve(&DVector::from_column_slice(&[-3.0, -0.0]));
    assert_eq!(bits(&solved.data), bits(&[-3.0, 0.0]));
}

#[test]
fn parts_of_a_matrix() {
    let mut whole = matrix(2, 3, &[1.0, 2.0, 3.0, 4.0, 5.0, 6.0]);
    let mut column = DMatrix::zeros(2, 1);
    column.copy_from(&whole.columns(1, 1));
    assert_eq!(column.data, [3.0, 4.0]);
    let mut part = whole.view_mut((1, 1), (1, 2));
    part += &matrix(1, 2, &[10.0, 20.0]);
    assert_eq!(whole.data, [1.0, 2.0, 3.0, 14.0, 5.0, 26.0]);
    whole.view_mut((0, 1), (2, 2)).fill_diagonal(9.0);
    assert_eq!(whole.data, [1.0, 2.0, 9.0, 14.0, 5.0, 9.0]);
    let mut vector = DVector::zeros(3);
    vector.rows_mut(1, 2).copy_from(&matrix(2, 1, &[7.0, 8.0]));
    assert_eq!(vector.data, [0.0, 7.0, 8.0]);
}

/// A message without rows may come after all rows are used up.
#[test]
fn an_empty_part_may_lie_at_the_far_corner() {
    let mut whole = matrix(1, 1, &[5.0]);
    whole.view_mut((1, 1), (0, 0)).copy_from(&DMatrix::zeros(0, 0));
    assert_eq!(whole.view((1, 1), (0, 0)).nrows(), 0);
    let mut vector = DVector::<f64>::zeros(1);
    vector.rows_mut(1, 0).copy_from(&DVector::zeros(0));
}

#[test]
fn the_upper_triangle_is_filled_from_the_lower() {
    let mut square = matrix(3, 3, &[1.0, 2.0, 3.0, -1.0, 4.0, 5.0, -1.0, -1.0, 6.0]);
    square.fill_upper_triangle_with_lower_triangle();
    assert_eq!(square.data, [1.0, 2.0, 3.0, 2.0, 4.0, 5.0, 3.0, 5.0, 6.0]);
}

fn checked(x: i32) -> Result<i32> {
    ensure!(x != 1, "one");
    ensure!(x != 2, format!("number {x}"));
    if x == 3 {
        bail!("number {:?}", x);
    }
    Some(x).filter(|&x| x != 4).with_context(|| "four")
}

#[test]
fn errors_hold_their_messages_outermost_first() {
    assert_eq!(checked(0).unwrap(), 0);
    let texts = [1, 2, 3, 4].map(|x| checked(x).unwrap_err().0);
    assert_eq!(texts, ["one", "number 2", "number 3", "four"]);
    assert_eq!(checked(1).context("while checking").unwrap_err().0, "while checking: one");
}
