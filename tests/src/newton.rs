//! Binomials, forward differences at the lowest values, and the sums that give the values back.
//!
//! Cells and values are numbers below 2^m, in dictionary order over the axes; each input counts from
//! its lowest value, so that x here is a list of digits and not a vector. Each of the two
//! directions has two ways. One works on a whole table, input by input: differences as document
//! 002 defines them (IV.1 and V.2), by successive application; sums by the binomials along each
//! input. The other gives a single entry from its closed form over all inputs at once: formula (7)
//! of document 002, and the sum of document 01. Where `TERMS` allows, the two are compared.

use crate::big::Big;
use crate::grid::{digits, place_of, size};
use std::sync::LazyLock;

/// The most terms of closed forms that are worked out to confirm a whole table.
pub const TERMS: u128 = 4_000;

/// Pascal's triangle, as far as the longest axis needs it: 66, the bound of m 64.
static TRIANGLE: LazyLock<Vec<Vec<u128>>> = LazyLock::new(|| {
    let next = |row: &Vec<u128>| {
        let inner = row.windows(2).map(|pair| pair[0] + pair[1]);
        Some([1].into_iter().chain(inner).chain([1]).collect())
    };
    std::iter::successors(Some(vec![1]), next)
        .take(66)
        .collect()
});

/// (x choose k), exactly, for x up to 65.
pub fn binomial(x: u64, k: u64) -> u128 {
    let row = &TRIANGLE[x as usize];
    row.get(k as usize).copied().unwrap_or(0)
}

/// n modulo 2^m: its last m binary digits.
fn cut(m: u64, n: u128) -> u128 {
    n & ((1 << m) - 1)
}

/// Replaces every line of the cells along one input.
fn along<T: Clone>(axes: &[u64], input: usize, cells: &mut [T], line: impl Fn(Vec<T>) -> Vec<T>) {
    let length = axes[input] as usize;
    let stride = size(&axes[input + 1..]) as usize;
    for block in cells.chunks_mut(length * stride) {
        for offset in 0..stride {
            let places = (offset..length * stride).step_by(stride);
            let old = places.clone().map(|place| block[place].clone());
            for (place, new) in places.zip(line(old.collect())) {
                block[place] = new;
            }
        }
    }
}

/// The k-fold differences at 0 of the values in a row, for every k: each round replaces F(x) by
/// F(x + 1) − F(x), and its first entry is the difference at 0.
fn rounds<T: Clone>(mut row: Vec<T>, minus: impl Fn(&T, &T) -> T) -> Vec<T> {
    let mut firsts = Vec::new();
    while let Some(first) = row.first() {
        firsts.push(first.clone());
        let pairs = row.windows(2);
        row = pairs.map(|pair| minus(&pair[1], &pair[0])).collect();
    }
    firsts
}

/// The differences of exact values, as exact integers.
pub fn exact_differences(axes: &[u64], values: Vec<Big>) -> Vec<Big> {
    let mut cells = values;
    for input in (0..axes.len()).rev() {
        along(axes, input, &mut cells, |row| rounds(row, |a, b| a - b));
    }
    cells
}

/// The difference table of the values. Panics if formula (7) is worked out and disagrees.
pub fn differences(m: u64, axes: &[u64], values: &[u64]) -> Vec<u64> {
    let minus = |a: &u64, b: &u64| cut(m, u128::from(*a) + (1 << m) - u128::from(*b)) as u64;
    let mut cells = values.to_vec();
    for input in (0..axes.len()).rev() {
        along(axes, input, &mut cells, |row| rounds(row, minus));
    }
    confirm(axes, &cells, |k| difference_at(m, axes, values, k));
    cells
}

/// The values of a difference table. Panics if document 01's sum is worked out and disagrees.
pub fn sums(m: u64, axes: &[u64], table: &[u64]) -> Vec<u64> {
    let line = |row: Vec<u64>| {
        let at = |x: usize| {
            let term = |k: usize| cut(m, binomial(x as u64, k as u64)) * u128::from(row[k]);
            (0..=x).fold(0, |total, k| cut(m, total + cut(m, term(k)))) as u64
        };
        (0..row.len()).map(at).collect()
    };
    let mut cells = table.to_vec();
    for input in 0..axes.len() {
        along(axes, input, &mut cells, line);
    }
    confirm(axes, &cells, |x| sum_at(m, axes, table, x));
    cells
}

/// Compares the cells with their closed forms, where these have few terms.
fn confirm(axes: &[u64], cells: &[u64], closed: impl Fn(&[u64]) -> u64) {
    let terms = |&axis: &u64| u128::from(axis * (axis + 1) / 2);
    if axes.iter().map(terms).product::<u128>() > TERMS {
        return;
    }
    for (at, &cell) in digits(axes).zip(cells) {
        let expected = closed(&at);
        assert_eq!(cell, expected, "the reference's two ways disagree");
    }
}

/// The cell at k by formula (7), for each input.
pub fn difference_at(m: u64, axes: &[u64], values: &[u64], k: &[u64]) -> u64 {
    weighted(m, axes, values, k, |k, j| {
        let positive = cut(m, binomial(k, j));
        if (k - j) % 2 == 0 {
            positive
        } else {
            (1 << m) - positive
        }
    })
}

/// The value at x: every cell k times the binomials (xi choose ki), added.
pub fn sum_at(m: u64, axes: &[u64], table: &[u64], x: &[u64]) -> u64 {
    weighted(m, axes, table, x, binomial)
}

/// The sum over all vectors with no entry above that of `top` of the cell there times the weights
/// of its entries, modulo 2^m.
fn weighted(
    m: u64,
    axes: &[u64],
    cells: &[u64],
    top: &[u64],
    weight: impl Fn(u64, u64) -> u128,
) -> u64 {
    let bounds: Vec<u64> = top.iter().map(|entry| entry + 1).collect();
    let mut total = 0;
    for at in digits(&bounds) {
        let cell = u128::from(cells[place_of(axes, &at) as usize]);
        let weights = top.iter().zip(&at).map(|(&x, &k)| weight(x, k));
        let term = weights.fold(cell, |term, weight| cut(m, term * cut(m, weight)));
        total = cut(m, total + term);
    }
    total as u64
}

#[cfg(test)]
mod tests {
    use super::*;
    use crate::random::Random;
    use crate::samples::top;

    #[test]
    fn binomials_are_quotients_of_factorials() {
        let factorial = |n: u64| (1..=n).fold(Big::from(1u64), |f, j| &f * &Big::from(j));
        for x in 0..66 {
            for k in 0..=x {
                let product = &factorial(k) * &factorial(x - k);
                let found = Big::from(binomial(x, k) as i128);
                assert_eq!(&found * &product, factorial(x), "{x} choose {k}");
            }
            assert_eq!(binomial(x, x + 1), 0);
        }
    }

    #[test]
    fn differences_of_a_row() {
        let row = [0i64, 7, 22, 45, 76];
        let expected = [0, 7, 8, 0, 0];
        assert_eq!(rounds(row.to_vec(), |a, b| a - b), expected);
        let bigs = row.map(|value| Big::from(i128::from(value)));
        let exact = exact_differences(&[5], bigs.to_vec());
        assert_eq!(exact, expected.map(|cell| Big::from(i128::from(cell))));
    }

    #[test]
    fn the_first_input_weighs_most() {
        // 10·x1 + x2 over two by three.
        let values = [0, 1, 2, 10, 11, 12];
        let table = [0, 1, 0, 10, 0, 0];
        assert_eq!(differences(8, &[2, 3], &values), table);
        assert_eq!(sums(8, &[2, 3], &table), values);
    }

    #[test]
    fn each_direction_undoes_the_other() {
        let mut random = Random::new(0xd1f);
        for axes in [
            vec![1],
            vec![66],
            vec![4, 6],
            vec![2; 8],
            vec![2; 10],
            vec![8, 2, 10],
        ] {
            for m in [1, 2, 7, 63, 64] {
                let cells: Vec<u64> = (0..size(&axes)).map(|_| random.word() & top(m)).collect();
                let table = differences(m, &axes, &cells);
                assert_eq!(sums(m, &axes, &table), cells);
                assert_eq!(differences(m, &axes, &sums(m, &axes, &cells)), cells);
            }
        }
    }

    #[test]
    fn closed_forms_of_ten_axes() {
        let mut random = Random::new(0xd10);
        let axes = [2; 10];
        let cells: Vec<u64> = (0..size(&axes)).map(|_| random.word() & top(9)).collect();
        let (table, values) = (differences(9, &axes, &cells), sums(9, &axes, &cells));
        for (place, at) in digits(&axes).enumerate() {
            assert_eq!(table[place], difference_at(9, &axes, &cells, &at));
            assert_eq!(values[place], sum_at(9, &axes, &cells, &at));
        }
    }
}
