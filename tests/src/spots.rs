//! Datapaths that differ from a given one at chosen grid vectors and nowhere else on the grid.

use crate::file::{Datapath, Step};
use crate::grid::axes;
use crate::sizes::{Sizes, lowest};
use crate::twins::{less, power_in_factorial, push};

/// Whether a product of the differences between the inputs and all other values on the grid is not
/// 0 modulo 2^m at the vector with these digits. For an input of u values, at the digit t, it is
/// t!(u − 1 − t)! up to its sign.
pub fn alone(sizes: &Sizes, digits: &[u64]) -> bool {
    let power = |(u, &t): (u64, &u64)| power_in_factorial(t) + power_in_factorial(u - 1 - t);
    let powers = axes(sizes).into_iter().zip(digits).map(power);
    powers.sum::<u64>() < sizes.m
}

/// Adds such a product for each of these lists of digits, of which no two are the same.
pub fn spots(path: &Datapath, list: &[Vec<u64>]) -> Datapath {
    let sizes = path.sizes.clone();
    let mut steps = path.steps.clone();
    let mut last = steps.len() - 1;
    let factors = factors(&mut steps, &sizes);
    for digits in list {
        assert!(alone(&sizes, digits), "no difference at {digits:?}");
        let mut product = None;
        for (row, &t) in factors.iter().zip(digits) {
            let others = row.iter().enumerate().filter(|(j, _)| *j as u64 != t);
            for (_, &factor) in others {
                product = Some(match product {
                    None => factor,
                    Some(before) => push(&mut steps, Step::Multiply(before, factor)),
                });
            }
        }
        let product = product.expect("an axis is at least 2");
        last = push(&mut steps, Step::Add(last, product));
    }
    Datapath { sizes, steps }
}

/// Appends the differences between each input and each of its values on the grid.
fn factors(steps: &mut Vec<Step>, sizes: &Sizes) -> Vec<Vec<usize>> {
    let axes = axes(sizes);
    let row = |(input, &u): (usize, &u64)| {
        let base = push(steps, Step::Input(input));
        let least = lowest(sizes.widths[input]);
        let value = |j| least + i128::from(j);
        let factor = |j| less(steps, sizes.m, base, value(j));
        (0..u).map(factor).collect()
    };
    axes.iter().enumerate().map(row).collect()
}

#[cfg(test)]
mod tests {
    use super::*;
    use crate::file::{read, write};
    use crate::grid::{digits, place_of};
    use crate::sessions::Survey;
    use crate::sizes::SIGNED;

    #[test]
    fn differences_are_where_they_are_put() {
        let signed = [SIGNED + 2, 1, SIGNED + 2];
        let list: [(u64, &[u64]); 7] = [
            (1, &[1; 4]),
            (8, &[1, 1, 8]),
            (20, &[2, 1, 2]),
            (9, &[3]),
            (20, &signed),
            (64, &[SIGNED + 4, SIGNED + 1]),
            (8, &[SIGNED + 1, 1, SIGNED + 8]),
        ];
        for (m, widths) in list {
            let widths = widths.to_vec();
            let sizes = Sizes { m, widths };
            let axes = axes(&sizes);
            let steps = vec![Step::Input(0)];
            let path = Datapath { sizes, steps };
            let all: Vec<Vec<u64>> = digits(&axes).collect();
            for digits in all.iter().filter(|digits| alone(&path.sizes, digits)) {
                let chosen = [digits.clone(), all[0].clone()];
                let chosen = &chosen[..if *digits == all[0] { 1 } else { 2 }];
                let other = spots(&path, chosen);
                assert_eq!(read(&write(&other), 1).as_ref(), Ok(&other));
                let survey = Survey::new([path.clone(), other]);
                let place = place_of(&axes, digits);
                assert_eq!(survey.first(0), Some(0));
                assert_eq!(survey.first(1), (place > 0).then_some(place));
                assert_eq!(survey.first(place + 1), None);
            }
        }
    }

    #[test]
    fn not_every_vector_can_be_alone() {
        let sizes = |widths: &[u64]| Sizes {
            m: 8,
            widths: widths.to_vec(),
        };
        assert!(alone(&sizes(&[1, 8]), &[1, 0]));
        assert!(!alone(&sizes(&[8, 8]), &[5, 4]));
    }
}
