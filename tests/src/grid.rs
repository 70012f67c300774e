//! The grid: its axes, its places, its vectors, and dictionary order.

use crate::bound::bound;
use crate::sizes::{Sizes, lowest, word_length};

/// u1 to ud, how many values each input takes on the grid: the smaller of 2^n and L(m).
pub fn axes(sizes: &Sizes) -> Vec<u64> {
    let least = bound(sizes.m);
    let axis = |&width: &u64| (1u128 << word_length(width)).min(u128::from(least)) as u64;
    sizes.widths.iter().map(axis).collect()
}

/// G, the count of vectors below these bounds.
pub fn size(axes: &[u64]) -> u64 {
    axes.iter().product()
}

/// The digits of a place, the first input's weighing most. There are none from G on.
pub fn digits_at(axes: &[u64], place: u64) -> Option<Vec<u64>> {
    let mut rest = place;
    let mut digits = vec![0; axes.len()];
    for (digit, &axis) in digits.iter_mut().zip(axes).rev() {
        *digit = rest % axis;
        rest /= axis;
    }
    (rest == 0).then_some(digits)
}

/// The place with these digits.
pub fn place_of(axes: &[u64], digits: &[u64]) -> u64 {
    let digits = axes.iter().zip(digits);
    digits.fold(0, |place, (axis, digit)| place * axis + digit)
}

/// The vector with these digits: each counts from the lowest value of its input.
pub fn vector_of(sizes: &Sizes, digits: &[u64]) -> Vec<i128> {
    let value = |(&width, &digit): (&u64, &u64)| lowest(width) + i128::from(digit);
    sizes.widths.iter().zip(digits).map(value).collect()
}

/// Dictionary order: `left` is lower, as an integer, at the first input where the two differ.
pub fn before(left: &[i128], right: &[i128]) -> bool {
    let first = left.iter().zip(right).find(|(l, r)| l != r);
    first.is_some_and(|(l, r)| l < r)
}

/// All lists of digits below these bounds, in the order of their places, found by counting up.
pub fn digits(bounds: &[u64]) -> impl Iterator<Item = Vec<u64>> + use<> {
    let bounds = bounds.to_vec();
    let first = (!bounds.contains(&0)).then(|| vec![0; bounds.len()]);
    std::iter::successors(first, move |digits| {
        let mut next = digits.clone();
        for (digit, &bound) in next.iter_mut().zip(&bounds).rev() {
            *digit += 1;
            if *digit < bound {
                return Some(next);
            }
            *digit = 0;
        }
        None
    })
}

/// The vectors of the grid, in dictionary order.
pub fn vectors(sizes: &Sizes) -> impl Iterator<Item = Vec<i128>> {
    let digits = digits(&axes(sizes));
    digits.map(|digits| vector_of(sizes, &digits))
}

/// All full-width vectors, in dictionary order, for word lengths below 64.
pub fn full_width(sizes: &Sizes) -> impl Iterator<Item = Vec<i128>> {
    let count = |&width: &u64| 1 << word_length(width);
    let counts: Vec<u64> = sizes.widths.iter().map(count).collect();
    digits(&counts).map(|digits| vector_of(sizes, &digits))
}

#[cfg(test)]
mod tests {
    use super::*;
    use crate::sizes::{INPUTS, SIGNED};
    use std::ops::RangeInclusive;

    #[test]
    fn places_and_digits_correspond() {
        for axes in [vec![1], vec![5], vec![2, 4], vec![3, 1, 4, 2]] {
            let all: Vec<Vec<u64>> = digits(&axes).collect();
            assert_eq!(all.len() as u64, size(&axes));
            for (place, digits) in all.iter().enumerate() {
                assert_eq!(digits_at(&axes, place as u64).as_ref(), Some(digits));
                assert_eq!(place_of(&axes, digits), place as u64);
            }
            assert_eq!(digits_at(&axes, size(&axes)), None);
        }
    }

    #[test]
    fn the_first_input_weighs_most() {
        assert_eq!(digits_at(&[2, 4], 5), Some(vec![1, 1]));
        let widths = vec![SIGNED + 1, 2];
        let signed = Sizes { m: 8, widths };
        assert_eq!(vector_of(&signed, &[1, 1]), [0, 1]);
    }

    /// Whether these are all lists of integers in the ranges, each earlier than the next.
    fn fill(list: &[Vec<i128>], ranges: &[RangeInclusive<i128>]) -> bool {
        let count: usize = ranges.iter().map(|range| range.clone().count()).product();
        let inside = |vector: &Vec<i128>| {
            let entries = vector.iter().zip(ranges);
            vector.len() == ranges.len() && { entries }.all(|(x, range)| range.contains(x))
        };
        let ordered = list.windows(2).all(|pair| before(&pair[0], &pair[1]));
        list.len() == count && ordered && list.iter().all(inside)
    }

    /// The grid is the lowest values of each input, and comes first; both lists are in numeric order.
    #[test]
    fn vectors_are_in_numeric_order() {
        for (m, widths) in [
            (3, vec![SIGNED + 3]),
            (64, vec![SIGNED + 1, 2]),
            (4, vec![SIGNED + 3, SIGNED + 2, 3]),
            (2, vec![4, SIGNED + 1, SIGNED + 3]),
            (2, vec![1, 3]),
        ] {
            let sizes = Sizes { m, widths };
            let lows = sizes.lowest();
            let last = |(&low, u): (&i128, u64)| low..=low + i128::from(u) - 1;
            let ends: Vec<_> = lows.iter().zip(axes(&sizes)).map(last).collect();
            let grid: Vec<Vec<i128>> = vectors(&sizes).collect();
            assert!(fill(&grid, &ends), "{sizes:?}");
            let ranges = lows.into_iter().zip(sizes.highest());
            let ranges: Vec<_> = ranges.map(|(low, high)| low..=high).collect();
            let all: Vec<Vec<i128>> = full_width(&sizes).collect();
            assert!(fill(&all, &ranges), "{sizes:?}");
            assert!(grid.iter().all(|vector| all.contains(vector)));
        }
        assert!(before(&[-128], &[127]) && before(&[0, -1], &[0, 0]));
        assert!(!before(&[1, -1], &[0, 0]) && !before(&[-1], &[-1]));
    }

    /// Document 02's signed byte at m 8: ten values from -128 up.
    #[test]
    fn the_grid_of_a_signed_byte() {
        let widths = vec![SIGNED + 8];
        let sizes = Sizes { m: 8, widths };
        let grid: Vec<i128> = vectors(&sizes).flatten().collect();
        assert_eq!(grid, Vec::from_iter(-128..=-119));
    }

    #[test]
    fn an_axis_stops_at_the_range_or_at_the_bound() {
        let sizes = Sizes {
            m: 64,
            widths: vec![1, 6, 7, 64, SIGNED + 1, SIGNED + 6, SIGNED + 7, SIGNED + 64],
        };
        assert_eq!(axes(&sizes), [2, 64, 66, 66, 2, 64, 66, 66]);
    }

    #[test]
    fn the_largest_grid_fits_a_word() {
        assert_eq!(size(&[66; 8]), 360_040_606_269_696);
        assert_eq!(size(&[66; INPUTS]), 1_568_336_880_910_795_776);
        assert_eq!(66u64.checked_pow(INPUTS as u32 + 1), None);
    }
}
