//! The worked examples of document 002, as far as they are outputs, equivalences and bounds, and
//! the outputs among document 01's 'wrong turns'.

use crate::expression::{Expression, constant, falling, x};
use crate::pairs::{Pair, differs, equivalent};

/// A polynomial with its sizes and its outputs at some vectors.
pub struct Outputs {
    pub name: &'static str,
    pub m: u64,
    pub widths: Vec<u64>,
    pub polynomial: Expression,
    pub outputs: Vec<(Vec<i128>, u64)>,
}

impl Outputs {
    pub(crate) fn new(
        name: &'static str,
        sizes: (u64, &[u64]),
        polynomial: Expression,
        outputs: Vec<(Vec<i128>, u64)>,
    ) -> Outputs {
        Outputs {
            name,
            m: sizes.0,
            widths: sizes.1.to_vec(),
            polynomial,
            outputs,
        }
    }
}

/// The outputs at consecutive values of one input, from `first` on.
fn row(first: i128, outputs: &[u64]) -> Vec<(Vec<i128>, u64)> {
    (first..)
        .map(|x| vec![x])
        .zip(outputs.iter().copied())
        .collect()
}

/// The outputs at x1 0 and 1 and, for each, x2 0 to 3.
fn block(outputs: [u64; 8]) -> Vec<(Vec<i128>, u64)> {
    let vectors = (0..8).map(|place| vec![place / 4, place % 4]);
    vectors.zip(outputs).collect()
}

/// 4x² + 3x of examples IV.1 and IV.2, at any argument.
pub(crate) fn quadratic(at: Expression) -> Expression {
    4 * at.clone().power(2) + 3 * at
}

/// F of examples IV.5 and IV.6.
fn quartic() -> Expression {
    x(1).power(4) + 3 * x(1).power(3) + 7 * x(1).power(2) + 6 * x(1)
}

/// F of examples III.2 and V.5.
fn vanishing() -> Expression {
    4 * x(1) * x(2).power(2) + 4 * x(1) * x(2)
}

/// F of example V.3.
fn quintic() -> Expression {
    x(1).power(4) * x(2) + 2 * x(1).power(3) * x(2) + 3 * x(1).power(2) * x(2) + 2 * x(1) * x(2)
}

/// F of examples V.2, V.6 and V.7, reduced.
pub(crate) fn reduced() -> Expression {
    3 * x(2).power(2) + 4 * x(1) * x(2)
}

/// F1 of example V.8.
fn eighth_first() -> Expression {
    x(1) * x(2).power(3) + 5 * x(1) * x(2).power(2) + 2 * x(1) * x(2)
}

/// F2 of example V.8.
fn eighth_second() -> Expression {
    x(1).power(4) * x(2)
        + 2 * x(1).power(3) * x(2)
        + 3 * x(1).power(2) * x(2)
        + x(1) * x(2).power(3)
        + 5 * x(1) * x(2).power(2)
        + 4 * x(1) * x(2)
}

pub fn outputs() -> Vec<Outputs> {
    let seventh = 2 * x(1).power(5) + 13 * x(1).power(4) + 15 * x(1).power(2) + 2 * x(1) + 8;
    let eighth =
        x(1).power(5) + 15 * x(1).power(4) + 5 * x(1).power(3) + x(1).power(2) + 2 * x(1) + 8;
    let second = || x(1).power(4) + 10 * x(1).power(3) + 3 * x(1).power(2) + 2 * x(1) + 8;
    let third = 1 + 2 * x(2) + x(1) * x(2).power(2);
    let roots = x(1).power(2) + 6 * x(1);
    let last = block([0, 0, 0, 0, 0, 0, 0, 6]);
    vec![
        Outputs::new("four roots", (3, &[3]), roots, row(0, &[0, 7, 0, 3, 0])),
        Outputs::new(
            "III.1",
            (3, &[1, 2]),
            third,
            block([1, 3, 5, 7, 1, 4, 1, 0]),
        ),
        Outputs::new("IV.7 F1", (4, &[4]), seventh, row(0, &[8, 8, 8, 8, 0, 0])),
        Outputs::new("IV.7 F2", (4, &[4]), second(), row(0, &[8, 8, 8, 8, 0, 0])),
        Outputs::new("IV.8 F1", (4, &[4]), eighth, row(2, &[8, 0, 0, 0, 0, 0])),
        Outputs::new("IV.8 F2", (4, &[4]), second(), row(2, &[8, 8, 0, 0, 0, 0])),
        Outputs::new("V.8 F1", (3, &[1, 2]), eighth_first(), last.clone()),
        Outputs::new("V.8 F2", (3, &[1, 2]), eighth_second(), last),
        Outputs::new(
            "only the output is cut",
            (4, &[2]),
            x(1).power(2),
            row(3, &[9]),
        ),
    ]
}

/// Equivalences and vanishing polynomials; where document 002 works over Z, the widest words.
pub fn pairs() -> Vec<Pair> {
    let zero = || constant(0);
    let wide: (u64, &[u64]) = (64, &[64]);
    let two: (u64, &[u64]) = (16, &[16, 16]);
    let small: (u64, &[u64]) = (3, &[1, 2]);
    let sixth = || {
        x(1).power(6)
            + x(1).power(5)
            + 5 * x(1).power(4)
            + 15 * x(1).power(3)
            + 2 * x(1).power(2)
            + 8 * x(1)
    };
    let roots = || x(1).power(2) + 6 * x(1);
    let step = || 8 * x(1) + 7;
    let product = || 4 * x(1) * x(2);
    let newton = 3 * x(2) + 3 * falling(x(2), 2) + product();
    let unreduced = x(1).power(2) + reduced() + 7 * x(1);
    vec![
        Pair::new(
            "two factorisations",
            (3, &[3]),
            [roots(), (x(1) + 4) * (x(1) + 2)],
            equivalent(4),
        ),
        Pair::new(
            "four roots",
            (3, &[3]),
            [roots(), zero()],
            differs(&[1], [7, 0], 2),
        ),
        Pair::new("III.2", small, [vanishing(), zero()], equivalent(8)),
        Pair::new(
            "IV.1, first",
            wide,
            [quadratic(x(1) + 1) - quadratic(x(1)), step()],
            equivalent(66),
        ),
        Pair::new(
            "IV.1, second",
            wide,
            [8 * (x(1) + 1) + 7 - step(), constant(8)],
            equivalent(66),
        ),
        Pair::new(
            "IV.2",
            wide,
            [quadratic(x(1)), 7 * x(1) + 4 * falling(x(1), 2)],
            equivalent(66),
        ),
        Pair::new("IV.3", (4, &[4]), [sixth(), zero()], equivalent(6)),
        Pair::new(
            "IV.3, factored",
            (4, &[4]),
            [sixth(), falling(x(1), 6)],
            equivalent(6),
        ),
        Pair::new(
            "IV.4",
            (3, &[3]),
            [4 * x(1).power(2) - 4 * x(1), zero()],
            equivalent(4),
        ),
        Pair::new(
            "IV.4, by 3",
            (3, &[3]),
            [3 * falling(x(1), 2), zero()],
            differs(&[2], [6, 0], 3),
        ),
        Pair::new(
            "IV.5",
            (3, &[3]),
            [quartic(), x(1).power(3) + 4 * x(1).power(2) + 4 * x(1)],
            equivalent(4),
        ),
        Pair::new(
            "IV.6",
            (3, &[3]),
            [quartic(), zero()],
            differs(&[1], [1, 0], 2),
        ),
        Pair::new(
            "V.1, by x2",
            two,
            [4 * x(1) * (x(2) + 1) - product(), 4 * x(1)],
            equivalent(324),
        ),
        Pair::new(
            "V.1, by x1",
            two,
            [4 * (x(1) + 1) * x(2) - product(), 4 * x(2)],
            equivalent(324),
        ),
        Pair::new(
            "V.1, by both",
            two,
            [4 * (x(2) + 1) - 4 * x(2), constant(4)],
            equivalent(324),
        ),
        Pair::new("V.2", two, [reduced(), newton], equivalent(324)),
        Pair::new("V.3", (2, &[2, 2]), [quintic(), zero()], equivalent(16)),
        Pair::new(
            "V.3, factored",
            (2, &[2, 2]),
            [quintic(), falling(x(1), 4) * x(2)],
            equivalent(16),
        ),
        Pair::new(
            "V.4",
            small,
            [x(1).power(2) * x(2) - x(1) * x(2), zero()],
            equivalent(8),
        ),
        Pair::new(
            "V.5, factored",
            small,
            [vanishing(), 4 * x(1) * falling(x(2), 2)],
            equivalent(8),
        ),
        Pair::new("V.6", small, [unreduced, reduced()], equivalent(8)),
        Pair::new(
            "V.7",
            small,
            [reduced(), zero()],
            differs(&[0, 1], [3, 0], 2),
        ),
        Pair::new(
            "V.8",
            small,
            [eighth_first(), eighth_second()],
            equivalent(8),
        ),
    ]
}

/// m, word lengths and the bound of each input: the convolution of section I and table I.
pub const GRIDS: [(u64, &[u64], u64); 12] = [
    (4, &[4, 4, 4, 4, 4, 4, 4, 4], 6),
    (16, &[11], 18),
    (16, &[16], 18),
    (32, &[32], 34),
    (16, &[12, 8], 18),
    (16, &[11, 14], 18),
    (16, &[12, 14, 10], 18),
    (16, &[15, 11, 13], 18),
    (32, &[24, 29], 34),
    (16, &[16, 12], 18),
    (16, &[14, 14, 16], 18),
    (16, &[12, 12], 18),
];

#[cfg(test)]
mod tests {
    use super::*;
    use crate::compare::compare_paths;
    use crate::file::read;
    use crate::grid::{axes, vectors};
    use crate::sizes::Sizes;
    use crate::value::output;

    #[test]
    fn the_reference_gives_the_outputs() {
        for example in outputs() {
            let path = read(&example.polynomial.file(example.m, &example.widths), 1).unwrap();
            for (vector, expected) in example.outputs {
                let integer = example.polynomial.at(&vector);
                assert_eq!(integer.rem_euclid(1 << example.m), i128::from(expected));
                assert_eq!(output(&path, &vector).output, expected, "{}", example.name);
            }
        }
    }

    #[test]
    fn the_reference_gives_the_verdicts() {
        for pair in pairs() {
            let [left, right] = pair.files.each_ref().map(|file| read(file, 1).unwrap());
            let found = compare_paths(vectors(&left.sizes), &left, &right);
            assert_eq!(found, pair.expected, "{}", pair.name);
        }
    }

    #[test]
    fn the_reference_gives_the_grids() {
        for (m, widths, axis) in GRIDS {
            let widths = widths.to_vec();
            let count = widths.len();
            assert_eq!(axes(&Sizes { m, widths }), vec![axis; count]);
        }
    }
}
