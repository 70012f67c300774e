//! Figures of document 01: bounds, the sample files, the pairs with their verdicts.

use crate::compare::{Comparison, Verdict};
use crate::expression::{Expression, constant, falling, x};

/// m and L(m), as far as document 01 lists them.
pub const BOUNDS: [(u64, u64); 8] = [
    (1, 2),
    (2, 4),
    (3, 4),
    (4, 6),
    (8, 10),
    (16, 18),
    (32, 34),
    (64, 66),
];

/// m, with L(m) and L(m) divided by 2, 4, 8, 16, 32 and 64, each rounded down, worked out by hand.
pub const FIGURES: [(u64, [u64; 7]); 6] = [
    (1, [2, 1, 0, 0, 0, 0, 0]),
    (3, [4, 2, 1, 0, 0, 0, 0]),
    (16, [18, 9, 4, 2, 1, 0, 0]),
    (47, [50, 25, 12, 6, 3, 1, 0]),
    (63, [64, 32, 16, 8, 4, 2, 1]),
    (64, [66, 33, 16, 8, 4, 2, 1]),
];

/// The file a.dp: x1·x2 with m 2, n 1 and 2.
#[rustfmt::skip]
pub const SAMPLE_A: [u8; 39] = [
    2, 2, 3, 0, 1, 2, 0, 0, 0, 0, 0, 0,
    1, 1, 5,
    0, 0, 0, 0, 0, 0, 0, 0,
    1, 0, 0, 0, 0, 0, 0, 0,
    0, 0, 1, 0, 0, 0, 0, 0,
];

/// The file b.dp: 0, with the same sizes.
#[rustfmt::skip]
pub const SAMPLE_B: [u8; 21] = [
    2, 2, 1, 0, 1, 2, 0, 0, 0, 0, 0, 0,
    2,
    0, 0, 0, 0, 0, 0, 0, 0,
];

/// Two files with the comparison that is expected of them.
pub struct Pair {
    pub name: &'static str,
    pub files: [Vec<u8>; 2],
    pub expected: Comparison,
}

impl Pair {
    pub fn new(
        name: &'static str,
        sizes: (u64, &[u64]),
        sides: [Expression; 2],
        expected: Comparison,
    ) -> Pair {
        let files = sides.map(|side| side.file(sizes.0, sizes.1));
        Pair {
            name,
            files,
            expected,
        }
    }
}

pub fn equivalent(run: u64) -> Comparison {
    let verdict = Verdict::Equivalent;
    Comparison { verdict, run }
}

pub fn differs(vector: &[i128], outputs: [u64; 2], run: u64) -> Comparison {
    let vector = vector.to_vec();
    let verdict = Verdict::Differs { vector, outputs };
    Comparison { verdict, run }
}

/// The pairs of document 01, in its order; the last is the pair of sample files.
pub fn pairs() -> Vec<Pair> {
    let zero = || constant(0);
    let quartic = || x(1).power(4) + 10 * x(1).power(3) + 3 * x(1).power(2) + 2 * x(1) + 8;
    let samples = [SAMPLE_A.to_vec(), SAMPLE_B.to_vec()];
    vec![
        Pair::new(
            "two quadratics, m 8, n 8",
            (8, &[8]),
            [
                64 * x(1).power(2) + 192 * x(1) - 169,
                192 * x(1).power(2) + 64 * x(1) + 87,
            ],
            equivalent(10),
        ),
        Pair::new(
            "a quintic and a quartic, m 4, n 4",
            (4, &[4]),
            [
                2 * x(1).power(5) + 13 * x(1).power(4) + 15 * x(1).power(2) + 2 * x(1) + 8,
                quartic(),
            ],
            equivalent(6),
        ),
        Pair::new(
            "another quintic and that quartic, m 4, n 4",
            (4, &[4]),
            [
                x(1).power(5)
                    + 15 * x(1).power(4)
                    + 5 * x(1).power(3)
                    + x(1).power(2)
                    + 2 * x(1)
                    + 8,
                quartic(),
            ],
            differs(&[1], [0, 8], 2),
        ),
        Pair::new(
            "x(x-1)(x-2)(x-3), m 4, n 2",
            (4, &[2]),
            [falling(x(1), 4), zero()],
            equivalent(4),
        ),
        Pair::new(
            "x(x-1)(x-2)(x-3), m 4, n 3",
            (4, &[3]),
            [falling(x(1), 4), zero()],
            differs(&[4], [8, 0], 5),
        ),
        Pair::new(
            "x(x-1)(x-2), m 3, n 8",
            (3, &[8]),
            [falling(x(1), 3), zero()],
            differs(&[3], [6, 0], 4),
        ),
        Pair::new(
            "x(x-1)(x-2)(x-3), m 3, n 8",
            (3, &[8]),
            [falling(x(1), 4), zero()],
            equivalent(4),
        ),
        Pair::new(
            "x and x^2, m 1, n 1",
            (1, &[1]),
            [x(1), x(1).power(2)],
            equivalent(2),
        ),
        Pair::new(
            "x1(x1-1)x2(x2-1), m 2, n 2 and 2",
            (2, &[2, 2]),
            [falling(x(1), 2) * falling(x(2), 2), zero()],
            equivalent(16),
        ),
        Pair::new(
            "x1 x2, m 2, n 1 and 2",
            (2, &[1, 2]),
            [x(1) * x(2), zero()],
            differs(&[1, 1], [1, 0], 6),
        ),
        Pair {
            name: "the sample files",
            files: samples,
            expected: differs(&[1, 1], [1, 0], 6),
        },
    ]
}

#[cfg(test)]
mod tests {
    use super::*;
    use crate::compare::compare_paths;
    use crate::file::read;
    use crate::grid::{full_width, vectors};
    use crate::ten_inputs;

    #[test]
    fn the_reference_gives_the_verdicts() {
        for pair in pairs().into_iter().chain(ten_inputs::pairs()) {
            let [left, right] = pair.files.each_ref().map(|file| read(file, 1).unwrap());
            let found = compare_paths(vectors(&left.sizes), &left, &right);
            assert_eq!(found, pair.expected, "{}", pair.name);
            let exhaustive = compare_paths(full_width(&left.sizes), &left, &right);
            assert_eq!(exhaustive.verdict, found.verdict, "{}", pair.name);
        }
    }

    #[test]
    fn the_sample_files_are_the_last_expression_pair() {
        let list = pairs();
        let [.., by_expression, by_bytes] = list.as_slice() else {
            unreachable!()
        };
        assert_eq!(by_expression.files, by_bytes.files);
    }
}
