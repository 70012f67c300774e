//! Files of signed inputs, byte by byte, pairs with their comparisons, outputs and tables, worked out
//! by hand; and datapaths read with other marks.

use crate::examples::{Outputs, quadratic};
use crate::expression::{Expression, constant, falling, x};
use crate::file::{Datapath, Step};
use crate::newton_examples::Tabled;
use crate::pairs::{Pair, differs, equivalent};
use crate::sizes::{SIGNED, Sizes, lowest, word_length};
use crate::twins::{less, push};

/// x1·x2 with m 8, a signed input of 8 bits and an unsigned one of 3.
#[rustfmt::skip]
pub const SAMPLE_SIGNED: [u8; 39] = [
    8, 2, 3, 0, 136, 3, 0, 0, 0, 0, 0, 0,
    1, 1, 5,
    0, 0, 0, 0, 0, 0, 0, 0,
    1, 0, 0, 0, 0, 0, 0, 0,
    0, 0, 1, 0, 0, 0, 0, 0,
];

/// 0, with the same sizes.
#[rustfmt::skip]
pub const ZERO_SIGNED: [u8; 21] = [
    8, 2, 1, 0, 136, 3, 0, 0, 0, 0, 0, 0,
    2,
    0, 0, 0, 0, 0, 0, 0, 0,
];

/// x1·x10 with m 2 and ten signed inputs of 1 bit.
#[rustfmt::skip]
pub const SAMPLE_SIGNED_TEN: [u8; 41] = [
    2, 10, 3, 0, 129, 129, 129, 129, 129, 129, 129, 129, 129, 129,
    1, 1, 5,
    0, 0, 0, 0, 0, 0, 0, 0,
    9, 0, 0, 0, 0, 0, 0, 0,
    0, 0, 1, 0, 0, 0, 0, 0,
];

/// The greatest numbers of 63 and 64 bits, and one more than the former: the word of −2^63.
const TOP_63: u64 = 9_223_372_036_854_775_807;
const TOP_64: u64 = 18_446_744_073_709_551_615;
const HALF: u64 = TOP_63 + 1;

/// A sample with these bytes changed, and the last byte left out where it is to be short.
fn changed(file: &[u8], changes: &[(usize, u8)], short: bool) -> Vec<u8> {
    let mut bytes = file.to_vec();
    for &(place, byte) in changes {
        bytes[place] = byte;
    }
    bytes.truncate(bytes.len() - usize::from(short));
    bytes
}

/// Files with a wrong width that are refused: their faults, and number and step of the refusal.
pub fn refused() -> Vec<(&'static str, Vec<u8>, [u64; 2])> {
    let two = |changes| changed(&SAMPLE_SIGNED, changes, false);
    let ten = |changes| changed(&SAMPLE_SIGNED_TEN, changes, false);
    vec![
        ("n1 0, signed", two(&[(4, 128)]), [5, 0]),
        ("n1 65, signed", two(&[(4, 193)]), [5, 0]),
        ("n1 96, signed", two(&[(4, 224)]), [5, 0]),
        ("n1 127, signed", two(&[(4, 255)]), [5, 0]),
        ("n1 0", two(&[(4, 0)]), [5, 0]),
        ("n1 65", two(&[(4, 65)]), [5, 0]),
        ("n1 127", two(&[(4, 127)]), [5, 0]),
        ("n2 0, signed", two(&[(5, 128)]), [5, 0]),
        ("n2 65, signed", two(&[(5, 193)]), [5, 0]),
        ("a mark alone in n3", two(&[(6, 128)]), [5, 0]),
        ("a mark alone in n8", two(&[(11, 128)]), [5, 0]),
        ("a signed n3", two(&[(6, 129)]), [5, 0]),
        ("a signed n8", two(&[(11, 192)]), [5, 0]),
        ("d 1, a mark alone in n2", two(&[(1, 1), (5, 128)]), [5, 0]),
        ("m 136", two(&[(0, 136)]), [2, 0]),
        ("d 130", two(&[(1, 130)]), [3, 0]),
        ("N 0 and n1 0, signed", two(&[(2, 0), (4, 128)]), [4, 0]),
        (
            "a mark alone in n3, short",
            changed(&SAMPLE_SIGNED, &[(6, 128)], true),
            [5, 0],
        ),
        ("short", changed(&SAMPLE_SIGNED, &[], true), [6, 0]),
        (
            "n1 65, signed, operation 9",
            two(&[(4, 193), (12, 9)]),
            [5, 0],
        ),
        ("operation 9", two(&[(12, 9)]), [7, 0]),
        ("input 2 of signed ones", two(&[(23, 2)]), [8, 1]),
        ("ten, n10 0, signed", ten(&[(13, 128)]), [5, 0]),
        ("ten, n10 65, signed", ten(&[(13, 193)]), [5, 0]),
        (
            "nine, a mark alone in n10",
            ten(&[(1, 9), (13, 128)]),
            [5, 0],
        ),
        ("nine, a signed n10", ten(&[(1, 9)]), [5, 0]),
    ]
}

fn power_of_two(exponent: u32) -> Expression {
    constant(2).power(exponent)
}

/// The product of d inputs, each as `factor` gives it.
fn product(d: usize, factor: fn(usize) -> Expression) -> Expression {
    let factors = (1..=d).map(factor);
    factors
        .reduce(|left, right| left * right)
        .expect("d is at least 1")
}

/// Pairs of one input.
fn single() -> Vec<Pair> {
    let zero = || constant(0);
    let byte: (u64, &[u64]) = (8, &[SIGNED + 8]);
    let word: (u64, &[u64]) = (64, &[SIGNED + 64]);
    let pair = Pair::new;
    vec![
        // document 02's range and order: the first of all vectors is -128
        pair(
            "constants 5 and 4",
            byte,
            [constant(5), constant(4)],
            differs(&[-128], [5, 4], 1),
        ),
        pair(
            "document 01's quadratics, signed",
            byte,
            [
                64 * x(1).power(2) + 192 * x(1) - 169,
                192 * x(1).power(2) + 64 * x(1) + 87,
            ],
            equivalent(10),
        ),
        pair(
            "a signed byte and 128",
            byte,
            [x(1), constant(128)],
            differs(&[-127], [129, 128], 2),
        ),
        // equal at 0 to 3, and not at -2
        pair(
            "x(x-1)(x-2)(x-3), m 4, n 2, signed",
            (4, &[SIGNED + 2]),
            [falling(x(1), 4), zero()],
            differs(&[-2], [8, 0], 1),
        ),
        pair(
            "(x+2)(x+1)x(x-1), m 4, n 2, signed",
            (4, &[SIGNED + 2]),
            [falling(x(1) + 2, 4), zero()],
            equivalent(4),
        ),
        pair(
            "(x+4)(x+3)(x+2)(x+1), m 4, n 3, signed",
            (4, &[SIGNED + 3]),
            [falling(x(1) + 4, 4), zero()],
            differs(&[0], [8, 0], 5),
        ),
        pair(
            "three factors from the lowest value, m 3, n 8, signed",
            (3, &[SIGNED + 8]),
            [falling(x(1) + 128, 3), zero()],
            differs(&[-125], [6, 0], 4),
        ),
        pair(
            "four factors from the lowest value, m 3, n 8, signed",
            (3, &[SIGNED + 8]),
            [falling(x(1) + 128, 4), zero()],
            equivalent(4),
        ),
        pair(
            "x and x^2, m 1, n 1, signed",
            (1, &[SIGNED + 1]),
            [x(1), x(1).power(2)],
            equivalent(2),
        ),
        pair(
            "x and x^2, m 8, n 1, signed",
            (8, &[SIGNED + 1]),
            [x(1), x(1).power(2)],
            differs(&[-1], [255, 1], 1),
        ),
        pair(
            "-x and x^2, m 8, n 1, signed",
            (8, &[SIGNED + 1]),
            [0 - x(1), x(1).power(2)],
            equivalent(2),
        ),
        pair(
            "x + 1, m 8, n 1, signed",
            (8, &[SIGNED + 1]),
            [x(1) + 1, zero()],
            differs(&[0], [1, 0], 2),
        ),
        // differs at -1 and at 1 alone; by bit patterns 0, 1, -2, -1 the first would be 1
        pair(
            "x^2(x+2), m 8, n 2, signed",
            (8, &[SIGNED + 2]),
            [x(1).power(2) * (x(1) + 2), zero()],
            differs(&[-1], [1, 0], 2),
        ),
        pair(
            "x, m 64, n 64, signed",
            word,
            [x(1), zero()],
            differs(&[-i128::from(HALF)], [HALF, 0], 1),
        ),
        pair(
            "x + 2^63, m 64, n 64, signed",
            word,
            [x(1) + power_of_two(63), zero()],
            differs(&[-i128::from(TOP_63)], [1, 0], 2),
        ),
        pair(
            "x, m 64, n 63, signed",
            (64, &[SIGNED + 63]),
            [x(1), zero()],
            differs(&[-(1 << 62)], [3 << 62, 0], 1),
        ),
        pair(
            "(x+1)^2 and its sum, m 64, n 64, signed",
            word,
            [(x(1) + 1).power(2), x(1).power(2) + 2 * x(1) + 1],
            equivalent(66),
        ),
    ]
}

/// Pairs of several inputs, signed and not.
fn several() -> Vec<Pair> {
    let zero = || constant(0);
    let pair = Pair::new;
    let fade = |a: Expression, b: Expression, t: Expression| a * t.clone() + b * (16 - t);
    let folded = |a: Expression, b: Expression, t: Expression| 16 * b.clone() + (a - b) * t;
    vec![
        pair(
            "x1 x2, m 2, n 1 and 2, both signed",
            (2, &[SIGNED + 1, SIGNED + 2]),
            [x(1) * x(2), zero()],
            differs(&[-1, -2], [2, 0], 1),
        ),
        pair(
            "x1 x2, m 2, n 1 and 2, the first signed",
            (2, &[SIGNED + 1, 2]),
            [x(1) * x(2), zero()],
            differs(&[-1, 1], [3, 0], 2),
        ),
        pair(
            "x1 x2, m 2, n 1 and 2, the second signed",
            (2, &[1, SIGNED + 2]),
            [x(1) * x(2), zero()],
            differs(&[1, -2], [2, 0], 5),
        ),
        pair(
            "(x1+1)(x2+2), m 2, n 1 and 2, both signed",
            (2, &[SIGNED + 1, SIGNED + 2]),
            [(x(1) + 1) * (x(2) + 2), zero()],
            differs(&[0, -1], [1, 0], 6),
        ),
        pair(
            "x1(x1+1)x2(x2+1), m 2, n 2 and 2, both signed",
            (2, &[SIGNED + 2, SIGNED + 2]),
            [falling(x(1) + 1, 2) * falling(x(2) + 1, 2), zero()],
            equivalent(16),
        ),
        // by bit patterns the first would be (0, 1, 1)
        pair(
            "(x1+x2) x3 (x3+2), m 8, signed and not",
            (8, &[SIGNED + 1, 1, SIGNED + 2]),
            [(x(1) + x(2)) * x(3) * (x(3) + 2), zero()],
            differs(&[-1, 0, -1], [1, 0], 2),
        ),
        pair(
            "two signed samples faded, m 8",
            (8, &[SIGNED + 4, SIGNED + 4, 4]),
            [fade(x(1), x(2), x(3)), folded(x(1), x(2), x(3))],
            equivalent(1000),
        ),
        pair(
            "two signed samples faded, one bit wrong, m 8",
            (8, &[SIGNED + 4, SIGNED + 4, 4]),
            [
                fade(x(1), x(2), x(3)) + 128 * (x(1) + 8) * (x(2) + 8) * x(3),
                folded(x(1), x(2), x(3)),
            ],
            differs(&[-7, -7, 1], [16, 144], 112),
        ),
        pair(
            "the product of ten signed inputs",
            (8, &[SIGNED + 1; 10]),
            [product(10, x), zero()],
            differs(&[-1; 10], [1, 0], 1),
        ),
        pair(
            "the product of ten signed inputs, one more each",
            (8, &[SIGNED + 1; 10]),
            [product(10, |i| x(i) + 1), zero()],
            differs(&[0; 10], [1, 0], 1024),
        ),
        pair(
            "the product of nine signed inputs",
            (8, &[SIGNED + 1; 9]),
            [product(9, x), zero()],
            differs(&[-1; 9], [255, 0], 1),
        ),
        pair(
            "the product of eight inputs, every second signed",
            (
                8,
                &[SIGNED + 1, 1, SIGNED + 1, 1, SIGNED + 1, 1, SIGNED + 1, 1],
            ),
            [product(8, x), zero()],
            differs(&[-1, 1, -1, 1, -1, 1, -1, 1], [1, 0], 86),
        ),
        Pair {
            name: "the sample files of a signed input",
            files: [SAMPLE_SIGNED.to_vec(), ZERO_SIGNED.to_vec()],
            expected: differs(&[-128, 1], [128, 0], 2),
        },
    ]
}

pub fn pairs() -> Vec<Pair> {
    let mut list = single();
    list.extend(several());
    list
}

/// Outputs at vectors of negative values.
pub fn outputs() -> Vec<Outputs> {
    let at = |list: &[(&[i128], u64)]| -> Vec<(Vec<i128>, u64)> {
        list.iter()
            .map(|&(vector, output)| (vector.to_vec(), output))
            .collect()
    };
    let low = -i128::from(HALF);
    vec![
        Outputs::new(
            "a signed byte, m 8",
            (8, &[SIGNED + 8]),
            x(1),
            at(&[(&[-128], 128), (&[-1], 255), (&[0], 0), (&[127], 127)]),
        ),
        Outputs::new(
            "a signed byte, m 64",
            (64, &[SIGNED + 8]),
            x(1),
            at(&[(&[-128], TOP_64 - 127), (&[-1], TOP_64), (&[127], 127)]),
        ),
        Outputs::new(
            "the square of a signed byte, m 16",
            (16, &[SIGNED + 8]),
            x(1).power(2),
            at(&[(&[-128], 16_384), (&[-3], 9), (&[127], 16_129)]),
        ),
        Outputs::new(
            "a signed bit, m 64",
            (64, &[SIGNED + 1]),
            3 * x(1) + 1,
            at(&[(&[-1], TOP_64 - 1), (&[0], 1)]),
        ),
        Outputs::new(
            "a signed word, m 64",
            (64, &[SIGNED + 64]),
            x(1) - 1,
            at(&[
                (&[low], TOP_63),
                (&[-1], TOP_64 - 1),
                (&[0], TOP_64),
                (&[i128::from(TOP_63)], TOP_63 - 1),
            ]),
        ),
        Outputs::new(
            "a signed word and an unsigned one, m 64",
            (64, &[SIGNED + 64, 64]),
            x(1) * x(2),
            at(&[
                (&[-1, 1], TOP_64),
                (&[-1, i128::from(TOP_64)], 1),
                (&[low, 3], HALF),
                (&[low, 2], 0),
            ]),
        ),
        Outputs::new(
            "a signed and an unsigned nibble, m 8",
            (8, &[SIGNED + 4, 4]),
            x(1) * x(2) - x(2),
            at(&[(&[-8, 15], 121), (&[7, 15], 90), (&[-1, 1], 254)]),
        ),
    ]
}

/// Tables, with the differences at the lowest values.
pub fn tables() -> Vec<Tabled> {
    let ones: [u64; 10] = [SIGNED + 1; 10];
    vec![
        // F(t - 128) is 4t² + 3t - 384 modulo 256
        Tabled::new(
            "document 01's quadratic, signed",
            (8, &[SIGNED + 8]),
            quadratic(x(1)),
            &[(&[0], 128), (&[1], 7), (&[2], 8)],
        ),
        Tabled::new(
            "a signed byte",
            (8, &[SIGNED + 8]),
            x(1),
            &[(&[0], 128), (&[1], 1)],
        ),
        Tabled::new(
            "a signed bit, m 1",
            (1, &[SIGNED + 1]),
            x(1),
            &[(&[0], 1), (&[1], 1)],
        ),
        // (t - 8)² is 64 - 15t + 2 (t choose 2)
        Tabled::new(
            "the square of a signed nibble",
            (16, &[SIGNED + 4]),
            x(1).power(2),
            &[(&[0], 64), (&[1], 65_521), (&[2], 2)],
        ),
        Tabled::new(
            "a signed word",
            (64, &[SIGNED + 64]),
            x(1),
            &[(&[0], HALF), (&[1], 1)],
        ),
        Tabled::new(
            "a product, the first signed",
            (4, &[SIGNED + 2, 2]),
            x(1) * x(2),
            &[(&[0, 1], 14), (&[1, 1], 1)],
        ),
        Tabled::new(
            "a product, both signed",
            (4, &[SIGNED + 2, SIGNED + 2]),
            x(1) * x(2),
            &[(&[0, 0], 4), (&[0, 1], 14), (&[1, 0], 14), (&[1, 1], 1)],
        ),
        Tabled::new(
            "x1 x10, ten signed inputs",
            (2, &ones),
            x(1) * x(10),
            &[
                (&[0; 10], 1),
                (&[0, 0, 0, 0, 0, 0, 0, 0, 0, 1], 3),
                (&[1, 0, 0, 0, 0, 0, 0, 0, 0, 0], 3),
                (&[1, 0, 0, 0, 0, 0, 0, 0, 0, 1], 1),
            ],
        ),
    ]
}

/// The datapath that gives, at every list of digits, what this one gives there, though its inputs
/// are marked as these widths are: where the lowest value of an input is another, the difference is
/// taken from it. The word lengths are the same.
pub fn rebased(path: &Datapath, widths: &[u64]) -> Datapath {
    let m = path.sizes.m;
    let mut steps = Vec::new();
    let mut places: Vec<usize> = Vec::new();
    for &step in &path.steps {
        let at = |operand: usize| places[operand];
        let place = match step {
            Step::Input(input) => {
                let (old, new) = (path.sizes.widths[input], widths[input]);
                assert_eq!(word_length(old), word_length(new), "another range");
                let base = push(&mut steps, step);
                less(&mut steps, m, base, lowest(new) - lowest(old))
            }
            Step::Constant(_) => push(&mut steps, step),
            Step::Add(left, right) => push(&mut steps, Step::Add(at(left), at(right))),
            Step::Subtract(left, right) => push(&mut steps, Step::Subtract(at(left), at(right))),
            Step::Multiply(left, right) => push(&mut steps, Step::Multiply(at(left), at(right))),
        };
        places.push(place);
    }
    let widths = widths.to_vec();
    let sizes = Sizes { m, widths };
    Datapath { sizes, steps }
}

/// The widths without marks, and with a mark at every input.
pub fn unmarked(widths: &[u64]) -> Vec<u64> {
    widths.iter().map(|&width| word_length(width)).collect()
}

pub fn all_marked(widths: &[u64]) -> Vec<u64> {
    widths
        .iter()
        .map(|&width| SIGNED + word_length(width))
        .collect()
}

/// A file with every input marked as signed, where it was not; the steps stay as they are.
pub fn marked_file(file: &[u8]) -> Vec<u8> {
    let mut bytes = file.to_vec();
    let d = usize::from(file[1]);
    for width in &mut bytes[4..4 + d] {
        *width |= SIGNED as u8;
    }
    bytes
}

#[cfg(test)]
mod tests {
    use super::*;
    use crate::compare::compare_paths;
    use crate::file::{Refusal, operations, read, write};
    use crate::grid::{axes, digits, full_width, place_of, vector_of, vectors};
    use crate::random::Random;
    use crate::tables::difference_table;
    use crate::twins;
    use crate::value::output;

    #[test]
    fn reads_the_samples() {
        let path = read(&SAMPLE_SIGNED, 1).unwrap();
        let widths = vec![SIGNED + 8, 3];
        assert_eq!(path.sizes, Sizes { m: 8, widths });
        let steps = [Step::Input(0), Step::Input(1), Step::Multiply(0, 1)];
        assert_eq!(path.steps, steps);
        assert_eq!(operations(&SAMPLE_SIGNED), (12, 3));
        assert_eq!(write(&path), SAMPLE_SIGNED);
        assert_eq!(constant(0).file(8, &[SIGNED + 8, 3]), ZERO_SIGNED);
        let ten = read(&SAMPLE_SIGNED_TEN, 1).unwrap();
        assert_eq!(ten.sizes.widths, [SIGNED + 1; 10]);
        assert_eq!(operations(&SAMPLE_SIGNED_TEN), (14, 3));
        assert_eq!(write(&ten), SAMPLE_SIGNED_TEN);
    }

    #[test]
    fn refusals_in_order() {
        for (name, file, [number, step]) in refused() {
            let expected = Refusal {
                number,
                file: 2,
                step,
            };
            assert_eq!(read(&file, 2), Err(expected), "{name}");
        }
    }

    #[test]
    fn the_reference_gives_the_verdicts() {
        for pair in pairs() {
            let [left, right] = pair.files.each_ref().map(|file| read(file, 1).unwrap());
            let found = compare_paths(vectors(&left.sizes), &left, &right);
            assert_eq!(found, pair.expected, "{}", pair.name);
            if left.sizes.bits() <= 12 {
                let exhaustive = compare_paths(full_width(&left.sizes), &left, &right);
                assert_eq!(exhaustive.verdict, found.verdict, "{}", pair.name);
            }
        }
    }

    #[test]
    fn the_reference_gives_the_outputs() {
        for example in outputs() {
            let path = read(&example.polynomial.file(example.m, &example.widths), 1).unwrap();
            for (vector, expected) in example.outputs {
                let found = output(&path, &vector);
                assert_eq!(found.output, expected, "{} at {vector:?}", example.name);
                assert!(found.exact);
            }
        }
    }

    #[test]
    fn the_reference_gives_the_tables() {
        for example in tables() {
            let path = read(&example.polynomial.file(example.m, &example.widths), 1).unwrap();
            let axes = axes(&path.sizes);
            let found = difference_table(&path);
            let mut expected = vec![0; found.cells.len()];
            for (k, cell) in example.cells {
                expected[place_of(&axes, &k) as usize] = cell;
            }
            assert_eq!(found.cells, expected, "{}", example.name);
            assert!(found.exact);
        }
    }

    /// With other marks the outputs stand at the same digits, and so do the cells of the table.
    #[test]
    fn other_marks_move_the_vectors_alone() {
        let mut random = Random::new(0x516);
        for round in 0..64 {
            let sizes = twins::small_sizes(&mut random, 1 + round % 64, 80);
            let path = twins::path(&mut random, &sizes);
            let table = difference_table(&path).cells;
            for widths in [unmarked(&sizes.widths), all_marked(&sizes.widths)] {
                let other = rebased(&path, &widths);
                assert_eq!(read(&write(&other), 1).as_ref(), Ok(&other));
                for digits in digits(&axes(&sizes)) {
                    let [here, there] = [&path, &other].map(|path| {
                        let vector = vector_of(&path.sizes, &digits);
                        output(path, &vector).output
                    });
                    assert_eq!(here, there, "{digits:?} of {sizes:?} and {widths:?}");
                }
                assert_eq!(difference_table(&other).cells, table);
            }
        }
    }
}
