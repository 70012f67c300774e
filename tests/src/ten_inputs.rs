//! Files of nine and ten inputs, byte by byte, and pairs of eight to ten inputs with their
//! comparisons and tables, worked out by hand.

use crate::expression::{Expression, constant, falling, x};
use crate::newton_examples::Tabled;
use crate::pairs::{Pair, differs, equivalent};

/// x1·x9 with m 2 and nine inputs of 1 bit; the tenth word length is 0.
#[rustfmt::skip]
pub const SAMPLE_NINE: [u8; 41] = [
    2, 9, 3, 0, 1, 1, 1, 1, 1, 1, 1, 1, 1, 0,
    1, 1, 5,
    0, 0, 0, 0, 0, 0, 0, 0,
    8, 0, 0, 0, 0, 0, 0, 0,
    0, 0, 1, 0, 0, 0, 0, 0,
];

/// x1·x10 with m 2 and ten inputs of 1 bit.
#[rustfmt::skip]
pub const SAMPLE_TEN: [u8; 41] = [
    2, 10, 3, 0, 1, 1, 1, 1, 1, 1, 1, 1, 1, 1,
    1, 1, 5,
    0, 0, 0, 0, 0, 0, 0, 0,
    9, 0, 0, 0, 0, 0, 0, 0,
    0, 0, 1, 0, 0, 0, 0, 0,
];

/// 0, with the sizes of x1·x10.
#[rustfmt::skip]
pub const ZERO_TEN: [u8; 23] = [
    2, 10, 1, 0, 1, 1, 1, 1, 1, 1, 1, 1, 1, 1,
    2,
    0, 0, 0, 0, 0, 0, 0, 0,
];

/// A file with these bytes changed and then cut to this length, or filled up to it with zeros.
fn changed(file: &[u8], changes: &[(usize, u8)], length: usize) -> Vec<u8> {
    let mut bytes = file.to_vec();
    for &(place, byte) in changes {
        bytes[place] = byte;
    }
    bytes.resize(length, 0);
    bytes
}

/// Files of nine, ten and eleven inputs that are refused: their faults, and number and step of the
/// refusal.
pub fn refused() -> Vec<(&'static str, Vec<u8>, [u64; 2])> {
    let nine = |changes, length| changed(&SAMPLE_NINE, changes, length);
    let ten = |changes, length| changed(&SAMPLE_TEN, changes, length);
    vec![
        ("m 0, 11 bytes", nine(&[(0, 0)], 11), [1, 0]),
        ("d 11, 11 bytes", nine(&[(1, 11)], 11), [1, 0]),
        ("m 0, 12 bytes", nine(&[(0, 0)], 12), [2, 0]),
        ("m 65, 13 bytes", ten(&[(0, 65)], 13), [2, 0]),
        ("m 0 and d 11", nine(&[(0, 0), (1, 11)], 41), [2, 0]),
        ("d 11, 12 bytes", nine(&[(1, 11)], 12), [3, 0]),
        ("d 11, 13 bytes", ten(&[(1, 11)], 13), [3, 0]),
        ("d 11", ten(&[(1, 11)], 41), [3, 0]),
        ("d 11 and N 0", ten(&[(1, 11), (2, 0)], 41), [3, 0]),
        ("nine, 12 bytes", nine(&[], 12), [1, 0]),
        ("nine, 13 bytes", nine(&[], 13), [1, 0]),
        ("ten, 12 bytes", ten(&[], 12), [1, 0]),
        ("ten, 13 bytes", ten(&[], 13), [1, 0]),
        ("nine, N 1, 12 bytes", nine(&[(2, 1)], 12), [1, 0]),
        ("nine, N 1, 13 bytes", nine(&[(2, 1)], 13), [1, 0]),
        ("nine, N 0, 12 bytes", nine(&[(2, 0)], 12), [1, 0]),
        ("nine, N 0, 13 bytes", nine(&[(2, 0)], 13), [1, 0]),
        ("nine, n1 0, 13 bytes", nine(&[(4, 0)], 13), [1, 0]),
        ("nine, N 0, 14 bytes", nine(&[(2, 0)], 14), [4, 0]),
        ("nine, N 0 and n10 1", nine(&[(2, 0), (13, 1)], 14), [4, 0]),
        ("ten, N 1,025", ten(&[(2, 1), (3, 4)], 41), [4, 0]),
        ("nine, n10 1", nine(&[(13, 1)], 41), [5, 0]),
        ("nine, n10 255", nine(&[(13, 255)], 41), [5, 0]),
        ("nine, n10 128", nine(&[(13, 128)], 41), [5, 0]),
        ("nine, n10 129", nine(&[(13, 129)], 41), [5, 0]),
        ("nine, n9 193", nine(&[(12, 193)], 41), [5, 0]),
        ("ten, n10 128", ten(&[(13, 128)], 41), [5, 0]),
        ("nine, n9 0", nine(&[(12, 0)], 41), [5, 0]),
        ("nine, n9 65", nine(&[(12, 65)], 41), [5, 0]),
        ("ten, n10 0", ten(&[(13, 0)], 41), [5, 0]),
        ("ten, n10 65", ten(&[(13, 65)], 41), [5, 0]),
        ("nine, n10 1, 39 bytes", nine(&[(13, 1)], 39), [5, 0]),
        ("nine, 14 bytes", nine(&[], 14), [6, 0]),
        ("nine, 12 + 9N bytes", nine(&[], 39), [6, 0]),
        ("ten, 12 + 9N bytes", ten(&[], 39), [6, 0]),
        ("ten, N 1, 12 + 9N bytes", ten(&[(2, 1)], 21), [6, 0]),
        ("nine, 13 + 9N bytes", nine(&[], 40), [6, 0]),
        ("ten, 15 + 9N bytes", ten(&[], 42), [6, 0]),
        ("ten, operation 0", ten(&[(14, 0), (17, 10)], 41), [7, 0]),
        ("ten, operation 6", ten(&[(16, 6)], 41), [7, 2]),
        ("nine, input 9", nine(&[(25, 9)], 41), [8, 1]),
        ("ten, input 10", ten(&[(25, 10)], 41), [8, 1]),
        ("ten, a step of itself", ten(&[(33, 2)], 41), [8, 2]),
    ]
}

/// x1 to xd, each as `term` gives it, joined from the first to the last.
fn joined(
    d: usize,
    term: impl Fn(usize) -> Expression,
    join: impl Fn(Expression, Expression) -> Expression,
) -> Expression {
    let terms = (1..=d).map(term);
    terms.reduce(join).expect("d is at least 1")
}

fn product(d: usize) -> Expression {
    joined(d, x, |left, right| left * right)
}

/// The sum of i·xi.
fn weighted() -> Expression {
    joined(10, |i| i as i32 * x(i), |left, right| left + right)
}

/// The vector of ten entries that are 0 but for this one, counted from 1.
fn alone(number: usize, entry: i128) -> [i128; 10] {
    let mut vector = [0; 10];
    vector[number - 1] = entry;
    vector
}

pub fn pairs() -> Vec<Pair> {
    let zero = || constant(0);
    let ones: (u64, &[u64]) = (8, &[1; 10]);
    // The products of each input and the next one, the tenth and the first.
    let next = |i: usize| x(i % 10 + 1);
    let forward = joined(10, |i| x(i) * next(i), |left, right| left + right);
    let backward = joined(10, |i| next(i) * x(i), |left, right| right + left);
    vec![
        Pair::new(
            "the product of eight inputs",
            (8, &[1; 8]),
            [product(8), zero()],
            differs(&[1; 8], [1, 0], 256),
        ),
        Pair::new(
            "the product of nine inputs",
            (8, &[1; 9]),
            [product(9), zero()],
            differs(&[1; 9], [1, 0], 512),
        ),
        Pair::new(
            "the product of ten inputs",
            ones,
            [product(10), zero()],
            differs(&[1; 10], [1, 0], 1024),
        ),
        Pair::new(
            "the tenth input alone",
            ones,
            [x(10), zero()],
            differs(&alone(10, 1), [1, 0], 2),
        ),
        Pair::new(
            "the tenth input alone, x(x-1)(x-2)(x-3), n 2",
            (4, &[1, 1, 1, 1, 1, 1, 1, 1, 1, 2]),
            [falling(x(10), 4), zero()],
            equivalent(2048),
        ),
        Pair::new(
            "the tenth input alone, x(x-1)(x-2)(x-3), n 3",
            (4, &[1, 1, 1, 1, 1, 1, 1, 1, 1, 3]),
            [falling(x(10), 4), zero()],
            differs(&alone(10, 4), [8, 0], 5),
        ),
        Pair::new(
            "ten products of neighbours, in another order",
            ones,
            [forward, backward],
            equivalent(1024),
        ),
        Pair::new(
            "ten weights, the first two exchanged",
            ones,
            [weighted(), weighted() + x(1) - x(2)],
            differs(&alone(2, 1), [2, 1], 257),
        ),
        Pair::new(
            "ten weights, the tenth wrong",
            ones,
            [weighted(), weighted() + x(10)],
            differs(&alone(10, 1), [10, 11], 2),
        ),
        Pair {
            name: "the sample files of ten inputs",
            files: [SAMPLE_TEN.to_vec(), ZERO_TEN.to_vec()],
            expected: differs(&[1, 0, 0, 0, 0, 0, 0, 0, 0, 1], [1, 0], 514),
        },
    ]
}

pub fn tables() -> Vec<Tabled> {
    let ones: (u64, &[u64]) = (8, &[1; 10]);
    let polynomial = 7 - 3 * x(9) + 5 * x(1) * x(10);
    vec![
        Tabled::new("the product of ten", ones, product(10), &[(&[1; 10], 1)]),
        Tabled::new(
            "the product of nine",
            (8, &[1; 9]),
            product(9),
            &[(&[1; 9], 1)],
        ),
        Tabled::new(
            "the product of eight",
            (8, &[1; 8]),
            product(8),
            &[(&[1; 8], 1)],
        ),
        Tabled::new(
            "7 - 3 x9 + 5 x1 x10",
            ones,
            polynomial,
            &[
                (&[0; 10], 7),
                (&[0, 0, 0, 0, 0, 0, 0, 0, 1, 0], 253),
                (&[1, 0, 0, 0, 0, 0, 0, 0, 0, 1], 5),
            ],
        ),
    ]
}

#[cfg(test)]
mod tests {
    use super::*;
    use crate::file::{Refusal, Step, operations, read, write};

    #[test]
    fn reads_the_samples() {
        for (file, last) in [(SAMPLE_NINE, 8), (SAMPLE_TEN, 9)] {
            let path = read(&file, 1).unwrap();
            assert_eq!((path.sizes.m, &path.sizes.widths), (2, &vec![1; last + 1]));
            let steps = [Step::Input(0), Step::Input(last), Step::Multiply(0, 1)];
            assert_eq!(path.steps, steps);
            assert_eq!(operations(&file), (14, 3));
            assert_eq!(write(&path), file);
        }
        assert_eq!(operations(&ZERO_TEN), (14, 1));
        assert_eq!(constant(0).file(2, &[1; 10]), ZERO_TEN);
    }

    #[test]
    fn refusals_in_order() {
        for (name, file, [number, step]) in refused() {
            let expected = Refusal {
                number,
                file: 2,
                step,
            };
            assert_eq!(read(&file, 2), Err(expected), "{name}");
        }
    }
}
