//! Exact values of the steps, and the output.
//!
//! Two evaluators. The first computes the exact integer of every step and cuts only the last one,
//! as document 01 defines the output. Repeated multiplication doubles the length of the integers
//! at every step, so it gives up past `EXACT_BITS`. The second keeps, at every step, the remainder
//! modulo 2^m and nothing more, and answers for every file. Where the first answers, the two are
//! compared.

use crate::big::Big;
use crate::file::{Datapath, Step};

/// The longest exact value, in bits, that the first evaluator works out.
pub const EXACT_BITS: usize = 32_768;

/// The exact value of every step at the vector, where none is longer than `EXACT_BITS`.
pub fn exact_values(path: &Datapath, vector: &[i128]) -> Option<Vec<Big>> {
    let mut values: Vec<Big> = Vec::with_capacity(path.steps.len());
    for &step in &path.steps {
        let value = match step {
            Step::Input(input) => Big::from(vector[input]),
            Step::Constant(number) => Big::from(number),
            Step::Add(left, right) => &values[left] + &values[right],
            Step::Subtract(left, right) => &values[left] - &values[right],
            Step::Multiply(left, right) => {
                if values[left].bits() + values[right].bits() > EXACT_BITS {
                    return None;
                }
                &values[left] * &values[right]
            }
        };
        if value.bits() > EXACT_BITS {
            return None;
        }
        values.push(value);
    }
    Some(values)
}

/// The last step's exact value modulo 2^m, where the exact values can be worked out.
pub fn exact_output(path: &Datapath, vector: &[i128]) -> Option<u64> {
    let values = exact_values(path, vector)?;
    let cut = values.last()?.modulo_power(path.sizes.m as usize);
    Some(cut.to_u64().expect("m is at most 64"))
}

/// The output by remainders modulo 2^m, taken at every step.
pub fn residue_output(path: &Datapath, vector: &[i128]) -> u64 {
    let modulus = 1u128 << path.sizes.m;
    let mut values: Vec<u128> = Vec::with_capacity(path.steps.len());
    for &step in &path.steps {
        let value = match step {
            Step::Input(input) => vector[input].rem_euclid(1 << path.sizes.m) as u128,
            Step::Constant(number) => u128::from(number),
            Step::Add(left, right) => values[left] + values[right],
            Step::Subtract(left, right) => values[left] + modulus - values[right],
            Step::Multiply(left, right) => values[left] * values[right],
        };
        values.push(value % modulus);
    }
    *values.last().expect("a datapath has a step") as u64
}

/// The output, and whether exact values confirm it.
pub struct Output {
    pub output: u64,
    pub exact: bool,
}

/// The output at a full-width vector. Panics if the two evaluators disagree.
pub fn output(path: &Datapath, vector: &[i128]) -> Output {
    let output = residue_output(path, vector);
    let exact = exact_output(path, vector);
    if let Some(exact) = exact {
        assert_eq!(exact, output, "the reference's two evaluators disagree");
    }
    Output {
        output,
        exact: exact.is_some(),
    }
}

#[cfg(test)]
mod tests {
    use super::*;
    use crate::expression::{Expression, x};
    use crate::file::read;
    use crate::sizes::{SIGNED, highest, lowest};

    fn at(m: u64, width: u64, expression: &Expression, point: i128) -> u64 {
        let path = read(&expression.file(m, &[width]), 1).unwrap();
        output(&path, &[point]).output
    }

    #[test]
    fn only_the_output_is_cut() {
        assert_eq!(at(4, 2, &x(1).power(2), 3), 9);
    }

    #[test]
    fn the_ends_of_the_longest_words() {
        let top = highest(64);
        assert_eq!(at(64, 64, &(x(1) + 1), top), 0);
        assert_eq!(at(64, 64, &x(1).power(2), top), 1);
        assert_eq!(at(64, 64, &(0 - x(1)), 1), u64::MAX);
        assert_eq!(at(1, 64, &x(1), top), 1);
        assert_eq!(at(1, 64, &(0 - x(1)), top), 1);
    }

    /// The exact value of a signed input is the negative number itself: it fills all m bits of an
    /// output, however short the input is.
    #[test]
    fn signed_inputs() {
        assert_eq!(at(8, SIGNED + 1, &x(1), -1), 255);
        assert_eq!(at(64, SIGNED + 1, &x(1), -1), u64::MAX);
        assert_eq!(at(64, SIGNED + 8, &x(1), -128), u64::MAX - 127);
        assert_eq!(at(4, SIGNED + 8, &x(1), -128), 0);
        assert_eq!(at(16, SIGNED + 8, &x(1).power(2), -128), 16_384);
        assert_eq!(at(16, SIGNED + 8, &(x(1) * 3 - 1), 127), 380);
        let low = lowest(SIGNED + 64);
        assert_eq!(at(64, SIGNED + 64, &x(1), low), 1 << 63);
        assert_eq!(at(64, SIGNED + 64, &(0 - x(1)), low), 1 << 63);
        assert_eq!(at(64, SIGNED + 64, &(x(1) - 1), low), (1 << 63) - 1);
        let path = read(&x(1).power(2).file(64, &[SIGNED + 64]), 1).unwrap();
        let values = exact_values(&path, &[low]).unwrap();
        assert_eq!(values, [Big::from(low), Big::power_of_two(126)]);
    }

    #[test]
    fn values_may_be_negative_and_long() {
        let expression = (x(1) - 200).power(100);
        let path = read(&expression.file(8, &[8]), 1).unwrap();
        let values = exact_values(&path, &[1]).unwrap();
        let difference = Big::from(-199i128);
        let powers = values
            .iter()
            .skip_while(|&value| *value != difference)
            .count();
        assert_eq!(powers, 100);
        assert_eq!(values.last().unwrap().bits(), 764);
    }

    #[test]
    fn repeated_squares_leave_the_exact_range() {
        let squares = (0..20).fold(x(1), |value, _| value.power(2));
        let path = read(&squares.file(64, &[2]), 1).unwrap();
        let found = output(&path, &[3]);
        assert!(!found.exact);
        let expected = (0..20).fold(3u64, |value, _| value.wrapping_mul(value));
        assert_eq!(found.output, expected);
    }
}
