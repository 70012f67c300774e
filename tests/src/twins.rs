//! Random pairs of datapaths with the same sizes: equivalent by construction, first differing at a
//! chosen place, or whatever a random change makes of them.

use crate::file::{Datapath, SHORT_INPUTS, Step};
use crate::grid::{axes, size};
use crate::random::Random;
use crate::samples::{self, Shape, top};
use crate::sizes::{INPUTS, Sizes, lowest, word_length};

/// What the second datapath has to do with the first.
#[derive(Clone, Copy, Debug, PartialEq, Eq, PartialOrd, Ord)]
pub enum Kind {
    /// The same steps.
    Same,
    /// Each step computed in another way, with dead steps between.
    Rewritten,
    /// A multiple of a falling factorial that vanishes is added.
    Vanishing,
    /// Products of falling factorials are added that first count at a chosen vector.
    Late,
    /// One step is changed.
    Changed,
    /// Another random datapath.
    Other,
}

pub const KINDS: [Kind; 6] = [
    Kind::Same,
    Kind::Rewritten,
    Kind::Vanishing,
    Kind::Late,
    Kind::Changed,
    Kind::Other,
];

impl Kind {
    pub fn equivalent(self) -> bool {
        matches!(self, Kind::Same | Kind::Rewritten | Kind::Vanishing)
    }
}

/// Sizes with this m and a grid of at most `most` vectors, at least 66: random ones, narrowed, and
/// some with fewer inputs.
pub fn small_sizes(random: &mut Random, m: u64, most: u64) -> Sizes {
    let mut sizes = samples::sizes(random, m);
    let fewer = random.chance(40);
    while size(&axes(&sizes)) > most {
        let input = random.index(sizes.d());
        let narrow = sizes.widths.iter().all(|&n| word_length(n) == 1);
        if sizes.d() > 1 && (narrow || fewer && random.chance(30)) {
            sizes.widths.remove(input);
        } else {
            let width = &mut sizes.widths[input];
            let n = word_length(*width);
            *width -= n - random.between(1, 3).min(n);
        }
    }
    sizes
}

/// Sizes with this m and eight to ten inputs, of which each takes two values on the grid.
pub fn many_inputs(random: &mut Random, m: u64) -> Sizes {
    let d = random.between(SHORT_INPUTS as u64, INPUTS as u64);
    let most = if m == 1 { 64 } else { 1 };
    let widths = (0..d).map(|_| random.between(1, most)).collect();
    samples::marked(random, Sizes { m, widths })
}

/// Small sizes, and in `percent` of a hundred draws such of eight to ten inputs, whose grids are
/// larger than `most` may be.
pub fn varied_sizes(random: &mut Random, m: u64, most: u64, percent: u64) -> Sizes {
    match random.chance(percent) {
        true => many_inputs(random, m),
        false => small_sizes(random, m, most),
    }
}

/// A datapath of few steps.
pub fn path(random: &mut Random, sizes: &Sizes) -> Datapath {
    let shape = random.pick(&[Shape::Spread, Shape::Horner, Shape::Sums]);
    let count = random.between(1, 16) as usize;
    samples::path(random, sizes, count, shape)
}

/// A datapath of the given kind beside `path`.
pub fn twin(random: &mut Random, path: &Datapath, kind: Kind) -> Datapath {
    let sizes = &path.sizes;
    match kind {
        Kind::Same => path.clone(),
        Kind::Rewritten => rewritten(random, path),
        Kind::Vanishing => vanishing(random, path),
        Kind::Late => {
            let digits = countable(random, sizes);
            late(path, &digits)
        }
        Kind::Changed => changed(random, path),
        Kind::Other => self::path(random, sizes),
    }
}

pub(crate) fn push(steps: &mut Vec<Step>, step: Step) -> usize {
    steps.push(step);
    steps.len() - 1
}

fn rewritten(random: &mut Random, path: &Datapath) -> Datapath {
    let m = path.sizes.m;
    let mut steps = Vec::new();
    let mut places: Vec<usize> = Vec::new();
    for &step in &path.steps {
        if random.chance(20) {
            push(&mut steps, Step::Constant(random.word() & top(m)));
        }
        let other = random.chance(50);
        let new = match step {
            Step::Input(_) => step,
            Step::Constant(number) if other => {
                let part = random.word() & top(m);
                let left = push(&mut steps, Step::Constant(part));
                let rest = u128::from(number) + (1 << m) - u128::from(part);
                let right = push(&mut steps, Step::Constant(rest as u64 & top(m)));
                Step::Add(left, right)
            }
            Step::Constant(_) => step,
            Step::Add(left, right) => Step::Add(places[right], places[left]),
            Step::Subtract(left, right) if other => {
                let minus = push(&mut steps, Step::Constant(top(m)));
                let negative = push(&mut steps, Step::Multiply(minus, places[right]));
                Step::Add(places[left], negative)
            }
            Step::Subtract(left, right) => Step::Subtract(places[left], places[right]),
            Step::Multiply(left, right) => Step::Multiply(places[right], places[left]),
        };
        places.push(push(&mut steps, new));
    }
    let sizes = path.sizes.clone();
    Datapath { sizes, steps }
}

/// Appends the difference between a step and an integer, and gives its step; where the integer is
/// 0, this is the step itself.
pub(crate) fn less(steps: &mut Vec<Step>, m: u64, step: usize, integer: i128) -> usize {
    if integer == 0 {
        return step;
    }
    let rest = integer.rem_euclid(1 << m) as u64;
    let constant = push(steps, Step::Constant(rest));
    push(steps, Step::Subtract(step, constant))
}

/// Appends the falling factorial of degree k, at least 1, of an input counted from its lowest value,
/// and gives its step.
fn falling(steps: &mut Vec<Step>, sizes: &Sizes, input: usize, k: u64) -> usize {
    let base = push(steps, Step::Input(input));
    let least = lowest(sizes.widths[input]);
    let first = less(steps, sizes.m, base, least);
    (1..k).fold(first, |product, j| {
        let factor = less(steps, sizes.m, base, least + i128::from(j));
        push(steps, Step::Multiply(product, factor))
    })
}

/// Adds a step times the falling factorial of degree u of an input with the axis u. It is 0 at
/// every full-width vector: exactly where u is 2^n, and modulo 2^m where u is L(m).
fn vanishing(random: &mut Random, path: &Datapath) -> Datapath {
    let axes = axes(&path.sizes);
    let mut steps = path.steps.clone();
    let last = steps.len() - 1;
    let input = random.index(axes.len());
    let zero = falling(&mut steps, &path.sizes, input, axes[input]);
    let any = random.index(path.steps.len());
    let multiple = push(&mut steps, Step::Multiply(zero, any));
    push(&mut steps, Step::Add(last, multiple));
    let sizes = path.sizes.clone();
    Datapath { sizes, steps }
}

/// The power of two in k!.
pub(crate) fn power_in_factorial(k: u64) -> u64 {
    k - u64::from(k.count_ones())
}

/// Whether the product of the falling factorials of these degrees is not 0 modulo 2^m at the
/// vector that has the degrees as its digits, where it is the product of their factorials.
pub fn counts(m: u64, digits: &[u64]) -> bool {
    power_in_factorials(digits) < m
}

fn power_in_factorials(digits: &[u64]) -> u64 {
    digits.iter().copied().map(power_in_factorial).sum()
}

/// The digits of a grid vector that can be made the first difference, late in the grid if m allows.
pub fn countable(random: &mut Random, sizes: &Sizes) -> Vec<u64> {
    let axes = axes(sizes);
    let mut digits: Vec<u64> = axes.iter().map(|&axis| random.below(axis)).collect();
    while !counts(sizes.m, &digits) {
        let input = random.index(digits.len());
        digits[input] /= 2;
    }
    digits
}

/// Adds the product of the falling factorials of which these digits are the degrees. It is 0 unless
/// every input is at least so far from its lowest value, so the first difference is at the vector of
/// the digits itself, where it counts.
pub fn late(path: &Datapath, digits: &[u64]) -> Datapath {
    assert!(counts(path.sizes.m, digits), "no difference at {digits:?}");
    multiple(path, digits, 1)
}

/// The same times the power of two with which only the highest of the m bits differs at this vector;
/// twice as much would be 0 everywhere.
pub fn barely(path: &Datapath, digits: &[u64]) -> Datapath {
    let m = path.sizes.m;
    assert!(counts(m, digits), "no difference at {digits:?}");
    multiple(path, digits, 1 << (m - 1 - power_in_factorials(digits)))
}

/// The same times twice as much, which is 0 at every full-width vector.
pub fn nowhere(path: &Datapath, digits: &[u64]) -> Datapath {
    let m = path.sizes.m;
    let power = m - power_in_factorials(digits).min(m);
    let factor = if power == m { 0 } else { 1 << power };
    multiple(path, digits, factor)
}

fn multiple(path: &Datapath, digits: &[u64], factor: u64) -> Datapath {
    let mut steps = path.steps.clone();
    let last = steps.len() - 1;
    let mut product = push(&mut steps, Step::Constant(factor));
    for (input, &k) in digits.iter().enumerate().filter(|(_, k)| **k > 0) {
        let factor = falling(&mut steps, &path.sizes, input, k);
        product = push(&mut steps, Step::Multiply(product, factor));
    }
    push(&mut steps, Step::Add(last, product));
    let sizes = path.sizes.clone();
    Datapath { sizes, steps }
}

fn changed(random: &mut Random, path: &Datapath) -> Datapath {
    let mut path = path.clone();
    let index = random.index(path.steps.len());
    path.steps[index] = match path.steps[index] {
        Step::Input(_) => Step::Input(random.index(path.sizes.d())),
        Step::Constant(number) => {
            let bit = 1 << random.below(path.sizes.m);
            Step::Constant(number ^ bit)
        }
        Step::Add(left, right) => Step::Subtract(left, right),
        Step::Subtract(left, right) => Step::Subtract(right, left),
        Step::Multiply(left, _) => Step::Multiply(left, random.index(index)),
    };
    path
}

#[cfg(test)]
mod tests {
    use super::*;
    use crate::compare::{Verdict, compare_paths};
    use crate::file::{read, write};
    use crate::grid::{full_width, vector_of, vectors};

    #[test]
    fn kinds_keep_their_promises() {
        let mut random = Random::new(0x7713);
        let mut signed = 0;
        for round in 0..400 {
            let sizes = varied_sizes(&mut random, 1 + round % 64, 100, 10);
            signed += u64::from(sizes.signed());
            let first = path(&mut random, &sizes);
            for kind in KINDS {
                let second = twin(&mut random, &first, kind);
                assert_eq!(read(&write(&second), 1).as_ref(), Ok(&second), "{kind:?}");
                let found = compare_paths(vectors(&sizes), &first, &second);
                if kind.equivalent() {
                    assert_eq!(found.verdict, Verdict::Equivalent, "{kind:?}");
                }
                if sizes.bits() <= 6 {
                    let exhaustive = compare_paths(full_width(&sizes), &first, &second);
                    assert_eq!(exhaustive.verdict, found.verdict, "{kind:?}");
                }
            }
            let digits = countable(&mut random, &sizes);
            let vector = vector_of(&sizes, &digits);
            let found = compare_paths(vectors(&sizes), &first, &late(&first, &digits));
            let Verdict::Differs { vector: shown, .. } = found.verdict else {
                panic!("no difference at {vector:?}")
            };
            assert_eq!(shown, vector);
            let found = compare_paths(vectors(&sizes), &first, &barely(&first, &digits));
            let Verdict::Differs {
                vector: shown,
                outputs,
            } = found.verdict
            else {
                panic!("no difference at {vector:?}")
            };
            assert_eq!(shown, vector);
            assert_eq!(outputs[0] ^ outputs[1], 1 << (sizes.m - 1));
            let found = compare_paths(vectors(&sizes), &first, &nowhere(&first, &digits));
            assert_eq!(found.verdict, Verdict::Equivalent, "{digits:?}");
        }
        assert!((50..200).contains(&signed), "{signed} sizes with a mark");
    }
}
