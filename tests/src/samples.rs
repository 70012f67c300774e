//! Random files, sound and damaged, and vectors for them.
//!
//! Most multiply-heavy files keep their exact values short: operands are spread over all steps
//! before, or products are by inputs and constants only, as in Horner's scheme. `Shape::Powers`
//! multiplies what it has just made; from some twenty steps on its values pass `EXACT_BITS`, and
//! the reference has only remainders for them.

use crate::file::{Datapath, SHORT_INPUTS, STEPS, Step, head, length, write};
use crate::random::Random;
use crate::sizes::{INPUTS, SIGNED, Sizes, highest, lowest, word_length};

/// How the steps of a random file hang together.
#[derive(Clone, Copy, Debug)]
pub enum Shape {
    /// All operations, operands anywhere before.
    Spread,
    /// Each step takes the last one on, by an input or a constant.
    Horner,
    /// Sums and differences of one of the last steps and any step.
    Sums,
    /// Products of two of the last steps; sums with an input or a constant between.
    Powers,
}

pub const SHAPES: [Shape; 4] = [Shape::Spread, Shape::Horner, Shape::Sums, Shape::Powers];

/// The greatest number of n bits.
pub fn top(n: u64) -> u64 {
    u64::MAX >> (64 - n)
}

/// Sizes with this m and any d.
pub fn sizes(random: &mut Random, m: u64) -> Sizes {
    let d = random.between(1, INPUTS as u64) as usize;
    sizes_of(random, m, d)
}

/// Sizes with this m and d. Word lengths of 1, of 64, of m and of any number occur, and signed
/// inputs.
pub fn sizes_of(random: &mut Random, m: u64, d: usize) -> Sizes {
    let mut width = || match random.below(5) {
        0 => 1,
        1 => 64,
        2 => m,
        _ => random.between(1, 64),
    };
    let widths = (0..d).map(|_| width()).collect();
    marked(random, Sizes { m, widths })
}

/// How many of a hundred sizes have signed inputs, and how many of their inputs are signed.
const SIGNED_SIZES: u64 = 25;
const SIGNED_INPUTS: u64 = 60;

/// The same sizes; of some, an input or more is made signed.
pub fn marked(random: &mut Random, mut sizes: Sizes) -> Sizes {
    if random.chance(SIGNED_SIZES) {
        let one = random.index(sizes.d());
        for (input, width) in sizes.widths.iter_mut().enumerate() {
            if input == one || random.chance(SIGNED_INPUTS) {
                *width += SIGNED;
            }
        }
    }
    sizes
}

/// A sound datapath of `count` steps.
pub fn path(random: &mut Random, sizes: &Sizes, count: usize, shape: Shape) -> Datapath {
    let step = |index| step(random, sizes, index, shape);
    Datapath {
        sizes: sizes.clone(),
        steps: (0..count).map(step).collect(),
    }
}

/// The file of a sound datapath of `count` steps.
pub fn file(random: &mut Random, sizes: &Sizes, count: usize, shape: Shape) -> Vec<u8> {
    write(&path(random, sizes, count, shape))
}

/// Shapes other than `Spread` begin with so many inputs and constants.
const LEAVES: usize = 4;

fn step(random: &mut Random, sizes: &Sizes, index: usize, shape: Shape) -> Step {
    let leading = match shape {
        Shape::Spread => index == 0 || random.chance(30),
        _ => index < LEAVES,
    };
    if leading {
        return leaf(random, sizes);
    }
    let product = random.chance(match shape {
        Shape::Spread => 25,
        Shape::Horner => 50,
        Shape::Sums => 0,
        Shape::Powers => 60,
    });
    let recent = |random: &mut Random| index - 1 - random.index(LEAVES);
    let (left, right) = match shape {
        Shape::Spread => (random.index(index), random.index(index)),
        Shape::Horner => (index - 1, random.index(LEAVES)),
        Shape::Sums => (recent(random), random.index(index)),
        Shape::Powers if product => (recent(random), recent(random)),
        Shape::Powers => (recent(random), random.index(LEAVES)),
    };
    if product {
        return Step::Multiply(left, right);
    }
    match random.below(4) {
        0 | 1 => Step::Add(left, right),
        2 => Step::Subtract(left, right),
        _ => Step::Subtract(right, left),
    }
}

fn leaf(random: &mut Random, sizes: &Sizes) -> Step {
    if random.chance(60) {
        Step::Input(random.index(sizes.d()))
    } else {
        Step::Constant(random.edged_word() & top(sizes.m))
    }
}

/// A full-width vector: each value at the lower end, at the upper end or between.
pub fn vector(random: &mut Random, sizes: &Sizes) -> Vec<i128> {
    let mut value = |&width: &u64| match random.below(4) {
        0 => lowest(width),
        1 => highest(width),
        _ => lowest(width) + i128::from(random.word() & top(word_length(width))),
    };
    sizes.widths.iter().map(&mut value).collect()
}

/// Damages a file; now and then it stays sound. A file too short for a step stays as it is.
pub fn damage(random: &mut Random, bytes: &mut Vec<u8>) {
    let d = bytes.get(1).copied().map_or(INPUTS, usize::from);
    if bytes.len() < length(d, 1) {
        return;
    }
    let head = head(d);
    let count = (bytes.len() - head) / 9;
    let step = match random.below(4) {
        0 => 0,
        1 => count - 1,
        _ => random.index(count),
    };
    match random.below(11) {
        0 => {
            let place = random.index(bytes.len());
            bytes[place] = random.word() as u8;
        }
        1 => {
            let place = random.index(head);
            bytes[place] = random.pick(&[0, 1, 8, 9, 10, 11, 64, 65, 128, 129, 192, 193, 255]);
        }
        2 => {
            let number = random.pick(&[0, count - 1, count + 1, STEPS + 1]) as u16;
            bytes[2..4].copy_from_slice(&number.to_le_bytes());
        }
        3 => {
            let rest = random.index(bytes.len());
            bytes.truncate(rest);
        }
        4 => {
            let longer = bytes.len() + random.index(20) + 1;
            bytes.resize_with(longer, || random.word() as u8);
        }
        5 => bytes[0] = random.below(u64::from(bytes[0]) + 1) as u8,
        6 => bytes[1] = random.pick(&[0, 1, 8, 9, 10, 11]),
        7 | 8 => bytes[head + step] = random.pick(&[0, 1, 2, 3, 4, 5, 6, 255]),
        _ => {
            let argument = bad_argument(random, step as u64);
            let start = head + count + 8 * step;
            bytes[start..start + 8].copy_from_slice(&argument.to_le_bytes());
        }
    }
}

/// An argument that breaks the rule of at least one operation at this step.
fn bad_argument(random: &mut Random, step: u64) -> u64 {
    match random.below(6) {
        0 => step,
        1 => step << 16,
        2 => (step + 1) << 16 | step,
        3 => 1 << random.between(32, 63),
        4 => random.below(INPUTS as u64 + 2),
        _ => random.edged_word(),
    }
}

/// Bytes that are no file at all, though their first ones may look like one.
pub fn noise(random: &mut Random) -> Vec<u8> {
    let d = random.pick(&[SHORT_INPUTS, SHORT_INPUTS + 1, INPUTS]);
    let longest = length(d, 4) as u64;
    let mut bytes: Vec<u8> = (0..random.below(longest))
        .map(|_| random.word() as u8)
        .collect();
    let last = if d == INPUTS { 6 } else { 0 };
    let sound = [64, d as u8, 2, 0, 1, 2, 131, 4, 61, 190, 63, 192, 5, last];
    for (byte, sound) in bytes.iter_mut().zip(sound).take(head(d)) {
        if random.chance(80) {
            *byte = sound;
        }
    }
    bytes
}

#[cfg(test)]
mod tests {
    use super::*;
    use crate::file::read;
    use crate::sizes::words_of;

    #[test]
    fn sound_files_are_read_back() {
        let mut random = Random::new(0x5a3);
        for m in 1..=64 {
            let sizes = sizes_of(&mut random, m, 1 + m as usize % INPUTS);
            for shape in SHAPES {
                for count in [1, 2, 5, 40, 1024] {
                    let path = read(&file(&mut random, &sizes, count, shape), 1).unwrap();
                    assert_eq!((&path.sizes, path.steps.len()), (&sizes, count));
                    let vector = vector(&mut random, &sizes);
                    assert_eq!(sizes.vector(&words_of(&vector)), Some(vector));
                }
            }
        }
    }
}
