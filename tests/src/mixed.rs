//! Random datapaths of an exact count of steps, in which steps that depend on the last input stand
//! between steps that do not, and rewritten ones of an exact count too.

use crate::file::{Datapath, Step};
use crate::random::Random;
use crate::samples::top;
use crate::sizes::{Sizes, is_signed, word_length};
use crate::twins::{Kind, twin};

/// No product is longer, in bits, so that exact values stay short in files of any length.
const BITS: u64 = 200;

/// Operands are often among so many of the last steps, so that most steps reach the output.
const RECENT: usize = 6;

/// Steps under construction.
struct Mix<'a> {
    sizes: &'a Sizes,
    /// The inputs that may occur.
    used: &'a [usize],
    steps: Vec<Step>,
    /// Whether a step may depend on the last input, and a bound of its length on the grid in bits.
    depends: Vec<bool>,
    bits: Vec<u64>,
}

impl Mix<'_> {
    fn new<'a>(sizes: &'a Sizes, used: &'a [usize]) -> Mix<'a> {
        Mix {
            sizes,
            used,
            steps: Vec::new(),
            depends: Vec::new(),
            bits: Vec::new(),
        }
    }

    /// The length of the values of an input on the grid: they are below 66, but where it is signed.
    fn grid_bits(&self, input: usize) -> u64 {
        match self.sizes.widths[input] {
            width if is_signed(width) => word_length(width).max(7),
            _ => 7,
        }
    }

    fn push(&mut self, step: Step) -> usize {
        let (depends, bits) = match step {
            Step::Input(input) => (input + 1 == self.sizes.d(), self.grid_bits(input)),
            Step::Constant(_) => (false, self.sizes.m),
            Step::Add(left, right) | Step::Subtract(left, right) => (
                self.depends[left] || self.depends[right],
                self.bits[left].max(self.bits[right]) + 1,
            ),
            Step::Multiply(left, right) => (
                self.depends[left] || self.depends[right],
                self.bits[left] + self.bits[right],
            ),
        };
        self.steps.push(step);
        self.depends.push(depends);
        self.bits.push(bits);
        self.steps.len() - 1
    }

    fn leaf(&self, random: &mut Random) -> Step {
        if !self.used.is_empty() && random.chance(70) {
            Step::Input(random.pick(self.used))
        } else {
            Step::Constant(random.edged_word() & top(self.sizes.m))
        }
    }

    /// A step before; one that does not depend on the last input, where this is asked and found.
    fn operand(&self, random: &mut Random, free: bool) -> usize {
        let count = self.steps.len();
        let any = |random: &mut Random| match random.chance(60) {
            true => count - 1 - random.index(count.min(RECENT)),
            false => random.index(count),
        };
        let mut operand = any(random);
        for _ in 0..8 {
            if !free || !self.depends[operand] {
                break;
            }
            operand = any(random);
        }
        operand
    }

    /// Appends a random step.
    fn grow(&mut self, random: &mut Random) {
        let step = if self.steps.is_empty() || random.chance(20) {
            self.leaf(random)
        } else {
            let free = random.chance(40);
            let (left, right) = (self.operand(random, free), self.operand(random, free));
            let short = self.bits[left] + self.bits[right] <= BITS;
            match random.below(3) {
                0 if short => Step::Multiply(left, right),
                0 | 1 => Step::Add(left, right),
                _ => Step::Subtract(left, right),
            }
        };
        self.push(step);
    }
}

/// A datapath of `count` steps, at least 1, with no input but those in `used`.
pub fn path(random: &mut Random, sizes: &Sizes, count: usize, used: &[usize]) -> Datapath {
    let mut mix = Mix::new(sizes, used);
    for _ in 0..count {
        mix.grow(random);
    }
    let steps = mix.steps;
    let sizes = sizes.clone();
    Datapath { sizes, steps }
}

/// The same outputs in `count` steps, no fewer than those of the path. Steps are computed in other
/// ways where there is room; further ones stand between them, and where two are left, one of the
/// further ones is added to the output and taken away again.
pub fn padded(random: &mut Random, path: &Datapath, count: usize, used: &[usize]) -> Datapath {
    let rewritten = twin(random, path, Kind::Rewritten);
    let fits = rewritten.steps.len() <= count;
    let from = if fits { &rewritten } else { path };
    let mut rest = count - from.steps.len();
    let closing = if rest >= 2 { 2 } else { 0 };
    rest -= closing;
    let sizes = path.sizes.clone();
    let mut mix = Mix::new(&sizes, used);
    let mut places = Vec::new();
    for (index, &step) in from.steps.iter().enumerate() {
        let last = index + 1 == from.steps.len();
        let share = match last {
            true if closing == 0 => rest,
            true => random.index(rest + 1),
            false => random.index(rest / 2 + 1),
        };
        (0..share).for_each(|_| mix.grow(random));
        rest -= share;
        let step = moved(step, &places);
        places.push(mix.push(step));
    }
    let output = mix.steps.len() - 1;
    (0..rest).for_each(|_| mix.grow(random));
    if closing > 0 {
        let other = mix.operand(random, false);
        let sum = mix.push(Step::Add(other, output));
        mix.push(Step::Subtract(sum, other));
    }
    let steps = mix.steps;
    Datapath { sizes, steps }
}

/// A step whose operands are now at these places.
fn moved(step: Step, places: &[usize]) -> Step {
    match step {
        Step::Input(_) | Step::Constant(_) => step,
        Step::Add(left, right) => Step::Add(places[left], places[right]),
        Step::Subtract(left, right) => Step::Subtract(places[left], places[right]),
        Step::Multiply(left, right) => Step::Multiply(places[left], places[right]),
    }
}

#[cfg(test)]
mod tests {
    use super::*;
    use crate::file::{read, write};
    use crate::sessions::Survey;
    use crate::sizes::SIGNED;

    #[test]
    fn counts_are_exact_and_outputs_stay() {
        let mut random = Random::new(0x313);
        for m in [1, 5, 32, 64] {
            for (count, widths) in [
                (1, vec![1, 2, 1]),
                (2, vec![1, SIGNED + 2, 1]),
                (3, vec![1, 2, 1]),
                (10, vec![1, 2, 1]),
                (70, vec![1, 2, 1]),
                (70, vec![SIGNED + 1, 2, SIGNED + 2]),
            ] {
                let sizes = Sizes { m, widths };
                for used in [&[0, 1, 2][..], &[0, 1], &[2], &[]] {
                    let first = path(&mut random, &sizes, count, used);
                    assert_eq!(first.steps.len(), count);
                    for more in [0, 1, 2, 3, 50, 300] {
                        let second = padded(&mut random, &first, count + more, used);
                        assert_eq!(second.steps.len(), count + more);
                        assert_eq!(read(&write(&second), 1).as_ref(), Ok(&second));
                        let survey = Survey::new([first.clone(), second]);
                        assert_eq!(survey.first(0), None, "m {m}, {count} and {more} steps");
                    }
                }
            }
        }
    }

    #[test]
    fn both_sorts_of_steps_are_mixed() {
        let mut random = Random::new(0x314);
        let widths = vec![2, 2];
        let sizes = Sizes { m: 16, widths };
        let mut mix = Mix::new(&sizes, &[0, 1]);
        (0..1000).for_each(|_| mix.grow(&mut random));
        let changes = mix.depends.windows(2).filter(|pair| pair[0] != pair[1]);
        assert!(changes.count() > 200);
        assert!(mix.depends.iter().filter(|depends| !**depends).count() > 200);
    }
}
