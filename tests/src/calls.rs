//! What the C functions answer, in the layouts of include/corkbingo.h.

use crate::bound;
use crate::file::{Datapath, Refusal, operations as stretch, read};
use crate::grid;
use crate::sizes::{INPUTS, sound_m};
use crate::value;

pub(crate) const ACCEPTED: Refusal = Refusal {
    number: 0,
    file: 0,
    step: 0,
};

pub(crate) fn refusal_words(refusal: Refusal) -> [u64; 3] {
    [refusal.number, refusal.file, refusal.step]
}

/// The numbers that an answer may carry: 0 of an accepted call, and those of the conditions.
pub const NUMBERS: [u64; 17] = [0, 1, 2, 3, 4, 5, 6, 7, 8, 9, 11, 12, 13, 14, 101, 102, 103];

/// Number, file, step.
pub fn check(file: &[u8]) -> [u64; 3] {
    refusal_words(read(file, 1).err().unwrap_or(ACCEPTED))
}

/// Start and length of the operation stretch.
pub fn operations(file: &[u8]) -> [u64; 2] {
    let (start, length) = stretch(file);
    [start as u64, length as u64]
}

/// Number, file, step, L(m), and L(m) divided by 2, 4, 8, 16, 32 and 64, each rounded down.
pub fn bound(m: u64) -> [u64; 10] {
    let mut answer = [0; 10];
    if sound_m(m) {
        let least = bound::bound(m);
        answer[3] = least;
        answer[4..].copy_from_slice(&bound::quotients(least));
    } else {
        answer[0] = 2;
    }
    answer
}

/// The words of a grid's answer: number, file, step, u1 to u10, G.
pub const GRID: usize = 4 + INPUTS;

pub fn grid(file: &[u8]) -> [u64; GRID] {
    let mut answer = [0; GRID];
    match read(file, 1) {
        Err(refusal) => answer[..3].copy_from_slice(&refusal_words(refusal)),
        Ok(path) => {
            let axes = grid::axes(&path.sizes);
            answer[3..3 + axes.len()].copy_from_slice(&axes);
            answer[GRID - 1] = grid::size(&axes);
        }
    }
    answer
}

#[derive(Clone, Debug, PartialEq, Eq)]
pub struct Evaluation {
    /// Number, file, step, output.
    pub answer: [u64; 4],
    /// The scratch slice after the call.
    pub scratch: Vec<u64>,
    /// Whether exact values confirm the output.
    pub exact: bool,
}

/// The datapath and the vector of an accepted call, or its refusal: the conditions 1 to 8, then 12,
/// then 14.
fn judge(file: &[u8], words: &[u64], scratch: usize) -> Result<(Datapath, Vec<i128>), Refusal> {
    let path = read(file, 1)?;
    if scratch < path.steps.len() {
        return Err(Refusal::plain(12));
    }
    let vector = path.sizes.vector(words).ok_or(Refusal::plain(14))?;
    Ok((path, vector))
}

/// Evaluates at the vector that these words give. An accepted call clears the first N scratch
/// entries, a refused one none.
pub fn evaluate(file: &[u8], words: &[u64], scratch: &[u64]) -> Evaluation {
    let mut scratch = scratch.to_vec();
    let (refusal, output, exact) = match judge(file, words, scratch.len()) {
        Err(refusal) => (refusal, 0, false),
        Ok((path, vector)) => {
            scratch[..path.steps.len()].fill(0);
            let found = value::output(&path, &vector);
            (ACCEPTED, found.output, found.exact)
        }
    };
    let [number, file, step] = refusal_words(refusal);
    Evaluation {
        answer: [number, file, step, output],
        scratch,
        exact,
    }
}

#[cfg(test)]
mod tests {
    use super::*;
    use crate::pairs::SAMPLE_A;

    #[test]
    fn answers_of_the_sample() {
        assert_eq!(check(&SAMPLE_A), [0, 0, 0]);
        assert_eq!(operations(&SAMPLE_A), [12, 3]);
        let mut expected = [0; GRID];
        expected[3..5].copy_from_slice(&[2, 4]);
        expected[GRID - 1] = 8;
        assert_eq!(grid(&SAMPLE_A), expected);
        let done = evaluate(&SAMPLE_A, &[1, 3], &[7, 7, 7, 7]);
        assert_eq!((done.answer, done.exact), ([0, 0, 0, 3], true));
        assert_eq!(done.scratch, [0, 0, 0, 7]);
    }

    #[test]
    fn scratch_comes_before_the_vector() {
        let refused = evaluate(&SAMPLE_A, &[1], &[7, 7]);
        assert_eq!(refused.answer, [12, 0, 0, 0]);
        assert_eq!(refused.scratch, [7, 7]);
        assert_eq!(evaluate(&SAMPLE_A, &[1, 4], &[7; 3]).answer, [14, 0, 0, 0]);
    }
}
