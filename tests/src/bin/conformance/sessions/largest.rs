//! The largest grids of eight to ten inputs, each with as many values as the largest bound. They are
//! opened, and continued from their last places.

use super::Files;
use super::bench::scratch;
use crate::bench::{Bench, Outcome};
use crate::grids::answer;
use reference::expression::{Expression, x};
use reference::sessions::{DIFFERS, EQUIVALENT, KIND, MARK, MARKS, Mark, POSITION, RUN, SPENT};
use reference::sizes::{INPUTS, SIGNED, lowest, words_of};

/// L(64).
const AXIS: u64 = 66;

/// Two lines and a few vectors of a third.
const LAST: u64 = 2 * AXIS + 5;

pub fn sessions(bench: &mut Bench) -> Outcome {
    // The least word length with so many values, and the greatest; of signed inputs too.
    for (d, width) in [
        (8, 7),
        (9, 64),
        (10, 64),
        (8, SIGNED + 7),
        (10, SIGNED + 64),
    ] {
        let count = AXIS.pow(d as u32);
        let file = |block: Expression| block.file(64, &vec![width; d]);
        let sum = || (2..=d).fold(x(1), |sum, input| sum + x(input));
        let square = || sum() * sum();
        let [block, same, other] = [square(), square() + 0, square() + 1].map(file);
        let found = bench.grid(&block)?;
        bench.same(&found, &answer(&vec![AXIS; d], count), || {
            format!("the grid of {d} word lengths {width}")
        })?;
        equivalent(bench, [&block, &same], count)?;
        differing(bench, [&block, &other], d, lowest(width))?;
        misplaced(bench, [&block, &same], count)?;
    }
    Ok(())
}

/// An equivalent pair, to the end and short of it.
fn equivalent(bench: &mut Bench, files: Files, count: u64) -> Outcome {
    let mut session = bench.start(files)?;
    for left in 1..=LAST {
        session[POSITION] = count - left;
        for budget in [1, left - 1, left, left + 1, u64::MAX] {
            if budget == 0 {
                continue;
            }
            let done = bench.answered(files, &session, budget, &scratch(64))?;
            let (kind, mark) = match budget < left {
                true => (SPENT, Mark::Open),
                false => (EQUIVALENT, Mark::Equal),
            };
            let run = budget.min(left);
            let what = || format!("{left} vectors before the end, by {budget}");
            bench.same(&done.answer[KIND..=RUN], &[kind, run], what)?;
            let after = [count - left + run, mark as u64];
            bench.same(&done.session[POSITION..=MARK], &after, what)?;
        }
    }
    Ok(())
}

/// A pair that differs everywhere: the vector shown is that of the position, whose last two digits
/// are those of its distance from the end, counted from the lowest value of the inputs.
fn differing(bench: &mut Bench, files: Files, d: usize, least: i128) -> Outcome {
    let mut session = bench.start(files)?;
    let count = AXIS.pow(d as u32);
    for left in 1..=LAST {
        session[POSITION] = count - left;
        let done = bench.answered(files, &session, u64::MAX, &scratch(64))?;
        let what = || format!("{left} vectors before the end");
        bench.same(&done.answer[KIND..=RUN], &[DIFFERS, 1], what)?;
        let mut vector = vec![least + i128::from(AXIS) - 1; d];
        vector[d - 2] -= i128::from((left - 1) / AXIS);
        vector[d - 1] -= i128::from((left - 1) % AXIS);
        vector.resize(INPUTS, 0);
        let shown = &done.answer[RUN + 1..][..INPUTS];
        bench.same(shown, &words_of(&vector)[..], what)?;
        let after = [count - left + 1, Mark::Differ as u64];
        bench.same(&done.session[POSITION..=MARK], &after, what)?;
    }
    Ok(())
}

/// Positions at the end and past it: 102 where they do not fit the mark, else 103.
fn misplaced(bench: &mut Bench, files: Files, count: u64) -> Outcome {
    let mut session = bench.start(files)?;
    for mark in MARKS {
        session[MARK] = mark as u64;
        for position in [count, count + 1, u64::MAX] {
            session[POSITION] = position;
            let done = bench.answered(files, &session, 1, &scratch(64))?;
            let number = match mark {
                Mark::Equal | Mark::Differ if position == count => 103,
                _ => 102,
            };
            bench.same(&done.answer[..3], &[number, 0, 0], || {
                format!("position {position}, {mark:?}")
            })?;
        }
    }
    Ok(())
}
