//! Equivalent pairs from every position of the first lines of a grid, and from positions in the last
//! lines of large ones, by budgets around the sizes of batches, of lines and of groups of lines.

use super::bench::scratch;
use super::runs::{LANES, Runs, WAYS, line};
use crate::bench::{Bench, Outcome};
use reference::grid::{axes, size};
use reference::mixed;
use reference::random::Random;
use reference::sessions::{EQUIVALENT, KIND, RUN, SPENT, Survey, larger};
use reference::sizes::{SIGNED, Sizes};
use reference::twins::{Kind, twin};

pub const SEED: u64 = 0x57e7_c4e5_eed0;
pub const ENDS_SEED: u64 = 0x57e7_c4e5_eed1;

/// Positions in so many lines: past one group and the line before it.
const LINES: u64 = 20;

const STEPS: usize = 9;

/// m and widths: one line of many lengths, and lines of 2, 4, 6, 8, 10, 16, 18 and 34.
const GRIDS: [(u64, &[u64]); 32] = [
    (1, &[SIGNED + 1]),
    (64, &[SIGNED + 64]),
    (31, &[1, SIGNED + 1, 1, 1, 1, 1, 1, 1, SIGNED + 1]),
    (64, &[SIGNED + 64, SIGNED + 1]),
    (8, &[SIGNED + 3, 3, SIGNED + 1]),
    (32, &[3, SIGNED + 3, SIGNED + 2]),
    (16, &[1, SIGNED + 2, 2, SIGNED + 16]),
    (4, &[4, SIGNED + 4, 4]),
    (1, &[1]),
    (5, &[8]),
    (8, &[8]),
    (16, &[16]),
    (33, &[5]),
    (64, &[64]),
    (1, &[64; 8]),
    (31, &[1; 9]),
    (8, &[1, 1, 1, 1, 1, 1, 1, 1, 1, 2]),
    (64, &[64, 1]),
    (8, &[3, 3, 1]),
    (31, &[2, 1, 2, 1]),
    (2, &[64; 4]),
    (64, &[6, 2]),
    (32, &[3, 3, 2]),
    (4, &[4, 4, 4]),
    (7, &[8, 2, 8]),
    (33, &[6, 3]),
    (8, &[8, 2, 8]),
    (8, &[1, 2, 2, 8]),
    (63, &[5, 4]),
    (16, &[16, 16]),
    (16, &[1, 2, 2, 16]),
    (32, &[5, 32]),
];

/// Large grids, and so many positions in the last lines of each.
const LARGE: [(u64, &[u64]); 8] = [
    (64, &[SIGNED + 64; 10]),
    (33, &[SIGNED + 32, 64, SIGNED + 2, 64, SIGNED + 5]),
    (64, &[64; 10]),
    (64, &[64, 64, 64, 64, 64, 64, 64, 64, 64, 1]),
    (33, &[32, 64, 2, 64, 5]),
    (32, &[32; 8]),
    (16, &[16; 9]),
    (8, &[8; 10]),
];
const POSITIONS: usize = 40;

fn budgets(line: u64, left: u64) -> Vec<u64> {
    let group = LANES * line;
    let mut list = vec![1, 2, 15, 16, 17, 31, 32, 33, line - 1, line, line + 1];
    list.extend([group - 1, group, group + 1, group + line, group + line + 3]);
    list.extend([left.saturating_sub(1).max(1), left, u64::MAX]);
    list.sort_unstable();
    list.dedup();
    list
}

pub fn spans(bench: &mut Bench) -> Outcome {
    let mut random = Random::new(SEED);
    let mut runs = Runs::default();
    for (m, widths) in GRIDS {
        let widths = widths.to_vec();
        let sizes = Sizes { m, widths };
        let used: Vec<usize> = (0..sizes.d()).collect();
        for kind in [Kind::Rewritten, Kind::Vanishing] {
            let path = mixed::path(&mut random, &sizes, STEPS, &used);
            let other = twin(&mut random, &path, kind);
            let survey = Survey::new([path, other]);
            bench.start(survey.files())?;
            let most = survey.count().min(LINES * line(&survey));
            equivalent(bench, &mut runs, &survey, 0..most)?;
        }
    }
    runs.judge(bench, &WAYS, &[SPENT, EQUIVALENT], 1_000)
}

pub fn ends(bench: &mut Bench) -> Outcome {
    let mut random = Random::new(ENDS_SEED);
    let mut runs = Runs::default();
    for (m, widths) in LARGE {
        let widths = widths.to_vec();
        let sizes = Sizes { m, widths };
        let used: Vec<usize> = (0..sizes.d()).collect();
        let path = mixed::path(&mut random, &sizes, STEPS, &used);
        let other = twin(&mut random, &path, Kind::Vanishing);
        let axes = axes(&sizes);
        let count = size(&axes);
        let start = count - LINES * axes[axes.len() - 1];
        let survey = Survey::part([path, other], start..count);
        let position = |_| random.between(start, count - 1);
        let positions: Vec<u64> = (0..POSITIONS).map(position).collect();
        equivalent(bench, &mut runs, &survey, positions)?;
    }
    runs.judge(bench, &WAYS, &[SPENT, EQUIVALENT], 30)
}

fn equivalent(
    bench: &mut Bench,
    runs: &mut Runs,
    survey: &Survey,
    positions: impl IntoIterator<Item = u64>,
) -> Outcome {
    let (line, count) = (line(survey), survey.count());
    let scratch = scratch(larger(&survey.paths) + 3);
    for position in positions {
        let left = count - position;
        for budget in budgets(line, left) {
            let done = runs.run(bench, survey, position, budget, &scratch)?;
            let (kind, run) = if budget >= left {
                (EQUIVALENT, left)
            } else {
                (SPENT, budget)
            };
            bench.same(&done.answer[KIND..=RUN], &[kind, run], || {
                format!("from {position} by {budget}, lines of {line}")
            })?;
        }
    }
    Ok(())
}
