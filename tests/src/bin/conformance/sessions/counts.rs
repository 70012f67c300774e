//! Random datapaths of chosen counts of steps, in both orders of a pair, with inputs used and
//! unused; such as differ in few places of a line; and the entries of longer scratch slices.

use super::bench::scratch;
use super::runs::{ACCEPTED, LANES, Runs, WAYS, line};
use crate::bench::{Bench, Outcome};
use reference::file::Datapath;
use reference::grid::{axes, size};
use reference::mixed::{self, padded};
use reference::random::Random;
use reference::sessions::{DIFFERS, REFUSED, SPENT, Survey, larger};
use reference::sizes::{SIGNED, Sizes};
use reference::twins::{Kind, barely, countable, twin};

pub const COUNTS_SEED: u64 = 0xc0a7_75e5_eed0;
pub const LINES_SEED: u64 = 0xc0a7_75e5_eed1;
pub const SCRATCH_SEED: u64 = 0xc0a7_75e5_eed2;

/// Output word lengths, around that of a 32-bit product, and counts of steps, around 64, 256 and 512.
const WORDS: [u64; 9] = [1, 2, 8, 16, 31, 32, 33, 63, 64];
const COUNTS: [usize; 12] = [1, 2, 63, 64, 65, 200, 256, 257, 512, 513, 1023, 1024];

/// Word lengths of the inputs; the grid depends on m too.
const WIDTHS: [&[u64]; 12] = [
    &[1; 6],
    &[1; 8],
    &[1; 9],
    &[1; 10],
    &[64, 1],
    &[1, 1, 1, 1, 1, 2],
    &[5, 2],
    &[2, 64, 3],
    &[1, 1, 1, 1, 1, 64],
    &[64],
    &[64, 64],
    &[1, 1, 1, 1, 1, 3],
];

/// Word lengths for steps along a line.
const LINES: [&[u64]; 7] = [
    &[1; 6],
    &[1; 6],
    &[1, 1, 1, 1, 1, 2],
    &[1, 1, 1, 1, 1, 2],
    &[1; 8],
    &[1; 9],
    &[1; 10],
];

/// The most places times steps of a pair, and of one with steps along a line.
const WORK: u64 = 150_000;
const LINES_WORK: u64 = 300_000;

/// Calls of a pair.
const CALLS: usize = 24;

/// Sizes with this m and some of these word lengths, whose grid has at most so many vectors.
fn sizes(random: &mut Random, m: u64, list: &[&[u64]], most: u64) -> Sizes {
    loop {
        let widths = random.pick(list).to_vec();
        let sizes = Sizes { m, widths };
        if size(&axes(&sizes)) <= most {
            return sizes;
        }
    }
}

/// All inputs, all but the last, the last alone, some, or none.
fn used(random: &mut Random, d: usize) -> Vec<usize> {
    let all: Vec<usize> = (0..d).collect();
    match random.below(8) {
        0 | 1 => all[..d - 1].to_vec(),
        2 => all[d - 1..].to_vec(),
        3 => Vec::new(),
        4 => all.into_iter().filter(|_| random.chance(50)).collect(),
        _ => all,
    }
}

/// The same sizes with some inputs signed, and one at least.
fn signed(random: &mut Random, mut sizes: Sizes) -> Sizes {
    let one = random.index(sizes.d());
    for (input, width) in sizes.widths.iter_mut().enumerate() {
        if input == one || random.chance(50) {
            *width += SIGNED;
        }
    }
    sizes
}

/// A pair of these counts of steps: equivalent, first differing by one bit at some vector where
/// there is room for it, or with a changed step. The further steps may have other inputs.
fn pair(random: &mut Random, sizes: &Sizes, counts: [usize; 2]) -> [Datapath; 2] {
    let least = counts[0].min(counts[1]);
    let [used, further] = [0; 2].map(|_| used(random, sizes.d()));
    let any = random.between(1, least as u64) as usize;
    let count = random.pick(&[least, any, any.min(8)]);
    let path = mixed::path(random, sizes, count, &used);
    let mut paths = [path.clone(), path.clone()];
    let index = random.index(2);
    let digits = countable(random, sizes);
    let late = barely(&path, &digits);
    match random.below(4) {
        0 => {}
        1 => paths[index] = twin(random, &path, Kind::Changed),
        _ if late.steps.len() <= counts[index] => paths[index] = late,
        _ => {}
    }
    let [first, second] = paths;
    [
        padded(random, &first, counts[0], &further),
        padded(random, &second, counts[1], &further),
    ]
}

/// A pair of these counts of steps, at least 63, whose outputs do not depend on the last input but
/// for one bit, while most steps do: a step that is left as it was along a line hides the difference.
fn hidden(random: &mut Random, sizes: &Sizes, counts: [usize; 2]) -> [Datapath; 2] {
    let last = sizes.d() - 1;
    let before: Vec<usize> = (0..last).collect();
    let count = random.between(1, 8) as usize;
    let path = mixed::path(random, sizes, count, &before);
    let mut digits = countable(random, sizes);
    digits[last] = digits[last].max(1);
    let mut paths = [barely(&path, &digits), path];
    if random.chance(50) {
        paths.swap(0, 1);
    }
    let [first, second] = paths;
    [
        padded(random, &first, counts[0], &[last]),
        padded(random, &second, counts[1], &[last]),
    ]
}

fn position(random: &mut Random, survey: &Survey) -> u64 {
    let (line, count) = (line(survey), survey.count());
    match random.below(6) {
        0 | 1 => 0,
        2 => count - 1 - random.below(count.min(2 * LANES)),
        3 => random.below(count.min(2 * line)),
        _ => random.below(count),
    }
}

fn budget(random: &mut Random, survey: &Survey, position: u64) -> u64 {
    let (line, left) = (line(survey), survey.count() - position);
    match random.below(8) {
        0 => random.between(1, LANES - 1),
        1 => random.between(LANES, 3 * LANES),
        2 => LANES * line + random.below(2 * line),
        3 => left,
        4 => (left - 1).max(1),
        5 => u64::MAX,
        _ => random.between(1, left),
    }
}

pub fn counts(bench: &mut Bench) -> Outcome {
    let mut random = Random::new(COUNTS_SEED);
    let mut runs = Runs::default();
    for (index, m) in WORDS.into_iter().enumerate() {
        for (row, first) in COUNTS.into_iter().enumerate() {
            for (column, second) in COUNTS.into_iter().enumerate() {
                let long = first + second > 1_000;
                if long && (index + row + column) % 3 > 0 {
                    continue;
                }
                let most = WORK / (first + second) as u64;
                let chosen = sizes(&mut random, m, &WIDTHS, most);
                let survey = Survey::new(pair(&mut random, &chosen, [first, second]));
                calls(bench, &mut random, &mut runs, &survey)?;
                if (index + row + column) % 4 == 0 {
                    let chosen = sizes(&mut random, m, &WIDTHS, most);
                    let chosen = signed(&mut random, chosen);
                    let survey = Survey::new(pair(&mut random, &chosen, [first, second]));
                    calls(bench, &mut random, &mut runs, &survey)?;
                }
            }
        }
    }
    runs.judge(bench, &WAYS, &ACCEPTED, 100)
}

pub fn lines(bench: &mut Bench) -> Outcome {
    let mut random = Random::new(LINES_SEED);
    let mut runs = Runs::default();
    for (index, m) in WORDS.into_iter().enumerate() {
        for (row, &first) in COUNTS[2..].iter().enumerate() {
            for (column, &second) in COUNTS[2..].iter().enumerate() {
                if (index + row + column) % 3 > 0 {
                    continue;
                }
                let most = LINES_WORK / (first + second) as u64;
                let mut list = vec![sizes(&mut random, m, &LINES, most)];
                if (row + column) % 4 == 0 {
                    let further = sizes(&mut random, m, &LINES, most);
                    list.push(signed(&mut random, further));
                }
                for chosen in list {
                    let survey = Survey::new(hidden(&mut random, &chosen, [first, second]));
                    calls(bench, &mut random, &mut runs, &survey)?;
                    let scratch = scratch(first.max(second));
                    runs.finish(bench, &survey, 0, || u64::MAX, &scratch)?;
                }
            }
        }
    }
    runs.judge(bench, &WAYS, &[SPENT, DIFFERS], 100)
}

/// From random positions by random budgets, and once from the beginning by budgets of any size.
fn calls(bench: &mut Bench, random: &mut Random, runs: &mut Runs, survey: &Survey) -> Outcome {
    let count = larger(&survey.paths);
    bench.start(survey.files())?;
    for _ in 0..CALLS {
        let position = position(random, survey);
        let budget = budget(random, survey, position);
        let scratch: Vec<u64> = (0..count + random.index(20))
            .map(|_| random.word())
            .collect();
        runs.run(bench, survey, position, budget, &scratch)?;
    }
    let any = || random.between(1, survey.count());
    runs.finish(bench, survey, 0, any, &scratch(count))
}

/// Scratch slices as long as the larger N and longer, marked in every entry, and one too short.
pub fn scratches(bench: &mut Bench) -> Outcome {
    let mut random = Random::new(SCRATCH_SEED);
    let mut runs = Runs::default();
    for (m, d, mark) in [(8, 8, 0), (32, 9, 0), (33, 10, 0), (16, 9, SIGNED)] {
        for first in COUNTS {
            for second in COUNTS {
                if first + second > 300 && first != second && first.min(second) != 64 {
                    continue;
                }
                let d = if first + second > 130 { 6 } else { d };
                let widths = vec![mark + 1; d];
                let sizes = Sizes { m, widths };
                let survey = Survey::new(pair(&mut random, &sizes, [first, second]));
                longer(bench, &mut runs, &survey)?;
            }
        }
    }
    runs.judge(bench, &WAYS, &[REFUSED, SPENT, DIFFERS], 50)
}

fn longer(bench: &mut Bench, runs: &mut Runs, survey: &Survey) -> Outcome {
    let count = larger(&survey.paths);
    let lengths = [
        count,
        count + 1,
        count + 7,
        count + 64,
        1024 + LANES as usize,
    ];
    for budget in [1, LANES - 1, LANES, 35, 36, 40, u64::MAX] {
        for length in lengths {
            let before = scratch(length);
            let after = runs.run(bench, survey, 3, budget, &before)?.scratch;
            let what = || format!("{length} scratch words for {count} steps, budget {budget}");
            bench.same(&after[..count], &vec![0; count][..], what)?;
            bench.same(&after[count..], &before[count..], what)?;
            let again = runs.run(bench, survey, 3, budget, &after)?.scratch;
            bench.same(&again, &after, what)?;
        }
        let short = scratch(count - 1);
        let done = runs.run(bench, survey, 3, budget, &short)?;
        bench.same(&done.answer[..4], &[12, 0, 0, REFUSED], || {
            format!("one scratch word too few for {count} steps")
        })?;
        bench.same(&done.scratch, &short, || String::from("a refused call"))?;
    }
    Ok(())
}
