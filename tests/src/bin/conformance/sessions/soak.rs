//! Continue calls from random sessions, sound and damaged, with random files.

use crate::bench::{Bench, Outcome};
use reference::file::write;
use reference::grid::{axes, size};
use reference::random::Random;
use reference::samples;
use reference::sessions::{DIFFERS, EQUIVALENT, KIND, MARK, POSITION, REFUSED, SESSION, SPENT};
use reference::sizes::{INPUTS, Sizes};
use reference::twins::{self, KINDS, small_sizes, twin, varied_sizes};
use std::collections::BTreeMap;

pub const SEED: u64 = 0x5e55_10e5_eed0;

const CALLS: u64 = 54_000;

/// The most vectors that a call is let run.
const VECTORS: u64 = 120;

/// How many of a hundred small grids have eight inputs or more.
const MANY_INPUTS: u64 = 10;

#[derive(Default)]
struct Seen {
    numbers: BTreeMap<u64, u64>,
    kinds: BTreeMap<u64, u64>,
    /// Accepted calls, by d.
    accepted_d: BTreeMap<usize, u64>,
    /// Accepted calls without signed inputs and with some, by kind.
    unsigned: BTreeMap<u64, u64>,
    signed: BTreeMap<u64, u64>,
    /// Sessions that don't fit their fields, and openings.
    unfit: u64,
    opened: u64,
}

pub fn sessions(bench: &mut Bench) -> Outcome {
    let mut random = Random::new(SEED);
    let mut seen = Seen::default();
    for index in 0..CALLS {
        let m = 1 + index % 64;
        let sizes = match random.chance(70) {
            true => varied_sizes(&mut random, m, VECTORS, MANY_INPUTS),
            false => samples::sizes(&mut random, m),
        };
        let files = files(&mut random, &sizes);
        let files = files.each_ref().map(Vec::as_slice);
        let opened = bench.open(files)?;
        seen.opened += u64::from(opened.answer[0] == 0);
        let count = size(&axes(&sizes));
        let session = session(&mut random, &sizes, count);
        let budget = budget(&mut random, count, session[POSITION]);
        let steps = files[0].len().max(files[1].len()) / 9;
        let scratch = scratch(&mut random, steps.saturating_sub(1));
        match bench.continued(files, &session, budget, &scratch)? {
            None => seen.unfit += 1,
            Some(done) => {
                *seen.numbers.entry(done.answer[0]).or_default() += 1;
                *seen.kinds.entry(done.answer[KIND]).or_default() += 1;
                if done.answer[0] == 0 {
                    *seen.accepted_d.entry(sizes.d()).or_default() += 1;
                    let signs = match sizes.signed() {
                        true => &mut seen.signed,
                        false => &mut seen.unsigned,
                    };
                    *signs.entry(done.answer[KIND]).or_default() += 1;
                }
            }
        }
    }
    seen.judge(bench)
}

/// A pair of these sizes; now and then one file is damaged, or is of other sizes.
fn files(random: &mut Random, sizes: &Sizes) -> [Vec<u8>; 2] {
    let path = twins::path(random, sizes);
    let kind = random.pick(&KINDS);
    let other = twin(random, &path, kind);
    let mut files = [write(&path), write(&other)];
    let index = random.index(2);
    match random.below(20) {
        0..4 => samples::damage(random, &mut files[index]),
        4 => {
            let sizes = small_sizes(random, sizes.m, VECTORS);
            files[index] = write(&twins::path(random, &sizes));
        }
        5..9 => files.swap(0, 1),
        _ => {}
    }
    files
}

/// A session of these sizes at a place of the grid or near its ends; often one word is changed.
fn session(random: &mut Random, sizes: &Sizes, count: u64) -> [u64; SESSION] {
    let mut session = [0; SESSION];
    session[..POSITION].copy_from_slice(&sizes.numbers());
    session[POSITION] = match random.below(10) {
        0 => 0,
        1 => 1,
        2 => count,
        3 => count + 1,
        4 => count - 1,
        5 => count - 1 - random.below(count.min(30)),
        6 => random.edged_word(),
        _ => random.below(count),
    };
    session[MARK] = match random.below(10) {
        0 | 1 => 1,
        2 => 2,
        _ => 0,
    };
    if random.chance(15) {
        let index = random.index(SESSION);
        session[index] = match random.below(7) {
            6 => session[index] ^ 128,
            0 => session[index].wrapping_add(1),
            1 => session[index].wrapping_sub(1),
            2 => 255,
            3 => session[index].wrapping_add(256),
            4 => random.below(256),
            _ => random.edged_word(),
        };
    }
    session
}

/// Any budget where the rest of the grid is short, else a small one.
fn budget(random: &mut Random, count: u64, position: u64) -> u64 {
    let left = count.saturating_sub(position);
    let small = random.below(VECTORS);
    match random.below(10) {
        0 => 0,
        1 => 1,
        2..6 if left <= VECTORS => {
            let about = left.saturating_add(random.below(3)).saturating_sub(1);
            random.pick(&[u64::MAX, u64::MAX - position, 1 << 63, left, about])
        }
        _ => small,
    }
}

fn scratch(random: &mut Random, count: usize) -> Vec<u64> {
    let length = match random.below(12) {
        0 => count.saturating_sub(1),
        1 => random.index(count + 1),
        2..8 => count,
        _ => count + random.index(20),
    };
    (0..length).map(|_| random.word()).collect()
}

impl Seen {
    /// A generator that no longer reaches something is an error of the tests.
    fn judge(&self, bench: &mut Bench) -> Outcome {
        let mut often = |what: String, found: Option<&u64>, least: u64| {
            let enough = found.is_some_and(|&found| found >= least);
            bench.same(&enough, &true, || format!("{what}: only {found:?}"))
        };
        for number in [0, 1, 2, 3, 4, 5, 6, 7, 8, 9, 11, 12, 101, 102, 103] {
            often(format!("answers {number}"), self.numbers.get(&number), 20)?;
        }
        for kind in [REFUSED, SPENT, EQUIVALENT, DIFFERS] {
            often(
                format!("answers of kind {kind}"),
                self.kinds.get(&kind),
                2_000,
            )?;
        }
        for d in 1..=INPUTS {
            often(format!("accepted, d {d}"), self.accepted_d.get(&d), 300)?;
        }
        for kind in [SPENT, EQUIVALENT, DIFFERS] {
            often(
                format!("kind {kind}, unsigned"),
                self.unsigned.get(&kind),
                1_500,
            )?;
            often(format!("kind {kind}, signed"), self.signed.get(&kind), 500)?;
        }
        often(String::from("unfit sessions"), Some(&self.unfit), 500)?;
        often(String::from("openings"), Some(&self.opened), CALLS / 2)
    }
}
