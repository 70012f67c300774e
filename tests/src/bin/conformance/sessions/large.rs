//! Sessions on large grids: at their ends, at differences far inside, and at any place.

use super::bench::scratch;
use crate::bench::{Bench, Outcome};
use reference::file::{Datapath, write};
use reference::grid::{axes, place_of, size};
use reference::random::Random;
use reference::sessions::{DIFFERS, EQUIVALENT, KIND, MARK, POSITION, RUN, SPENT};
use reference::sizes::{SIGNED, Sizes};
use reference::twins::{self, Kind, countable, late, twin};

pub const SEED: u64 = 0x1a26_e5e5_5105;

pub fn sessions(bench: &mut Bench) -> Outcome {
    let mut random = Random::new(SEED);
    let list: [(u64, &[u64]); 11] = [
        (64, &[SIGNED + 64; 10]),
        (
            64,
            &[
                SIGNED + 7,
                6,
                SIGNED + 64,
                5,
                64,
                SIGNED + 1,
                3,
                64,
                SIGNED + 2,
                64,
            ],
        ),
        (
            8,
            &[8, SIGNED + 8, 8, SIGNED + 8, 8, SIGNED + 8, 8, SIGNED + 8],
        ),
        (64, &[64; 10]),
        (64, &[7, 6, 64, 5, 64, 1, 3, 64, 2, 64]),
        (63, &[8; 7]),
        (32, &[32; 9]),
        (17, &[2, 64, 4, 64, 4, 64, 2, 1]),
        (8, &[8; 8]),
        (3, &[64; 9]),
        (64, &[64, 1]),
    ];
    for (m, widths) in list {
        let sizes = Sizes {
            m,
            widths: widths.to_vec(),
        };
        for _ in 0..12 {
            let path = twins::path(&mut random, &sizes);
            let kind = random.pick(&[Kind::Same, Kind::Rewritten]);
            let other = twin(&mut random, &path, kind);
            equivalent(bench, &mut random, [&path, &other])?;
            let digits = countable(&mut random, &sizes);
            let place = place_of(&axes(&sizes), &digits);
            differing(bench, [&path, &late(&path, &digits)], place)?;
        }
    }
    Ok(())
}

/// An equivalent pair from places near both ends and between.
fn equivalent(bench: &mut Bench, random: &mut Random, paths: [&Datapath; 2]) -> Outcome {
    let files = paths.map(write);
    let files = files.each_ref().map(Vec::as_slice);
    let mut session = bench.start(files)?;
    let count = size(&axes(&paths[0].sizes));
    for left in [1, 2, 9, count / 2, random.below(count) + 1, count] {
        session[POSITION] = count - left;
        for budget in [1, 8, 9, 10, u64::MAX] {
            if budget.min(left) > 10 {
                continue;
            }
            let done = bench.answered(files, &session, budget, &scratch(64))?;
            let (kind, run) = if budget >= left {
                (EQUIVALENT, left)
            } else {
                (SPENT, budget)
            };
            bench.same(&done.answer[KIND..=RUN], &[kind, run], || {
                format!("{left} vectors before the end of {count}")
            })?;
        }
    }
    Ok(())
}

/// A pair that first differs at this place, from before, at and after it.
fn differing(bench: &mut Bench, paths: [&Datapath; 2], place: u64) -> Outcome {
    let files = paths.map(write);
    let files = files.each_ref().map(Vec::as_slice);
    let scratch = scratch(paths[1].steps.len());
    let mut session = bench.start(files)?;
    for before in [0, 1, 2, 7] {
        if before > place {
            continue;
        }
        session[POSITION] = place - before;
        for budget in [before, before + 1, before + 5, u64::MAX] {
            let done = bench.answered(files, &session, budget, &scratch)?;
            if budget > before {
                bench.same(&done.answer[KIND..=RUN], &[DIFFERS, before + 1], || {
                    format!("{before} vectors before place {place}")
                })?;
                bench.same(&done.session[POSITION..=MARK], &[place + 1, 2], || {
                    format!("the session after place {place}")
                })?;
            }
        }
    }
    session[POSITION] = place + 1;
    bench.answered(files, &session, 3, &scratch)?;
    Ok(())
}
