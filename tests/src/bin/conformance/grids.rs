//! Bounds for all m, and grids of all sizes.

use crate::bench::{Bench, Outcome};
use crate::refusals::plain;
use reference::calls::GRID;
use reference::examples::GRIDS;
use reference::file::SHORT_INPUTS;
use reference::pairs::{BOUNDS, FIGURES, SAMPLE_A};
use reference::random::Random;
use reference::samples;
use reference::signed::all_marked;
use reference::sizes::{INPUTS, SIGNED};

pub const SEED: u64 = 0x9a1d_5eed;

pub fn bounds(bench: &mut Bench) -> Outcome {
    let far = [
        1 << 16,
        1 << 32,
        (1 << 32) + 1,
        1 << 63,
        u64::MAX - 1,
        u64::MAX,
    ];
    for m in (0..=300).chain(far) {
        bench.bound(m)?;
    }
    for (m, least) in BOUNDS {
        let answer = bench.bound(m)?;
        bench.same(&answer[..4], &[0, 0, 0, least], || format!("bound({m})"))?;
    }
    for (m, figures) in FIGURES {
        let answer = bench.bound(m)?;
        bench.same(&answer[3..], &figures, || format!("bound({m})"))?;
    }
    for m in [0, 65, u64::MAX] {
        let answer = bench.bound(m)?;
        bench.same(&answer, &[2, 0, 0, 0, 0, 0, 0, 0, 0, 0], || {
            format!("bound({m})")
        })?;
    }
    Ok(())
}

/// 66^9, where 66 is L(64).
const NINTH_POWER: u64 = 23_762_680_013_799_936;

/// m, word lengths and G: the largest grids, their neighbours, and those of fewer inputs.
const LARGEST: [(u64, &[u64], u64); 11] = [
    (64, &[SIGNED + 64; 10], 66 * NINTH_POWER),
    (
        64,
        &[SIGNED + 1, 135, 7, 7, 7, 7, 7, 7, 7, 192],
        2 * NINTH_POWER,
    ),
    (64, &[7; 10], 66 * NINTH_POWER),
    (64, &[64; 10], 66 * NINTH_POWER),
    (64, &[64, 7, 7, 7, 7, 7, 7, 7, 7, 6], 64 * NINTH_POWER),
    (64, &[1, 7, 7, 7, 7, 7, 7, 7, 7, 7], 2 * NINTH_POWER),
    (64, &[6; 10], 1 << 60),
    (63, &[64; 10], 1 << 60),
    (64, &[7; 9], NINTH_POWER),
    (64, &[7; 8], NINTH_POWER / 66),
    (1, &[64; 10], 1 << 10),
];

/// One input of every n at every m; eight to ten inputs alike; the same of signed ones; random sizes;
/// the largest grids; the grids of the papers.
pub fn grids(bench: &mut Bench) -> Outcome {
    for m in 1..=64 {
        for n in 1..=64 {
            bench.grid(&plain(m, &[n], 1))?;
            for d in SHORT_INPUTS..=INPUTS {
                let found = bench.grid(&plain(m, &vec![n; d], 1))?;
                let signed = bench.grid(&plain(m, &vec![SIGNED + n; d], 1))?;
                bench.same(&signed, &found, || {
                    format!("the grid of m {m}, {d} signed inputs of {n} bits")
                })?;
            }
            let signed = bench.grid(&plain(m, &[SIGNED + n], 1))?;
            let [least, count] = [u128::from(bench.bound(m)?[3]), 1 << n];
            let axis = least.min(count) as u64;
            bench.same(&signed, &answer(&[axis], axis), || {
                format!("the grid of m {m}, a signed input of {n} bits")
            })?;
        }
    }
    let mut random = Random::new(SEED);
    for index in 0..14_000 {
        let sizes = samples::sizes(&mut random, 1 + index % 64);
        bench.grid(&plain(sizes.m, &sizes.widths, 1))?;
    }
    for (m, widths, count) in LARGEST {
        let answer = bench.grid(&plain(m, widths, 1))?;
        bench.same(&answer[GRID - 1], &count, || {
            format!("G of m {m}, n {widths:?}")
        })?;
    }
    let sample = bench.grid(&SAMPLE_A)?;
    bench.same(&sample, &answer(&[2, 4], 8), || {
        String::from("the grid of the sample")
    })?;
    for (m, widths, axis) in GRIDS {
        let d = widths.len();
        let expected = answer(&vec![axis; d], axis.pow(d as u32));
        for widths in [widths.to_vec(), all_marked(widths)] {
            let found = bench.grid(&plain(m, &widths, 1))?;
            bench.same(&found, &expected, || format!("grid of m {m}, n {widths:?}"))?;
        }
    }
    Ok(())
}

/// The answer with these axes and this G.
pub fn answer(axes: &[u64], count: u64) -> [u64; GRID] {
    let mut answer = [0; GRID];
    answer[3..3 + axes.len()].copy_from_slice(axes);
    answer[GRID - 1] = count;
    answer
}
