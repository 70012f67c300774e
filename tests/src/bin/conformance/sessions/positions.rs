//! Every position and mark on small grids, and every field of a session.

use super::Files;
use super::bench::scratch;
use crate::bench::{Bench, Outcome};
use crate::refusals::plain;
use reference::file::{Datapath, Step, read, write};
use reference::grid::{axes, digits, size};
use reference::pairs::{SAMPLE_A, SAMPLE_B, pairs};
use reference::sessions::{MARK, MARKS, POSITION, REFUSED, SESSION};
use reference::signed::{self, SAMPLE_SIGNED, SAMPLE_SIGNED_TEN, ZERO_SIGNED};
use reference::sizes::{SIGNED, Sizes};
use reference::ten_inputs::{self, SAMPLE_NINE, SAMPLE_TEN, ZERO_TEN};
use reference::twins::late;

/// Grids with more vectors are run from a few positions near their ends.
const EVERY: u64 = 100;

/// Positions on the grid, at its end and far past it.
fn positions(count: u64) -> Vec<u64> {
    let far = [1 << 32, 1 << 63, u64::MAX - count, u64::MAX - 1, u64::MAX];
    let chosen = |&position: &u64| count <= EVERY || position < 2 || position > count - 3;
    (0..=count + 2).filter(chosen).chain(far).collect()
}

/// Budgets around the end of the grid, and such that position plus budget passes 2^64.
fn budgets(count: u64, position: u64) -> Vec<u64> {
    let left = count.saturating_sub(position);
    let mut list = vec![0, 1, 2, 3, left / 2, count, u64::MAX - 1, u64::MAX, 1 << 63];
    list.extend([left.saturating_sub(1), left, left + 1]);
    list.extend([u64::MAX - position, (u64::MAX - position).saturating_add(1)]);
    list.sort_unstable();
    list.dedup();
    list
}

/// The pairs of document 01, those of eight to ten inputs and of signed ones, and pairs that first
/// differ at each place in turn.
fn files() -> Vec<[Vec<u8>; 2]> {
    let named = [pairs(), ten_inputs::pairs(), signed::pairs()];
    let named = named.into_iter().flatten();
    let mut list: Vec<[Vec<u8>; 2]> = named.map(|pair| pair.files).collect();
    for widths in [vec![1, 2, 1], vec![SIGNED + 1, 2, SIGNED + 1]] {
        let sizes = Sizes { m: 20, widths };
        let grid = axes(&sizes);
        let steps = vec![Step::Input(1)];
        let path = Datapath { sizes, steps };
        for digits in digits(&grid) {
            list.push([write(&path), write(&late(&path, &digits))]);
        }
    }
    list
}

pub fn places(bench: &mut Bench) -> Outcome {
    for pair in files() {
        let files = pair.each_ref().map(Vec::as_slice);
        let start = bench.start(files)?;
        let path = read(files[0], 1).map_err(|refusal| format!("{refusal:?}"))?;
        let count = size(&axes(&path.sizes));
        for mark in MARKS {
            for position in positions(count) {
                for budget in budgets(count, position) {
                    let mut session = start;
                    session[POSITION] = position;
                    session[MARK] = mark as u64;
                    bench.answered(files, &session, budget, &scratch(64))?;
                }
            }
        }
    }
    Ok(())
}

/// Each word of a session at every byte and at numbers that are no bytes, of signed inputs too; of
/// sessions of eight to ten inputs, at some bytes.
pub fn fields(bench: &mut Bench) -> Outcome {
    let some = [0, 1, 2, 8, 9, 10, 11, 64, 128, 129, 192, 255];
    let all = Vec::from_iter(0..=255);
    let eight = plain(2, &[1; 8], 3);
    damaged(bench, [&SAMPLE_A, &SAMPLE_B], 8, &all)?;
    damaged(bench, [&SAMPLE_SIGNED, &ZERO_SIGNED], 80, &all)?;
    let ten = &SAMPLE_SIGNED_TEN;
    damaged(bench, [ten, ten], 1024, &some)?;
    damaged(bench, [&eight, &eight], 256, &some)?;
    damaged(bench, [&SAMPLE_NINE, &SAMPLE_NINE], 512, &some)?;
    damaged(bench, [&SAMPLE_TEN, &ZERO_TEN], 1024, &some)
}

/// Each word of a session of these files, whose grid has so many vectors, at these bytes and at
/// numbers that are no bytes.
fn damaged(bench: &mut Bench, files: Files, count: u64, bytes: &[u64]) -> Outcome {
    let start = bench.start(files)?;
    let wide = [256, 257, 1 << 32, (1 << 32) + 2, 1 << 63, u64::MAX];
    for index in 0..SESSION {
        for &word in bytes.iter().chain(&wide) {
            let near = [(0, 0), (3, 0), (count, 1), (count - 2, 2), (count + 1, 0)];
            for (position, mark) in near {
                let mut session = start;
                session[POSITION] = position;
                session[MARK] = mark;
                session[index] = word;
                let done = bench.continued(files, &session, 2, &scratch(3))?;
                let fits = match index {
                    POSITION => true,
                    MARK => word <= 2,
                    _ => word <= 255,
                };
                bench.same(&done.is_some(), &fits, || {
                    format!("word {index} of a session is {word}")
                })?;
                if let Some(done) = done.filter(|_| index < POSITION && word != start[index]) {
                    bench.same(&done.answer[..4], &[101, 0, 0, REFUSED], || {
                        format!("word {index} of a session is {word}")
                    })?;
                }
                bench.continued(files, &session, 0, &scratch(3))?;
                bench.continued(files, &session, 2, &scratch(2))?;
                bench.continued([files[0], &[]], &session, 2, &scratch(3))?;
            }
        }
    }
    Ok(())
}
