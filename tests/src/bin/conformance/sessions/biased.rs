//! Signed pairs beside the same pairs biased, as users wrote them before there were signed inputs: an
//! unsigned input x, of which 2^(n−1) is taken away, in the place of a signed one.
//!
//! The two have the same outputs at the same places. So every call gives both the same answer, but
//! that the vectors shown differ by the lowest values.

use super::bench::scratch;
use crate::bench::{Bench, Outcome};
use reference::file::{Datapath, write};
use reference::grid::{axes, size};
use reference::random::Random;
use reference::sessions::{ANSWER, DIFFERS, EQUIVALENT, KIND, POSITION, RUN, SPENT};
use reference::signed::{all_marked, rebased, unmarked};
use reference::sizes::{INPUTS, SIGNED, Sizes, lowest, word_of};
use reference::twins::{self, KINDS, twin, varied_sizes};
use std::collections::BTreeMap;

pub const SEED: u64 = 0xb1a5_5e5e_ed00;

const PAIRS: u64 = 512;

/// The most vectors of a grid, but where there are eight inputs or more; and how many of a hundred
/// pairs are such.
const VECTORS: u64 = 200;
const MANY_INPUTS: u64 = 4;

pub fn pairs(bench: &mut Bench) -> Outcome {
    let mut random = Random::new(SEED);
    let mut seen = BTreeMap::new();
    for index in 0..PAIRS {
        let sizes = varied_sizes(&mut random, 1 + index % 64, VECTORS, MANY_INPUTS);
        let path = twins::path(&mut random, &sizes);
        let kind = random.pick(&KINDS);
        let paths = [twin(&mut random, &path, kind), path];
        let mut some = unmarked(&sizes.widths);
        for width in &mut some {
            *width += random.below(2) * SIGNED;
        }
        let biased = unmarked(&sizes.widths);
        for widths in [all_marked(&sizes.widths), some] {
            let with = |widths| paths.each_ref().map(|path| rebased(path, widths));
            let both = [with(&biased), with(&widths)];
            let kind = beside(bench, &mut random, &both)?;
            *seen.entry(kind).or_insert(0) += 1;
        }
    }
    for kind in [EQUIVALENT, DIFFERS] {
        let found = seen.get(&kind).copied().unwrap_or(0);
        bench.same(&(found > PAIRS / 2), &true, || {
            format!("kind {kind} occurs: {seen:?}")
        })?;
    }
    Ok(())
}

/// Continues the biased pair and the signed one from their openings by the same budgets to the
/// verdict, and gives its kind.
fn beside(bench: &mut Bench, random: &mut Random, both: &[[Datapath; 2]; 2]) -> Outcome<u64> {
    let [_, signed] = both.each_ref().map(|paths| &paths[0].sizes);
    let files = both.each_ref().map(|paths| paths.each_ref().map(write));
    let files = files
        .each_ref()
        .map(|pair| pair.each_ref().map(Vec::as_slice));
    let mut sessions = [bench.start(files[0])?, bench.start(files[1])?];
    let count = size(&axes(signed));
    loop {
        let any = random.between(1, count);
        let budget = random.pick(&[u64::MAX, any, count / 3 + 1]);
        let [plain, marked] = [0, 1].map(|which| {
            let scratch = scratch(1_024);
            bench.answered(files[which], &sessions[which], budget, &scratch)
        });
        let (plain, marked) = (plain?, marked?);
        let moved = shifted(&plain.answer, signed);
        bench.same(&marked.answer, &moved, || {
            format!("the signed pair beside the biased one, {signed:?}")
        })?;
        let [places, others] = [&plain, &marked].map(|done| &done.session[POSITION..]);
        bench.same(places, others, || format!("the sessions, {signed:?}"))?;
        sessions = [plain.session, marked.session];
        if plain.answer[KIND] != SPENT {
            #[cfg(feature = "tables")]
            tables(bench, both)?;
            return Ok(plain.answer[KIND]);
        }
    }
}

/// The answer of the biased pair, with the lowest values of the signed one added to the vector shown.
fn shifted(answer: &[u64; ANSWER], signed: &Sizes) -> [u64; ANSWER] {
    let mut answer = *answer;
    if answer[KIND] == DIFFERS {
        let entries = &mut answer[RUN + 1..][..INPUTS];
        for (entry, &width) in entries.iter_mut().zip(&signed.widths) {
            *entry = word_of(i128::from(*entry) + lowest(width));
        }
    }
    answer
}

/// The tables of the biased file and of the signed one are the same.
#[cfg(feature = "tables")]
fn tables(bench: &mut Bench, both: &[[Datapath; 2]; 2]) -> Outcome {
    let count = size(&axes(&both[0][0].sizes)) as usize;
    let [plain, marked] = both.each_ref().map(|paths| write(&paths[0]));
    let plain = bench.table_of(&plain, count)?;
    let marked = bench.table_of(&marked, count)?;
    bench.cells(&marked, &plain, || {
        format!("the signed table, {:?}", both[1][0].sizes)
    })
}
