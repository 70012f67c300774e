//! Every mix of signed and unsigned inputs, up to three, of the shortest word lengths and of the
//! longest.

use super::bench::scratch;
use crate::bench::{Bench, Outcome};
use reference::compare::{Verdict, compare_paths};
use reference::file::{Datapath, write};
use reference::grid::{axes, digits, place_of, size, vector_of, vectors};
use reference::random::Random;
use reference::sessions::{ANSWER, DIFFERS, EQUIVALENT, KIND, POSITION, RUN};
use reference::sizes::{SIGNED, Sizes, highest, lowest, word_length, word_of, words_of};
use reference::twins::{self, KINDS, countable, late, twin};

pub const SEED: u64 = 0x5169_5e5e_ed00;

const LENGTHS: [u64; 5] = [1, 2, 3, 63, 64];

/// Output word lengths for one or two inputs, and for three: the last with a large grid.
const FEW: [u64; 5] = [1, 2, 4, 8, 64];
const THREE: [u64; 2] = [2, 64];

/// Larger grids are run at some places alone.
const GRID: u64 = 400;

pub fn mixes(bench: &mut Bench) -> Outcome {
    let mut random = Random::new(SEED);
    let all: Vec<u64> = LENGTHS.iter().flat_map(|&n| [n, SIGNED + n]).collect();
    for d in 1..=3 {
        let outputs: &[u64] = if d < 3 { &FEW } else { &THREE };
        for choice in digits(&vec![all.len() as u64; d]) {
            let widths: Vec<u64> = choice.iter().map(|&at| all[at as usize]).collect();
            for &m in outputs {
                let widths = widths.clone();
                mix(bench, &mut random, &Sizes { m, widths })?;
            }
        }
    }
    Ok(())
}

fn mix(bench: &mut Bench, random: &mut Random, sizes: &Sizes) -> Outcome {
    let path = twins::path(random, sizes);
    corners(bench, &path)?;
    let count = size(&axes(sizes));
    if count <= GRID {
        let kind = random.pick(&KINDS);
        let other = twin(random, &path, kind);
        verdict(bench, &path, &other)?;
        #[cfg(feature = "tables")]
        table(bench, &path)?;
    }
    far(bench, random, &path)
}

/// Both ends of every range, in every combination; and one past each end, which 14 refuses.
fn corners(bench: &mut Bench, path: &Datapath) -> Outcome {
    let file = write(path);
    let sizes = &path.sizes;
    let d = sizes.d();
    bench.file_calls(&file)?;
    for corner in digits(&vec![2; d]) {
        let end = |(&width, &at): (&u64, &u64)| match at {
            0 => lowest(width),
            _ => highest(width),
        };
        let vector: Vec<i128> = sizes.widths.iter().zip(&corner).map(end).collect();
        bench.output(&file, &vector)?;
    }
    for (input, &width) in sizes.widths.iter().enumerate() {
        if word_length(width) == 64 {
            continue; // every word is a value
        }
        for past in [lowest(width) - 1, highest(width) + 1] {
            let mut words = words_of(&sizes.lowest());
            words[input] = word_of(past);
            bench.evaluates(&file, &words, path.steps.len(), [14, 0, 0])?;
        }
    }
    Ok(())
}

/// From the opening to the verdict, which is that of the vectors in their order.
fn verdict(bench: &mut Bench, path: &Datapath, other: &Datapath) -> Outcome {
    let sizes = &path.sizes;
    let files = [path, other].map(write);
    let files = files.each_ref().map(Vec::as_slice);
    let session = bench.start(files)?;
    let done = bench.answered(files, &session, u64::MAX, &scratch(1_024))?;
    let words = &done.answer[RUN + 1..][..sizes.d()];
    let found = match done.answer[KIND] {
        EQUIVALENT => Verdict::Equivalent,
        _ => Verdict::Differs {
            vector: sizes.vector(words).ok_or("no full-width vector is shown")?,
            outputs: [done.answer[ANSWER - 2], done.answer[ANSWER - 1]],
        },
    };
    let expected = compare_paths(vectors(sizes), path, other);
    bench.same(&found, &expected.verdict, || format!("{sizes:?}"))?;
    bench.same(&done.answer[RUN], &expected.run, || format!("{sizes:?}"))
}

/// The table of the datapath, summed, and its outputs differenced.
#[cfg(feature = "tables")]
fn table(bench: &mut Bench, path: &Datapath) -> Outcome {
    let outputs = reference::tables::outputs(path);
    let made = bench.table_of(&write(path), outputs.len())?;
    let summed = bench.sums(&path.sizes, &made)?;
    bench.cells(&summed, &outputs, || format!("sum, {:?}", path.sizes))?;
    let differenced = bench.differences(&path.sizes, &outputs)?;
    bench.cells(&differenced, &made, || {
        format!("differences, {:?}", path.sizes)
    })
}

/// A pair that first differs at some vector of the grid, from just before it: the vector is shown, the
/// digits counted from the lowest values.
fn far(bench: &mut Bench, random: &mut Random, path: &Datapath) -> Outcome {
    let sizes = &path.sizes;
    let digits = countable(random, sizes);
    let place = place_of(&axes(sizes), &digits);
    let files = [path, &late(path, &digits)].map(write);
    let files = files.each_ref().map(Vec::as_slice);
    let mut session = bench.start(files)?;
    let before = place.min(2);
    session[POSITION] = place - before;
    let done = bench.answered(files, &session, 5, &scratch(1_024))?;
    bench.same(&done.answer[KIND..=RUN], &[DIFFERS, before + 1], || {
        format!("place {place} of {sizes:?}")
    })?;
    let shown = &done.answer[RUN + 1..][..sizes.d()];
    let vector = words_of(&vector_of(sizes, &digits));
    bench.same(shown, &vector[..], || format!("place {place} of {sizes:?}"))
}
