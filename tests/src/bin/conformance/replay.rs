//! The pairs of document 01, those of eight to ten inputs and of signed ones, and the examples of
//! document 002, replayed with the product's outputs; and all of these with every input signed.

use crate::bench::{Bench, Outcome};
use reference::calls::GRID;
use reference::compare::{Comparison, Verdict, compare, compare_paths};
use reference::examples;
use reference::file::read;
use reference::grid::{digits, full_width, vector_of, vectors};
use reference::pairs::{self, Pair};
use reference::random::Random;
use reference::samples;
use reference::signed::{self, marked_file};
use reference::sizes::Sizes;
use reference::ten_inputs;

pub const SEED: u64 = 0x002_5eed;

/// Inputs of so many bits together are run at every full-width vector.
const EXHAUSTIVE_BITS: u64 = 16;

/// Wider equivalent pairs are run at so many random full-width vectors.
const SAMPLES: usize = 1_000;

/// The pair with every input signed. What is expected of it is worked out by the reference.
pub fn all_signed(pair: &Pair) -> Outcome<Pair> {
    let files = pair.files.each_ref().map(|file| marked_file(file));
    let sound = |file| read(file, 1).map_err(|refusal| format!("{}: {refusal:?}", pair.name));
    let [left, right] = [sound(&files[0])?, sound(&files[1])?];
    let expected = compare_paths(vectors(&left.sizes), &left, &right);
    let name = pair.name;
    Ok(Pair {
        name,
        files,
        expected,
    })
}

pub fn pairs(bench: &mut Bench) -> Outcome {
    for pair in pairs::pairs().into_iter().chain(ten_inputs::pairs()) {
        for pair in [all_signed(&pair)?, pair] {
            let sizes = replay(bench, &pair)?;
            exhaust(bench, &pair, &sizes)?;
        }
    }
    Ok(())
}

/// The pairs of signed inputs; wide ones are replayed on the grid alone.
pub fn signed_pairs(bench: &mut Bench) -> Outcome {
    for pair in signed::pairs() {
        let sizes = replay(bench, &pair)?;
        if sizes.bits() <= EXHAUSTIVE_BITS {
            exhaust(bench, &pair, &sizes)?;
        }
    }
    Ok(())
}

pub fn examples(bench: &mut Bench) -> Outcome {
    let mut random = Random::new(SEED);
    for pair in examples::pairs() {
        for pair in [all_signed(&pair)?, pair] {
            example(bench, &mut random, &pair)?;
        }
    }
    Ok(())
}

fn example(bench: &mut Bench, random: &mut Random, pair: &Pair) -> Outcome {
    let sizes = replay(bench, pair)?;
    if sizes.bits() <= EXHAUSTIVE_BITS {
        return exhaust(bench, pair, &sizes);
    }
    bench.same(&pair.expected.verdict, &Verdict::Equivalent, || {
        format!("{}: only an equivalent pair is sampled", pair.name)
    })?;
    for _ in 0..SAMPLES {
        let vector = samples::vector(random, &sizes);
        let [left, right] = both(bench, pair, &vector)?;
        bench.same(&left, &right, || format!("{} at {vector:?}", pair.name))?;
    }
    Ok(())
}

pub fn outputs(bench: &mut Bench) -> Outcome {
    for example in examples::outputs().into_iter().chain(signed::outputs()) {
        let file = example.polynomial.file(example.m, &example.widths);
        for (vector, expected) in example.outputs {
            let output = bench.output(&file, &vector)?;
            bench.same(&output, &expected, || {
                format!("{} at {vector:?}", example.name)
            })?;
        }
    }
    Ok(())
}

/// Runs the pair over the product's grid. Verdict, vector, outputs and count are the expected ones
/// and the reference's.
fn replay(bench: &mut Bench, pair: &Pair) -> Outcome<Sizes> {
    let name = pair.name;
    let sound = |file| read(file, 1).map_err(|refusal| format!("{name}: {refusal:?}"));
    let [left, right] = [sound(&pair.files[0])?, sound(&pair.files[1])?];
    let grid = bench.grid(&pair.files[0])?;
    let other = bench.grid(&pair.files[1])?;
    bench.same(&grid, &other, || format!("grids of {name}"))?;
    let axes = &grid[3..3 + left.sizes.d()];
    let vectors: Vec<Vec<i128>> = digits(axes)
        .map(|digits| vector_of(&left.sizes, &digits))
        .collect();
    let found = run(bench, pair, vectors.clone())?;
    bench.same(&found, &pair.expected, || String::from(name))?;
    bench.same(&found, &compare_paths(vectors, &left, &right), || {
        format!("{name} by the reference")
    })?;
    if found.verdict == Verdict::Equivalent {
        bench.same(&found.run, &grid[GRID - 1], || format!("G of {name}"))?;
    }
    Ok(left.sizes)
}

/// Runs the pair at all full-width vectors: the verdict, its vector and outputs are the grid's.
fn exhaust(bench: &mut Bench, pair: &Pair, sizes: &Sizes) -> Outcome {
    let found = run(bench, pair, full_width(sizes))?;
    bench.same(&found.verdict, &pair.expected.verdict, || {
        format!("{} at all full-width vectors", pair.name)
    })
}

fn run(
    bench: &mut Bench,
    pair: &Pair,
    vectors: impl IntoIterator<Item = Vec<i128>>,
) -> Outcome<Comparison> {
    compare(vectors, |vector| both(bench, pair, vector))
}

/// The two outputs by the product, each compared with the reference's.
fn both(bench: &mut Bench, pair: &Pair, vector: &[i128]) -> Outcome<[u64; 2]> {
    let left = bench.output(&pair.files[0], vector)?;
    Ok([left, bench.output(&pair.files[1], vector)?])
}
