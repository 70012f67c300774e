//! Random files, sound and damaged, of 1 to 1,024 steps at every m, each with several vectors and
//! scratch slices.

use crate::bench::{Bench, Outcome};
use reference::file::{Datapath, SHORT_HEAD, STEPS, read};
use reference::random::Random;
use reference::samples::{self, Shape, top};
use reference::sizes::{INPUTS, Sizes, is_signed, word_length, words_of};
use std::collections::BTreeMap;

pub const SEED: u64 = 0xc02b_1960_5eed;

const FILES: u64 = 135_000;

/// What has occurred; `judge` asks that everything did, and often enough.
#[derive(Default)]
struct Seen {
    /// Accepted files by m, by d, and by count of steps.
    accepted_m: BTreeMap<u64, u64>,
    accepted_d: BTreeMap<usize, u64>,
    accepted_steps: BTreeMap<usize, u64>,
    /// Accepted files without a signed input, and signed inputs of accepted files by word length.
    unsigned: u64,
    signed: BTreeMap<u64, u64>,
    /// Answers of check and of evaluate, by number.
    checked: BTreeMap<u64, u64>,
    evaluated: BTreeMap<u64, u64>,
    /// Files that 1 refuses though they are as long as the short head.
    under_long_head: u64,
    /// Outputs that exact values confirm, and outputs other than 0.
    exact: u64,
    nonzero: u64,
}

pub fn files(bench: &mut Bench) -> Outcome {
    let mut random = Random::new(SEED);
    let mut seen = Seen::default();
    for index in 0..FILES {
        let file = file(&mut random, 1 + index % 64);
        let refusal = bench.file_calls(&file)?;
        *seen.checked.entry(refusal[0]).or_default() += 1;
        seen.under_long_head += u64::from(refusal[0] == 1 && file.len() >= SHORT_HEAD);
        match read(&file, 1) {
            Ok(path) => accepted(bench, &mut random, &mut seen, &file, &path)?,
            Err(_) => refused(bench, &mut random, &mut seen, &file)?,
        }
    }
    seen.judge(bench)
}

/// Most files are short, so that many can be run; both ends of the range occur often.
fn steps(random: &mut Random) -> usize {
    match random.below(100) {
        0..3 => 1,
        3..6 => STEPS,
        6..9 => random.between(200, STEPS as u64) as usize,
        9..30 => random.between(20, 200) as usize,
        _ => random.between(1, 32) as usize,
    }
}

fn file(random: &mut Random, m: u64) -> Vec<u8> {
    if random.chance(4) {
        return samples::noise(random);
    }
    let sizes = samples::sizes(random, m);
    let count = steps(random);
    let shape = match random.below(100) {
        0..50 => Shape::Spread,
        50..70 => Shape::Horner,
        70..80 => Shape::Sums,
        _ => Shape::Powers,
    };
    let mut file = samples::file(random, &sizes, count, shape);
    if random.chance(40) {
        for _ in 0..random.between(1, 3) {
            samples::damage(random, &mut file);
        }
    }
    file
}

/// The words of full-width vectors, with both ends of every range, and words that 14 refuses: one
/// past an end of the range, and in an unsigned input negative ones.
fn vectors(random: &mut Random, sizes: &Sizes) -> Vec<Vec<u64>> {
    let d = sizes.d();
    let (lows, tops) = (words_of(&sizes.lowest()), words_of(&sizes.highest()));
    let mut list = vec![lows.clone(), tops.clone()];
    list.extend((0..3).map(|_| words_of(&samples::vector(random, sizes))));
    let any = random.index(d);
    let input = random.pick(&[0, d - 1, any]);
    let width = sizes.widths[input];
    if word_length(width) < 64 {
        let mut past = tops;
        past[input] += 1;
        list.push(past);
        if is_signed(width) {
            let mut before = lows;
            before[input] -= 1;
            // the bits of the value −1 in a word that is not extended
            let pattern = top(word_length(width));
            list.push(before.clone());
            before[input] = pattern;
            list.push(before);
        }
    }
    if !is_signed(width) && random.chance(15) {
        let mut negative = vec![0; d];
        negative[input] = u64::MAX - random.below(3);
        list.push(negative);
    }
    let length = random.pick(&[0, d - 1, d + 1, INPUTS + 1, 20]);
    list.push(vec![0; length]);
    list
}

/// A scratch slice one too short, just right or longer, with anything in it.
fn scratch(random: &mut Random, count: usize) -> Vec<u64> {
    let length = match random.below(6) {
        0 => count - 1,
        1 | 2 => count,
        _ => count + 3,
    };
    (0..length).map(|_| random.word()).collect()
}

fn accepted(
    bench: &mut Bench,
    random: &mut Random,
    seen: &mut Seen,
    file: &[u8],
    path: &Datapath,
) -> Outcome {
    let count = path.steps.len();
    *seen.accepted_m.entry(path.sizes.m).or_default() += 1;
    *seen.accepted_d.entry(path.sizes.d()).or_default() += 1;
    *seen.accepted_steps.entry(count).or_default() += 1;
    seen.unsigned += u64::from(!path.sizes.signed());
    for &width in path.sizes.widths.iter().filter(|&&width| is_signed(width)) {
        *seen.signed.entry(word_length(width)).or_default() += 1;
    }
    let mut list = vectors(random, &path.sizes);
    while count > 200 && list.len() > 3 {
        let index = random.index(list.len());
        list.remove(index);
    }
    for vector in list {
        let done = bench.evaluate(file, &vector, &scratch(random, count))?;
        *seen.evaluated.entry(done.answer[0]).or_default() += 1;
        seen.exact += u64::from(done.exact);
        seen.nonzero += u64::from(done.answer[3] != 0);
    }
    Ok(())
}

fn refused(bench: &mut Bench, random: &mut Random, seen: &mut Seen, file: &[u8]) -> Outcome {
    let vector = vec![0; random.index(10)];
    let used = random.between(1, 40) as usize;
    let done = bench.evaluate(file, &vector, &scratch(random, used))?;
    *seen.evaluated.entry(done.answer[0]).or_default() += 1;
    Ok(())
}

impl Seen {
    /// A generator that no longer reaches something is an error of the tests.
    fn judge(&self, bench: &mut Bench) -> Outcome {
        let mut often = |what: &str, found: Option<&u64>, least: u64| {
            let found = found.copied().unwrap_or(0);
            let enough = found >= least;
            bench.same(&enough, &true, || format!("{what}: only {found}"))
        };
        for m in 1..=64 {
            let what = format!("accepted files, m {m}");
            often(&what, self.accepted_m.get(&m), 500)?;
        }
        for d in 1..=INPUTS {
            let what = format!("accepted files, d {d}");
            often(&what, self.accepted_d.get(&d), 500)?;
        }
        for count in [1, 2, STEPS] {
            let what = format!("accepted files, {count} steps");
            often(&what, self.accepted_steps.get(&count), 500)?;
        }
        often("unsigned files", Some(&self.unsigned), FILES * 4 / 9)?;
        for n in 1..=64 {
            let what = format!("signed inputs of {n} bits");
            often(&what, self.signed.get(&n), 300)?;
        }
        for number in 0..=8 {
            let what = format!("answers {number} of check");
            often(&what, self.checked.get(&number), 300)?;
        }
        for number in (0..=8).chain([12, 14]) {
            let what = format!("answers {number} of evaluate");
            often(&what, self.evaluated.get(&number), 300)?;
        }
        let under = "files under the long head";
        often(under, Some(&self.under_long_head), 50)?;
        let outputs = self.evaluated.get(&0).copied().unwrap_or(0);
        often("exact outputs", Some(&self.exact), outputs * 8 / 10)?;
        often(
            "outputs by remainders",
            Some(&(outputs - self.exact)),
            outputs / 100,
        )?;
        often("outputs other than 0", Some(&self.nonzero), outputs / 2)
    }
}
