//! Random tables of one to ten axes at every m, and tables of random files.

use crate::bench::{Bench, Outcome};
use reference::file::{read, write};
use reference::grid::{axes, digits_at, size, vector_of};
use reference::random::Random;
use reference::samples::{self, SHAPES, top};
use reference::sizes::{INPUTS, Sizes};
use reference::tables::{Written, outputs};
use reference::twins::varied_sizes;
use std::collections::BTreeMap;

pub const SEED: u64 = 0x7ab1_e5ee_d000;

const TABLES: u64 = 6_400;
const FILES: u64 = 3_200;

/// The most cells of a random table, and of the table of a random file, but where there are eight
/// inputs or more; and how many of a hundred are such.
const CELLS: u64 = 600;
const FILE_CELLS: u64 = 300;
const MANY_INPUTS: u64 = 8;

/// How often each answer, each m and each count of axes has occurred.
#[derive(Default)]
struct Seen {
    answers: BTreeMap<u64, u64>,
    accepted_m: BTreeMap<u64, u64>,
    accepted_d: BTreeMap<usize, u64>,
    /// Accepted calls with no signed input, and with some.
    unsigned: u64,
    signed: u64,
    exact: u64,
}

impl Seen {
    fn note(&mut self, sizes: &Sizes, number: u64) {
        *self.answers.entry(number).or_default() += 1;
        if number == 0 {
            *self.accepted_m.entry(sizes.m).or_default() += 1;
            *self.accepted_d.entry(sizes.d()).or_default() += 1;
            match sizes.signed() {
                true => self.signed += 1,
                false => self.unsigned += 1,
            }
        }
    }

    /// A generator that no longer reaches something is an error of the tests.
    fn judge(&self, bench: &mut Bench, numbers: &[u64], least: u64) -> Outcome {
        let mut often = |what: String, found: Option<&u64>| {
            let enough = found.is_some_and(|&found| found >= least);
            bench.same(&enough, &true, || format!("{what}: only {found:?}"))
        };
        for number in numbers {
            often(format!("answers {number}"), self.answers.get(number))?;
        }
        for m in 1..=64 {
            often(format!("accepted, m {m}"), self.accepted_m.get(&m))?;
        }
        for d in 1..=INPUTS {
            often(format!("accepted, d {d}"), self.accepted_d.get(&d))?;
        }
        let most = self.unsigned > 2 * self.signed;
        bench.same(&(most && self.signed > 8 * least), &true, || {
            format!("{} unsigned and {} signed", self.unsigned, self.signed)
        })
    }
}

/// A count one short, exact or longer.
fn length(random: &mut Random, count: usize) -> usize {
    match random.below(8) {
        0 => count - 1,
        1..6 => count,
        _ => count + random.index(5),
    }
}

/// Cells for a slice of this length: below 2^m up to G, but for a rare one, and any past it.
fn cells(random: &mut Random, m: u64, count: usize, length: usize) -> Vec<u64> {
    let mut list: Vec<u64> = (0..length)
        .map(|place| match place < count {
            true => random.edged_word() & top(m),
            false => random.word(),
        })
        .collect();
    if random.chance(8) && m < 64 && count <= length {
        let place = random.index(count);
        list[place] = (1 << m) + random.pick(&[0, 1, top(m)]);
    }
    list
}

/// Random cells are differenced and summed; what was accepted is taken back.
pub fn tables(bench: &mut Bench) -> Outcome {
    let mut random = Random::new(SEED);
    let mut seen = Seen::default();
    for index in 0..TABLES {
        let sizes = varied_sizes(&mut random, 1 + index % 64, CELLS, MANY_INPUTS);
        let numbers = sizes.numbers();
        let count = size(&axes(&sizes)) as usize;
        let given = length(&mut random, count);
        let given = cells(&mut random, sizes.m, count, given);
        let lent = length(&mut random, count);
        let lent: Vec<u64> = (0..lent).map(|_| random.word()).collect();
        let forth = bench.difference(&numbers, &given, &lent)?;
        let back = bench.sum(&numbers, &given, &lent)?;
        let number = |written: &Option<Written>| written.as_ref().map(|w| w.answer[0]);
        bench.same(&number(&forth), &number(&back), || {
            format!("difference and sum, {sizes:?}")
        })?;
        let (Some(forth), Some(back)) = (forth, back) else {
            return Err(format!("sound sizes without an answer: {sizes:?}"));
        };
        seen.note(&sizes, forth.answer[0]);
        if forth.answer[0] == 0 {
            let (given, forth) = (&given[..count], &forth.cells[..count]);
            let summed = bench.sums(&sizes, forth)?;
            bench.cells(&summed, given, || format!("sum of differences, {sizes:?}"))?;
            let differenced = bench.differences(&sizes, &back.cells[..count])?;
            bench.cells(&differenced, given, || {
                format!("differences of sums, {sizes:?}")
            })?;
        }
    }
    seen.judge(bench, &[0, 13], TABLES / 200)
}

/// The table of a file, summed, gives the file's outputs.
pub fn files(bench: &mut Bench) -> Outcome {
    let mut random = Random::new(SEED + 1);
    let mut seen = Seen::default();
    for index in 0..FILES {
        let sizes = varied_sizes(&mut random, 1 + index % 64, FILE_CELLS, MANY_INPUTS);
        let steps = random.between(1, 24) as usize;
        let shape = random.pick(&SHAPES);
        let mut file = write(&samples::path(&mut random, &sizes, steps, shape));
        if random.chance(10) {
            samples::damage(&mut random, &mut file);
        }
        let count = size(&axes(&sizes)) as usize;
        let mut lent = |count: usize| -> Vec<u64> {
            let length = length(&mut random, count);
            (0..length).map(|_| random.word()).collect()
        };
        let (scratch, table) = (lent(steps), lent(count));
        let made = bench.table(&file, &scratch, &table)?;
        seen.note(&sizes, made.written.answer[0]);
        seen.exact += u64::from(made.exact);
        if made.written.answer[0] == 0 {
            let path = read(&file, 1).map_err(|refusal| format!("{refusal:?}"))?;
            let axes = axes(&path.sizes);
            let count = size(&axes) as usize;
            let summed = bench.sums(&path.sizes, &made.written.cells[..count])?;
            bench.cells(&summed, &outputs(&path), || format!("sum, {sizes:?}"))?;
            let place = random.index(count);
            let digits = digits_at(&axes, place as u64).ok_or("a place below G")?;
            let vector = vector_of(&path.sizes, &digits);
            let output = bench.output(&file, &vector)?;
            bench.same(&summed[place], &output, || format!("{sizes:?}, {vector:?}"))?;
        }
    }
    let mostly = seen.exact >= FILES / 4;
    bench.same(&mostly, &true, || format!("only {} exact", seen.exact))?;
    seen.judge(bench, &[0, 8, 12, 13], FILES / 300)
}
