//! Pairs of few bits, signed and unsigned, compared at all of their full-width vectors: the verdict
//! of a session, and the vector that it shows, are those of the whole range.
//!
//! The vectors are gone through by the bit patterns of the inputs, and the first of those that differ
//! is found by comparing integers; nothing here knows of grids or places.

use super::bench::scratch;
use crate::bench::{Bench, Outcome};
use reference::compare::Verdict;
use reference::file::{Datapath, write};
use reference::random::Random;
use reference::sessions::{ANSWER, EQUIVALENT, KIND, RUN, SPENT};
use reference::sizes::{INPUTS, SIGNED, Sizes, is_signed, word_length};
use reference::twins::{self, Kind, barely, countable, nowhere, twin};
use reference::value::residue_output;
use std::collections::BTreeMap;

pub const SEED: u64 = 0xe4a5_5e5e_ed00;

/// Bits of all inputs together, and how many pairs have so many.
const PAIRS: [(u64, usize); 9] = [
    (1, 64),
    (3, 240),
    (5, 320),
    (7, 320),
    (9, 320),
    (11, 160),
    (13, 64),
    (15, 16),
    (16, 16),
];

/// How the second datapath of a pair is made.
#[derive(Clone, Copy)]
enum Way {
    Twin(Kind),
    /// A multiple of falling factorials is added that first shows at a chosen vector, in one bit.
    Barely,
    /// Twice as much is added, which shows nowhere.
    Nowhere,
}

const WAYS: [Way; 8] = [
    Way::Twin(Kind::Same),
    Way::Twin(Kind::Rewritten),
    Way::Twin(Kind::Vanishing),
    Way::Twin(Kind::Late),
    Way::Twin(Kind::Changed),
    Way::Twin(Kind::Other),
    Way::Barely,
    Way::Nowhere,
];

impl Way {
    fn make(self, random: &mut Random, path: &Datapath) -> Datapath {
        let digits = countable(random, &path.sizes);
        match self {
            Way::Twin(kind) => twin(random, path, kind),
            Way::Barely => barely(path, &digits),
            Way::Nowhere => nowhere(path, &digits),
        }
    }

    /// Whether such a pair is equivalent, where this is known.
    fn equivalent(self) -> Option<bool> {
        match self {
            Way::Twin(Kind::Changed | Kind::Other) => None,
            Way::Twin(kind) => Some(kind.equivalent()),
            Way::Barely => Some(false),
            Way::Nowhere => Some(true),
        }
    }
}

pub fn pairs(bench: &mut Bench) -> Outcome {
    let mut random = Random::new(SEED);
    let mut seen = Seen::default();
    for (bits, count) in PAIRS {
        for way in WAYS.into_iter().cycle().take(count) {
            let sizes = sizes(&mut random, bits);
            let path = twins::path(&mut random, &sizes);
            let mut paths = [way.make(&mut random, &path), path];
            if random.chance(50) {
                paths.swap(0, 1);
            }
            let (expected, by_bits) = whole(&paths);
            if let Some(equivalent) = way.equivalent() {
                let found = expected == Verdict::Equivalent;
                bench.same(&found, &equivalent, || format!("the pair made, {sizes:?}"))?;
            }
            let found = verdict(bench, &mut random, &paths)?;
            bench.same(&found, &expected, || {
                format!("the verdict at all full-width vectors, {sizes:?}")
            })?;
            seen.note(&sizes, &expected, by_bits);
        }
    }
    seen.judge(bench)
}

/// Sizes of so many bits together: of signed inputs alone, of none, or mixed.
fn sizes(random: &mut Random, bits: u64) -> Sizes {
    let most = if random.chance(10) { INPUTS as u64 } else { 4 };
    let d = random.between(1, most.min(bits)) as usize;
    let mut widths = vec![1; d];
    for _ in d as u64..bits {
        widths[random.index(d)] += 1;
    }
    let percent = random.pick(&[0, 50, 50, 100]);
    for width in &mut widths {
        if random.chance(percent) {
            *width += SIGNED;
        }
    }
    let [any, few] = [64, 9].map(|most| random.between(1, most));
    let m = random.pick(&[any, few, bits]);
    Sizes { m, widths }
}

/// The vector whose inputs have the bits of a pattern, those of the first input highest.
fn by_pattern(sizes: &Sizes, mut pattern: u64) -> Vec<i128> {
    let mut vector = Vec::new();
    for &width in sizes.widths.iter().rev() {
        let count = 1 << word_length(width);
        let value = i128::from(pattern % count);
        pattern /= count;
        let negative = is_signed(width) && value >= i128::from(count / 2);
        vector.push(value - if negative { i128::from(count) } else { 0 });
    }
    vector.reverse();
    vector
}

/// The verdict of all full-width vectors; and the first that differs by bit patterns.
fn whole(paths: &[Datapath; 2]) -> (Verdict, Option<Vec<i128>>) {
    let sizes = &paths[0].sizes;
    let mut verdict = Verdict::Equivalent;
    let mut by_bits = None;
    for pattern in 0..1 << sizes.bits() {
        let at = by_pattern(sizes, pattern);
        let outputs = paths.each_ref().map(|path| residue_output(path, &at));
        if outputs[0] == outputs[1] {
            continue;
        }
        by_bits.get_or_insert_with(|| at.clone());
        match &verdict {
            Verdict::Differs { vector, .. } if *vector < at => {}
            _ => {
                let vector = at;
                verdict = Verdict::Differs { vector, outputs };
            }
        }
    }
    (verdict, by_bits)
}

/// The verdict of a session from its opening, by budgets of one size.
fn verdict(bench: &mut Bench, random: &mut Random, paths: &[Datapath; 2]) -> Outcome<Verdict> {
    let sizes = &paths[0].sizes;
    let files = paths.each_ref().map(write);
    let files = files.each_ref().map(Vec::as_slice);
    let mut session = bench.start(files)?;
    let part = 1 << sizes.bits().saturating_sub(5);
    let more = part + random.below(20);
    let budget = random.pick(&[u64::MAX, part, more]);
    loop {
        let done = bench.answered(files, &session, budget, &scratch(1_024))?;
        let answer = done.answer;
        session = done.session;
        if answer[KIND] == SPENT {
            continue;
        }
        if answer[KIND] == EQUIVALENT {
            return Ok(Verdict::Equivalent);
        }
        let words = &answer[RUN + 1..][..sizes.d()];
        let vector = sizes.vector(words).ok_or("no full-width vector is shown")?;
        let outputs = [answer[ANSWER - 2], answer[ANSWER - 1]];
        return Ok(Verdict::Differs { vector, outputs });
    }
}

/// How often pairs of signed inputs alone, of both sorts and of unsigned ones were equivalent (true)
/// and differed; and how often another vector would have been the first by bit patterns.
#[derive(Default)]
struct Seen {
    signs: BTreeMap<(&'static str, bool), u64>,
    other_order: u64,
}

impl Seen {
    fn note(&mut self, sizes: &Sizes, verdict: &Verdict, by_bits: Option<Vec<i128>>) {
        let signed = sizes.widths.iter().filter(|&&width| is_signed(width));
        let signs = match signed.count() {
            0 => "unsigned",
            count if count == sizes.d() => "signed",
            _ => "mixed",
        };
        let equivalent = *verdict == Verdict::Equivalent;
        *self.signs.entry((signs, equivalent)).or_default() += 1;
        if let Verdict::Differs { vector, .. } = verdict {
            self.other_order += u64::from(by_bits.as_ref() != Some(vector));
        }
    }

    /// A generator that no longer reaches something is an error of the tests.
    fn judge(&self, bench: &mut Bench) -> Outcome {
        let mut often = |what: String, found: u64, least: u64| {
            let enough = found >= least;
            bench.same(&enough, &true, || format!("{what}: only {found}"))
        };
        for signs in ["unsigned", "signed", "mixed"] {
            for equivalent in [true, false] {
                let found = self.signs.get(&(signs, equivalent)).copied();
                let what = format!("{signs} pairs, equivalent {equivalent}");
                often(what, found.unwrap_or(0), 100)?;
            }
        }
        let what = String::from("pairs of another order by bits");
        often(what, self.other_order, 100)
    }
}
