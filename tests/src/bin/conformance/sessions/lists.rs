//! Random lists of continue calls from an opened session, each given the session that the one
//! before handed back. Every answer is compared with the reference; and after every call the
//! claims of demand 3 are held against the list so far.

use super::Files;
use crate::bench::{Bench, Outcome};
use reference::compare::{Comparison, Verdict, compare_paths};
use reference::file::{Datapath, write};
use reference::grid::{axes, full_width, size, vectors};
use reference::random::Random;
use reference::samples;
use reference::sessions::{
    self, ANSWER, DIFFERS, EQUIVALENT, KIND, MARK, POSITION, REFUSED, RUN, SESSION, larger,
};
use reference::sizes::{INPUTS, Sizes};
use reference::twins::{self, KINDS, Kind, small_sizes, twin, varied_sizes};
use std::collections::BTreeMap;

pub const SEED: u64 = 0x0115_75ee_d000;

const LISTS: u64 = 4_000;

/// The most calls of a list.
const CALLS: u64 = 16;

/// The most vectors on the grid of a list, but where there are eight inputs or more; and how many of
/// a hundred lists are such.
const GRID: u64 = 260;
const MANY_INPUTS: u64 = 6;

/// Pairs whose inputs have so many bits together are run at every full-width vector.
const EXHAUSTIVE_BITS: u64 = 10;

/// Wider equivalent pairs are run at so many random full-width vectors.
const SAMPLES: usize = 20;

/// How often each answer has occurred, by number and by kind; each kind of pair, by verdict; each count
/// of inputs, by verdict; and pairs with signed inputs and without, by verdict.
#[derive(Default)]
struct Seen {
    numbers: BTreeMap<u64, u64>,
    kinds: BTreeMap<u64, u64>,
    verdicts: BTreeMap<(Kind, u64), u64>,
    inputs: BTreeMap<(usize, u64), u64>,
    signs: BTreeMap<(bool, u64), u64>,
    unfinished: u64,
}

/// A list so far.
struct List<'a> {
    files: Files<'a>,
    paths: &'a [Datapath; 2],
    /// The first difference on the grid, and D.
    expected: Comparison,
    stop: u64,
    session: [u64; SESSION],
    /// S, and the sum of the vectors run.
    accepted: u128,
    run: u128,
    verdict: Option<[u64; ANSWER]>,
    /// The scratch slice of the last call.
    used: Vec<u64>,
}

pub fn lists(bench: &mut Bench) -> Outcome {
    let mut random = Random::new(SEED);
    let mut seen = Seen::default();
    for index in 0..LISTS {
        let kind = KINDS[index as usize % KINDS.len()];
        let sizes = varied_sizes(&mut random, 1 + index % 64, GRID, MANY_INPUTS);
        let first = twins::path(&mut random, &sizes);
        let paths = [twin(&mut random, &first, kind), first];
        let files = paths.each_ref().map(write);
        let files = files.each_ref().map(Vec::as_slice);
        let expected = compare_paths(vectors(&sizes), &paths[0], &paths[1]);
        let mut list = List {
            files,
            paths: &paths,
            stop: expected.run,
            expected,
            session: bench.start(files)?,
            accepted: 0,
            run: 0,
            verdict: None,
            used: Vec::new(),
        };
        list.claims(bench)?;
        for _ in 0..random.below(CALLS + 1) {
            list.call(bench, &mut random, &mut seen)?;
            list.claims(bench)?;
        }
        match list.verdict {
            None => seen.unfinished += 1,
            Some(answer) => {
                *seen.verdicts.entry((kind, answer[KIND])).or_default() += 1;
                *seen.inputs.entry((sizes.d(), answer[KIND])).or_default() += 1;
                *seen
                    .signs
                    .entry((sizes.signed(), answer[KIND]))
                    .or_default() += 1;
                list.full_width(bench, &mut random)?;
            }
        }
    }
    seen.judge(bench)
}

/// Files of another call: these in the other order, a damaged one, a random pair of the same sizes
/// or of others.
fn others(random: &mut Random, list: &List) -> [Vec<u8>; 2] {
    let [first, second] = list.files.map(<[u8]>::to_vec);
    let pair = |random: &mut Random, sizes: &Sizes| {
        let path = twins::path(random, sizes);
        let kind = random.pick(&KINDS);
        [write(&twin(random, &path, kind)), write(&path)]
    };
    match random.below(6) {
        0 => [second, first],
        1 => pair(random, &list.paths[0].sizes),
        2 => {
            let m = random.between(1, 64);
            let sizes = small_sizes(random, m, GRID);
            pair(random, &sizes)
        }
        3 => {
            let sizes = small_sizes(random, 5, GRID);
            let [other, _] = pair(random, &sizes);
            [first, other]
        }
        _ => {
            let mut files = [first, second];
            let index = random.index(2);
            samples::damage(random, &mut files[index]);
            files
        }
    }
}

impl List<'_> {
    /// Budgets of no size, small ones, such as just reach or just miss the stop or the end of the
    /// grid, and the largest.
    fn budget(&self, random: &mut Random) -> u64 {
        let count = size(&axes(&self.paths[0].sizes));
        let position = self.session[POSITION];
        let (to_stop, to_end) = (self.stop - position, count - position);
        match random.below(24) {
            0 | 1 => 0,
            2..6 => 1,
            6 => to_stop,
            7 => to_stop.saturating_sub(1),
            8 => to_stop + 1,
            9 => to_end,
            10 => u64::MAX - random.below(3),
            11 => 1 << random.between(32, 63),
            12..18 => random.between(1, 6),
            _ => random.between(1, count / 4 + 1),
        }
    }

    /// A scratch slice of any content, or the one of the last call again.
    fn scratch(&self, random: &mut Random) -> Vec<u64> {
        let count = larger(self.paths);
        let length = match random.below(16) {
            0 => 0,
            1 => count - 1,
            2..9 => count,
            _ => count + random.index(40),
        };
        if self.used.len() >= count && random.chance(50) {
            return self.used.clone();
        }
        (0..length).map(|_| random.word()).collect()
    }

    /// One call. With other files it stands in the list only if it is refused; else it is compared
    /// beside the list.
    fn call(&mut self, bench: &mut Bench, random: &mut Random, seen: &mut Seen) -> Outcome {
        let budget = self.budget(random);
        let scratch = self.scratch(random);
        if random.chance(25) {
            let other = others(random, self);
            let files = other.each_ref().map(Vec::as_slice);
            if files != self.files {
                let done = bench.answered(files, &self.session, budget, &scratch)?;
                if done.answer[0] != 0 {
                    *seen.numbers.entry(done.answer[0]).or_default() += 1;
                    bench.same(&done.answer[KIND..], &[0; ANSWER - KIND], || {
                        String::from("a refusal")
                    })?;
                    self.session = done.session;
                }
                return Ok(());
            }
        }
        let done = bench.answered(self.files, &self.session, budget, &scratch)?;
        let answer = done.answer;
        *seen.numbers.entry(answer[0]).or_default() += 1;
        *seen.kinds.entry(answer[KIND]).or_default() += 1;
        let refused = budget == 0
            || scratch.len() < larger(self.paths)
            || self.accepted >= u128::from(self.stop);
        bench.same(&(answer[KIND] == REFUSED), &refused, || {
            format!(
                "budget {budget} after {}, stop {}",
                self.accepted, self.stop
            )
        })?;
        bench.same(&(answer[0] != 0), &refused, || String::from("the number"))?;
        if !refused {
            self.accepted += u128::from(budget);
        }
        self.run += u128::from(answer[RUN]);
        self.session = done.session;
        self.used = done.scratch;
        if [EQUIVALENT, DIFFERS].contains(&answer[KIND]) {
            bench.same(&self.verdict, &None, || String::from("a second verdict"))?;
            self.verdict = Some(answer);
        }
        Ok(())
    }

    /// What demand 3 says of the list so far.
    fn claims(&self, bench: &mut Bench) -> Outcome {
        let least = self.accepted.min(u128::from(self.stop));
        bench.same(&self.run, &least, || String::from("the vectors run"))?;
        bench.same(&u128::from(self.session[POSITION]), &least, || {
            String::from("the position")
        })?;
        let finished = self.accepted >= u128::from(self.stop);
        bench.same(&self.verdict.is_some(), &finished, || {
            format!("a verdict after {}, stop {}", self.accepted, self.stop)
        })?;
        let (mark, verdict) = match self.verdict {
            None => (0, None),
            Some(answer) if answer[KIND] == EQUIVALENT => (1, Some(Verdict::Equivalent)),
            Some(answer) => {
                let sizes = &self.paths[0].sizes;
                let words = &answer[RUN + 1..][..sizes.d()];
                let vector = sizes.vector(words).ok_or("no full-width vector is shown")?;
                let outputs = [answer[ANSWER - 2], answer[ANSWER - 1]];
                (2, Some(Verdict::Differs { vector, outputs }))
            }
        };
        bench.same(&self.session[MARK], &mark, || String::from("the mark"))?;
        if let Some(verdict) = verdict {
            bench.same(&verdict, &self.expected.verdict, || {
                String::from("the verdict on the grid")
            })?;
        }
        Ok(())
    }

    /// The verdict is that of all full-width vectors in dictionary order.
    fn full_width(&self, bench: &mut Bench, random: &mut Random) -> Outcome {
        let [left, right] = self.paths;
        if left.sizes.bits() <= EXHAUSTIVE_BITS {
            let found = compare_paths(full_width(&left.sizes), left, right);
            return bench.same(&found.verdict, &self.expected.verdict, || {
                String::from("the verdict at all full-width vectors")
            });
        }
        if self.expected.verdict == Verdict::Equivalent {
            for _ in 0..SAMPLES {
                let vector = samples::vector(random, &left.sizes);
                let output = bench.output(self.files[0], &vector)?;
                let other = bench.output(self.files[1], &vector)?;
                bench.same(&output, &other, || format!("outputs at {vector:?}"))?;
            }
        }
        Ok(())
    }
}

impl Seen {
    /// A generator that no longer reaches something is an error of the tests.
    fn judge(&self, bench: &mut Bench) -> Outcome {
        let mut often = |what: String, found: Option<&u64>, least: u64| {
            let enough = found.is_some_and(|&found| found >= least);
            bench.same(&enough, &true, || format!("{what}: only {found:?}"))
        };
        for number in [0, 1, 2, 3, 4, 5, 6, 7, 8, 9, 11, 12, 101, 103] {
            often(format!("answers {number}"), self.numbers.get(&number), 10)?;
        }
        for kind in [REFUSED, sessions::SPENT, EQUIVALENT, DIFFERS] {
            often(
                format!("answers of kind {kind}"),
                self.kinds.get(&kind),
                500,
            )?;
        }
        for kind in KINDS {
            let verdict = if kind.equivalent() {
                EQUIVALENT
            } else {
                DIFFERS
            };
            let found = self.verdicts.get(&(kind, verdict));
            often(format!("verdicts {verdict} on {kind:?}"), found, 100)?;
        }
        for d in 1..=INPUTS {
            for verdict in [EQUIVALENT, DIFFERS] {
                let found = self.inputs.get(&(d, verdict));
                often(format!("verdicts {verdict} of {d} inputs"), found, 10)?;
            }
        }
        for verdict in [EQUIVALENT, DIFFERS] {
            let [unsigned, signed] = [false, true].map(|sign| self.signs.get(&(sign, verdict)));
            often(format!("verdicts {verdict}, unsigned"), unsigned, LISTS / 8)?;
            often(format!("verdicts {verdict}, signed"), signed, LISTS / 20)?;
        }
        often(String::from("open lists"), Some(&self.unfinished), 300)
    }
}
