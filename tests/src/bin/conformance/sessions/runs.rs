//! Pairs whose outputs are worked out once, continued from any place; and how often each way of
//! running a span has met each kind of answer.

use crate::bench::{Bench, Outcome};
use reference::sessions::{
    Continued, DIFFERS, EQUIVALENT, KIND, MARK, POSITION, RUN, SESSION, SPENT, Survey,
};
use std::collections::BTreeMap;

/// Vectors that the product may compare at once, and lines of a group.
pub const LANES: u64 = 16;

/// The kinds of accepted calls.
pub const ACCEPTED: [u64; 3] = [SPENT, EQUIVALENT, DIFFERS];

/// How the product may run a span.
#[derive(Clone, Copy, Debug, PartialEq, Eq, PartialOrd, Ord)]
pub enum Way {
    /// Fewer vectors than lanes: one by one.
    Singly,
    /// Consecutive places, a lane for each.
    Batches,
    /// Whole lines of the grid, a lane for each, as many as there are lanes or more.
    Groups,
}

pub const WAYS: [Way; 3] = [Way::Singly, Way::Batches, Way::Groups];

/// A line of the grid: the values of the last input.
pub fn line(survey: &Survey) -> u64 {
    *survey.axes.last().expect("a datapath has an input")
}

fn way(survey: &Survey, position: u64, budget: u64) -> Way {
    let run = budget.min(survey.count() - position);
    let line = line(survey);
    if run < LANES {
        Way::Singly
    } else if position.div_ceil(line) + LANES <= (position + run) / line {
        Way::Groups
    } else {
        Way::Batches
    }
}

#[derive(Default)]
pub struct Runs {
    seen: BTreeMap<(Way, u64), u64>,
}

impl Runs {
    /// Continues an open session at this position, whatever stands before it.
    pub fn run(
        &mut self,
        bench: &mut Bench,
        survey: &Survey,
        position: u64,
        budget: u64,
        scratch: &[u64],
    ) -> Outcome<Continued> {
        let mut session = [0; SESSION];
        session[..POSITION].copy_from_slice(&survey.paths[0].sizes.numbers());
        session[POSITION] = position;
        let done = bench.surveyed(survey, &session, budget, scratch)?;
        let way = way(survey, position, budget);
        *self.seen.entry((way, done.answer[KIND])).or_default() += 1;
        Ok(done)
    }

    /// The same, by one budget after the other up to a verdict; it is to be the one of the first
    /// difference from there on.
    pub fn finish(
        &mut self,
        bench: &mut Bench,
        survey: &Survey,
        from: u64,
        mut budget: impl FnMut() -> u64,
        scratch: &[u64],
    ) -> Outcome {
        let mut position = from;
        loop {
            let done = self.run(bench, survey, position, budget(), scratch)?;
            bench.same(
                &(position + done.answer[RUN]),
                &done.session[POSITION],
                || String::from("vectors run"),
            )?;
            position = done.session[POSITION];
            if done.answer[KIND] == SPENT {
                continue;
            }
            let expected = match survey.first(from) {
                Some(place) => [place + 1, 2],
                None => [survey.count(), 1],
            };
            return bench.same(&done.session[POSITION..=MARK], &expected, || {
                format!("the verdict from place {from} on")
            });
        }
    }

    /// Each of these ways has met each of these kinds so often. A generator that no longer reaches
    /// something is an error of the tests.
    pub fn judge(&self, bench: &mut Bench, ways: &[Way], kinds: &[u64], least: u64) -> Outcome {
        for &way in ways {
            for &kind in kinds {
                let found = self.seen.get(&(way, kind)).copied().unwrap_or(0);
                bench.same(&(found >= least), &true, || {
                    format!("answers of kind {kind}, {way:?}: only {found}")
                })?;
            }
        }
        Ok(())
    }
}
