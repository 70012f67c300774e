//! Pairs that differ at chosen places: first at each place of a grid in turn, at places far inside
//! large grids, and at several places of one group of lines, where the first along the lines is not
//! the first in dictionary order.

use super::bench::scratch;
use super::runs::{ACCEPTED, LANES, Runs, WAYS, Way, line};
use crate::bench::{Bench, Outcome};
use reference::file::Datapath;
use reference::grid::{axes, digits_at, place_of, size, vector_of};
use reference::mixed;
use reference::random::Random;
use reference::sessions::{DIFFERS, EQUIVALENT, KIND, MARK, POSITION, RUN, SPENT, Survey, larger};
use reference::sizes::{SIGNED, Sizes};
use reference::spots::{alone, spots};
use reference::twins::{barely, countable, counts};

pub const PLACES_SEED: u64 = 0xd1ff_e2e4_5eed;
pub const FAR_SEED: u64 = 0xd1ff_e2e4_5eee;
pub const SEVERAL_SEED: u64 = 0xd1ff_e2e4_5eef;

const STEPS: usize = 5;

/// m and widths of the grids on which each place is the first difference of a pair; of the
/// largest, places so far apart, and the last.
const GRIDS: [(u64, &[u64], usize); 18] = [
    (33, &[SIGNED + 5], 1),
    (8, &[SIGNED + 1; 10], 53),
    (64, &[SIGNED + 64, 1], 3),
    (16, &[SIGNED + 2, 2, SIGNED + 2, 2], 5),
    (4, &[4, SIGNED + 4, SIGNED + 4], 5),
    (16, &[1, 1, SIGNED + 1, 1, 1, SIGNED + 16], 5),
    (33, &[5], 1),
    (1, &[1; 8], 1),
    (1, &[1; 9], 27),
    (8, &[1; 10], 27),
    (64, &[64, 1], 1),
    (31, &[2, 2, 2, 1], 1),
    (16, &[2, 2, 2, 2], 1),
    (4, &[4, 4, 4], 1),
    (32, &[3, 2, 3], 1),
    (33, &[1, 1, 1, 1, 1, 3], 1),
    (8, &[1, 1, 1, 1, 1, 8], 1),
    (16, &[1, 1, 1, 1, 1, 16], 1),
];

/// Large grids, of which the lines before a difference are run.
const LARGE: [(u64, &[u64]); 11] = [
    (64, &[SIGNED + 64; 10]),
    (63, &[64, SIGNED + 7, SIGNED + 63, 3, SIGNED + 64, 2]),
    (16, &[16, 16, 16, SIGNED + 16, 16, 16, 16, 16, SIGNED + 8]),
    (64, &[64; 10]),
    (64, &[64, 64, 64, 64, 64, 64, 64, 64, 1]),
    (63, &[64, 7, 64, 3, 64, 2]),
    (33, &[32; 6]),
    (32, &[32; 8]),
    (16, &[16; 9]),
    (8, &[8; 8]),
    (2, &[2; 10]),
];

/// So many lines, and so many pairs on each large grid.
const LINES: u64 = 20;
const PAIRS: usize = 6;

/// Grids on which a pair can differ at any places and no others, and of how many pairs of lanes one
/// is chosen.
const SPOTTED: [(u64, &[u64], u64); 12] = [
    (1, &[SIGNED + 1; 9], 8),
    (32, &[2, SIGNED + 2, 2, SIGNED + 2], 4),
    (8, &[1, 1, SIGNED + 1, 1, 1, SIGNED + 8], 4),
    (1, &[1; 7], 1),
    (1, &[1; 8], 8),
    (1, &[1; 9], 8),
    (8, &[1; 10], 8),
    (64, &[5, 1], 1),
    (32, &[2, 2, 2, 2], 1),
    (33, &[1, 1, 1, 1, 1, 3], 1),
    (8, &[1, 1, 1, 1, 1, 8], 1),
    (16, &[1, 1, 1, 1, 1, 16], 1),
];

fn sizes(m: u64, widths: &[u64]) -> Sizes {
    let widths = widths.to_vec();
    Sizes { m, widths }
}

/// A datapath to which a difference is added. Often it does not depend on the last input: then the
/// outputs agree at the first place of a line, and stay as they are up to the difference.
fn base(random: &mut Random, sizes: &Sizes) -> Datapath {
    let unused = random.index(2);
    let used: Vec<usize> = (0..sizes.d() - unused).collect();
    mixed::path(random, sizes, STEPS, &used)
}

/// The two datapaths in either order.
fn either(random: &mut Random, path: &Datapath, other: Datapath) -> [Datapath; 2] {
    let mut paths = [path.clone(), other];
    if random.chance(50) {
        paths.swap(0, 1);
    }
    paths
}

pub fn places(bench: &mut Bench) -> Outcome {
    let mut random = Random::new(PLACES_SEED);
    let mut runs = Runs::default();
    for (m, widths, apart) in GRIDS {
        let sizes = sizes(m, widths);
        let axes = axes(&sizes);
        let last = size(&axes) - 1;
        for place in (0..last).step_by(apart).chain([last]) {
            let path = base(&mut random, &sizes);
            let digits = digits_at(&axes, place).expect("a place below G");
            let other = match (alone(&sizes, &digits), counts(m, &digits)) {
                (true, true) if place % 3 == 1 => barely(&path, &digits),
                (true, _) => spots(&path, &[digits]),
                (false, true) => barely(&path, &digits),
                (false, false) => continue,
            };
            let survey = Survey::new(either(&mut random, &path, other));
            bench.same(&survey.first(0), &Some(place), || {
                format!("the pair for place {place} of {axes:?}")
            })?;
            around(bench, &mut random, &mut runs, &survey, place)?;
            in_parts(bench, &mut random, &mut runs, &survey, place)?;
        }
    }
    runs.judge(bench, &WAYS, &ACCEPTED, 50)
}

pub fn far(bench: &mut Bench) -> Outcome {
    let mut random = Random::new(FAR_SEED);
    let mut runs = Runs::default();
    for (m, widths) in LARGE {
        let sizes = sizes(m, widths);
        let axes = axes(&sizes);
        for _ in 0..PAIRS {
            let path = base(&mut random, &sizes);
            let digits = countable(&mut random, &sizes);
            let place = place_of(&axes, &digits);
            let start = place.saturating_sub(LINES * axes[axes.len() - 1]);
            let paths = either(&mut random, &path, barely(&path, &digits));
            let survey = Survey::part(paths, start..place + 1);
            bench.same(&survey.first(start), &Some(place), || {
                format!("the pair for place {place} of {axes:?}")
            })?;
            around(bench, &mut random, &mut runs, &survey, place)?;
            in_parts(bench, &mut random, &mut runs, &survey, place)?;
        }
    }
    runs.judge(bench, &WAYS, &[SPENT, DIFFERS], 30)
}

/// A budget that passes the difference, and not so large that a call which misses it never ends.
fn rest(survey: &Survey) -> u64 {
    if survey.places == (0..survey.count()) {
        u64::MAX
    } else {
        3 * LINES * line(survey)
    }
}

/// From places before this one, by budgets that just reach it, just miss it or pass it; and from
/// the place after it.
fn around(
    bench: &mut Bench,
    random: &mut Random,
    runs: &mut Runs,
    survey: &Survey,
    place: u64,
) -> Outcome {
    let line = line(survey);
    let scratch = scratch(larger(&survey.paths) + 2);
    let group = LANES * line;
    let in_line = place % line;
    let mut list = vec![0, 1, 15, 16, in_line, in_line + 1, group, group + in_line];
    let most = place - survey.places.start;
    list.extend([most, random.below(most + 1)]);
    list.extend((0..2).map(|_| group + random.below(line)));
    list.sort_unstable();
    list.dedup();
    for before in list.into_iter().filter(|&before| before <= most) {
        for budget in [before, before + 1, before + LANES, rest(survey)] {
            if budget == 0 {
                continue;
            }
            let position = place - before;
            let done = runs.run(bench, survey, position, budget, &scratch)?;
            let (kind, run, mark) = if budget > before {
                (DIFFERS, before + 1, 2)
            } else {
                (SPENT, before, 0)
            };
            let what = || format!("{before} vectors before place {place} by {budget}");
            bench.same(&done.answer[KIND..=RUN], &[kind, run], what)?;
            let after = [position + run, mark];
            bench.same(&done.session[POSITION..=MARK], &after, what)?;
        }
    }
    if survey.places.contains(&(place + 1)) {
        runs.run(bench, survey, place + 1, rest(survey), &scratch)?;
    }
    Ok(())
}

/// To the verdict by calls of one size, and by calls of random sizes.
fn in_parts(
    bench: &mut Bench,
    random: &mut Random,
    runs: &mut Runs,
    survey: &Survey,
    place: u64,
) -> Outcome {
    let line = line(survey);
    let scratch = scratch(larger(&survey.paths));
    let group = LANES * line;
    let least = survey.places.start;
    let early = place
        .saturating_sub(group + random.below(2 * line))
        .max(least);
    for size in [LANES, LANES + 1] {
        runs.finish(bench, survey, early, || size, &scratch)?;
    }
    let start = random.between(least, place);
    for size in [group, group + line, rest(survey)] {
        runs.finish(bench, survey, start, || size, &scratch)?;
    }
    let any = || match random.below(3) {
        0 => random.between(1, 40),
        1 => random.between(line, group),
        _ => random.between(group, 2 * group),
    };
    runs.finish(bench, survey, early, any, &scratch)
}

pub fn several(bench: &mut Bench) -> Outcome {
    let mut random = Random::new(SEVERAL_SEED);
    let mut runs = Runs::default();
    for (m, widths, apart) in SPOTTED {
        let sizes = sizes(m, widths);
        for first in 0..LANES {
            let chosen = |second: &u64| (first + second) % apart == 0;
            for second in (first + 1..LANES).filter(chosen) {
                let path = base(&mut random, &sizes);
                lanes(bench, &mut random, &mut runs, &path, [first, second])?;
            }
        }
    }
    runs.judge(
        bench,
        &[Way::Batches, Way::Groups],
        &[EQUIVALENT, DIFFERS],
        100,
    )
}

/// Two differences in one group: the one in the first of these lanes comes later in its line, but
/// first in dictionary order. Others may stand before the position and after the group.
fn lanes(
    bench: &mut Bench,
    random: &mut Random,
    runs: &mut Runs,
    path: &Datapath,
    [first, second]: [u64; 2],
) -> Outcome {
    let axes = axes(&path.sizes);
    let (count, line) = (size(&axes), axes[axes.len() - 1]);
    let group = random.between(1, count / line - LANES);
    let late = random.between(1, line - 1);
    let chosen = (group + first) * line + late;
    let mut places = vec![chosen, (group + second) * line + random.below(late)];
    if random.chance(70) {
        let any = random.below((group - 1) * line + 1);
        places.push(random.pick(&[0, any]));
    }
    if random.chance(50) {
        places.push(random.between(places[1], count - 1));
    }
    places.sort_unstable();
    places.dedup();
    let digits = |&place: &u64| digits_at(&axes, place).expect("a place below G");
    let chosen_digits: Vec<Vec<u64>> = places.iter().map(digits).collect();
    let survey = Survey::new(either(random, path, spots(path, &chosen_digits)));
    every(bench, runs, &survey, &places)?;
    let scratch = scratch(larger(&survey.paths) + 1);
    for back in [1, line, random.between(1, line)] {
        let position = group * line - back;
        let expected = places.iter().copied().find(|&place| place >= position);
        bench.same(&survey.first(position), &expected, || {
            format!("the pair for places {places:?} of {axes:?}")
        })?;
        let whole = back + LANES * line;
        let before = chosen - position;
        for budget in [before, before + 1, whole, whole + 1, whole - 1, u64::MAX] {
            runs.run(bench, &survey, position, budget, &scratch)?;
        }
        let size = random.between(LANES, whole);
        runs.finish(bench, &survey, position, || size, &scratch)?;
    }
    Ok(())
}

/// Each difference in turn, from the place after the one before it; then the end.
fn every(bench: &mut Bench, runs: &mut Runs, survey: &Survey, places: &[u64]) -> Outcome {
    let scratch = scratch(larger(&survey.paths));
    let mut position = 0;
    for &place in places {
        let done = runs.run(bench, survey, position, u64::MAX, &scratch)?;
        let sizes = &survey.paths[0].sizes;
        let digits = digits_at(&survey.axes, place).expect("a place below G");
        let words = &done.answer[RUN + 1..][..sizes.d()];
        let shown = sizes.vector(words).ok_or("no full-width vector is shown")?;
        bench.same(&shown, &vector_of(sizes, &digits), || {
            format!("from {position} to {place}")
        })?;
        let far = shown.iter().zip(sizes.lowest());
        let far: Vec<u64> = far.map(|(x, low)| (x - low) as u64).collect();
        bench.same(&place_of(&survey.axes, &far), &place, || {
            format!("from {position}")
        })?;
        position = place + 1;
    }
    if position < survey.count() {
        runs.finish(bench, survey, position, || u64::MAX, &scratch)?;
    }
    Ok(())
}
