//! Sessions: what opening and continuing answer, in the layouts of include/corkbingo.h.

use crate::calls::{ACCEPTED, refusal_words};
use crate::file::{Datapath, Refusal, read, write};
use crate::grid::{axes, digits_at, size, vector_of};
use crate::sizes::{INPUTS, SIZES, Sizes, words_of};
use crate::value::output;
use std::ops::Range;

/// The words of a session: m, d, the widths of ten inputs, position, mark.
pub const SESSION: usize = SIZES + 2;

/// The words of an answer: number, file, step, kind, vectors run, x1 to x10, two outputs.
pub const ANSWER: usize = 7 + INPUTS;

/// Where position and mark stand in a session, and kind and vectors run in an answer.
pub const POSITION: usize = SESSION - 2;
pub const MARK: usize = SESSION - 1;
pub const KIND: usize = 3;
pub const RUN: usize = 4;

/// The kinds of an answer.
pub const REFUSED: u64 = 0;
pub const SPENT: u64 = 1;
pub const EQUIVALENT: u64 = 2;
pub const DIFFERS: u64 = 3;

#[derive(Clone, Copy, Debug, PartialEq, Eq)]
pub enum Mark {
    Open,
    Equal,
    Differ,
}

pub const MARKS: [Mark; 3] = [Mark::Open, Mark::Equal, Mark::Differ];

#[derive(Clone, Debug, PartialEq, Eq)]
pub struct Session {
    /// m, d and the ten widths; they need not be sound.
    pub sizes: [u64; SIZES],
    pub position: u64,
    pub mark: Mark,
}

impl Session {
    /// A session of zeros, marked open.
    pub fn zero() -> Session {
        Session {
            sizes: [0; SIZES],
            position: 0,
            mark: Mark::Open,
        }
    }

    pub fn words(&self) -> [u64; SESSION] {
        let mut words = [0; SESSION];
        words[..POSITION].copy_from_slice(&self.sizes);
        words[POSITION] = self.position;
        words[MARK] = self.mark as u64;
        words
    }

    /// None where a size is no byte or the mark is none of the three.
    pub fn from_words(words: &[u64; SESSION]) -> Option<Session> {
        let [sizes @ .., position, mark] = *words;
        let mark = MARKS.into_iter().find(|known| *known as u64 == mark)?;
        sizes.iter().all(|&size| size <= 255).then_some(Session {
            sizes,
            position,
            mark,
        })
    }

    /// The contrary of 102, on a grid of `count` vectors.
    fn fits(&self, count: u64) -> bool {
        match self.mark {
            Mark::Open => self.position < count,
            Mark::Equal => self.position == count,
            Mark::Differ => (1..=count).contains(&self.position),
        }
    }
}

#[derive(Clone, Debug, PartialEq, Eq)]
pub struct Opened {
    /// Number, file, step.
    pub answer: [u64; 3],
    pub session: [u64; SESSION],
}

#[derive(Clone, Debug, PartialEq, Eq)]
pub struct Continued {
    pub answer: [u64; ANSWER],
    pub session: [u64; SESSION],
    /// The scratch slice after the call.
    pub scratch: Vec<u64>,
}

/// Both datapaths, or the first of file 1's conditions, file 2's conditions and 9 that holds.
fn both(files: [&[u8]; 2]) -> Result<[Datapath; 2], Refusal> {
    let paths = [read(files[0], 1)?, read(files[1], 2)?];
    if paths[0].sizes != paths[1].sizes {
        return Err(Refusal::plain(9));
    }
    Ok(paths)
}

/// The larger N.
pub fn larger(paths: &[Datapath; 2]) -> usize {
    paths[0].steps.len().max(paths[1].steps.len())
}

pub fn opened(files: [&[u8]; 2]) -> Opened {
    let (refusal, session) = match both(files) {
        Err(refusal) => (refusal, Session::zero()),
        Ok([path, _]) => {
            let sizes = path.sizes.numbers();
            let start = Session {
                sizes,
                ..Session::zero()
            };
            (ACCEPTED, start)
        }
    };
    Opened {
        answer: refusal_words(refusal),
        session: session.words(),
    }
}

/// The datapaths of an accepted call, or its refusal.
fn judge(
    files: [&[u8]; 2],
    session: &Session,
    budget: u64,
    scratch: usize,
) -> Result<[Datapath; 2], Refusal> {
    if budget == 0 {
        return Err(Refusal::plain(11));
    }
    let paths = both(files)?;
    let sizes = &paths[0].sizes;
    let number = if scratch < larger(&paths) {
        12
    } else if session.sizes != sizes.numbers() {
        101
    } else if !session.fits(size(&axes(sizes))) {
        102
    } else if session.mark != Mark::Open {
        103
    } else {
        return Ok(paths);
    };
    Err(Refusal::plain(number))
}

/// The vector at a place of the grid with these axes.
fn vector_at(sizes: &Sizes, axes: &[u64], place: u64) -> Vec<i128> {
    let digits = digits_at(axes, place).expect("a place below G");
    vector_of(sizes, &digits)
}

/// Both outputs at a place of the grid.
fn outputs_at(paths: &[Datapath; 2], axes: &[u64], place: u64) -> [u64; 2] {
    let vector = vector_at(&paths[0].sizes, axes, place);
    paths.each_ref().map(|path| output(path, &vector).output)
}

/// The answer and the position and mark that an accepted call leaves, by the outputs at a place.
fn run(
    sizes: &Sizes,
    axes: &[u64],
    position: u64,
    budget: u64,
    outputs: impl Fn(u64) -> [u64; 2],
) -> ([u64; ANSWER], u64, Mark) {
    let count = size(axes);
    let end = (u128::from(position) + u128::from(budget)).min(u128::from(count)) as u64;
    let mut answer = [0; ANSWER];
    for place in position..end {
        let outputs = outputs(place);
        if outputs[0] != outputs[1] {
            let vector = words_of(&vector_at(sizes, axes, place));
            answer[KIND] = DIFFERS;
            answer[RUN] = place + 1 - position;
            answer[RUN + 1..][..vector.len()].copy_from_slice(&vector);
            answer[ANSWER - 2..].copy_from_slice(&outputs);
            return (answer, place + 1, Mark::Differ);
        }
    }
    answer[RUN] = end - position;
    let (kind, mark) = if end == count {
        (EQUIVALENT, Mark::Equal)
    } else {
        (SPENT, Mark::Open)
    };
    answer[KIND] = kind;
    (answer, end, mark)
}

/// None where a session word does not fit its field.
pub fn continued(
    files: [&[u8]; 2],
    session: &[u64; SESSION],
    budget: u64,
    scratch: &[u64],
) -> Option<Continued> {
    continued_by(files, session, budget, scratch, outputs_at)
}

/// The same, with the outputs at a place of the grid given.
fn continued_by(
    files: [&[u8]; 2],
    session: &[u64; SESSION],
    budget: u64,
    scratch: &[u64],
    outputs: impl Fn(&[Datapath; 2], &[u64], u64) -> [u64; 2],
) -> Option<Continued> {
    let before = Session::from_words(session)?;
    let mut after = Continued {
        answer: [0; ANSWER],
        session: *session,
        scratch: scratch.to_vec(),
    };
    match judge(files, &before, budget, scratch.len()) {
        Err(refusal) => after.answer[..3].copy_from_slice(&refusal_words(refusal)),
        Ok(paths) => {
            let sizes = before.sizes;
            let axes = axes(&paths[0].sizes);
            let at = |place| outputs(&paths, &axes, place);
            let (answer, position, mark) = run(&paths[0].sizes, &axes, before.position, budget, at);
            after.answer = answer;
            after.session = Session {
                sizes,
                position,
                mark,
            }
            .words();
            after.scratch[..larger(&paths)].fill(0);
        }
    }
    Some(after)
}

/// A pair of the same sizes for many calls: its outputs at the places of a range are worked out
/// once.
pub struct Survey {
    pub paths: [Datapath; 2],
    pub axes: Vec<u64>,
    pub places: Range<u64>,
    files: [Vec<u8>; 2],
    outputs: Vec<[u64; 2]>,
}

impl Survey {
    /// The whole grid.
    pub fn new(paths: [Datapath; 2]) -> Survey {
        let count = size(&axes(&paths[0].sizes));
        Survey::part(paths, 0..count)
    }

    /// A range of places of the grid. No call may run others.
    pub fn part(paths: [Datapath; 2], places: Range<u64>) -> Survey {
        let axes = axes(&paths[0].sizes);
        let at = |place| outputs_at(&paths, &axes, place);
        let outputs = places.clone().map(at).collect();
        let files = paths.each_ref().map(write);
        Survey {
            paths,
            axes,
            places,
            files,
            outputs,
        }
    }

    pub fn files(&self) -> [&[u8]; 2] {
        self.files.each_ref().map(Vec::as_slice)
    }

    /// G.
    pub fn count(&self) -> u64 {
        size(&self.axes)
    }

    fn outputs(&self, place: u64) -> [u64; 2] {
        assert!(self.places.contains(&place), "place {place} was left out");
        self.outputs[(place - self.places.start) as usize]
    }

    /// The first place from `from` on, to the end of the range, at which the outputs differ.
    pub fn first(&self, from: u64) -> Option<u64> {
        let differs = |place: &u64| {
            let [left, right] = self.outputs(*place);
            left != right
        };
        (from..self.places.end).find(differs)
    }

    pub fn continued(
        &self,
        session: &[u64; SESSION],
        budget: u64,
        scratch: &[u64],
    ) -> Option<Continued> {
        let known = |_: &[Datapath; 2], _: &[u64], place: u64| self.outputs(place);
        continued_by(self.files(), session, budget, scratch, known)
    }
}

#[cfg(test)]
mod tests {
    use super::*;
    use crate::pairs::{SAMPLE_A, SAMPLE_B, pairs};

    const START: [u64; SESSION] = [2, 2, 1, 2, 0, 0, 0, 0, 0, 0, 0, 0, 0, 0];

    #[test]
    fn the_sample_pair() {
        let files = [&SAMPLE_A[..], &SAMPLE_B];
        let opening = opened(files);
        assert_eq!((opening.answer, opening.session), ([0, 0, 0], START));
        let first = continued(files, &START, 5, &[7; 4]).unwrap();
        assert_eq!(first.answer[..5], [0, 0, 0, SPENT, 5]);
        assert_eq!(first.answer[5..], [0; ANSWER - 5]);
        assert_eq!(first.session[POSITION..], [5, 0]);
        assert_eq!(first.scratch, [0, 0, 0, 7]);
        let last = continued(files, &first.session, u64::MAX, &[7; 3]).unwrap();
        let shown = [0, 0, 0, DIFFERS, 1, 1, 1, 0, 0, 0, 0, 0, 0, 0, 0, 1, 0];
        assert_eq!(last.answer, shown);
        assert_eq!(last.session[POSITION..], [6, 2]);
        let late = continued(files, &last.session, 1, &[7; 3]).unwrap();
        assert_eq!((late.answer[0], late.scratch), (103, vec![7; 3]));
        assert_eq!(late.session, last.session);
    }

    #[test]
    fn nine_and_one() {
        let pair = &pairs()[0];
        let files = [pair.files[0].as_slice(), &pair.files[1]];
        let start = opened(files).session;
        let nine = continued(files, &start, 9, &[0; 20]).unwrap();
        assert_eq!(nine.answer[KIND..=RUN], [SPENT, 9]);
        let one = continued(files, &nine.session, 1, &[0; 20]).unwrap();
        assert_eq!(one.answer[KIND..=RUN], [EQUIVALENT, 1]);
        assert_eq!(one.session[POSITION..], [10, 1]);
    }

    #[test]
    fn refusals_of_the_state_in_order() {
        let files = [&SAMPLE_A[..], &SAMPLE_B];
        let number = |session: [u64; SESSION]| {
            let found = continued(files, &session, 1, &[0; 3]);
            found.map(|found| found.answer[0])
        };
        let with = |changes: &[(usize, u64)]| {
            let mut session = START;
            for &(index, word) in changes {
                session[index] = word;
            }
            number(session)
        };
        for unused in 4..POSITION {
            let changes = [(unused, 1), (POSITION, 8), (MARK, 1)];
            assert_eq!(with(&changes), Some(101), "word {unused}");
        }
        assert_eq!(with(&[(POSITION, 8)]), Some(102));
        assert_eq!(with(&[(POSITION, 7), (MARK, 1)]), Some(102));
        assert_eq!(with(&[(POSITION, 0), (MARK, 2)]), Some(102));
        assert_eq!(with(&[(POSITION, 8), (MARK, 1)]), Some(103));
        assert_eq!(with(&[(POSITION, 8), (MARK, 2)]), Some(103));
        assert_eq!(with(&[(MARK, 3)]), None);
        assert_eq!(with(&[(2, 256)]), None);
    }

    #[test]
    fn a_refused_opening_is_a_session_of_zeros() {
        let found = opened([&SAMPLE_A, &SAMPLE_B[..20]]);
        assert_eq!((found.answer, found.session), ([6, 2, 0], [0; SESSION]));
    }

    #[test]
    fn a_survey_answers_as_the_calls_do() {
        for pair in pairs() {
            let files = pair.files.each_ref().map(Vec::as_slice);
            let paths = files.map(|file| read(file, 1).unwrap());
            let part = Survey::part(paths.clone(), 1..size(&axes(&paths[0].sizes)));
            let survey = Survey::new(paths);
            assert_eq!(survey.files(), files);
            assert_eq!(survey.first(1), part.first(1));
            let mut session = opened(files).session;
            for position in 0..=survey.count() {
                session[POSITION] = position;
                for (budget, length) in [(0, 99), (1, 99), (2, 98), (u64::MAX, 99), (1, 0)] {
                    let scratch = vec![7; length];
                    let found = survey.continued(&session, budget, &scratch);
                    assert_eq!(found, continued(files, &session, budget, &scratch));
                    if position > 0 {
                        assert_eq!(part.continued(&session, budget, &scratch), found);
                    }
                }
            }
        }
    }
}
