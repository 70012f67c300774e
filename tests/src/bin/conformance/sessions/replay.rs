//! The pairs of document 01, those of eight to ten inputs and of signed ones, and the examples of
//! document 002, run to a verdict by various budgets; and all of these with every input signed.

use super::Files;
use super::bench::scratch;
use crate::bench::{Bench, Outcome};
use crate::replay::all_signed;
use reference::compare::{Comparison, Verdict};
use reference::examples;
use reference::file::read;
use reference::grid::{axes, size};
use reference::pairs::{self, Pair};
use reference::sessions::{ANSWER, DIFFERS, EQUIVALENT, KIND, MARK, POSITION, REFUSED, RUN, SPENT};
use reference::signed;
use reference::sizes::Sizes;
use reference::ten_inputs;

pub fn pairs(bench: &mut Bench) -> Outcome {
    for pair in pairs::pairs().iter().chain(&ten_inputs::pairs()) {
        replay(bench, pair)?;
        replay(bench, &all_signed(pair)?)?;
    }
    nine_and_one(bench)
}

pub fn signed_pairs(bench: &mut Bench) -> Outcome {
    signed::pairs()
        .iter()
        .try_for_each(|pair| replay(bench, pair))
}

pub fn examples(bench: &mut Bench) -> Outcome {
    for pair in examples::pairs() {
        replay(bench, &pair)?;
        replay(bench, &all_signed(&pair)?)?;
    }
    Ok(())
}

/// Document 01's first pair: budget 9 is spent, then budget 1 finds the two equivalent.
fn nine_and_one(bench: &mut Bench) -> Outcome {
    let list = pairs::pairs();
    let files = list[0].files.each_ref().map(Vec::as_slice);
    let mut session = bench.start(files)?;
    for (budget, kind, position, mark) in [(9, SPENT, 9, 0), (1, EQUIVALENT, 10, 1)] {
        let done = bench.answered(files, &session, budget, &scratch(20))?;
        let mut expected = [0; ANSWER];
        expected[KIND] = kind;
        expected[RUN] = budget;
        bench.same(&done.answer, &expected, || format!("budget {budget}"))?;
        bench.same(&done.session[POSITION..], &[position, mark], || {
            format!("the session after budget {budget}")
        })?;
        session = done.session;
    }
    Ok(())
}

fn replay(bench: &mut Bench, pair: &Pair) -> Outcome {
    let name = pair.name;
    let files = pair.files.each_ref().map(Vec::as_slice);
    let path = read(files[0], 1).map_err(|refusal| format!("{name}: {refusal:?}"))?;
    let count = size(&axes(&path.sizes));
    let run = pair.expected.run;
    let mut budgets = vec![1, 2, 3, 7, run, run + 1, count, count + 1, u64::MAX];
    budgets.extend([run - 1, count - 1].iter().filter(|&&budget| budget > 0));
    for budget in budgets {
        let found = to_verdict(bench, files, &path.sizes, budget)?;
        bench.same(&found, &pair.expected, || {
            format!("{name} by budgets of {budget}")
        })?;
    }
    Ok(())
}

/// Continues with this budget to a verdict; then the session is closed.
fn to_verdict(bench: &mut Bench, files: Files, sizes: &Sizes, budget: u64) -> Outcome<Comparison> {
    let scratch = scratch(files[0].len().max(files[1].len()) / 9);
    let mut session = bench.start(files)?;
    let mut run = 0;
    loop {
        let done = bench.answered(files, &session, budget, &scratch)?;
        let answer = done.answer;
        let moved = done.session[POSITION] - session[POSITION];
        bench.same(&answer[RUN], &moved, || String::from("vectors run"))?;
        run += answer[RUN];
        session = done.session;
        let (verdict, mark) = match answer[KIND] {
            SPENT => continue,
            EQUIVALENT => (Verdict::Equivalent, 1),
            DIFFERS => {
                let words = &answer[RUN + 1..][..sizes.d()];
                let vector = sizes.vector(words).ok_or("no full-width vector is shown")?;
                let outputs = [answer[ANSWER - 2], answer[ANSWER - 1]];
                (Verdict::Differs { vector, outputs }, 2)
            }
            kind => return Err(format!("refused, or of no kind: {kind}, {answer:?}")),
        };
        bench.same(&session[MARK], &mark, || String::from("the mark"))?;
        let late = bench.answered(files, &session, budget, &scratch)?;
        bench.same(&late.answer[..4], &[103, 0, 0, REFUSED], || {
            String::from("a call after the verdict")
        })?;
        bench.same(&late.session, &session, || {
            String::from("the session after the verdict")
        })?;
        return Ok(Comparison { verdict, run });
    }
}
