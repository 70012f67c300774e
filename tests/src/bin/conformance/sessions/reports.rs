//! The text of an answer of continue, in a lent slice.

use super::Files;
use super::bench::scratch;
use crate::bench::{Bench, Outcome};
use crate::faults::{all_widths, file_faults, sound_file};
use crate::refusals::plain;
use reference::examples;
use reference::expression::constant;
use reference::pairs::{self, SAMPLE_A, SAMPLE_B};
use reference::random::Random;
use reference::report::{ROOM, report, text};
use reference::samples;
use reference::sessions::{ANSWER, DIFFERS, EQUIVALENT, KIND, REFUSED, RUN, SPENT};
use reference::signed;
use reference::sizes::{INPUTS, SIGNED};
use reference::ten_inputs;
use reference::twins::{self, KINDS, twin, varied_sizes};
use std::collections::BTreeMap;

pub const VERDICTS_SEED: u64 = 0x5e55_10e5_7e47;
pub const ANSWERS_SEED: u64 = 0x5e55_10e5_a115;

const PAIRS: u64 = 4_000;
const ANSWERS: u64 = 40_000;

/// The most vectors of a grid, but where there are eight inputs or more; and how many of a hundred
/// pairs are such.
const VECTORS: u64 = 400;
const MANY_INPUTS: u64 = 3;

/// A text slice with no line feed in it.
fn blank(length: usize) -> Vec<u8> {
    (0..length).map(|index| b'A' + (index % 26) as u8).collect()
}

/// Asks that the call writes these lines at the start of a text slice and leaves the rest.
fn writes(
    bench: &mut Bench,
    files: Files,
    answer: &[u64; ANSWER],
    run: u64,
    lines: &str,
) -> Outcome {
    for room in [ROOM, ROOM + 1, ROOM + 300] {
        let before = blank(room);
        let mut expected = before.clone();
        expected[..lines.len()].copy_from_slice(lines.as_bytes());
        let found = bench.product.report(files, answer, run, &before)?;
        bench.same(&found, &Some((lines.len() as u64, expected)), || {
            format!("answer {answer:?} after {run} vectors, in {room} bytes")
        })?;
    }
    Ok(())
}

/// Runs a pair by the product's calls, as the comparing program does but by another budget, and
/// asks for the text of the last answer.
fn finished(bench: &mut Bench, files: Files, budget: u64) -> Outcome<u64> {
    let mut session = bench.open(files)?.session;
    let mut run = 0;
    let answer = loop {
        let done = bench.answered(files, &session, budget, &scratch(1_024))?;
        session = done.session;
        run += done.answer[RUN];
        if done.answer[KIND] != SPENT {
            break done.answer;
        }
        writes(bench, files, &done.answer, run, "")?;
    };
    writes(bench, files, &answer, run, &report(files))?;
    Ok(answer[KIND])
}

/// Verdicts and refusals, from the files to the text: the pairs of both documents, of ten inputs and of
/// signed ones, every refusal of a file, and random pairs.
pub fn verdicts(bench: &mut Bench) -> Outcome {
    let named = [
        pairs::pairs(),
        ten_inputs::pairs(),
        signed::pairs(),
        examples::pairs(),
    ];
    for pair in named.into_iter().flatten() {
        let files = pair.files.each_ref().map(Vec::as_slice);
        finished(bench, files, 1_000_000)?;
    }
    for widths in all_widths() {
        let sound = sound_file(widths);
        for fault in file_faults(widths) {
            let mut bad = sound.clone();
            (fault.make)(&mut bad);
            for files in [[&bad, &sound], [&sound, &bad]] {
                let kind = finished(bench, files.map(Vec::as_slice), 1)?;
                bench.same(&kind, &REFUSED, || String::from("a damaged file"))?;
            }
        }
        finished(bench, [&sound, &SAMPLE_A], 1)?;
    }
    let mut random = Random::new(VERDICTS_SEED);
    let mut seen = BTreeMap::new();
    for index in 0..PAIRS {
        let sizes = varied_sizes(&mut random, 1 + index % 64, VECTORS, MANY_INPUTS);
        let path = twins::path(&mut random, &sizes);
        let kind = random.pick(&KINDS);
        let other = twin(&mut random, &path, kind);
        let files = [&path, &other].map(reference::file::write);
        let budget = random.between(100, 2 * VECTORS);
        let kind = finished(bench, files.each_ref().map(Vec::as_slice), budget)?;
        *seen.entry(kind).or_insert(0) += 1;
    }
    for kind in [EQUIVALENT, DIFFERS] {
        let often = seen.get(&kind).copied().unwrap_or(0) > PAIRS / 10;
        bench.same(&often, &true, || format!("kind {kind} occurs: {seen:?}"))?;
    }
    Ok(())
}

/// Answers whose words are anything, on any files; the longest text; answer and text slices of other
/// lengths.
pub fn answers(bench: &mut Bench) -> Outcome {
    let mut random = Random::new(ANSWERS_SEED);
    let files: Files = [&SAMPLE_A, &SAMPLE_B];
    for index in 0..ANSWERS {
        let m = 1 + index % 64;
        let sizes = samples::sizes(&mut random, m);
        let path = twins::path(&mut random, &sizes);
        let mut made = [&path, &path].map(reference::file::write);
        if random.chance(20) {
            let which = random.index(2);
            let at = random.index(made[which].len());
            made[which][at] ^= 1 << random.below(8);
        }
        let mut answer = [0; ANSWER];
        for word in &mut answer {
            *word = random.edged_word();
        }
        if random.chance(90) {
            answer[KIND] = random.below(5);
        }
        let run = random.edged_word();
        let made = made.each_ref().map(Vec::as_slice);
        writes(bench, made, &answer, run, &text(made, &answer, run))?;
    }
    let mut answer = [u64::MAX; ANSWER];
    answer[KIND] = DIFFERS;
    let largest = plain(64, &[64; INPUTS], 1);
    let longest: Files = [&largest, &largest];
    let run = u64::MAX;
    writes(bench, longest, &answer, run, &text(longest, &answer, run))?;
    for room in [0, 1, ROOM - 1] {
        let found = bench.product.report(files, &answer, 1, &blank(room))?;
        bench.same(&found, &None, || format!("a text of {room} bytes"))?;
    }
    let longer = [0; ANSWER + 1];
    for wrong in [0, 3, ANSWER - 1, ANSWER + 1] {
        let found = bench
            .product
            .report(files, &longer[..wrong], 1, &blank(ROOM))?;
        bench.same(&found, &None, || format!("an answer of {wrong} words"))?;
    }
    Ok(())
}

/// Words and what they are for a signed input; for an unsigned one they are plain numbers.
const WORDS: [(u64, &str); 12] = [
    (0, "0"),
    (1, "1"),
    (127, "127"),
    (128, "128"),
    (255, "255"),
    (u64::MAX, "-1"),
    (u64::MAX - 9, "-10"),
    (u64::MAX - 127, "-128"),
    (u64::MAX >> 1, "9223372036854775807"),
    (1 << 63, "-9223372036854775808"),
    ((1 << 63) + 1, "-9223372036854775807"),
    (u64::MAX - 999_999_999_999_999_999, "-1000000000000000000"),
];

/// A negative word of a signed input has a minus sign, whatever the word length; one of an unsigned
/// input, an output and a count have none. The longest texts fit their room.
pub fn signs(bench: &mut Bench) -> Outcome {
    for n in [1, 2, 3, 7, 8, 63, 64] {
        for d in 1..=INPUTS {
            for turned in [0, 1] {
                let marks = (0..d).map(|input| (input + turned) % 2 == 0);
                let marks: Vec<bool> = marks.collect();
                for (word, signed) in WORDS {
                    shown(bench, n, &marks, word, signed)?;
                }
            }
        }
    }
    for (number, other, lines) in [
        (5, 4, "grid 10 = 10\ndiffer -128 : 5 4\nrun 1\n"),
        (4, 5, "grid 10 = 10\ndiffer -128 : 4 5\nrun 1\n"),
        (5, 5, "grid 10 = 10\nequivalent\nrun 10\n"),
    ] {
        let files = [number, other].map(|number| constant(number).file(8, &[SIGNED + 8]));
        let files = files.each_ref().map(Vec::as_slice);
        let session = bench.start(files)?;
        let answer = bench.answered(files, &session, 1_000, &scratch(1))?.answer;
        writes(bench, files, &answer, answer[RUN], lines)?;
    }
    let longest = plain(64, &[SIGNED + 64; INPUTS], 1);
    let mut answer = [1 << 63; ANSWER];
    answer[KIND] = DIFFERS;
    answer[ANSWER - 2..].fill(u64::MAX);
    let axes = "66 ".repeat(INPUTS);
    let vector = "-9223372036854775808 ".repeat(INPUTS);
    let grid = format!("grid {axes}= 1568336880910795776");
    let outputs = "18446744073709551615 18446744073709551615";
    let lines = format!("{grid}\ndiffer {vector}: {outputs}\nrun 18446744073709551615\n");
    writes(bench, [&longest, &longest], &answer, u64::MAX, &lines)
}

/// An answer with this word for every input, of which some are signed.
fn shown(bench: &mut Bench, n: u64, marks: &[bool], word: u64, signed: &str) -> Outcome {
    let widths = marks.iter().map(|&mark| n + u64::from(mark) * SIGNED);
    let file = plain(8, &widths.collect::<Vec<u64>>(), 1);
    let axis = if n > 3 { 10u64 } else { 1 << n };
    let axes = format!("{axis} ").repeat(marks.len());
    let count = axis.pow(marks.len() as u32);
    let texts: Vec<String> = marks
        .iter()
        .map(|&mark| match mark {
            true => String::from(signed),
            false => word.to_string(),
        })
        .collect();
    let mut answer = [word; ANSWER];
    answer[KIND] = DIFFERS;
    let vector = texts.join(" ");
    let lines = format!("grid {axes}= {count}\ndiffer {vector} : {word} {word}\nrun {word}\n");
    writes(bench, [&file, &file], &answer, word, &lines)
}
