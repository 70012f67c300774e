//! The lines of the comparing program, and the text of an answer of continue.

use crate::file::read;
use crate::grid::{axes, size};
use crate::sessions::{ANSWER, DIFFERS, EQUIVALENT, KIND, REFUSED, RUN, SPENT, continued, opened};
use crate::sizes::value_of;

/// The least length of a text slice.
pub const ROOM: usize = 512;

/// The budget of each continue call.
pub const BUDGET: u64 = 1_000_000;

fn joined(numbers: &[impl ToString]) -> String {
    let texts: Vec<String> = numbers.iter().map(ToString::to_string).collect();
    texts.join(" ")
}

/// What the comparing program prints for two files.
pub fn report(files: [&[u8]; 2]) -> String {
    let opening = opened(files);
    if opening.answer[0] != 0 {
        return format!("refused {}\n", joined(&opening.answer));
    }
    let scratch = vec![0; files[0].len().max(files[1].len()) / 9];
    let mut session = opening.session;
    let mut run = 0;
    let answer = loop {
        let call = continued(files, &session, BUDGET, &scratch).expect("an opened session");
        session = call.session;
        run += call.answer[RUN];
        match call.answer[KIND] {
            REFUSED => unreachable!("an open session of these files"),
            SPENT => continue,
            _ => break call.answer,
        }
    };
    text(files, &answer, run)
}

/// The text of an answer of continue on two files, after `run` vectors over all calls. The answer's
/// words may be anything: a word of the vector is shown as what it gives its input, in range or not.
pub fn text(files: [&[u8]; 2], answer: &[u64; ANSWER], run: u64) -> String {
    let kind = answer[KIND];
    if kind == REFUSED {
        return format!("refused {}\n", joined(&answer[..KIND]));
    }
    if ![EQUIVALENT, DIFFERS].contains(&kind) || opened(files).answer[0] != 0 {
        return String::new();
    }
    let sizes = read(files[0], 1).expect("opened").sizes;
    let axes = axes(&sizes);
    let verdict = match kind {
        DIFFERS => {
            let values = sizes.widths.iter().zip(&answer[RUN + 1..]);
            let vector: Vec<i128> = values.map(|(&n, &word)| value_of(n, word)).collect();
            let vector = joined(&vector);
            format!("differ {vector} : {}", joined(&answer[ANSWER - 2..]))
        }
        _ => String::from("equivalent"),
    };
    let grid = format!("grid {} = {}", joined(&axes), size(&axes));
    format!("{grid}\n{verdict}\nrun {run}\n")
}

#[cfg(test)]
mod tests {
    use super::*;
    use crate::expression::{constant, x};
    use crate::pairs::{SAMPLE_A, SAMPLE_B, pairs};
    use crate::sizes::SIGNED;
    use crate::ten_inputs::{SAMPLE_TEN, ZERO_TEN};

    #[test]
    fn the_lines_of_document_01() {
        let lines = "grid 2 4 = 8\ndiffer 1 1 : 1 0\nrun 6\n";
        assert_eq!(report([&SAMPLE_A, &SAMPLE_B]), lines);
        assert_eq!(report([&SAMPLE_A, &[]]), "refused 1 2 0\n");
        let made_up = [7, 8, 9, REFUSED, 6, 5, 4, 3, 2, 1, 0, 1, 2, 3, 4, 3, 4];
        let files: [&[u8]; 2] = [&SAMPLE_A, &SAMPLE_B];
        assert_eq!(text(files, &made_up, 11), "refused 7 8 9\n");
        for (kind, line) in [(EQUIVALENT, "equivalent"), (DIFFERS, "differ 5 4 : 3 4")] {
            let answer = std::array::from_fn(|at| if at == KIND { kind } else { made_up[at] });
            let lines = format!("grid 2 4 = 8\n{line}\nrun 11\n");
            assert_eq!(text(files, &answer, 11), lines);
            assert_eq!(text([&SAMPLE_A, &[]], &answer, 11), "");
        }
        assert_eq!(text(files, &[SPENT; ANSWER], 11), "");
        assert_eq!(text(files, &[4; ANSWER], 11), "");
        let first = &pairs()[0].files;
        let lines = "grid 10 = 10\nequivalent\nrun 10\n";
        assert_eq!(report([&first[0], &first[1]]), lines);
    }

    #[test]
    fn the_lines_of_ten_inputs() {
        let lines = "grid 2 2 2 2 2 2 2 2 2 2 = 1024\ndiffer 1 0 0 0 0 0 0 0 0 1 : 1 0\nrun 514\n";
        assert_eq!(report([&SAMPLE_TEN, &ZERO_TEN]), lines);
        let mut answer = [u64::MAX; ANSWER];
        answer[KIND] = DIFFERS;
        let largest = x(10).file(64, &[64; 10]);
        let longest = text([&largest, &largest], &answer, u64::MAX);
        assert!(longest.starts_with("grid 66 66 66 66 66 66 66 66 66 66 = 1568336880910795776\n"));
        assert_eq!(longest.matches("18446744073709551615").count(), 13);
        assert!(longest.len() <= ROOM);
    }

    #[test]
    fn the_lines_of_signed_inputs() {
        let constants = [5, 4].map(|number| constant(number).file(8, &[SIGNED + 8]));
        let lines = "grid 10 = 10\ndiffer -128 : 5 4\nrun 1\n";
        assert_eq!(report([&constants[0], &constants[1]]), lines);
        let file = x(2).file(8, &[8, SIGNED + 8, SIGNED + 1, 64, SIGNED + 64]);
        let files: [&[u8]; 2] = [&file, &file];
        let mut answer = [0; ANSWER];
        answer[KIND] = DIFFERS;
        // any words: those of an unsigned input are plain
        let words = [u64::MAX, u64::MAX, 1, 1 << 63, 1 << 63];
        answer[RUN + 1..][..5].copy_from_slice(&words);
        answer[ANSWER - 2..].copy_from_slice(&[u64::MAX, 1 << 63]);
        let shown = "18446744073709551615 -1 1 9223372036854775808 -9223372036854775808";
        let line = format!("differ {shown} : 18446744073709551615 9223372036854775808");
        assert!(text(files, &answer, 1).contains(&line));
    }

    #[test]
    fn the_longest_lines_of_signed_inputs() {
        let largest = x(10).file(64, &[SIGNED + 64; 10]);
        let mut answer = [1 << 63; ANSWER];
        answer[KIND] = DIFFERS;
        answer[ANSWER - 2..].fill(u64::MAX);
        let longest = text([&largest, &largest], &answer, u64::MAX);
        assert_eq!(longest.matches(" -9223372036854775808").count(), 10);
        assert_eq!(longest.matches("18446744073709551615").count(), 3);
        assert!(longest.len() <= ROOM);
    }
}
