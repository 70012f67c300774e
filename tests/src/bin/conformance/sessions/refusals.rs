//! Refusals of open and continue, by number, file and step.

use super::Files;
use super::bench::scratch;
use crate::bench::{Bench, Outcome};
use crate::faults::{
    Fault, FileFault, MANY_WIDTHS, SIGNED_WIDTHS, STEPS, WIDTHS, all_widths, file_faults,
    grid_size, of_file, sound_file, sound_sizes, subsets as sets,
};
use crate::refusals::plain;
use reference::file::read;
use reference::pairs::{SAMPLE_A, SAMPLE_B};
use reference::sessions::{MARK, POSITION, SESSION};
use reference::signed::{SAMPLE_SIGNED, SAMPLE_SIGNED_TEN, ZERO_SIGNED};
use reference::sizes::{INPUTS, SIGNED, is_signed};
use reference::ten_inputs::{SAMPLE_NINE, SAMPLE_TEN, ZERO_TEN};

/// What a continue call is given; an opening takes the files of it.
struct Call {
    files: [Vec<u8>; 2],
    session: [u64; SESSION],
    budget: u64,
    scratch: usize,
}

fn sound(widths: &[u64]) -> Call {
    let mut session = [0; SESSION];
    session[..POSITION].copy_from_slice(&sound_sizes(widths).numbers());
    Call {
        files: [sound_file(widths), sound_file(widths)],
        session,
        budget: 1,
        scratch: STEPS,
    }
}

/// Faults in the order of a continue call, those of the files by number and step. The number 102 is
/// made to hold under every mark. Of signed inputs, 9 and 101 are by a mark alone.
fn faults(widths: &[u64], chosen: &[(u64, u64)]) -> Vec<Fault<Call>> {
    let grid = grid_size(widths);
    let signed = is_signed(widths[0]);
    let among = |fault: &FileFault| chosen.contains(&(fault.number, fault.step));
    let mut list: Vec<Fault<Call>> = vec![([11, 0, 0], Box::new(|call| call.budget = 0))];
    list.extend(of_file(1, widths, among, |call: &mut Call| {
        &mut call.files[0]
    }));
    list.extend(of_file(2, widths, among, |call: &mut Call| {
        &mut call.files[1]
    }));
    list.push((
        [9, 0, 0],
        match signed {
            true => Box::new(|call| call.files[1][5] ^= 128),
            false => Box::new(|call| call.files[1][5] = 4),
        },
    ));
    list.push(([12, 0, 0], Box::new(|call| call.scratch -= 1)));
    list.push((
        [101, 0, 0],
        match signed {
            true => Box::new(|call| call.session[2] -= SIGNED),
            false => Box::new(|call| call.session[POSITION - 1] = 2),
        },
    ));
    list.push((
        [102, 0, 0],
        Box::new(move |call| call.session[POSITION] = grid + 1),
    ));
    list.push((
        [103, 0, 0],
        Box::new(move |call| {
            call.session[MARK] = 1;
            call.session[POSITION] = grid;
        }),
    ));
    list
}

/// Every set of fourteen faults, in continue and in open. Of eight inputs and more, and of signed ones,
/// others of the files' faults are chosen: with the long head, 1 is judged before 2 and after 3.
pub fn subsets(bench: &mut Bench) -> Outcome {
    let chosen = [(2, 0), (6, 0), (7, 0), (8, 4)];
    every(bench, &WIDTHS, &faults(&WIDTHS, &chosen))?;
    let chosen = [(1, 0), (5, 0), (8, 4)];
    for widths in MANY_WIDTHS.into_iter().chain(SIGNED_WIDTHS) {
        every(bench, widths, &faults(widths, &chosen))?;
    }
    Ok(())
}

fn every(bench: &mut Bench, widths: &[u64], faults: &[Fault<Call>]) -> Outcome {
    for (call, refusal) in sets(faults, || sound(widths)) {
        let files = call.files.each_ref().map(Vec::as_slice);
        let done = bench.answered(files, &call.session, call.budget, &scratch(call.scratch))?;
        bench.same(&done.answer[..3], &refusal, || {
            String::from("the first fault of continue")
        })?;
        let opened = bench.open(files)?;
        if (1..=9).contains(&refusal[0]) {
            bench.same(&opened.answer, &refusal, || {
                String::from("the first fault of open")
            })?;
        }
    }
    Ok(())
}

/// Opens and continues with files that are to be refused so.
fn refuses(bench: &mut Bench, files: Files, expected: [u64; 3]) -> Outcome {
    let opened = bench.open(files)?;
    bench.same(&opened.answer, &expected, || String::from("open"))?;
    let zeros = [0; SESSION];
    bench.same(&opened.session, &zeros, || {
        String::from("a refused opening")
    })?;
    for session in [zeros]
        .into_iter()
        .chain(all_widths().map(|widths| sound(widths).session))
    {
        let done = bench.answered(files, &session, 1, &scratch(1030))?;
        bench.same(&done.answer[..3], &expected, || String::from("continue"))?;
    }
    Ok(())
}

/// Each fault of a file in file 1, in file 2 and in both, and other files beside it; and the sessions
/// of the samples.
pub fn opening(bench: &mut Bench) -> Outcome {
    for widths in all_widths() {
        let sound = sound_file(widths);
        let other = plain(7, &[5, 6, 7], 4);
        for fault in file_faults(widths) {
            let mut bad = sound.clone();
            (fault.make)(&mut bad);
            let refusal = |file| [fault.number, file, fault.step];
            refuses(bench, [&bad, &sound], refusal(1))?;
            refuses(bench, [&sound, &bad], refusal(2))?;
            refuses(bench, [&bad, &other], refusal(1))?;
            refuses(bench, [&other, &bad], refusal(2))?;
            for second in file_faults(widths) {
                let mut worse = sound.clone();
                (second.make)(&mut worse);
                refuses(bench, [&bad, &worse], refusal(1))?;
            }
        }
        refuses(bench, [&sound, &[]], [1, 2, 0])?;
    }
    refuses(bench, [&[], &[]], [1, 1, 0])?;
    refuses(bench, [&SAMPLE_NINE, &SAMPLE_TEN], [9, 0, 0])?;
    refuses(bench, [&SAMPLE_TEN, &SAMPLE_SIGNED_TEN], [9, 0, 0])?;
    let samples: [(Files, [u64; SESSION]); 5] = [
        (
            [&SAMPLE_SIGNED, &ZERO_SIGNED],
            [8, 2, 136, 3, 0, 0, 0, 0, 0, 0, 0, 0, 0, 0],
        ),
        (
            [&SAMPLE_SIGNED_TEN, &SAMPLE_SIGNED_TEN],
            [
                2, 10, 129, 129, 129, 129, 129, 129, 129, 129, 129, 129, 0, 0,
            ],
        ),
        (
            [&SAMPLE_A, &SAMPLE_B],
            [2, 2, 1, 2, 0, 0, 0, 0, 0, 0, 0, 0, 0, 0],
        ),
        (
            [&SAMPLE_NINE, &SAMPLE_NINE],
            [2, 9, 1, 1, 1, 1, 1, 1, 1, 1, 1, 0, 0, 0],
        ),
        (
            [&SAMPLE_TEN, &ZERO_TEN],
            [2, 10, 1, 1, 1, 1, 1, 1, 1, 1, 1, 1, 0, 0],
        ),
    ];
    for (files, expected) in samples {
        let session = bench.start(files)?;
        bench.same(&session, &expected, || String::from("open of samples"))?;
    }
    Ok(())
}

/// Number 9 by m, by d, by each word length and by each mark; and pairs of all sizes opened.
pub fn sizes(bench: &mut Bench) -> Outcome {
    for (d, width) in (1..=INPUTS).flat_map(|d| [(d, 9), (d, SIGNED + 9)]) {
        let widths = vec![width; d];
        let file = plain(8, &widths, 3);
        refuses(bench, [&file, &plain(9, &widths, 3)], [9, 0, 0])?;
        refuses(bench, [&plain(7, &widths, 1), &file], [9, 0, 0])?;
        let mut longer = widths.clone();
        longer.push(width);
        if d < INPUTS {
            refuses(bench, [&file, &plain(8, &longer, 3)], [9, 0, 0])?;
            refuses(bench, [&plain(8, &longer, 3), &file], [9, 0, 0])?;
        }
        for input in 0..d {
            for other in [8, 10, 64, 9, SIGNED + 9, SIGNED + 64] {
                if other == width {
                    continue;
                }
                let mut others = widths.clone();
                others[input] = other;
                let other = plain(8, &others, 3);
                refuses(bench, [&file, &other], [9, 0, 0])?;
                refuses(bench, [&other, &file], [9, 0, 0])?;
            }
        }
        for m in 1..=64 {
            let files = [plain(m, &widths, 1), plain(m, &widths, 6)];
            let files = files.each_ref().map(Vec::as_slice);
            let session = bench.start(files)?;
            let path = read(files[0], 1).map_err(|refusal| format!("{refusal:?}"))?;
            bench.same(&session[..POSITION], &path.sizes.numbers(), || {
                String::from("the sizes of an opened session")
            })?;
            for (length, refusal) in [(0, 12), (1, 12), (5, 12), (6, 0), (7, 0)] {
                let done = bench.answered(files, &session, 1, &scratch(length))?;
                bench.same(&done.answer[..3], &[refusal, 0, 0], || {
                    format!("the larger N is 6, the scratch slice {length} long")
                })?;
            }
        }
    }
    Ok(())
}
