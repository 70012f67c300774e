//! The product's functions on sessions, every call with its guards.

use super::Files;
use crate::bench::Outcome;
use crate::lent::Lent;
use crate::product::{Product, ask, perhaps, right_length, wrong_lengths};
use reference::sessions::{ANSWER, Continued, Opened, SESSION};

unsafe extern "C" {
    fn corkbingo_open(
        file1: *const u8,
        file1_len: usize,
        file2: *const u8,
        file2_len: usize,
        session: *mut u64,
        session_len: usize,
        out: *mut u64,
        out_len: usize,
    ) -> u32;

    fn corkbingo_continue(
        file1: *const u8,
        file1_len: usize,
        file2: *const u8,
        file2_len: usize,
        session: *mut u64,
        session_len: usize,
        budget: u64,
        scratch: *mut u64,
        scratch_len: usize,
        answer: *mut u64,
        answer_len: usize,
    ) -> u32;

    fn corkbingo_report(
        file1: *const u8,
        file1_len: usize,
        file2: *const u8,
        file2_len: usize,
        answer: *const u64,
        answer_len: usize,
        run: u64,
        text: *mut u8,
        text_len: usize,
        out: *mut u64,
        out_len: usize,
    ) -> u32;
}

/// Bytes on both sides of a lent text that nobody may change.
const GUARD: [u8; 16] = *b"a guard of bytes";

const WRONG_SESSIONS: [usize; 3] = [0, SESSION - 1, SESSION + 1];

impl Product {
    /// Opens into a session slice with this content.
    pub fn open(&mut self, files: Files, before: &[u64; SESSION]) -> Outcome<Opened> {
        let name = "open";
        let [first, second] = [self.file.place(files[0]), self.second.place(files[1])];
        let call = |session: &mut Lent, out, length| {
            let session_len = session.content().len();
            // SAFETY: each slice is lent as pointer and length, and no two of them overlap.
            unsafe {
                corkbingo_open(
                    first,
                    files[0].len(),
                    second,
                    files[1].len(),
                    session.pointer(),
                    session_len,
                    out,
                    length,
                )
            }
        };
        wrong_sessions(name, before, 3, call)?;
        let mut session = Lent::new(before);
        let answer = right_length(name, &mut |out, length| call(&mut session, out, length))?;
        ask(session.guarded(), || {
            format!("{name}: wrote beside the session")
        })?;
        self.files_unchanged(name, files)?;
        let session = std::array::from_fn(|index| session.content()[index]);
        Ok(Opened { answer, session })
    }

    /// Session, answer and scratch slice after the call; none where the call returns 0.
    pub fn continued(
        &mut self,
        files: Files,
        before: &[u64; SESSION],
        budget: u64,
        scratch: &[u64],
    ) -> Outcome<Option<Continued>> {
        let name = "continue";
        let [first, second] = [self.file.place(files[0]), self.second.place(files[1])];
        let mut work = Lent::new(scratch);
        let work_at = work.pointer();
        let call = |session: &mut Lent, out, length| {
            let session_len = session.content().len();
            // SAFETY: each slice is lent as pointer and length, and no two of them overlap.
            unsafe {
                corkbingo_continue(
                    first,
                    files[0].len(),
                    second,
                    files[1].len(),
                    session.pointer(),
                    session_len,
                    budget,
                    work_at,
                    scratch.len(),
                    out,
                    length,
                )
            }
        };
        wrong_sessions(name, before, ANSWER, call)?;
        ask(work.untouched(scratch), || {
            format!("{name}: a wrong length, yet the scratch slice was touched")
        })?;
        let mut session = Lent::new(before);
        let answer = perhaps(name, &mut |out, length| call(&mut session, out, length))?;
        ask(session.guarded() && work.guarded(), || {
            format!("{name}: wrote beside a lent slice")
        })?;
        self.files_unchanged(name, files)?;
        let Some(answer) = answer else {
            let untouched = session.untouched(before) && work.untouched(scratch);
            let what = || format!("{name}: returned 0, yet a lent slice was touched");
            return ask(untouched, what).map(|()| None);
        };
        Ok(Some(Continued {
            answer,
            session: std::array::from_fn(|index| session.content()[index]),
            scratch: work.content().to_vec(),
        }))
    }

    /// The length of the text, and the text slice after the call; none where the call returns 0.
    pub fn report(
        &mut self,
        files: Files,
        answer: &[u64],
        run: u64,
        text: &[u8],
    ) -> Outcome<Option<(u64, Vec<u8>)>> {
        let name = "report";
        let [first, second] = [self.file.place(files[0]), self.second.place(files[1])];
        let words = self.vector.place_words(answer);
        let mut bytes = [&GUARD, text, &GUARD].concat();
        let at = bytes[GUARD.len()..].as_mut_ptr();
        // SAFETY: each slice is lent as pointer and length, and no two of them overlap.
        let mut call = |out, length| unsafe {
            corkbingo_report(
                first,
                files[0].len(),
                second,
                files[1].len(),
                words,
                answer.len(),
                run,
                at,
                text.len(),
                out,
                length,
            )
        };
        wrong_lengths(name, 1, &mut call)?;
        let length: Option<[u64; 1]> = perhaps(name, &mut call)?;
        self.files_unchanged(name, files)?;
        ask(self.vector.holds_words(answer), || {
            format!("{name}: wrote to the answer")
        })?;
        ask(bytes.starts_with(&GUARD) && bytes.ends_with(&GUARD), || {
            format!("{name}: wrote beside the text")
        })?;
        let after = bytes[GUARD.len()..][..text.len()].to_vec();
        let Some([length]) = length else {
            let what = || format!("{name}: returned 0, yet the text was touched");
            return ask(after == text, what).map(|()| None);
        };
        Ok(Some((length, after)))
    }

    fn files_unchanged(&self, name: &str, files: Files) -> Outcome {
        self.file_unchanged(name, files[0])?;
        ask(self.second.holds(files[1]), || {
            format!("{name}: wrote to file 2")
        })
    }
}

/// Calls with a session slice or an answer slice of a wrong length: all return 0 and touch neither.
fn wrong_sessions(
    name: &str,
    before: &[u64; SESSION],
    length: usize,
    call: impl Fn(&mut Lent, *mut u64, usize) -> u32,
) -> Outcome {
    let mut session = Lent::new(before);
    wrong_lengths(name, length, &mut |out, length| {
        call(&mut session, out, length)
    })?;
    ask(session.untouched(before), || {
        format!("{name}: a wrong answer length, yet the session was touched")
    })?;
    let mut longer = before.to_vec();
    longer.push(0);
    for wrong in WRONG_SESSIONS {
        let content = &longer[..wrong];
        let mut session = Lent::new(content);
        let mut out = Lent::blank(length);
        let returned = call(&mut session, out.pointer(), length);
        ask(returned == 0, || {
            format!("{name}: returned {returned} for a session of {wrong} words")
        })?;
        ask(session.untouched(content) && out.blank_still(), || {
            format!("{name}: a session of {wrong} words, yet a lent slice was touched")
        })?;
    }
    Ok(())
}
