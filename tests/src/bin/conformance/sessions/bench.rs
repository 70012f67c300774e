//! One call on sessions, compared with the reference word for word.

use super::Files;
use crate::bench::{Bench, Outcome, first_difference, named};
use reference::sessions::{self, Continued, Opened, SESSION, Survey};

/// What a session slice holds before an opening; of no meaning.
const BEFORE: [u64; SESSION] = [u64::MAX; SESSION];

/// A scratch slice with something in it.
pub fn scratch(length: usize) -> Vec<u64> {
    (0..length as u64).map(|index| !index).collect()
}

fn both(call: &str, files: Files) -> String {
    let second = named("and", files[1]);
    format!("{} {second}", named(call, files[0]))
}

impl Bench {
    /// Opens two files, into a session slice with any content.
    pub fn open(&mut self, files: Files) -> Outcome<Opened> {
        let found = self.product.open(files, &BEFORE)?;
        let expected = sessions::opened(files);
        self.same(&found, &expected, || both("open", files))?;
        let again = self.product.open(files, &[0; SESSION])?;
        self.same(&again, &expected, || both("open", files))?;
        Ok(expected)
    }

    /// Opens two files that are to be accepted.
    pub fn start(&mut self, files: Files) -> Outcome<[u64; SESSION]> {
        let opened = self.open(files)?;
        self.same(&opened.answer, &[0, 0, 0], || both("open", files))?;
        Ok(opened.session)
    }

    /// Continues, and compares the return value, the answer, the session and every scratch entry.
    pub fn continued(
        &mut self,
        files: Files,
        session: &[u64; SESSION],
        budget: u64,
        scratch: &[u64],
    ) -> Outcome<Option<Continued>> {
        let expected = sessions::continued(files, session, budget, scratch);
        self.compared(files, session, budget, scratch, &expected)?;
        Ok(expected)
    }

    fn compared(
        &mut self,
        files: Files,
        session: &[u64; SESSION],
        budget: u64,
        scratch: &[u64],
        expected: &Option<Continued>,
    ) -> Outcome {
        let found = self.product.continued(files, session, budget, scratch)?;
        let call = || {
            let call = both("continue", files);
            let length = scratch.len();
            format!("{call} from {session:?} by {budget} with {length} scratch words")
        };
        let words = |done: &Continued| (done.answer, done.session);
        let [found_words, expected_words] = [&found, expected].map(|done| done.as_ref().map(words));
        self.same(&found_words, &expected_words, call)?;
        if let (Some(found), Some(expected)) = (&found, expected) {
            let wrong = first_difference(&found.scratch, &expected.scratch);
            self.same(&wrong, &None, || format!("wrong scratch entry, {}", call()))?;
        }
        Ok(())
    }

    /// The same from a session whose words fit.
    pub fn answered(
        &mut self,
        files: Files,
        session: &[u64; SESSION],
        budget: u64,
        scratch: &[u64],
    ) -> Outcome<Continued> {
        let done = self.continued(files, session, budget, scratch)?;
        done.ok_or_else(|| format!("no answer to a session of fitting words {session:?}"))
    }

    /// The same for a pair whose outputs are worked out already.
    pub fn surveyed(
        &mut self,
        survey: &Survey,
        session: &[u64; SESSION],
        budget: u64,
        scratch: &[u64],
    ) -> Outcome<Continued> {
        let expected = survey.continued(session, budget, scratch);
        self.compared(survey.files(), session, budget, scratch, &expected)?;
        expected.ok_or_else(|| format!("no answer to a session of fitting words {session:?}"))
    }
}
