//! Batches: lists of calls that are made one after the other.

use crate::answers::{told, Answer, Refusal};
use crate::boundary::{self, AnswerImage, ANSWER_STRIDE, CALL_STRIDE};
use crate::calls::Call;
use crate::image::Image;

/// A list of calls, and their answers once it was run: by
/// [`Unit::run_batch`](crate::Unit::run_batch) or [`Image::run_batch`], as often as a
/// bench likes. To run it again allocates nothing.
#[derive(Clone, Debug, Default)]
pub struct Batch {
    calls: Vec<u32>,
    /// As many as the calls once they were made, else none.
    answers: Vec<u32>,
}

impl Batch {
    /// Adds a call at the end and drops the answers.
    pub fn push(&mut self, call: Call) {
        let (number, [x, y, z]) = call.numbered();
        let numbers: [u32; CALL_STRIDE] = [number, x, y, z, 0, 0];
        self.calls.extend(numbers);
        self.answers.clear();
    }

    /// Drops calls and answers, and keeps their room.
    pub fn clear(&mut self) {
        self.calls.clear();
        self.answers.clear();
    }

    /// The answers of the last run, in the order of the calls; none before a run.
    pub fn answers(&self) -> impl ExactSizeIterator<Item = Result<Answer, Refusal>> + '_ {
        let answers = self.answers.chunks_exact(ANSWER_STRIDE);
        answers.map(|numbers| told(AnswerImage::listed(numbers)))
    }

    /// Makes the calls.
    pub(crate) fn run(&mut self, image: &mut Image, cache: &mut [u8], memory: &mut [u8]) {
        self.answers.resize(self.calls.len() / CALL_STRIDE * ANSWER_STRIDE, 0);
        let ran = boundary::run(image, &self.calls, &mut self.answers, cache, memory);
        // The lengths fit, so the library runs the list, whatever is lent.
        assert_eq!(ran.kind, boundary::KIND_RAN);
    }
}

impl FromIterator<Call> for Batch {
    fn from_iter<I: IntoIterator<Item = Call>>(calls: I) -> Batch {
        let mut batch = Batch::default();
        calls.into_iter().for_each(|call| batch.push(call));
        batch
    }
}
