//! Three programs for the same jobs on recordings: the library, the second program and a tuned one.

mod filled;
pub mod library;
pub mod tuned;

pub use filled::filled_up;
pub use second::LayoutNumbers;
pub use zagalume_raw::Answer;

/// An answer of the second program, in the form that the library gives it.
pub fn of_second(answer: second::Answer) -> Answer {
    Answer { number: answer.number, at: answer.at, field: answer.field, length: answer.length }
}
