//! Follow-up sheets, read, judged, explained, carried out and forecast once more: an
//! implementation of its own, written from the scope document and the published algorithm, to
//! compare with.

pub mod carry;
pub mod chase;
pub mod explain;
pub mod forecast;
pub mod judge;
pub mod layout;
mod mix;
pub mod random;
#[cfg(test)]
mod tests;
pub mod verify;
pub mod verify_forecast;
pub mod verify_run;

pub use carry::{carry, Run};
pub use chase::{chase, Chased};
pub use explain::{explain, read_back, text_of_steps, Told, MOST_EXPLAINED};
pub use forecast::{forecast, Figure, Forecast};
pub use judge::{judge, judge_text, Verdict};
pub use layout::{line_span, pattern, read, write, Line, Refusal};
pub use verify::verify;
pub use verify_forecast::{verify_forecast, Left};
pub use verify_run::verify_run;
