//! A plan of rounds for one recorder: safe calls of the proved library `libgaplinte.a`, in document 01's terms.
//!
//! ```
//! use gaplinte::{Line, Owner, Period, Plan, Refusal, Round, Start};
//!
//! let mut plan = Plan::new();
//! assert_eq!(plan.open(Line(1), Period(4)), Ok(Start(0)));
//! assert_eq!(plan.open(Line(1), Period(6)), Err(Refusal::LineOpen));
//! assert_eq!(plan.owner(Round(8)), Owner::Line(Line(1)));
//! assert_eq!(plan.owner(Round(9)), Owner::Idle { rest: 3 });
//! ```
//!
//! The static library is taken from the folder that the environment variable `GAPLINTE_LIBRARY_DIR` names when the
//! crate is built, or else from `target/staticlib` of the repository.

#![deny(missing_docs, unsafe_code, clippy::missing_errors_doc)]

mod answers;
mod call;
mod numbers;
mod owner;
mod plan;
pub mod raw;
mod reason;
mod refusal;
mod sheet;
mod walker;

pub use answers::{Answered, Answers};
pub use call::Call;
pub use numbers::{Class, Line, Period, Round, Start};
pub use owner::Owner;
pub use plan::{OpenLine, Plan, Row, Shown, Trial};
pub use reason::{Node, Reason};
pub use refusal::Refusal;
pub use sheet::Sheet;
pub use walker::Walker;
