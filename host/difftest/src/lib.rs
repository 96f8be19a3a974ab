//! Differential tests of the consent book: two [`Engine`]s are driven side by side over the same random houses,
//! damaged messages and damaged books, and every reply, every permission and every word of every book is compared.
//!
//! [`run`] is the whole of it. A [`Difference`] says what was asked, what each side answered, and the seed that
//! brings it back.
//!
//! ```
//! use difftest::{run, Functions, Plan};
//!
//! let plan = Plan { messages: 2_000, sweeps: 0, ..Plan::default() };
//! let report = run(&plan, &Functions::PLAIN, &Functions::PLAIN).unwrap();
//! assert!(report.messages >= 2_000);
//! ```

mod bytes;
mod damage;
mod engine;
mod forge;
mod house;
mod numbers;
mod pair;
mod random;
mod replies;
mod rooms;
mod run;
mod view;

pub use engine::{Engine, Functions};
pub use pair::Difference;
pub use run::{run, Plan, Report};
