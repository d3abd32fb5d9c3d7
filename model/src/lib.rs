//! The transaction table, written anew from the documents in `docs`.
//!
//! It shares no code with the proved table. It is what the proved one is compared with, and the
//! yardstick for its speed.

pub mod agreement;
pub mod decimal;
pub mod entry;
pub mod generate;
pub mod history;
pub mod law;
pub mod limits;
pub mod policy;
pub mod proved;
pub mod reduce;
pub mod refusal;
pub mod rng;
pub mod runner;
pub mod survey;
pub mod table;
pub mod text;
pub mod workload;
