//! The independent reference of document 01, 'Rules and scope of the build': the rules as
//! plain rows and plain loops, for comparison with the proved service on random input.
//! The modules are named for the headings of that document.

#![forbid(unsafe_code)]
#![warn(missing_docs)]

pub mod calls;
pub mod generate;
pub mod holds;
pub mod limits;
pub mod listing;
pub mod numbers;
pub mod packed;
pub mod paths;
pub mod records;
pub mod serve;
pub mod sound;
pub mod tables;
pub mod text;
pub mod walk;

pub use limits::WORDS;
pub use numbers::Answer;
pub use serve::{hash, serve, serve_tables};
pub use sound::{broken_rules, sound, Rule};
pub use tables::Tables;
pub use walk::{walk, Goal};
