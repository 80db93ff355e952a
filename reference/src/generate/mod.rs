//! Random input for comparisons: traces of records and lent tables, sound and broken. Nothing
//! here decides an answer.

mod aim;
mod brim;
mod broken_tables;
mod damage;
mod linked_tables;
mod random;
mod sound_tables;
mod traces;

pub use broken_tables::{broken_tables, flip_bits, some_breakable};
pub use linked_tables::{linked_tables, LinkedTables};
pub use random::Random;
pub use sound_tables::sound_tables;
pub use traces::{Mode, Trace, MODES};
