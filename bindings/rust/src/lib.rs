//! The proved name guard, for Rust programs.
//!
//! A [`Service`] owns its tables and answers one [`Call`] after another: granted as *held*, *seen*
//! or *done* with a number ([`Granted`]), or refused with one of eighteen reasons ([`Refusal`]).
//!
//! ```
//! use tickbutton::{Call, Granted, Refusal, Service};
//!
//! # fn main() -> Result<(), Refusal> {
//! let mut service = Service::new();
//! service.call(&Call::Enter { process: 20, user: 500 })?;
//! service.call(&Call::Enter { process: 30, user: 600 })?;
//! let held = service.call(&Call::Check { process: 20, path: "/fox".into() })?;
//! assert_eq!(held, Granted::Held(0));
//! let refused = service.call(&Call::Create { process: 30, path: "/fox".into() });
//! assert_eq!(refused, Err(Refusal::HeldByAnother));
//! # Ok(())
//! # }
//! ```
//!
//! Names, targets and paths have the lengths of [`limits`], and the walk of a path takes stack for
//! each link followed within another: a thread that calls needs [`limits::STACK`] bytes.
//!
//! What each function of the archive gives is proved of its code (crates/exports). That it is
//! declared right here is not, so the declarations stand in one place, the module [`archive`]; what
//! else is here is tested.

#![deny(unsafe_code)]
#![warn(missing_docs)]

mod answers;
pub mod archive;
mod calls;
mod goals;
pub mod limits;
mod refusals;
mod service;
pub mod tables;
mod text;

pub use answers::{Answer, Granted};
pub use calls::{Call, NotRead};
pub use goals::Goal;
pub use refusals::Refusal;
pub use service::Service;
pub use text::{shown, NoCall};
