//! Ports, pods and buffer of a carrier tool: an independent implementation of document 01.
//!
//! A [`Tool`] is plain bytes. [`setup`] makes one, [`step`] gives it an input and answers with a
//! number: 0 for accepted, 1 to 8 for the reason of a refusal. A refusal changes nothing.
//!
//! All of this is document 01 as it stood before any request, and so is [`judge`], which holds other
//! tools' logs against it. [`requests`] has the same functions for the tool with document 02's
//! requests.

#![cfg_attr(not(feature = "std"), no_std)]
#![deny(unsafe_op_in_unsafe_fn)]

pub mod judge;
mod report;
pub mod requests;
mod rows;
mod sound;
mod state;

#[cfg(feature = "std")]
pub mod gen;

pub use rows::{step, step_known_sound};
pub use sound::sound;
pub use state::*;
