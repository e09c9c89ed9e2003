//! A client library that hands out recorded results, with the names and records that the original calls.
//!
//! It keeps the rules of docs/host.md. Buffers are the caller's, by raw pointers, as the C interface has them; before each write it asks
//! the allocator whether the buffer is alive, and a buffer that is not is noted and left alone.

#![allow(non_camel_case_types, clippy::missing_safety_doc)]

pub mod guard;
pub mod names;
pub mod recording;

pub use names::*;

#[cfg(not(feature = "real"))]
mod connection;
#[cfg(not(feature = "real"))]
mod statement;

#[cfg(not(feature = "real"))]
pub use {connection::*, statement::*};

#[cfg(feature = "real")]
mod real;

#[cfg(feature = "real")]
pub use real::*;
