//! The proved library as a toolchain, for comparison with the model.
//!
//! - `interface`: the C functions;
//! - `lent`: memory with guards on both sides, lent to a call;
//! - `proved`: the calls through C, under guard;
//! - `direct`: the calls through C as a host makes them;
//! - `depth`: the stack that a call takes;
//! - `cases`: what is compared, each case made from a seed and its number alone.

pub mod cases;
pub mod depth;
pub mod direct;
pub mod interface;
pub mod lent;
pub mod proved;
