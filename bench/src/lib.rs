//! An independent model of the fail-stop store of document 01, with the
//! requests of document 02 that have landed, and what compares the verified
//! implementation with it.

#![deny(unsafe_code)]

pub mod difference;
pub mod model;
pub mod program;
pub mod random;
pub mod traffic;

#[cfg(feature = "linked")]
pub mod convert;
#[cfg(feature = "linked")]
pub mod differential;
#[cfg(feature = "linked")]
pub mod ffi;
#[cfg(feature = "linked")]
pub mod isolation;
#[cfg(feature = "mutants")]
pub mod mutants;
#[cfg(feature = "linked")]
pub mod simulation;

/// What the model is compared with.
#[cfg(feature = "linked")]
pub fn other_side() -> &'static str {
    if cfg!(feature = "mutants") {
        "the mutants"
    } else {
        "libexport.a"
    }
}
