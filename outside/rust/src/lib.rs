//! An independent reference checker for the packed tour models of document 01,
//! with generators of cases and, under the feature `portal`, a comparison with
//! the main checker's C interface.

pub mod checker;
pub mod generate;
pub mod inputs;

#[cfg(feature = "portal")]
pub mod fence;
#[cfg(feature = "portal")]
pub mod ffi;
