//! An independent reference engine for a labelled stack machine, and what is needed to check another engine against it.

pub mod check;
pub mod figures;
pub mod generate;
pub mod kinds;
pub mod labels;
pub mod machine;
pub mod observer;
pub mod ours;
pub mod plan;
pub mod policy;
pub mod random;
pub mod sheet;
pub mod shrink;
pub mod station;

#[cfg(feature = "engine")]
pub mod foreign;
