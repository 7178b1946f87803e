//! Quick forms of the rules: the same answers with the same signatures, made without
//! records and with as few pieces of memory as they need.
//!
//! The plain modules are what is read beside the paper; these are made for speed alone, and
//! the exports are timed against both. `both` runs a rule by both forms, which must agree.

pub mod capture;
pub mod copy;
pub mod fragments;
pub mod ids;
pub mod parse;
pub mod purge;
pub mod radio;
pub mod render;
pub mod salvage;
pub mod sheet;
pub mod steps;
