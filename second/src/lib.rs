//! An independent second program for the rules of Hibernaxo.
//!
//! It is written from the rules' text alone and shares no code with the
//! library that it is compared with. It is plain: every rule parses into records
//! and renders from records. The forms of `quick`, like the streaming copy, are made
//! for speed alone and make no records; `both` holds them to the plain ones in every
//! case of the comparison. The exports are timed against both.

// The rules, one module for each part of the paper.
pub mod burst;
pub mod capture;
pub mod copy;
pub mod fragments;
pub mod ids;
pub mod paper;
pub mod parse;
pub mod purge;
pub mod quick;
pub mod radio;
pub mod refusal;
pub mod render;
pub mod salvage;
pub mod sheet;
pub mod steps;
pub mod stream;
pub mod text;

// The generator of inputs, good and bad.
pub mod blocks;
pub mod damage;
pub mod dice;
pub mod drafts;
pub mod generate;
pub mod lines;
pub mod orders;
pub mod packets;
pub mod pairs;
pub mod pieces;
pub mod rests;
pub mod runs;
pub mod seams;
pub mod tlvs;

// The comparison with the library's exports.
pub mod answers;
pub mod both;
#[cfg(feature = "exports")]
pub mod capturing;
#[cfg(feature = "exports")]
pub mod cases;
#[cfg(feature = "exports")]
pub mod demand;
#[cfg(feature = "exports")]
pub mod exports;
#[cfg(feature = "exports")]
pub mod fragmenting;
#[cfg(feature = "exports")]
pub mod in_turn;
pub mod judge;
pub mod lent;
#[cfg(feature = "exports")]
pub mod limits;
#[cfg(feature = "exports")]
pub mod measuring;
pub mod programs;
#[cfg(feature = "exports")]
pub mod purging;
#[cfg(feature = "exports")]
pub mod radio_trips;
#[cfg(feature = "exports")]
pub mod releases;
#[cfg(feature = "exports")]
pub mod round_trips;
#[cfg(feature = "exports")]
pub mod salvaging;
#[cfg(feature = "exports")]
pub mod side_by_side;
#[cfg(feature = "exports")]
pub mod stepping;
#[cfg(feature = "exports")]
pub mod typed_ids;

#[cfg(test)]
mod tests;
