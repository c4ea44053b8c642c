//! A second reading of the rules of the adjustment, written from the documents alone.
//!
//! It exists to be compared with the product: the same input must end in the same reply.
//! Sizes are kept out of the question by reckoning in `i128` throughout, and no input
//! makes it panic.

pub mod adjustment;
pub mod book;
pub mod census;
pub mod condition;
pub mod generate;
pub mod lines;
pub mod network;
mod numeric;
pub mod precision;
pub mod refusal;
pub mod reports;
pub mod rescue;
pub mod season;
pub mod sheet;
pub mod station;
