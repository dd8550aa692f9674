//! The sheet text and the listing.
mod listing;
mod read;
pub mod reader;
mod run;
mod typed;
pub mod writer;
