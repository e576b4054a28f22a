//! The independent reading of the rules, its feeds and its comparisons: for
//! its own program, and for the test of the library for controllers.

mod child;
pub mod commands;
mod compare_replay;
mod compare_telegrams;
mod coverage;
mod feed;
mod frames;
pub mod generate;
pub mod random;
mod refusal;
pub mod replay;
mod samples;
mod session;
pub mod set;
mod streams;
mod telegram;
mod telegram_groups;
mod timing;
