//! An independent reader and player of BAC6 figures and TRA4 movements,
//! written from the papers, to compare other readers against.
//!
//! Decimals are whole numbers of millionths throughout.
#![forbid(unsafe_code)]

pub mod annotate;
pub mod compare;
pub mod cursor;
pub mod figure;
pub mod figure_rules;
pub mod generate;
pub mod limits;
pub mod listing;
pub mod many;
pub mod movement;
pub mod movement_rules;
pub mod notes;
pub mod number;
pub mod pair;
pub mod play;
pub mod refusal;
pub mod steps;
pub mod subject;
pub mod token;
