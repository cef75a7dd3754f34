//! An independent run of the programs of document 01.
//!
//! Program words become trees and tables become maps; the answers are the
//! outcome, place, steps, proposals accepted, unread words and final tables.
//! Texts in the papers' notation (document 02, W1) become program words, and
//! lists of entries (W3) assignments; program words are written as such texts
//! (W5), and two solvers are asked about one statement (W6).
#![forbid(unsafe_code)]

pub mod asking;
pub mod batch;
pub mod causes;
pub mod classes;
pub mod constraints;
pub mod counts;
pub mod entries;
pub mod evaluate;
pub mod generator;
pub mod identity;
pub mod lister;
pub mod outcome;
pub mod places;
pub mod program;
pub mod proposal;
pub mod run;
pub mod statements;
pub mod tables;
pub mod text;
pub mod unlike;
pub mod writer;
