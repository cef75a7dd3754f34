//! Compares the proved functions with the independent program.

pub mod answering;
pub mod askings;
pub mod cases;
pub mod comparison;
pub mod damage;
pub mod dealt;
pub mod entries;
pub mod expressions;
pub mod grown;
pub mod independent;
pub mod limits;
pub mod lister;
pub mod lists;
pub mod notation;
pub mod proved;
pub mod sheets;
pub mod tables;
pub mod texts;
pub mod writings;
