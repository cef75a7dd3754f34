//! What is counted of many sheets beside their outcomes.

use crate::batch::{Finish, Sheet};
use crate::classes::Classes;
use crate::places::Places;
use crate::unlike::Unlike;
use std::fmt;

#[derive(Clone, Debug, Default, PartialEq, Eq)]
pub struct Counts {
    pub places: Places,
    pub unlike: Unlike,
    pub classes: Classes,
}

impl Counts {
    pub fn count(&mut self, sheet: &Sheet, finish: &Finish) {
        self.places.count(sheet, finish);
        self.unlike.count(sheet, finish);
        self.classes.count(sheet, finish);
    }

    pub fn add(&mut self, other: &Counts) {
        self.places.add(&other.places);
        self.unlike.add(&other.unlike);
        self.classes.add(&other.classes);
    }
}

impl fmt::Display for Counts {
    fn fmt(&self, out: &mut fmt::Formatter<'_>) -> fmt::Result {
        write!(out, "{}; {}; {}", self.places, self.unlike, self.classes)
    }
}
