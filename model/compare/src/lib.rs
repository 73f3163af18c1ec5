//! The library's entries as a host calls them, with the package `fast` and the model beside them: random and adversarial cases
//! for all three, and pieces of work to measure.

pub mod cases;
pub mod entries;
pub mod lent;
pub mod replies;
pub mod sides;
pub mod tables;
pub mod work;
pub mod yards;
