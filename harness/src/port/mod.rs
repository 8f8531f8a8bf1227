//! A port of the proved report, opening, writing, bounds of classes and loads, by gates or by a drawn tree, and chances of surviving to plain Rust, step for
//! step the same: what the proved code is timed against.
mod bounds;
mod calls;
mod classes;
mod drawn;
mod figures;
mod image;
mod model;
mod opening;
mod ordering;
mod page;
mod paths;
mod report;
mod soundness;
mod study;
mod survival;
mod text;
mod totals;
mod writing;

pub use calls::{class_bounds, drawn_class_bounds, load_bounds, open, write};
pub use report::report;
pub use survival::survival;
