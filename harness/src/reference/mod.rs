//! The second implementation: every call once more, from the papers alone, in the plainest way that gives the answer.
//! It goes over joint states one by one and is slow. Nothing here was taken from the proved code or from the port.
pub mod big;
pub mod bounds;
pub mod calls;
pub mod drawn;
pub mod exact;
pub mod figures;
pub mod gates;
pub mod image;
pub mod losses;
pub mod opening;
pub mod paths;
pub mod refusals;
pub mod report;
pub mod study;
pub mod survival;
pub mod writing;
