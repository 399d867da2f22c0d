//! The program from inside: readers, writers and stalls of every kind. tests/rows has its worked rows.

mod arguments;
mod driver;
mod each_byte;
#[path = "../streams/fakes.rs"]
mod fakes;
mod lines;
#[path = "../shared/meeting.rs"]
mod meeting;
mod stalling;
mod texts;
mod ways;
