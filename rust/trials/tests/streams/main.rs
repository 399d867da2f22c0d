//! Readers and writers that fail in every way there is, what is counted of that, and texts that are read and written whole.

mod counting;
mod fakes;
mod reading;
mod writing;
