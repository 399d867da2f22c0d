//! What thiserror derives.

use core::error::Error;
use core::fmt;

#[derive(Clone, Debug)]
pub enum Fault {
    Plain,
    /// A number.
    At(u32),
    Both(u32, u8),
    Line {
        line: u32,
        column: u32,
    },
}

impl fmt::Display for Fault {
    fn fmt(&self, f: &mut fmt::Formatter<'_>) -> fmt::Result {
        match self {
            Fault::Plain => f.write_str("plain"),
            Fault::At(it) => write!(f, "at {it}"),
            Fault::Both(field_0, field_1) => write!(f, "{field_1} and {field_0}"),
            Fault::Line { line, .. } => write!(f, "line {line}"),
        }
    }
}

impl Error for Fault {}

#[derive(Debug)]
pub struct Missing {
    pub what: u32,
}

impl fmt::Display for Missing {
    fn fmt(&self, f: &mut fmt::Formatter<'_>) -> fmt::Result {
        let Missing { what } = self;
        write!(f, "no {what}")
    }
}

impl Error for Missing {}

pub fn missing(fault: Fault) -> Missing {
    match fault {
        Fault::At(what) => Missing { what },
        _ => Missing { what: 0 },
    }
}
