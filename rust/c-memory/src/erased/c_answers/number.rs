// Erased from crates/c_answers/src/number.rt by tools/erase: edit that file.
//! The numbers of the results that both libraries return to C.

use crate::erased::c_answers::misuse::Misuse;
use crate::erased::percpu_gate::Put;

/// The number of a put: 1 if it was the last, else 0.
pub fn put_number(put: Put) -> u32 {
    match put {
        Put::NotLast => 0,
        Put::Last => 1,
    }
}

/// The number of a put, or of the misuse.
pub fn of_put(answer: Result<Put, Misuse>) -> u32 {
    match answer {
        Ok(put) => put_number(put),
        Err(why) => why.number(),
    }
}

/// 0, or the number of a misuse.
pub fn of_unit(answer: Result<(), Misuse>) -> u32 {
    match answer {
        Ok(()) => 0,
        Err(why) => why.number(),
    }
}

/// Writes the value, and returns 0. A misuse writes nothing, and its number is returned.
pub fn write<T: Copy>(answer: Result<T, Misuse>, here: &mut T) -> u32 {
    match answer {
        Ok(value) => {
            *here = value;
            0
        }
        Err(why) => why.number(),
    }
}
