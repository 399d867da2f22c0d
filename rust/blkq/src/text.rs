//! A text in memory that the erased functions write to, here and in the crate above.
use std::io::{ErrorKind, Result, Write};

/// A growing text. If memory for growth is refused, writing returns an error and leaves the text unchanged.
#[derive(Debug, Default)]
pub struct Text(pub Vec<u8>);

impl Write for Text {
    fn write(&mut self, bytes: &[u8]) -> Result<usize> {
        self.0.try_reserve_exact(bytes.len()).map_err(|_| ErrorKind::OutOfMemory)?;
        self.0.extend_from_slice(bytes);
        Ok(bytes.len())
    }

    fn flush(&mut self) -> Result<()> {
        Ok(())
    }
}
