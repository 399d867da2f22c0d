//! The run of a script.
use crate::config::Config;
use crate::erased::blk_workers::NoStall;
use crate::erased::blkq_run::run_bytes;
use crate::erased::counted_io::Counted;
use crate::errors::RunError;
use crate::text::Text;

/// Runs a script, and returns its answer: a line for each line of the script that asks something, and then the disk. The
/// program `blkq run` writes the same.
///
/// The run starts as many threads as the configuration has workers, and returns once they have ended. The maximum size of a script is
/// 1,048,576 bytes.
///
/// # Errors
///
/// Returns the first [`RunError`] that applies; a refused line comes before overlapping requests. A run that fails because memory or a
/// thread was refused can be tried again.
///
/// # Examples
///
/// ```
/// use blkq::{Config, RunError};
///
/// // Each limit counts from the line that sets it.
/// let script = b"blkq 1\ndisk 8 hw 8\nset max_sectors 2\nwrite 0 5 61\nfreeze\nread 0 1\nthaw\n";
/// let answer = blkq::run(script, Config::default())?;
/// assert_eq!(answer, b"3 ok\n4 ok 2+2+1\n5 depth 1\n6 EAGAIN\n7 depth 0\ndisk 61*2560,00*1536\n");
///
/// let overlap = b"blkq 1\ndisk 8 hw 8\nwrite 6 1 ff\nread 6 2\n";
/// assert_eq!(blkq::run(overlap, Config::default()), Err(RunError::Overlap { line: 4, earlier: 3 }));
/// # Ok::<(), RunError>(())
/// ```
pub fn run(script: &[u8], config: Config) -> Result<Vec<u8>, RunError> {
    let mut text = Text::default();
    run_bytes(&mut Counted::new(script), &mut Counted::new(&mut text), config.0, &NoStall)?;
    Ok(text.0)
}
