//! How long a test waits for another thread.

use std::time::Duration;

/// Other threads need microseconds, or minutes on a busy machine. The bound ends a test that hangs.
pub const PATIENCE: Duration = Duration::from_secs(600);
