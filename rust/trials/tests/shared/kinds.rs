//! Limits of devices of each kind.

use blkq::erased::freeze_queue::Limits;

/// Returns limits in which any two of these values come together: of the hardware, the largest request, the chunk and the physical block. The
/// numbers of values have no common divisor, so 112 limits are enough, and the first 35 have each hardware with each chunk.
pub fn limits_of_each_kind() -> impl Iterator<Item = Limits> {
    const HARDWARE: [u32; 5] = [1, 8, 9, 1_024, 65_535];
    const CHUNK: [u32; 7] = [0, 1, 4, 8, 100, 4_096, 65_535];
    (0..112).map(|kind| {
        let hardware = HARDWARE[kind % 5];
        let max = [hardware, hardware.div_ceil(2), 1][kind % 3];
        let mut limits = Limits::new(hardware, max, CHUNK[kind % 7]).expect("limits");
        limits.set_physical(1 << (kind % 16)).expect("a power of two");
        limits
    })
}
