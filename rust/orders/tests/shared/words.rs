//! Atomic numbers whose steps are turns, and the fences between them.
pub use orders::turns::AtomicU64;

/// The fences. With ORDERS_WITHOUT_FENCE the process has no heavy one. No turn reorders what a light one keeps in order.
pub mod fences {
    use std::sync::LazyLock;

    static HAS_HEAVY_FENCE: LazyLock<bool> = LazyLock::new(|| std::env::var_os("ORDERS_WITHOUT_FENCE").is_none());

    pub fn light_fence() {}

    pub fn has_heavy_fence() -> bool {
        *HAS_HEAVY_FENCE
    }

    /// Empties each thread's buffer of stores.
    pub fn heavy_fence() {
        if has_heavy_fence() {
            orders::turns::heavy_fence();
        }
    }
}
