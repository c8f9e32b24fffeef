// What the Rust text takes from its crate's solver module.

pub mod core {
    #[derive(Clone, Copy, PartialEq, Eq)]
    pub enum ScalingStrategy {
        PrimalDual,
        Dual,
    }
}

pub struct CoreSettings<T> {
    pub linesearch_backtrack_step: T,
    pub min_terminate_step_length: T,
}
