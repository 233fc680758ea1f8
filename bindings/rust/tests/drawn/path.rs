//! Where the oracle's generator looks for copp's types. The crate's configuration has a field more than copp's, of which a
//! request of the generator names every field: so copp's stands here, and becomes the crate's.

pub use pamitoye::OutOfRangeMode;

pub mod smoothing {
    use super::OutOfRangeMode;
    pub use pamitoye::SmoothingTolerance;

    /// copp's configuration: the crate's without `spacing`.
    #[derive(Clone, Debug)]
    pub struct SmoothingConfig {
        pub tolerance: SmoothingTolerance,
        pub axes: Option<Vec<usize>>,
        pub parameters: Option<Vec<f64>>,
        pub max_refinements: usize,
        pub max_segments: usize,
        pub out_of_range_mode: OutOfRangeMode,
    }

    impl From<SmoothingConfig> for pamitoye::SmoothingConfig {
        fn from(config: SmoothingConfig) -> Self {
            Self {
                tolerance: config.tolerance,
                axes: config.axes,
                parameters: config.parameters,
                max_refinements: config.max_refinements,
                max_segments: config.max_segments,
                out_of_range_mode: config.out_of_range_mode,
                ..Self::default()
            }
        }
    }
}
