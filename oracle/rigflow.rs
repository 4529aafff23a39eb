// The original's files, unchanged, and small modules in place of what they lean on.
// Included at the root of a harness; `rigflow` beside it is the folder of the original's sources.
extern crate self as rigflow_core;

#[path = "rigflow/rigflow-client/src/audio_metrics.rs"]
pub mod audio_metrics;
#[path = "rigflow/rigflow-core/src/audio/jitter_buffer.rs"]
pub mod jitter_buffer_rs;
#[path = "rigflow/rigflow-client/src/ui/spectrum_utils.rs"]
pub mod spectrum_utils_rs;
#[path = "rigflow/rigflow-core/src/net/udp_framing.rs"]
pub mod udp_framing_rs;
#[path = "rigflow/rigflow-client/src/net/udp.rs"]
pub mod udp_rs;
#[path = "rigflow/rigflow-client/src/ui/waterfall.rs"]
pub mod waterfall_rs;

pub mod audio {
    pub use super::jitter_buffer_rs as jitter_buffer;
}

pub mod net {
    pub use super::udp_framing_rs as udp_framing;
    pub use super::udp_rs as udp;
}

pub mod radio {
    pub mod vfo {
        #[derive(Clone, Copy, PartialEq)]
        pub enum VfoSelect {
            A,
            B,
        }
    }
}

pub mod ui {
    pub use super::spectrum_utils_rs as spectrum_utils;
    pub use super::waterfall_rs as waterfall;

    pub mod layout {
        pub const SPECTRUM_SMOOTHING_ALPHA: f32 = 0.25;
        pub const WATERFALL_IMAGE_WIDTH: usize = 4;
        pub const WATERFALL_IMAGE_HEIGHT: usize = 2;
    }

    pub mod state {
        pub struct UiState {
            pub adaptive_waterfall_normalization: bool,
            pub manual_waterfall_top_db: f32,
            pub manual_waterfall_range_db: f32,
            pub adaptive_top_db_estimate: f32,
            pub adaptive_floor_db_estimate: f32,
            pub adaptive_range_db_estimate: f32,
            pub display_zoom: f32,
            pub waterfall_smoothing: f32,
            pub vfo_b_adaptive_waterfall_normalization: bool,
            pub vfo_b_manual_waterfall_top_db: f32,
            pub vfo_b_manual_waterfall_range_db: f32,
            pub vfo_b_adaptive_top_db_estimate: f32,
            pub vfo_b_adaptive_floor_db_estimate: f32,
            pub vfo_b_adaptive_range_db_estimate: f32,
            pub vfo_b_display_zoom: f32,
            pub vfo_b_waterfall_smoothing: f32,
        }
    }
}

pub mod cw_decode {
    pub struct CwDecoder;
    impl CwDecoder {
        pub fn process(&mut self, _: &[f32]) {}
    }
}

pub mod digital_rx {
    pub struct DigitalRxOutput;
    impl DigitalRxOutput {
        pub fn push(&self, _: &[f32]) {}
    }
}

pub mod tci_server {
    pub struct TciRxAudio;
    impl TciRxAudio {
        pub fn push(&self, _: &[f32]) {}
    }
}
