// A receiver of the original: all that its `handle_media_packet` acts on, for both channels. It stands beside
// rigflow.rs, included at the root.
use crate::audio::jitter_buffer::JitterBuffer;
use crate::net::udp::{handle_media_packet, MediaPacketStats, WaterfallReassembler};
use crate::ui::layout::{WATERFALL_IMAGE_HEIGHT, WATERFALL_IMAGE_WIDTH};
use crate::ui::state::UiState;
use crate::{cw_decode::CwDecoder, digital_rx::DigitalRxOutput, tci_server::TciRxAudio};
use std::sync::{Arc, Mutex};

// no colour
const MARK: u32 = 0x0100_0000;

#[path = "settings.rs"]
mod settings;
pub use settings::{Settings, FIRST_SETTINGS};

pub struct Original {
    pub jitter: [Arc<Mutex<JitterBuffer>>; 2],
    pub picture: [Arc<Mutex<Vec<u32>>>; 2],
    pub spectrum: [Arc<Mutex<Vec<f32>>>; 2],
    row: [WaterfallReassembler; 2],
    pub smooth: [Vec<f32>; 2],
    ui: Arc<Mutex<UiState>>,
    pub stats: Arc<Mutex<MediaPacketStats>>,
}

impl Original {
    // The estimates are top, floor and range of A, then of B.
    pub fn new(packet: usize, target: usize, max: usize, e: [f32; 6]) -> Original {
        let buffer = || Arc::new(Mutex::new(JitterBuffer::new(packet, target, max)));
        let picture = || Arc::new(Mutex::new(vec![0u32; WATERFALL_IMAGE_WIDTH * WATERFALL_IMAGE_HEIGHT]));
        let spectrum = || Arc::new(Mutex::new(vec![]));
        let s = FIRST_SETTINGS;
        Original {
            jitter: [buffer(), buffer()],
            picture: [picture(), picture()],
            spectrum: [spectrum(), spectrum()],
            row: [WaterfallReassembler::new(), WaterfallReassembler::new()],
            smooth: [vec![], vec![]],
            ui: Arc::new(Mutex::new(UiState {
                adaptive_waterfall_normalization: s.adaptive,
                manual_waterfall_top_db: s.top,
                manual_waterfall_range_db: s.range,
                adaptive_top_db_estimate: e[0],
                adaptive_floor_db_estimate: e[1],
                adaptive_range_db_estimate: e[2],
                display_zoom: s.zoom,
                waterfall_smoothing: s.smoothing,
                vfo_b_adaptive_waterfall_normalization: s.adaptive,
                vfo_b_manual_waterfall_top_db: s.top,
                vfo_b_manual_waterfall_range_db: s.range,
                vfo_b_adaptive_top_db_estimate: e[3],
                vfo_b_adaptive_floor_db_estimate: e[4],
                vfo_b_adaptive_range_db_estimate: e[5],
                vfo_b_display_zoom: s.zoom,
                vfo_b_waterfall_smoothing: s.smoothing,
            })),
            stats: Arc::new(Mutex::new(MediaPacketStats::new())),
        }
    }

    pub fn datagram(&mut self, d: &[u8]) {
        let [row_a, row_b] = &mut self.row;
        let [smooth_a, smooth_b] = &mut self.smooth;
        handle_media_packet(
            d,
            &self.jitter[0],
            &self.picture[0],
            &self.spectrum[0],
            &self.ui,
            &self.stats,
            &mut CwDecoder,
            &DigitalRxOutput,
            &TciRxAudio,
            row_a,
            smooth_a,
            &self.jitter[1],
            &self.picture[1],
            &self.spectrum[1],
            row_b,
            smooth_b,
        );
    }

    // A datagram for the channel's picture, and whether it drew a row: a mark over the first pixel is then gone from
    // there, one row down where there is one.
    pub fn draws(&mut self, channel: usize, d: &[u8]) -> bool {
        let picture = self.picture[channel].clone();
        let was = std::mem::replace(&mut picture.lock().unwrap()[0], MARK);
        self.datagram(d);
        let mut picture = picture.lock().unwrap();
        let drawn = picture[0] != MARK;
        let mark = if drawn { WATERFALL_IMAGE_WIDTH } else { 0 };
        if let Some(pixel) = picture.get_mut(mark) {
            *pixel = was;
        }
        drawn
    }

    pub fn set(&mut self, channel: usize, s: Settings) {
        let mut u = self.ui.lock().unwrap();
        if channel == 1 {
            u.vfo_b_adaptive_waterfall_normalization = s.adaptive;
            u.vfo_b_manual_waterfall_top_db = s.top;
            u.vfo_b_manual_waterfall_range_db = s.range;
            u.vfo_b_display_zoom = s.zoom;
            u.vfo_b_waterfall_smoothing = s.smoothing;
        } else {
            u.adaptive_waterfall_normalization = s.adaptive;
            u.manual_waterfall_top_db = s.top;
            u.manual_waterfall_range_db = s.range;
            u.display_zoom = s.zoom;
            u.waterfall_smoothing = s.smoothing;
        }
    }

    // The numbers of the closing lines of A and of B, where plays found so many samples short, and those of the line I.
    pub fn closing_numbers(&self, packet: usize, short: [usize; 2]) -> ([[u64; 8]; 2], [u64; 7]) {
        let sound = [0, 1].map(|side| {
            let j = self.jitter[side].lock().unwrap();
            let filled = short[side] as u64 + packet as u64 * j.packets_missing_concealed;
            [
                j.packets_received,
                j.packets_inserted,
                j.packets_missing_concealed,
                j.packets_dropped_late,
                j.packets_dropped_overflow,
                j.packets_dropped_invalid_size,
                j.resync_count,
                filled,
            ]
        });
        let s = self.stats.lock().unwrap();
        let datagrams = [
            s.incoming_packets,
            s.audio_packets,
            s.waterfall_packets,
            s.dropped_audio_packets,
            s.dropped_waterfall_packets,
            s.late_audio_packets,
            s.late_waterfall_packets,
        ];
        (sound, datagrams)
    }

    // top, floor and range
    pub fn estimates(&self, channel: usize) -> [f32; 3] {
        let u = self.ui.lock().unwrap();
        if channel == 1 {
            [u.vfo_b_adaptive_top_db_estimate, u.vfo_b_adaptive_floor_db_estimate, u.vfo_b_adaptive_range_db_estimate]
        } else {
            [u.adaptive_top_db_estimate, u.adaptive_floor_db_estimate, u.adaptive_range_db_estimate]
        }
    }
}
