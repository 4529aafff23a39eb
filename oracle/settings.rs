// A channel's settings, and those that it starts with.
#[derive(Clone, Copy, Debug)]
pub struct Settings {
    pub adaptive: bool,
    pub top: f32,
    pub range: f32,
    pub zoom: f32,
    pub smoothing: f32,
}

pub const FIRST_SETTINGS: Settings =
    Settings { adaptive: false, top: -35.0, range: 70.0, zoom: 1.0, smoothing: 0.0 };
