//! Where things stand in the picture.

pub const WIDTH: f64 = 1000.0;
/// The plots' edges. The label of the keep-out stands right of them, where no curve is.
pub const LEFT: f64 = 74.0;
pub const RIGHT: f64 = 912.0;
const FIRST_TOP: f64 = 90.0;
/// From a plot to the next one, whose name stands between.
const GAP: f64 = 40.0;
/// A planet by itself has a higher plot than one of several.
const HIGH: f64 = 300.0;
const LOW: f64 = 180.0;
const SOURCE_LINE: f64 = 13.0;

pub struct Layout {
    planets: usize,
}

/// The upper and lower edge of a plot.
pub struct Plot {
    pub top: f64,
    pub bottom: f64,
}

impl Layout {
    pub fn new(planets: usize) -> Layout {
        Layout { planets }
    }

    pub fn plot(&self, i: usize) -> Plot {
        let high = if self.planets == 1 { HIGH } else { LOW };
        let top = FIRST_TOP + (high + GAP) * i as f64;
        Plot { top, bottom: top + high }
    }

    pub fn legend(&self) -> f64 {
        self.plot(self.planets - 1).bottom + 70.0
    }

    pub fn source(&self, line: usize) -> f64 {
        self.legend() + 24.0 + SOURCE_LINE * line as f64
    }

    /// Each planet, Earth and the version have a line of sources.
    pub fn height(&self) -> f64 {
        self.source(self.planets + 1) + 12.0
    }
}
