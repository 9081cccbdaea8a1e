//! The two axes.

use super::band::Scale;
use super::layout::{Plot, LEFT, RIGHT};
use crate::dates::{date_text, time_text};
use crate::failure::Failure;
use crate::window::{Window, DAY, MINUTE_MS};
use stephylax::{date_of_instant, Date};

/// The room that a date takes.
const DATE_WIDTH: f64 = 84.0;

/// A mark of the time axis.
pub struct Tick {
    /// Minutes from the window's start.
    pub minute: f64,
    date: Date,
}

/// The least of 1, 2, 5, 10, 20.. times the unit that makes at most `most` steps.
fn step(span: f64, most: f64, unit: f64) -> f64 {
    let mut decade = unit;
    loop {
        for factor in [1.0, 2.0, 5.0] {
            if span / (decade * factor) <= most {
                return decade * factor;
            }
        }
        decade *= 10.0;
    }
}

/// The step of the time axis in minutes.
fn time_step(minutes: i64) -> i64 {
    let steps = [1, 2, 5, 10, 15, 30, 60, 120, 180, 360, 720, 1440, 2880, 7200, 14_400, 28_800, 43_200, 86_400];
    let fits = steps.into_iter().find(|step| minutes / step <= 8);
    fits.unwrap_or_else(|| step(minutes as f64, 7.0, DAY as f64 * 100.0) as i64)
}

/// The marks of a window, at whole steps from midnight.
pub fn ticks(window: &Window) -> Result<Vec<Tick>, Failure> {
    let step = time_step(window.minutes) * MINUTE_MS;
    let mut ms = (-date_of_instant(window.t0)?.ms).rem_euclid(step);
    let mut ticks = Vec::new();
    while ms <= (window.minutes - 1) * MINUTE_MS {
        ticks.push(Tick { minute: ms as f64 / MINUTE_MS as f64, date: date_of_instant(window.t0 + ms)? });
        ms += step;
    }
    Ok(ticks)
}

fn label(svg: &mut String, x: f64, y: f64, text: &str) {
    *svg += &format!("<text x='{x:.1}' y='{y:.1}' text-anchor='middle'>{text}</text>\n");
}

/// The times below the lowest plot, and below them the dates: under each midnight, and under the first mark if there is room.
pub fn times(svg: &mut String, window: &Window, plot: &Plot, ticks: &[Tick]) {
    let only_dates = DAY <= time_step(window.minutes);
    let x = |tick: &Tick| LEFT + (RIGHT - LEFT) * tick.minute / window.minutes as f64;
    let midnight = ticks.iter().find(|tick| tick.date.ms == 0);
    for (i, tick) in ticks.iter().enumerate() {
        if only_dates {
            label(svg, x(tick), plot.bottom + 20.0, &date_text(tick.date));
            continue;
        }
        label(svg, x(tick), plot.bottom + 20.0, &time_text(tick.date));
        let has_room = i == 0 && midnight.is_none_or(|midnight| x(tick) + DATE_WIDTH < x(midnight));
        if tick.date.ms == 0 || has_room {
            label(svg, x(tick), plot.bottom + 38.0, &date_text(tick.date));
        }
    }
}

/// The degrees at the left of a plot, and its grid.
pub fn grid(svg: &mut String, scale: &Scale, ticks: &[Tick]) {
    let Plot { top, bottom } = *scale.plot;
    let step = step(scale.highest, (bottom - top) / 38.0, 0.01);
    let decimals = if step < 0.1 { 2 } else { (step < 1.0) as usize };
    let mut i = 0.0;
    while i * step <= scale.highest {
        let y = scale.y(i * step);
        *svg += &format!("<line class='grid' x1='{LEFT}' y1='{y:.1}' x2='{RIGHT}' y2='{y:.1}'/>\n");
        let (x, y) = (LEFT - 9.0, y + 4.5);
        *svg += &format!("<text x='{x}' y='{y:.1}' text-anchor='end'>{:.decimals$}°</text>\n", i * step);
        i += 1.0;
    }
    for tick in ticks {
        let x = scale.x(tick.minute);
        *svg += &format!("<line class='grid' x1='{x:.1}' y1='{top}' x2='{x:.1}' y2='{bottom}'/>\n");
    }
}
