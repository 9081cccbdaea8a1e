//! The band of one planet.

use super::axes::{grid, Tick};
use super::escaped;
use super::layout::{Plot, LEFT, RIGHT};
use crate::failure::Failure;
use crate::list::{Listed, Lists};
use crate::runs::Run;
use crate::tables::{angle_text, summary};

/// How many points the curve has at most.
const POINTS: i64 = 900;

/// How a plot is scaled. A minute is drawn as the span up to the next one.
pub struct Scale<'a> {
    pub plot: &'a Plot,
    minutes: f64,
    pub highest: f64,
}

impl Scale<'_> {
    pub fn x(&self, minute: f64) -> f64 {
        LEFT + (RIGHT - LEFT) * minute / self.minutes
    }

    pub fn y(&self, degrees: f64) -> f64 {
        self.plot.bottom - (self.plot.bottom - self.plot.top) * degrees / self.highest
    }
}

/// Minutes of the curve's points, the first and the last minute among them.
fn points(minutes: i64) -> Vec<i64> {
    let steps = (minutes - 1).min(POINTS);
    (0..=steps).map(|i| if steps == 0 { 0 } else { (minutes - 1) * i / steps }).collect()
}

fn listed_minutes(svg: &mut String, scale: &Scale, runs: &[Run]) {
    let Plot { top, bottom } = *scale.plot;
    for &(first, last) in runs {
        let (x, end) = (scale.x(first as f64), scale.x(last as f64 + 1.0));
        // A short run in a long window is still to be seen.
        let width = (end - x).max(1.5);
        *svg += &format!("<rect class='listed' x='{x:.2}' y='{top}' width='{width:.2}' height='{}'/>\n", bottom - top);
    }
}

fn curve(svg: &mut String, scale: &Scale, minutes: &[i64], degrees: &[f64]) {
    let drawn = minutes.iter().zip(degrees);
    let drawn = drawn.map(|(minute, degrees)| format!("{:.2},{:.2}", scale.x(*minute as f64), scale.y(*degrees)));
    let mut drawn: Vec<String> = drawn.collect();
    // The last minute lasts to the plot's edge.
    drawn.push(format!("{RIGHT:.2},{:.2}", scale.y(degrees[degrees.len() - 1])));
    *svg += &format!("<polyline class='curve' points='{}'/>\n", drawn.join(" "));
}

/// The line of the keep-out; its label stands outside the plot.
fn keep_out(svg: &mut String, scale: &Scale, arcminutes: i64) {
    let y = scale.y(arcminutes as f64 / 60.0);
    *svg += &format!("<line class='angle' x1='{LEFT}' y1='{y:.1}' x2='{RIGHT}' y2='{y:.1}'/>\n");
    let x = RIGHT + 8.0;
    *svg += &format!("<text class='angle-text' x='{x}' y='{:.1}'>keep-out</text>\n", y - 3.0);
    *svg += &format!("<text class='angle-text' x='{x}' y='{:.1}'>{}</text>\n", y + 13.0, angle_text(arcminutes));
}

pub fn band(svg: &mut String, lists: &Lists, listed: &Listed, plot: &Plot, ticks: &[Tick]) -> Result<(), Failure> {
    let window = lists.window;
    let minutes = points(window.minutes);
    let degrees = minutes.iter().map(|minute| listed.sight.separation(window.at(*minute)));
    let degrees: Vec<f64> = degrees.collect::<Result<_, _>>()?;
    let greatest = degrees.iter().fold(lists.keep_out as f64 / 60.0, |a, b| a.max(*b));
    let scale = Scale { plot, minutes: window.minutes as f64, highest: greatest * 1.12 };
    let (name, told) = (escaped(listed.name()), summary(listed, window.minutes));
    *svg += &format!(
        "<text class='note' x='{LEFT}' y='{}'><tspan class='name'>{name}</tspan>: {told}</text>\n",
        plot.top - 10.0
    );
    grid(svg, &scale, ticks);
    listed_minutes(svg, &scale, &listed.runs);
    curve(svg, &scale, &minutes, &degrees);
    keep_out(svg, &scale, lists.keep_out);
    let (width, height) = (RIGHT - LEFT, plot.bottom - plot.top);
    *svg += &format!("<rect class='frame' x='{LEFT}' y='{}' width='{width}' height='{height}'/>\n", plot.top);
    Ok(())
}
