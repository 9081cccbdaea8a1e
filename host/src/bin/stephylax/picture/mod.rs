//! The picture of Sun lists: for each planet a band with its separation over the window, the listed minutes and the
//! keep-out angle.
//!
//! The curve is worked in floating point from the library's coordinates and is for the eye; the shaded minutes are the
//! library's list.

mod axes;
mod band;
mod layout;

use crate::failure::Failure;
use crate::list::{Listed, Lists};
use crate::version::VERSION;
use layout::{Layout, LEFT, RIGHT, WIDTH};

const STYLE: &str = "text{font-family:'DejaVu Sans',Verdana,Helvetica,Arial,sans-serif;font-size:13px;fill:#333}\
.title{font-size:19px;font-weight:bold;fill:#111}.name{font-weight:bold;fill:#111}.note{fill:#555}\
.source{font-size:9.5px;fill:#777}.grid{stroke:#ddd;stroke-width:1}.frame{fill:none;stroke:#888;stroke-width:1}\
.listed{fill:#e69f00;fill-opacity:0.38}.curve{fill:none;stroke:#0b4f8a;stroke-width:2.2;stroke-linejoin:round}\
.angle{stroke:#b3261e;stroke-width:1.6;stroke-dasharray:8 5}.angle-text{fill:#b3261e}";

/// The longest line of a source that fits.
const SOURCE_LETTERS: usize = 165;

pub fn escaped(text: &str) -> String {
    text.replace('&', "&amp;").replace('<', "&lt;").replace('>', "&gt;")
}

/// A line that is too long loses its middle.
fn shortened(line: &str) -> String {
    let letters: Vec<char> = line.chars().collect();
    if letters.len() <= SOURCE_LETTERS {
        return line.to_string();
    }
    let (head, tail) = (SOURCE_LETTERS * 2 / 3, SOURCE_LETTERS / 3 - 1);
    let (head, tail) = (&letters[..head], &letters[letters.len() - tail..]);
    format!("{}…{}", head.iter().collect::<String>(), tail.iter().collect::<String>())
}

fn head(svg: &mut String, lists: &Lists, height: f64) -> Result<(), Failure> {
    let names: Vec<&str> = lists.planets.iter().map(Listed::name).collect();
    let title = escaped(&format!("{} and the Sun, seen from Earth", names.join(", ")));
    let window = lists.window;
    let (from, to) = (window.when(0)?, window.when(window.minutes - 1)?);
    *svg += &format!(
        "<svg xmlns='http://www.w3.org/2000/svg' viewBox='0 0 {WIDTH} {height}' width='{WIDTH}' height='{height}' \
         role='img'>\n<title>{title}</title>\n<style>{STYLE}</style>\n<rect width='{WIDTH}' height='{height}' fill='#fff'/>\n\
         <text class='title' x='{LEFT}' y='32'>{title}</text>\n\
         <text class='note' x='{LEFT}' y='54'>Separation from {from} to {to} TD</text>\n"
    );
    Ok(())
}

fn legend(svg: &mut String, y: f64) {
    let (line, first, second) = (y - 4.5, LEFT + 34.0, LEFT + 140.0);
    *svg += &format!("<line class='curve' x1='{LEFT}' y1='{line}' x2='{first}' y2='{line}'/>\n");
    *svg += &format!("<text class='note' x='{}' y='{y}'>separation</text>\n", first + 8.0);
    *svg += &format!("<rect class='listed' x='{second}' y='{}' width='34' height='14'/>\n", y - 12.0);
    *svg += &format!("<text class='note' x='{}' y='{y}'>listed minutes</text>\n", second + 42.0);
    *svg += &format!(
        "<text class='note' x='{RIGHT}' y='{y}' text-anchor='end'>All times TD. Every minute within the angle is listed.</text>\n"
    );
}

fn sources(svg: &mut String, lists: &Lists, layout: &Layout) {
    let lines = lists.sources().into_iter().chain([format!("stephylax {VERSION}")]);
    for (i, line) in lines.enumerate() {
        let (y, line) = (layout.source(i), escaped(&shortened(&line)));
        *svg += &format!("<text class='source' x='{LEFT}' y='{y}'>{line}</text>\n");
    }
}

pub fn picture(lists: &Lists) -> Result<String, Failure> {
    let layout = Layout::new(lists.planets.len());
    let mut svg = String::new();
    head(&mut svg, lists, layout.height())?;
    let ticks = axes::ticks(lists.window)?;
    for (i, listed) in lists.planets.iter().enumerate() {
        band::band(&mut svg, lists, listed, &layout.plot(i), &ticks)?;
    }
    axes::times(&mut svg, lists.window, &layout.plot(lists.planets.len() - 1), &ticks);
    legend(&mut svg, layout.legend());
    sources(&mut svg, lists, &layout);
    Ok(svg + "</svg>\n")
}
