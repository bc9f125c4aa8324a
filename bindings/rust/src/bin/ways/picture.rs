//! The picture of a study: a bar for each number of ways, as high as its rate.

use nicoisetarn::{Study, STUDY_WAYS};

use crate::input::List;
use crate::table::heading;

// Sizes, in pixels: of the picture, of the part with the bars, and of a bar.
const WIDTH: u32 = 480;
const HEIGHT: u32 = 320;
const LEFT: u32 = 64;
const TOP: u32 = 56;
const BARS_WIDTH: u32 = 384;
const BARS_HEIGHT: u32 = 200;
const BAR: u32 = 56;
const RIGHT: u32 = LEFT + BARS_WIDTH;
const BOTTOM: u32 = TOP + BARS_HEIGHT;

/// From one bar to the next.
const STEP: u32 = BARS_WIDTH / STUDY_WAYS as u32;

// Where text stands: the heading; a mark's number, left of its line and a little below it;
// a rate above its bar; the ways, and what they are, below the bars.
const HEADING: u32 = 28;
const BEFORE_MARK: u32 = 8;
const BELOW_MARK: u32 = 4;
const ABOVE_BAR: u32 = 6;
const BELOW_BARS: u32 = 20;
const LEGEND: u32 = 44;

/// The most that a rate is, and the distance of the marks beside the bars.
const FULL: u32 = 1000;
const MARK: u32 = 250;

// Colours.
const INK: &str = "#24292f";
const PAPER: &str = "#ffffff";
const FAINT: &str = "#d0d7de";
const FILL: &str = "#2f6f9f";

// Attributes of text. A rate has an edge of paper, so that no mark strikes it through.
const MIDDLED: &str = " text-anchor=\"middle\"";
const ENDING: &str = " text-anchor=\"end\"";
const TITLE: &str = " font-size=\"15\" font-weight=\"bold\"";
const RATE: &str = " text-anchor=\"middle\" font-weight=\"bold\" class=\"rate\"";

/// How high a rate stands, in pixels.
fn height(rate: u32) -> u32 {
    (rate * BARS_HEIGHT + FULL / 2) / FULL
}

/// Text at a place, with attributes of its own.
fn text(x: u32, y: u32, attributes: &str, words: &str) -> String {
    format!("  <text x=\"{x}\" y=\"{y}\"{attributes}>{words}</text>\n")
}

/// The line of a rate over the whole width, and its number.
fn mark(rate: u32) -> String {
    let y = BOTTOM - height(rate);
    let line = format!("  <path d=\"M{LEFT} {y}H{RIGHT}\" stroke=\"{FAINT}\"/>\n");
    line + &text(LEFT - BEFORE_MARK, y + BELOW_MARK, ENDING, &rate.to_string())
}

/// The bar of a number of ways, with its rate above it and the ways below.
fn bar(place: u32, rate: u32) -> String {
    let (ways, high) = (place + 1, height(rate));
    let (middle, y) = (LEFT + STEP * place + STEP / 2, BOTTOM - high);
    let x = middle - BAR / 2;
    let block = format!(
        "  <rect x=\"{x}\" y=\"{y}\" width=\"{BAR}\" height=\"{high}\" fill=\"{FILL}\"/>\n"
    );
    block
        + &text(middle, y - ABOVE_BAR, RATE, &rate.to_string())
        + &text(middle, BOTTOM + BELOW_BARS, MIDDLED, &ways.to_string())
}

/// The whole picture, as SVG.
pub fn picture(list: &List, study: &Study) -> String {
    let title = heading(list);
    let mut svg = format!(
        "<svg xmlns=\"http://www.w3.org/2000/svg\" viewBox=\"0 0 {WIDTH} {HEIGHT}\" \
         width=\"{WIDTH}\" height=\"{HEIGHT}\" font-family=\"sans-serif\" font-size=\"12\" \
         fill=\"{INK}\" role=\"img\">\n  <title>Hits per thousand by ways: {title}</title>\n\
         \x20 <style>.rate {{ stroke: {PAPER}; stroke-width: 3; paint-order: stroke }}</style>\n\
         \x20 <rect width=\"{WIDTH}\" height=\"{HEIGHT}\" fill=\"{PAPER}\"/>\n"
    );
    svg += &text(LEFT, HEADING, TITLE, "Hits per thousand");
    svg += &text(RIGHT, HEADING, ENDING, &title);
    svg.extend((0..=FULL / MARK).map(|step| mark(step * MARK)));
    svg.extend((0..).zip(study.rates).map(|(place, rate)| bar(place, rate)));
    svg += &text(LEFT + BARS_WIDTH / 2, BOTTOM + LEGEND, MIDDLED, "ways");
    svg + "</svg>\n"
}
