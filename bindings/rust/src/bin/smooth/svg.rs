//! The parts of a picture as SVG, with their style.

use crate::plot::Place;
use std::fmt::Write;

pub const STYLE: &str = "\
svg { color-scheme: light dark }
.paper { fill: #ffffff }
text { fill: #1b1f24; font: 13px system-ui, 'DejaVu Sans', Arial, sans-serif }
.title { font-size: 19px; font-weight: 600 }
.head { font-size: 15px; font-weight: 600 }
.tick { font-size: 12px }
.frame { fill: none; stroke: #57606a; stroke-width: 1 }
.grid { stroke: #d8dee4; stroke-width: 1 }
.band { fill: #a8cdf0; fill-opacity: 0.5; stroke: none }
.edge { fill: none; stroke: #3b75af; stroke-width: 1; stroke-dasharray: 1.5 3 }
.line { fill: none; stroke: #57606a; stroke-width: 1 }
.curve { fill: none; stroke: #0a3069; stroke-width: 2.2; stroke-linejoin: round }
.point { fill: #ffffff; stroke: #1b1f24; stroke-width: 1.2 }
.break { stroke: #0a3069; stroke-width: 1 }
.area { fill: #0a3069; fill-opacity: 0.14; stroke: none }
.distance { fill: none; stroke: #0a3069; stroke-width: 1.6; stroke-linejoin: round }
.tolerance { stroke: #a40e26; stroke-width: 1.6; stroke-dasharray: 9 5 }
.certified { stroke: #6f4400; stroke-width: 1.6; stroke-dasharray: 12 3 2 3 }
.spot { stroke: #a40e26; stroke-width: 1; stroke-dasharray: 2 4 }
.mark { fill: #a40e26; stroke: none }
@media (prefers-color-scheme: dark) {
.paper { fill: #14181d }
text { fill: #e6edf3 }
.frame, .line { stroke: #9aa4af }
.grid { stroke: #303841 }
.band { fill: #2f6aa3; fill-opacity: 0.4 }
.edge { stroke: #6cb2f5 }
.curve, .distance, .break { stroke: #a5d6ff }
.area { fill: #a5d6ff; fill-opacity: 0.2 }
.point { fill: #14181d; stroke: #f0f6fc }
.tolerance, .spot { stroke: #ff8f8f }
.mark { fill: #ff8f8f }
.certified { stroke: #f2cc60 }
}
";

/// The style of the steps of heights, in pictures that have them.
pub const HEIGHT_STYLE: &str = "\
.height { fill: none; stroke: #d1570c; stroke-width: 1.2 }
@media (prefers-color-scheme: dark) {
.height { stroke: #ffa657 }
}
";

/// The text of a picture that grows.
pub struct Svg(pub String);

/// A length with two decimals at most.
pub fn length(x: f64) -> String {
    let text = format!("{x:.2}");
    let text = text.trim_end_matches('0').trim_end_matches('.');
    if text == "-0" { "0" } else { text }.to_string()
}

pub fn escaped(text: &str) -> String {
    let text = text.replace('&', "&amp;").replace('<', "&lt;");
    text.replace('>', "&gt;").replace('"', "&quot;")
}

impl Svg {
    pub fn add(&mut self, text: std::fmt::Arguments<'_>) {
        // Writing to a string does not fail.
        let _ = self.0.write_fmt(text);
        self.0.push('\n');
    }

    pub fn text(&mut self, (x, y): Place, style: &str, text: &str) {
        let (x, y) = (length(x), length(y));
        self.add(format_args!(
            "<text x=\"{x}\" y=\"{y}\" {style}>{}</text>",
            escaped(text)
        ));
    }

    pub fn line(&mut self, class: &str, from: Place, to: Place) {
        let [x1, y1, x2, y2] = [from.0, from.1, to.0, to.1].map(length);
        self.add(format_args!(
            "<line class=\"{class}\" x1=\"{x1}\" y1=\"{y1}\" x2=\"{x2}\" y2=\"{y2}\"/>"
        ));
    }

    pub fn circle(&mut self, (x, y): Place, radius: f64) {
        let [x, y, r] = [x, y, radius].map(length);
        self.add(format_args!(
            "<circle class=\"point\" cx=\"{x}\" cy=\"{y}\" r=\"{r}\"/>"
        ));
    }

    pub fn path(&mut self, class: &str, lines: &[Vec<Place>], end: &str) {
        if lines.is_empty() {
            return;
        }
        let mut text = String::new();
        for line in lines {
            for (i, (x, y)) in line.iter().enumerate() {
                let step = if i == 0 { "M" } else { " " };
                let _ = write!(text, "{step}{} {}", length(*x), length(*y));
            }
            text.push_str(end);
        }
        self.add(format_args!("<path class=\"{class}\" d=\"{text}\"/>"));
    }

    pub fn rectangle(&mut self, class: &str, (x, y): Place, (width, height): Place) {
        let [x, y, width, height] = [x, y, width, height].map(length);
        self.add(format_args!(
            "<rect class=\"{class}\" x=\"{x}\" y=\"{y}\" width=\"{width}\" height=\"{height}\"/>"
        ));
    }

    pub fn diamond(&mut self, (x, y): Place) {
        let corners = vec![(x, y - 5.), (x + 5., y), (x, y + 5.), (x - 5., y)];
        self.path("mark", &[corners], "Z");
    }
}

#[cfg(test)]
mod tests {
    use super::*;

    #[test]
    fn texts_are_escaped_and_lengths_short() {
        assert_eq!(escaped("<a&\"b\">"), "&lt;a&amp;&quot;b&quot;&gt;");
        assert_eq!(length(-0.001), "0");
        assert_eq!(length(2.504), "2.5");
    }
}
