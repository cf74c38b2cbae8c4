//! As much of SVG as the pictures need.

use std::fmt::Write;

/// A picture in the making; lengths are pixels.
pub struct Svg {
    words: String,
}

/// A rectangle's place and size.
#[derive(Debug, Copy, Clone)]
pub struct Rect {
    pub x: f64,
    pub y: f64,
    pub width: f64,
    pub height: f64,
}

const STYLE: &str = "\
text{font-family:sans-serif;font-size:13px;fill:#222}
.title{font-size:19px;font-weight:bold}
.note,.tick{font-size:12px;fill:#666}
.name{fill:#000;fill-opacity:.62;text-anchor:middle;pointer-events:none}
.end{text-anchor:end}
.middle{text-anchor:middle}
.varblock{stroke:#fff;stroke-width:1}
.frame{fill:none;stroke:#999}
.outline{fill:none;stroke:#b4b4b4;stroke-width:1}
.border{stroke:#111;stroke-width:2.5;stroke-dasharray:7 4}
";

impl Svg {
    pub fn new(width: f64, height: f64) -> Self {
        let mut svg = Self {
            words: String::new(),
        };
        svg.line(format_args!(
            "<svg xmlns=\"http://www.w3.org/2000/svg\" width=\"{width:.0}\" height=\"{height:.0}\" \
             viewBox=\"0 0 {width:.0} {height:.0}\">\n<style>{STYLE}</style>\n\
             <rect width=\"100%\" height=\"100%\" fill=\"#fff\"/>"
        ));
        svg
    }

    pub fn finish(mut self) -> String {
        self.words += "</svg>\n";
        self.words
    }

    /// A rectangle, with words that are shown where the mouse rests on it.
    pub fn rect(&mut self, class: &str, rect: Rect, fill: &str, title: &str) {
        let Rect {
            x,
            y,
            width,
            height,
        } = rect;
        let title = match title {
            "" => String::new(),
            words => format!("<title>{}</title>", escaped(words)),
        };
        self.line(format_args!(
            "<rect class=\"{class}\" x=\"{x:.1}\" y=\"{y:.1}\" width=\"{width:.1}\" \
             height=\"{height:.1}\" fill=\"{fill}\">{title}</rect>"
        ));
    }

    pub fn stroke(&mut self, class: &str, (x1, y1): (f64, f64), (x2, y2): (f64, f64)) {
        self.line(format_args!(
            "<line class=\"{class}\" x1=\"{x1:.1}\" y1=\"{y1:.1}\" x2=\"{x2:.1}\" y2=\"{y2:.1}\"/>"
        ));
    }

    pub fn text(&mut self, class: &str, (x, y): (f64, f64), words: &str) {
        let words = escaped(words);
        self.line(format_args!(
            "<text class=\"{class}\" x=\"{x:.1}\" y=\"{y:.1}\">{words}</text>"
        ));
    }

    /// Words in the middle of a rectangle, of so many pixels.
    pub fn name(&mut self, rect: Rect, size: f64, words: &str) {
        let (x, y) = (rect.x + rect.width / 2.0, rect.y + rect.height / 2.0);
        let (y, words) = (y + 0.35 * size, escaped(words));
        self.line(format_args!(
            "<text class=\"name\" x=\"{x:.1}\" y=\"{y:.1}\" style=\"font-size:{size:.1}px\">{words}</text>"
        ));
    }

    fn line(&mut self, words: std::fmt::Arguments) {
        writeln!(self.words, "{words}").expect("a string takes all");
    }
}

fn escaped(words: &str) -> String {
    let words = words.replace('&', "&amp;").replace('<', "&lt;");
    words.replace('>', "&gt;")
}

#[cfg(test)]
pub mod tests {
    use super::*;

    /// Whether every tag of a picture is closed in turn, and no mark stands outside a tag.
    pub fn well_formed(words: &str) -> bool {
        let mut open: Vec<&str> = Vec::new();
        let mut rest = words;
        while let Some((text, behind)) = rest.split_once('<') {
            let Some((tag, behind)) = behind.split_once('>') else {
                return false;
            };
            let quotes = tag.matches('"').count();
            let entities = text.matches('&').count();
            let known = ["&amp;", "&lt;", "&gt;"].map(|e| text.matches(e).count());
            if quotes % 2 != 0 || text.contains('>') || entities != known.iter().sum() {
                return false;
            }
            if let Some(name) = tag.strip_prefix('/') {
                if open.pop() != Some(name) {
                    return false;
                }
            } else if !tag.ends_with('/') {
                open.extend(tag.split_whitespace().next());
            }
            rest = behind;
        }
        open.is_empty() && rest.trim().is_empty()
    }

    #[test]
    fn pictures_are_well_formed() {
        let mut svg = Svg::new(10.0, 10.0);
        let rect = Rect {
            x: 1.0,
            y: 1.0,
            width: 2.0,
            height: 3.0,
        };
        svg.rect("a", rect, "#fff", "x < y & z > w");
        svg.stroke("b", (0.0, 0.0), (1.0, 1.0));
        svg.text("c", (0.0, 0.0), "<&>");
        svg.name(rect, 9.0, "name");
        let words = svg.finish();
        assert!(well_formed(&words) && words.contains(">&lt;&amp;&gt;<"));
        assert!(!well_formed(&words.replace("</text>", "")));
        assert!(!well_formed(&words.replace("&lt;", "&")));
    }
}
