//! A bar chart of ratios as an SVG: one bar a row, on a logarithmic axis, from the line at 1.0 to the
//! right where Netbuff takes longer and to the left where it takes less. A thin line across the bar's
//! end goes from the least ratio to the largest.

use std::fmt::Write as _;
use std::fs;
use std::io::Write as _;

use crate::spread::Spread;

/// A row of the chart; no ratio where the Rust has no such call.
pub struct Bar {
    pub name: String,
    pub ratio: Option<Spread>,
}

/// Where a chart will be written: opened beforehand, so that a file that cannot be written is told
/// before anything is measured. What it holds is kept until there is a chart.
pub struct File {
    name: String,
    file: fs::File,
}

impl File {
    pub fn open(name: &str) -> Result<Self, String> {
        let mut options = fs::OpenOptions::new();
        let opened = options.write(true).create(true).truncate(false).open(name);
        Ok(Self {
            name: name.into(),
            file: opened.map_err(|e| format!("{name}: {e}"))?,
        })
    }

    pub fn write(mut self, bars: &[Bar]) -> Result<(), String> {
        let emptied = self.file.set_len(0);
        let written = emptied.and_then(|()| self.file.write_all(chart(bars).as_bytes()));
        written.map_err(|e| format!("{}: {e}", self.name))
    }
}

const WIDTH: f64 = 960.0;
const NAMES: f64 = 330.0;
/// Room for the number behind the longest bar, and for the one before a bar to the left.
const NUMBERS: f64 = 70.0;
const ROW: f64 = 24.0;
const TOP: f64 = 64.0;
const BOTTOM: f64 = 20.0;

/// The axis: decimal logarithms of its ends, whole steps of 1, 2, 5.
struct Axis {
    first: f64,
    last: f64,
}

impl Axis {
    /// The least axis whose ends are a 1, 2 or 5 of some size, with 1.0 and every ratio on it.
    fn over(ratios: impl Iterator<Item = f64> + Clone) -> Self {
        let least = ratios.clone().fold(0.5, f64::min);
        let most = ratios.fold(2.0, f64::max);
        let end = |wanted: f64, fits: fn(f64, f64) -> bool| {
            let mut steps = steps().filter(|&step| fits(step, wanted));
            if wanted < 1.0 {
                steps.last()
            } else {
                steps.next()
            }
            .unwrap_or(wanted)
        };
        Self {
            first: end(least, |step, wanted| step <= wanted).log10(),
            last: end(most, |step, wanted| step >= wanted).log10(),
        }
    }

    /// Where a ratio stands, in pixels.
    fn place(&self, ratio: f64) -> f64 {
        let (left, right) = (NAMES + NUMBERS, WIDTH - NUMBERS);
        let part = (ratio.log10() - self.first) / (self.last - self.first);
        left + part * (right - left)
    }

    /// The ratios at which lines are drawn: tenfold steps alone where there are many.
    fn ticks(&self) -> Vec<f64> {
        let on_axis = |step: &f64| {
            let place = step.log10();
            place > self.first - 1e-9 && place < self.last + 1e-9
        };
        let many = self.last - self.first > 2.5;
        let tenfold = |step: &f64| (step.log10() - step.log10().round()).abs() < 1e-9;
        let ticks = steps().filter(on_axis);
        ticks.filter(|step| !many || tenfold(step)).collect()
    }
}

/// 1, 2, 5 of each size, ascending.
fn steps() -> impl Iterator<Item = f64> {
    (-6..=6).flat_map(|size| [1.0, 2.0, 5.0].map(|step| step * 10f64.powi(size)))
}

pub fn chart(bars: &[Bar]) -> String {
    let ratios = bars.iter().filter_map(|bar| bar.ratio);
    let axis = Axis::over(ratios.flat_map(|ratio| [ratio.least, ratio.largest]));
    let bottom = TOP + ROW * bars.len() as f64;
    let height = bottom + BOTTOM;
    let mut svg = format!(
        "<svg xmlns=\"http://www.w3.org/2000/svg\" width=\"{WIDTH}\" height=\"{height}\" \
         viewBox=\"0 0 {WIDTH} {height}\" font-family=\"sans-serif\" font-size=\"13\">\n\
         <rect width=\"{WIDTH}\" height=\"{height}\" fill=\"white\"/>\n"
    );
    let title =
        "Time of Netbuff divided by time of the Rust (logarithmic; below 1.0 Netbuff is faster)";
    text(&mut svg, (WIDTH / 2.0, 20.0), "middle", title);
    for tick in axis.ticks() {
        line(&mut svg, axis.place(tick), bottom, "#dddddd");
        text(
            &mut svg,
            (axis.place(tick), TOP - 12.0),
            "middle",
            &tick.to_string(),
        );
    }
    for (row, bar) in bars.iter().enumerate() {
        draw(&mut svg, &axis, TOP + ROW * row as f64, bar);
    }
    line(&mut svg, axis.place(1.0), bottom, "black");
    svg + "</svg>\n"
}

fn draw(svg: &mut String, axis: &Axis, top: f64, bar: &Bar) {
    const THICK: f64 = 16.0;
    let base = top + 17.0;
    let one = axis.place(1.0);
    text(svg, (NAMES, base), "end", &bar.name);
    let Some(ratio) = bar.ratio else {
        text(svg, (one + 6.0, base), "start", "the Rust has no such call");
        return;
    };
    let [least, end, largest] =
        [ratio.least, ratio.median, ratio.largest].map(|each| axis.place(each));
    let (color, x, anchor) = if ratio.median > 1.0 {
        ("#c2571a", largest + 6.0, "start")
    } else {
        ("#2a7f62", least - 6.0, "end")
    };
    let middle = top + ROW / 2.0;
    let bar = (end.min(one), middle - THICK / 2.0);
    rect(svg, bar, ((end - one).abs(), THICK), color);
    rect(svg, (least, middle - 0.5), (largest - least, 1.0), "black");
    text(svg, (x, base), anchor, &format!("{:.2}", ratio.median));
}

fn rect(svg: &mut String, (x, y): (f64, f64), (width, height): (f64, f64), color: &str) {
    writeln!(
        svg,
        "<rect x=\"{x:.1}\" y=\"{y:.1}\" width=\"{width:.1}\" height=\"{height}\" fill=\"{color}\"/>"
    )
    .expect("a string takes all");
}

fn line(svg: &mut String, x: f64, bottom: f64, color: &str) {
    let top = TOP - 6.0;
    writeln!(
        svg,
        "<line x1=\"{x:.1}\" y1=\"{top}\" x2=\"{x:.1}\" y2=\"{bottom}\" stroke=\"{color}\"/>"
    )
    .expect("a string takes all");
}

fn text(svg: &mut String, (x, y): (f64, f64), anchor: &str, words: &str) {
    let words = words.replace('&', "&amp;").replace('<', "&lt;");
    writeln!(
        svg,
        "<text x=\"{x:.1}\" y=\"{y:.1}\" text-anchor=\"{anchor}\">{words}</text>"
    )
    .expect("a string takes all");
}

#[cfg(test)]
mod tests {
    use super::*;

    fn bar(name: &str, median: f64) -> Bar {
        Bar {
            name: name.into(),
            ratio: Spread::of([0.75 * median, median, 1.5 * median]),
        }
    }

    #[test]
    fn the_axis_holds_one_and_all_ratios() {
        let axis = Axis::over([0.64, 5.42, 418.0].into_iter());
        assert!(axis.first <= 0.64f64.log10() && axis.last >= 418f64.log10());
        assert!(axis.first < 0.0 && axis.last > 0.0);
        let places = [0.64, 1.0, 5.42, 418.0].map(|ratio| axis.place(ratio));
        assert!(places.windows(2).all(|pair| pair[0] < pair[1]));
        assert!(places[0] >= NAMES && places[3] <= WIDTH - NUMBERS + 1e-6);
        assert_eq!(axis.ticks(), [1.0, 10.0, 100.0]);
    }

    #[test]
    fn a_narrow_axis_has_finer_lines() {
        let axis = Axis::over([0.9, 1.1].into_iter());
        assert_eq!(axis.ticks(), [0.5, 1.0, 2.0]);
    }

    #[test]
    fn tenfold_is_the_same_length_everywhere() {
        let axis = Axis::over([0.01, 100.0].into_iter());
        let step = axis.place(10.0) - axis.place(1.0);
        assert!((axis.place(1.0) - axis.place(0.1) - step).abs() < 1e-6);
        assert!((axis.place(100.0) - axis.place(10.0) - step).abs() < 1e-6);
    }

    #[test]
    fn every_row_has_its_name_and_number() {
        let none = Bar {
            name: "cut".into(),
            ratio: None,
        };
        let svg = chart(&[bar("a < b & c", 0.5), bar("orders", 5.416), none]);
        assert!(svg.starts_with("<svg") && svg.ends_with("</svg>\n"));
        assert!(svg.contains(">a &lt; b &amp; c<") && svg.contains(">0.50<"));
        assert!(svg.contains(">orders<") && svg.contains(">5.42<"));
        assert!(svg.contains(">cut<") && svg.contains("no such call"));
        // The ground, and for each ratio a bar and a line.
        assert_eq!(svg.matches("<rect").count(), 5);
    }

    #[test]
    fn a_file_is_opened_before_there_is_a_chart() {
        let folder = std::env::temp_dir().join(format!("bench-svg-{}", std::process::id()));
        let name = folder.join("chart.svg").display().to_string();
        assert!(File::open(&name).is_err_and(|problem| problem.starts_with(&name)));
        fs::create_dir(&folder).expect("a folder");
        fs::write(&name, "x".repeat(10_000)).expect("a file");
        let file = File::open(&name).expect("a file");
        assert_eq!(fs::read(&name).expect("the file").len(), 10_000);
        file.write(&[bar("orders", 2.0)]).expect("a chart");
        let written = fs::read_to_string(&name).expect("the chart");
        assert_eq!(written, chart(&[bar("orders", 2.0)]));
        fs::remove_dir_all(&folder).expect("an end");
    }
}
