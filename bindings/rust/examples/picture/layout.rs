use netbuff::{transform, LayoutBuf, LfGroup, TransformType, Varblock};

use crate::colors;
use crate::svg::{Rect, Svg};

const MARGIN: f64 = 44.0;
const TOP: f64 = 84.0;
const LEGEND: f64 = 312.0;
const LINE: f64 = 21.0;

/// What is known of a varblock once its transform is looked up.
struct Placed {
    varblock: Varblock,
    kind: TransformType,
    wide: usize,
    high: usize,
}

/// How hf_mul becomes a shade: by its logarithm, from the least to the largest of the layout.
struct Shades {
    least: i32,
    largest: i32,
}

impl Shades {
    fn of(&self, hf_mul: i32) -> f64 {
        let log = |hf_mul: i32| f64::from(hf_mul.max(1)).ln();
        let (least, largest) = (log(self.least), log(self.largest));
        if largest > least {
            (log(hf_mul) - least) / (largest - least)
        } else {
            0.5
        }
    }
}

fn placed(layout: &LayoutBuf) -> Vec<Placed> {
    let known = |varblock: Varblock| {
        let carries = transform(varblock.transform).ok()?;
        Some(Placed {
            varblock,
            kind: TransformType::of(varblock.transform)?,
            wide: carries.wide,
            high: carries.high,
        })
    };
    layout.layout().varblocks().filter_map(known).collect()
}

/// The layout, a rectangle per varblock, and a legend at its right.
pub fn draw(name: &str, group: LfGroup, layout: &LayoutBuf) -> String {
    let varblocks = placed(layout);
    let muls = || varblocks.iter().map(|placed| placed.varblock.hf_mul);
    let shades = Shades {
        least: muls().min().unwrap_or(1),
        largest: muls().max().unwrap_or(1),
    };
    let sides = layout.sides;
    let block = (1000.0 / sides.bw.max(sides.bh).max(1) as f64).clamp(4.0, 40.0);
    let (width, height) = (block * sides.bw as f64, block * sides.bh as f64);
    let entries = legend(&varblocks);
    let lines = TOP + LINE * (entries.len() as f64 + 8.0);
    let mut svg = Svg::new(MARGIN + width + LEGEND, (TOP + height + MARGIN).max(lines));
    svg.text("title", (MARGIN, 32.0), name);
    let words = format!(
        "{} × {} pixels, {} × {} blocks, {} varblocks, {} pass groups",
        group.width,
        group.height,
        sides.bw,
        sides.bh,
        varblocks.len(),
        layout.layout().groups()
    );
    svg.text("note", (MARGIN, 52.0), &words);
    for placed in &varblocks {
        draw_varblock(&mut svg, placed, block, &shades);
    }
    frame(&mut svg, layout, block);
    draw_legend(&mut svg, MARGIN + width + 30.0, &entries, &shades);
    svg.finish()
}

fn draw_varblock(svg: &mut Svg, placed: &Placed, block: f64, shades: &Shades) {
    let Varblock { x, y, hf_mul, .. } = placed.varblock;
    let rect = Rect {
        x: MARGIN + block * x as f64,
        y: TOP + block * y as f64,
        width: block * placed.wide as f64,
        height: block * placed.high as f64,
    };
    let (name, number) = (placed.kind.name(), placed.kind.number());
    let title = format!("{name} ({number}) at {x}, {y}: hf_mul {hf_mul}");
    let color = colors::varblock(placed.kind, shades.of(hf_mul));
    svg.rect("varblock", rect, &color, &title);
    // Its sides in pixels, where there is room for the words; single blocks have no name.
    let words = name.trim_start_matches("Dct");
    let size = (rect.width / words.len() as f64 * 1.3).min(rect.height * 0.6);
    if size >= 7.5 && placed.wide * placed.high > 1 {
        svg.name(rect, size.min(20.0), words);
    }
}

/// The layout's edge, block numbers, and the borders between pass groups with their numbers.
fn frame(svg: &mut Svg, layout: &LayoutBuf, block: f64) {
    let sides = layout.sides;
    let (width, height) = (block * sides.bw as f64, block * sides.bh as f64);
    let edge = Rect {
        x: MARGIN,
        y: TOP,
        width,
        height,
    };
    svg.rect("frame", edge, "none", "");
    let lent = layout.layout();
    for index in 0..lent.groups() {
        let Some((x, y, _)) = lent.group_at(index) else {
            continue;
        };
        let (left, top) = (MARGIN + block * x as f64, TOP + block * y as f64);
        if y == 0 && x > 0 {
            svg.stroke("border", (left, TOP - 8.0), (left, TOP + height));
        }
        if x == 0 && y > 0 {
            svg.stroke("border", (MARGIN - 8.0, top), (MARGIN + width, top));
        }
        if y == 0 {
            svg.text("tick middle", (left, TOP - 14.0), &x.to_string());
        }
        if x == 0 {
            svg.text("tick end", (MARGIN - 12.0, top + 4.0), &y.to_string());
        }
    }
    svg.text(
        "tick middle",
        (MARGIN + width, TOP - 14.0),
        &sides.bw.to_string(),
    );
    svg.text(
        "tick end",
        (MARGIN - 12.0, TOP + height + 4.0),
        &sides.bh.to_string(),
    );
}

/// A transform that the layout has, how many varblocks and how many blocks.
struct Entry {
    kind: TransformType,
    varblocks: usize,
    area: usize,
}

fn legend(varblocks: &[Placed]) -> Vec<Entry> {
    let entry = |kind: TransformType| {
        let those = varblocks.iter().filter(|placed| placed.kind == kind);
        Entry {
            kind,
            varblocks: those.clone().count(),
            area: those.map(|placed| placed.wide * placed.high).sum(),
        }
    };
    let entries = TransformType::ALL.map(entry).into_iter();
    entries.filter(|entry| entry.varblocks > 0).collect()
}

fn draw_legend(svg: &mut Svg, x: f64, entries: &[Entry], shades: &Shades) {
    let columns = [x + 182.0, x + 242.0];
    svg.text("note", (x, TOP + 4.0), "transform");
    svg.text("note end", (columns[0], TOP + 4.0), "varblocks");
    svg.text("note end", (columns[1], TOP + 4.0), "blocks");
    let mut y = TOP + 10.0;
    let swatch = |y: f64, width: f64| Rect {
        x,
        y: y + 3.0,
        width,
        height: LINE - 6.0,
    };
    for entry in entries {
        svg.rect(
            "swatch",
            swatch(y, 15.0),
            &colors::varblock(entry.kind, 0.4),
            "",
        );
        let words = format!("{} {}", entry.kind.number(), entry.kind);
        svg.text("entry", (x + 24.0, y + 15.0), &words);
        svg.text("end", (columns[0], y + 15.0), &entry.varblocks.to_string());
        svg.text("end", (columns[1], y + 15.0), &entry.area.to_string());
        y += LINE;
    }
    y += LINE;
    let words = match entries {
        [] => String::from("no varblocks"),
        _ => format!(
            "hf_mul {} to {}: darker is larger",
            shades.least, shades.largest
        ),
    };
    svg.text("note", (x, y + 15.0), &words);
    y += LINE;
    for step in 0..10 {
        let mut part = swatch(y, 24.2);
        part.x += 24.2 * f64::from(step);
        svg.rect("swatch", part, &colors::shade(f64::from(step) / 9.0), "");
    }
    y += 1.5 * LINE;
    svg.stroke("border", (x, y + 10.0), (x + 40.0, y + 10.0));
    svg.text(
        "note",
        (x + 50.0, y + 14.0),
        "border of pass groups (32 blocks)",
    );
}

#[cfg(test)]
mod tests {
    use super::*;
    use crate::job::Job;
    use crate::svg::tests::well_formed;

    #[test]
    fn every_varblock_has_its_rectangle() {
        let job = Job::read(include_bytes!("mixed.job")).expect("the shipped job");
        let layout = LayoutBuf::read(&job.input()).expect("it is accepted");
        let svg = draw("a < b", job.group, &layout);
        assert!(well_formed(&svg) && svg.contains("a &lt; b"));
        let count = layout.layout().varblocks().count();
        assert_eq!(svg.matches("class=\"varblock\"").count(), count);
        assert_eq!(svg.matches("<title>").count(), count);
        // 2 x 2 groups: one border each way, and one in the legend.
        assert_eq!(svg.matches("class=\"border\"").count(), 3);
        let entries = legend(&placed(&layout));
        assert_eq!(svg.matches("class=\"entry\"").count(), entries.len());
        assert_eq!(
            entries.iter().map(|entry| entry.varblocks).sum::<usize>(),
            count
        );
        let area: usize = entries.iter().map(|entry| entry.area).sum();
        assert_eq!(area, layout.sides.blocks());
    }

    #[test]
    fn an_empty_layout_has_a_picture() {
        for job in [[0x10, 0, 0, 16, 0, 0], [0x10, 16, 0, 0, 0, 0]] {
            let job = Job::read(&job).expect("a job");
            let layout = LayoutBuf::read(&job.input()).expect("it is accepted");
            let svg = draw("empty", job.group, &layout);
            assert!(well_formed(&svg) && svg.contains("0 varblocks, 0 pass groups"));
            assert!(!svg.contains("class=\"varblock\"") && !svg.contains("hf_mul"));
        }
    }

    #[test]
    fn shades_go_from_the_least_to_the_largest() {
        let shades = Shades {
            least: 2,
            largest: 8,
        };
        assert_eq!((shades.of(2), shades.of(8)), (0.0, 1.0));
        assert!((shades.of(4) - 0.5).abs() < 1e-9);
        let one = Shades {
            least: 3,
            largest: 3,
        };
        assert_eq!(one.of(3), 0.5);
    }
}
