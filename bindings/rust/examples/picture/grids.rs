use netbuff::{
    coefficients, transform, BlockContexts, CoefficientInput, GridsBuf, GroupBuf, OrdersBuf,
    Presets, Refusal, Result, TransformType,
};

use crate::colors;
use crate::svg::{Rect, Svg};

const MARGIN: f64 = 44.0;
const TOP: f64 = 84.0;
const GAP: f64 = 46.0;
/// The colour of low-frequency cells.
const LF: &str = "#c4c4c4";

/// What a group's symbols left in its grids; after a refusal, what was added before it.
pub struct Reading {
    grids: GridsBuf,
    answer: Result<usize>,
}

impl Reading {
    /// With standard contexts, natural orders, one preset and no LF grids.
    pub fn new(group: &GroupBuf, symbols: &[u32]) -> Self {
        let (contexts, orders) = (BlockContexts::standard(), OrdersBuf::natural());
        let cluster_map = vec![0; Presets::map_length(&contexts, 1)];
        let input = CoefficientInput {
            group: group.group(),
            contexts: &contexts,
            lf: None,
            orders: orders.orders(),
            presets: Presets {
                count: 1,
                cluster_map: &cluster_map,
            },
            shift: 0,
            bytes: &[],
            symbols,
        };
        let mut grids = GridsBuf::zero(group.sides);
        let mut log = vec![0; group.sides.log_length()];
        let answer = coefficients(&input, grids.lend(&mut log));
        Self { grids, answer }
    }

    fn tells(&self) -> String {
        let refused = |refusal: Refusal| format!("refused: {refusal}; drawn is what came before");
        let read = |read: usize| format!("{read} symbols read");
        self.answer.map_or_else(refused, read)
    }
}

/// The grids of channels 1, 0, 2, in the order in which they are read, one below the other.
pub fn draw(name: &str, index: usize, group: &GroupBuf, reading: &Reading) -> String {
    let sides = group.sides;
    let cell = (1000.0 / (8 * sides.bw).max(1) as f64)
        .floor()
        .clamp(2.0, 10.0);
    let (width, height) = (cell * 8.0 * sides.bw as f64, cell * 8.0 * sides.bh as f64);
    let mut svg = Svg::new(
        2.0 * MARGIN + width.max(560.0),
        TOP + 3.0 * (height + GAP) + 56.0,
    );
    svg.text(
        "title",
        (MARGIN, 32.0),
        &format!("{name}, pass group {index}"),
    );
    let words = format!(
        "{} × {} blocks, {} varblocks, {}",
        sides.bw,
        sides.bh,
        group.group().varblocks().count(),
        reading.tells()
    );
    svg.text("note", (MARGIN, 52.0), &words);
    let cells = || reading.grids.channels.iter().flatten().copied();
    let ends = (cells().min().unwrap_or(0), cells().max().unwrap_or(0));
    let largest = ends.0.unsigned_abs().max(ends.1.unsigned_abs());
    let mut top = TOP + 14.0;
    for channel in [1, 0, 2] {
        let filled = reading.grids.channels[channel]
            .iter()
            .filter(|&&cell| cell != 0);
        let words = format!("channel {channel}: {} cells filled", filled.count());
        svg.text("caption", (MARGIN, top - 8.0), &words);
        channel_grid(&mut svg, (channel, top), cell, (group, reading), largest);
        top += height + GAP;
    }
    legend(&mut svg, top - 14.0, ends);
    svg.finish()
}

/// One channel: the varblocks' outlines, their low-frequency corners, and the cells that are not 0.
fn channel_grid(
    svg: &mut Svg,
    (channel, top): (usize, f64),
    cell: f64,
    (group, reading): (&GroupBuf, &Reading),
    largest: u32,
) {
    let place = |x: usize, y: usize, wide: usize, high: usize| Rect {
        x: MARGIN + cell * x as f64,
        y: top + cell * y as f64,
        width: cell * wide as f64,
        height: cell * high as f64,
    };
    let sizes = |number| transform(number).map_or((1, 1), |known| (known.wide, known.high));
    for varblock in group.group().varblocks() {
        let (wide, high) = sizes(varblock.transform);
        let (x, y) = (8 * varblock.x, 8 * varblock.y);
        let kind = TransformType::of(varblock.transform).unwrap_or(TransformType::Dct8);
        let ground = colors::ground(kind);
        svg.rect(
            "ground",
            place(x, y, 8 * wide, 8 * high),
            &ground,
            kind.name(),
        );
        svg.rect("lf", place(x, y, wide, high), LF, "");
    }
    let row = 8 * group.sides.bw;
    for (k, &value) in reading.grids.channels[channel].iter().enumerate() {
        if value != 0 {
            let (x, y) = (k % row, k / row);
            let strength = strength(value, largest);
            let color = colors::coefficient(value, strength);
            svg.rect(
                "cell",
                place(x, y, 1, 1),
                &color,
                &format!("{x}, {y}: {value}"),
            );
        }
    }
    for varblock in group.group().varblocks() {
        let (wide, high) = sizes(varblock.transform);
        let outline = place(8 * varblock.x, 8 * varblock.y, 8 * wide, 8 * high);
        svg.rect("outline", outline, "none", "");
    }
}

/// 0 for the smallest coefficient, 1 for the largest, by logarithm.
fn strength(value: i32, largest: u32) -> f64 {
    let log = |size: u32| f64::from(size.max(1)).ln();
    let most = log(largest);
    if most > 0.0 {
        log(value.unsigned_abs()) / most
    } else {
        1.0
    }
}

fn legend(svg: &mut Svg, y: f64, (least, largest): (i32, i32)) {
    let swatch = |x: f64| Rect {
        x: MARGIN + x,
        y,
        width: 14.0,
        height: 14.0,
    };
    for (x, value) in [(0.0, -1), (160.0, 1)] {
        svg.rect("swatch", swatch(x), &colors::coefficient(value, 0.6), "");
    }
    svg.rect("swatch", swatch(320.0), LF, "");
    let text = |x: f64| (MARGIN + x, y + 11.0);
    svg.text("note", text(20.0), &format!("below 0, down to {least}"));
    svg.text("note", text(180.0), &format!("above 0, up to {largest}"));
    svg.text("note", text(340.0), "low-frequency cells, never read");
}

#[cfg(test)]
mod tests {
    use super::*;
    use crate::job::Job;
    use crate::svg::tests::well_formed;
    use netbuff::LayoutBuf;

    fn group() -> GroupBuf {
        let job = Job::read(include_bytes!("mixed.job")).expect("the shipped job");
        let layout = LayoutBuf::read(&job.input()).expect("it is accepted");
        layout.layout().cut(3).expect("it has four groups")
    }

    #[test]
    fn every_filled_cell_is_drawn() {
        let group = group();
        let symbols = crate::symbols::numbers(include_bytes!("mixed.symbols"));
        let reading = Reading::new(&group, &symbols);
        assert_eq!(reading.answer, Ok(symbols.len()));
        let svg = draw("mixed", 3, &group, &reading);
        let cells = reading.grids.channels.iter().flatten();
        let filled = cells.filter(|&&cell| cell != 0).count();
        assert!(well_formed(&svg) && filled > 100);
        assert_eq!(svg.matches("class=\"cell\"").count(), filled);
        let varblocks = group.group().varblocks().count();
        assert_eq!(svg.matches("class=\"outline\"").count(), 3 * varblocks);
    }

    #[test]
    fn a_refused_group_shows_what_came_before() {
        let group = group();
        let symbols = crate::symbols::numbers(include_bytes!("mixed.symbols"));
        let reading = Reading::new(&group, &symbols[..9]);
        let svg = draw("mixed", 3, &group, &reading);
        assert!(well_formed(&svg) && svg.contains("refused: symbols end after 9 symbols"));
        assert!(svg.contains("class=\"cell\""));
    }
}
