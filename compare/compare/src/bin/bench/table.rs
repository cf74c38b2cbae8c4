use std::fmt;

use crate::spread::Spread;
use crate::svg::Bar;
use crate::times::Times;

pub const HEAD: &str = "\
| call | Netbuff | Rust | ratio | least | largest | Netbuff, each |
|--|--|--|--|--|--|--|";

/// A row of the table: what each round's process measured.
pub struct Row {
    pub name: String,
    pub times: Vec<Times>,
}

impl Row {
    pub fn new(name: &str) -> Self {
        Self {
            name: name.into(),
            times: Vec::new(),
        }
    }

    /// Where a number that each round has lies; none where the rounds have no such number.
    fn spread(&self, number: impl Fn(&Times) -> Option<f64>) -> Option<Spread> {
        Spread::of(self.times.iter().filter_map(number))
    }

    /// The row's bar in a chart; none where Netbuff has no such call.
    pub fn bar(&self) -> Option<Bar> {
        self.spread(|times| times.ours)?;
        Some(Bar {
            name: self.name.clone(),
            ratio: self.spread(Times::ratio),
        })
    }
}

impl fmt::Display for Row {
    fn fmt(&self, f: &mut fmt::Formatter<'_>) -> fmt::Result {
        const NONE: &str = "-";
        let time = |spread: Option<Spread>| {
            spread.map_or(NONE.into(), |s| format!("{:.2} us", s.median / 1e3))
        };
        let ours = time(self.spread(|times| times.ours));
        let rust = time(self.spread(|times| times.rust));
        let [ratio, least, largest] = match self.spread(Times::ratio) {
            Some(s) => [s.median, s.least, s.largest].map(|ratio| format!("{ratio:.2}")),
            None => [NONE; 3].map(String::from),
        };
        let unit = self.times.first().map_or("", |times| &times.unit);
        let each = self.spread(Times::each);
        let each = each.map_or(NONE.into(), |s| format!("{:.2} ns a {unit}", s.median));
        write!(
            f,
            "| {} | {ours} | {rust} | {ratio} | {least} | {largest} | {each} |",
            self.name
        )
    }
}

#[cfg(test)]
mod tests {
    use super::*;

    fn row(times: &[(Option<f64>, Option<f64>)]) -> Row {
        let name = "cut, mixed".into();
        let times = times.iter().map(|&(ours, rust)| Times {
            ours,
            rust,
            count: 4,
            unit: "block".into(),
        });
        Row {
            name,
            times: times.collect(),
        }
    }

    #[test]
    fn the_ratio_is_the_median_of_each_rounds_ratio() {
        let rounds = [(1000.0, 1000.0), (3000.0, 1500.0), (2000.0, 4000.0)];
        let row = row(&rounds.map(|(ours, rust)| (Some(ours), Some(rust))));
        let line = "| cut, mixed | 2.00 us | 1.50 us | 1.00 | 0.50 | 2.00 | 500.00 ns a block |";
        assert_eq!(row.to_string(), line);
        let bar = row.bar().and_then(|bar| bar.ratio).expect("a bar");
        assert_eq!((bar.least, bar.median, bar.largest), (0.5, 1.0, 2.0));
    }

    #[test]
    fn a_side_that_is_not_there_has_no_numbers() {
        let alone = row(&[(Some(1000.0), None)]);
        let line = "| cut, mixed | 1.00 us | - | - | - | - | 250.00 ns a block |";
        assert_eq!(alone.to_string(), line);
        assert!(alone.bar().is_some_and(|bar| bar.ratio.is_none()));
        let other = row(&[(None, Some(1000.0))]);
        let line = "| cut, mixed | - | 1.00 us | - | - | - | - |";
        assert_eq!(other.to_string(), line);
        assert!(other.bar().is_none());
    }

    #[test]
    fn lines_have_the_heads_columns() {
        let columns = |line: &str| line.matches('|').count();
        let row = row(&[(Some(1.0), Some(1.0))]).to_string();
        assert!(HEAD.lines().all(|line| columns(line) == columns(&row)));
    }
}
