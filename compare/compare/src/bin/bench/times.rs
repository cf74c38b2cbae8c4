use std::fmt;
use std::str::FromStr;

/// What one process measured of one row: nanoseconds of a call on each side that there is, and what
/// a call handles. Its line is how a child tells it.
#[derive(Debug, Clone, PartialEq)]
pub struct Times {
    pub ours: Option<f64>,
    pub rust: Option<f64>,
    /// How many units a call handles, and their name.
    pub count: usize,
    pub unit: String,
}

impl Times {
    /// Netbuff's time divided by the Rust's.
    pub fn ratio(&self) -> Option<f64> {
        Some(self.ours? / self.rust?)
    }

    /// Netbuff's time for each unit.
    pub fn each(&self) -> Option<f64> {
        Some(self.ours? / self.count as f64)
    }
}

const NONE: &str = "-";

impl fmt::Display for Times {
    fn fmt(&self, f: &mut fmt::Formatter<'_>) -> fmt::Result {
        let shown = |time: Option<f64>| time.map_or(NONE.into(), |time| time.to_string());
        let (ours, rust) = (shown(self.ours), shown(self.rust));
        write!(f, "{ours} {rust} {} {}", self.count, self.unit)
    }
}

impl FromStr for Times {
    type Err = String;

    fn from_str(line: &str) -> Result<Self, String> {
        let words: Vec<&str> = line.split_whitespace().collect();
        let read = || {
            let [ours, rust, count, unit] = words[..] else {
                return None;
            };
            Some(Self {
                ours: time(ours)?,
                rust: time(rust)?,
                count: count.parse().ok().filter(|&count| count > 0)?,
                unit: unit.into(),
            })
        };
        read().ok_or_else(|| format!("no line of times: {line:?}"))
    }
}

/// A time above 0, or that there is none.
fn time(word: &str) -> Option<Option<f64>> {
    if word == NONE {
        return Some(None);
    }
    let time: f64 = word.parse().ok()?;
    (time.is_finite() && time > 0.0).then_some(Some(time))
}

#[cfg(test)]
mod tests {
    use super::*;

    fn times(ours: Option<f64>, rust: Option<f64>) -> Times {
        Times {
            ours,
            rust,
            count: 64,
            unit: "block".into(),
        }
    }

    #[test]
    fn a_line_is_read_as_it_was_written() {
        let sides = [None, Some(0.1 + 0.2), Some(34.25), Some(4.2e11)];
        for ours in sides {
            for rust in sides {
                let times = times(ours, rust);
                assert_eq!(times.to_string().parse(), Ok(times));
            }
        }
        let line = "128 - 64 block\n";
        assert_eq!(line.parse(), Ok(times(Some(128.0), None)));
    }

    #[test]
    fn other_lines_are_refused() {
        for line in [
            "",
            "128 64 block",
            "128 - 64 block more",
            "128 - 0 block",
            "0 - 64 block",
            "-1 - 64 block",
            "NaN - 64 block",
            "inf - 64 block",
            "128 x 64 block",
            "128 - x block",
        ] {
            assert!(line.parse::<Times>().is_err(), "{line}");
        }
    }

    #[test]
    fn ratio_and_time_for_each_need_their_sides() {
        let both = times(Some(128.0), Some(256.0));
        assert_eq!((both.ratio(), both.each()), (Some(0.5), Some(2.0)));
        assert_eq!(times(Some(128.0), None).ratio(), None);
        assert_eq!(times(None, Some(128.0)).each(), None);
    }
}
