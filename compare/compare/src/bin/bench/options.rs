pub const HELP: &str = "\
bench [--rounds N] [--growth] [--svg FILE] [NAMES..]

Times Netbuff's calls against the Rust of jxl-vardct and prints one table: the median over the
rounds of both times and of their ratio, and the least and the largest ratio. In each round every
row is measured by a process of its own, both sides in turn.

  NAMES        only rows whose name contains one of these; each must be part of some name
  --rounds N   so many rounds (7 unless told otherwise)
  --growth     rows that show how time grows with size, in place of the usual ones
  --svg FILE   a chart of the ratios
  --child ROW  measures the row of this very name once, in this process, and prints one line:
               nanoseconds of Netbuff and of the Rust, how many units a call handles, their name
  --help       these words

Ends with 2, before anything is measured, when a word is wrong, a row is not there, the chart's file
cannot be written or the Rust is not at hand.
";

/// Enough for a median that one disturbed round does not move.
const ROUNDS: usize = 7;

#[derive(Debug, PartialEq, Eq)]
pub struct Options {
    pub help: bool,
    /// The row to measure in this process.
    pub child: Option<String>,
    /// How often each row is measured, by a process of its own each time.
    pub rounds: usize,
    /// Rows that show how time grows with size, in place of the usual ones.
    pub growth: bool,
    /// Where a chart of the ratios is written.
    pub svg: Option<String>,
    /// Only rows whose name contains one of these, where there are any.
    pub names: Vec<String>,
}

impl Options {
    pub fn read(mut words: impl Iterator<Item = String>) -> Result<Self, String> {
        let mut options = Self {
            help: false,
            child: None,
            rounds: ROUNDS,
            growth: false,
            svg: None,
            names: Vec::new(),
        };
        while let Some(word) = words.next() {
            let mut value = |what| words.next().ok_or(format!("{word} wants {what}"));
            match word.as_str() {
                "--help" => options.help = true,
                "--child" => options.child = Some(value("a row")?),
                "--rounds" => options.rounds = number(&value("a number")?)?,
                "--growth" => options.growth = true,
                "--svg" => options.svg = Some(value("a file")?),
                "" => return Err("an empty name is part of every row's".into()),
                option if option.starts_with('-') => {
                    return Err(format!("unknown: {option}\n\n{HELP}"))
                }
                _ => options.names.push(word),
            }
        }
        Ok(options)
    }
}

fn number(word: &str) -> Result<usize, String> {
    let number = word.parse().ok().filter(|&number| number > 0);
    number.ok_or(format!("{word} is no number of rounds"))
}

#[cfg(test)]
mod tests {
    use super::*;

    fn read(line: &str) -> Result<Options, String> {
        Options::read(line.split_whitespace().map(String::from))
    }

    #[test]
    fn options_and_names_are_read() {
        let options = read("cut --growth --svg chart.svg --rounds 9 1,024").expect("options");
        assert!(options.growth && !options.help);
        assert_eq!(options.svg.as_deref(), Some("chart.svg"));
        assert_eq!(options.rounds, 9);
        assert_eq!(options.names, ["cut", "1,024"]);
    }

    #[test]
    fn rounds_are_at_least_five_unless_told_otherwise() {
        let options = read("").expect("no options");
        assert!(options.rounds >= 5 && options.names.is_empty() && !options.growth);
    }

    #[test]
    fn a_row_for_this_process_is_read() {
        let words = ["--child", "orders, default"].map(String::from);
        let options = Options::read(words.into_iter()).expect("options");
        assert_eq!(options.child.as_deref(), Some("orders, default"));
    }

    #[test]
    fn wrong_options_are_refused() {
        for line in [
            "--svg",
            "--large",
            "--rounds",
            "--rounds 0",
            "--rounds x",
            "--child",
            "-rounds 3",
        ] {
            assert!(read(line).is_err(), "{line}");
        }
        assert!(Options::read([String::new()].into_iter()).is_err());
        assert!(read("--help").is_ok_and(|options| options.help));
    }
}
