pub const HELP: &str = "\
picture [--output FILE] [--group INDEX [--symbols FILE]] [JOB]

Draws the layout of a lister job (a file, or standard input) as SVG: a rectangle for each varblock,
coloured by its transform, darker where hf_mul is larger, with the borders of the pass groups.

  --output FILE   where the picture goes; standard output unless told otherwise
  --group INDEX   draws the three grids of this pass group instead, counted row by row from 0
  --symbols FILE  what the group is read from, 32 bits each, lowest byte first, with standard
                  contexts, natural orders and one preset; no symbols unless told otherwise
  --help          these words

Ends with 0 when it drew, 1 when the job is refused or bad, 2 when something cannot be read or
written or a word is wrong.
";

#[derive(Debug, Default, PartialEq, Eq)]
pub struct Options {
    pub help: bool,
    pub output: Option<String>,
    pub group: Option<usize>,
    pub symbols: Option<String>,
    pub job: Option<String>,
}

impl Options {
    pub fn read(mut words: impl Iterator<Item = String>) -> Result<Self, String> {
        let mut options = Self::default();
        while let Some(word) = words.next() {
            let mut value = |what| words.next().ok_or(format!("{word} wants {what}"));
            match word.as_str() {
                "--help" => options.help = true,
                "--output" => options.output = Some(value("a file")?),
                "--symbols" => options.symbols = Some(value("a file")?),
                "--group" => {
                    let index = value("a number")?;
                    let index = index.parse().map_err(|_| format!("{index} is no number"))?;
                    options.group = Some(index);
                }
                unknown if unknown.len() > 1 && unknown.starts_with('-') => {
                    return Err(format!("unknown: {unknown}; --help tells the options"))
                }
                _ if options.job.is_none() => options.job = Some(word),
                second => return Err(format!("one job at a time, and not {second} too")),
            }
        }
        if options.symbols.is_some() && options.group.is_none() {
            return Err("--symbols wants --group".into());
        }
        Ok(options)
    }
}

#[cfg(test)]
mod tests {
    use super::*;

    fn read(line: &str) -> Result<Options, String> {
        Options::read(line.split_whitespace().map(String::from))
    }

    #[test]
    fn options_are_read() {
        assert_eq!(read(""), Ok(Options::default()));
        let options = read("--group 3 --symbols s --output o -").expect("options");
        assert_eq!(
            (options.group, options.job.as_deref()),
            (Some(3), Some("-"))
        );
        assert!(read("--help").is_ok_and(|options| options.help));
    }

    #[test]
    fn wrong_words_are_refused() {
        for line in [
            "--lines",
            "--group",
            "--group x",
            "--group -1",
            "a b",
            "--symbols s",
        ] {
            assert!(read(line).is_err(), "{line}");
        }
    }
}
