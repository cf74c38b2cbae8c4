use std::num::NonZeroU32;
use std::time::Duration;

use compare::driver::Effort;
use compare::progress::LONG;

#[derive(Debug)]
pub struct Options {
    /// For each call, one behind the other.
    pub effort: Effort,
    /// For all calls together, in turns; the effort for each is then not looked at.
    pub total: Option<Duration>,
    pub seed: u64,
    pub examples_only: bool,
    pub progress: bool,
    /// The calls to compare; all of them where none is named.
    pub calls: Vec<String>,
}

impl Options {
    pub fn read(mut words: impl Iterator<Item = String>, names: &[&str]) -> Result<Self, String> {
        let mut options = Self {
            effort: Effort::Time(Duration::from_secs(5)),
            total: None,
            seed: 1,
            examples_only: false,
            progress: false,
            calls: Vec::new(),
        };
        let mut each = false;
        while let Some(word) = words.next() {
            let mut value = || words.next().ok_or(format!("{word} wants a number"));
            match word.as_str() {
                "--seconds" => (options.effort, each) = (Effort::Time(seconds(&value()?)?), true),
                "--count" => {
                    let count = positive(&value()?)?.get() as usize;
                    (options.effort, each) = (Effort::Inputs(count), true);
                }
                "--total-seconds" => options.total = Some(seconds(&value()?)?),
                "--examples" => options.examples_only = true,
                "--progress" => options.progress = true,
                "--seed" => {
                    let seed = value()?;
                    options.seed = seed.parse().map_err(|_| format!("{seed} is no seed"))?;
                }
                call if names.contains(&call) => options.calls.push(word),
                _ => {
                    let calls = names.join(" ");
                    return Err(format!(
                        "unknown: {word}; --help tells the options; calls: {calls}"
                    ));
                }
            }
        }
        if each && options.total.is_some() {
            return Err("--total-seconds is for all calls together, and stands alone".into());
        }
        options.progress |= options.planned(names) >= LONG;
        Ok(options)
    }

    pub fn wants(&self, call: &str) -> bool {
        self.calls.is_empty() || self.calls.iter().any(|wanted| wanted == call)
    }

    /// The time that all calls are given together, as far as it is known beforehand.
    fn planned(&self, names: &[&str]) -> Duration {
        let calls = names.iter().filter(|name| self.wants(name)).count();
        match (self.total, self.effort) {
            (Some(total), _) => total,
            (None, Effort::Time(each)) => each.saturating_mul(calls as u32),
            (None, Effort::Inputs(_)) => Duration::ZERO,
        }
    }
}

fn seconds(word: &str) -> Result<Duration, String> {
    Ok(Duration::from_secs(positive(word)?.get().into()))
}

fn positive(word: &str) -> Result<NonZeroU32, String> {
    word.parse()
        .map_err(|_| format!("{word} is no number from 1 on"))
}

#[cfg(test)]
mod tests {
    use super::*;

    const NAMES: [&str; 3] = ["layout", "cut", "orders"];

    fn read(line: &str) -> Result<Options, String> {
        Options::read(line.split_whitespace().map(String::from), &NAMES)
    }

    #[test]
    fn the_options_so_far_are_read() {
        let options = read("--seconds 7 --seed 3 cut").expect("options");
        assert!(matches!(options.effort, Effort::Time(time) if time.as_secs() == 7));
        assert_eq!((options.seed, options.total), (3, None));
        assert!(options.wants("cut") && !options.wants("layout"));
        assert!(read("--count 9").is_ok_and(|o| matches!(o.effort, Effort::Inputs(9))));
        assert!(read("--examples").is_ok_and(|options| options.examples_only));
    }

    #[test]
    fn wrong_words_are_refused() {
        for line in [
            "transform",
            "--fast",
            "--seconds",
            "--seconds 0",
            "--seconds 1s",
            "--count -1",
            "--total-seconds x",
            "--seed x",
            "--seed",
            "--seconds 1 --total-seconds 5",
            "--total-seconds 5 --count 1",
        ] {
            assert!(read(line).is_err(), "{line}");
        }
    }

    #[test]
    fn a_total_time_is_read() {
        let options = read("--total-seconds 3600 --seed 2").expect("options");
        assert_eq!(options.total, Some(Duration::from_secs(3600)));
        assert!(options.progress && options.wants("orders"));
    }

    #[test]
    fn long_runs_tell_their_progress() {
        let told = |line| read(line).expect("options").progress;
        assert!(told("--seconds 20"), "three calls, 60 s together");
        assert!(!told("--seconds 19") && !told("--seconds 59 cut"));
        assert!(!told("--total-seconds 59") && told("--total-seconds 60 cut"));
        assert!(told("--count 5 --progress") && !told("--count 5"));
    }
}
