//! What a table was measured on and with.

use std::fs;
use std::thread::available_parallelism;

/// The compiler that this program was made by.
const COMPILER: &str = env!("COMPILED_BY");

/// Kind of processor, number of processors, compiler, and how many others are at work just now: the
/// system's load over the last minute.
pub fn kind() -> String {
    let lines = fs::read_to_string("/proc/cpuinfo").unwrap_or_default();
    let processor = processor(&lines).unwrap_or_else(|| std::env::consts::ARCH.into());
    let count = available_parallelism().map_or(1, |count| count.get());
    let load = fs::read_to_string("/proc/loadavg").unwrap_or_default();
    let load = load.split_whitespace().next().unwrap_or("unknown");
    format!("{processor}; processors: {count}; load before: {load}; {COMPILER}")
}

/// The first processor's name, with the numbers that tell apart processors of one name.
fn processor(lines: &str) -> Option<String> {
    let field = |wanted: &str| {
        let mut pairs = lines.lines().filter_map(|line| line.split_once(':'));
        let (_, value) = pairs.find(|(name, _)| name.trim() == wanted)?;
        Some(value.trim().to_string())
    };
    let name = field("model name")?;
    let numbers = ["cpu family", "model", "stepping"].map(field);
    Some(match numbers {
        [Some(family), Some(model), Some(stepping)] => {
            format!("{name} (family {family}, model {model}, stepping {stepping})")
        }
        _ => name,
    })
}

#[cfg(test)]
mod tests {
    use super::*;

    #[test]
    fn the_processor_is_found() {
        let lines =
            "processor\t: 0\ncpu family\t: 6\nmodel\t\t: 85\nmodel name\t: Some: CPU @ 2 GHz\n\
                     stepping\t: 7\n\nprocessor\t: 1\nmodel name\t: Other\n";
        let found = processor(lines).expect("a name");
        assert_eq!(found, "Some: CPU @ 2 GHz (family 6, model 85, stepping 7)");
        assert_eq!(processor("model name : Other\n").as_deref(), Some("Other"));
        assert_eq!(processor("Hardware : none\n"), None);
    }

    #[test]
    fn the_kind_tells_processors_load_and_compiler() {
        let kind = kind();
        for label in ["processors: ", "load before: ", "rustc "] {
            let (_, value) = kind.split_once(label).expect(&kind);
            assert!(value.starts_with(|c: char| c.is_ascii_digit()), "{kind}");
        }
    }
}
