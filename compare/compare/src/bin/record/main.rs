//! Writes the answers that are expected of a fixed set of calls, in the form that RECORD.md describes,
//! or holds a file against them. `record --help` has the words.

#[cfg(live)]
mod encode;
#[cfg(live)]
mod sample;
#[cfg(live)]
mod writer;

const HELP: &str = "\
record > FILE
record --check FILE

Writes the answers that are expected of a fixed set of calls, in the form that compare/RECORD.md
describes, to standard output: byte for byte the same every time.

  --check FILE  compares the file with what would be written
  --help        these words

Ends with 0 when it wrote, or when the file is the same; 1 when it is not; 2 when a file cannot be read
or written, a word is wrong, or the Rust is not at hand.
";

fn main() -> std::process::ExitCode {
    let words: Vec<String> = std::env::args().skip(1).collect();
    let ended = match words.iter().map(String::as_str).collect::<Vec<_>>()[..] {
        ["--help"] => {
            print!("{HELP}");
            Ok(0)
        }
        [] => write(),
        ["--check", file] => check(file),
        [word, ..] => Err(format!("unknown or not whole: {word}\n\n{HELP}")),
    };
    let failed = |problem| {
        eprintln!("{problem}");
        2
    };
    ended.unwrap_or_else(failed).into()
}

#[cfg(live)]
fn write() -> Result<u8, String> {
    use std::io::Write;
    let mut out = std::io::stdout();
    let written = out.write_all(&sample::file()).and_then(|()| out.flush());
    written.map_or_else(|e| Err(format!("standard output: {e}")), |()| Ok(0))
}

#[cfg(live)]
fn check(file: &str) -> Result<u8, String> {
    let found = std::fs::read(file).map_err(|e| format!("{file}: {e}"))?;
    let made = sample::file();
    let same = found == made;
    let tells = if same { "is" } else { "is not" };
    println!("{file} {tells} what is expected ({} bytes)", made.len());
    Ok(u8::from(!same))
}

#[cfg(not(live))]
fn write() -> Result<u8, String> {
    Err(compare::LEFT_OUT.into())
}

#[cfg(not(live))]
fn check(_: &str) -> Result<u8, String> {
    Err(compare::LEFT_OUT.into())
}
