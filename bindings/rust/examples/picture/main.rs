//! Draws the layout of a lister job, or the grids of one of its pass groups, as SVG.
//!
//! In bindings/rust, once `.ci/archive` has been run:
//!
//!     cargo run --release --example picture -- examples/picture/mixed.job > mixed.svg
//!     cargo run --release --example picture -- --group 3 --symbols examples/picture/mixed.symbols \
//!         examples/picture/mixed.job > group.svg
//!
//! mixed.job is a made-up scan of 400 x 304 pixels with 22 of the 27 transforms, mixed.symbols are
//! the symbols of its pass group 3.

mod colors;
mod grids;
mod job;
mod layout;
mod options;
mod svg;

use std::fs::{self, File};
use std::io::{self, Read, Write};
use std::process::ExitCode;

use netbuff::LayoutBuf;

use grids::Reading;
use job::Job;
use options::{Options, HELP};

/// What went wrong, and the status that the program ends with.
struct Problem(u8, String);

fn main() -> ExitCode {
    let drawn = Options::read(std::env::args().skip(1)).map_err(|words| Problem(2, words));
    match drawn.and_then(run) {
        Ok(()) => ExitCode::SUCCESS,
        Err(Problem(status, words)) => {
            eprintln!("picture: {words}");
            status.into()
        }
    }
}

fn run(options: Options) -> Result<(), Problem> {
    if options.help {
        return write(&mut io::stdout(), "standard output", HELP);
    }
    let name = options.job.as_deref().unwrap_or("-");
    let bytes = contents(name)?;
    let shown = match name {
        "-" => "standard input",
        file => file,
    };
    let job = Job::read(&bytes).map_err(|words| Problem(1, format!("{shown}: {words}")))?;
    let symbols = options.symbols.as_deref().map(contents).transpose()?;
    let picture = draw(shown, &job, options.group, symbols)?;
    match options.output.as_deref() {
        None => write(&mut io::stdout(), "standard output", &picture),
        Some(file) => {
            let made = File::create(file).map_err(|e| failed(file, &e))?;
            write(&mut &made, file, &picture)
        }
    }
}

fn draw(
    name: &str,
    job: &Job,
    group: Option<usize>,
    symbols: Option<Vec<u8>>,
) -> Result<String, Problem> {
    let refused = |refusal| Problem(1, format!("{name}: {refusal}"));
    let layout = LayoutBuf::read(&job.input()).map_err(refused)?;
    let Some(index) = group else {
        return Ok(layout::draw(name, job.group, &layout));
    };
    let symbols = symbols::numbers(&symbols.unwrap_or_default());
    let group = layout.layout().cut(index).map_err(refused)?;
    let reading = Reading::new(&group, &symbols);
    Ok(grids::draw(name, index, &group, &reading))
}

/// Symbols of a file: numbers of four bytes, the lowest first.
mod symbols {
    pub fn numbers(bytes: &[u8]) -> Vec<u32> {
        let number = |four: &[u8]| u32::from_le_bytes([four[0], four[1], four[2], four[3]]);
        bytes.chunks_exact(4).map(number).collect()
    }
}

fn contents(name: &str) -> Result<Vec<u8>, Problem> {
    let mut bytes = Vec::new();
    let read = match name {
        "-" => io::stdin().read_to_end(&mut bytes).map(|_| bytes),
        _ => fs::read(name),
    };
    read.map_err(|error| failed(name, &error))
}

fn write(to: &mut impl Write, name: &str, words: &str) -> Result<(), Problem> {
    let written = to.write_all(words.as_bytes()).and_then(|()| to.flush());
    written.map_err(|error| failed(name, &error))
}

fn failed(name: &str, error: &io::Error) -> Problem {
    Problem(2, format!("{name}: {error}"))
}
