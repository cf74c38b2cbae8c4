//! Compares Netbuff's calls with the Rust of jxl-vardct, through the safe wrapper. `compare --help`
//! has the options.

#[cfg(live)]
mod options;
#[cfg(live)]
mod table;

const HELP: &str = "\
compare [--seconds N | --count N] [--seed S] [CALLS..]
compare --total-seconds N [--seed S] [CALLS..]
compare --examples

Compares the answers of Netbuff's calls, and what they leave in lent memory, with those of the Rust of
jxl-vardct: the papers' examples, then made-up inputs to the first difference of each call.

  CALLS              only these; a name that is none lists them all
  --seconds N        so long for each call (5 unless told otherwise)
  --count N          so many inputs for each call
  --total-seconds N  so long for all calls together, in turns, to the first difference, and one table
  --seed S           other inputs (1 unless told otherwise)
  --progress         tells on stderr how far it is; a run of a minute or more does so by itself
  --examples         the papers' examples alone, each shown
  --help             these words

Ends with 0 when all agree, or where the Rust is not at hand, which one line says; 1 when a call
differs; 2 when a word is wrong.
";

fn main() -> std::process::ExitCode {
    if std::env::args().skip(1).any(|word| word == "--help") {
        print!("{HELP}");
        return 0.into();
    }
    run()
}

#[cfg(live)]
fn run() -> std::process::ExitCode {
    let options = match options::Options::read(std::env::args().skip(1), &table::names()) {
        Ok(options) => options,
        Err(problem) => {
            eprintln!("{problem}");
            return 2.into();
        }
    };
    let examples = show_examples(options.examples_only);
    let agreed = options.examples_only || table::run(&options);
    u8::from(!(examples && agreed)).into()
}

/// Shows the papers' examples, all or those that differ, and tells whether none differs.
#[cfg(live)]
fn show_examples(all: bool) -> bool {
    let rows = compare::examples::rows();
    let differing = rows.iter().filter(|row| row.differs()).count();
    for row in rows.iter().filter(|row| all || row.differs()) {
        println!("{row}");
    }
    println!(
        "examples, by the Rust and by Netbuff: {}, {differing} differ from the paper's words",
        rows.len()
    );
    differing == 0
}

#[cfg(not(live))]
fn run() -> std::process::ExitCode {
    println!("{}", compare::LEFT_OUT);
    0.into()
}
