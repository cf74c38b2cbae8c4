//! Times Netbuff's calls against the Rust of jxl-vardct: same driver, same inputs, both compiled
//! for release. Each row of each round is measured by a process of its own, both sides in turn; the
//! table has medians over the rounds, and the least and the largest ratio. `bench --help` has the
//! options.

#[cfg(live)]
mod census;
#[cfg(live)]
mod children;
#[cfg(live)]
mod coefficients;
#[cfg(live)]
mod contexts;
#[cfg(live)]
mod layouts;
#[cfg(live)]
mod lf_group;
#[cfg(live)]
mod machine;
#[cfg(live)]
mod measure;
mod options;
#[cfg(live)]
mod orders;
#[cfg(live)]
mod records;
#[cfg(live)]
mod rows;
#[cfg(live)]
mod spread;
#[cfg(live)]
mod svg;
#[cfg(live)]
mod table;
#[cfg(live)]
mod times;

fn main() -> std::process::ExitCode {
    match options::Options::read(std::env::args().skip(1)).and_then(run) {
        Ok(()) => 0.into(),
        Err(problem) => {
            eprintln!("{problem}");
            2.into()
        }
    }
}

fn run(options: options::Options) -> Result<(), String> {
    if options.help {
        print!("{}", options::HELP);
        return Ok(());
    }
    measure(options)
}

#[cfg(live)]
fn measure(options: options::Options) -> Result<(), String> {
    let rows = rows::all(options.growth);
    if let Some(name) = &options.child {
        let row = rows.into_iter().find(|row| row.name == *name);
        let row = row.ok_or_else(|| format!("no such row: {name}"))?;
        println!("{}", measure::measure((row.make)()));
        return Ok(());
    }
    let names = rows::chosen(&rows, &options.names)?;
    let chart = options.svg.as_deref().map(svg::File::open).transpose()?;
    let machine = machine::kind();
    let measured = children::measure(&names, options.growth, options.rounds)?;
    println!("{machine}; rounds: {}\n\n{}", options.rounds, table::HEAD);
    measured.iter().for_each(|row| println!("{row}"));
    let bars: Vec<svg::Bar> = measured.iter().filter_map(table::Row::bar).collect();
    chart.map_or(Ok(()), |chart| chart.write(&bars))
}

#[cfg(not(live))]
fn measure(_: options::Options) -> Result<(), String> {
    Err(compare::LEFT_OUT.into())
}
