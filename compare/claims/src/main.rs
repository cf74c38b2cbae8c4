//! Holds docs/CLAIMS.md against the repository (the folder that is named, or the one above
//! `compare/`), and docs/ARCHITECTURE.md where it says what is to be read:
//!
//! - every line of a table has four cells, and each row a name of its own; every name in backquotes
//!   behind a crate's name is defined in that crate; every compared call is one;
//! - every must-fail edit cites rows that there are, and can be made; every row that promises
//!   something is cited by one; every public function is tried by two;
//! - every public function has a contract and asks nothing of its caller;
//! - what a reader believes, the definitions that the calls and the named theorems rest on, stands
//!   apart from laws, and the reading list has its crates;
//! - crates.txt and docs/ARCHITECTURE.md have the same crates under the same headings, and nothing
//!   points upwards;
//! - every file that a document names is there, every name of docs/ONE-TO-ONE.md is defined, and the
//!   words of the glossary are those of the crates.
//!
//! Ends with 1 where one does not hold.

mod contracts;
mod definitions;
mod edits;
mod library;
mod pages;
mod reading;
mod repository;
mod rows;
mod specs;
mod subjects;
mod words;

use std::collections::BTreeSet;
use std::path::{Path, PathBuf};

use repository::Repository;
use rows::{calls, is_name, names, Row};

fn main() -> std::process::ExitCode {
    let named = std::env::args().nth(1).map(PathBuf::from);
    let root = named.unwrap_or(Path::new(env!("CARGO_MANIFEST_DIR")).join("../.."));
    let text = |file: &str| std::fs::read_to_string(root.join(file)).expect(file);
    let (page, house) = (text("docs/CLAIMS.md"), text("docs/ARCHITECTURE.md"));
    let repository = Repository::read(&root);
    let (rows, others) = Row::read_all(&page);
    let mut wrong = problems(&repository, &rows);
    let others = others.into_iter();
    wrong.extend(others.map(|line| format!("docs/CLAIMS.md: line {line} has not four cells")));
    wrong.extend(untried(&repository, &rows));
    wrong.extend(repository.faults());
    wrong.extend(unread(&repository, &page, &rows, &house));
    wrong.extend(subjects::faults(&text("crates.txt"), &house));
    wrong.extend(unnamed(&root, &repository));
    let words = pages::glossary(&house).filter(|word| !repository.speaks(word));
    wrong.extend(words.map(|word| format!("docs/ARCHITECTURE.md: no crate says {word}")));
    for fault in &wrong {
        println!("{fault}");
    }
    println!("claims: {} rows, {} wrong", rows.len(), wrong.len());
    u8::from(!wrong.is_empty()).into()
}

/// What is wrong with what a reader believes; prints how much that is.
fn unread(repository: &Repository, page: &str, rows: &[Row], house: &str) -> Vec<String> {
    let is_crate = |word: &str| repository.has_crate(word);
    let named = |asked: &str| -> Vec<_> {
        let rows = rows.iter().filter(|row| row.name.starts_with(asked));
        rows.flat_map(|row| names(row.promise, is_crate)).collect()
    };
    let (all, of_demand) = (named(""), named(DEMAND_3.rows));
    let calls = calls(page, is_crate);
    let list = reading::read_list(house);
    let library = &repository.library();
    let believed = library.believed(&calls, &all, |_| true);
    let mut faults: Vec<_> = believed.faults.iter().cloned().collect();
    for (name, call) in calls.iter().filter(|call| !library.has_call(call)) {
        faults.push(format!("docs/CLAIMS.md: no function {call} of {name}"));
    }
    let unlisted = reading::unlisted(&list, &believed).into_iter();
    faults.extend(unlisted.map(|fault| format!("docs/ARCHITECTURE.md: {fault}")));
    let misplaced = reading::misplaced(library, &believed);
    faults.extend(misplaced.iter().map(|found| found.to_string()));
    for line in reading::by_crate(&misplaced) {
        println!("{line}");
    }
    for line in reading::homonyms(library) {
        println!("one name in two files, {line}");
    }
    for line in reading::by_subject(library, &list, &believed) {
        println!("to read, {line}");
    }
    let asked = |name: &str| !reading::beside(&list, name);
    for (what, read) in [
        ("calls", library.believed(&calls, &[], asked)),
        (
            "calls and demand 3",
            library.believed(&calls, &of_demand, asked),
        ),
        (
            "calls and all theorems on them",
            library.believed(&calls, &all, asked),
        ),
        ("all, with what stands beside the calls", believed),
    ] {
        println!("to read, {what}: {}", reading::size(library, &read));
    }
    faults
}

/// Where demand 3 stands.
struct Demand {
    /// How the names of its rows begin.
    rows: &'static str,
    page: &'static str,
    in_crate: &'static str,
}

const DEMAND_3: Demand = Demand {
    rows: "00-demand-3-",
    page: "docs/ONE-TO-ONE.md",
    in_crate: "one_to_one",
};

/// What the documents name that is not there.
fn unnamed(root: &Path, repository: &Repository) -> Vec<String> {
    let mut faults = Vec::new();
    let docs = std::fs::read_dir(root.join("docs")).expect("docs/");
    let docs = docs.map(|entry| {
        format!(
            "docs/{}",
            entry.expect("an entry").file_name().to_string_lossy()
        )
    });
    let pages = docs.chain(["README.md", "CONTRIBUTING.md"].map(String::from));
    for page in pages.filter(|page| page.ends_with(".md")) {
        let text = std::fs::read_to_string(root.join(&page)).expect(&page);
        let mut missing: BTreeSet<_> = pages::missing(root, &text, DEMAND_3.in_crate)
            .into_iter()
            .collect();
        if page == DEMAND_3.page {
            let names = pages::quoted(&text).filter(|word| is_name(word));
            missing.extend(names.filter(|word| !repository.defines_anywhere(word)));
        }
        faults.extend(
            missing
                .iter()
                .map(|name| format!("{page}: {name} is not there")),
        );
    }
    faults
}

/// What the page names that is not there.
fn problems(repository: &Repository, rows: &[Row]) -> Vec<String> {
    let mut problems = Vec::new();
    let mut rows_seen = BTreeSet::new();
    for row in rows {
        if !rows_seen.insert(row.name) {
            problems.push(format!("two rows are called {}", row.name));
        }
        for (name, word) in names(row.promise, |word| repository.has_crate(word)) {
            if !repository.defines(name, word) {
                problems.push(format!("{word} is not defined in {name}"));
            }
        }
        for (_, call) in names(row.test, |word| word == "compare") {
            if !repository.compares(call) {
                problems.push(format!("no compared call {call}"));
            }
        }
    }
    let told = |problem| format!("docs/CLAIMS.md: {problem}");
    problems.into_iter().map(told).collect()
}

/// What is wrong with the edits and with the rows that they cite; prints how many there are.
fn untried(repository: &Repository, rows: &[Row]) -> Vec<String> {
    let mut faults = Vec::new();
    let mut cited = BTreeSet::new();
    for (name, label, edit, fault) in repository.edits() {
        let told = |fault| format!("crates/{name}/must-fail/{label}.edit: {fault}");
        faults.extend(fault.map(told));
        if edit.rows.is_empty() {
            faults.push(told("its first line is no `claims: ROW, ..`".to_string()));
        }
        for row in &edit.rows {
            if !rows.iter().any(|known| known.name == row) {
                faults.push(told(format!("docs/CLAIMS.md has no row {row}")));
            }
            cited.insert(row.as_str());
        }
    }
    let promising: Vec<_> = rows.iter().filter(|row| row.promises()).collect();
    let uncited = promising.iter().filter(|row| !cited.contains(row.name));
    faults.extend(uncited.map(|row| format!("docs/CLAIMS.md: no edit cites {}", row.name)));
    println!(
        "edits: {}, of {} rows that promise and {} public functions",
        repository.edits().count(),
        promising.len(),
        repository.public_functions()
    );
    faults
}
