use std::collections::{BTreeMap, BTreeSet};
use std::fs;
use std::path::Path;

use crate::edits::{tries, Edit, Files};
use crate::library::Library;
use crate::{contracts, definitions};

/// The crates of the repository, with what the page may name of them.
pub struct Repository {
    crates: BTreeMap<String, Crate>,
    calls: BTreeSet<String>,
}

struct Crate {
    /// Of `src/`, `specs/` and `proofs/`.
    files: Files,
    edits: BTreeMap<String, Edit>,
}

impl Repository {
    pub fn read(root: &Path) -> Self {
        let folders = fs::read_dir(root.join("crates")).expect("crates/");
        let crates = folders.map(|folder| {
            let path = folder.expect("a folder").path();
            let name = path.file_name().expect("a name").to_string_lossy();
            (name.into_owned(), Crate::read(&path))
        });
        let mut calls = BTreeSet::new();
        each_file(&root.join("compare/compare/src/cases"), &mut |_, text| {
            let named = text.split("NAME: &'static str = \"").skip(1);
            calls.extend(named.filter_map(|rest| rest.split('"').next().map(String::from)));
        });
        let crates = crates.collect();
        Self { crates, calls }
    }

    /// The crates' definitions and contracts, for the reading list.
    pub fn library(&self) -> Library {
        let mut library = Library::default();
        for (name, found) in &self.crates {
            for (_, text) in found.of("src/") {
                library.add_code(name, text);
            }
            for (file, text) in found.of("specs/") {
                let file = file.trim_end_matches(".antt");
                library.add_definitions(name, file, text);
            }
            for (file, text) in found.laws() {
                let file = format!("proofs/{}", file.trim_end_matches(".antt"));
                library.add_definitions(name, &file, text);
            }
        }
        library
    }

    /// Public functions whose contracts are not what the page says of all, or that fewer than two
    /// edits try.
    pub fn faults(&self) -> Vec<String> {
        let mut faults = Vec::new();
        for (name, found) in &self.crates {
            for (file, text) in found.of("src/") {
                let told = contracts::faults(text).into_iter();
                faults.extend(told.map(|fault| format!("crates/{name}/src/{file}: {fault}")));
            }
            let few = found.tries().into_iter().filter(|(_, count)| *count < 2);
            faults.extend(few.map(|(function, count)| {
                format!("crates/{name}: {function} is public and has {count} must-fail edits")
            }));
        }
        faults
    }

    /// How many public functions there are.
    pub fn public_functions(&self) -> usize {
        self.crates.values().map(|found| found.tries().len()).sum()
    }

    pub fn has_crate(&self, name: &str) -> bool {
        self.crates.contains_key(name)
    }

    /// Whether a name is one that the crate defines.
    pub fn defines(&self, name: &str, word: &str) -> bool {
        let found = &self.crates[name];
        let code = found
            .of("src/")
            .flat_map(|(_, text)| definitions::of_code(text));
        let specs = found.of("specs/").chain(found.laws());
        let specs = specs.flat_map(|(_, text)| definitions::of_definitions(text));
        code.chain(specs).any(|defined| defined == word)
    }

    pub fn defines_anywhere(&self, word: &str) -> bool {
        self.crates.keys().any(|name| self.defines(name, word))
    }

    /// Whether a word stands in code or definitions.
    pub fn speaks(&self, word: &str) -> bool {
        let mut texts = self.crates.values().flat_map(|found| found.files.values());
        texts.any(|text| {
            text.split(|c| !definitions::part_of_name(c))
                .any(|it| it == word)
        })
    }

    pub fn compares(&self, call: &str) -> bool {
        self.calls.contains(call)
    }

    /// Crate, label, edit, and why it cannot be made.
    pub fn edits(&self) -> impl Iterator<Item = (&str, &str, &Edit, Option<String>)> {
        self.crates.iter().flat_map(|(name, found)| {
            let edits = found.edits.iter();
            edits.map(|(label, edit)| {
                (
                    name.as_str(),
                    label.as_str(),
                    edit,
                    edit.fault(&found.files),
                )
            })
        })
    }
}

impl Crate {
    fn read(folder: &Path) -> Self {
        let (mut files, mut edits) = (Files::new(), BTreeMap::new());
        for part in ["src", "specs", "proofs"] {
            each_file(&folder.join(part), &mut |file, text| {
                files.insert(format!("{part}/{file}"), text);
            });
        }
        each_file(&folder.join("must-fail"), &mut |file, text| {
            let label = file.trim_end_matches(".edit");
            edits.insert(label.to_string(), Edit::read(&text));
        });
        Self { files, edits }
    }

    /// The files of a part of the crate, by their place in it.
    fn of(&self, part: &'static str) -> impl Iterator<Item = (&str, &str)> {
        let files = self.files.iter();
        files.filter_map(move |(file, text)| Some((file.strip_prefix(part)?, text.as_str())))
    }

    /// The files of laws in `proofs/`: those that are not the proof of a function.
    fn laws(&self) -> impl Iterator<Item = (&str, &str)> {
        let of_function = ["Answers", "Invariants", "Proof", "Lib"];
        self.of("proofs/").filter(move |(file, _)| {
            let name = file.rsplit('/').next().unwrap_or(file);
            let name = name.strip_suffix(".antt");
            name.is_some_and(|name| !of_function.contains(&name))
        })
    }

    fn tries(&self) -> Vec<(String, usize)> {
        tries(&self.files, &self.edits.values().collect::<Vec<_>>())
    }
}

/// All files of a folder and those below it, by their place in it; none where there is no such
/// folder.
fn each_file(folder: &Path, visit: &mut dyn FnMut(&str, String)) {
    let Ok(entries) = fs::read_dir(folder) else {
        return;
    };
    for path in entries.map(|entry| entry.expect("an entry").path()) {
        let name = path.file_name().expect("a name").to_string_lossy();
        if path.is_dir() {
            each_file(&path, &mut |file, text| {
                visit(&format!("{name}/{file}"), text)
            });
        } else {
            visit(&name, fs::read_to_string(&path).expect("text"));
        }
    }
}
