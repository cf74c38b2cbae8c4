//! What the promises rest on: the crates' definitions, the contracts of the calls, the theorems.

use std::collections::{BTreeMap, BTreeSet};

use crate::contracts::functions;
use crate::definitions::of_code;
use crate::specs::{Declaration, File, Imports, Named, Place, Source};

/// A crate, and the name of a function, theorem or definition of it.
pub type Name<'a> = (&'a str, &'a str);

/// The crates' definitions, the contracts of their functions, and the types of their code.
#[derive(Default)]
pub struct Library {
    pub files: BTreeMap<Named, File>,
    contracts: Vec<Contract>,
    types: BTreeSet<Named>,
}

struct Contract {
    in_crate: String,
    name: String,
    exported: bool,
    /// Each word, and where it comes from.
    cites: Vec<(String, Option<Source>)>,
}

/// What the promises rest on.
#[derive(Default)]
pub struct Believed {
    /// Definitions, each with what cites it.
    pub definitions: BTreeMap<Place, String>,
    /// Types that the code declares.
    pub types: BTreeSet<Named>,
    /// What is cited and is nowhere declared, or is a law.
    pub faults: BTreeSet<String>,
    /// What is cited and was not looked at yet.
    open: Vec<(Place, String)>,
}

impl Library {
    pub fn add_definitions(&mut self, in_crate: &str, file: &str, source: &str) {
        let file = (in_crate.to_string(), file.to_string());
        self.files.insert(file, File::read(source));
    }

    pub fn add_code(&mut self, in_crate: &str, source: &str) {
        let mut imports = Imports::default();
        for line in source.lines().filter(|line| line.starts_with("ghost ")) {
            imports.take(line);
        }
        let of_crate = |name: &str| (in_crate.to_string(), name.to_string());
        let own = of_code(source);
        self.types.extend(own.iter().map(|name| of_crate(name)));
        for function in functions(source) {
            let cites = function.cites().into_iter().map(|word| {
                // A contract may name what its own file declares.
                let of_file = own.contains(&word).then(|| Source::Type(of_crate(word)));
                (word.to_string(), imports.source(word).or(of_file))
            });
            self.contracts.push(Contract {
                in_crate: in_crate.to_string(),
                name: function.name.to_string(),
                exported: function.exported,
                cites: cites.collect(),
            });
        }
    }

    pub fn declaration(&self, place: &Place) -> &Declaration {
        &self.files[&place.file].declared[&place.name]
    }

    /// Where a word of a file is declared; none where it is nowhere.
    fn source(&self, place: &Place) -> Option<Source> {
        let file = self.files.get(&place.file)?;
        let own = |name: &str| {
            file.declared.contains_key(name).then(|| {
                let (file, name) = (place.file.clone(), name.to_string());
                Source::Definitions(Place { file, name })
            })
        };
        let word = place.name.as_str();
        let of_type = || own(word.split_once('.')?.0);
        let found = own(word).or_else(|| file.imports.source(word));
        match found.or_else(of_type)? {
            Source::Definitions(found) if found != *place => self.source(&found),
            found => Some(found),
        }
    }

    fn take(&self, to: &mut Believed, by: &str, word: &str, source: Option<Source>) {
        match source {
            Some(Source::Definitions(place)) => to.open.push((place, by.to_string())),
            Some(Source::Type(of_code)) if self.types.contains(&of_code) => {
                to.types.insert(of_code);
            }
            Some(Source::Kit) => (),
            _ => {
                let told = format!("{by} cites `{word}`, which is nowhere declared");
                to.faults.insert(told);
            }
        }
    }

    /// What the statement of a theorem cites. Where that stands under a name of its own among the laws,
    /// `job_first : JobFirst j` or `more_due : MoreDueLaw L`, what is found there is the theorem's.
    fn take_statement(&self, to: &mut Believed, theorem: &Place) {
        for word in &self.declaration(theorem).cites {
            let (file, name) = (theorem.file.clone(), word.clone());
            match self.source(&Place { file, name }) {
                Some(Source::Definitions(place)) if self.states(&place, theorem) => {
                    self.take_cites(to, &place);
                }
                source => self.take(to, &theorem.to_string(), word, source),
            }
        }
    }

    /// Whether a definition of the laws has the name that the statement of this theorem would have.
    fn states(&self, place: &Place, theorem: &Place) -> bool {
        let of_laws = place.file.0 == theorem.file.0 && place.file.1.starts_with("laws/");
        let name = place.name.strip_suffix("Law").unwrap_or(&place.name);
        of_laws && self.declaration(place).defines && name == capitals(&theorem.name)
    }

    /// What a declaration cites.
    fn take_cites(&self, to: &mut Believed, place: &Place) {
        for word in &self.declaration(place).cites {
            let (file, name) = (place.file.clone(), word.clone());
            let source = self.source(&Place { file, name });
            self.take(to, &place.to_string(), word, source);
        }
    }

    /// What the contracts of these calls and of the exported functions cite, and the statements of
    /// these theorems; of the crates that are asked for. A name that a function of the crate has is
    /// that function's.
    fn promised(&self, calls: &[Name], named: &[Name], asked: impl Fn(&str) -> bool) -> Believed {
        let mut found = Believed::default();
        for contract in self.contracts.iter().filter(|it| asked(&it.in_crate)) {
            let name = (contract.in_crate.as_str(), contract.name.as_str());
            if contract.exported || calls.contains(&name) {
                let by = format!("crates/{}: the contract of `{}`", name.0, name.1);
                for (word, source) in &contract.cites {
                    let source = match source {
                        Some(Source::Definitions(place)) => self.source(place),
                        other => other.clone(),
                    };
                    self.take(&mut found, &by, word, source);
                }
            }
        }
        for (file, read) in self.files.iter().filter(|(file, _)| asked(&file.0)) {
            for (name, declared) in &read.declared {
                let named = named
                    .iter()
                    .any(|it| *it == (file.0.as_str(), name.as_str()));
                if !declared.defines && named && !self.has_call(&(&file.0, name)) {
                    let (file, name) = (file.clone(), name.clone());
                    self.take_statement(&mut found, &Place { file, name });
                }
            }
        }
        found
    }

    /// What these promises rest on: what a promise cites, or a definition that is among it.
    pub fn believed(
        &self,
        calls: &[Name],
        named: &[Name],
        asked: impl Fn(&str) -> bool,
    ) -> Believed {
        let mut found = self.promised(calls, named, asked);
        while let Some((place, by)) = found.open.pop() {
            if !self.declaration(&place).defines {
                let told = format!("{by} cites {place}, which is a law");
                found.faults.insert(told);
            } else if !found.definitions.contains_key(&place) {
                self.take_cites(&mut found, &place);
                found.definitions.insert(place, by);
            }
        }
        found
    }

    /// Crates with exported functions.
    pub fn exporting(&self) -> BTreeSet<&str> {
        let exported = self.contracts.iter().filter(|it| it.exported);
        exported.map(|it| it.in_crate.as_str()).collect()
    }

    /// Whether a call is a function.
    pub fn has_call(&self, call: &Name) -> bool {
        let name = |it: &Contract| (it.in_crate.as_str(), it.name.as_str()) == *call;
        self.contracts.iter().any(name)
    }
}

/// `job_first` as `JobFirst`.
fn capitals(name: &str) -> String {
    let parts = name.split('_').map(|part| {
        let mut rest = part.chars();
        let first = rest.next().map(|c| c.to_ascii_uppercase());
        first.into_iter().chain(rest).collect::<String>()
    });
    parts.collect()
}
