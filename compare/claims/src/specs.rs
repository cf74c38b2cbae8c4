//! Files of definitions (.antt), as far as the reading list needs them: what each declares, whether
//! that is a definition or a law, and which names its meaning rests on.

use std::collections::{BTreeMap, BTreeSet};

use crate::definitions::without;
use crate::subjects::{KIT, STD};
use crate::words::{bound, cited, words};

/// A file of definitions: its crate and its name.
pub type Named = (String, String);

/// A name of a file of definitions.
#[derive(Clone, Debug, PartialEq, Eq, PartialOrd, Ord)]
pub struct Place {
    pub file: Named,
    pub name: String,
}

impl std::fmt::Display for Place {
    fn fmt(&self, to: &mut std::fmt::Formatter) -> std::fmt::Result {
        write!(to, "{}: `{}`", path_of(&self.file), self.name)
    }
}

/// A file as the repository has it: one of `specs/`, or one that begins with `proofs/`.
pub fn path_of((in_crate, file): &Named) -> String {
    let part = if file.starts_with("proofs/") {
        ""
    } else {
        "specs/"
    };
    format!("crates/{in_crate}/{part}{file}.antt")
}

#[derive(Default)]
pub struct File {
    /// How many lines it has.
    pub lines: usize,
    pub imports: Imports,
    pub declared: BTreeMap<String, Declaration>,
}

/// Where the names come from that a file imports: by name, or by a module's other name.
#[derive(Default)]
pub struct Imports {
    names: BTreeMap<String, Source>,
    modules: BTreeMap<String, Module>,
}

/// What a module is.
#[derive(Clone)]
enum Module {
    /// A file of definitions.
    File(Named),
    /// A type that the code of a crate declares.
    Type(Named),
    Kit,
}

/// Where a word comes from.
#[derive(Clone, PartialEq, Eq, Debug)]
pub enum Source {
    /// A file of definitions.
    Definitions(Place),
    /// A type that the code of a crate declares: the crate and its name.
    Type(Named),
    Kit,
}

#[derive(Default)]
pub struct Declaration {
    /// A definition; else a law.
    pub defines: bool,
    /// Of a definition all that it cites, of a law what its statement cites.
    pub cites: BTreeSet<String>,
    /// How many lines it takes, what stands above it in words left out.
    pub lines: usize,
}

/// What a declaration is read from, line by line.
struct Item<'a> {
    heads: Vec<String>,
    marked: bool,
    name: &'a str,
    depth: usize,
    /// The signature, and behind it each clause.
    pieces: Vec<String>,
    members: Vec<&'a str>,
    lines: usize,
}

/// Reads a file line by line.
#[derive(Default)]
struct Reader<'a> {
    file: File,
    /// Sections that are open: how far in each stands, and its head.
    sections: Vec<(usize, String)>,
    open_head: bool,
    item: Option<Item<'a>>,
}

impl File {
    pub fn read(source: &str) -> Self {
        let mut reader = Reader::default();
        for line in source.lines().map(without_comment) {
            let (depth, line) = (line.len() - line.trim_start().len(), line.trim());
            if !line.is_empty() {
                reader.take(depth, line);
            }
        }
        reader.end_item();
        reader.file.lines = source.lines().count();
        reader.file
    }
}

impl<'a> Reader<'a> {
    fn take(&mut self, depth: usize, line: &'a str) {
        if self.open_head {
            let (_, head) = self.sections.last_mut().expect("a section");
            *head += &format!(" {line}");
            self.open_head = !line.ends_with("where");
            return;
        }
        let around = self
            .sections
            .iter()
            .take_while(|(section, _)| *section < depth);
        let inside = around.count();
        let last = self.sections[..inside].last();
        if depth == last.map_or(0, |(section, _)| section + 2) {
            self.sections.truncate(inside);
            self.take_member(depth, line);
        } else if let Some(item) = &mut self.item {
            item.go_on(depth, line);
        }
    }

    /// A line of the file itself or of a section, no further in.
    fn take_member(&mut self, depth: usize, line: &'a str) {
        if self.file.imports.take(line) {
            return;
        }
        if line.starts_with("module ") {
            self.sections.push((depth, line.to_string()));
            self.open_head = !line.ends_with("where");
        } else if let Some(next) = Item::begin(line, depth, &self.sections) {
            self.end_item();
            self.item = Some(next);
        } else if let Some(item) = &mut self.item {
            item.pieces.push(line.to_string());
            item.lines += 1;
        }
    }

    /// Constructors of data stand for the data.
    fn end_item(&mut self) {
        let Some(item) = self.item.take() else { return };
        for member in &item.members {
            let of_data = Declaration {
                defines: true,
                cites: BTreeSet::from([item.name.to_string()]),
                lines: 0,
            };
            self.file.declared.insert(member.to_string(), of_data);
        }
        // Sections may declare one name each: it stands for all of these.
        let found = item.declaration();
        for name in spoken(item.name) {
            let declared = self.file.declared.entry(name.to_string()).or_default();
            declared.defines |= found.defines;
            declared.cites.extend(found.cites.iter().cloned());
            declared.lines += found.lines;
        }
    }
}

impl<'a> Item<'a> {
    /// What a line begins: a signature, data or a record.
    fn begin(line: &'a str, depth: usize, sections: &[(usize, String)]) -> Option<Self> {
        let rest = without(line, &["abbrev ", "unfoldable "]);
        let marked = rest.len() < line.len();
        let rest = without(rest, &["pub "]);
        let plain = without(rest, &["data ", "record "]);
        let name = plain.split_whitespace().next()?;
        let declares = plain.len() < rest.len();
        let signature = rest
            .strip_prefix(name)
            .is_some_and(|rest| rest.starts_with(" : "));
        (declares || signature).then(|| Self {
            heads: sections.iter().map(|(_, head)| head.clone()).collect(),
            marked: marked || declares,
            name,
            depth,
            pieces: vec![plain.to_string()],
            members: Vec::new(),
            lines: 1,
        })
    }

    /// A line further in than the declaration: of data also a constructor, which is a name for the
    /// data.
    fn go_on(&mut self, depth: usize, line: &'a str) {
        let last = self.pieces.last_mut().expect("a piece");
        *last += &format!(" {line}");
        self.lines += 1;
        let of_data = self.pieces.len() == 1 && self.pieces[0].contains(" where ");
        if let Some((name, _)) = line.split_once(" : ") {
            let is_name = !name.contains(|c: char| c.is_whitespace() || "(){}".contains(c));
            if of_data && is_name && depth == self.depth + 2 {
                self.members.push(name);
            }
        }
    }

    fn declaration(&self) -> Declaration {
        let defines = self.marked || ends_in_values(&self.pieces[0]);
        let said = if defines {
            &self.pieces[..]
        } else {
            &self.pieces[..1]
        };
        let heads: Vec<_> = self.heads.iter().flat_map(|head| words(head)).collect();
        let taken = bound(&heads);
        let mut cites: BTreeSet<_> = cited(&heads, &taken)
            .into_iter()
            .map(String::from)
            .collect();
        for (place, piece) in said.iter().enumerate() {
            let words = words(piece);
            let mut taken: BTreeSet<_> = taken.union(&bound(&words)).copied().collect();
            if place > 0 {
                // What a clause is given: its patterns' names, and behind a `where` other patterns.
                let left = words.iter().take_while(|&&word| word != "=");
                taken.extend(left.skip(1));
            }
            cites.extend(cited(&words, &taken).into_iter().map(String::from));
        }
        cites.remove(self.name);
        Declaration {
            defines,
            cites,
            lines: self.lines,
        }
    }
}

/// Whether a signature without a mark is that of a definition: it ends in numbers, truth values,
/// lists, floats or types. A law ends in an equation or in another proposition.
fn ends_in_values(signature: &str) -> bool {
    let words = words(signature);
    let mut depth = 0;
    let mut result = Vec::new();
    for word in words.into_iter().skip(2) {
        match word {
            "(" | "{" => depth += 1,
            ")" | "}" => depth -= 1,
            "→" if depth == 0 => result.clear(),
            _ => (),
        }
        if word != "→" || depth > 0 {
            result.push(word);
        }
    }
    let is_relation = |word: &&str| ["≡", "≢", "≤", "<", "×", "⊎"].contains(word);
    let value = ["ℕ", "ℤ", "Bool", "List", "Float", "Type"];
    let first = result.iter().find(|word| **word != "(");
    first.is_some_and(|word| value.contains(word)) && !result.iter().any(is_relation)
}

impl Imports {
    /// Takes a line that imports (`use A.{b, c as d}`, `use A as e`, in a source of code behind
    /// `ghost`), or declares nothing; says whether it is one.
    pub fn take(&mut self, line: &str) -> bool {
        let line = without(line, &["ghost ", "pub "]);
        let Some(rest) = line.strip_prefix("use ") else {
            return ["mod ", "infix", "open "]
                .iter()
                .any(|word| line.starts_with(word));
        };
        let rest = rest.trim_end_matches(';');
        if let Some((module, names)) = rest.split_once(".{") {
            let module = module_of(module);
            for name in names.trim_end_matches('}').split(',').map(str::trim) {
                let (name, here) = name.split_once(" as ").unwrap_or((name, name));
                let source = source_of(&module, name);
                for word in spoken(here) {
                    self.names.insert(word.to_string(), source.clone());
                }
            }
        } else if let Some((module, here)) = rest.split_once(" as ") {
            self.modules.insert(here.to_string(), module_of(module));
        }
        true
    }

    /// Where a word comes from, be it `name`, `module.name` or `Type.constructor`. None where the
    /// file imports no such word.
    pub fn source(&self, word: &str) -> Option<Source> {
        if let Some(source) = self.names.get(word) {
            return Some(source.clone());
        }
        if let Some((module, name)) = word.rsplit_once('.') {
            if is_path(word) {
                return Some(source_of(&module_of(module), name));
            }
            if let Some(module) = self.modules.get(module) {
                return Some(source_of(module, name));
            }
        }
        self.names.get(word.split_once('.')?.0).cloned()
    }
}

fn source_of(module: &Module, name: &str) -> Source {
    match module.clone() {
        Module::File(file) => Source::Definitions(Place {
            file,
            name: name.to_string(),
        }),
        Module::Type(of_code) => Source::Type(of_code),
        Module::Kit => Source::Kit,
    }
}

/// Whether a word is a whole path to a name.
fn is_path(word: &str) -> bool {
    let roots = ["Rattle.", "lib.", "mathlib.", "native.", "Prim.", "borrow."];
    roots.iter().any(|root| word.starts_with(root))
}

/// How a name is spoken: an operator, `◌&&◌`, by what stands between the gaps.
pub fn spoken(name: &str) -> Vec<&str> {
    if name.contains('◌') {
        name.split('◌').filter(|part| !part.is_empty()).collect()
    } else {
        vec![name]
    }
}

/// `Rattle.CRATE.specs.FILE` is a file of definitions, `.specs.laws.FILE` and `.proofs.FILE` are files
/// of laws, `.specs.declared.TYPE` is a type of the code.
fn module_of(path: &str) -> Module {
    let found = path.strip_prefix("Rattle.");
    let Some((in_crate, file)) = found.and_then(|path| path.split_once('.')) else {
        return Module::Kit;
    };
    if in_crate == STD || KIT.contains(&in_crate) {
        return Module::Kit;
    }
    let file = file.strip_prefix("specs.").unwrap_or(file);
    let of_crate = |name: &str| (in_crate.to_string(), name.replace('.', "/"));
    match file.strip_prefix("declared.") {
        Some(path) => {
            let path = path.trim_end_matches(".TheVariants");
            Module::Type(of_crate(path.rsplit('.').next().unwrap_or(path)))
        }
        None => Module::File(of_crate(file)),
    }
}

fn without_comment(line: &str) -> &str {
    match line.find("--") {
        Some(place) if line[..place].trim().is_empty() || line[..place].ends_with(' ') => {
            line[..place].trim_end()
        }
        _ => line,
    }
}

#[cfg(test)]
mod tests {
    use super::*;

    fn cites(source: &str, name: &str) -> Vec<String> {
        let file = File::read(source);
        file.declared[name].cites.iter().cloned().collect()
    }

    #[test]
    fn marks_and_values_make_definitions() {
        let source =
            "abbrev pub a : X\na = b\nunfoldable c : X\nc = d\npub data E : Type 0 where\n\
                      \x20 F : E\npub record G (x : X) : Type 0 where\n  pub h : X\n\
                      pub i : (x : X) → List ℕ\ni x = j\npub k : (x : X) → f x ≡ ℕ\nk x = refl\n\
                      l : X → Layout x\nl x = y\nm : (X → ℕ) → (List ℕ ≡ x) × Y\nm x = y\n";
        let file = File::read(source);
        let defines = |name: &&str| file.declared[*name].defines;
        assert!(["a", "c", "E", "F", "G", "i"]
            .iter()
            .all(|name| defines(&name)));
        assert!(!["k", "l", "m"].iter().any(|name| defines(&name)));
        assert!(!file.declared.contains_key("h"));
    }

    #[test]
    fn definitions_cite_their_clauses_and_laws_their_statement() {
        let source = "abbrev pub f : A → B\nf (c d) = g d\n  where\n    h : K\n    h = i\n\
                      pub law : (x : A) → P x ≡ q\nlaw x = by r\n";
        assert_eq!(
            cites(source, "f"),
            ["A", "B", "K", "g", "i"].map(String::from)
        );
        assert_eq!(cites(source, "law"), ["A", "P", "q", "≡"].map(String::from));
    }

    #[test]
    fn a_section_belongs_to_what_stands_in_it() {
        let source = "module _ (x : A)\n    (ok : P x) where\n  abbrev f : B\n  f = g x\n\
                      \x20 module _ (y : C) where\n    pub law : Q y\n    law = r\nabbrev h : D\nh = x\n";
        assert_eq!(
            cites(source, "f"),
            ["A", "B", "P", "g"].map(|word| word.to_string())
        );
        assert_eq!(
            cites(source, "law"),
            ["A", "C", "P", "Q"].map(|word| word.to_string())
        );
        assert_eq!(cites(source, "h"), ["D", "x"].map(|word| word.to_string()));
    }

    #[test]
    fn a_name_of_two_sections_stands_for_both() {
        let source = "module _ (x : A) where\n  abbrev f : B\n  f = g\n\
                      module _ (y : C) where\n  abbrev f : D\n  f = h\n";
        let expected = ["A", "B", "C", "D", "g", "h"].map(String::from);
        assert_eq!(cites(source, "f"), expected);
    }

    #[test]
    fn names_come_from_modules() {
        let mut imports = Imports::default();
        assert!(imports.take("use Rattle.bits.specs.Reads.{a, b as c}"));
        assert!(imports.take("ghost use Rattle.bits.specs.Bits.{d};"));
        assert!(imports.take("use Rattle.layout.specs.Walk as walk"));
        assert!(imports.take("use Rattle.refusal.specs.declared.Said.{Said}"));
        assert!(imports.take("use Rattle.layout.specs.laws.Walk.{e}"));
        assert!(imports.take("use lib.Dec.{◌&&◌}"));
        assert!(!imports.take("f : use"));
        let told = |word| match imports.source(word) {
            Some(Source::Definitions(place)) => place.to_string(),
            other => format!("{other:?}"),
        };
        assert_eq!(told("c"), "crates/bits/specs/Reads.antt: `b`");
        assert_eq!(told("d"), "crates/bits/specs/Bits.antt: `d`");
        assert_eq!(told("e"), "crates/layout/specs/laws/Walk.antt: `e`");
        assert_eq!(told("walk.rows"), "crates/layout/specs/Walk.antt: `rows`");
        let path = "Rattle.layout.specs.Walk.rows";
        assert_eq!(told(path), "crates/layout/specs/Walk.antt: `rows`");
        assert_eq!(told("b"), "None");
        assert_eq!(told("Said.Refused"), r#"Some(Type(("refusal", "Said")))"#);
        assert_eq!(told("&&"), "Some(Kit)");
    }
}
