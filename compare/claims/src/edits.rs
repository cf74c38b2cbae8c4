//! Must-fail edits (crates/CRATE/must-fail/LABEL.edit): the rows of docs/CLAIMS.md that each cites,
//! whether it can be made, and which functions of its crate it changes.

use std::collections::{BTreeMap, BTreeSet};

use crate::contracts::{begins, gives};
use crate::definitions::{of_code, part_of_name};

/// The files of a crate, by their place in it.
pub type Files = BTreeMap<String, String>;

pub struct Edit {
    /// The rows that its first line cites.
    pub rows: Vec<String>,
    changes: Vec<Change>,
}

struct Change {
    file: String,
    old: String,
    new: String,
}

impl Edit {
    pub fn read(text: &str) -> Self {
        let first = text
            .lines()
            .next()
            .and_then(|line| line.strip_prefix("claims: "));
        let rows = first.into_iter().flat_map(|rows| rows.split(','));
        let mut changes = Vec::new();
        let (mut file, mut old) = ("", "");
        for line in text.lines() {
            if let Some(named) = line.strip_prefix("file: ") {
                file = named;
            } else if let Some(text) = line.strip_prefix("old: ") {
                old = text;
            } else if let Some(new) = line.strip_prefix("new:") {
                changes.push(Change {
                    file: file.to_string(),
                    old: old.to_string(),
                    new: new.strip_prefix(' ').unwrap_or(new).to_string(),
                });
            }
        }
        Self {
            rows: rows.map(|row| row.trim().to_string()).collect(),
            changes,
        }
    }

    /// Why it cannot be made: each old text stands once in its file, the changes before it made.
    pub fn fault(&self, files: &Files) -> Option<String> {
        let mut changed = Files::new();
        for change in &self.changes {
            let file = &change.file;
            let text = changed.get(file).or(files.get(file));
            let found = text.map_or(0, |text| text.matches(&change.old).count());
            let text = match (text, found) {
                (Some(text), 1) => text.replacen(&change.old, &change.new, 1),
                _ => return Some(format!("its old text stands {found} times in {file}")),
            };
            changed.insert(file.clone(), text);
        }
        self.changes
            .is_empty()
            .then(|| "it changes nothing".to_string())
    }

    fn changes(&self, item: &Item) -> bool {
        let mut changes = self.changes.iter();
        changes.any(|change| item.file == change.file && item.text.contains(&change.old))
    }
}

/// A function or a constant of a crate, with its contract and body.
struct Item<'a> {
    file: &'a str,
    name: &'a str,
    public: bool,
    text: String,
}

fn items(files: &Files) -> Vec<Item<'_>> {
    let mut items: Vec<Item> = Vec::new();
    let code = files.iter().filter(|(file, _)| file.starts_with("src/"));
    for (file, source) in code {
        let mut given = None;
        for line in source.lines() {
            given = gives(line.trim()).map(|(of, _)| of).or(given);
            let function = begins(line.trim());
            let declared = of_code(line).first().copied();
            if let Some(name) = declared {
                let promised = given.take() == Some(name);
                items.push(Item {
                    file,
                    name,
                    public: function.is_some_and(|(_, public)| public || promised),
                    text: String::new(),
                });
            }
            if let Some(item) = items.last_mut().filter(|item| item.file == file) {
                item.text += line;
                item.text += "\n";
            }
        }
    }
    items
}

/// How many edits try each public function of a crate: those of its own text, and of what it calls
/// or names in its crate.
pub fn tries(files: &Files, edits: &[&Edit]) -> Vec<(String, usize)> {
    let items = items(files);
    let public = items.iter().filter(|item| item.public);
    let count = |item: &Item| {
        let below = below(&items, item.name);
        let tried = |edit: &&&Edit| {
            let mut items = items.iter().filter(|item| below.contains(item.name));
            items.any(|item| edit.changes(item))
        };
        edits.iter().filter(tried).count()
    };
    public
        .map(|item| (item.name.to_string(), count(item)))
        .collect()
}

/// A name, and what its text names of these items, and what theirs name.
fn below<'a>(items: &'a [Item], name: &'a str) -> BTreeSet<&'a str> {
    let (mut found, mut open) = (BTreeSet::new(), vec![name]);
    while let Some(name) = open.pop() {
        if found.insert(name) {
            let texts = items.iter().filter(|item| item.name == name);
            let words = texts.flat_map(|item| item.text.split(|c| !part_of_name(c)));
            let words: BTreeSet<_> = words.collect();
            let named = items.iter().map(|item| item.name);
            open.extend(named.filter(|name| words.contains(name)));
        }
    }
    found
}

#[cfg(test)]
mod tests {
    use super::*;

    const CODE: &str =
        "const T: u8 = 1;\npub fn f() -> u8\n{\n    g(T)\n}\nfn g(x: u8) -> u8 {\n    \
                        x + 2\n}\npub fn h() -> u8 {\n    3\n}\n";

    fn files() -> Files {
        Files::from([("src/lib.rt".to_string(), CODE.to_string())])
    }

    fn edit(old: &str) -> Edit {
        Edit::read(&format!(
            "claims: a-1, b-2\nfile: src/lib.rt\nold: {old}\nnew: y\n"
        ))
    }

    #[test]
    fn an_edit_cites_rows() {
        assert_eq!(edit("x + 2").rows, ["a-1", "b-2"]);
        assert!(Edit::read("file: a\nold: b\nnew: c\n").rows.is_empty());
    }

    #[test]
    fn an_edit_can_be_made() {
        assert_eq!(edit("x + 2").fault(&files()), None);
        let told = |old| edit(old).fault(&files()).unwrap();
        assert_eq!(told("x + 3"), "its old text stands 0 times in src/lib.rt");
        assert_eq!(told("pub fn"), "its old text stands 2 times in src/lib.rt");
    }

    #[test]
    fn a_second_change_follows_the_first() {
        let text = "file: src/lib.rt\nold: g(T)\nnew: k(T)\nold: k(T)\nnew:\n";
        assert_eq!(Edit::read(text).fault(&files()), None);
        assert!(Edit::read("file: src/lib.rt\n").fault(&files()).is_some());
    }

    #[test]
    fn a_function_is_tried_by_edits_below_it() {
        let (two, three, one) = (edit("x + 2"), edit("    3"), edit("u8 = 1"));
        let found = tries(&files(), &[&two, &three, &one]);
        assert_eq!(found, [("f".to_string(), 2), ("h".to_string(), 1)]);
    }
}
