//! Files that the documents name: each is there.

use std::path::Path;

/// Folders of the repository that a document may name a file of.
const FOLDERS: [&str; 13] = [
    "crates/",
    "compare/",
    "docs/",
    "hostile/",
    "bindings/",
    "include/",
    "examples/",
    "c/",
    "man/",
    "packaging/",
    "tests/",
    "tools/",
    ".ci/",
];

/// Texts in backquotes.
pub fn quoted(page: &str) -> impl Iterator<Item = &str> {
    page.split('`').skip(1).step_by(2)
}

/// The words of the glossary's first column that stand in backquotes.
pub fn glossary(page: &str) -> impl Iterator<Item = &str> {
    let part = page.lines().skip_while(|line| *line != "## Glossary");
    let part = part.skip(1).take_while(|line| !line.starts_with("## "));
    let rows = part.filter_map(|line| line.strip_prefix('|')?.split('|').next());
    rows.flat_map(quoted)
}

/// The files that a page names and that are not there. A file of `specs/` or `proofs/` is one of this
/// crate.
pub fn missing<'a>(root: &Path, page: &'a str, in_crate: &str) -> Vec<&'a str> {
    let there = |named: &str| match of_crate(named) {
        true => root.join("crates").join(in_crate).join(named).exists(),
        false => root.join(named).exists(),
    };
    let named = quoted(page).filter(|named| names_file(named));
    named.filter(|named| !there(named)).collect()
}

fn of_crate(text: &str) -> bool {
    text.starts_with("specs/") || text.starts_with("proofs/")
}

/// Whether a text is the place of one file or folder: no command, no pattern.
fn names_file(text: &str) -> bool {
    let of_folder = FOLDERS.iter().any(|folder| text.starts_with(folder));
    let of_crate = of_crate(text) && text.ends_with(".antt");
    (of_folder || of_crate) && !text.contains([' ', '*']) && !text.contains("NAME")
}

#[cfg(test)]
mod tests {
    use super::*;

    #[test]
    fn a_glossary_has_words() {
        let page = "`a`\n## Glossary\n| Word |\n| b, `c`: `d` | `e` |\n## More\n| `f` |\n";
        assert_eq!(glossary(page).collect::<Vec<_>>(), ["c", "d"]);
    }

    #[test]
    fn files_that_are_named_are_there() {
        let root = Path::new(env!("CARGO_MANIFEST_DIR")).join("../..");
        let found = |page| missing(&root, page, "bits");
        let there = "`.ci/run`, `crates/*/specs`, `compare/claims`, `f`, `specs/`, `crates/NAME/x`";
        assert!(found(there).is_empty());
        assert_eq!(
            found("in `.ci/none`, `specs/None.antt`, `proofs/None.antt`"),
            [".ci/none", "specs/None.antt", "proofs/None.antt"]
        );
    }
}
