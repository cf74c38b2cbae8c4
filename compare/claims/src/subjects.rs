//! Crates by subject: crates.txt and docs/ARCHITECTURE.md have the same headings with the same
//! crates below them, and nothing in crates.txt points upwards.

/// Subjects in turn, each with its crates.
type Subjects<'a> = Vec<(&'a str, Vec<&'a str>)>;

/// The standard library, which no list names.
pub const STD: &str = "std";

/// Libraries that stand in no repository.
pub const KIT: [&str; 5] = ["check", "libc", "io", "os", "bytes"];

pub fn faults(list: &str, page: &str) -> Vec<String> {
    let mut faults = upwards(list);
    let (listed, told) = (of_list(list), of_page(page));
    for (subject, crates) in &listed {
        if !told.contains(&(subject, crates.clone())) {
            faults.push(format!(
                "docs/ARCHITECTURE.md has other crates under {subject}"
            ));
        }
    }
    let subjects = |subjects: &Subjects| {
        subjects
            .iter()
            .map(|(name, _)| name.to_string())
            .collect::<Vec<_>>()
    };
    if subjects(&listed) != subjects(&told) {
        faults.push("crates.txt and docs/ARCHITECTURE.md have other headings".to_string());
    }
    faults
}

/// A line of the list, `NAME: LIBRARIES` or `NAME staticlib: LIBRARIES`: the name, and its libraries.
fn listed(line: &str) -> Option<(&str, &str)> {
    let (name, libraries) = line.split_once(':')?;
    Some((name.strip_suffix(" staticlib").unwrap_or(name), libraries))
}

/// Headings `# SUBJECT` above lines of crates; a heading without crates is none.
fn of_list(list: &str) -> Subjects<'_> {
    let mut subjects = Subjects::new();
    for line in list.lines() {
        if let Some(subject) = line.strip_prefix("# ") {
            subjects.push((subject, Vec::new()));
        } else if let (Some((name, _)), Some(last)) = (listed(line), subjects.last_mut()) {
            last.1.push(name);
        }
    }
    subjects.retain(|(_, crates)| !crates.is_empty());
    subjects
}

/// Headings `### SUBJECT` above rows that begin with a crate.
fn of_page(page: &str) -> Subjects<'_> {
    let mut subjects = Subjects::new();
    let part = page.lines().skip_while(|line| *line != "## Crates").skip(1);
    for line in part.take_while(|line| !line.starts_with("## ")) {
        if let Some(subject) = line.strip_prefix("### ") {
            subjects.push((subject, Vec::new()));
        } else if let (Some(row), Some(last)) = (line.strip_prefix("| `"), subjects.last_mut()) {
            last.1.extend(row.split('`').next());
        }
    }
    subjects
}

/// Libraries that a crate names before their own line.
fn upwards(list: &str) -> Vec<String> {
    let mut above = KIT.to_vec();
    let mut faults = Vec::new();
    for (name, libraries) in list.lines().filter_map(listed) {
        if name.starts_with('#') {
            continue;
        }
        let later = libraries
            .split_whitespace()
            .filter(|it| !above.contains(it));
        faults.extend(
            later.map(|library| format!("crates.txt: {name} points upwards, to {library}")),
        );
        above.push(name);
    }
    faults
}

#[cfg(test)]
mod tests {
    use super::*;

    #[test]
    fn both_have_the_same_headings() {
        let list = "# NAME: all\n\n# A\na: io\nb: a\n\n# B\nc staticlib: b\n";
        let page =
            "### Z\n## Crates\n### A\ntext\n| `a` | `x` |\n| `b` | |\n### B\n| `c` | |\n## C\n";
        assert!(faults(list, page).is_empty());
        let told = "docs/ARCHITECTURE.md has other crates under A";
        assert_eq!(faults(list, &page.replace("| `b` | |\n", "")), [told]);
        assert_eq!(faults(list, &page.replace("### B", "### D")).len(), 2);
        let told = "crates.txt: b points upwards, to c";
        assert_eq!(faults(&list.replace("b: a", "b: c"), page), [told]);
    }
}
