use crate::measure::Sides;
use crate::{census, coefficients, contexts, layouts, lf_group, orders, records};

/// A row of the table: its name, and how its sides are made ready.
pub struct Bench {
    pub name: String,
    pub make: Box<dyn FnOnce() -> Sides>,
}

impl Bench {
    pub fn new(name: impl Into<String>, make: impl FnOnce() -> Sides + 'static) -> Self {
        Self {
            name: name.into(),
            make: Box::new(make),
        }
    }
}

/// The usual rows, or those that show how time grows with size.
pub fn all(growth: bool) -> Vec<Bench> {
    let rows = if growth {
        vec![
            layouts::growth(),
            records::growth(),
            contexts::growth(),
            coefficients::growth(),
            census::growth(),
        ]
    } else {
        vec![
            layouts::benches(),
            records::benches(),
            contexts::benches(),
            orders::benches(),
            coefficients::benches(),
            census::benches(),
            lf_group::benches(),
        ]
    };
    rows.into_iter().flatten().collect()
}

/// The names that contain one of the parts, all of them where there are no parts. A part that no
/// name contains is an error.
pub fn chosen(rows: &[Bench], parts: &[String]) -> Result<Vec<String>, String> {
    let names = || rows.iter().map(|row| &row.name);
    let unknown = |part: &&String| !names().any(|name| name.contains(*part));
    if let Some(part) = parts.iter().find(unknown) {
        let names: Vec<&str> = names().map(String::as_str).collect();
        return Err(format!("no such row: {part}; rows:\n{}", names.join("\n")));
    }
    let wanted = |name: &&String| parts.is_empty() || parts.iter().any(|part| name.contains(part));
    Ok(names().filter(wanted).cloned().collect())
}

#[cfg(test)]
mod tests {
    use super::*;

    fn choose(growth: bool, parts: &[&str]) -> Result<Vec<String>, String> {
        let parts: Vec<String> = parts.iter().copied().map(String::from).collect();
        chosen(&all(growth), &parts)
    }

    #[test]
    fn rows_are_chosen_by_parts_of_their_names() {
        let names = choose(false, &["256 x 256 blocks", "orders, default"]).expect("rows");
        assert!(names.iter().any(|name| name.starts_with("cut, 256")));
        assert!(names.iter().any(|name| name == "orders, default"));
        assert!(!names.iter().any(|name| name.starts_with("contexts")));
        assert!(choose(true, &["layout, 1,024 x 1,024"]).is_ok_and(|names| names.len() == 1));
    }

    #[test]
    fn a_row_that_does_not_exist_is_an_error() {
        let problem = choose(false, &["cut", "cutt"]).expect_err("no such row");
        assert!(problem.starts_with("no such row: cutt;"));
        assert!(problem.contains("\norders, default"), "rows are named");
        assert!(choose(false, &["layout, 1,024 x 1,024"]).is_err());
    }

    #[test]
    fn names_differ_and_can_stand_in_a_table() {
        for growth in [false, true] {
            let names = choose(growth, &[]).expect("all rows");
            let different: std::collections::HashSet<&String> = names.iter().collect();
            assert_eq!(different.len(), names.len());
            assert!(names.iter().all(|name| !name.contains('|')));
        }
    }
}
